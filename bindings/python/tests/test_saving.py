"""Files that are saved."""
import os
import shutil
import stat
import subprocess
import tempfile
import unittest
from pathlib import Path
from unittest import mock

from gixcfg import Config, Locked

TEXT = "[core]\n\teditor = vi ; was ed\n"


class Saving(unittest.TestCase):
    def setUp(self) -> None:
        directory = tempfile.TemporaryDirectory()
        self.addCleanup(directory.cleanup)
        self.directory = Path(directory.name).resolve()
        self.path = self.directory / "config"
        self.path.write_text(TEXT)

    def names(self) -> "list[str]":
        return sorted(os.listdir(self.directory))

    def test_save_writes_what_was_loaded(self) -> None:
        os.chmod(self.path, 0o640)
        config = Config.load(self.path)
        config["core.editor"] = "ed"
        config.save()
        self.assertEqual(self.path.read_text(), "[core]\n\teditor = ed ; was ed\n")
        self.assertEqual(stat.S_IMODE(self.path.stat().st_mode), 0o640)
        self.assertEqual(self.names(), ["config"])

    def test_save_elsewhere(self) -> None:
        Config.load(self.path).save(self.directory / "other")
        self.assertEqual((self.directory / "other").read_text(), TEXT)
        self.assertRaises(ValueError, Config.parse(TEXT).save)

    def test_git_reads_it(self) -> None:
        if shutil.which("git") is None:
            self.skipTest("git isn't installed")
        with Config.editing(self.path) as config:
            config["remote", 'a "b" \\', "url"] = ' x;y "z" '
        said = subprocess.run(["git", "config", "-f", self.path, 'remote.a "b" \\.url'], stdout=subprocess.PIPE, check=True, text=True).stdout
        self.assertEqual(said, ' x;y "z" \n')

    def test_links_stay(self) -> None:
        link = self.directory / "link"
        link.symlink_to("config")
        with Config.editing(link) as config:
            self.assertEqual(self.names(), ["config", "config.lock", "link"])
            config["core.editor"] = "ed"
        self.assertTrue(link.is_symlink())
        self.assertEqual(Config.load(self.path)["core.editor"], "ed")

    def test_lock_of_another_program(self) -> None:
        lock = self.directory / "config.lock"
        lock.write_text("theirs")
        config = Config.load(self.path)
        config["core.editor"] = "ed"
        self.assertRaises(Locked, config.save)
        with self.assertRaises(FileExistsError):
            with Config.editing(self.path):
                self.fail("the lock is theirs")
        self.assertEqual((self.path.read_text(), lock.read_text()), (TEXT, "theirs"))

    def test_lock_stands_while_it_is_edited(self) -> None:
        with Config.editing(self.path) as config:
            self.assertEqual(self.names(), ["config", "config.lock"])
            self.assertRaises(Locked, config.save, self.path)
        self.assertEqual((self.names(), self.path.read_text()), (["config"], TEXT))

    def test_exception_saves_nothing(self) -> None:
        with self.assertRaises(RuntimeError):
            with Config.editing(self.path) as config:
                config["core.editor"] = "ed"
                raise RuntimeError
        self.assertEqual((self.names(), self.path.read_text()), (["config"], TEXT))

    def test_file_that_is_not_there_yet(self) -> None:
        with Config.editing(self.directory / "new") as config:
            config["a.k"] = "v"
        self.assertEqual(Config.load(self.directory / "new")["a.k"], "v")

    def test_save_raises_nothing_once_it_has_replaced(self) -> None:
        for call in ("sync_directory", "os.close"):
            config = Config.load(self.path)
            config["core.editor"] = call
            with mock.patch(f"gixcfg._saving.{call}", side_effect=PermissionError(13, "Permission denied")):
                config.save()
            self.assertEqual((self.names(), Config.load(self.path)["core.editor"]), (["config"], call))

    def test_a_directory_that_can_not_be_listed(self) -> None:
        if os.geteuid() == 0:
            self.skipTest("root may list each directory")
        config = Config.load(self.path)
        config["core.editor"] = "ed"
        os.chmod(self.directory, 0o300)
        try:
            config.save()
        finally:
            os.chmod(self.directory, 0o700)
        self.assertEqual(Config.load(self.path)["core.editor"], "ed")

    def test_a_lock_that_came_since_the_rename_is_not_removed(self) -> None:
        lock = self.directory / "config.lock"

        def replace(old: str, new: str) -> None:
            os.replace(old, new)
            lock.write_text("theirs")
        with mock.patch("gixcfg._saving.os.rename", side_effect=replace), mock.patch("gixcfg._saving.sync_directory", side_effect=OSError):
            Config.parse(TEXT).save(self.path)
        self.assertEqual(lock.read_text(), "theirs")

    def test_another_working_directory(self) -> None:
        before = os.getcwd()
        os.chdir(self.directory)
        try:
            config = Config.load("config")
        finally:
            os.chdir(before)
        config["core.editor"] = "ed"
        config.save()
        self.assertEqual((config.path, Config.load(self.path)["core.editor"]), (str(self.path), "ed"))

    def test_failing_disk_leaves_the_file(self) -> None:
        config = Config.load(self.path)
        config["core.editor"] = "ed"
        for call in ("fsync", "rename", "fchmod"):
            with mock.patch(f"os.{call}", side_effect=OSError(28, "No space left on device")):
                self.assertRaises(OSError, config.save)
            self.assertEqual((self.names(), self.path.read_text()), (["config"], TEXT))


if __name__ == "__main__":
    unittest.main()
