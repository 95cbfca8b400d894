"""The configuration of the machine and of the user, of variables and of a repository."""
import os
import tempfile
import unittest
from pathlib import Path
from typing import Dict
from unittest import mock

from gixcfg import Config, IncludeError, ParseError, Refused, VariableError


class Environment(unittest.TestCase):
    def setUp(self) -> None:
        directory = tempfile.TemporaryDirectory()
        self.addCleanup(directory.cleanup)
        self.directory = Path(directory.name)
        self.set({})

    def set(self, variables: Dict[str, str]) -> None:
        """The variables of the process are these."""
        patch = mock.patch.dict(os.environ, {"HOME": str(self.directory / "home"), **variables}, clear=True)
        patch.start()
        self.addCleanup(patch.stop)

    def entries(self, *entries: str) -> None:
        """Variables set these entries, each as `key=value`."""
        variables = {"GIT_CONFIG_COUNT": str(len(entries))}
        for number, entry in enumerate(entries):
            variables[f"GIT_CONFIG_KEY_{number}"], _, variables[f"GIT_CONFIG_VALUE_{number}"] = entry.partition("=")
        self.set(variables)

    def put(self, name: str, text: str) -> Path:
        path = self.directory / name
        path.parent.mkdir(parents=True, exist_ok=True)
        path.write_text(text, encoding="utf-8")
        return path

    def test_the_machine_and_the_user(self) -> None:
        self.put("etc/gitconfig", "[a]\n\tk = machine\n\tmachine = 1\n")
        self.put("home/.config/git/config", "[a]\n\tk = folder\n")
        self.put("home/.gitconfig", "[a]\n\tk = user\n[include]\n\tpath = ~/more\n")
        self.put("home/more", "[a]\n\tmore\n")
        config = Config.load_globals(self.put("installed", "[a]\n\tk = installed\n"), self.directory)
        self.assertEqual(config.get_all("a.k"), ["installed", "machine", "folder", "user"])
        self.assertEqual((config["a.machine"], config.get_bool("a.more"), config.path), ("1", True, None))
        self.set({"GIT_CONFIG_NOSYSTEM": "1", "GIT_CONFIG_GLOBAL": str(self.put("other", "[b]\n\tk = 1\n"))})
        # (it stands for both of the user's files, and is read once)
        self.assertEqual([it.name for it in Config.load_globals(None, self.directory).sections()], ["b"])
        self.set({"GIT_CONFIG_NOSYSTEM": "1", "GIT_CONFIG_GLOBAL": str(self.directory / "none")})
        self.assertEqual(Config.load_globals(None, self.directory).text, "")

    def test_entries_of_variables(self) -> None:
        self.assertEqual(Config.load_environment().text, "")
        self.entries("core.editor=vi", "Remote.Or.igin.url=a b")
        config = Config.load_environment()
        self.assertEqual((config["core.editor"], config["remote", "Or.igin", "url"]), ("vi", "a b"))

    def test_refused_variables(self) -> None:
        for variables, number, about in [
            ({"GIT_CONFIG_COUNT": "x"}, 23, "GIT_CONFIG_COUNT"),
            ({"GIT_CONFIG_COUNT": "1"}, 24, "GIT_CONFIG_KEY_0"),
            ({"GIT_CONFIG_COUNT": "1", "GIT_CONFIG_KEY_0": "a.b"}, 26, "GIT_CONFIG_VALUE_0"),
            ({"GIT_CONFIG_COUNT": "1", "GIT_CONFIG_KEY_0": "ab", "GIT_CONFIG_VALUE_0": ""}, 25, "GIT_CONFIG_KEY_0"),
            ({"GIT_CONFIG_COUNT": "1", "GIT_CONFIG_KEY_0": "a.b", "GIT_CONFIG_VALUE_0": "\udcff"}, 22, "GIT_CONFIG_VALUE_0"),
        ]:
            self.set(variables)
            with self.assertRaises(VariableError) as caught:
                Config.load_environment()
            self.assertEqual(caught.exception.number, number)
            self.assertTrue(caught.exception.reason.startswith(about), caught.exception.reason)
        self.entries("a.b c=1")
        self.assertRaises(Refused, Config.load_environment)

    def test_a_repository(self) -> None:
        git = self.directory / "repo/.git"
        self.put("etc/gitconfig", "[a]\n\tk = machine\n")
        self.put("home/.gitconfig", "[a]\n\tk = user\n")
        self.put("repo/.git/config", '[a]\n\tk = repo\n[extensions]\n\tworktreeConfig\n[includeIf "gitdir:repo/"]\n\tpath = ../../more\n')
        self.put("repo/.git/config.worktree", "[a]\n\tk = worktree\n")
        self.put("more", "[a]\n\tk = more\n")
        self.entries("a.k=env")
        config = Config.load_repository(git, None, self.directory)
        self.assertEqual(config.get_all("a.k"), ["machine", "user", "repo", "more", "worktree", "env"])
        (git / "config.worktree").write_text("[a\n", encoding="utf-8")
        with self.assertRaises(ParseError) as refused:
            Config.load_repository(git, None, self.directory)
        self.assertEqual((refused.exception.path, refused.exception.line), (str(git / "config.worktree"), 1))
        with self.assertRaises(IncludeError) as caught:
            Config.load_repository(self.directory, None, self.directory)
        self.assertEqual(caught.exception.number, 21)


if __name__ == "__main__":
    unittest.main()
