"""Files that include others."""
import os
import tempfile
import unittest
from pathlib import Path

from gixcfg import Config, IncludeError, Includes, ParseError


class Loads(unittest.TestCase):
    def setUp(self) -> None:
        directory = tempfile.TemporaryDirectory()
        self.addCleanup(directory.cleanup)
        self.directory = Path(directory.name)

    def put(self, name: str, text: str) -> Path:
        path = self.directory / name
        path.parent.mkdir(exist_ok=True)
        path.write_text(text, encoding="utf-8")
        return path

    def test_sections_stand_where_they_are_included(self) -> None:
        path = self.put("a", "[x]\n\tk = 1\n[include]\n\tpath = more/b\n[x]\n\tk = 3\n")
        self.put("more/b", "[x]\n\tk = 2\n[include]\n\tpath = c\n")
        self.put("more/c", "[y]\n\tk = 4\n")
        config = Config.load_with_includes(path)
        self.assertEqual(config.get_all("x.k"), ["1", "2", "3"])
        self.assertEqual(config["y.k"], "4")
        self.assertEqual([it.name for it in config.sections()], ["x", "include", "x", "include", "y", "x"])
        self.assertRaises(ValueError, config.save)

    def test_origins(self) -> None:
        path = self.put("a", "[include]\n\tpath = b\n")
        self.put("b", "[x]\n")
        self.assertEqual(Config.load_with_includes(path).origin, ("api", 0, True, str(path)))
        self.assertEqual(Config.parse("[x]\n").origin, ("api", 0, True, None))

    def test_what_is_no_file_is_left_out(self) -> None:
        path = self.put("a", "[include]\n\tpath = none\n\tpath = .\n[x]\n\tk = 1\n")
        self.assertEqual(Config.load_with_includes(path)["x.k"], "1")

    def test_home_and_conditions(self) -> None:
        path = self.put("a", '[include]\n\tpath = ~/h\n[includeIf "gitdir:repo/"]\n\tpath = r\n[includeIf "onbranch:main"]\n\tpath = m\n')
        self.put("home/h", "[h]\n\tk\n")
        self.put("r", "[r]\n\tk\n")
        self.put("m", "[m]\n\tk\n")
        (self.directory / "repo/.git").mkdir(parents=True)
        plain = Config.load_with_includes(path, Includes(home=self.directory / "home"))
        self.assertEqual([it.name for it in plain.sections()], ["include", "h", "includeIf", "includeIf"])
        given = Includes(git_folder=self.directory / "repo/.git", branch="refs/heads/main", home=self.directory / "home")
        whole = Config.load_with_includes(path, given)
        self.assertEqual([it.name for it in whole.sections()], ["include", "h", "includeIf", "r", "includeIf", "m"])

    def test_errors(self) -> None:
        with self.assertRaises(IncludeError) as caught:
            Config.load_with_includes(self.directory / "none")
        self.assertEqual(caught.exception.number, 21)
        path = self.put("a", "[include]\n\tpath = b\n")
        self.put("b", "[x]\n\tk = \"1\n")
        with self.assertRaises(ParseError) as refused:
            Config.load_with_includes(path)
        self.assertEqual((refused.exception.path, refused.exception.line), (str(self.directory / "b"), 2))
        self.put("b", "[x]\n\tk = v\n= 1\n")
        with self.assertRaises(ParseError) as placed:
            Config.parse("[include]\n\tpath = %s\n" % (self.directory / "b")).resolve_includes()
        self.assertEqual((placed.exception.number, placed.exception.line, placed.exception.column, placed.exception.offset), (1, 3, 1, 11))
        self.assertEqual(str(placed.exception), f"{self.directory / 'b'}:3:1: {placed.exception.reason}")
        self.put("b", "[include]\n\tpath = a\n")
        with self.assertRaises(IncludeError) as deep:
            Config.load_with_includes(path)
        self.assertEqual(deep.exception.number, 15)

    @unittest.skipIf(os.geteuid() == 0, "root opens each file")
    def test_file_that_does_not_open(self) -> None:
        path = self.put("a", "[include]\n\tpath = b\n")
        self.put("b", "").chmod(0)
        with self.assertRaises(IncludeError) as caught:
            Config.load_with_includes(path)
        self.assertEqual(caught.exception.number, 19)
        self.assertIn(str(self.directory / "b"), str(caught.exception))

    def test_file_that_is_there(self) -> None:
        self.put("b", "[y]\n\tk = 2\n")
        config = Config.parse(f"[include]\n\tpath = {self.directory}/b\n[x]\n\tk = 1\n")
        config.resolve_includes()
        self.assertEqual([it.name for it in config.sections()], ["include", "y", "x"])
        relative = Config.parse("[include]\n\tpath = b\n")
        with self.assertRaises(IncludeError) as caught:
            relative.resolve_includes()
        self.assertEqual(caught.exception.number, 16)
        self.assertEqual(relative.text, "[include]\n\tpath = b\n")


if __name__ == "__main__":
    unittest.main()
