"""Values that are paths, by the rows of docs/paths.md."""
import os
import unittest
from pathlib import Path
from unittest import mock

from gixcfg import Config, NotOfType, Refused


class Paths(unittest.TestCase):
    def test_shorthands(self) -> None:
        for value, path in (("~/x", "/h/x"), ("~/", "/h/"), ("~//x", "/x"), ("%(prefix)/x", "/p/x"), ("~u", "~u"), ("/a/b", "/a/b"), ("x", "x")):
            config = Config()
            config["a.k"] = value
            self.assertEqual(config.get_path("a.k", home="/h", prefix=Path("/p")), path)

    def test_the_home_directory_of_the_user(self) -> None:
        with mock.patch.dict(os.environ, {"HOME": "/home/ada"}):
            self.assertEqual(Config.parse("[a]\n\tk = ~/x\n").get_path("a.k"), "/home/ada/x")

    def test_the_last_value_counts_and_a_missing_one_is_the_default(self) -> None:
        config = Config.parse("[a]\n\tk = 1\n\tk = \"2 ; 3\"\n")
        self.assertEqual(config.get_path("a.k"), "2 ; 3")
        self.assertIsNone(config.get_path("a.none"))
        self.assertEqual(config.get_path("b.none", "/d"), "/d")
        self.assertEqual(Config.parse("[a]\nk=1\nk\n").get_path("a.k", "/d"), "/d")

    def test_what_is_no_path(self) -> None:
        config = Config.parse(b"[a]\n\tprefix = %(prefix)/x\n\tempty =\n\tuser = ~v/x\n\tbytes = ~/\xff\n\tname = ~\xff/x\n")
        for name, number in (("prefix", 12), ("empty", 12), ("user", 12), ("bytes", 13), ("name", 14)):
            with self.assertRaises(NotOfType) as caught:
                config.get_path(("a", name), "/d", home="/h")
            self.assertEqual(caught.exception.number, number, name)
            self.assertIn(f"a.{name}: ", str(caught.exception))

    def test_a_directory_that_is_not_utf8(self) -> None:
        with self.assertRaises(Refused) as caught:
            Config.parse("[a]\n\tk = ~/x\n").get_path("a.k", home="/\udcff")
        self.assertEqual(caught.exception.number, 101)


if __name__ == "__main__":
    unittest.main()
