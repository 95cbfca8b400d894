"""Edits: what they change, and what stays."""
import unittest
from typing import List, Tuple

from gixcfg import Config, Key, KeyNotFound, Refused


class Edits(unittest.TestCase):
    def test_set_keeps_all_else(self) -> None:
        config = Config.parse("# mine\n[core]\n  editor = vi ; was ed\n\n[user]\n\tname = A\n")
        self.assertEqual(config.set("core.editor", "emacs -nw"), "vi")
        self.assertEqual(config.text, "# mine\n[core]\n  editor = emacs -nw ; was ed\n\n[user]\n\tname = A\n")

    def test_set_makes_entry_and_section(self) -> None:
        config = Config()
        self.assertIsNone(config.set(("remote", "origin", "url"), "u"))
        config["remote", "origin", "fetch"] = " x"
        self.assertEqual(config["remote.origin.url"], "u")
        self.assertEqual(config["remote.origin.fetch"], " x")
        self.assertEqual(Config.parse(config.text)["remote.origin.fetch"], " x")

    def test_values_are_read_back(self) -> None:
        for value in ("", " a ", "a;b#c", 'quote " and \\ backslash', "tab\there", "two\nlines", "é\udcff"):
            config = Config()
            config["a.k"] = value
            self.assertEqual(config["a.k"], value)
            self.assertEqual(Config.parse(bytes(config))["a.k"], value)

    def test_names_that_cannot_be_written(self) -> None:
        refused: List[Tuple[Key, int]] = [(("a", "na_me"), 6), (("a b", "name"), 4), (("a", "b\nc", "name"), 5), (("a", "k\udcff"), 101)]
        for key, number in refused:
            config = Config.parse("[x]\n")
            with self.assertRaises(Refused) as caught:
                config.set(key, "v")
            self.assertEqual(caught.exception.number, number)
            self.assertEqual(config.text, "[x]\n")

    def test_add(self) -> None:
        config = Config.parse("[a]\n\tk = 1\n")
        config.add("a.k", "2")
        config.add("a.flag")
        self.assertEqual(config.text, "[a]\n\tk = 1\n\tk = 2\n\tflag\n")
        self.assertEqual(config.get_all("a.k"), ["1", "2"])
        self.assertIs(config.get_bool("a.flag"), True)
        self.assertRaises(KeyNotFound, config.add, "b.k", "1")

    def test_remove(self) -> None:
        config = Config.parse("[a]\n\tk = 1\n\tk = \"2\"\n")
        self.assertEqual(config.remove("a.k"), '"2"')
        self.assertEqual(config.text, "[a]\n\tk = 1\n")
        self.assertEqual(config.remove(("a", "k")), "1")
        self.assertRaises(KeyNotFound, config.remove, "a.k")
        self.assertRaises(KeyNotFound, config.remove, "b.k")

    def test_remove_all(self) -> None:
        text = "[a]\n\tk = 1\n\tj = 2 ; two\n\tK\n[b]\n\tk = 3\n[A]\n\tk = 4\n[a \"s\"]\n\tk = 5\n"
        config = Config.parse(text)
        del config["a.k"]
        self.assertEqual(config.text, "[a]\n\tj = 2 ; two\n[b]\n\tk = 3\n[A]\n[a \"s\"]\n\tk = 5\n")
        self.assertNotIn("a.k", config)
        for key in ("a.k", "none.k"):
            with self.assertRaises(KeyNotFound):
                del config[key]
        self.assertEqual((config.remove_all("a.k"), config.remove_all("a.j"), config.remove_all("a.s.k")), (0, 1, 1))

    def test_replace_all(self) -> None:
        config = Config.parse("[a]\n\tk = 1 ; one\n[b]\n[a]\n\tk = 2\n\tk = 3\n")
        config.replace_all("a.k", ["x", "y"])
        self.assertEqual(config.text, "[a]\n\tk = x ; one\n[b]\n[a]\n\tk = y\n")
        config.replace_all("a.k", ["1", 2, True])
        self.assertEqual(config.get_all("a.k"), ["1", "2", "true"])
        config.replace_all("a.k", [])
        # (a comment behind an entry stays, as with each removal)
        self.assertEqual(config.text, "[a]\n ; one\n[b]\n[a]\n")
        config.replace_all("c.s.k", ["1", "2"])
        self.assertEqual((config.get_all("c.s.k"), len(config.sections())), (["1", "2"], 4))
        self.assertRaises(Refused, config.replace_all, "a.k k", ["1"])

    def test_values_that_are_no_text(self) -> None:
        config = Config()
        config["a.yes"], config["a.no"], config["a.five"] = True, False, 5
        self.assertEqual(config.text, "[a]\n\tyes = true\n\tno = false\n\tfive = 5\n")
        self.assertEqual((config.get_bool("a.no"), config.get_int("a.five")), (False, 5))
        for value in (None, 1.5, b"x"):
            self.assertRaises(TypeError, config.set, "a.k", value)
        config.edit("a").set("no", True)
        self.assertEqual(config["a.no"], "true")

    def test_append(self) -> None:
        config = Config.parse("[a]\n\tk = 1\n")
        config.append(Config.parse("# more\n[a]\n\tk = 2\n"))
        self.assertEqual(config.text, "[a]\n\tk = 1\n# more\n[a]\n\tk = 2\n")
        config.append(config)
        self.assertEqual(config.get_all("a.k"), ["1", "2", "1", "2"])

    def test_copies_are_apart(self) -> None:
        config = Config.parse("[a]\n\tk = 1\n")
        other = config.copy()
        other["a.k"] = "2"
        self.assertEqual((config["a.k"], other["a.k"]), ("1", "2"))


class Places(unittest.TestCase):
    def setUp(self) -> None:
        self.config = Config.parse("[a]\n\tk = 1\n[b]\n  x = 1 ; one\n[a]\n\tk = 3\n")

    def test_entries_of_the_section_at_a_place(self) -> None:
        first = self.config.edit_section(0)
        first.add("n", "v", "why")
        self.assertEqual((first.set("k", "2"), first.set("m", " s")), ("1", None))
        self.assertEqual(self.config.text, "[a]\n\tk = 2\n\tn = v # why\n\tm = \" s\"\n[b]\n  x = 1 ; one\n[a]\n\tk = 3\n")
        self.assertEqual((first.pop(), first.remove("n")), (("m", " s"), "v"))
        self.assertRaises(KeyNotFound, first.remove, "n")
        self.assertRaises(Refused, first.add, "a b")

    def test_sections_at_a_place(self) -> None:
        self.config.edit_section(2).rename("c", "s")
        self.config.remove_section(0)
        self.assertEqual(self.config.text, '[b]\n  x = 1 ; one\n[c "s"]\n\tk = 3\n')
        self.assertRaises(Refused, self.config.edit_section(0).rename, "a b")
        self.assertRaises(IndexError, self.config.edit_section, 2)
        self.assertRaises(IndexError, self.config.remove_section, 2)

    def test_sections_by_name(self) -> None:
        self.config.edit("A").set("k", "4")
        self.config.edit("b").add("y", 2)
        self.assertEqual(self.config.text, "[a]\n\tk = 1\n[b]\n  x = 1 ; one\n  y = 2\n[a]\n\tk = 4\n")
        self.assertEqual(self.config.edit("b").section.entries, [("b", None, "x", "1"), ("b", None, "y", "2")])
        made = self.config.new_section("c", "s")
        made.add("flag")
        self.assertEqual(self.config.sections("c")[0][:3], ("c", "s", [("c", "s", "flag", None)]))
        self.config.rename_section(("a", None), ("d", "t"))
        self.assertEqual([it.place for it in self.config.sections("d")], [0, 2])
        for names, number in ((("none", None), 7), (("b", "x"), 8)):
            with self.assertRaises(KeyNotFound) as caught:
                self.config.edit(*names)
            self.assertEqual(caught.exception.number, number)
        self.assertRaises(KeyNotFound, self.config.rename_section, ("a", None), ("e", None))
        self.assertRaises(Refused, self.config.new_section, "a b")

    def test_last_entries_of_a_section(self) -> None:
        config = Config.parse("[a]\n\tk = 1\n\tj = 2\n\tk = 3\n\tk = 4\n")
        editor = config.edit_section(0)
        self.assertEqual((editor.remove_last("K", 2), editor.remove_last("k", 0)), (2, 0))
        self.assertEqual(config.text, "[a]\n\tk = 1\n\tj = 2\n")

    def test_values_that_are_there(self) -> None:
        config = Config.parse("[a]\n\tk = 1\n\tk = 2 ; two\n")
        config.set_existing("a.k", "3")
        self.assertRaises(KeyNotFound, config.set_existing, "a.j", "3")
        self.assertRaises(KeyNotFound, config.set_all, "b.k", ["3"])
        self.assertEqual(config.get_all("a.k"), ["1", "3"])
        config.set_all("a.k", ["x", " y", "z"])
        self.assertEqual(config.text, '[a]\n\tk = x\n\tk = " y" ; two\n')
        config.set_all("a.k", [])
        self.assertEqual(config.get_all("a.k"), ["x", " y"])

    def test_lines_of_a_section(self) -> None:
        config = Config.parse("[a]\n\tk = 1\n\tj = 2\n\tK = 3\n# of b\n[b]\n")
        editor = config.edit_section(0)
        editor.add_below("n", "4")
        self.assertEqual(config.text, "[a]\n\tk = 1\n\tj = 2\n\tK = 3\n\tn = 4\n# of b\n[b]\n")
        self.assertEqual((editor.remove_all("k"), editor.remove_all("none")), (2, 0))
        self.assertEqual(config.text, "[a]\n\tj = 2\n\tn = 4\n# of b\n[b]\n")
        config.edit_section(1).add_blank_line()
        self.assertEqual(config.text, "[a]\n\tj = 2\n\tn = 4\n# of b\n[b]\n\n")
        self.assertRaises(Refused, editor.add_below, "n n", "5")


if __name__ == "__main__":
    unittest.main()
