"""Files that are read, and what is found in them."""
import os
import tempfile
import threading
import unittest
from pathlib import Path
from typing import List

import gixcfg
from gixcfg import Config, KeyNotFound, NotOfType, ParseError, Refused, Source

TEXT = '''# mine
[core]
\teditor = vi ; was ed
\tbare
\tsize = 2k
\tname = "a \\"b\\" " c
[remote "or.igin"]
\turl = one
\tURL = two
'''


class Values(unittest.TestCase):
    def setUp(self) -> None:
        self.config = Config.parse(TEXT)

    def test_value_without_comment_quotes_and_escapes(self) -> None:
        self.assertEqual(self.config["core", "editor"], "vi")
        self.assertEqual(self.config["core", "name"], 'a "b"  c')

    def test_last_value_is_found(self) -> None:
        self.assertEqual(self.config["remote", "or.igin", "url"], "two")

    def test_section_and_name_have_no_case_and_subsection_has(self) -> None:
        self.assertEqual(self.config["REMOTE", "or.igin", "Url"], "two")
        self.assertIsNone(self.config.get(("remote", "Or.igin", "url")))

    def test_key_as_text(self) -> None:
        self.assertEqual(self.config["remote.or.igin.url"], "two")
        self.assertEqual(self.config["core.editor"], "vi")
        self.assertRaises(ValueError, self.config.get, "core")

    def test_all_values_in_order(self) -> None:
        self.assertEqual(self.config.get_all("remote.or.igin.url"), ["one", "two"])
        self.assertEqual(self.config.get_all("core.bare"), [""])
        self.assertEqual(self.config.get_all("core.none"), [])

    def test_look_ups_beside_each_other(self) -> None:
        values = {f"a.k{size}": "x" * size for size in (1, 10, 4096, 4097, 100000)}
        config = Config.parse("[a]\n\tnone =\n" + "".join(f"\t{key[2:]} = {value}\n" for key, value in values.items()))
        found = [(config[key], config.get("a.none"), config.get("a.k"), config[key]) for key in values]
        self.assertEqual(found, [(value, "", None, value) for value in values.values()])
        self.assertRaises(ValueError, config.get, "a")
        self.assertEqual(config["a.k10"], values["a.k10"])
        wrong: List[str] = []

        def look_up(key: str) -> None:
            wrong.extend(key for _ in range(300) if config[key] != values[key])
        threads = [threading.Thread(target=look_up, args=(key,)) for key in values]
        for thread in threads:
            thread.start()
        for thread in threads:
            thread.join()
        self.assertEqual(wrong, [])

    def test_what_is_missing(self) -> None:
        for key, number in (("none.x", 7), ("remote.x.url", 8), ("core.none", 9)):
            with self.assertRaises(KeyNotFound) as caught:
                self.config[key]
            self.assertEqual(caught.exception.number, number)
            self.assertIn(key, str(caught.exception))
            self.assertIsInstance(caught.exception, KeyError)
        self.assertEqual(self.config.get("core.none", "nano"), "nano")
        self.assertNotIn("core.none", self.config)
        self.assertIn("core.editor", self.config)

    def test_booleans(self) -> None:
        config = Config.parse("[a]\nyes = Yes\non = on\none = 1\nbare\nno = no\noff = OFF\nzero = 0\nempty =\nmaybe = maybe\n")
        for name in ("yes", "on", "one", "bare"):
            self.assertIs(config.get_bool(("a", name)), True, name)
        for name in ("no", "off", "zero", "empty"):
            self.assertIs(config.get_bool(("a", name)), False, name)
        self.assertIs(config.get_bool("a.none"), None)
        self.assertIs(config.get_bool("a.none", True), True)
        with self.assertRaises(NotOfType) as caught:
            config.get_bool("a.maybe")
        self.assertEqual(caught.exception.number, 11)

    def test_integers(self) -> None:
        config = Config.parse("[a]\nk = 2k\nm = -3m\nbig = 9223372036854775807\nlarge = 9223372036854775808\nword = two\n")
        self.assertEqual(config.get_int("a.k"), 2048)
        self.assertEqual(config.get_int("a.m"), -3145728)
        self.assertEqual(config.get_int("a.big"), 2**63 - 1)
        self.assertEqual(config.get_int("a.none", 5), 5)
        self.assertRaises(NotOfType, config.get_int, "a.large")
        self.assertRaises(NotOfType, config.get_int, "a.word")

    def test_entries(self) -> None:
        self.assertEqual(
            Config.parse('[A "X"]\nK = 1\nbare\n[b]\n[c]\nk =\n').entries(),
            [("a", "X", "k", "1"), ("a", "X", "bare", None), ("c", None, "k", "")],
        )

    def test_an_entry_without_value_is_there(self) -> None:
        config = Config.parse("[a]\n\tk = 1\n\tk\n\tbare\n[b]\n\tk = 1\n[b]\n\tk\n")
        for key in ("a.k", "a.bare"):
            self.assertEqual((config[key], config.get(key), config.get(key, "d"), key in config), ("", "", "", True), key)
        self.assertEqual((config.get_all("a.k"), config.get_bool("a.bare")), (["1", ""], True))
        self.assertEqual(config.get("a.bare", "d", sources=[Source.API]), "")
        self.assertEqual(config.get("a.bare", "d", sources=[Source.USER]), "d")
        # (of one section the last entry counts, of several the last with a value: docs/lookups.md)
        self.assertEqual(config["b.k"], "1")

    def test_what_is_no_key(self) -> None:
        for key in ("core", "", 5, None, ("core",), ("core", 5), ("a", "b", "c", "d"), ("core", None), "c\udcff.editor"):
            self.assertNotIn(key, self.config)
        self.assertIn(("core", None, "editor"), self.config)
        self.assertEqual(self.config["core", None, "editor"], "vi")


    def test_sections(self) -> None:
        config = Config.parse('[A "X"]\nK = 1\nbare\n[b]\n[c]\nk =\n[b]\nj = 2\n')
        sections = config.sections()
        self.assertEqual([(it.name, it.subsection) for it in sections], [("A", "X"), ("b", None), ("c", None), ("b", None)])
        self.assertEqual(sections[0].entries, [("a", "X", "k", "1"), ("a", "X", "bare", None)])
        self.assertEqual([len(it.entries) for it in sections], [2, 0, 1, 1])
        self.assertEqual([it for section in sections for it in section.entries], config.entries())
        self.assertEqual([it.place for it in sections], [0, 1, 2, 3])
        self.assertEqual([it.place for it in config.sections("B")], [1, 3])
        self.assertEqual(config.sections("none"), [])
        del config["b", "j"]
        self.assertEqual((sections[3].entries, config.sections()[3].entries), ([("b", None, "j", "2")], []))

    def test_sections_while_another_thread_edits(self) -> None:
        config, is_over = Config.parse("[a]\n\tk = 1\n[b]\n\tj = 2\n"), threading.Event()

        def edit() -> None:
            while not is_over.is_set():
                config.add("a.k", "1")
                config.remove("a.k")
        thread = threading.Thread(target=edit)
        thread.start()
        try:
            for _ in range(500):
                first, second = config.sections()
                self.assertEqual({it.name for it in first.entries}, {"k"})
                self.assertEqual(second.entries, [("b", None, "j", "2")])
        finally:
            is_over.set()
            thread.join()

    def test_sections_of_an_empty_file(self) -> None:
        self.assertEqual(Config().sections(), [])
        self.assertEqual(Config.parse("# a comment alone\n").sections(), [])


class Texts(unittest.TestCase):
    def test_text_comes_back_byte_for_byte(self) -> None:
        for text in (b"", b"\n", TEXT.encode(), b"[a]\r\n  k=v\r\n", b"[a]\nk = \xff\xfe # \x80\n", b"; c\n[a \"b\"]\n\tk\n"):
            config = Config.parse(text)
            self.assertEqual(bytes(config), text)
            self.assertEqual(config.text.encode("utf-8", "surrogateescape"), text)

    def test_missing_line_endings_are_put_in(self) -> None:
        self.assertEqual(Config.parse("[a] k = v").text, "[a]\n k = v\n")
        self.assertEqual(bytes(Config.parse(b"\xef\xbb\xbf[a]\n\tk\n")), b"[a]\n\tk\n")

    def test_bytes_that_are_no_text_are_kept(self) -> None:
        config = Config.parse(b"[a \"\xff\"]\nk = \xfe\n")
        self.assertEqual(config["a", "\udcff", "k"], "\udcfe")
        told = Config.parse(b"[A \"\xff\xc3\x84\"]\n\tK = \xfe\xc3\x84\n\tbare\n[b]\n\tk = 1\n")
        entries = [("a", "\udcff\xc4", "k", "\udcfe\xc4"), ("a", "\udcff\xc4", "bare", None), ("b", None, "k", "1")]
        self.assertEqual(told.entries(), entries)
        self.assertEqual([(it.name, it.subsection, it.entries) for it in told.sections()], [("A", "\udcff\xc4", entries[:2]), ("b", None, entries[2:])])
        self.assertEqual((list(told.items())[0], told.edit("A", "\udcff\xc4").section.place), ((entries[0][:3], "\udcfe\xc4"), 0))
        with self.assertRaises(Refused) as caught:
            config["a\udcff", "k"]
        self.assertEqual(caught.exception.number, 101)

    def test_place_of_a_refused_text(self) -> None:
        with self.assertRaises(ParseError) as caught:
            Config.parse("[a]\n\tk = v\n= 1\n")
        error = caught.exception
        self.assertEqual((error.number, error.line, error.column, error.offset), (1, 3, 1, 11))
        self.assertEqual(str(error), f"3:1: {error.reason}")
        self.assertIsInstance(error, gixcfg.ConfigError)

    def test_files(self) -> None:
        with tempfile.TemporaryDirectory() as directory:
            path = Path(directory) / "config"
            self.assertRaises(FileNotFoundError, Config.load, path)
            path.write_text(TEXT)
            config = Config.load(path)
            self.assertEqual((config["core.editor"], config.path), ("vi", str(path)))
            self.assertEqual(config.origin, ("api", 0, True, str(path)))
            self.assertEqual(Config.load(path, source=Source.USER).get("core.editor", sources=[Source.USER]), "vi")
            path.write_text("[a\n")
            with self.assertRaises(ParseError) as caught:
                Config.load(path)
            self.assertEqual(caught.exception.path, str(path))
            self.assertTrue(str(caught.exception).startswith(f"{path}:1:"))

    def test_load_follows_nothing_until_it_is_asked(self) -> None:
        with tempfile.TemporaryDirectory() as directory:
            path = Path(directory) / "config"
            text = "# c\n[include]\n\tpath = more\n\tpath = ~/none\n[includeIf \"onbranch:x\"]\n\tpath = more\n[a]\n\tk = 1\n"
            path.write_text(text)
            (Path(directory) / "more").write_text("[a]\n\tj = 2\n")
            config = Config.load(path)
            self.assertEqual((config.text, len(config.sections())), (text, 3))
            config.resolve_includes()
            self.assertEqual((config["a.j"], config.path), ("2", None))

    def test_names_that_are_no_text(self) -> None:
        with tempfile.TemporaryDirectory() as directory:
            path = os.path.join(os.fsencode(directory), b"\xff")
            with open(path, "wb") as file:
                file.write(b"[a]\n\tk = 1\n")
            config = Config.load(os.fsdecode(path))
            self.assertEqual((config["a.k"], config.path, config.origin.path), ("1", os.fsdecode(path), None))
            (Path(directory) / "config").write_bytes(b"[include]\n\tpath = \xff\n[a]\n\tk = 1\n")
            self.assertEqual(Config.load(Path(directory) / "config")["a.k"], "1")

    def test_many_files_are_freed(self) -> None:
        for _ in range(1000):
            config = Config.parse(TEXT)
            self.assertEqual(config.get_all("core.editor"), ["vi"])


if __name__ == "__main__":
    unittest.main()
