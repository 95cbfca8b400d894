"""All sections and entries at once: texts of any bytes, sections of one name, and where they come from."""
import tempfile
import unittest
from pathlib import Path

from gixcfg import Config


class Views(unittest.TestCase):
    def test_zeros_within_values(self) -> None:
        config = Config.parse(b'[a]\n\tone = x\0y\n\ttwo = "\0"\n\tthree\n[b "\xc3\xa4"]\n\tone = \0\xff\0 ; c\n')
        wanted = [("a", None, "one", "x\0y"), ("a", None, "two", "\0"), ("a", None, "three", None), ("b", "\u00e4", "one", "\0\udcff\0")]
        self.assertEqual(config.entries(), wanted)
        self.assertEqual([list(it.entries) for it in config.sections()], [wanted[:3], wanted[3:]])
        self.assertEqual(dict(config.items()), {it[:3]: it[3] or "" for it in wanted})
        self.assertEqual([config[it[:3]] for it in wanted], ["x\0y", "\0", "", "\0\udcff\0"])

    def test_several_sections_of_one_name(self) -> None:
        config = Config.parse('[a]\n\tk = 1\n[A "s"]\n\tk = 2\n[b]\n[A]\n\tK = 3\n\tj\n[a "S"]\n[a]\n')
        self.assertEqual([(it.name, it.subsection, len(it.entries), it.place) for it in config.sections()],
                         [("a", None, 1, 0), ("A", "s", 1, 1), ("b", None, 0, 2), ("A", None, 2, 3), ("a", "S", 0, 4), ("a", None, 0, 5)])
        self.assertEqual([it.place for it in config.sections("a")], [0, 1, 3, 4, 5])
        self.assertEqual([tuple(it) for it in config.entries()],
                         [("a", None, "k", "1"), ("a", "s", "k", "2"), ("a", None, "k", "3"), ("a", None, "j", None)])
        self.assertEqual(dict(config.items()), {("a", None, "k"): "3", ("a", "s", "k"): "2", ("a", None, "j"): ""})
        config.edit("a").add("n", "4")
        self.assertEqual(config.text, '[a]\n\tk = 1\n[A "s"]\n\tk = 2\n[b]\n[A]\n\tK = 3\n\tj\n[a "S"]\n[a]\n\tn = 4\n')

    def test_origins_in_the_middle(self) -> None:
        with tempfile.TemporaryDirectory() as directory:
            main, inner, last = (Path(directory).resolve() / it for it in ("main", "\u00e4 inner", "last"))
            main.write_text(f'[a]\n[include]\n\tpath = "{inner.name}"\n[b]\n\tk = 1\n[include]\n\tpath = last\n[c]\n', encoding="utf-8")
            inner.write_text("[i]\n[j]\n\tk = 2\n", encoding="utf-8")
            last.write_text("[l]\n", encoding="utf-8")
            found = Config.load_with_includes(main).sections()
        wanted = [("a", main, 0), ("include", main, 0), ("i", inner, 1), ("j", inner, 1), ("b", main, 0), ("include", main, 0), ("l", last, 1), ("c", main, 0)]
        self.assertEqual([(it.name, it.origin.path, it.origin.level) for it in found], [(name, str(path), level) for name, path, level in wanted])


if __name__ == "__main__":
    unittest.main()
