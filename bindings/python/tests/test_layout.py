"""Texts that are formatted, by the rows of docs/layout.md."""
import unittest

from gixcfg import Config, ParseError, normalize


class Layout(unittest.TestCase):
    def test_rows_of_the_usual_layout(self) -> None:
        for text, formatted in (
            ("[a]\nk = v", "[a]\n\tk = v\n"), ("  # c", "# c\n"), ("[B.C] l=1", '[B.c]l = 1\n'), ("[a] b c=d;x", "[a]b c = d ;x\n"),
            ("[a]\nk = x\\\n  y\n", "[a]\n\tk = x\\\n  y\n"), ("[a] k # c", "[a]k # c\n"), ("", ""),
        ):
            self.assertEqual(normalize(text), formatted, text)

    def test_lines_end_as_the_first_or_as_asked_for(self) -> None:
        self.assertEqual(normalize("[a]\r\nk=1\n"), "[a]\r\n\tk = 1\r\n")
        self.assertEqual(normalize("[a]\r\nk=1\n", newline="\n"), "[a]\n\tk = 1\n")
        self.assertEqual(normalize("[a]\nk=1\n", newline="\r\n"), "[a]\r\n\tk = 1\r\n")

    def test_indents(self) -> None:
        for indent in ("", "\t", "\t\t", "    "):
            self.assertEqual(normalize("[a]\n \tk = v\n", indent=indent), f"[a]\n{indent}k = v\n")

    def test_what_else_can_be_said(self) -> None:
        text = "\n\n  # c\n[a]\nk=1\n\n\n\nj=2"
        self.assertEqual(normalize(text), "\n\n# c\n[a]\n\tk = 1\n\n\n\n\tj = 2\n")
        self.assertEqual(normalize(text, root_indent="\t", spaces=False), "\n\n\t# c\n[a]\n\tk=1\n\n\n\n\tj=2\n")
        limited = normalize(text, root_indent=None, final_newline=False, max_leading_blank_lines=1, max_blank_lines=0)
        self.assertEqual(limited, "\n  # c\n[a]\n\tk = 1\n\tj = 2")

    def test_bytes_give_bytes_and_those_that_are_no_text_are_kept(self) -> None:
        self.assertEqual(normalize(b"[a]\nk=\xff\n"), b"[a]\n\tk = \xff\n")
        self.assertEqual(normalize("[a]\nk=\udcff\n"), "[a]\n\tk = \udcff\n")

    def test_the_layout_means_the_same(self) -> None:
        text = '[a]b c=d;x\n\n\n# y\n[A "\\"q"] k = "1 "\n'
        self.assertEqual(Config.parse(normalize(text)), Config.parse(text))

    def test_what_is_refused(self) -> None:
        with self.assertRaises(ParseError) as caught:
            normalize("[a]\n\tk = v\n= 1\n")
        self.assertEqual((caught.exception.number, caught.exception.line, caught.exception.column, caught.exception.offset), (1, 3, 1, 11))
        self.assertRaises(ValueError, normalize, "", indent="\t ")
        self.assertRaises(ValueError, normalize, "", indent="x")
        self.assertRaises(ValueError, normalize, "", newline="\r")
        self.assertRaises(ValueError, normalize, "", root_indent="x")
        self.assertRaises(ValueError, normalize, "", max_blank_lines=-1)


if __name__ == "__main__":
    unittest.main()
