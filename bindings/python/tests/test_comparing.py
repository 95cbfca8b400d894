"""Two files, which say the same or don't."""
import unittest

from gixcfg import Config, Difference


class Equality(unittest.TestCase):
    def test_case_of_names_comments_and_blanks_do_not_count(self) -> None:
        one = Config.parse("# mine\n[Core]\n\tEditor = vi ; was ed\n")
        self.assertEqual(one, Config.parse('[core]\neditor="vi"\n'))
        self.assertEqual(one, one)
        self.assertEqual(one, one.copy())
        self.assertEqual(Config(), Config.parse("# a comment alone\n"))

    def test_values_sections_and_their_order_count(self) -> None:
        one = Config.parse("[a]\n\tk = 1\n[b]\n\tk = 2\n")
        for text in ("[a]\n\tk = 1\n[b]\n\tk = 3\n", "[b]\n\tk = 2\n[a]\n\tk = 1\n", "[a]\n\tk = 1\n", '[a "x"]\n\tk = 1\n[b]\n\tk = 2\n'):
            self.assertNotEqual(one, Config.parse(text), text)
        self.assertNotEqual(Config.parse('[a "X"]\n'), Config.parse('[a "x"]\n'))

    def test_edits_count(self) -> None:
        one = Config.parse("[a]\n\tk = 1\n")
        other = one.copy()
        other["a.k"] = "2"
        self.assertNotEqual(one, other)
        other["a.k"] = "1"
        self.assertEqual(one, other)

    def test_another_kind_is_not_equal_and_there_is_no_hash(self) -> None:
        self.assertNotEqual(Config.parse("[a]\n"), "[a]\n")
        self.assertRaises(TypeError, hash, Config())


class Differences(unittest.TestCase):
    def test_values_of_either_file_sorted_by_key(self) -> None:
        one = Config.parse('[user]\n\tname = A\n[core]\n\tBare\n\tsame = 1\n[remote "o"]\n\turl = x\n\turl = y\n')
        other = Config.parse('[CORE]\n\tsame = "1"\n[remote "o"]\n\turl = y\n[user]\n\tname = B\n\temail = b\n')
        self.assertEqual(one.differences(other), [
            Difference("core", None, "bare", [None], []),
            Difference("remote", "o", "url", ["x", "y"], ["y"]),
            Difference("user", None, "email", [], ["b"]),
            Difference("user", None, "name", ["A"], ["B"]),
        ])
        self.assertEqual([it[:3] + (it[4], it[3]) for it in one.differences(other)], other.differences(one))

    def test_no_differences(self) -> None:
        one = Config.parse("[a]\n\tk = 1\n[b]\n\tk = 2\n")
        self.assertEqual(one.differences(one), [])
        self.assertEqual(one.differences(one.copy()), [])
        self.assertEqual(one.differences(Config.parse("; other order\n[B]\nK=2\n[a]\nk=1\n")), [])
        self.assertEqual(Config().differences(Config()), [])

    def test_order_of_the_values_of_a_key_counts(self) -> None:
        one, other = Config.parse("[a]\n\tk = 1\n\tk = 2\n"), Config.parse("[a]\n\tk = 2\n\tk = 1\n")
        self.assertEqual(one.differences(other), [("a", None, "k", ["1", "2"], ["2", "1"])])

    def test_no_equals_sign_is_another_value_than_an_empty_one(self) -> None:
        self.assertEqual(Config.parse("[a]\n\tk\n").differences(Config.parse("[a]\n\tk =\n")), [("a", None, "k", [None], [""])])


if __name__ == "__main__":
    unittest.main()
