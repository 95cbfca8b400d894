"""Look-ups in the sections of some places, and in those that are trusted."""
import os
import tempfile
import unittest
from pathlib import Path
from unittest import mock

from gixcfg import Config, NotOfType, Source


class Sources(unittest.TestCase):
    def setUp(self) -> None:
        directory = tempfile.TemporaryDirectory()
        self.addCleanup(directory.cleanup)
        top = Path(directory.name)
        self.user, self.local = top / ".gitconfig", top / "repository/config"
        self.local.parent.mkdir()
        self.user.write_text("[a]\n\tk = user\n\tword = two\n\tbool = yes\n\tint = 2k\n[u]\n\tk = 1\n", encoding="utf-8")
        self.local.write_text("[a]\n\tk = local\n\tword = 1\n\tbool = no\n\tint = 3\n", encoding="utf-8")
        variables = {"HOME": str(top), "GIT_CONFIG_NOSYSTEM": "1", "GIT_CONFIG_COUNT": "1", "GIT_CONFIG_KEY_0": "a.k", "GIT_CONFIG_VALUE_0": "env"}
        patch = mock.patch.dict(os.environ, variables, clear=True)
        patch.start()
        self.addCleanup(patch.stop)
        self.config = Config.load_repository(self.local.parent)

    def test_values(self) -> None:
        config = self.config
        self.assertEqual(config.get("a.k"), "env")
        self.assertEqual(config.get("a.k", sources=[Source.USER, Source.LOCAL]), "local")
        self.assertEqual(config.get("a.k", sources={Source.USER}), "user")
        self.assertEqual(config.get_all("a.k", sources=Source), ["user", "local", "env"])
        self.assertEqual(config.get_all("a.k", sources=[Source.USER, Source.ENV]), ["user", "env"])

    def test_types(self) -> None:
        user, local = [Source.USER], [Source.LOCAL]
        self.assertEqual((self.config.get_bool("a.bool"), self.config.get_bool("a.bool", sources=user)), (False, True))
        self.assertEqual((self.config.get_int("a.int", sources=local), self.config.get_int("a.int", sources=user)), (3, 2048))
        self.assertEqual(self.config.get_int("a.word", sources=local), 1)
        self.assertRaises(NotOfType, self.config.get_int, "a.word", sources=user)
        self.assertRaises(NotOfType, self.config.get_bool, "a.word", sources=user)

    def test_what_no_section_that_is_kept_has(self) -> None:
        config, other = self.config, [Source.WORKTREE]
        self.assertEqual((config.get("a.k", "d", sources=other), config.get_all("a.k", sources=other)), ("d", []))
        self.assertEqual((config.get_bool("a.bool", True, sources=other), config.get_int("a.int", 5, sources=other)), (True, 5))
        self.assertIsNone(config.get("u.k", sources=[Source.LOCAL]))
        self.assertIsNone(config.get("a.k", sources=[]))

    def test_trust(self) -> None:
        config = self.config
        places = [place for place, section in enumerate(config.sections()) if section.origin.source == Source.LOCAL]
        self.assertEqual(len(places), 1)
        config.edit_section(places[0]).set_trusted(False)
        self.assertEqual([it.origin.is_trusted for it in config.sections()], [it.origin.source != Source.LOCAL for it in config.sections()])
        self.assertEqual(config.get_all("a.k", trusted_only=True), ["user", "env"])
        self.assertEqual(config.get_bool("a.bool", trusted_only=True), True)
        self.assertEqual(config.get_int("a.int", trusted_only=True), 2048)
        self.assertIsNone(config.get("a.k", sources=[Source.LOCAL], trusted_only=True))
        self.assertEqual(config.get("a.k", sources=[Source.LOCAL]), "local")
        config.edit_section(places[0]).set_trusted(True)
        self.assertEqual(config.get("a.k", sources=[Source.LOCAL], trusted_only=True), "local")

    def test_trust_is_not_written_and_an_editor_whose_section_is_gone_is_refused(self) -> None:
        config = Config.parse("[a]\n\tk = 1\n")
        editor = config.edit_section(0)
        editor.set_trusted(False)
        self.assertEqual(config.text, "[a]\n\tk = 1\n")
        config.remove_section(0)
        self.assertRaises(KeyError, editor.set_trusted, True)

    def test_where_sections_come_from(self) -> None:
        origins = [(it.origin.source, it.origin.path) for it in self.config.sections()]
        self.assertEqual(origins, [(Source.USER, str(self.user)), (Source.USER, str(self.user)), (Source.LOCAL, str(self.local)), (Source.ENV, None)])

    def test_a_source_is_its_name(self) -> None:
        self.assertEqual(Config().origin.source, "api")
        self.assertEqual((str(Source.ENV_OVERRIDE), f"{Source.USER}", Source("local")), ("env-override", "user", Source.LOCAL))
        self.assertRaises(ValueError, Source, "nowhere")


if __name__ == "__main__":
    unittest.main()
