"""A Config as Python's own types are: a mapping that is copied, pickled, shown and closed."""
import copy
import pickle
import subprocess
import sys
import tempfile
import unittest
from collections.abc import MutableMapping
from concurrent.futures import ProcessPoolExecutor
from pathlib import Path
from typing import Callable, Dict, List, Optional
from unittest import mock

import gixcfg
from gixcfg import Config, ConfigError, KeyNotFound, Locked, Name, ParseError, Refused, Source

TEXT = '# mine\n[core]\n\teditor = vi ; was ed\n\tbare\n[remote "o.x"]\n\turl = 1\n\turl = 2\n'


class Mapping(unittest.TestCase):
    def setUp(self) -> None:
        self.config = Config.parse(TEXT)

    def test_keys_values_and_items(self) -> None:
        config = self.config
        self.assertIsInstance(config, MutableMapping)
        self.assertEqual(list(config), [("core", None, "editor"), ("core", None, "bare"), ("remote", "o.x", "url")])
        self.assertEqual([str(it) for it in config], ["core.editor", "core.bare", "remote.o.x.url"])
        self.assertEqual((len(config), bool(config), bool(Config())), (3, True, False))
        self.assertEqual(dict(config), {Name("core", None, "editor"): "vi", Name("core", None, "bare"): "", Name("remote", "o.x", "url"): "2"})
        self.assertEqual(list(config.values()), ["vi", "", "2"])
        self.assertEqual([config[key] for key in config.keys()], [value for _key, value in config.items()])
        self.assertEqual([it.key for it in config.entries()][-2:], [("remote", "o.x", "url")] * 2)

    def test_items_are_what_look_ups_find(self) -> None:
        # (an entry without `=` that is its section's last leaves the value to the sections before)
        config = Config.parse("[a]\n\tk = 1\n[A]\n\tK\n[a]\n\tb\n\tk = 2\n\tk\n[c]\n\tn\n[c \"S\"]\n\tn = x\n[C]\n\tn = y\n")
        items = [(("a", None, "k"), "1"), (("a", None, "b"), ""), (("c", None, "n"), "y"), (("c", "S", "n"), "x")]
        self.assertEqual(list(config.items()), items)
        self.assertEqual([(key, config[key]) for key in config], items)
        self.assertEqual((list(config.values()), len(config.items()), len(config.values())), (["1", "", "y", "x"], 4, 4))
        self.assertTrue((Name("c", "S", "n"), "x") in config.items() and "y" in config.values() and "2" not in config.values())
        found = config.items()
        config["a.k"] = "3"
        self.assertEqual((list(found)[0], list(Config().items())), ((("a", None, "k"), "3"), []))

    def test_changes(self) -> None:
        config = self.config
        self.assertEqual((config.pop("remote.o.x.url"), config.pop("remote.o.x.url", None)), ("2", None))
        self.assertRaises(KeyError, config.pop, "none.k")
        self.assertEqual((config.setdefault("core.editor", "x"), config.setdefault("core.new", "y")), ("vi", "y"))
        config.update({"core.editor": "ed", ("a", None, "k"): "1"})
        self.assertEqual((config["core.editor"], config["a.k"]), ("ed", "1"))
        other = Config()
        other.update(config)
        self.assertEqual(dict(other), dict(config))
        config.clear()
        self.assertEqual((len(config), config.text), (0, '# mine\n[core]\n ; was ed\n[remote "o.x"]\n[a]\n'))

    def test_types_of_defaults(self) -> None:
        # (each is what mypy takes it to be)
        text: str = self.config.get("core.none", "d")
        maybe: Optional[str] = self.config.get("core.none")
        number: int = self.config.get_int("core.none", 3)
        is_so: bool = self.config.get_bool("core.none", False)
        path: str = self.config.get_path("core.none", "/")
        self.assertEqual((text, maybe, number, is_so, path), ("d", None, 3, False, "/"))

    def test_shown(self) -> None:
        self.assertEqual(repr(self.config), "<gixcfg.Config, 2 sections>")
        self.config.path = "/x"
        self.config.edit_section(1)
        self.config.remove_section(1)
        self.assertEqual(repr(self.config), "<gixcfg.Config of '/x', 1 section>")
        self.assertEqual(repr(self.config.edit("core")), "<gixcfg.SectionEditor of the section at 0 of <gixcfg.Config of '/x', 1 section>>")

    def test_closed(self) -> None:
        with self.config as config:
            self.assertEqual(config["core.editor"], "vi")
        self.assertEqual(repr(config), "<gixcfg.Config, closed>")
        config.close()
        calls: List[Callable[[], object]] = [lambda: config["core.editor"], lambda: "core.editor" in config, config.sections,
                                             lambda: config.set("a.k", "1")]
        for call in calls:
            with self.assertRaises(Refused) as caught:
                call()
            self.assertEqual(caught.exception.number, 102)


class Copies(unittest.TestCase):
    def test_copies_are_apart(self) -> None:
        config = Config.parse(TEXT)
        config.path = "/x"
        for made in (copy.copy(config), copy.deepcopy(config), copy.deepcopy({"of": config})["of"]):
            self.assertEqual((made, made.path), (config, "/x"))
            made["core.editor"] = "ed"
            made.append(config)
            self.assertFalse(made == config)
            self.assertEqual(config["core.editor"], "vi")
        del made
        self.assertEqual(config.text, TEXT)

    def test_pickled(self) -> None:
        with tempfile.TemporaryDirectory() as directory:
            path = Path(directory) / "config"
            path.write_text(TEXT)
            for config in (Config.parse(TEXT), Config.load(path), Config.load(path, source=Source.LOCAL)):
                config.edit_section(1).set_trusted(False)
                made = pickle.loads(pickle.dumps(config))
                self.assertEqual((made, made.text, made.path, made.origin), (config, config.text, config.path, config.origin))
                self.assertEqual(made.sections(), config.sections())
                made["core.editor"] = "ed"
                self.assertEqual(config["core.editor"], "vi")

    def test_what_can_not_be_pickled(self) -> None:
        with tempfile.TemporaryDirectory() as directory:
            path = Path(directory) / "config"
            path.write_text("[include]\n\tpath = more\n")
            (Path(directory) / "more").write_text("[a]\n")
            variables: Dict[str, str] = {"GIT_CONFIG_COUNT": "1", "GIT_CONFIG_KEY_0": "a.k", "GIT_CONFIG_VALUE_0": "1"}
            with mock.patch.dict("os.environ", variables):
                made = (Config.load_with_includes(path), Config.load_environment())
            for config in made:
                self.assertRaises(pickle.PicklingError, pickle.dumps, config)
                self.assertEqual(copy.deepcopy(config).sections(), config.sections())

    def test_errors(self) -> None:
        errors = [Locked(17, "another program edits the file", "/x.lock"), KeyNotFound(9, "a.k: missing"), ConfigError(3, "too long")]
        for error in errors:
            made = pickle.loads(pickle.dumps(error))
            self.assertEqual((type(made), str(made), made.args), (type(error), str(error), error.args))
        refused = parse_error("[a\n")
        refused.path = "/x"
        made = pickle.loads(pickle.dumps(refused))
        self.assertEqual(vars(made), vars(refused))
        self.assertEqual(str(made), str(refused))

    def test_errors_of_another_process(self) -> None:
        with ProcessPoolExecutor(1) as pool:
            with self.assertRaises(ParseError) as caught:
                pool.submit(Config.parse, "[a\n").result()
        self.assertEqual(caught.exception.line, 1)


class Module(unittest.TestCase):
    def test_help_without_the_library(self) -> None:
        program = ("import gixcfg, pydoc\nassert 'replace_all' in pydoc.plain(pydoc.render_doc(gixcfg))\ntry:\n    gixcfg.Config()\n"
                   "except ImportError as error:\n    print(error)\n")
        variables = {"GIXCFG_LIBRARY": "/nowhere/libgix_config.so.0", "PYTHONPATH": str(Path(gixcfg.__file__).parents[1])}
        said = subprocess.run([sys.executable, "-c", program], env=variables, stdout=subprocess.PIPE, check=True, text=True).stdout
        self.assertTrue(said.startswith("gixcfg: the library for C can't be loaded: /nowhere/libgix_config.so.0"), said)

    def test_an_interpreter_without_a_lock(self) -> None:
        program = ("import sys\nsys._is_gil_enabled = lambda: False\nimport gixcfg\nfrom gixcfg._library import LIBRARY\n"
                   "assert gixcfg.Config.parse('[a]\\n\\tk = 1\\n')['a.k'] == '1'\nprint(LIBRARY.gix_config_value.__qualname__)\n")
        said = subprocess.run([sys.executable, "-c", program], stdout=subprocess.PIPE, check=True, text=True).stdout
        self.assertEqual(said, "locked.<locals>.made\n")


def parse_error(text: str) -> ParseError:
    try:
        Config.parse(text)
    except ParseError as error:
        return error
    raise AssertionError("the text is read")


if __name__ == "__main__":
    unittest.main()
