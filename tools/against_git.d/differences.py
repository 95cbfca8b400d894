"""What git 2.39 and the library are known to tell otherwise of the same files. docs/DIFFERENCES.md has the reason of each, by its name."""

from typing import List, NamedTuple, Optional, Tuple, Union

from listings import REFUSED
from trees import LOCAL, ROOT, SYSTEM, USER, Tree

Listing = Union[str, List[Tuple[str, bytes, bytes]]]


class Difference(NamedTuple):
    """A tree, the load that differs, what git and the library tell of it, and the version of git from which on both tell the same."""

    name: str
    load: str
    tree: Tree
    wanted: Tuple[Listing, Listing]
    gone_in: Optional[Tuple[int, int]] = None


def known_of(version):
    """The differences from a version of git."""
    return [difference for difference in DIFFERENCES if difference.gone_in is None or version < difference.gone_in]


def tree_of(files, **variables):
    """A tree of these files, with the home directory and the place of the machine's file as in made trees."""
    return Tree(files, {"HOME": ROOT + "/home", "GIT_CONFIG_SYSTEM": f"{ROOT}/{SYSTEM}", **variables})


def at(place, *entries):
    """Entries of a file, told as `name=value`."""
    return [(place, *(part.encode() for part in entry.split("=", 1))) for entry in entries]


def chain(count):
    """A file that includes one, which includes another, and so on: so many are included."""
    files = {f"home/{number}": f"[a] k = {number}\n[include] path = {number + 1}\n" for number in range(1, count)}
    return {USER: "[include] path = 1\n", **files, f"home/{count}": f"[a] k = {count}\n"}


def overrides(*entries):
    """Variables that override."""
    told = {"GIT_CONFIG_COUNT": str(len(entries))}
    for number, (name, value) in enumerate(entries):
        told.update({f"GIT_CONFIG_KEY_{number}": name, f"GIT_CONFIG_VALUE_{number}": value})
    return told


INCLUDES_X = at(USER, "include.path=x")
HAS_REMOTE = "hasconfig:remote.*.url:u"
ASKS_REMOTE = f'[includeIf "{HAS_REMOTE}"] path = x\n'
ASKED_REMOTE = at(USER, f"includeif.{HAS_REMOTE}.path=x")
V = at("home/x", "a.k=v")
HERE = at(USER, "a.k=1")

DIFFERENCES = [
    Difference("entries behind a path", "machine",
               tree_of({USER: "[include]\npath = x\nk = 1\npath = y\n", "home/x": "[a] k = v\n", "home/y": "[a] k = w\n"}),
               (INCLUDES_X + V + at(USER, "include.k=1", "include.path=y") + at("home/y", "a.k=w"),
                INCLUDES_X + at(USER, "include.k=1", "include.path=y") + V + at("home/y", "a.k=w"))),
    Difference("includes in another case", "machine",
               tree_of({USER: '[Include] path = x\n[includeif "hasconfig:**"] path = x\n', "home/x": "[a] k = v\n"}),
               (INCLUDES_X + V + at(USER, "includeif.hasconfig:**.path=x"), INCLUDES_X + at(USER, "includeif.hasconfig:**.path=x"))),
    Difference("the directory of a file that is linked", "repository",
               tree_of({USER: "[include] path = ~/../link/p3\n", "home/r/p3": '[includeIf "gitdir:./"] path = ~/x\n',
                        "home/x": "[a] k = v\n"}),
               (at(USER, "include.path=~/../link/p3") + at("home/../link/p3", "includeif.gitdir:./.path=~/x") + V,
                at(USER, "include.path=~/../link/p3") + at("home/../link/p3", "includeif.gitdir:./.path=~/x"))),
    Difference("remotes of other files", "repository",
               tree_of({USER: ASKS_REMOTE, "home/x": "[a] k = v\n", LOCAL: '[remote "o"] url = u\n'}),
               (ASKED_REMOTE + V + at(LOCAL, "remote.o.url=u"), ASKED_REMOTE + at(LOCAL, "remote.o.url=u"))),
    Difference("remotes of a file that is included", "machine",
               tree_of({USER: "[include] path = y\n", "home/y": '[remote "o"] url = u\n' + ASKS_REMOTE, "home/x": "[a] k = v\n"}),
               (at(USER, "include.path=y") + at("home/y", "remote.o.url=u", f"includeif.{HAS_REMOTE}.path=x") + V,
                at(USER, "include.path=y") + at("home/y", "remote.o.url=u", f"includeif.{HAS_REMOTE}.path=x"))),
    Difference("remotes in what a remote includes", "machine",
               tree_of({USER: '[remote "o"] url = u\n' + ASKS_REMOTE, "home/x": '[remote "p"] url = w\n'}),
               (REFUSED, at(USER, "remote.o.url=u") + ASKED_REMOTE + at("home/x", "remote.p.url=w"))),
    Difference("a file for a remote that isn't there", "machine", tree_of({USER: "[a] k = 1\n" + ASKS_REMOTE, "home/x": "["}),
               (REFUSED, HERE + ASKED_REMOTE)),
    Difference("ten files deep", "machine", tree_of(chain(10)),
               (at(USER, "include.path=1") + [entry for number in range(1, 10) for entry in
                                              at(f"home/{number}", f"a.k={number}", f"include.path={number + 1}")]
                + at("home/10", "a.k=10"), REFUSED)),
    Difference("a directory that is included", "machine", tree_of({USER: "[a] k = 1\n[include] path = r\n"}),
               (REFUSED, HERE + at(USER, "include.path=r"))),
    Difference("a path without text", "machine", tree_of({USER: "[a] k = 1\n[include] path =\n"}),
               (REFUSED, HERE + at(USER, "include.path="))),
    Difference("a path without a value", "machine", tree_of({USER: "[a] k = 1\n[include] path\n"}),
               (REFUSED, HERE + at(USER, "include.path="))),
    Difference("a shorthand that stands for nothing", "machine", tree_of({USER: "[a] k = 1\n[include] path = ~nobody-here/x\n"}),
               (REFUSED, HERE + at(USER, "include.path=~nobody-here/x"))),
    Difference("entries before all sections", "machine", tree_of({USER: "k = v\n[a] k = 1\n"}), (at(USER, "k=v") + HERE, HERE)),
    Difference("a tab in a value", "machine", tree_of({USER: "[a] k = v\tw\n"}), (at(USER, "a.k=v w"), at(USER, "a.k=v\tw")),
               gone_in=(2, 45)),
    Difference("a file that two sources name", "machine",
               tree_of({USER: "[a] k = 1\n"}, GIT_CONFIG_SYSTEM=f"{ROOT}/{USER}"), (HERE + HERE, HERE)),
    Difference("overrides of one section", "machine", tree_of({}, **overrides(("a.k", "1"), ("b.k", "2"), ("a.j", "3"))),
               (at("command line:", "a.k=1", "b.k=2", "a.j=3"), at("command line:", "a.k=1", "a.j=3", "b.k=2"))),
    Difference("a space before a count", "machine", tree_of({}, **{**overrides(("a.k", "1")), "GIT_CONFIG_COUNT": " 1"}),
               (at("command line:", "a.k=1"), REFUSED)),
    Difference("a switch that is no boolean", "machine", tree_of({SYSTEM: "[a] k = 1\n"}, GIT_CONFIG_NOSYSTEM="x"),
               (REFUSED, at(SYSTEM, "a.k=1"))),
    Difference("what -c hands in", "machine", tree_of({USER: "[a] k = 1\n"}, GIT_CONFIG_PARAMETERS="'a.k'='2'"),
               (HERE + at("command line:", "a.k=2"), HERE)),
    Difference("includes of the user, in a repository", "folder",
               tree_of({USER: "[include] path = x\n", "home/x": "[a] k = v\n", LOCAL: ""}),
               (INCLUDES_X + V, INCLUDES_X + V + V)),
    Difference("a repository without its file", "folder", tree_of({USER: "[a] k = 1\n"}), (HERE, REFUSED)),
    Difference("overrides under conditions, in a repository", "folder",
               tree_of({LOCAL: "", "home/x": "[a] k = v\n"}, **overrides(("includeIf.gitdir:**.path", "~/x"))),
               (at("command line:", "includeif.gitdir:**.path=~/x") + V, at("command line:", "includeif.gitdir:**.path=~/x"))),
    Difference("branches, in a repository", "folder",
               tree_of({LOCAL: '[includeIf "onbranch:main"] path = x\n', "home/r/.git/x": "[a] k = v\n"}),
               (at(LOCAL, "includeif.onbranch:main.path=x") + at("home/r/.git/x", "a.k=v"), at(LOCAL, "includeif.onbranch:main.path=x"))),
]
