"""Made trees of configuration files, with the variables that tell where they stand or override them."""

import os
from dataclasses import dataclass, field
from typing import Dict, List, Optional

# Stands for the directory of the tree, in a text or a variable.
ROOT = "@ROOT@"

# The files that nothing has to include, by how they are found.
SYSTEM, USER, LOCAL = "etc/gitconfig", "home/.gitconfig", "home/r/.git/config"
XDG, DEFAULT_XDG, GLOBAL = "xdg/git/config", "home/.config/git/config", "etc/global"
OUTER = (SYSTEM, XDG, DEFAULT_XDG, USER, GLOBAL)

# The files that others include. One may include those behind it.
POOL = ("home/inc/p0", "home/p1", "etc/p2", "home/r/p3", "home/r/.git/p4", "far/p5")


@dataclass
class Tree:
    """Files by their places below the directory of the tree, and variables."""

    files: Dict[str, str] = field(default_factory=dict)
    variables: Dict[str, str] = field(default_factory=dict)
    branch: Optional[str] = "refs/heads/main"
    is_linked: bool = False
    loads: List[str] = field(default_factory=lambda: ["machine", "repository"])

    def git_dir_in(self, root):
        """The directory of the repository, as it is named."""
        return os.path.join(root, "link" if self.is_linked else "home/r", ".git")

    def variables_in(self, root):
        """The variables of a process: none of ours but the one for programs."""
        own = {"PATH": os.environ["PATH"], "LC_ALL": "C", "GIT_CEILING_DIRECTORIES": root}
        return {**own, **{name: text.replace(ROOT, root) for name, text in self.variables.items()}}

    def put_into(self, root):
        """Writes the files, and what makes a directory a repository."""
        head = self.branch and f"ref: {self.branch}\n"
        for directory in ("far", "home/r/.git/objects", "home/r/.git/refs"):
            os.makedirs(os.path.join(root, directory))
        os.symlink("home/r", os.path.join(root, "link"))
        for place, text in {**self.files, "home/r/.git/HEAD": head or f"{1:040}\n"}.items():
            path = os.path.join(root, place)
            os.makedirs(os.path.dirname(path), exist_ok=True)
            with open(path, "wb") as file:
                file.write(text.replace(ROOT, root).encode())

    def __str__(self):
        return "\n".join([f"  at {place}: {text!r}" for place, text in self.files.items()]
                         + [f"  {name}={text!r}" for name, text in self.variables.items()]
                         + [f"  branch {self.branch}, linked {self.is_linked}"])


SECTIONS = ('[a]', '[A]', '[b]', '[c-d]', '[a "x"]', '[a "X y"]', '[b "q\\"\\\\"]', '[a.x]', '[A.X]', '[b "p.q"] ', '[a  "x"]')
KEYS = ("k", "K", "key-2", "long", "j")
# How values are spelled. Each means the same to git and here.
VALUES = ("v", "1", "two words", '"quoted # ;"', "x # comment", "x ; comment", '""', "", "a\\\\b", "a\\tb\\nc", "a\\\n  b", '"a\\"b"',
          "-1", "\u00e9", "a=b", '" blank "', "x    ", 'a "b" c')
LINES = ("# comment\n", "; comment\n", "\n", " \t\n", "\t# comment \\\n")

BRANCHES = ("refs/heads/main", "refs/heads/feat/x", "refs/heads/feat/y/z", "refs/heads/Main", None)
BRANCH_PATTERNS = ("main", "feat/", "feat/*", "feat/**", "**", "*", "m??n", "Main", "refs/heads/main", "[l-n]ain", "x", "**/z", "")
DIRECTORY_PATTERNS = (ROOT + "/home/r/", ROOT + "/home/r/.git", ROOT + "/home/r", "r/", "R/", "r/.git", "**/r/.git", "~/", "~/r/", "~/R/",
                   "../", ROOT + "/link/", "link/", ROOT + "/h*/r/", ROOT + "/**", "h*/", "x/", ".git", "*/.git", "r/**/.git",
                   ROOT + "/HOME/")
OWN_DIRECTORY_PATTERNS = ("./", "./r/", "./R/", "./**")


def made_tree(chance):
    """A tree by chance. Nothing in it is known to differ (differences.py has what is)."""
    tree = Tree(branch=chance.choice(BRANCHES), is_linked=chance.random() < 0.25)
    asks_branch, outer_includes = chance.random() < 0.7, chance.random() < 0.7
    # Git reads the file of each condition on remotes, also where it doesn't hold; so no file is refused then.
    asks_remote = chance.random() < 0.6
    _add_places(chance, tree)
    for place in (*OUTER, LOCAL):
        if chance.random() < 0.75:
            includes = POOL if outer_includes or place == LOCAL else ()
            tree.files[place] = _text(chance, place, includes, asks_branch, place.replace("/", "-") if asks_remote else None)
    for at, place in enumerate(POOL):
        if chance.random() < 0.8:
            further = POOL if not asks_remote and chance.random() < 0.02 else POOL[at + 1:]
            tree.files[place] = _text(chance, place, further, asks_branch, None)
    if not asks_remote and chance.random() < 0.2:
        tree.files[chance.choice(sorted(tree.files))] += "[a\n"
    _add_overrides(chance, tree, asks_branch)
    if LOCAL in tree.files and not outer_includes and not asks_branch and "include" not in str(tree.variables):
        tree.loads = [*tree.loads, "folder"]
    return tree


def _add_places(chance, tree):
    """Adds variables that tell where files stand."""
    tree.variables["HOME"] = ROOT + "/home"
    tree.variables["GIT_CONFIG_SYSTEM"] = ROOT + "/" + chance.choice((SYSTEM, SYSTEM, SYSTEM, "etc/none"))
    if chance.random() < 0.4:
        tree.variables["XDG_CONFIG_HOME"] = chance.choice(("", ROOT + "/xdg", ROOT + "/none"))
    if chance.random() < 0.3:
        tree.variables["GIT_CONFIG_GLOBAL"] = chance.choice(("", ROOT + "/" + GLOBAL, ROOT + "/" + USER, ROOT + "/none"))
    if chance.random() < 0.3:
        tree.variables["GIT_CONFIG_NOSYSTEM"] = chance.choice(("", "0", "no", "off", "false", "1", "yes", "true", "ON", "2"))


def _add_overrides(chance, tree, asks_branch):
    """Adds variables that override, those of a section side by side."""
    if chance.random() < 0.5:
        return
    pool = [("a.k", "v"), ("A.K", ""), ("a.j", " # "), ("b.Q.k", "a\nb"), ("b.Q.j", "\u00e9"), ("c-d.k", '"'), ("b.p.q.k", "\\"),
            ("include.path", f"{ROOT}/{chance.choice(POOL)}"), ("include.path", "~/p1"),
            ("include.path", "p1"), (f"includeIf.gitdir:{chance.choice(DIRECTORY_PATTERNS[:3])}.path", f"{ROOT}/{chance.choice(POOL)}")]
    if asks_branch:
        pool.append((f"includeIf.onbranch:{chance.choice(BRANCH_PATTERNS[:5])}.path", f"{ROOT}/{chance.choice(POOL)}"))
    groups = {}
    for name, value in chance.sample(pool, chance.randrange(4)):
        groups.setdefault(name.rpartition(".")[0].lower(), []).append((name, value))
    # A section that includes twice tells of both before what they include, so only one of them stays.
    entries = [entry for section, group in groups.items() for entry in (group[:1] if section == "include" else group)]
    tree.variables["GIT_CONFIG_COUNT"] = str(len(entries))
    for number, (name, value) in enumerate(entries):
        tree.variables[f"GIT_CONFIG_KEY_{number}"] = name
        tree.variables[f"GIT_CONFIG_VALUE_{number}"] = value


def _text(chance, place, pool, asks_branch, remote):
    """The text of a file. One that others include tells of no remote, and asks for none."""
    parts = []
    for _ in range(chance.randrange(5)):
        kind = chance.random()
        if kind < 0.45 or not pool:
            parts.append(_section(chance))
        elif kind < 0.7:
            parts.append(_include(chance, place, pool, "[include]"))
        else:
            parts.append(_include(chance, place, pool, _conditional(chance, place, asks_branch, remote)))
    if remote and chance.random() < 0.3:
        parts.insert(chance.randrange(len(parts) + 1), f'[remote "o"]\n\turl = {remote}\n')
    text = "".join(parts)
    if chance.random() < 0.15:
        text = text.replace("\n", "\r\n")
    return ("\ufeff" if chance.random() < 0.05 else "") + text


def _section(chance):
    """A section with entries."""
    entries = [_entry(chance) for _ in range(chance.randrange(4))]
    return chance.choice(SECTIONS) + chance.choice(("\n", " ", "\n\n", " # c\n")) + "".join(entries) + "\n"


def _entry(chance):
    name = chance.choice(("\t", "", "  ")) + chance.choice(KEYS)
    if chance.random() < 0.1:
        return name + "\n"
    behind = chance.choice(LINES) if chance.random() < 0.2 else ""
    return name + chance.choice((" = ", "=", "  =")) + chance.choice(VALUES) + "\n" + behind


def _include(chance, place, pool, header):
    """A section that includes one file, as its last entry."""
    before = "\tk = v\n" if chance.random() < 0.1 else ""
    name = chance.choice(("path", "path", "Path"))
    return f"{header}\n{before}\t{name} = {_spelled(chance, place, chance.choice(pool))}\n"


def _spelled(chance, place, target):
    """A path of the target, as a file at that place may spell it."""
    ways = [ROOT + "/" + target, os.path.relpath(target, os.path.dirname(place))]
    if target.startswith("home/"):
        ways.append("~/" + target[len("home/"):])
    path = chance.choice(ways)
    if chance.random() < 0.05:
        path += ".none"
    return f'"{path}"' if chance.random() < 0.1 else path


def _conditional(chance, place, asks_branch, remote):
    """The header of a condition. One on the file's own directory only where git names the file by a path without links and `..`."""
    kinds = ["gitdir", "gitdir/i"] + ["onbranch"] * (2 * asks_branch) + ["hasconfig"] * bool(remote)
    kinds += ["other"] * (chance.random() < 0.1)
    kind = chance.choice(kinds)
    if kind == "hasconfig":
        # The remote that a file tells of is of a name that no other file has, so that all files tell what this one does.
        pattern = "remote.*.url:" + chance.choice((remote, remote[:-1] + "?", "*" + remote[1:], remote + "x"))
    else:
        directories = DIRECTORY_PATTERNS + OWN_DIRECTORY_PATTERNS * (place in OUTER)
        pattern = chance.choice(BRANCH_PATTERNS if kind == "onbranch" else directories)
    return f'[includeIf "{kind}:{pattern}"]'
