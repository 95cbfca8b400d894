"""What git and the program crates/git_listing list of a tree: each entry with the file that it comes from, or an error."""

import os
import subprocess

# What either tells where it lists nothing.
REFUSED = "refused"

LIMIT = 20


def asked_of_git(tree, load, root):
    """What git lists: outside of the repository, or in it."""
    directory = [] if load == "machine" else ["--git-dir", tree.git_dir_in(root)]
    return _entries(["git", *directory, "config", "--list", "-z", "--show-origin", "--includes"], tree, root)


def asked_of_ours(tree, load, root, program):
    """What the program lists by this load."""
    words = [] if load == "machine" else [tree.git_dir_in(root), os.path.realpath(tree.git_dir_in(root))]
    if load == "repository" and tree.branch is not None:
        words.append(tree.branch)
    return _entries([str(program), load, *words], tree, root)


def _entries(command, tree, root):
    """The entries that a command lists, as the file that each comes from, its name and its value. Paths begin below the root."""
    ran = subprocess.run(command, cwd=os.path.join(root, "far"), env=tree.variables_in(root), stdin=subprocess.DEVNULL,
                         stdout=subprocess.PIPE, stderr=subprocess.PIPE, timeout=LIMIT)
    if ran.returncode not in (0, 1, 128):
        raise RuntimeError(f"{command} ended with {ran.returncode}: {ran.stderr.decode('utf-8', 'replace')}")
    if ran.returncode != 0:
        return REFUSED
    pieces = ran.stdout.split(b"\0")[:-1]
    return [(_place(origin, root), *_name_and_value(entry)) for origin, entry in zip(pieces[::2], pieces[1::2])]


def _place(origin, root):
    prefix = b"file:" + os.fsencode(root) + b"/"
    return os.fsdecode(origin[len(prefix):] if origin.startswith(prefix) else origin)


def _name_and_value(entry):
    """An entry without `=` has no value in git's list; here it counts as one whose value is empty."""
    name, _, value = entry.partition(b"\n")
    return name, value


def shown(told):
    """A listing as lines."""
    if told == REFUSED:
        return "  refused"
    return "\n".join(f"  {place}: {name.decode('utf-8', 'replace')} = {value!r}" for place, name, value in told) or "  nothing"
