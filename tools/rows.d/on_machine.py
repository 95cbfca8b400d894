"""Runs of `gixcfg` on a machine in memory, of which the program `gixcfg_script` is told line by line (rows/README.md)."""

import os

from gixcfg_process import Failed, unread
from gixcfg_runs import Ending, Left
from process import Ended
from words import hex_word

# The working directory of each machine, and the rights of a file that says nothing of them, as of one that Python makes.
DIRECTORY = b"/w/"
RIGHTS = 0o644

# Paths to what is no file.
DEVICES = (b"/dev/", b"/proc/")


def why_not(row):
    """Why the run of a test case can't be made on such a machine, or None."""
    run = row.run
    if any(entry.kind == "pipe" for entry in run.entries):
        return "a pipe"
    if run.is_huge:
        return "a file of gigabytes"
    if any(device in text for text in _texts_of(run) for device in DEVICES):
        return "a device"
    if not all(_is_text(entry.name) for entry in run.entries):
        return "a file whose name isn't UTF-8"
    if _takes_rights_over(row):
        return "rights that an edit takes over"
    return None


def _texts_of(run):
    yield from run.words
    yield from (entry.content for entry in run.entries if isinstance(entry.content, bytes))
    yield run.input.text or b""


def _is_text(name):
    try:
        name.decode()
    except UnicodeDecodeError:
        return False
    return True


def _takes_rights_over(row):
    """Whether a file of rights of its own gets another text: a machine knows no metadata but those of usual rights."""
    left = row.wanted.files or {}
    return any(entry.mode not in (None, RIGHTS) and entry.name in left and left[entry.name].text != entry.content
               for entry in row.run.entries)


def script_of(run):
    """The lines that a run is: what stands on a new machine, its streams, and the call."""
    lines = ["new", *_lines_of_entries(run.entries)]
    lines += [f"set {hex_word(name)} {hex_word(text)}" for name, text in run.variables.items() if text is not None]
    lines.append(_line_of_input(run.input))
    lines += [f"room {name} {0 if output.is_full else output.room}" for name, output in (("out", run.out), ("err", run.err))
              if output != type(output)()]
    lines.append(" ".join(["call", *map(hex_word, run.words)]))
    return lines


def _lines_of_entries(entries):
    """What stands in the directory, each behind the directories that hold it."""
    made = {b""}
    for entry in entries:
        for directory in _directories_above(entry.name):
            if directory not in made:
                made.add(directory)
                yield f"folder {hex_word(directory)}"
        made.add(entry.name)
        yield _line_of_entry(entry)


def _directories_above(name):
    parts = name.split(b"/")[:-1]
    return [b"/".join(parts[:count]) for count in range(1, len(parts) + 1)]


def _line_of_entry(entry):
    name, content = hex_word(entry.name), hex_word(entry.content)
    if entry.kind == "folder":
        return f"folder {name}"
    if entry.kind == "link":
        return f"link {name} {content}"
    mode = 0 if entry.kind == "locked" else RIGHTS if entry.mode is None else entry.mode
    return f"file {name} {content} {mode}"


def _line_of_input(given):
    if given.text is None:
        return "input x 1 folder"
    step = given.step or max(1, len(given.text))
    return f"input {hex_word(given.text)} {step} {'fails' if given.fails else 'end'}"


def ending(row, answers):
    """How the run of a test case ended, by the answers to its lines."""
    *lines, call = script_of(row.run)
    try:
        for line in lines:
            if answers.ask(line) != "ok":
                raise Failed(f"the machine doesn't take the line {line}")
        told = answers.ask(call)
        answers.finish()
    except Ended as fault:
        raise Failed(str(fault)) from fault
    return _ending_of(row, told)


def _ending_of(row, answer):
    """The ending that `ok STATUS OUT ERR READ [PATH TEXT RIGHTS]..` tells."""
    run = row.run
    try:
        done, status, out, err, read, *files = answer.split(" ")
        if done != "ok" or len(files) % 3:
            raise ValueError
        left = {os.path.relpath(_bytes(path), DIRECTORY): Left(_bytes(text), int(mode))
                for path, text, mode in zip(files[::3], files[1::3], files[2::3])}
        told = [None if output.is_full else _bytes(word) for output, word in ((run.out, out), (run.err, err))]
        count = int(read)
    except ValueError:
        raise Failed(f"no ending: {answer[:200]}") from None
    if run.input.stays_unread and count:
        raise unread(count)
    return Ending(status, *told, left if row.sees_files else None)


def _bytes(word):
    """The bytes of a word of the program."""
    if word[:1] != "x":
        raise ValueError
    return bytes.fromhex(word[1:])
