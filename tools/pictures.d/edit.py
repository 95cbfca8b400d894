"""A file before and after edits, with the bytes that changed: the first example of docs/program.md."""
import difflib
import re

import svg

STEP, WIDE, LEFT, MIDDLE = 22, 7.85, 20, 330


def example(page):
    """The text before, the calls, and the text after them."""
    block = re.search(r"^```console\n(.*?)^```", page, re.DOTALL | re.MULTILINE)[1]
    runs = [run.partition("\n")[::2] for run in re.split(r"^\$ ", block, flags=re.MULTILINE)[1:]]
    before = re.match(r"printf '(.*)' >", runs[0][0])[1].replace("\\n", "\n").replace("\\t", "\t")
    shown = next(at for at, (command, _) in enumerate(runs) if command.startswith("cat "))
    return before, [command for command, _ in runs[1:shown] if " set " in command], runs[shown][1]


def changed(before, after):
    """The places of `after` that aren't taken over from `before`."""
    matcher = difflib.SequenceMatcher(None, before, after, autojunk=False)
    return {at for kind, _, _, first, end in matcher.get_opcodes() if kind in ("replace", "insert") for at in range(first, end)}


def text_lines(x, y, text, marked):
    """A text, a line a line, with the marked bytes on a ground of their own. A tab is shown as one."""
    at = 0
    for line in text.splitlines(keepends=True):
        shown = line.rstrip("\n").replace("\t", "⇥   ")
        ends = [0]
        for char in line.rstrip("\n"):
            ends.append(ends[-1] + (4 if char == "\t" else 1))
        for run in re.finditer("1+", "".join("01"[at + n in marked] for n in range(len(ends) - 1))):
            first, end = ends[run.start()], ends[run.end()]
            yield f'<rect x="{x + first * WIDE:g}" y="{y - 14:g}" width="{(end - first) * WIDE:g}" height="19" class="new"/>'
        yield svg.words(x, y, shown, "code")
        at += len(line)
        y += STEP


def picture(page):
    before, calls, after = example(page)
    # Whole lines that were added are new, and bytes within the others.
    marked, kept, at = set(), before.splitlines(), 0
    for line in after.splitlines():
        near = difflib.get_close_matches(line, kept, 1, 0.4)
        marked |= {at + n for n in (changed(near[0], line) if near else range(len(line)))}
        if near:
            kept.remove(near[0])
        at += len(line) + 1
    top = 34 + 18 * len(calls)
    rows = max(len(before.splitlines()), len(after.splitlines()))
    lines = [svg.words(LEFT, 22 + 18 * at, call, "code") for at, call in enumerate(calls)]
    lines += [svg.words(LEFT, top + 10, "before", "small"), svg.words(MIDDLE, top + 10, "after; what is new is marked", "small")]
    lines += [*text_lines(LEFT, top + 34, before, set()), *text_lines(MIDDLE, top + 34, after, marked)]
    return svg.picture("A file before and after two edits", 680, top + 30 + STEP * rows, lines)
