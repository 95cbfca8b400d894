"""What a crash leaves at each moment of an edit in place: by the changes that an edit makes, in their order, as Edit.antt of
gixcfg_replacing lists them (that an edit which is done has made just these is proved)."""
import re

import svg

LEFT, STEP, WIDTH = 20, 26, 900
COLUMNS = (20, 330, 470, 640)
WORDS = {
    "Making draft": "the temporary file is made",
    "Sharing file draft": "it gets the rights of the file",
    "Writing draft text": "the new text is written to it",
    "Syncing draft": "it is synced",
    "Making lock": "the lock is made",
    "Renaming draft file": "the temporary file is renamed over the file",
    "Removing lock": "the lock is removed",
    "SyncingNames": "the directory is synced",
}


def changes(definitions):
    """The changes of an edit, the first one first."""
    lists = dict(re.findall(r"^(editing|swapping|filling) [^:=]*= (.*)$", definitions, re.MULTILINE))

    def listed(name):
        for part in re.split(r" ∷ | \+\+ ", lists[name].replace("(", "").replace(")", "").replace(" ∷ []", "")):
            yield from listed(part.split()[0]) if part.split()[0] in lists else [part]

    return [*reversed([*listed("editing")])]


def moments(made):
    """Of each moment what happened, what readers find at FILE, what a crash leaves there, and what may be left beside it."""
    yield "before the edit", "old", "old", ""
    for at, change in enumerate(made):
        done = made[:at + 1]
        is_renamed, are_down = "Renaming draft file" in done, done[-1] == "SyncingNames"
        found = "new" if is_renamed else "old"
        beside = [] if is_renamed and are_down else ["the temporary file" + ("" if "Syncing draft" in done else ", with any text")]
        beside += ["the lock"] if "Making lock" in done and not are_down else []
        yield WORDS[change], found, found if are_down or not is_renamed else "old or new", ", ".join(beside)


def picture(definitions):
    rows = [*moments(changes(definitions))]
    heads = ("moment", "readers find", "a loss of power leaves", "and may leave beside it")
    lines = [svg.words(x, 24, head, "small") for x, head in zip(COLUMNS, heads)]
    y = 32
    for moment, found, left, beside in rows:
        lines += [svg.words(COLUMNS[0], y + 17, moment)]
        for x, text, width in ((COLUMNS[1], found, 50), (COLUMNS[2], left, 90)):
            lines.append(svg.box(x, y + 1, width, STEP - 5, {"old": "box", "new": "new"}.get(text, "word")))
            lines.append(svg.words(x + width / 2, y + 16, text, anchor="middle"))
        lines.append(svg.words(COLUMNS[3], y + 17, beside, "small"))
        y += STEP
    lines.append(svg.words(LEFT, y + 18, "With its syncs, and where the old text itself was on the disk when the edit began.", "small"))
    return svg.picture("What a crash leaves at each moment of an edit in place", WIDTH, y + 28, lines)
