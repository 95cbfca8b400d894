"""Why each edit is refused, as the definition `causes` has it: the list of docs/refusals.md."""
import re

EDITED, DONE = "crates/gitconf_store/specs/Edited.antt", "crates/gitconf_body/specs/Done.antt"
PAGE = "docs/refusals.md"
START, END = "<!-- causes -->\n", "<!-- /causes -->\n"
# Each cause as the page has it.
NUMBERS = {"Missing": "E7, E8 or E9", "InvalidKey": "E6", "InvalidName": "E4", "InvalidSubsection": "E5", "TooLarge": "E3"}
# The calls that make each edit; one that has no cause but want of memory isn't listed.
CALLS = {
    "SetRawValue": "`set_raw_value`, `set_raw_value_by`, and their forms with a filter",
    "Push": "`SectionMut::push`, `push_with_comment`",
    "PushAfterLast": "`push_after_last`",
    "PushLineEnd": "`SectionMut::push_newline`",
    "SetValue": "`SectionMut::set`",
    "WriteAt": "`ValueMut::set`, `MultiValueMut::set_at`; `set_existing_raw_value`, also of several values, after the errors of its lookup",
    "Rename": "`SectionMut::rename`",
    "RenameAll": "`rename_section`, `rename_section_filter`",
    "NewSection": "`new_section`; `section_mut_or_create_new` where it makes one",
    "PushSection": "`push_section`",
    "Append": "`append`",
}


def read(path):
    with open(path, encoding="utf-8") as file:
        return file.read()


def bodies():
    """The body of each definition of lists of causes, and of each case of `causes`, by its name."""
    found = {}
    for path in (DONE, EDITED):
        for name, words, body in re.findall(r"^(\w*causes)((?: [^=\n]*)?) =\s((?:.*\n)(?:(?: .*)?\n)*)", read(path), re.M):
            case = re.match(r" \((\w+)", words)
            found[case[1] if name == "causes" and case else name] = body
    return found


def named(body, found):
    """The causes that a body names, in order, with those of the lists that it names."""
    for word in re.findall(r"\b\w+\b", re.sub(r"put_bytes \([^)]*\)|is_full [^,|]*", "", body)):
        if word in NUMBERS:
            yield word
        elif word.endswith("_causes") and word in found:
            yield from named(found[word], found)


def listed():
    """The lines of the list: the calls that have the same causes, and these."""
    found, calls = bodies(), {}
    for edit in CALLS:
        causes = "; ".join(NUMBERS[cause] for cause in named(found[edit], found))
        calls.setdefault(causes, []).append(CALLS[edit])
    return "".join(f"- {'; '.join(those)}: {causes}\n" for causes, those in calls.items())


def on_page():
    """The list that stands on the page."""
    return read(PAGE).partition(START)[2].partition(END)[0]


def write():
    before, _, rest = read(PAGE).partition(START)
    text = before + START + listed() + END + rest.partition(END)[2]
    with open(PAGE, "w", encoding="utf-8") as file:
        file.write(text)
