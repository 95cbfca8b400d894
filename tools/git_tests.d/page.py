"""The lists of docs/comparison.md about git's tests, made of the table of those that fail."""

START, END = "<!-- git's tests -->\n", "<!-- /git's tests -->\n"
# How the reasons begin of which the program is to be changed.
TO_MEND = "to-mend-"


def reason_line(table, reason):
    return f"- {table.fails_by(reason)}: {table.reasons[reason]}{' (to be changed)' if reason.startswith(TO_MEND) else ''}"


def lists(table):
    """How many tests of each script pass, and why the others fail."""
    by_count = sorted(table.reasons, key=lambda it: (it.startswith(TO_MEND), -table.fails_by(it)))
    passing = (f"{script.partition('-')[0]} {count - table.fails_of(script)} of {count}" for script, count in table.scripts.items())
    return "\n".join([f"These pass: {', '.join(passing)}. The others fail:", "", *(reason_line(table, reason) for reason in by_count), ""])


def fault_of(page, table):
    """What is wrong with a page, or None."""
    if page.count(START) != 1 or page.count(END) != 1:
        return "has no place for the lists"
    return None if written(page, table) == page else "its lists aren't those of table.txt; tools/git_tests --write makes them"


def written(page, table):
    """The page with the lists as they should be."""
    before, _, rest = page.partition(START)
    return before + START + lists(table) + END + rest.partition(END)[2]
