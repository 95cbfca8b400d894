"""Shows that tools/git_tests tells each kind of fault: made tables, and what made scripts tell."""

import page
from report import Report
from runs import told
from table import Table, Wrong, faults_of

TABLE = """# A comment.
script t0001-a.sh 4
reason words: in other words
t0001 2,4 words: two
"""
TOLD = "ok 1 - one\nnot ok 2 - two\n#\t\n#\t\tgit config\nok 3 # skip three (missing SANITY)\nnot ok 4 - two\n# failed 2 among 4 test(s)\n1..4\n"
PAGE = page.written(f"A page.\n{page.START}{page.END}more\n", Table(TABLE))

# What is changed of what a script told, and all faults that it has then.
ROWS = [
    ("", "", []),
    ("not ok 4", "ok 4", ["t0001-a.sh 4, two: passes, and the table says that it fails: words"]),
    ("ok 1 - one", "not ok 1 - one", ["t0001-a.sh 1, one: fails, and isn't in the table\n"]),
    ("not ok 2 - two", "not ok 2 - too", ["t0001-a.sh 2, too: the table calls it two"]),
    ("not ok 2 - two", "ok 2 # skip two (missing PERL)", []),
    ("not ok 4 - two\n", "", ["t0001-a.sh: tells 3 tests and ends with 4, of 4", "t0001-a.sh 4, two: is in the table, and wasn't run"]),
    ("ok 1 - one\n", "", ["t0001-a.sh: tells 3 tests and ends with 4, of 4"]),
    ("1..4\n", "", ["t0001-a.sh: tells 4 tests and ends with None, of 4"]),
    ("1..4\n", "1..5\n", ["t0001-a.sh: tells 4 tests and ends with 5, of 4"]),
]
WRONG_TABLES = [
    ("2,4", "2,2", "table.txt:4: a second line of 2: t0001 2,2 words: two"),
    ("0001 2,4", "0002 2,4", "table.txt:4: no such script: t0002 2,4 words: two"),
    ("4 words", "4 other", "table.txt:4: no such reason: t0001 2,4 other: two"),
    ("4 words", "4", "table.txt:4: is none of the forms of the table: t0001 2,4: two"),
    ("t0001 2,4 words: two\n", "", "table.txt: no test has this reason: words"),
]
WRONG_PAGES = [
    ("", "", None),
    ("2 of 4", "3 of 4", "its lists aren't those of table.txt; tools/git_tests --write makes them"),
    ("- 2: in", "- 1: in", "its lists aren't those of table.txt; tools/git_tests --write makes them"),
    (page.END, "", "has no place for the lists"),
]


def wrong_of(text):
    """What is told of a text that should be a table."""
    try:
        Table(text)
    except Wrong as wrong:
        return str(wrong)
    return None


def run():
    report = Report()
    table = Table(TABLE)
    faults = [list(filter(None, faults_of(table, "t0001-a.sh", told(TOLD.replace(old, new).splitlines())))) for old, new, _ in ROWS]
    found = [(wanted, fault) for (_, _, wanted), fault in zip(ROWS, faults)]
    found += [(wanted, wrong_of(TABLE.replace(old, new))) for old, new, wanted in WRONG_TABLES]
    found += [(wanted, page.fault_of(PAGE.replace(old, new), table)) for old, new, wanted in WRONG_PAGES]
    for wanted, fault in found:
        if fault == wanted:
            report.row_passed()
        else:
            report.fault(f"git_tests: wanted {wanted!r}, told {fault!r}")
    return report.close()
