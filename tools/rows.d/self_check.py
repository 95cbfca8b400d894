"""Shows by small false programs that each kind of fault is told as failed, and that what is right passes."""

import os
import subprocess
import sys
import tempfile
from pathlib import Path
from typing import NamedTuple, Tuple

import refused
from report import Report

# A program of the script language. `load` and some others take two allocations; FAULT is what is wrong with it.
SPEAKER = r"""#!PYTHON
import os, sys, time
FAULT = "WRONG"
held, is_on, is_in_scope, tries = "x", False, False, int(os.environ.get("REFUSE_FIRST", 1)) - 1
for line in sys.stdin:
    words = line.split()
    if words[0] == "refusals":
        is_on = words[1] == "on"
        print("ok", flush=True)
        continue
    takes = 2 if words[0] in ("load", "printif", "append", "push") else 0
    refused = is_on and tries < takes
    if is_on:
        tries = tries + 1 if refused else 0
    mark = "" if not is_on else "+ " if refused else "- "
    if refused and FAULT == {"load": "halfload", "push": "halfpush"}.get(words[0]):
        held = "x00"
    if refused:
        answer = {"E1": "err E1 1 name x"}.get(FAULT, "err E27")
        if words[0] == "printif":
            answer = "err E28 " + ("x0b" if FAULT == "nobeginning" else held[:3])
    elif words[0] in ("load", "push"):
        held, answer = words[1], "ok"
    elif words[0] in ("edit", "end"):
        is_in_scope, answer = words[0] == "edit", "ok"
    elif is_in_scope:
        answer = "refused"
    elif words[0] in ("print", "printif") or words == ["string", "x61", "-", "x6b"]:
        answer = "ok " + held
    elif words[0] == "dump":
        answer = "ok [0 x61 - x6b " + held + " ]"
    elif words[0] == "count":
        if FAULT == "stops": sys.exit("it stops here")
        if FAULT == "hangs": time.sleep(60)
        if FAULT == "missing": continue
        answer = "ok 2" if FAULT == "changed" else "ok 1"
    else:
        answer = "unknown"
    print(mark + answer, flush=True)
if FAULT == "more": print("ok")
if FAULT == "status": sys.exit(1)
"""

# A program whose allocations are real ones, so that the shim refuses them: of the script language, and as a whole process
# where it is given words.
GROWER = r"""
#include <stdio.h>
#include <stdlib.h>
#include <string.h>
#include <unistd.h>
static int grows(void) {
    void *volatile first = malloc(10);
    void *volatile second = first ? realloc(first, 2000) : NULL;
    free(second ? second : first);
    return second != NULL;
}
static int is_granted(size_t size) {
    void *volatile block = malloc(size);
    free(block);
    return block != NULL;
}
int main(int count, char **words) {
    if (count > 1) {
        const char *text = grows() ? "v\n" : "gixcfg: E27\n";
        int status = text[0] == 'v' ? 0 : 5;
        return write(status ? 2 : 1, text, strlen(text)) < 0 ? 4 : status;
    }
    char line[100];
    int is_on = 0;
    while (fgets(line, sizeof line, stdin)) {
        int is_switch = strncmp(line, "refusals ", 9) == 0;
        if (is_switch)
            is_on = line[10] == 'n';
        int begins = is_on && !is_switch && is_granted(999979);
        const char *answer = strcmp(line, "load x\n") || grows() ? "ok" : "err E27";
        if (begins)
            fputs(is_granted(999983) ? "- " : "+ ", stdout);
        puts(answer);
        fflush(stdout);
    }
    return 0;
}
"""

# A program that tells of its files, one after the other, where it has memory.
TELLER = GROWER.replace("""        const char *text = grows() ? "v\\n" : "gixcfg: E27\\n";
        int status = text[0] == 'v' ? 0 : 5;
        return write(status ? 2 : 1, text, strlen(text)) < 0 ? 4 : status;
""", """        int status = grows() ? 1 : 5;
        const char *text = status == 1 ? "m: x\\nn: y\\n" : "m: x\\ngixcfg: E27\\n";
        return write(2, text, strlen(text)) < 0 ? 4 : status;
""")
TOLD = 'gixcfg "check" "m" "n"\n  1 "" "m: x\\nn: y\\n"\n'

# A program that is called as gixcfg is, and prints what FAULT says in the place of one thing.
GIXCFG = r"""#!PYTHON
import sys, time
FAULT = "WRONG"
text = sys.stdin.buffer.read() if FAULT == "reads" or sys.argv[1:2] == ["get"] else b""
if FAULT == "hangs": time.sleep(60)
if sys.argv[1:2] != ["get"]:
    sys.stderr.write("usage")
    sys.exit(2)
sys.stdout.buffer.write(text + (b"!" if FAULT == "output" else b""))
sys.stderr.write("?" if FAULT == "error" else "")
sys.exit(1 if FAULT == "status" else 0)
"""

# A program that is called as gixcfg is, and prints what stands in its directory, and two variables.
LOOKER = r"""#!PYTHON
import os
def text(name):
    try:
        return open(name).read()
    except OSError as fault:
        return type(fault).__name__
print(*[text(name) for name in ("m", "d/m", "p", "l", "k", "s", "none")], *[os.environ.get(name) for name in ("HOME", "USER")], end="")
"""

# A program whose file, behind an edit, is `[a]`, LF, `k=v #c`, LF; what it shows of it there, or of the same text loaded, may be wrong.
READER = r"""#!PYTHON
import sys
FAULT = "WRONG"
TEXT = "x5b615d0a6b3d762023630a"
SHOWN = {"print": "ok " + TEXT, "dump": "ok [0 x61 - x6b x76 ]", "count": "ok 1", "front": "none", "headerof 0": "ok x61 - x5b615d",
         "body 0": "ok L:x0a N:x6b S: V:x76 W:x20 C:x2363 L:x0a", "post 0": "none"}
EDITED = {"entries": ("dump", "ok [0 x61 - x6b x77 ]"), "count": ("count", "ok 2"),
          "comments": ("body 0", "ok L:x0a N:x6b S: V:x76 W:x20 C:x2364 L:x0a"), "noheader": ("headerof 0", "ok x - x5b5d")}
is_edited = False
for line in sys.stdin:
    command, words = line.strip(), line.split()
    if words[0] == "load":
        is_edited = False
        answer = "err E1 1 name x" if FAULT in ("refused", "noheader") and words[1] == TEXT else "ok"
    elif words[0] == "set":
        is_edited, answer = True, "ok"
    elif words[0] in ("printfail", "printnone"):
        answer = ["err E28 x", "err E28 x5b615d", "ok " + TEXT][min(int(words[1]), 3) - 1]
        if FAULT == "written" and answer[0] == "o": answer = "ok x5b"
        if FAULT == "nobeginning" and words[1] == "2": answer = "err E28 x61"
        if FAULT == "endless": answer = "err E28 x"
        if FAULT == "cause" and words[1] == "1": answer = "err E27"
    else:
        answer = SHOWN[command]
        if is_edited and EDITED.get(FAULT, [""])[0] == command: answer = EDITED[FAULT][1]
        if not is_edited and FAULT == "printed" and command == "print": answer = "ok x5b615d"
    print(answer, flush=True)
"""

# A command that is called as rt is: it plays a script for each file of a directory, as gix_config_script and as gixcfg_script. With
# --fail-alloc it refuses the first load, and the first call of a script that begins with `grow`.
TRIER = r"""#!PYTHON
import os, sys
FAULT = "WRONG"
words = sys.argv[1:]
is_refusing, directory = "--fail-alloc" in words, words[words.index("--cases") + 1]
def of_files(lines):
    held, refuses = "x", is_refusing and FAULT != "never"
    for line in lines:
        word, *others = line.split()
        if word == "load" and refuses:
            refuses = False
            yield "err E1 1 name x" if FAULT == "E1" else "err E27"
        elif word == "load":
            held = others[0]
            yield "ok"
        elif word == "reset":
            held = held if FAULT == "kept" else "x"
            yield "unknown" if FAULT == "noreset" else "ok"
        elif word == "count":
            if FAULT != "missing": yield "ok 2" if FAULT == "changed" else "ok 1"
        else:
            yield "ok " + held
def of_machines(lines):
    given, files, refuses = "x", [], is_refusing and lines[0].startswith("grow") and FAULT != "never"
    for line in lines:
        word, *others = line.split()
        if word == "new": given, files = "x", []
        if word == "input": given = others[0]
        if word == "file":
            path, text, rights = others
            files.append(" ".join(["x2f772f" + path[1:], "x00" if FAULT == "text" else text, "1" if FAULT == "mode" else rights]))
        if word != "call":
            yield "refused" if FAULT == "nofolder" and word == "folder" else "ok"
        elif refuses:
            refuses = False
            yield " ".join(["ok 5 x x" + (b"gixcfg: E1\n" if FAULT == "E1" else b"gixcfg: E27\n").hex() + " 0", *files])
        elif others[0] == "x676574":
            status, out, err = "1" if FAULT == "status" else "0", given + "21" * (FAULT == "output"), "x" + "3f" * (FAULT == "error")
            yield "garbled" if FAULT == "garbled" else " ".join(["ok", status, out, err, str(len(given) // 2), *files])
        else:
            yield "ok 2 x x7573616765 " + ("1" if FAULT == "reads" else "0")
if FAULT == "uncompiled": sys.exit("error: it isn't Rattle")
for name in sorted(os.listdir(directory)):
    lines = open(os.path.join(directory, name)).read().split("\n")[:-1]
    print("==", name, flush=True)
    play = of_files if os.path.basename(os.getcwd()) == "gix_config_script" else of_machines
    if FAULT == "stops":
        print("checked: fault kind=index", "case=" + name + " run=fault proved=no", sep="\n", file=sys.stderr)
        continue
    print(*play(lines), *(["ok"] if FAULT == "more" else []), sep="\n", flush=True)
    print("case=" + name, "run=ended", "status=" + ("5" if FAULT == "memory" else "0"), "runners=1 proved=no", file=sys.stderr)
"""

ROWS = '# one\nload "v"\n  ok\ncount\n  ok 1\nprint\n  ok "v"\n\n# two\nprint\n  ok ""\n'
GROWING = '# one\nload "v"\n  ok\nprintif "a"\n  ok "v"\nappend "g"\n  unknown\nprint\n  ok "v"\n'
SCOPE = '# one\nload "v"\n  ok\nedit "a" -\n  ok\npush "w"\n  ok\nend\n  ok\nprint\n  ok "w"\n'
BEYOND = ('# one\nload "v"\n  ok\nstringkey "a.k"\n  ok "v"\nname "x"\n  ok\nloadkept "z" -\n  ok\nprint\n  ok "z"\n'
          'load "u"\n  ok\nprint\n  ok "u"\n')
LOADERS = ('# one\nload "v"\n  ok\npaths true\n  ok\nprint\n  ok "w"\nload "u"\n  ok\nprint\n  ok "u"\nfailread 1 open\n  ok\n'
           'load "x"\n  err E21\nprint\n  ok "u"\n')
RUNS = 'gixcfg "get" < "v"\n  0 "v" ""\n\ngixcfg "other" < "v" unread\n  2 "" "usage"\n'
AROUND = ('gixcfg "get" in file "m" "v" file "d/m" "w" times 2 pipe "p" "x" link "l" "m" locked "k" "y" sparse "s" 1 pipe "q" "z"'
          ' set "HOME" "h" unset "USER"\n  0 "v ww x v PermissionError \\x00 FileNotFoundError h None" ""\n')
LEAVING = AROUND.replace("\\n\n", "").rstrip("\n") + ' leaves file "d/m" "ww" file "k" "y" mode 0 file "m" "v" file "s" "\\x00"\n'
IN_DIRECTORY = 'gixcfg "get" in file "d/m" "w" mode 640 < "v"\n  0 "v" "" leaves file "d/m" "w" mode 640\n'
EDIT = '# one\nset "a" - "k" "v"\n  ok\n'
REASON = "# A reason.\nin rows.txt: one\n"


class Case(NamedTuple):
    """Test cases for a program, and what the tool has to tell: parts of its lines, and its last line."""

    name: str
    program: str
    file: str
    rows: str
    words: Tuple[str, ...]
    told: Tuple[str, ...]
    count: str
    tool: str = "rows"


def plain(fault, told, count, rows=ROWS):
    return Case(f"test cases, {fault}", SPEAKER.replace("WRONG", fault), "rows.txt", rows, (), told, count)


def refusals(fault, told, count, rows=GROWING):
    return Case(f"--refused, {fault}", SPEAKER.replace("WRONG", fault), "rows.txt", rows, ("--refused",), told, count)


def program_run(fault, told, count):
    return Case(f"gixcfg, {fault}", GIXCFG.replace("WRONG", fault), "program.txt", RUNS, (), told, count)


def tried(fault, told, count, file="rows.txt", rows=ROWS):
    return Case(f"--try, {file}, {fault}", TRIER.replace("WRONG", fault), file, rows, ("--try",), told, count)


def tried_run(fault, told, count, rows=RUNS):
    return tried(fault, told, count, "program.txt", rows)


def left(fault, told=(), count="0 passed, 1 failed"):
    return Case(f"read_back, {fault}", READER.replace("WRONG", fault), "rows.txt", EDIT, (), told, count, "read_back")


def other(name, fault, listed, told, count, rows=ROWS):
    return Case(f"--against, {name}", SPEAKER.replace("WRONG", fault), "rows.txt", rows, ("--against", listed), told, count)


CASES = [
    plain("right", (), "4 passed, 0 failed"),
    plain("changed", ("rows.txt:4: count", "wanted  ok 1", "got     ok 2"), "3 passed, 1 failed"),
    plain("missing", ("rows.txt:4: count", "got     nothing: no answer", "rows.txt:6: print"), "2 passed, 2 failed"),
    plain("hangs", ("rows.txt:4: count", "got     nothing: no answer", "rows.txt:6: print"), "2 passed, 2 failed"),
    plain("stops", ("got     nothing: it ended with status 1: it stops here", "rows.txt:6: print"), "2 passed, 2 failed"),
    plain("more", ("rows.txt:6: behind the last command: it printed more than its answers",), "4 passed, 2 failed"),
    plain("status", ("it ended with status 1",), "4 passed, 2 failed"),
    plain("a command without an answer", ("rows.txt:3: the line before is a command without an answer",),
          "0 passed, 1 failed", "# one\nprint\nprint\n  ok\n"),
    plain("an answer without a command", ("rows.txt:1: an answer without a command",), "0 passed, 1 failed", "  ok\n"),
    plain("an open quote", ("rows.txt:2: a quote stays open",), "0 passed, 1 failed", 'load "v\n  ok\n'),
    refusals("right", ("6 allocations refused in 4 commands", "load                  2 in     1"), "4 passed, 0 failed"),
    refusals("halfload", ("another file, with allocation 1 refused", 'print was   ok ""', 'print is    ok "\\x00"'),
             "3 passed, 1 failed"),
    refusals("a scope", ("4 allocations refused in 5 commands", "push                  2 in     1"), "5 passed, 0 failed", SCOPE),
    refusals("halfpush", ('rows.txt:6: push "w"', "another file, with allocation 1 refused"), "4 passed, 1 failed", SCOPE),
    refusals("E1", ('rows.txt:2: load "v"', "err E1 1 name \"\", with allocation 1 refused"), "2 passed, 2 failed"),
    refusals("nobeginning", ('err E28 "\\x0b", with allocation 1 refused',), "3 passed, 1 failed"),
    Case("--refused, no allocation", SPEAKER.replace("WRONG", "right"), "rows.txt", ROWS.replace("load", "other").replace(
        "  ok\n", "  unknown\n").replace('"v"\n\n', '""\n\n'), ("--refused",), ("no allocation was refused at all",),
        "4 passed, 1 failed"),
    Case("--refused, real allocations", GROWER, "rows.txt", 'load ""\n  ok\nload ""\n  ok\nprint\n  ok\n', ("--refused",),
         ("4 allocations refused in 3 commands",), "3 passed, 0 failed"),
    Case("--refused, a whole process", GROWER, "program.txt", 'gixcfg "get"\n  0 "v\\n" ""\n', ("--refused",),
         ("2 allocations refused in 1 commands",), "1 passed, 0 failed"),
    Case("--refused, a whole process that ends otherwise", GROWER.replace("E27", "E1"), "program.txt",
         'gixcfg "get"\n  0 "v\\n" ""\n', ("--refused",), ('got     5 "" "gixcfg: E1\\n", with allocation 1 refused',),
         "0 passed, 1 failed"),
    Case("--refused, of several files the first one done", TELLER, "program.txt", TOLD, ("--refused",),
         ("2 allocations refused in 1 commands",), "1 passed, 0 failed"),
    Case("--refused, of several files another one told", TELLER.replace('"m: x', '"n: x'), "program.txt", TOLD, ("--refused",),
         ('got     5 "" "n: x\\ngixcfg: E27\\n", with allocation 1 refused',), "0 passed, 1 failed"),
    Case("--refused, of one file something told", TELLER, "program.txt", TOLD.replace(' "n"', ""), ("--refused",),
         ('got     5 "" "m: x\\ngixcfg: E27\\n", with allocation 1 refused',), "0 passed, 1 failed"),
    program_run("right", (), "2 passed, 0 failed"),
    program_run("output", ('program.txt:1: gixcfg "get" < "v"', 'wanted  0 "v" ""', 'got     0 "v!" ""'), "1 passed, 1 failed"),
    program_run("error", ('got     0 "v" "?"',), "1 passed, 1 failed"),
    program_run("status", ('got     1 "v" ""',), "1 passed, 1 failed"),
    program_run("reads", ("1 bytes of its standard input were read",), "1 passed, 1 failed"),
    program_run("hangs", ("got     nothing: no end in",), "0 passed, 2 failed"),
    Case("gixcfg, what stands in its directory", LOOKER, "program.txt", AROUND, (), (), "1 passed, 0 failed"),
    Case("gixcfg, another file in its directory", LOOKER, "program.txt", AROUND.replace('"v" file', '"u" file'), (), ('got     0 "u ww x u',),
         "0 passed, 1 failed"),
    Case("gixcfg, what its directory has in the end", LOOKER, "program.txt", LEAVING, (), (), "1 passed, 0 failed"),
    Case("gixcfg, another text in its directory in the end", LOOKER, "program.txt", LEAVING.replace('"d/m" "ww"', '"d/m" "w"'), (),
         ('file "d/m" "ww"',), "0 passed, 1 failed"),
    Case("gixcfg, another mode in its directory in the end", LOOKER, "program.txt", LEAVING.replace("mode 0", "mode 600"), (),
         ('file "k" "y" mode 0',), "0 passed, 1 failed"),
    Case("gixcfg, a file more in its directory in the end", LOOKER, "program.txt", LEAVING.replace(' file "m" "v" file "s"', ' file "s"'), (),
         ('file "m" "v"',), "0 passed, 1 failed"),
    Case("gixcfg, nothing that a directory has", LOOKER, "program.txt", 'gixcfg "get" in thing "m"\n  0 "" ""\n', (),
         ("nothing that a directory may have: thing",), "0 passed, 1 failed"),
    other("the same", "right", "", (), "4 passed, 0 failed"),
    other("a difference", "changed", "", ("rows.txt:4: a difference that isn't listed",), "3 passed, 1 failed"),
    other("a listed one", "changed", REASON + "count\n  ok 1\n  ok 2\n", ("1 listed differences were seen",),
          "4 passed, 0 failed"),
    other("a listed one that is another", "changed", REASON + "count\n  ok 1\n  ok 3\n",
          ("a difference that isn't listed", "a listed difference is gone"), "3 passed, 2 failed"),
    other("a listed one that is gone", "right", REASON + "count\n  ok 1\n  ok 2\n", ("a listed difference is gone",),
          "4 passed, 1 failed"),
    other("commands that it has not", "right", "", ("passed over:     1 of name", "passed over:     1 of loadkept",
                                                    "passed over:     1 of test cases whose file"), "4 passed, 0 failed", BEYOND),
    other("commands on what lies outside that it has not", "right", "",
          ("passed over:     1 of paths", "passed over:     1 of test cases whose file", "passed over:     1 of failread",
           "passed over:     2 of test cases behind what"), "3 passed, 0 failed", LOADERS),
    other("one without a reason", "changed", "in rows.txt: one\ncount\n  ok 1\n  ok 2\n", ("has a reason",),
          "0 passed, 1 failed"),
    # Four test cases, and two transcripts with an allocation refused.
    tried("right", ("not proved:", "1 allocations refused in 2 transcripts: 1 of a command"), "6 passed, 0 failed"),
    tried("changed", ("rows.txt:4: count", "wanted  ok 1", "got     ok 2"), "5 passed, 1 failed"),
    tried("kept", ('rows.txt:10: print', 'got     ok "v"'), "5 passed, 1 failed"),
    tried("noreset", ("rows.txt:6: behind the last command: it printed ['unknown'] behind its answers",), "6 passed, 2 failed"),
    tried("missing", ("rows.txt:4: count", 'got     ok "v"', "2 answers to 3 commands"), "2 passed, 7 failed"),
    tried("more", ("behind the last command: it printed ['ok', 'ok']", "4 answers to 3 commands"), "4 passed, 4 failed"),
    tried("memory", ("rows.txt:10: behind the last command: it ended with status 5",), "4 passed, 4 failed"),
    tried("stops", ("rows.txt:2: load", "got     nothing: fault: fault kind=index"), "0 passed, 7 failed"),
    tried("uncompiled", ("rt try started nothing", "error: it isn't Rattle"), "0 passed, 2 failed"),
    tried("E1", ('err E1 1 name "", with allocation 120 refused',), "5 passed, 2 failed"),
    tried("never", ("no allocation of a command, or of a call, was refused at all",), "6 passed, 1 failed"),
    # Two runs, and 60 starts with an allocation refused.
    tried_run("right", ("60 allocations refused in 60 starts of the same 1 runs of gixcfg: 60 of a call",), "62 passed, 0 failed"),
    tried_run("output", ('program.txt:1: gixcfg "get" < "v"', 'wanted  0 "v" ""', 'got     0 "v!" ""'), "61 passed, 1 failed"),
    tried_run("error", ('got     0 "v" "?"',), "61 passed, 1 failed"),
    tried_run("status", ('got     1 "v" ""',), "61 passed, 1 failed"),
    tried_run("reads", ("1 bytes of its standard input were read",), "61 passed, 1 failed"),
    tried_run("garbled", ("got     nothing: no ending: garbled",), "61 passed, 1 failed"),
    tried_run("more", ("it printed ['ok'] behind its answers",), "1 passed, 62 failed"),
    tried_run("stops", ("got     nothing: fault: fault kind=index",), "0 passed, 63 failed"),
    tried_run("E1", ('5 "" "gixcfg: E1\\n", with an allocation refused',), "2 passed, 61 failed"),
    tried_run("never", ("no allocation of a command, or of a call, was refused at all",), "62 passed, 1 failed"),
    tried_run("right", (), "61 passed, 0 failed", IN_DIRECTORY),
    tried_run("text", ('file "d/m" "\\x00" mode 640',), "0 passed, 62 failed", IN_DIRECTORY),
    # What a run leaves where memory was wanting has any rights.
    tried_run("mode", ('file "d/m" "w" mode 1',), "60 passed, 1 failed", IN_DIRECTORY),
    tried_run("nofolder", ("the machine doesn't take the line folder x64",), "0 passed, 62 failed", IN_DIRECTORY),
    tried_run("right", ("1 runs of gixcfg need the built program: 1 for a pipe",), "0 passed, 0 failed",
              'gixcfg "get" in pipe "m" "x"\n  0 "" ""\n'),
    left("right", (), "1 passed, 0 failed"),
    left("noheader", (), "1 passed, 0 failed"),
    left("refused", ('rows.txt:2: set "a" - "k" "v"', "is refused")),
    left("entries", ("has other entries",)),
    left("count", ("has another count of entries",)),
    left("comments", ("has other comments",)),
    left("printed", ("is printed otherwise",)),
    left("written", ("printfail 3: another text is written",)),
    left("nobeginning", ("printfail 2: no beginning",)),
    left("endless", ("printfail: more writes than bytes",)),
    left("cause", ("printfail 1 answers ['err', 'E27']",)),
]


def _check_case(case, tools, directory):
    """What is wrong with what the tool tells of this case, or None."""
    rows, program = directory / "rows", directory / ("rt" if "--try" in case.words else "program")
    rows.mkdir()
    (rows / case.file).write_text(case.rows)
    words = list(case.words)
    if words[:1] == ["--against"]:
        (rows / "DIFFERENCES.txt").write_text(words[1])
        words[1] = str(program)
    _make(case.program, program)
    called = [sys.executable, str(tools / case.tool), "--rows", str(rows), "--program", str(program), *words]
    if case.tool == "rows":
        called += ["--gixcfg", str(program), "--limit", "4"]
    variables = {**os.environ, "PATH": f"{directory}:{os.environ['PATH']}"}
    ran = subprocess.run(called, stdout=subprocess.PIPE, stderr=subprocess.STDOUT, env=variables)
    told = ran.stdout.decode("utf-8", "replace")
    missing = [part for part in case.told if part not in told]
    is_right = told.endswith(f"{case.count}\n") and ran.returncode == (0 if case.count.endswith(" 0 failed") else 1)
    if is_right and not missing:
        return None
    return f"it ended with status {ran.returncode}, and told\n{told}" + "".join(f"without  {part}\n" for part in missing)


def _make(source, path):
    """Makes a program: a Python script, or one in C."""
    if source.startswith("#!"):
        path.write_text(source.replace("PYTHON", sys.executable))
        path.chmod(0o700)
        return
    text = path.with_suffix(".c")
    text.write_text(source)
    subprocess.run(["cc", "-O0", "-o", str(path), str(text)], check=True)


def _state(*sections):
    return ["", " ".join(("ok",) + sections), ""]


A, B, C = "[0 x61 - x6b x31 ]", "[1 x62 - x6b x32 ]", "[2 x63 - ]"
# What may hold of a file behind a refused allocation, by command, before, behind and behind the error.
STATES = [
    ("load", _state(A), _state(B), _state(A), True),
    ("load", _state(A), _state(B), _state(B), False),
    ("append", _state(A), _state(A, B), _state(A), True),
    ("append", _state(A), _state(A, B), _state(A, B), False),
    ("newsection", _state(A, B), _state(A, B, C), _state(A, B, C), True),
    ("newsection", _state(A), _state(A, B), _state(A, B), False),
    ("rename", _state("[0 x61 - ]", "[1 x61 - ]"), _state("[0 x62 - ]", "[1 x62 - ]"), _state("[0 x62 - ]", "[1 x61 - ]"), False),
    ("rename", _state("[0 x61 - ]", "[1 x61 - ]"), _state("[0 x62 - ]", "[1 x62 - ]"), _state("[0 x61 - ]", "[1 x62 - ]"), False),
    ("setall", _state("[0 x61 - x6b x31 ]", "[1 x61 - x6b x31 ]"), _state("[0 x61 - x6b x32 ]", "[1 x61 - x6b x32 ]"),
     _state("[0 x61 - x6b x32 ]", "[1 x61 - x6b x31 ]"), True),
    ("setall", _state("[0 x61 - x6b x31 ]", "[1 x61 - x6b x31 ]"), _state("[0 x61 - x6b x32 ]", "[1 x61 - x6b x32 ]"),
     _state("[0 x61 - x6b x31 ]", "[1 x61 - x6b x32 ]"), False),
    ("resolve", _state(A, B), _state(A, C, B), _state(A, C, B), True),
    ("resolve", _state(A, B), _state(A, C, B), _state(A, C), False),
]


def run(tools):
    """Checks each case, and closes with their count."""
    report = Report()
    for case in CASES:
        with tempfile.TemporaryDirectory() as directory:
            fault = _check_case(case, tools, Path(directory))
        _count(report, case.name, fault)
    for word, before, done, after, is_right in STATES:
        holds = refused.EDITS.get(word, refused.as_before)(before, done, after)
        _count(report, f"the state behind a refused {word}", None if holds == is_right else after)
    return report.close()


def _count(report, name, fault):
    if fault is None:
        report.row_passed()
    else:
        report.fault(f"{name}: {fault}")
