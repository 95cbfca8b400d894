"""The reference for C: one page of the header's calls, in groups, with its structs and numbers; and a manual page for each call."""
import re
import shutil
import subprocess
import textwrap
from html import escape

from html_page import comment, page, place
from roff import at_front, escaped

CALL = re.compile(r"/\*(?P<about>(?:(?!\*/).)*)\*/\n(?P<call>[\w *]*?\b(?P<name>gix_config_\w+)\([^;{]*\));", re.DOTALL)
DECLARED = re.compile(r"\b(gix_config_\w+)\([^;{]*\);")
STRUCT = re.compile(r"/\*(?P<about>(?:(?!\*/).)*)\*/\ntypedef struct (?P<name>\w+) \{\n(?P<fields>.*?)^\} \w+;", re.DOTALL | re.MULTILINE)
NUMBERS = re.compile(r"/\*(?P<about>(?:(?!\*/).)*)\*/\nenum \{\n(?P<numbers>.*?)^\};", re.DOTALL | re.MULTILINE)
EXAMPLE = re.compile(r"^static void (\w+)_example\(void\)\n\{\n(.*?)^\}\n", re.MULTILINE | re.DOTALL)
OTHERS = "Others"
# What the examples share, told above them.
SHARED = "Of tests/c/examples.c, which has the functions that it calls beside those of the library."


def words(about):
    """A comment of the header without its margin."""
    return "\n".join(re.sub(r"^ \* ?", "", line).strip() for line in about.strip().splitlines())


def groups_of(names, path):
    """The names by the titles of their groups, in the order of the file."""
    forms = [line.split(": ", 1) for line in path.read_text(encoding="utf-8").splitlines() if line and not line.startswith("#")]
    found = {title: [] for title, _ in forms} | {OTHERS: []}
    for name in names:
        found[next((title for title, form in forms if re.fullmatch(form.strip(), name)), OTHERS)].append(name)
    return {title: held for title, held in found.items() if held}


def told(name, about, code):
    """What the page has of a call or a struct."""
    return [f'<h3 id="{place(name)}"><code>{name}</code></h3>', comment(words(about)), f"<pre>{escape(code)}</pre>"]


def examples_of(path):
    """The examples by the calls that they are of: the bodies of the functions of a program, which tools/c_library runs."""
    return {name: textwrap.dedent(body) for name, body in EXAMPLE.findall(path.read_text(encoding="utf-8"))}


def calls_of(text):
    """The calls of the header, by their names."""
    return {found["name"]: found for found in CALL.finditer(text)}


def manual_pages(header, groups, examples):
    """The manual page of each call: its text by its path, below a directory that `man -M` takes."""
    calls = calls_of(header.read_text(encoding="utf-8"))
    return {f"man3/{name}.3": manual_page(calls[name], examples.get(name), [it for it in names if it != name])
            for names in groups_of(calls, groups).values() for name in names}


def manual_page(call, example, others):
    """The manual page of a call, with its example if it has one, which leads to the others of its group. Its first sentence sums it up."""
    paragraphs = [" ".join(it.split()) for it in re.split(r"\n\s*\n", words(call["about"]))]
    first = re.match(r".*?[.:](?= |$)", paragraphs[0])[0].rstrip(".:")
    lines = [f'.TH {call["name"].upper()} 3 "" libgix_config', ".SH NAME", f"{escaped(call['name'])} \\- {escaped(first)}",
             ".SH SYNOPSIS", ".EX", ".B #include <gix_config.h>", "", *(at_front(escaped(line)) for line in f"{call['call']};".splitlines()), ".EE",
             ".SH DESCRIPTION", *"\n.PP\n".join(at_front(escaped(it)) for it in paragraphs).splitlines(),
             *([".SH EXAMPLES", SHARED, ".PP", ".EX", *(at_front(escaped(line)) for line in example.splitlines()), ".EE"] if example else []),
             ".SH SEE ALSO", *(f".BR {escaped(it)} (3)," for it in others), ".BR gix_config (3)"]
    return "\n".join(lines) + "\n"


def faults_of_manual(name, text):
    """What groff says of a manual page, if it is installed."""
    if shutil.which("groff") is None:
        return ""
    ran = subprocess.run(["groff", "-man", "-ww", "-z", "-Tutf8"], input=text, capture_output=True, text=True, check=False)
    return ran.stderr.strip()


def page_of(header, groups, examples):
    text = header.read_text(encoding="utf-8")
    calls = calls_of(text)
    lines = [comment(words(re.match(r"/\*(.*?)\*/", text, re.DOTALL)[1])), "<nav>"]
    grouped = groups_of(calls, groups)
    for title, names in grouped.items():
        lines += [f"<b>{escape(title)}</b><br>", *(f'<a href="#{place(name)}">{name}</a><br>' for name in names)]
    lines += ['<a href="#structs"><b>Structs</b></a><br>', '<a href="#numbers"><b>Numbers</b></a>', "</nav>"]
    for title, names in grouped.items():
        lines.append(f"<h2>{escape(title)}</h2>")
        for name in names:
            lines += told(name, calls[name]["about"], calls[name]["call"] + ";")
            if name in examples:
                lines.append(f"<details><summary>Example</summary><p>{escape(SHARED)}</p><pre>{escape(examples[name])}</pre></details>")
    lines.append('<h2 id="structs">Structs</h2>')
    for found in STRUCT.finditer(text):
        lines += told(found["name"], found["about"], found["fields"])
    lines.append('<h2 id="numbers">Numbers</h2>')
    for found in NUMBERS.finditer(text):
        lines += [comment(words(found["about"])), f"<pre>{escape(found['numbers'])}</pre>"]
    return page("libgix_config for C", "\n".join(lines), "../index.html")


def results(header, made, manuals, examples):
    """Whether each call that the header declares is on the page, with a comment, and has a manual page that groff takes; and whether each
    example is of such a call, and makes it."""
    text = header.read_text(encoding="utf-8")
    for name, body in examples.items():
        yield name in DECLARED.findall(text) and f"{name}(" in body, f"the example of {name} is of no call, or doesn't make it"
    has_comment = {found["name"] for found in CALL.finditer(text)}
    for name in sorted(set(DECLARED.findall(text))):
        yield f'id="{place(name)}"' in made, f"{name} isn't on the page for C"
        yield name in has_comment, f"{name} has no comment in the header"
        manual = manuals.get(f"man3/{name}.3", "")
        yield call_in(manual) == name, f"{name} has no manual page"
        fault = faults_of_manual(name, manual)
        yield not fault, f"the manual page of {name}: {fault}"


def call_in(manual):
    """The call whose manual page this is."""
    found = re.search(r"^(\S+) \\- \S", manual, re.MULTILINE)
    return found and found[1]
