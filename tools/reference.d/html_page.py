"""Pages of a reference in HTML: a frame, comments as they are written in sources, and signatures."""
import re
from html import escape

STYLE = """body { font: 16px/1.5 sans-serif; max-width: 60rem; margin: 2rem auto; padding: 0 1rem; color: #1f2328; background: #fff }
pre, code { font-family: monospace; font-size: 14px } pre { overflow-x: auto; background: #f3f4f6; padding: .5rem .8rem }
h2 { border-bottom: 1px solid #c4cbd3; margin-top: 2.5rem } h3 { margin: 2rem 0 .3rem } nav { columns: 16rem; font-size: 14px }
details { margin: .3rem 0 } summary { cursor: pointer; color: #57606a } abbr { text-decoration: none; color: #0550ae } a { color: #0550ae }
@media (prefers-color-scheme: dark) {
body { color: #e6edf3; background: #0d1117 } pre { background: #161b22 } a, abbr { color: #79c0ff } }"""


def page(title, body, back):
    """A page, with a link back to another one if there is one."""
    way = f'<p><a href="{back}">All pages</a></p>\n' if back else ""
    return (f'<!DOCTYPE html>\n<html lang="en">\n<meta charset="utf-8">\n<meta name="viewport" content="width=device-width">\n'
            f"<title>{escape(title)}</title>\n<style>\n{STYLE}\n</style>\n{way}<h1>{escape(title)}</h1>\n{body}\n</html>\n")


def inline(text, link_of=lambda name: None):
    """A line of a comment: code in backquotes, which leads to where it is told, if `link_of` knows that."""
    def code(found):
        word = found[1] or found[2]
        link = link_of(word)
        made = f"<code>{escape(word)}</code>"
        return f'<a href="{link}">{made}</a>' if link else made
    parts, at = [], 0
    for found in re.finditer(r"\[`([^`]+)`\](?:\([^)]*\))?|`([^`]+)`", text):
        parts += [escape(text[at:found.start()]), code(found)]
        at = found.end()
    return "".join([*parts, escape(text[at:])])


def comment(text, link_of=lambda name: None):
    """A comment: paragraphs, lists, headings, and code between fences or behind four spaces."""
    made = []
    for block in re.split(r"\n\s*\n", text.strip()):
        lines = block.splitlines()
        if block.startswith("```") or all(line.startswith("    ") for line in lines):
            made.append(f"<pre>{escape(block.strip('`'))}</pre>")
        elif block.startswith("# "):
            made.append(f"<p><b>{escape(lines[0][2:])}</b></p>")
            made += [comment("\n".join(lines[1:]), link_of)] if lines[1:] else []
        elif re.match(r"[-*] ", block):
            items = re.split(r"^[-*] ", block, flags=re.MULTILINE)[1:]
            made.append("<ul>" + "".join(f"<li>{inline(' '.join(it.split()), link_of)}</li>" for it in items) + "</ul>")
        elif block.startswith("|"):
            made.append(f"<pre>{escape(block)}</pre>")
        else:
            made.append(f"<p>{inline(' '.join(block.split()), link_of)}</p>")
    return "\n".join(made)


def place(name):
    """What a link names a place of a page by."""
    return re.sub(r"\W+", "-", name).strip("-")
