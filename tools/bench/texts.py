"""The texts that are measured, always the same for the same numbers."""


def _remote(n):
    lines = ['[remote "name-%d"]' % n]
    if n % 4 == 0:
        lines.append("\t# remote number %d" % n)
    lines.append("\turl = https://a.test/%d.git" % n)
    if n % 3 == 0:
        lines.append('\tfetch = "+refs/*:refs/r/%d/*" ; all' % n)
    else:
        lines.append("\tfetch = +refs/*:refs/r/%d/*" % n)
    if n % 5 == 0:
        lines += ["\tpushurl = https://a.test/\\", "\t\tother/%d.git" % n]
    lines.append("\ttags = no")
    if n % 2 == 0:
        lines.append("\tprune")
    else:
        lines.append("\tprune = on")
    lines.append("\tdepth=%d" % (n % 100))
    return "\n".join(lines) + "\n"


def remotes(sections):
    """A file as users have them, but for its size: remotes with plain, quoted and continued values and comments."""
    return "".join(map(_remote, range(sections))).encode()


def one_key(entries):
    """A section with so many entries of one key, each with another value."""
    return b"[a]\n" + b"".join(b"\tk = v%d\n" % n for n in range(entries))


def urls(sections):
    """So many sections, each for another URL."""
    return b"".join(b'[http "https://host%d.test/"]\n\tproxy = p%d\n' % (n, n) for n in range(sections))


def includes(files):
    """Sections that include so many files, whose names are numbers, from the directory `included`."""
    return b"".join(b"[include]\n\tpath = included/%d\n" % n for n in range(files))


def included(number):
    """The file of that number: two entries."""
    return b"[a%d]\n\tk = v\n\tl = w\n" % number


# Texts that grow: what grows, the text of so many, how many there are in the larger of two texts, and a key of both.
GROWING = [
    ("sections", remotes, 100000, "remote.name-7.url"),
    ("entries of one section", lambda n: b"[a]\n" + b"".join(b"\tk%d = v\n" % i for i in range(n)), 500000, "a.k7"),
    ("bytes of one value", lambda n: b"[a]\n\tk = " + b"x" * n + b"\n", 20000000, "a.k"),
    ("pieces of one value", lambda n: b"[a]\n\tk = " + b"x\\\n" * n + b"\n", 1000000, "a.k"),
    ("comments", lambda n: b"[a]\n\tk = v\n" + b"# c\n" * n, 1000000, "a.k"),
    ("blank lines", lambda n: b"[a]\n\tk = v\n" + b"  \n" * n, 1000000, "a.k"),
    ("entries of one key", lambda n: b"[a]\n" + b"\tk = v\n" * n, 100000, "a.k"),
    ("sections of one name", lambda n: b"[a]\n\tk = v\n" * n, 100000, "a.k"),
]

# Short items, of which a text may be made whole, by what stands before them.
SHORT_ITEMS = [
    (b"", b" \n"),
    (b"", b"#\n"),
    (b"", b"[a]"),
    (b"", b"[a]\n"),
    (b"", b"[a]b"),
    (b"", b'[a ""]'),
    (b"", b'[a "\\b"]'),
    (b"", b"[.B]"),
    (b"", b"[a]#\n"),
    (b"[a]\n", b"b\n"),
    (b"[a]\n", b"b=\n"),
    (b"[a]\n", b"b=c\n"),
    (b"[a]\n", b" b = c #\n"),
    (b"[a]b=", b"\\\n"),
    (b"[a]\n", b"b=\\\n\n"),
]


# Where the sections stand that include others.
PLACES = ("at the front", "at the end", "spread")


def made(levels, sections):
    """The path of a file of so many sections, the first of so many that include one another, as the program makes it."""
    return f"/{levels - 1}/{sections}/made"


def including(sections, files, place, path):
    """Remotes, of which so many are sections instead that include the path, and stand at that place."""
    include = f"[include]\n\tpath = {path}\n"
    if place == "at the front":
        includes = range(files)
    elif place == "at the end":
        includes = range(sections - files, sections)
    else:
        includes = {n * sections // files for n in range(files)}
    return "".join(include if n in includes else _remote(n) for n in range(sections)).encode()


# Path patterns, and texts to match them against: what a pattern begins with, what is repeated behind that, how often, what it ends
# with; what is repeated in the text, and how often.
PATTERNS = [("", "*a", 64, "b", "a", 200)]
PATTERNS += [("*", "[", n, "]", "a", m) for n, m in ((1000, 1000), (2000, 1000), (4000, 1000), (1000, 2000), (1000, 4000))]
PATTERNS += [("*", "[:", n, "]", "a", 1000) for n in (1000, 2000, 4000)]
PATTERNS += [("*", "a", n, "", "a", 1000) for n in (1000, 2000, 4000)]
PATTERNS += [("", "[", n, "]", "[", 1) for n in (1000, 2000, 4000)]
PATTERNS += [("", "[a-z]", n, "", "a", n) for n in (1000, 2000, 4000)]


def repeated(item, size):
    """A text of that many bytes, or up to an item fewer."""
    before, again = item
    return before + again * ((size - len(before)) // len(again))


def spelled(item):
    """Such a text as the tables name it."""
    before, again = (part.decode().encode("unicode_escape").decode() for part in item)
    return f"`{before}`, then `{again}` again and again" if before else f"`{again}` again and again"


def quotes(pairs):
    """A raw value of so many empty quotes behind a letter, so that they don't enclose the whole."""
    return b"a" + b'""' * pairs
