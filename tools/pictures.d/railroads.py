"""Railroad diagrams of a grammar, and which texts it accepts."""
import re

import svg
from words import QUOTED, unquote

GAP, ROUND, HALF = 14, 8, 13
TOKEN = re.compile(r"'[^']*'|[\w-]+|[\[\]{}|]")


class Box:
    """A word on the line."""

    def __init__(self, text, kind):
        self.text, self.kind, self.width, self.up, self.down = text, kind, 7.2 * len(text) + 20, HALF, HALF

    def draw(self, x, y):
        return [svg.box(x, y - HALF, self.width, 2 * HALF, self.kind, HALF if self.kind == "word" else 3),
                svg.words(x + self.width / 2, y + 4.5, self.text, anchor="middle")]


class Row:
    """What comes one after the other."""

    def __init__(self, parts):
        self.parts = parts
        self.width = sum(it.width for it in parts) + GAP * (len(parts) - 1)
        self.up, self.down = max(it.up for it in parts), max(it.down for it in parts)

    def draw(self, x, y):
        lines = []
        for n, part in enumerate(self.parts):
            lines += part.draw(x, y)
            x += part.width
            if n + 1 < len(self.parts):
                lines.append(svg.path(f"M{x:g} {y:g}h{GAP}"))
                x += GAP
        return lines


class Choice:
    """One of several, the first on the line, the others below."""

    def __init__(self, parts):
        self.parts, self.width, self.up = parts, max(it.width for it in parts) + 4 * ROUND, parts[0].up
        self.down = parts[0].down + sum(it.up + it.down + 6 for it in parts[1:])

    def draw(self, x, y):
        lines, inner, at = [], self.width - 4 * ROUND, y
        for n, part in enumerate(self.parts):
            at += self.parts[n - 1].down + part.up + 6 if n else 0
            left, right = x + 2 * ROUND, x + self.width
            if n:
                lines += [svg.path(f"M{x:g} {y:g}q{ROUND} 0 {ROUND} {ROUND}V{at - ROUND:g}q0 {ROUND} {ROUND} {ROUND}"),
                          svg.path(f"M{right:g} {y:g}q{-ROUND} 0 {-ROUND} {ROUND}V{at - ROUND:g}q0 {ROUND} {-ROUND} {ROUND}")]
            else:
                lines += [svg.path(f"M{x:g} {y:g}h{2 * ROUND}"), svg.path(f"M{right:g} {y:g}h{-2 * ROUND}")]
            lines += [*part.draw(left, at), svg.path(f"M{left + part.width:g} {at:g}H{left + inner:g}")]
        return lines


class Around:
    """What may be missing, by a line above it; and what may come again, by one below."""

    def __init__(self, part, comes_again):
        self.part, self.comes_again, self.width = part, comes_again, part.width + 4 * ROUND
        self.up, self.down = part.up + 14, part.down + (14 if comes_again else 0)

    def draw(self, x, y):
        part, left, right = self.part, x + 2 * ROUND, x + self.width - 2 * ROUND
        above, below = y - part.up - 8, y + part.down + 8
        lines = [svg.path(f"M{x:g} {y:g}h{2 * ROUND}M{right:g} {y:g}h{2 * ROUND}"),
                 svg.path(f"M{x:g} {y:g}q{ROUND} 0 {ROUND} {-ROUND}V{above + ROUND:g}q0 {-ROUND} {ROUND} {-ROUND}"
                          f"H{right:g}q{ROUND} 0 {ROUND} {ROUND}V{y - ROUND:g}q0 {ROUND} {ROUND} {ROUND}")]
        if self.comes_again:
            lines.append(svg.path(f"M{right:g} {y:g}q{ROUND} 0 {ROUND} {ROUND}V{below - ROUND:g}q0 {ROUND} {-ROUND} {ROUND}"
                                  f"H{left:g}q{-ROUND} 0 {-ROUND} {-ROUND}V{y + ROUND:g}q0 {-ROUND} {ROUND} {-ROUND}"
                                  f"M{(left + right) / 2 + 5:g} {below - 4:g}l-7 4l7 4"))
        return [*lines, *part.draw(left, y)]


def parsed(text):
    """The rules of a grammar, each as a tree of tuples, and its words with what they say and which bytes they are."""
    rules, words = {}, {}
    for line in text.splitlines():
        rule, word = re.fullmatch(r"([\w-]+) = (.*)", line), re.fullmatch(r"([\w-]+) : (.*) : (.*)", line)
        if rule:
            tokens = TOKEN.findall(rule[2])
            rules[rule[1]] = choice_of(tokens)
            assert not tokens, f"{rule[1]}: {tokens} is left"
        elif word:
            words[word[1]] = word[2], word[3]
    return rules, words


def choice_of(tokens):
    options = [row_of(tokens)]
    while tokens and tokens[0] == "|":
        tokens.pop(0)
        options.append(row_of(tokens))
    return ("choice", options) if len(options) > 1 else options[0]


def row_of(tokens):
    parts = []
    while tokens and tokens[0] not in "|]}":
        token = tokens.pop(0)
        if token in "[{":
            parts.append(("maybe" if token == "[" else "any", choice_of(tokens)))
            tokens.pop(0)
        else:
            parts.append(("text", token[1:-1]) if token[0] == "'" else ("name", token))
    return ("row", parts)


def diagram(tree, rules, words):
    kind, inner = tree
    if kind == "row":
        return Row([diagram(it, rules, words) for it in inner]) if len(inner) > 1 else diagram(inner[0], rules, words)
    if kind == "choice":
        return Choice([diagram(it, rules, words) for it in inner])
    if kind in ("maybe", "any"):
        return Around(diagram(inner, rules, words), kind == "any")
    return Box(inner, "word") if kind == "text" else Box(inner if inner in rules else words[inner][0], "box" if inner in rules else "word")


def picture(text):
    rules, words = parsed(text)
    lines, y, width = [], 10, 0
    for name, tree in rules.items():
        made = diagram(tree, rules, words)
        y += 18
        lines.append(svg.words(10, y, name))
        y += made.up + 10
        end = 30 + made.width
        lines += [svg.path(f"M10 {y:g}h20M10 {y - 6:g}v12"), *made.draw(30, y), svg.path(f"M{end:g} {y:g}h20M{end + 20:g} {y - 6:g}v12")]
        y += made.down + 14
        width = max(width, made.width + 70)
    return svg.picture("A text, a header, an entry and a value as railroad diagrams", width, y, lines)


def pattern(tree, rules, words):
    """A regular expression of a rule, all rules put in, since none comes in itself."""
    kind, inner = tree
    if kind == "row":
        return "".join(pattern(it, rules, words) for it in inner)
    if kind == "choice":
        return "(?:" + "|".join(pattern(it, rules, words) for it in inner) + ")"
    if kind in ("maybe", "any"):
        return f"(?:{pattern(inner, rules, words)}){'?' if kind == 'maybe' else '*'}"
    return re.escape(inner) if kind == "text" else pattern(rules[inner], rules, words) if inner in rules else words[inner][1]


def accepts(text, data):
    """Whether the grammar of a text accepts some bytes."""
    rules, words = parsed(text)
    return re.fullmatch(pattern(rules["text"], rules, words).encode("latin-1"), data, re.DOTALL) is not None


def accepted_rows(directory):
    """The texts of which rows say whether they are accepted, each with that and where it is said."""
    for file in sorted(directory.glob("*.txt")):
        lines = file.read_text(encoding="utf-8").splitlines()
        for number, (command, answer) in enumerate(zip(lines, lines[1:]), 1):
            told = re.fullmatch(rf"events ({QUOTED})", command)
            if told and re.match(r"  (ok|err E1)\b", answer):
                yield unquote(told[1]), answer.startswith("  ok"), f"{file.name}:{number}"
