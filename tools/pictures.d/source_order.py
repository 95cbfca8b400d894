"""Which source of configuration wins: the sources in the order in which they are read, the last on top, each with its place."""
import re

import svg

WIDTH, STEP, LEFT = 1000, 34, 150


def sources_of(source):
    """The sources in order, each with what its comment says."""
    body = re.search(r"pub enum Source \{\n(.*?)^\}", source, re.DOTALL | re.MULTILINE)[1]
    return re.findall(r"/// (.*)\n    (\w+),", body)


def places_of(page):
    """The place of each source, as the page's table has it."""
    table = page.partition("| source | place |")[2].partition("\n\n")[0]
    found = {}
    for line in table.splitlines()[2:]:
        named, place = [cell.strip() for cell in line.strip("|").split("|")]
        names, places = re.findall(r"`(\w+)`", named), place.split(", ")
        apart = len(names) == len(places) > 1
        found.update({name: (places[at] if apart else place).replace("`", "") for at, name in enumerate(names)})
    return found


def picture(source, page):
    sources, places = sources_of(source), places_of(page)
    height = STEP * len(sources) + 50
    lines = [svg.words(20, 24, "A later source overrides an earlier one: of two values of a key the upper one wins.")]
    for at, (about, name) in enumerate(sources):
        y = height - 10 - STEP * (at + 1)
        place = places[name]
        lines += [svg.box(20, y, LEFT - 30, STEP - 8), svg.words(LEFT / 2 + 5, y + 17, name, anchor="middle"),
                  svg.words(LEFT, y + 11, about.replace("`", "")),
                  svg.words(LEFT, y + 24, "no file" if place == "none" else place, "small")]
    x = WIDTH - 16
    lines += [svg.path(f"M{x} {height - 14}L{x} 52M{x - 6} 62L{x} 52L{x + 6} 62"), svg.words(x - 10, 48, "wins", "small", "end"),
              svg.words(x - 10, height - 14, "read first", "small", "end")]
    return svg.picture("Which source wins: later ones override earlier ones", WIDTH, height, lines)
