"""Which crate stands on which: a line a layer, lowest at the bottom, each crate above those that it is built on."""
import svg

# What users of the project meet, and what the rest is for.
PUBLIC = {"gix_config": "the library", "gix_config_c": "the library for C", "gixcfg": "the program"}
WIDTH, STEP, HEIGHT = 920, 54, 24


def crates_of(text):
    """The crates, each with those of this repository that it names."""
    named = [line.partition(":") for line in text.splitlines() if line and not line.startswith("#")]
    own = {head.split()[0]: tail.split() for head, _, tail in named}
    return {name: [other for other in others if other in own] for name, others in own.items()}


def below(crates, name):
    """All that a crate stands on."""
    found = set()
    for other in crates[name]:
        found |= {other} | below(crates, other)
    return found


def layer(crates, name):
    return 1 + max((layer(crates, other) for other in crates[name]), default=-1)


def picture(text):
    crates = crates_of(text)
    rows = {}
    for name in crates:
        rows.setdefault(layer(crates, name), []).append(name)
    height = STEP * len(rows) + 20
    places, lines, boxes = {}, [], []
    for number, names in sorted(rows.items()):
        wide = [7.4 * len(name) + 14 for name in names]
        # (what a public one is stands to its right)
        gap = (WIDTH - sum(wide)) / (len(names) + 1)
        x, y = gap, height - STEP * (number + 1)
        for name, width in zip(names, wide):
            places[name] = x, y, width
            boxes.append(svg.box(x, y, width, HEIGHT, "public" if name in PUBLIC else "box"))
            boxes.append(svg.words(x + width / 2, y + 16, name, anchor="middle"))
            boxes += [svg.words(x + width + 5, y + 16, PUBLIC[name], "small")] if name in PUBLIC else []
            x += width + gap
    for name, others in crates.items():
        # (only what no other of them stands on, since the rest is said by these)
        for other in [it for it in others if not any(it in below(crates, between) for between in others)]:
            x, y, width = places[name]
            to_x, to_y, to_width = places[other]
            lines.append(svg.path(f"M{x + width / 2:g} {y + HEIGHT:g}L{to_x + to_width / 2:g} {to_y:g}"))
    return svg.picture("Which crate stands on which, lowest first", WIDTH, height, [*lines, *boxes])
