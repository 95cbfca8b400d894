"""Names with parts that anybody names."""


def split(name):
    """A name's section, its subsection if it has one, and its own name."""
    section, *between, last = name.split(".")
    return section.lower(), ".".join(between) if between else None, last.lower()


def is_any(part):
    """Whether this part of a pattern stands for whatever somebody names."""
    return part == "*" or part.startswith("<") and part.endswith(">")


def fits(pattern, name):
    """Whether a name is one of a pattern; another pattern is a name too."""
    (section, inner, last), (its_section, its_inner, its_last) = split(pattern), split(name)
    if section != its_section or (inner is None) != (its_inner is None):
        return False
    return (inner is None or inner == its_inner or is_any(inner)) and (last == its_last or is_any(last) or is_any(its_last))
