"""Shows that a comparison with dist/SHA256SUMS fails where a sum or a program is changed, and under another kit says nothing."""
from dataclasses import replace

from release import directory_of
from sums import FILE, Sums, compare, read


def programs():
    """The files that have a sum."""
    return [f"{directory_of('x86_64')}/gixcfg", f"{directory_of('aarch64')}/gixcfg.o", f"{directory_of('aarch64')}/gixcfg"]


def with_other_digit(sums, name):
    """The sums with one digit of one of them changed."""
    sum = sums.files[name]
    return replace(sums, files={**sums.files, name: ("1" if sum[0] == "0" else "0") + sum[1:]})


def failing(wanted, got):
    """The files that fail, and those that nothing is said of."""
    found = list(compare(wanted, got))
    return {name for name, passes, _ in found if passes is False}, {name for name, passes, _ in found if passes is None}


def cases():
    """Each case: what it is, whether it holds."""
    names = programs()
    made = Sums("a kit", "a sum", "a linker 1", {name: f"{at:064x}" for at, name in enumerate(names, 10)})
    written = read(made.text())
    object_, linked = names[1:]
    yield "what was written is read again", written == made
    yield "the same sums pass", failing(written, made) == (set(), set())
    for name in names:
        yield f"another sum of {name} there fails", failing(with_other_digit(written, name), made) == ({name}, set())
        yield f"another {name} here fails", failing(written, with_other_digit(made, name)) == ({name}, set())
        lacking = replace(written, files={it: sum for it, sum in written.files.items() if it != name})
        yield f"no sum of {name} fails", failing(lacking, made) == ({name}, set())
    other = replace(written, kit="another kit")
    yield "under another kit nothing is said", failing(with_other_digit(other, linked), made) == (set(), set(names))
    changed = replace(written, sources="another sum")
    yield "of other sources nothing is said", failing(with_other_digit(changed, linked), made) == (set(), set(names))
    relinked = replace(with_other_digit(with_other_digit(made, linked), object_), linked="a linker 2")
    yield "with another linker nothing is said of what it linked, and the object is compared", \
        failing(written, relinked) == ({object_}, {linked})
    yield "with another linker the same sum passes", failing(written, replace(made, linked="a linker 2")) == (set(), set())
    stands = read(FILE.read_text(encoding="utf-8"))
    yield "dist/SHA256SUMS names a kit and has the sum of each program of this version", \
        bool(stands.kit) and [*stands.files] == names


def run():
    """Tells each case that doesn't hold, and returns the exit status."""
    found = list(cases())
    failed = [what for what, holds in found if not holds]
    for what in failed:
        print(f"dist: self-check: not so: {what}")
    print(f"{len(found) - len(failed)} passed, {len(failed)} failed")
    return 1 if failed else 0
