"""Rules that hold whatever the test cases say."""


class Broken(Exception):
    """A rule doesn't hold."""


def need(holds, why):
    if not holds:
        raise Broken(why)


def bytes_of(word):
    """The bytes of a word, and of an event with its kind before it."""
    return bytes.fromhex(word.rpartition(":")[2][1:])


def check_writers(ask, command, printed):
    """A writer that fails at its first write, at its second, .., until there are fewer."""
    taken = 0
    for number in range(1, len(printed) + 2):
        answer = ask(f"{command} {number}").split(" ")
        if answer[0] == "ok":
            need(bytes_of(answer[1]) == printed, f"{command} {number}: another text is written")
            return
        need(answer[:2] == ["err", "E28"], f"{command} {number} answers {answer}")
        out = bytes_of(answer[2])
        need(printed.startswith(out) and taken <= len(out) < len(printed), f"{command} {number}: no beginning")
        taken = len(out)
    raise Broken(f"{command}: more writes than bytes")
