"""Words of transcripts and of the program: BYTES are `"[a]\\n"` in a transcript and `x5b615d0a` in the program."""

import re

QUOTED = r'"(?:[^"\\]|\\.)*"'
_PIECE = re.compile(r'\\x[0-9a-f]{2}|\\[ntr"\\]|[ !#-\[\]-~]')
_BYTES_WORD = re.compile(r"(?<![^ ])([A-Z]:)?x((?:[0-9a-f]{2})*)(?![^ ])")
_ESCAPES = {"\\n": 10, "\\t": 9, "\\r": 13, '\\"': 34, "\\\\": 92}
_ESCAPED = {byte: escape for escape, byte in _ESCAPES.items()}


class Malformed(Exception):
    """A line that has not the form it should have."""


def unquote(word):
    """The bytes that a word in quotes stands for."""
    text, out, at = word[1:-1], bytearray(), 0
    while at < len(text):
        piece = _PIECE.match(text, at)
        if piece is None:
            raise Malformed(f"no such byte in quotes: {text[at:at + 4]}")
        out.append(_byte_of(piece.group()))
        at = piece.end()
    return bytes(out)


def _byte_of(piece):
    if piece in _ESCAPES:
        return _ESCAPES[piece]
    return int(piece[2:], 16) if len(piece) == 4 else ord(piece)


def quote(data):
    """These bytes as a word in quotes."""
    return '"' + "".join(_piece_of(byte) for byte in data) + '"'


def _piece_of(byte):
    if byte in _ESCAPED:
        return _ESCAPED[byte]
    return chr(byte) if 32 <= byte < 127 else f"\\x{byte:02x}"


def hex_word(data):
    """These bytes as the program's word."""
    return "x" + data.hex()


def to_program(line):
    """A line of a transcript as the program has it."""
    line_without = re.sub(QUOTED, lambda word: hex_word(unquote(word.group())), line)
    if '"' in line_without:
        raise Malformed("a quote stays open")
    return line_without


def to_transcript(line):
    """A line of the program as a transcript has it."""
    return _BYTES_WORD.sub(lambda word: (word.group(1) or "") + quote(bytes.fromhex(word.group(2))), line)
