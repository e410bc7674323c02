"""Texts of lines: wires in SPEF, and sizes."""

import re

from .numbers import Refused, decimal, not_negative

WORD = re.compile(rb"[^ \t\r\f\n]+")
INDEX = re.compile(rb"\*[0-9]+")
SECTIONS = (b"*CONN", b"*CAP", b"*RES")
ALWAYS_BAD = (b"*END", b"*R_NET", b"*D_PNET", b"*R_PNET")


def lines_of(text):
    """Lines with their numbers from 1; a newline at the end of a text begins no line."""
    lines = text.split(b"\n")
    return list(enumerate(lines[:-1] if lines[-1] == b"" else lines, 1))


def words_of(line):
    """The words before a comment, which begins only where a word would."""
    words = WORD.findall(line)
    comment = next((i for i, word in enumerate(words) if word.startswith(b"//")), len(words))
    return words[:comment]


def plain_name(name):
    """A name without its backslashes; the byte after each is kept."""
    return re.sub(rb"\\(.?)", rb"\1", name, flags=re.DOTALL)


class WireReader:
    def __init__(self):
        self.tens, self.names, self.in_names, self.section, self.wires = 0, {}, False, None, {}

    def unit(self, words):
        if len(words) != 3 or words[2].upper() not in (b"FF", b"PF"):
            raise Refused("a bad unit")
        powers = {1_000_000: 0, 10_000_000: 1, 100_000_000: 2}
        self.tens = powers[decimal(words[1])] + (3 if words[2].upper() == b"PF" else 0)

    def block(self, words):
        if len(words) < 3:
            raise Refused("a bad block")
        total = not_negative(words[2], self.tens)
        name = self.names[words[1]] if INDEX.fullmatch(words[1]) else plain_name(words[1])
        if name in self.wires:
            raise Refused(f"two blocks of {name!r}")
        self.wires[name] = total
        self.section = b"*D_NET"

    def inner(self, first):
        if first == b"*D_NET" or (self.section == b"*RES" and first not in (*SECTIONS, b"*END")):
            raise Refused("a bad line of a block")
        if first == b"*END":
            self.section = None
        elif first in SECTIONS:
            self.section = first

    def outer(self, words):
        if words[0] == b"*C_UNIT":
            self.unit(words)
        elif words[0] == b"*NAME_MAP" and len(words) == 1:
            self.in_names = True
            return
        elif words[0] == b"*D_NET":
            self.block(words)
        elif words[0] in (*ALWAYS_BAD, b"*NAME_MAP"):
            raise Refused("a bad line")
        elif self.in_names and len(words) == 2 and INDEX.fullmatch(words[0]):
            self.names[words[0]] = plain_name(words[1])
            return
        self.in_names = False

    def line(self, words):
        if words and self.section is None:
            self.outer(words)
        elif words:
            self.inner(words[0])


def read_wires(text):
    """The total capacitance of each net."""
    reader = WireReader()
    for number, line in lines_of(text):
        try:
            reader.line(words_of(line))
        except (Refused, KeyError) as cause:
            raise Refused(f"spef: line {number}: {cause}") from cause
    if reader.section is not None:
        raise Refused("spef: a block stays open")
    return reader.wires


def read_sizes(text, alternatives):
    """The cell of each instance; `alternatives` has the names of the cells that each may take."""
    given = {}
    for number, line in lines_of(text):
        words = re.findall(rb"[^ \t]+", line.removesuffix(b"\r"))
        if not words:
            continue
        if len(words) != 2 or words[0] not in alternatives or words[0] in given or words[1] not in alternatives[words[0]]:
            raise Refused(f"sizes: line {number}: {line!r}")
        given[words[0]] = words[1]
    for name in alternatives:
        if name not in given:
            raise Refused(f"sizes: {name!r} isn't named")
    return given
