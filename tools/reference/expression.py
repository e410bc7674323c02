"""Truth tables of Liberty's expressions."""

import re

from .numbers import Refused

TOKEN = re.compile(rb"(?:[ \t\r\f\n]|\\\n)*(?:([A-Za-z_][A-Za-z0-9_\[\]]*)|([01!'^*&+|()]))")
MOST_NAMES = 6
MOST_DEPTH = 64


def tokens_of(text):
    found, at, text = [], 0, text.rstrip(b" \t\r\f\n")
    while at < len(text):
        token = TOKEN.match(text, at)
        if token is None:
            raise Refused(f"no expression: {text!r}")
        found.append(token[1] or token[2])
        at = token.end()
    return found


class Parser:
    """Each form of the grammar answers its table as a number: bit `i` is the value in row `i`."""

    def __init__(self, tokens, names):
        self.tokens, self.names, self.at, self.depth = tokens, names, 0, 0
        self.rows = 2 ** len(names)
        self.all = 2**self.rows - 1

    def next(self):
        return self.tokens[self.at] if self.at < len(self.tokens) else b""

    def take(self, *wanted):
        if self.next() in wanted:
            self.at += 1
            return True
        return False

    def either(self):
        value = self.both()
        while self.take(b"+", b"|"):
            value |= self.both()
        return value

    def begins_operand(self):
        return self.next()[:1].isalpha() or self.next()[:1] in (b"_", b"0", b"1", b"!", b"(")

    def both(self):
        value = self.differ()
        while self.take(b"*", b"&") or self.begins_operand():
            value &= self.differ()
        return value

    def differ(self):
        value = self.inverse()
        while self.take(b"^"):
            value ^= self.inverse()
        return value

    def inverse(self):
        flips = 0
        while self.take(b"!"):
            flips += 1
        value = self.atom()
        while self.take(b"'"):
            flips += 1
        return value ^ self.all if flips % 2 else value

    def atom(self):
        token = self.next()
        self.at += 1
        if token == b"(":
            return self.inner()
        if token in (b"0", b"1"):
            return self.all if token == b"1" else 0
        if token not in self.names:
            raise Refused(f"{token!r} is no operand")
        bit = self.names.index(token)
        return sum(1 << row for row in range(self.rows) if row >> bit & 1)

    def inner(self):
        self.depth += 1
        if self.depth > MOST_DEPTH:
            raise Refused("too deep an expression")
        value = self.either()
        if not self.take(b")"):
            raise Refused("a parenthesis stays open")
        self.depth -= 1
        return value


def truth(text, names):
    """The truth table of an expression over these names: bit `i` is its value where name `j` has bit `j` of `i`."""
    if len(names) > MOST_NAMES:
        raise Refused("more than six names")
    parser = Parser(tokens_of(text), names)
    value = parser.either()
    if parser.at != len(parser.tokens):
        raise Refused(f"no expression: {text!r}")
    return value
