"""Structural netlists."""

import re
from dataclasses import dataclass, field

from .numbers import Refused

PIECE = re.compile(
    rb"(?P<white>[ \t\r\f\n]+|//[^\n]*|/\*.*?\*/)|\\(?P<escaped>[^ \t\r\f\n]+)|(?P<word>[A-Za-z0-9_$]+(?:\[[0-9]+\])?)|(?P<mark>.)",
    re.DOTALL,
)
KEYWORDS = (b"module", b"endmodule", b"input", b"output", b"wire")


@dataclass
class Instance:
    name: bytes
    cell: bytes
    links: dict


@dataclass
class Netlist:
    """Nets are numbered by their first appearance."""

    inputs: list = field(default_factory=list)
    outputs: list = field(default_factory=list)
    nets: dict = field(default_factory=dict)
    instances: list = field(default_factory=list)


class Reader:
    def __init__(self, text):
        self.pieces = [(piece.lastgroup, piece[piece.lastgroup]) for piece in PIECE.finditer(text) if piece.lastgroup != "white"]
        self.at = 0
        self.netlist = Netlist()

    def peek(self):
        return self.pieces[self.at] if self.at < len(self.pieces) else ("end", b"")

    def refuse(self):
        raise Refused(f"netlist: piece {self.at} is {self.peek()[1]!r}")

    def takes(self, kind, text):
        if self.peek() != (kind, text):
            return False
        self.at += 1
        return True

    def want(self, kind, text):
        if not self.takes(kind, text):
            self.refuse()

    def name(self):
        kind, text = self.peek()
        plain = kind == "word" and (text[:1].isalpha() or text[:1] == b"_") and text not in KEYWORDS
        if not plain and kind != "escaped":
            self.refuse()
        self.at += 1
        return text

    def net(self):
        name = self.name()
        self.netlist.nets.setdefault(name, len(self.netlist.nets))
        return name

    def several(self, read):
        found = [read()]
        while self.takes("mark", b","):
            found.append(read())
        return found

    def header(self):
        self.want("word", b"module")
        self.name()
        if self.takes("mark", b"(") and not self.takes("mark", b")"):
            self.several(self.name)
            self.want("mark", b")")
        self.want("mark", b";")

    def link(self):
        self.want("mark", b".")
        pin = self.name()
        self.want("mark", b"(")
        net = self.net()
        self.want("mark", b")")
        return pin, net

    def instance(self):
        cell, name, links = self.name(), self.name(), []
        self.want("mark", b"(")
        if not self.takes("mark", b")"):
            links = self.several(self.link)
            self.want("mark", b")")
        if len(dict(links)) != len(links):
            raise Refused(f"netlist: {name!r} connects a pin twice")
        self.netlist.instances.append(Instance(name, cell, dict(links)))

    def item(self):
        if self.takes("word", b"input"):
            self.netlist.inputs += self.several(self.net)
        elif self.takes("word", b"output"):
            self.netlist.outputs += self.several(self.net)
        elif self.takes("word", b"wire"):
            self.several(self.net)
        else:
            self.instance()
        self.want("mark", b";")

    def whole(self):
        self.header()
        while not self.takes("word", b"endmodule"):
            self.item()
        if self.peek()[0] != "end":
            self.refuse()
        ports = self.netlist.inputs + self.netlist.outputs
        names = [instance.name for instance in self.netlist.instances]
        if len(set(ports)) != len(ports) or len(set(names)) != len(names):
            raise Refused("netlist: a name stands twice")
        return self.netlist


def read_netlist(text):
    return Reader(text).whole()
