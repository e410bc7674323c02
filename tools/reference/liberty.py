"""Liberty libraries: the tree of groups, and the cells of the profile."""

import re
from dataclasses import dataclass, field

from .expression import truth
from .numbers import TABLE_LIMIT, Refused, Table, decimal, not_negative

PIECE = re.compile(
    rb'(?P<white>(?:[ \t\r\f\n]|\\\n)+|/\*.*?\*/)|"(?P<text>[^"]*)"|(?P<mark>[(){},;:])'
    rb'|(?P<word>(?:(?!/\*|\\\n)[^ \t\r\f\n"(){},;:])+)',
    re.DOTALL,
)
WHITE = re.compile(rb"[ \t\r\f\n]")
MOST_DEPTH = 64
TIME_UNITS = {b"1ps": 0, b"10ps": 1, b"100ps": 2, b"1ns": 3}
SLEWS = (b"input_net_transition", b"input_transition_time")
LOAD = b"total_output_net_capacitance"
TABLES = (b"cell_rise", b"cell_fall", b"rise_transition", b"fall_transition")
OTHER_STORAGE = (b"latch", b"latch_bank", b"ff_bank", b"statetable", b"bus", b"bundle")


def pieces_of(text):
    """Pieces as pairs of a kind and a text."""
    found, at = [], 0
    while at < len(text):
        piece = PIECE.match(text, at)
        if piece is None:
            raise Refused(f"library: byte {at} begins no piece")
        if piece.lastgroup != "white":
            found.append((piece.lastgroup, piece[piece.lastgroup]))
        at = piece.end()
    return found


@dataclass
class Group:
    name: bytes
    args: list
    simple: dict = field(default_factory=dict)
    complex: dict = field(default_factory=dict)
    groups: list = field(default_factory=list)

    def of(self, *names):
        return [group for group in self.groups if group.name in names]


class TreeReader:
    def __init__(self, text):
        self.pieces, self.at = pieces_of(text), 0

    def peek(self):
        return self.pieces[self.at] if self.at < len(self.pieces) else ("end", b"")

    def take(self):
        piece = self.peek()
        self.at += 1
        return piece

    def want(self, kind, text=None):
        piece = self.take()
        if piece[0] != kind or text not in (None, piece[1]):
            raise Refused(f"library: piece {self.at - 1} is {piece[1]!r}")
        return piece[1]

    def args(self):
        """Words and texts up to the closing parenthesis, with at most one comma between two."""
        found = []
        self.want("mark", b"(")
        while self.peek() != ("mark", b")"):
            if found and self.peek() == ("mark", b","):
                self.take()
            kind, text = self.take()
            if kind not in ("word", "text"):
                raise Refused(f"library: piece {self.at - 1} is {text!r}")
            found.append(text)
        self.take()
        return found

    def value(self):
        """The first of the words behind a colon, up to the semicolon."""
        first = None
        while self.peek() != ("mark", b";"):
            kind, text = self.take()
            if kind not in ("word", "text"):
                raise Refused(f"library: piece {self.at - 1} is {text!r}")
            first = text if first is None else first
        self.take()
        if first is None:
            raise Refused(f"library: no value at piece {self.at - 1}")
        return first

    def item(self, group, depth):
        name = self.want("word")
        if self.peek() == ("mark", b":"):
            self.take()
            group.simple[name] = self.value()
            return
        args = self.args()
        if self.peek() == ("mark", b"{"):
            group.groups.append(self.body(name, args, depth + 1))
        else:
            self.want("mark", b";")
            group.complex[name] = args

    def body(self, name, args, depth):
        if depth > MOST_DEPTH:
            raise Refused("library: too deep")
        group = Group(name, args)
        self.want("mark", b"{")
        while self.peek() != ("mark", b"}"):
            if self.peek() == ("mark", b";"):
                self.take()
            else:
                self.item(group, depth)
        self.take()
        return group

    def root(self):
        name = self.want("word")
        root = self.body(name, self.args(), 1)
        if self.peek()[0] != "end":
            raise Refused("library: more than one group")
        return root


@dataclass
class Pin:
    name: bytes
    is_input: bool
    is_clock: bool
    capacitance: int
    slew_bound: int | None
    load_bound: int | None


@dataclass
class Arc:
    """An arc from input `pin` to the output: the edges that it passes, and its tables by edge."""

    pin: bytes
    sense: bytes
    delays: dict
    transitions: dict


@dataclass
class Cell:
    name: bytes
    footprint: bytes
    leakage: int
    is_marked: bool
    is_flop: bool
    truth: int | None
    inputs: list
    output: Pin
    arcs: list

    def kind(self):
        """What cells have in common that may take each other's place."""
        return self.footprint, tuple(pin.name for pin in self.inputs), self.output.name, self.truth


def parts(texts):
    """The runs of bytes between commas and white."""
    return [run for text in texts for run in re.split(rb"(?:[, \t\r\f\n]|\\\n)+", text) if run]


def table_numbers(texts, tens):
    return [decimal(run, tens, TABLE_LIMIT) for run in parts(texts)]


class Reader:
    def __init__(self, root):
        if root.name != b"library":
            raise Refused("library: another root")
        self.root = root
        self.time_tens = TIME_UNITS[root.simple[b"time_unit"]]
        amount, farads = root.complex[b"capacitive_load_unit"]
        self.load_tens = {1_000_000: 0, 10_000_000: 1, 100_000_000: 2}[decimal(amount)] + {b"ff": 0, b"pf": 3}[farads.lower()]
        self.leak_unit = root.simple.get(b"leakage_power_unit")
        self.slew_default = self.amount(root, b"default_max_transition", self.time_tens)
        self.templates = {group.args[0]: group for group in root.of(b"lu_table_template") if group.args}

    @staticmethod
    def amount(group, name, tens, missing=None, limit=2**40):
        return not_negative(group.simple[name], tens, limit) if name in group.simple else missing

    def axis(self, group, template, index, variable):
        texts = group.complex.get(index) or template.complex.get(index)
        if texts is None:
            raise Refused(f"library: a table lacks {index!r}")
        return table_numbers(texts, self.load_tens if variable == LOAD else self.time_tens)

    def table(self, group):
        values = table_numbers(group.complex.get(b"values", []), self.time_tens)
        if group.args[:1] == [b"scalar"]:
            return Table([0], [0], values)
        template = self.templates[group.args[0]]
        first, second = (template.simple.get(name) for name in (b"variable_1", b"variable_2"))
        outer = self.axis(group, template, b"index_1", first)
        inner = self.axis(group, template, b"index_2", second) if second else [0]
        if not (first == LOAD or first in SLEWS) or second not in (None, *([LOAD] if first in SLEWS else SLEWS)):
            raise Refused("library: a template has other variables")
        if len(values) != len(outer) * len(inner):
            raise Refused("library: a table has another number of values than of points")
        if first != LOAD:
            return Table(outer, inner, values)
        turned = [values[j * len(inner) + i] for i in range(len(inner)) for j in range(len(outer))]
        return Table(inner, outer, turned)

    def arcs(self, timing, inputs, is_flop):
        last = {group.name: group for group in timing.of(*TABLES)}
        tables = [self.table(last[name]) for name in TABLES]
        related = [name for name in re.split(rb"(?:[ \t\r\f\n]|\\\n)+", timing.simple[b"related_pin"]) if name in inputs]
        if not related:
            raise Refused("library: an arc of no input")
        sense = b"launch" if is_flop else timing.simple.get(b"timing_sense", b"non_unate")
        return [Arc(name, sense, dict(zip(("rise", "fall"), tables[:2])), dict(zip(("rise", "fall"), tables[2:]))) for name in related]

    def pin(self, group, name, clocks):
        is_input = group.simple[b"direction"] == b"input"
        return Pin(
            name,
            is_input,
            is_input and (group.simple.get(b"clock") == b"true" or name in clocks),
            not_negative(group.simple[b"capacitance"], self.load_tens, TABLE_LIMIT) if is_input else 0,
            self.amount(group, b"max_transition", self.time_tens, self.slew_default),
            None if is_input else self.amount(group, b"max_capacitance", self.load_tens),
        )

    def cell(self, group):
        """The cell of a group, or nothing where it is outside of the profile."""
        pins = [(pin, name) for pin in group.of(b"pin") for name in pin.args]
        is_flop = bool(group.of(b"ff"))
        if is_outside(group, pins, is_flop):
            return None
        inputs = [name for pin, name in pins if pin.simple[b"direction"] == b"input"]
        (source,) = [pin for pin, _ in pins if pin.simple[b"direction"] == b"output"]
        kinds = (b"rising_edge",) if is_flop else (None, b"combinational")
        timings = [timing for timing in source.of(b"timing") if timing.simple.get(b"timing_type") in kinds]
        arcs = [arc for timing in timings for arc in self.arcs(timing, inputs, is_flop)]
        clocks = {arc.pin for arc in arcs} if is_flop else set()
        made = [self.pin(pin, name, clocks) for pin, name in pins]
        return Cell(
            group.args[0],
            group.simple.get(b"cell_footprint", b""),
            not_negative(group.simple[b"cell_leakage_power"]),
            b"true" in (group.simple.get(b"dont_touch"), group.simple.get(b"dont_use")),
            is_flop,
            None if is_flop else truth(source.simple[b"function"], sorted(inputs)),
            sorted((pin for pin in made if pin.is_input), key=lambda pin: pin.name),
            next(pin for pin in made if not pin.is_input),
            arcs,
        )

    def cells(self):
        found = {}
        for cell in filter(None, map(self.cell, self.root.of(b"cell"))):
            if cell.name in found:
                raise Refused(f"library: two cells {cell.name!r}")
            found[cell.name] = cell
        return found


def is_outside(group, pins, is_flop):
    """Whether a cell is outside of the profile, and passed over."""
    name = group.args[0] if group.args else b""
    directions = [pin.simple.get(b"direction") for pin, _ in pins]
    names = [name for _, name in pins]
    if not name or WHITE.search(name) or group.of(*OTHER_STORAGE) or set(directions) - {b"input", b"output"}:
        return True
    if not 1 <= directions.count(b"input") <= 6 or directions.count(b"output") != 1 or len(set(names)) != len(names):
        return True
    source = pins[directions.index(b"output")][0]
    if is_flop:
        return not any(timing.simple.get(b"timing_type") == b"rising_edge" for timing in source.of(b"timing"))
    try:
        truth(source.simple[b"function"], [name for pin, name in pins if pin.simple[b"direction"] == b"input"])
    except (KeyError, Refused):
        return True
    return False


def read_library(text):
    return Reader(TreeReader(text).root())
