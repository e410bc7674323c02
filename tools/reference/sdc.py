"""Constraints in SDC."""

import re
from dataclasses import dataclass, field

from .numbers import Refused, decimal, not_negative

PIECE = re.compile(rb'(?P<white>(?:[ \t\r\f]|\\\n)+)|"(?P<text>[^"\n]*)"|(?P<mark>[][{}"])|(?P<end>\n)|(?P<word>(?:(?!\\\n)[^] \t\r\f\n[{}"])+)')
BRACED = re.compile(rb"(?P<white>(?:[ \t\r\f]|\\\n)+)|(?P<mark>\})|(?P<end>\n)|(?P<word>(?:(?!\\\n)[^ \t\r\f\n}])+)")
OPTION = re.compile(rb"-[A-Za-z].*", re.DOTALL)
PIN_OPTIONS = {b"-lib_cell", b"-pin", b"-input_transition_rise", b"-input_transition_fall"}


def commands_of(text):
    """Each command as its pieces; a command is a line, with those that a backslash joins to it."""
    found, command, at, is_braced = [], [], 0, False
    while at < len(text):
        piece = (BRACED if is_braced else PIECE).match(text, at)
        kind, at = piece.lastgroup, piece.end()
        if kind == "word" and not command and piece["word"].startswith(b"#"):
            at = (text.find(b"\n", piece.start()) + len(text) + 1) % (len(text) + 1)
        elif kind == "end":
            if is_braced:
                raise Refused("sdc: a brace stays open at the end of a command")
            found.append(command)
            command = []
        elif kind != "white":
            command.append((kind, piece[kind]))
            is_braced = piece[kind] == b"{" if kind == "mark" else is_braced
    return [command for command in [*found, command] if command]


def braced(pieces):
    """The words of a brace, whose opening mark stands first, and the pieces after it."""
    end = pieces.index(("mark", b"}"))
    words = [text for kind, text in pieces[1:end] if kind in ("word", "text")]
    if len(words) != end - 1:
        raise Refused("sdc: a mark between braces")
    return words, pieces[end + 1 :]


@dataclass
class Command:
    """What a command says: its options with their values, its values, and the names of its brackets by their word."""

    options: dict = field(default_factory=dict)
    values: list = field(default_factory=list)
    brackets: dict = field(default_factory=dict)

    def put(self, table, key, value):
        if key in table:
            raise Refused(f"sdc: {key!r} twice")
        table[key] = value


def bracketed(pieces):
    """The word and the names of `[word names]`, and the pieces after it."""
    if len(pieces) < 4 or pieces[1][0] not in ("word", "text"):
        raise Refused("sdc: a bad bracket")
    if pieces[2] == ("mark", b"{"):
        names, rest = braced(pieces[2:])
    else:
        names, rest = [pieces[2][1]], pieces[3:]
        if pieces[2][0] == "mark":
            raise Refused("sdc: a bad bracket")
    if not names or rest[:1] != [("mark", b"]")]:
        raise Refused("sdc: a bad bracket")
    return pieces[1][1], names, rest[1:]


def option_value(option, rest):
    """The value of an option that has one, and the pieces after it."""
    kind, text = rest[0] if rest else ("end", b"")
    if option == b"-waveform":
        return braced(rest)
    if option == b"-clock" and (kind, text) == ("mark", b"["):
        word, names, rest = bracketed(rest)
        if word != b"get_clocks" or len(names) != 1:
            raise Refused("sdc: a bad clock")
        return names[0], rest
    if kind not in ("word", "text") or OPTION.fullmatch(text):
        raise Refused(f"sdc: {option!r} without a value")
    return text, rest[1:]


def parsed(pieces, with_value, flags):
    """A command whose options are `with_value`, which have a value, and `flags`."""
    command, rest = Command(), pieces
    while rest:
        kind, text = rest[0]
        if (kind, text) == ("mark", b"["):
            word, names, rest = bracketed(rest)
            command.put(command.brackets, word, names)
        elif kind == "mark":
            raise Refused("sdc: a mark")
        elif text in with_value:
            value, rest = option_value(text, rest[1:])
            command.put(command.options, text, value)
        elif text in flags:
            command.put(command.options, text, True)
            rest = rest[1:]
        elif OPTION.fullmatch(text):
            raise Refused(f"sdc: unknown option {text!r}")
        else:
            command.values.append(text)
            rest = rest[1:]
    return command


@dataclass
class Constraints:
    period: int | None = None
    clock_ports: list = field(default_factory=list)
    input_delays: dict = field(default_factory=dict)
    output_delays: dict = field(default_factory=dict)
    loads: dict = field(default_factory=dict)
    drivers: dict = field(default_factory=dict)


class Reader:
    def __init__(self, time_tens, load_tens):
        self.time_tens, self.load_tens, self.limits = time_tens, load_tens, Constraints()

    def ports(self, command, values, is_needed=True):
        if len(command.values) != values or set(command.brackets) - {b"get_ports"}:
            raise Refused("sdc: a bad command")
        if is_needed and b"get_ports" not in command.brackets:
            raise Refused("sdc: no ports")
        return command.brackets.get(b"get_ports", [])

    def clock(self, pieces):
        command = parsed(pieces, {b"-period", b"-name", b"-waveform"}, set())
        period = decimal(command.options[b"-period"], self.time_tens)
        if period <= 0 or self.limits.period is not None:
            raise Refused("sdc: a bad or second clock")
        self.limits.period = period
        self.limits.clock_ports = self.ports(command, 0, is_needed=False)

    def put(self, table, ports, value):
        for port in ports:
            if port in table:
                raise Refused(f"sdc: {port!r} has two values")
            table[port] = value

    def delay(self, pieces, table):
        command = parsed(pieces, {b"-clock"}, {b"-max"})
        self.put(table, self.ports(command, 1), decimal(command.values[0], self.time_tens))

    def load(self, pieces):
        command = parsed(pieces, set(), {b"-pin_load"})
        self.put(self.limits.loads, self.ports(command, 1), not_negative(command.values[0], self.load_tens))

    def driver(self, pieces):
        command = parsed(pieces, PIN_OPTIONS, set())
        options = command.options
        slews = [not_negative(options.get(name, b"0"), self.time_tens) for name in (b"-input_transition_rise", b"-input_transition_fall")]
        self.put(self.limits.drivers, self.ports(command, 0), (options[b"-lib_cell"], options.get(b"-pin"), *slews))

    def command(self, pieces):
        first, rest = pieces[0][1], pieces[1:]
        if first == b"create_clock":
            self.clock(rest)
        elif first == b"set_input_delay":
            self.delay(rest, self.limits.input_delays)
        elif first == b"set_output_delay":
            self.delay(rest, self.limits.output_delays)
        elif first == b"set_driving_cell":
            self.driver(rest)
        elif first == b"set_load":
            self.load(rest)
        elif not (first == b"current_design" and len(rest) == 1 or first == b"set" and len(rest) == 2 and rest[0][1] == b"sdc_version"):
            raise Refused(f"sdc: {first!r} isn't read")


def read_constraints(text, time_tens, load_tens):
    reader = Reader(time_tens, load_tens)
    for pieces in commands_of(text):
        reader.command(pieces)
    if reader.limits.period is None:
        raise Refused("sdc: no clock")
    return reader.limits
