"""Generated designs of two sizes of inverters and NAND gates and of flip-flops, by number: each number and count of gates gives one design."""

from pathlib import Path

import measure

# Inverters I1 and I2, NAND gates N1 and N2 and a flip-flop F1.
LIBRARY = measure.REPOSITORY / "crates" / "gs_prog" / "data" / "cells.lib"


def drawer(number):
    """Draws whole numbers below a count, from a congruence that begins with the number."""
    state = number

    def draw(count):
        nonlocal state
        state = (1664525 * state + 1013904223) % 2**32
        return (state // 65536) % count

    return draw


def gates_of(number, gates):
    """The lines of the gates, and the total of each one's wire."""
    draw = drawer(number)
    nets = [f"i{i}" for i in range(16)]

    def pick():
        return nets[len(nets) - 1 - draw(min(len(nets), 64))]

    for gate in range(gates):
        if gate % 10 == 9:
            line = f"F1 g{gate} (.ck(ck), .d({pick()}), .q(n{gate}));"
        elif draw(2) == 0:
            line = f"I2 g{gate} (.a({pick()}), .o(n{gate}));"
        else:
            first = pick()
            line = f"N2 g{gate} (.a({first}), .b({pick()}), .o(n{gate}));"
        yield line, draw(4) + 1
        nets.append(f"n{gate}")


class Generated:
    """The four files of a design in a folder."""

    def __init__(self, folder, number, gates):
        self.gates = gates
        made = list(gates_of(number, gates))
        inputs = [f"i{i}" for i in range(16)]
        self.files = [folder / name for name in ("cells.lib", "netlist.v", "wires.spef", "constraints.sdc")]
        netlist = [f"module gen (ck, {', '.join(inputs)}, o);", f"input ck, {', '.join(inputs)};", "output o;"]
        netlist += [line for line, _ in made] + [f"I2 go (.a(n{gates - 1}), .o(o));", "endmodule"]
        wires = ['*SPEF "IEEE 1481-1999"', '*DESIGN "gen"', "*C_UNIT 1 FF"]
        for gate, (_, total) in enumerate(made):
            wires += [f"*D_NET n{gate} {total}", "*END"]
        constraints = [
            "create_clock -name ck -period 600 [get_ports ck]",
            f"set_input_delay 0 [get_ports {{{' '.join(inputs)}}}] -clock [get_clocks ck]",
            "set_load -pin_load 4 [get_ports o]",
        ]
        self.files[0].write_text(LIBRARY.read_text())
        for path, lines in zip(self.files[1:], (netlist, wires, constraints)):
            path.write_text("".join(line + "\n" for line in lines))

    def words(self, program, command):
        """The words of a command up to those of the constraints."""
        return [program, command] + [word for option, path in zip(("--lib", "--verilog", "--spef", "--sdc"), self.files) for word in (option, path)]
