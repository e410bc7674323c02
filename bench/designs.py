"""Generated designs that benchmarks share: a library of five cells, a netlist over it, a wire for each net, and constraints."""

# Cells and their input pins, the small ones more often than the large ones, as in a mapped netlist.
CELLS = 9 * [("I2", "a")] + 3 * [("N2", "ab")] + 3 * [("O2", "ab")] + [("N3", "abc"), ("A4", "abcd")]

TABLES = ["cell_rise", "cell_fall", "rise_transition", "fall_transition"]

# Tables of two loads.
ONE_AXIS = ('variable_1 : total_output_net_capacitance ; index_1 ("0, 10") ;', ["4, 24"])

SLEWS = [5, 30, 50, 80, 140, 200, 300]
LOADS = [0, 1, 2, 4, 8, 16, 32, 64]

# Tables of 7 slews by 8 loads, a row for each slew.
TWO_AXES = (
    f"variable_1 : input_net_transition ; variable_2 : total_output_net_capacitance ; index_1 (\"{', '.join(map(str, SLEWS))}\") ;"
    f" index_2 (\"{', '.join(map(str, LOADS))}\") ;",
    [", ".join(f"{4 + 2 * load + slew * (load + 20) // 400}.{slew * load % 1000:03}" for load in LOADS) for slew in SLEWS],
)


def leakage(cell):
    """What a cell leaks, in hundredths of the library's unit."""
    return 100 * sorted(set(CELLS)).index(cell) + 125


def library(out, tables=ONE_AXIS):
    """Writes a library with the cells of the netlists, all of whose tables are of one template and have the same values."""
    template, rows = tables
    values = ", ".join(f'"{row}"' for row in rows)
    out.write('library (bench) {\n  time_unit : "1ps" ;\n  capacitive_load_unit (1, ff) ;\n  leakage_power_unit : "1uW" ;\n')
    out.write(f"  default_max_transition : 300 ;\n  lu_table_template (points) {{ {template} }}\n")
    for name, pins in sorted(set(CELLS)):
        out.write(f"  cell ({name}) {{\n    cell_leakage_power : {leakage((name, pins)) / 100:.2f} ;\n")
        out.write(f"    pin ({', '.join(pins)}) {{ direction : input ; capacitance : 1 ; }}\n")
        out.write(f'    pin (o) {{ direction : output ; max_capacitance : 100 ; function : "!({"*".join(pins)})" ;\n')
        out.write(f'      timing () {{ related_pin : "{" ".join(pins)}" ; timing_sense : negative_unate ;\n')
        for table in TABLES:
            out.write(f"        {table} (points) {{ values ({values}) ; }}\n")
        out.write("      }\n    }\n  }\n")
    out.write("}\n")


def gates_of(count):
    """The cells of a netlist of this many gates, each with the nets at its input pins: ports, or nets of earlier gates."""
    state = 12345
    for gate in range(count):
        state = (6364136223846793005 * state + 1442695040888963407) % 2**64
        cell = CELLS[(state >> 40) % len(CELLS)]
        nets = []
        for _ in cell[1]:
            state = (6364136223846793005 * state + 1442695040888963407) % 2**64
            back = (state >> 40) % 64 + 1
            nets.append(f"n{gate - back}" if gate >= back else f"i{back % 4}")
        yield cell, nets


def netlist(gates, out, decorated=False):
    """Writes a module with this many gates, and one more that drives the output. Decorated, it has a comment every eight gates, and every
    fourth instance's name is escaped."""
    out.write("module bench (i0, i1, i2, i3, o);\ninput i0, i1, i2, i3;\noutput o;\n")
    for gate, ((cell, input_pins), nets) in enumerate(gates_of(gates)):
        pins = [f".{pin}({net})" for pin, net in zip(input_pins, nets)]
        if decorated and gate % 8 == 0:
            out.write(f"// gates {gate} to {gate + 7} /* of the block */\n" if gate % 16 else f"/* gates {gate} to\n   {gate + 7} */\n")
        name = f"\\g{gate}[0] " if decorated and gate % 4 == 0 else f"g{gate}"
        out.write(f"{cell} {name} ({', '.join(pins)}, .o(n{gate}));\n")
    out.write(f"I2 last (.a(n{gates - 1}), .o(o));\nendmodule\n")


def wires(gates, out):
    """Writes a wire for each net that a gate drives."""
    out.write("*C_UNIT 1 FF\n")
    for gate in range(gates):
        out.write(f"*D_NET n{gate} {gate % 9}.25\n*END\n")


def constraints(out):
    """Writes a clock, delays and a load."""
    out.write("create_clock -name k -period 100000\nset_input_delay 5 [get_ports {i0 i1 i2 i3}] -clock [get_clocks k]\n")
    out.write("set_output_delay 10 [get_ports o] -clock [get_clocks k]\nset_load -pin_load 3 [get_ports o]\n")


class Design:
    """The four files of a design in a folder."""

    def __init__(self, folder, gates, tables=ONE_AXIS):
        self.gates = gates
        names = [f"cells{len(tables[1])}.lib", f"netlist{gates}.v", f"netlist{gates}.spef", "design.sdc"]
        self.library, self.netlist, self.wires, self.constraints = self.files = [folder / name for name in names]
        writers = [lambda out: library(out, tables), lambda out: netlist(gates, out), lambda out: wires(gates, out), constraints]
        for path, write in zip(self.files, writers):
            if not path.exists():
                with path.open("w") as out:
                    write(out)

    def words(self, program, command):
        """The words of a command up to those of the constraints."""
        return [program, command, "--lib", self.library, "--verilog", self.netlist, "--spef", self.wires, "--sdc", self.constraints]

    def text_bytes(self):
        """The bytes of the netlist and of its wires."""
        return self.netlist.stat().st_size + self.wires.stat().st_size
