"""A linked design, its timing at given sizes, and its limits."""

from dataclasses import dataclass, field

from .numbers import Refused, printed

EDGES = ("rise", "fall")
OTHER = {"rise": "fall", "fall": "rise"}


@dataclass
class Net:
    name: bytes
    wire: int = 0
    port_load: int = 0
    port: bool = False
    is_output: bool = False
    driver: object = None
    sinks: list = field(default_factory=list)


@dataclass
class Record:
    """Millionths of 1 fF and of 1 ps. `arrival` and `slew` are by edge."""

    load: int
    load_bound: int | None
    slew_bound: int | None
    arrival: dict
    slew: dict


@dataclass
class Limit:
    kind: str
    name: str
    held: int
    bound: int | None

    def over(self):
        return 0 if self.bound is None else max(0, self.held - self.bound)

    def line(self):
        return f"{self.kind} {self.name} held {printed(self.held)} bound {printed(self.bound)}"


class Design:
    """A netlist with the cells, wires and constraints of its instances and nets."""

    def __init__(self, netlist, cells, wires, limits):
        self.instances = {instance.name: instance for instance in netlist.instances}
        self.cells, self.limits = cells, limits
        self.nets = {name: Net(name) for name in netlist.nets}
        self.join_ports(netlist, limits)
        self.join_instances()
        for name, total in wires.items():
            self.net(name).wire = total
        self.nets = {name: net for name, net in self.nets.items() if net.driver or net.sinks or net.is_output}
        for net in self.nets.values():
            if net.driver is None:
                raise Refused(f"design: nothing drives {net.name!r}")

    def net(self, name):
        if name not in self.nets:
            raise Refused(f"design: no net {name!r}")
        return self.nets[name]

    def drive(self, net, driver):
        if self.nets[net].driver is not None:
            raise Refused(f"design: two drivers of {net!r}")
        self.nets[net].driver = driver

    def join_ports(self, netlist, limits):
        for name in netlist.inputs:
            self.drive(name, "port")
        for name in netlist.outputs:
            self.nets[name].is_output = True
        ports = {*netlist.inputs, *netlist.outputs}
        for names, known in (
            (limits.clock_ports, netlist.inputs),
            (limits.input_delays, netlist.inputs),
            (limits.output_delays, netlist.outputs),
            (limits.loads, ports),
            (limits.drivers, ports),
        ):
            if not set(names) <= set(known):
                raise Refused(f"design: a constraint of no port: {set(names) - set(known)}")
        for name, load in limits.loads.items():
            self.nets[name].port_load = load
        for cell, pin, _, _ in limits.drivers.values():
            if cell not in self.cells or self.cells[cell].is_flop or pin not in (None, self.cells[cell].output.name):
                raise Refused(f"design: {cell!r} drives no port")

    def join_instances(self):
        for instance in self.instances.values():
            if instance.cell not in self.cells:
                raise Refused(f"design: no cell {instance.cell!r}")
            cell = self.cells[instance.cell]
            pins = [pin.name for pin in cell.inputs]
            if set(instance.links) != {*pins, cell.output.name}:
                raise Refused(f"design: {instance.name!r} leaves pins open, or has others")
            self.drive(instance.links[cell.output.name], instance)
            for place, pin in enumerate(pins):
                self.nets[instance.links[pin]].sinks.append((instance, place))

    def alternatives(self):
        """The names of the cells that each instance may take."""
        classes = {}
        for cell in self.cells.values():
            if not cell.is_flop and not cell.is_marked:
                classes.setdefault(cell.kind(), set()).add(cell.name)
        found = {}
        for name, instance in self.instances.items():
            cell = self.cells[instance.cell]
            found[name] = {cell.name} if cell.is_flop or cell.is_marked else classes[cell.kind()]
        return found


class Timer:
    """The timing of a design at sizes: a cell for each instance."""

    def __init__(self, design, sizes):
        self.design = design
        self.cell = {name: design.cells[cell] for name, cell in sizes.items()}
        self.records = {}
        for name in self.in_order():
            self.records[name] = self.record(design.nets[name])

    def sources(self, net):
        """The input nets of a gate that drives a net."""
        if net.driver == "port" or self.cell[net.driver.name].is_flop:
            return []
        return [net.driver.links[pin.name] for pin in self.cell[net.driver.name].inputs]

    def in_order(self):
        """Nets, each after those that its gate reads."""
        waits = {name: set(self.sources(net)) for name, net in self.design.nets.items()}
        readers = {name: [] for name in waits}
        for name, sources in waits.items():
            for source in sources:
                readers[source].append(name)
        ready = [name for name, sources in waits.items() if not sources]
        for name in ready:
            for reader in readers[name]:
                waits[reader].discard(name)
                if not waits[reader]:
                    ready.append(reader)
        if len(ready) != len(waits):
            raise Refused("design: a cycle of gates")
        return ready

    def load(self, net):
        return net.wire + net.port_load + sum(self.cell[instance.name].inputs[place].capacitance for instance, place in net.sinks)

    def slew_bound(self, net):
        pins = [self.cell[instance.name].inputs[place] for instance, place in net.sinks]
        if net.driver != "port":
            pins.append(self.cell[net.driver.name].output)
        return min((pin.slew_bound for pin in pins if pin.slew_bound is not None), default=None)

    def candidates(self, net, load):
        """For each output edge the pairs of an arrival and a slew that an arc makes of an input edge."""
        arcs, at = self.driven(net)
        found = {edge: [] for edge in EDGES}
        for arc in arcs:
            for edge in EDGES:
                for source in passed(arc.sense, edge):
                    arrival, slew = at(arc.pin, source)
                    found[edge].append((arrival + arc.delays[edge].delay(slew, load), arc.transitions[edge].transition(slew, load)))
        return found

    def driven(self, net):
        """The arcs that drive a net, and the arrival and slew that each finds at its pin."""
        if net.driver == "port":
            delay = self.design.limits.input_delays.get(net.name, 0)
            cell, _, rise, fall = self.design.limits.drivers[net.name]
            return self.design.cells[cell].arcs, lambda _, edge: (delay, {"rise": rise, "fall": fall}[edge])
        cell = self.cell[net.driver.name]
        if cell.is_flop:
            return cell.arcs, lambda *_: (0, 0)
        return cell.arcs, lambda pin, edge: self.edge(net.driver.links[pin], edge)

    def edge(self, name, edge):
        return self.records[name].arrival[edge], self.records[name].slew[edge]

    def record(self, net):
        load, is_driven = self.load(net), net.driver != "port"
        bound = self.cell[net.driver.name].output.load_bound if is_driven else None
        if is_driven or net.name in self.design.limits.drivers:
            found = self.candidates(net, load)
        else:
            found = {edge: [(self.design.limits.input_delays.get(net.name, 0), 0)] for edge in EDGES}
        arrival, slew = ({edge: max(pair[i] for pair in found[edge]) for edge in EDGES} for i in (0, 1))
        return Record(load, bound, self.slew_bound(net), arrival, slew)

    def endpoints(self):
        """Names, nets and bounds: output ports by net, then data pins by instance and pin."""
        limits = self.design.limits
        for net in self.design.nets.values():
            if net.is_output:
                yield net.name, net.name, limits.period - limits.output_delays.get(net.name, 0)
        for instance in self.design.instances.values():
            for pin in self.cell[instance.name].inputs:
                if self.cell[instance.name].is_flop and not pin.is_clock:
                    yield instance.name + b"/" + pin.name, instance.links[pin.name], limits.period

    def limits(self):
        """All limits: setup by endpoint, then slew by net, then load by net."""
        for name, net, bound in self.endpoints():
            yield Limit("setup", text_of(name), max(self.records[net].arrival.values()), bound)
        for name in self.design.nets:
            yield Limit("slew", text_of(name), max(self.records[name].slew.values()), self.records[name].slew_bound)
        for name, net in self.design.nets.items():
            if net.driver != "port":
                yield Limit("load", text_of(name), self.records[name].load, self.records[name].load_bound)

    def violations(self):
        return [limit for limit in self.limits() if limit.over() > 0]

    def leakage(self):
        return sum(cell.leakage for cell in self.cell.values())


def passed(sense, edge):
    """The input edges of which an arc makes this output edge."""
    if sense == b"positive_unate":
        return [edge]
    if sense == b"negative_unate":
        return [OTHER[edge]]
    return ["rise"] if sense == b"launch" else list(EDGES)


def text_of(name):
    """A name as Python's text; bytes outside of UTF-8 come back as they were by the same error handler."""
    return name.decode("utf-8", "surrogateescape")
