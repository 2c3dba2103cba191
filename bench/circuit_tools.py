#!/usr/bin/env python3
"""Checks the circuits that `tsl circuit` writes for the programs of `examples/` by other tools, and by a plain reading in Python.

Each circuit is read as its format says, and simulated on 100 rows of random inputs beside `tsl run`, over random tables: at each step its
latches are the digits of the state, and its outputs the updates that the run takes. `yosys` reads it and writes it in both forms of AIGER,
of which the ASCII one has to do the same over 100 rows; `berkeley-abc` reads the binary form, and says that the circuit is equivalent to a
plain one of the same program, a sum of products. A tool that is not installed is named, and left out; Debian has packages of both names.
With the word `plain` the program is not asked: the plain circuit and plain runs stand in its place."""
import itertools
import pathlib
import random
import re
import shutil
import subprocess
import sys
import tempfile

import plain
from measuring import HERE, PROGRAM

ROWS = 100
HEADS = ("tsltables", "tslinputs", "domain", "func", "pred", "cell", "input", "stem", "cycle", "row")


# ---- circuits ----

class Circuit:
    """Literal 2v is variable v, 2v + 1 its negation, 0 false and 1 true. The variables are inputs, latches and gates, in this order."""

    def __init__(self, inputs, latches, outputs, gates):
        self.inputs, self.latches, self.outputs, self.gates = inputs, latches, outputs, gates

    def step(self, inputs, latches):
        """The outputs and the next latches."""
        known = [False, *inputs, *latches]
        truth = lambda literal: known[literal // 2] != bool(literal % 2)
        for left, right in self.gates:
            known.append(truth(left) and truth(right))
        return [truth(literal) for literal in self.outputs], [truth(literal) for literal in self.latches]

    def text(self):
        counts = [len(self.latches), len(self.outputs), len(self.gates)]
        own = itertools.count(2, 2)
        lines = [["aag", self.inputs + counts[0] + counts[2], self.inputs, *counts]]
        lines += [[next(own)] for _ in range(self.inputs)]
        lines += [[next(own), literal] for literal in self.latches]
        lines += [[literal] for literal in self.outputs]
        lines += [[next(own), *gate] for gate in self.gates]
        return plain.text_of(" ".join(map(str, line)) for line in lines)


def read_circuit(text):
    """The circuit of a text without symbols and comments, or None where it is that of no circuit."""
    lines = text.split("\n")
    if lines.pop() != "" or not lines or not re.fullmatch(r"aag( (0|[1-9][0-9]*)){5}", lines[0]):
        return None
    most, inputs, latches, outputs, gates = map(int, lines[0].split(" ")[1:])
    if most != inputs + latches + gates or most >= 2**31 or outputs >= 2**32:
        return None
    if len(lines) != 1 + inputs + latches + outputs + gates:
        return None
    if not all(re.fullmatch(r"(0|[1-9][0-9]*)( (0|[1-9][0-9]*))*", line) for line in lines[1:]):
        return None
    rows = [tuple(map(int, line.split(" "))) for line in lines[1:]]
    ends = list(itertools.accumulate([inputs, latches, outputs, gates], initial=0))
    of_inputs, of_latches, of_outputs, of_gates = (rows[a:b] for a, b in itertools.pairwise(ends))
    own = itertools.count(2, 2)
    good = all(row == (next(own),) for row in of_inputs)
    good = good and all(len(row) == 2 and row[0] == next(own) and row[1] < 2 * most + 2 for row in of_latches)
    good = good and all(len(row) == 1 and row[0] < 2 * most + 2 for row in of_outputs)
    good = good and all(len(row) == 3 and row[0] == next(own) and max(row[1:]) < row[0] for row in of_gates)
    if not good:
        return None
    return Circuit(inputs, [row[1] for row in of_latches], [row[0] for row in of_outputs], [row[1:] for row in of_gates])


def digits(number, count):
    return [bool(number >> place & 1) for place in range(count)]


def plain_circuit(space, program):
    """A gate for each two literals of a product, over a state's digits and a valuation, and for each two products of a sum."""
    tests = len(space.tests)
    latches = (len(program.states) - 1).bit_length()
    gates = []

    def both(left, right):
        gates.append((left, right))
        return 2 * (tests + latches + len(gates))

    def product(state, valuation):
        literal = None
        for place, truth in enumerate(digits(valuation, tests) + digits(state, latches)):
            own = 2 * (place + 1) + (not truth)
            literal = own if literal is None else both(literal, own)
        return 1 if literal is None else literal

    sums = {}
    for state, valuation in itertools.product(range(len(program.states)), space.valuations()):
        truths = dict(zip(space.tests, digits(valuation, tests)))
        updates, after = program.walk(state, truths)
        entry = product(state, valuation)
        for key in [*(space.bits[update] for update in updates), *(("digit", d) for d in range(latches) if after >> d & 1)]:
            sums[key] = both(sums[key] ^ 1, entry ^ 1) ^ 1 if key in sums else entry
    outputs = [sums.get(bit, 0) for atom, bit in sorted(space.bits.items(), key=lambda item: item[1]) if atom[0] == "update"]
    return Circuit(tests, [sums.get(("digit", d), 0) for d in range(latches)], outputs, gates)


def products_alone(space, program):
    """How many gates a sum of products for each output and each next digit takes, where none is shared: one less than the literals of each
    product, and one less than the products of each sum."""
    latches = (len(program.states) - 1).bit_length()
    literals, products = len(space.tests) + latches, {}
    for state, valuation in itertools.product(range(len(program.states)), space.valuations()):
        updates, after = program.walk(state, dict(zip(space.tests, digits(valuation, len(space.tests)))))
        for key in [*updates, *(d for d in range(latches) if after >> d & 1)]:
            products[key] = products.get(key, 0) + 1
    return sum(count * max(literals - 1, 0) + count - 1 for count in products.values())


# ---- runs ----

class Tables:
    """What functions, predicates and cells are, over the values below the domain."""

    def __init__(self, domain, functions, predicates, cells):
        self.domain, self.functions, self.predicates, self.cells = domain, functions, predicates, cells

    def place(self, values):
        place = 0
        for value in values:
            place = place * self.domain + value
        return place

    def value(self, term, at):
        if term[0] == "signal":
            return at[term[1]]
        return self.functions[term[1]][self.place([self.value(part, at) for part in term[2]])]

    def holds(self, test, at):
        return bool(self.predicates[test[1]][self.place([self.value(part, at) for part in test[2]])])

    def text(self):
        lines = ["tsltables 1", f"domain {self.domain}"]
        lines += [" ".join(map(str, ["func", name, *table])) for name, table in self.functions.items()]
        lines += [" ".join(map(str, ["pred", name, *table])) for name, table in self.predicates.items()]
        return plain.text_of([*lines, *(f"cell {name} {value}" for name, value in self.cells.items())])


def applied_in(term):
    return [] if term[0] == "signal" else [(term[1], len(term[2])), *(one for part in term[2] for one in applied_in(part))]


def random_tables(source, lists, program):
    found = [atom for formula in lists["text"] for atom in plain.atoms(formula)]
    for node in program.nodes:
        found += node[0] if len(node) == 2 else [node[0]]
    functions = dict(one for a in found for term in (a[2] if a[0] == "test" else (a[2],)) for one in applied_in(term))
    predicates = {a[1]: len(a[2]) for a in found if a[0] == "test"}
    domain = 3 if max([0, *functions.values(), *predicates.values()]) < 5 else 2
    table = lambda arity, most: [source.randrange(most) for _ in range(domain**arity)]
    return Tables(domain, {name: table(arity, domain) for name, arity in functions.items()},
                  {name: table(arity, 2) for name, arity in predicates.items()},
                  {cell: source.randrange(domain) for cell in program.declared["cell"]})


def read_tables(text):
    """Tables whose words stand in the order of the formats, and the rows of stem and cycle."""
    words = text.split()
    domain, tables, names, rows, kind = 1, {"func": {}, "pred": {}, "cell": {}}, [], {"stem": [], "cycle": []}, None
    at = 0
    while at < len(words):
        end = at + 1
        while end < len(words) and words[end] not in HEADS:
            end += 1
        word, rest = words[at], words[at + 1:end]
        if word == "domain":
            domain = int(rest[0])
        elif word in tables:
            tables[word][rest[0]] = list(map(int, rest[1:]))
        elif word == "input":
            names.append(rest[0])
        elif word in rows:
            kind = word
        elif word == "row":
            rows[kind].append(dict(zip(names, map(int, rest))))
        at = end
    cells = {name: values[0] for name, values in tables["cell"].items()}
    return Tables(domain, tables["func"], tables["pred"], cells), rows["stem"], rows["cycle"]


def inputs_text(names, stem, cycle):
    rows = lambda word, listed: [word, *(" ".join(map(str, ["row", *(row[name] for name in names)])) for row in listed)]
    return plain.text_of(["tslinputs 1", *(f"input {name}" for name in names), *rows("stem", stem), *rows("cycle", cycle)])


def plain_run(program, tables, stem, cycle):
    """The lines of a run up to where it closes."""
    seen, lines = {}, []
    place, state, cells = 0, 0, {cell: tables.cells[cell] for cell in program.declared["cell"]}
    while (place, state, *cells.values()) not in seen:
        seen[place, state, *cells.values()] = len(lines)
        row = (stem + cycle)[place]
        at = {**{name: row[name] for name in program.declared["input"]}, **cells}
        updates, after = program.walk(state, {node[0]: tables.holds(node[0], at) for node in program.nodes if len(node) == 3})
        chosen = {update[1]: update for update in updates}
        done = [chosen.get(name, ("update", name, ("signal", name)))
                for name in program.declared["cell"] + program.declared["output"]]
        lines.append(" ".join(["at", str(len(lines)), "place", str(place), "state", str(state),
                               *(f"{name} {value}" for name, value in at.items()), "do", *map(plain.atom_text, done)]))
        cells = {cell: tables.value(chosen[cell][2], at) if cell in chosen else at[cell] for cell in cells}
        place = place + 1 if place + 1 < len(stem + cycle) else len(stem)
        state = after
    start = seen[place, state, *cells.values()]
    return [*lines, f"loop {start} {len(lines) - start}"]


def steps_of(lines):
    """Of each step of a run its state, what the signals are, and the updates."""
    for line in lines:
        if line.startswith("at "):
            words, at = line.split(), {}
            place = 6
            while place + 1 < len(words) and words[place + 1].isdecimal():
                at[words[place]] = int(words[place + 1])
                place += 2
            reader, updates = plain.Reader(" ".join(words[place + 1:])), []
            while reader.left:
                updates.append(reader.formula())
            yield int(words[5]), at, updates


def goes_beside(circuit, space, tables, lines):
    """How many steps of a run the circuit goes beside; each one is compared."""
    latches, count = [False] * len(circuit.latches), 0
    for state, at, updates in steps_of(lines):
        assert latches == digits(state, len(latches)), ("state", count)
        outputs, latches = circuit.step([tables.holds(test, at) for test in space.tests], latches)
        taken = {atom for atom, bit in space.bits.items() if atom[0] == "update" and outputs[bit - len(space.tests)]}
        assert taken == set(updates), ("updates", count, taken, updates)
        count += 1
    return count


# ---- the tools ----

def asked(words, text):
    done = subprocess.run([PROGRAM, *words], input=text, capture_output=True, text=True)
    assert done.returncode == 0, (words, done.stdout, done.stderr)
    return done.stdout


def same_over_rows(source, first, second):
    """Whether two circuits have the same outputs over rows of random inputs."""
    left, right = [False] * len(first.latches), [False] * len(second.latches)
    for _ in range(ROWS):
        row = [source.random() < 0.5 for _ in range(first.inputs)]
        seen, left = first.step(row, left)
        other, right = second.step(row, right)
        if seen != other:
            return False
    return True


class Ports:
    """A circuit whose inputs and outputs stand in another order: that of these places."""

    def __init__(self, circuit, inputs, outputs):
        self.circuit, self.inputs, self.outputs, self.latches = circuit, inputs, outputs, circuit.latches

    def step(self, row, latches):
        seen, after = self.circuit.step([row[place] for place in self.inputs], latches)
        return [seen[self.outputs.index(place)] for place in range(len(seen))], after


def through_yosys(folder, name, circuit):
    """The circuit as `yosys` writes it after reading it. Its binary form stands in the file NAME.aig. Ports have names, since `yosys`
    writes them in an order of its own."""
    names = [*(f"i{k} in{k:03}" for k in range(circuit.inputs)), *(f"o{k} out{k:03}" for k in range(len(circuit.outputs)))]
    (folder / f"{name}.aag").write_text(circuit.text() + plain.text_of(names))
    script = f"read_aiger {name}.aag; write_aiger -symbols {name}.aig; write_aiger -ascii -symbols {name}.read"
    subprocess.run(["yosys", "-q", "-p", script], cwd=folder, check=True, capture_output=True)
    text = (folder / f"{name}.read").read_text()
    read = read_circuit("".join(line for line in text.splitlines(True) if re.fullmatch(r"(aag )?[0-9 ]+\n", line)))
    places = lambda kind: [int(place) for place in re.findall(rf"(?m)^{kind}\d+ (?:in|out)(\d+)$", text)]
    return Ports(read, places("i"), places("o"))


def equivalent(folder, names, circuit):
    """Whether `berkeley-abc` says that two circuits are equivalent."""
    both = " ".join(names)
    # `dsec` ends in an assertion where there is no input, and wants latches in both: `yosys` leaves out those that nothing reads.
    commands = [f"cec {both}"] if not circuit.latches else [*([f"dsec {both}"] if circuit.inputs else []), f"miter {both}; pdr"]
    for command in commands:
        done = subprocess.run(["berkeley-abc", "-q", command], cwd=folder, capture_output=True, text=True)
        if "are equivalent" in done.stdout or "Property proved" in done.stdout:
            return True
    return False


def bound_of(words):
    bound = words[words.index("--bound") + 1] if "--bound" in words else "2"
    return "15" if bound == "full" else bound


def examples():
    """The text of each specification whose stored answer is a program, that program, and the bound it was found with."""
    for path in sorted((HERE.parent / "examples").glob("*/*.tsl")):
        answer = path.with_suffix(".out")
        if answer.exists() and answer.read_text().startswith("tslprogram 1\n"):
            yield path, path.read_text(), answer.read_text(), bound_of(path.with_suffix(".words").read_text().split())


def row(source, folder, tools, path, spec, answer, bound, is_plain):
    lists, program = plain.Reader(spec).spec(), plain.Program(answer)
    space = plain.Space(lists)
    slow = plain_circuit(space, program)
    assert read_circuit(slow.text()).text() == slow.text()
    circuit = slow if is_plain else read_circuit(asked(["circuit", "--bound", bound], spec + answer))
    assert circuit is not None and circuit.inputs == slow.inputs and len(circuit.outputs) == len(slow.outputs), path.name
    assert len(circuit.latches) == len(slow.latches), path.name
    tables = random_tables(source, lists, program)
    names = program.declared["input"]
    stem = [{name: source.randrange(tables.domain) for name in names} for _ in range(ROWS)]
    cycle = [{name: source.randrange(tables.domain) for name in names}]
    if is_plain:
        lines = plain_run(program, tables, stem, cycle)
    else:
        lines = asked(["run"], spec + answer + tables.text() + inputs_text(names, stem, cycle)).splitlines()
        assert lines[:len(plain_run(program, tables, stem, cycle))] == plain_run(program, tables, stem, cycle), path.name
    count = goes_beside(circuit, space, tables, lines)
    said = []
    if "yosys" in tools:
        for name, one in (("circuit", circuit), ("plain", slow)):
            assert same_over_rows(source, one, through_yosys(folder, name, one)), path.name
        said.append("read")
        if "berkeley-abc" in tools:
            assert equivalent(folder, ("circuit.aig", "plain.aig"), circuit), path.name
            said.append("equivalent")
    print(f"{path.stem:>20} {circuit.inputs:7} {len(circuit.latches):7} {len(circuit.outputs):7} {len(circuit.gates):7} "
          f"{len(slow.gates):7} {count:7}  {', '.join(said)}")


def stored_runs():
    """The runs that are stored beside the examples are those of the plain reading."""
    for path in sorted((HERE.parent / "examples").glob("*/*.inputs")):
        if path.with_suffix(".out").exists() and path.with_suffix(".trace").exists():
            tables, stem, cycle = read_tables(re.sub(r"//[^\n]*", " ", path.read_text()))
            lines = plain_run(plain.Program(path.with_suffix(".out").read_text()), tables, stem, cycle)
            assert path.with_suffix(".trace").read_text().splitlines()[:len(lines)] == lines, path.name


def texts_by_hand():
    """A circuit that is read and goes as it should, and texts of no circuit."""
    text = "aag 3 1 1 2 1\n2\n4 7\n4\n6\n6 2 5\n"
    circuit = read_circuit(text)
    assert circuit.text() == text and circuit.gates == [(2, 5)]
    assert circuit.step([True], [False]) == ([False, True], [False]) and circuit.step([False], [False]) == ([False, False], [True])
    for wrong in ("", "aag 0 0 0 1 0\n1", "aag 0 0 0 1 0\n2\n", "aag 1 0 0 1 0\n1\n", "aag 0 0 0 1 0\n01\n", "aag 0 0 0 1 0\n1\n\n",
                  "aag 2 1 0 1 1\n2\n4\n4 2 5\n", "aag 2 1 0 1 1\n2\n4 2 3\n4\n", "aag 1 1 0 0 0\n3\n", "aag 1 0 1 0 0\n2 4\n"):
        assert read_circuit(wrong) is None, wrong


def main():
    is_plain = sys.argv[1:] == ["plain"]
    if not is_plain and not PROGRAM.exists():
        raise SystemExit("build the program first: ./tsl synth < examples/first/copy.tsl")
    texts_by_hand()
    stored_runs()
    tools = [tool for tool in ("yosys", "berkeley-abc") if shutil.which(tool)]
    for tool in ("yosys", "berkeley-abc"):
        if tool not in tools:
            print(f"left out, since it is not installed: {tool}")
    source = random.Random(1)
    print(f"{'example':>20} {'inputs':>7} {'latches':>7} {'outputs':>7} {'gates':>7} {'plain':>7} {'steps':>7}  tools")
    with tempfile.TemporaryDirectory() as name:
        for path, spec, answer, bound in examples():
            row(source, pathlib.Path(name), tools, path, spec, answer, bound, is_plain)


if __name__ == "__main__":
    main()
