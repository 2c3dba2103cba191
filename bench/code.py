#!/usr/bin/env python3
"""Compares what `tslx code` writes with what `tsl run` does: python3 bench/code.py [COUNT] [LANGUAGE]..

Each program of examples/ that has tables or machine words and inputs, and COUNT random programs with names that languages reserve (30 without
a number), is written in each language (c, python, javascript, rust), compiled where its compiler is (`cc`, `node`, `rustc`), and run on the
same inputs. In each step the node that is set, the state, the cells and the outputs have to be those of the run; values come from the same
tables. All programs of a language are compiled in one go, with all warnings of C as faults. Where `yosys` is, the control of some examples in
Verilog is read by it, and what it writes makes the updates of `tsl circuit` in all states and for all truths of the tests."""
import itertools
import json
import pathlib
import random
import re
import shutil
import subprocess
import sys
import tempfile

HERE = pathlib.Path(__file__).resolve().parent
sys.dont_write_bytecode = True
sys.path.insert(0, str(HERE.parent / "scripts"))
from tslx import code  # noqa: E402
from tslx.circuits import read_circuit, valuations  # noqa: E402
from tslx.formulas import Apply, Signal, Test, Update, write_term, write_test  # noqa: E402
from tslx.meanings import Inputs, Tables, read_inputs, read_meaning, truth_of, value_of, write_inputs, write_tables  # noqa: E402
from tslx.programs import Branch, Leaf, Program, read_program, write_program  # noqa: E402
from tslx.runs import read_run  # noqa: E402
from tslx.specifications import read_specification, space_of  # noqa: E402

PROGRAM = HERE.parent / "out" / "tsl"
LANGUAGES = {"c": "cc", "python": "python3", "javascript": "node", "rust": "rustc"}
CONTROLS = ("first/lamp", "first/traffic_light", "everyday/garage_door", "turns/arbiter_of_three", "windows/raised_goal")


def read(path):
    return path.read_bytes().decode("latin-1")


def part(text, *heads):
    """The lines of a text from one of these heads on, up to the next head of any kind."""
    lines = text.split("\n")
    start = next(i for i, line in enumerate(lines) if line in heads)
    every = ("tslprogram 1", "tsltables 1", "tslwords 1", "tslinputs 1")
    end = next((i for i in range(start + 1, len(lines)) if lines[i] in every), len(lines))
    return "\n".join(lines[start:end]).rstrip("\n") + "\n"


class Case:
    """A program, what its symbols mean, its inputs, and the steps of its run."""

    def __init__(self, title, program, meaning, inputs, trace):
        self.title, self.program, self.meaning, self.inputs = title, program, meaning, inputs
        self.steps = read_run(trace).steps
        parts = code.Parts(program)
        self.functions, self.predicates = parts.functions, parts.predicates

    def table(self, name, count, predicate):
        """All values of a symbol, the last argument going up first."""
        every = itertools.product(range(self.meaning.domain), repeat=count)
        if predicate:
            return [int(self.meaning.holds(name, list(arguments))) for arguments in every]
        return [self.meaning.apply(name, list(arguments)) for arguments in every]

    def symbols(self):
        """Each symbol with its number of arguments, whether it is a predicate, and its values."""
        for some, predicate in ((self.functions, False), (self.predicates, True)):
            for name, count in some.items():
                yield name, count, predicate, self.table(name, count, predicate)

    def rows(self):
        """The values of the program's inputs in each step, in its order."""
        places = [self.inputs.names.index(name) for name in self.program.inputs]
        return [[self.inputs.rows[step.place][place] for place in places] for step in self.steps]

    def wanted(self):
        """The lines that each language has to print: the node, the state, the cells before the step, and the outputs."""
        for step in self.steps:
            at = self.program.states[step.state]
            while isinstance(self.program.nodes[at], Branch):
                node = self.program.nodes[at]
                at = node.yes if truth_of(node.test, step.values, self.meaning) else node.no
            leaf = self.program.nodes[at]
            if leaf.updates != step.updates:
                raise SystemExit(f"{self.title}: the plain walk of the program is not what tsl run does")
            outputs = [value_of(it.term, step.values, self.meaning) for it in leaf.updates[len(self.program.cells):]]
            yield " ".join(map(str, [at, step.state, *(step.values[it] for it in self.program.cells), *outputs]))


# ---- random programs ----

NASTY = ["is", "class", "x'", "x_prime", "_x", "__init__", "self", "value", "state", "int", "fn", "device", "inputs", "outputs", "own", "step",
         "clone", "constructor", "__proto__", "bool", "linux", "None", "match", "type", "await", "part_1", "new_x", "truth", "errno", "LAMP_VALUE",
         "Device", "Any", "D", "V", "main", "x''", "yield", "delete", "is_", "eq"]


def random_case(number, ask):
    """A random program with tables and inputs, of which `ask` says what it does."""
    chance = random.Random(number)
    names = chance.sample(NASTY, len(NASTY))
    domain = chance.choice([2, 3])
    take = lambda count: [names.pop() for _ in range(count)]
    inputs, cells, outputs = take(chance.randrange(3)), take(chance.randrange(3)), take(chance.randrange(3))
    functions = {name: chance.randrange(3) for name in take(4)}
    predicates = {name: chance.randrange(3) for name in take(3)}
    signals = inputs + cells
    # `eq` with two arguments is equality, and has no table.
    is_given = lambda name, count: not (name == "eq" and count == 2)

    def term(depth):
        if signals and (depth == 0 or chance.random() < 0.3):
            return Signal(chance.choice(signals))
        able = [name for name, count in functions.items() if count == 0 or depth > 0]
        if not able:
            return Signal(chance.choice(signals)) if signals else Apply(constant, ())
        name = chance.choice(able)
        return Apply(name, tuple(term(depth - 1) for _ in range(functions[name])))

    def test():
        if signals and chance.random() < 0.3:
            return Test("?", (Signal(chance.choice(signals)),))
        if chance.random() < 0.2 and "eq" not in signals + outputs + list(functions) and predicates.get("eq", 2) == 2:
            return Test("eq", (term(2), term(2)))
        name = chance.choice(list(predicates))
        return Test(name, tuple(term(chance.choice([1, 2, 30])) for _ in range(predicates[name])))

    constant = names.pop()
    functions[constant] = 0
    states = chance.randrange(1, 4)
    nodes = []
    for _ in range(chance.randrange(1, 60)):
        if len(nodes) < 3 or chance.random() < 0.15:
            own = tuple(Update(Signal(it), Signal(it) if it in cells and chance.random() < 0.3 else term(chance.choice([1, 2, 3, 40]))) for it in cells + outputs)
            nodes.append(Leaf(own, chance.randrange(states)))
        else:
            below = lambda: len(nodes) - 1 - min(int(chance.expovariate(0.5)), len(nodes) - 1)
            nodes.append(Branch(test(), below(), below()))
    program = Program(inputs, cells, outputs, [], nodes, [len(nodes) - 1 - i % len(nodes) for i in range(states)])
    named = {}
    for node in nodes:
        for it in ([node.test] if isinstance(node, Branch) else [it.term for it in node.updates]):
            left = [it]
            while left:
                at = left.pop()
                if not isinstance(at, Signal):
                    named[at.name] = len(at.arguments)
                    left += at.arguments
    table = lambda most, count: [chance.randrange(most) for _ in range(domain ** count)]
    predicates["?"] = 1
    meaning = Tables(domain, {it: table(domain, count) for it, count in functions.items() if it in named},
                     {it: table(2, count) for it, count in predicates.items() if it in named and is_given(it, count)},
                     {it: chance.randrange(domain) for it in cells})
    rows = [[chance.randrange(domain) for _ in inputs] for _ in range(chance.randrange(2, 12))]
    given = Inputs(inputs, rows[:1], rows[1:])
    trace = ask(write_program(program) + write_tables(meaning) + write_inputs(given))
    return Case(f"random program {number}", program, meaning, given, trace)


# ---- the drivers ----

def in_c(cases, folder):
    lines = []
    for i, case in enumerate(cases):
        (folder / f"case{i}.h").write_text(code.code("c", f"case{i}", case.program))
        spelling = code.C(f"case{i}", case.program).spelling
        lines.append(f'#include "case{i}.h"')
        for s, (name, count, predicate, table) in enumerate(case.symbols()):
            lines.append(f"static const long t{i}_{s}[] = {{{', '.join(map(str, table))}}};")
            index = "0"
            for a in range(count):
                index = f"({index}) * {case.meaning.domain} + a{a}"
            takes = ", ".join(["void *own", *(f"long a{a}" for a in range(count))])
            lines.append(f"static {'int' if predicate else 'long'} f{i}_{s}({takes}) {{ (void)own; return {'(int)' if predicate else ''}t{i}_{s}[{index}]; }}")
        program = case.program
        lines += [f"static void run{i}(void) {{", f"  struct case{i}_device device = {{0}};", f"  struct case{i}_state state = {{0}};",
                  f"  struct case{i}_inputs inputs = {{0}};", f"  struct case{i}_outputs outputs = {{0}};", "  int step, state_before, node;",
                  f"  static const long rows[{len(case.steps)}][{max(1, len(program.inputs))}] = {{"]
        lines += ["    {" + (", ".join(map(str, row)) or "0") + "}," for row in case.rows()] + ["  };", "  (void)rows;"]
        for s, (name, _, _, _) in enumerate(case.symbols()):
            lines.append(f"  device.{spelling[name]} = f{i}_{s};")
        lines += [f"  state.{spelling[it]} = {case.meaning.cells[it]};" for it in program.cells]
        lines.append(f"  for (step = 0; step < {len(case.steps)}; step++) {{")
        lines += [f"    inputs.{spelling[it]} = rows[step][{k}];" for k, it in enumerate(program.inputs)]
        lines += [f"    long before_{k} = state.{spelling[it]};" for k, it in enumerate(program.cells)]
        lines += ["    state_before = state.state;", f"    node = case{i}_step(&device, &inputs, &state, &outputs);", '    printf("%d %d", node, state_before);']
        lines += [f'    printf(" %ld", before_{k});' for k in range(len(program.cells))]
        lines += [f'    printf(" %ld", outputs.{spelling[it]});' for it in program.outputs]
        lines += ['    printf("\\n");', "  }", "}"]
    lines = ["#include <stdio.h>", *lines, "int main(void) {", *(f"  run{i}();" for i in range(len(cases))), "  return 0;", "}"]
    (folder / "main.c").write_text("\n".join(lines) + "\n")
    subprocess.run(["cc", "-std=c99", "-O0", "-Wall", "-Wextra", "-Wpedantic", "-Werror", "-Wno-missing-field-initializers", "-o", folder / "main", folder / "main.c"],
                   check=True)
    return subprocess.run([folder / "main"], check=True, stdout=subprocess.PIPE, universal_newlines=True).stdout


def in_python(cases, folder):
    for i, case in enumerate(cases):
        (folder / f"case{i}.py").write_text(code.code("python", f"case{i}", case.program))
    given = [{"spelling": code.Python("case", case.program).spelling, "symbols": list(case.symbols()), "domain": case.meaning.domain, "rows": case.rows(),
              "inputs": case.program.inputs, "cells": case.program.cells, "outputs": case.program.outputs, "first": case.meaning.cells} for case in cases]
    (folder / "given.json").write_text(json.dumps(given))
    (folder / "main.py").write_text("""import importlib, json, sys
sys.dont_write_bytecode = True
def given(table, domain):
    def of(self, *arguments):
        at = 0
        for it in arguments:
            at = at * domain + it
        return table[at]
    return of
for i, one in enumerate(json.load(open("given.json"))):
    made = importlib.import_module("case%d" % i)
    said = one["spelling"]
    device = type("Own", (made.Device,), {said[name]: given(table, one["domain"]) for name, _, _, table in one["symbols"]})()
    state = made.State(**{said[it]: one["first"][it] for it in one["cells"]})
    for row in one["rows"]:
        before = [state.state] + [getattr(state, said[it]) for it in one["cells"]]
        outputs, node = made.step(device, made.Inputs(**{said[it]: value for it, value in zip(one["inputs"], row)}), state)
        print(*[node, *before, *(getattr(outputs, said[it]) for it in one["outputs"])])
""")
    return subprocess.run([sys.executable, "-B", "main.py"], cwd=folder, check=True, stdout=subprocess.PIPE, universal_newlines=True).stdout


def in_javascript(cases, folder):
    for i, case in enumerate(cases):
        (folder / f"case{i}.js").write_text(code.code("javascript", f"case{i}", case.program))
    given = [{"spelling": list(code.JavaScript("case", case.program).spelling.items()), "symbols": list(case.symbols()), "domain": case.meaning.domain,
              "rows": case.rows(), "inputs": case.program.inputs, "cells": case.program.cells, "outputs": case.program.outputs,
              "first": [case.meaning.cells[it] for it in case.program.cells]} for case in cases]
    (folder / "given.json").write_text(json.dumps(given))
    (folder / "main.js").write_text("""const given = JSON.parse(require("fs").readFileSync("given.json"));
const lines = [];
given.forEach((one, i) => {
  const made = require("./case" + i + ".js");
  const said = new Map(one.spelling);
  const device = {};
  for (const [name, , predicate, table] of one.symbols) {
    device[said.get(name)] = (...values) => {
      const found = table[values.reduce((at, value) => at * one.domain + value, 0)];
      return predicate ? found === 1 : found;
    };
  }
  const state = made.start(...one.first);
  for (const row of one.rows) {
    const inputs = {};
    one.inputs.forEach((name, k) => { inputs[said.get(name)] = row[k]; });
    const before = [state.state, ...one.cells.map((name) => state[said.get(name)])];
    const { outputs, node } = made.step(device, inputs, state);
    lines.push([node, ...before, ...one.outputs.map((name) => outputs[said.get(name)])].join(" "));
  }
});
console.log(lines.join("\\n"));
""")
    return subprocess.run(["node", "main.js"], cwd=folder, check=True, stdout=subprocess.PIPE, universal_newlines=True).stdout


def in_rust(cases, folder):
    lines = ["#![deny(warnings)]"]
    for i, case in enumerate(cases):
        (folder / f"case{i}.rs").write_text(code.code("rust", f"case{i}", case.program))
        said = code.Rust(f"case{i}", case.program).spelling
        program = case.program
        lines += [f"mod case{i};", f"#[allow(non_camel_case_types)] struct device{i};", "#[allow(non_snake_case, unused_variables)]", f"impl case{i}::Device for device{i} {{",
                  "    type Value = i64;"]
        for name, count, predicate, table in case.symbols():
            takes = ", ".join(["&self", *(f"a{a}: &i64" for a in range(count))])
            index = "0"
            for a in range(count):
                index = f"({index}) * {case.meaning.domain} + *a{a}" if a else f"*a{a}"
            found = f"[{', '.join(map(str, table))}][({index}) as usize]"
            lines.append(f"    fn {said[name]}({takes}) -> {'bool' if predicate else 'i64'} {{ #[allow(unused_parens)] let found: i64 = {found}; {'found == 1' if predicate else 'found'} }}")
        lines += ["}", "#[allow(unused_variables)]", f"fn run{i}() {{", f"    let rows: Vec<Vec<i64>> = vec![{', '.join('vec![' + ', '.join(map(str, row)) + ']' for row in case.rows())}];"]
        first = ", ".join(["state: 0", *(f"{said[it]}: {case.meaning.cells[it]}" for it in program.cells)])
        lines += [f"    let mut state = case{i}::State {{ {first} }};", "    for row in rows {", "        let mut before = vec![state.state as i64];"]
        lines += [f"        before.push(state.{said[it]});" for it in program.cells] or ["        before.extend(Vec::<i64>::new());"]
        members = ", ".join(f"{said[it]}: row[{k}]" for k, it in enumerate(program.inputs))
        lines += [f"        let inputs = case{i}::Inputs {{ {members} }};", f"        let (outputs, node) = case{i}::step(&device{i}, &inputs, &mut state);"]
        lines += [f"        before.push(outputs.{said[it]});" for it in program.outputs]
        lines += ['        println!("{} {}", node, before.iter().map(|it| it.to_string()).collect::<Vec<_>>().join(" "));', "    }", "}"]
    lines += ["fn main() {", *(f"    run{i}();" for i in range(len(cases))), "}"]
    (folder / "main.rs").write_text("\n".join(lines) + "\n")
    subprocess.run(["rustc", "--edition", "2018", "-o", folder / "main", folder / "main.rs"], check=True)
    return subprocess.run([folder / "main"], check=True, stdout=subprocess.PIPE, universal_newlines=True).stdout


DRIVERS = {"c": in_c, "python": in_python, "javascript": in_javascript, "rust": in_rust}


def ask_run(text):
    """What `tsl run` writes."""
    done = subprocess.run([PROGRAM, "run"], input=text.encode("latin-1"), stdout=subprocess.PIPE, stderr=subprocess.PIPE)
    if done.returncode != 0:
        raise SystemExit(f"tsl run refuses: {done.stderr.decode()}\n{text}")
    return done.stdout.decode("latin-1")


def cases_of_examples():
    """The programs of examples/ that have a run."""
    for path in sorted((HERE.parent / "examples").glob("*/*.inputs")):
        given = read(path)
        yield Case(path.stem, read_program(read(path.with_suffix(".out"))), read_meaning(part(given, "tsltables 1", "tslwords 1")),
                   read_inputs(part(given, "tslinputs 1")), read(path.with_suffix(".trace")))
    for path in sorted((HERE.parent / "examples").glob("*/*.run")):
        given = read(path)
        yield Case(path.stem, read_program(part(given, "tslprogram 1")), read_meaning(part(given, "tsltables 1", "tslwords 1")),
                   read_inputs(part(given, "tslinputs 1")), read(path.with_suffix(".out")))


def control_by_yosys(name, folder):
    """Whether the Verilog of an example's program, as `yosys` reads it, does what its circuit does."""
    text = read(HERE.parent / "examples" / f"{name}.tsl")
    program = read(HERE.parent / "examples" / f"{name}.out")
    answer = subprocess.run([PROGRAM, "circuit", "--bound", "15"], input=(text + program).encode("latin-1"), stdout=subprocess.PIPE, check=True).stdout
    circuit = read_circuit(answer.decode("latin-1"))
    space = space_of(read_specification(text))
    updates = [f"{signal} {write_term(term)}" for signal in space.controlled for term in space.choices[signal]]
    tests = list(map(write_test, space.tests))
    (folder / "it.v").write_text(code.verilog("top", circuit, tests, updates))
    script = "read_verilog it.v; proc; flatten; opt; techmap; dffunmap -srst-only; aigmap; opt_clean; write_aiger -symbols it.aig"
    subprocess.run(["yosys", "-q", "-p", script], cwd=folder, check=True)
    other = read_circuit((folder / "it.aig").read_bytes().decode("latin-1"))
    place = {other.symbols[f"i{i}"]: i for i in range(len(other.inputs))}
    ports = [re.match(r"// ([a-z0-9_]+): ", line, re.I) for line in (folder / "it.v").read_text().splitlines()]
    ports = [it.group(1) for it in ports if it]
    out = {other.symbols[f"o{i}"]: i for i in range(len(other.outputs))}
    known, left = set(), [(circuit.start(), other.start())]
    while left:
        both = left.pop()
        if both in known:
            continue
        known.add(both)
        for valuation in valuations(len(tests)):
            given = [False] * len(other.inputs)
            for port, truth in zip(ports, valuation):
                if port in place:
                    given[place[port]] = truth
            made, after = circuit.step(both[0], valuation)
            made_there, after_there = other.step(both[1], given)
            if made != [made_there[out[port]] for port in ports[len(tests):]]:
                return False
            left.append((after, after_there))
    return True


def main():
    words = sys.argv[1:]
    count = int(words.pop(0)) if words and words[0].isdigit() else 30
    if set(words) - set(LANGUAGES) - {"verilog"}:
        raise SystemExit(f"the languages are {', '.join(LANGUAGES)} and verilog")
    cases = list(cases_of_examples())
    if count and not PROGRAM.exists():
        raise SystemExit("random programs need the built program: ./tsl synth < examples/first/copy.tsl")
    cases += [random_case(number, ask_run) for number in range(count)]
    wanted = [(case.title, line) for case in cases for line in case.wanted()]
    failed = 0
    for language, compiler in LANGUAGES.items():
        if words and language not in words:
            continue
        if language != "python" and not shutil.which(compiler):
            print(f"{language}: passed over, since {compiler} is not installed")
            continue
        with tempfile.TemporaryDirectory() as name:
            said = DRIVERS[language](cases, pathlib.Path(name)).splitlines()
        wrong = [(title, line, got) for (title, line), got in zip(wanted, said) if line != got]
        if wrong or len(said) != len(wanted):
            failed += 1
            print(f"{language}: {len(wrong)} of {len(wanted)} steps differ, {len(said)} were made; the first one: {wrong[:1]}")
        else:
            print(f"{language}: {len(cases)} programs, {len(wanted)} steps as in tsl run")
    if not words or "verilog" in words:
        if shutil.which("yosys") and PROGRAM.exists():
            with tempfile.TemporaryDirectory() as name:
                wrong = [control for control in CONTROLS if not control_by_yosys(control, pathlib.Path(name))]
            failed += len(wrong)
            print(f"verilog: {len(CONTROLS)} controls, {len(wrong)} of them differ: {' '.join(wrong)}".rstrip(": "))
        else:
            print("verilog: passed over, since yosys is not installed")
    sys.exit(1 if failed else 0)


main()
