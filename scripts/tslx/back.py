"""`tslx back`: a circuit of another tool as a program, which `tsl check` accepts or not."""
from typing import Dict, List, Tuple

from .circuits import Circuit, read_circuit, valuations
from .files import Stop, gather, read_file, shown, write
from .formulas import Signal, Update
from .given import options_of, program_in, specification_in
from .programs import Branch, Leaf, Node, Program, write_program
from .specifications import Specification, space_of
from .tlsf import propositions
from .tokens import Unreadable

MOST_STATES = 64
MOST_VALUATIONS = 1024


class Refused(Exception):
    """Why a circuit is no program, in one sentence."""


def by_names(circuit: Circuit, mark: str, count: int, wanted: List[str], names: Dict[str, str], what: str) -> Dict[str, int]:
    """For each wanted text its place among the circuit's inputs or outputs: by the symbols, where each place has one, or else by order."""
    symbols = [circuit.symbols.get(f"{mark}{i}") for i in range(count)]
    if count and None not in symbols:
        meant = {**{names[text]: text for text in wanted}, **{text: text for text in wanted}}
        found: Dict[str, int] = {}
        for place, symbol in enumerate(symbols):
            if symbol not in meant:
                raise Refused(f"the circuit's {what} {symbol} is none of the specification, as tslx tlsf names them")
            if meant[symbol] in found:
                raise Refused(f"the circuit has the {what} {symbol} twice")
            found[meant[symbol]] = place
        return found
    if count != len(wanted):
        raise Refused(f"the circuit has {count} {what}s without names, and the specification has {len(wanted)}")
    return {text: place for place, text in enumerate(wanted)}


def back(spec: Specification, circuit: Circuit) -> Program:
    """The program that does what the circuit does."""
    space = space_of(spec)
    names, tests, signals = propositions(space)
    if 2 ** len(tests) > MOST_VALUATIONS:
        raise Refused(f"{len(tests)} tests have more than {MOST_VALUATIONS} valuations")
    reads = by_names(circuit, "i", len(circuit.inputs), tests, names, "input")
    updates = [it for _, own in signals for it in own]
    writes = by_names(circuit, "o", len(circuit.outputs), updates, names, "output")
    for text in updates:
        if text not in writes:
            raise Refused(f"the circuit has no output for {text}")
    numbers: Dict[Tuple[bool, ...], int] = {circuit.start(): 0}
    states = [circuit.start()]
    nodes: List[Node] = []
    known: Dict[Node, int] = {}
    entries: List[int] = []

    def number_of(node: Node) -> int:
        if node not in known:
            known[node] = len(nodes)
            nodes.append(node)
        return known[node]

    every = list(valuations(len(tests)))
    given = [0] * len(circuit.inputs)
    for place, test in enumerate(tests):
        if test in reads:
            given[reads[test]] = sum(1 << bit for bit, valuation in enumerate(every) if valuation[place])
    for state in states:
        leaves: Dict[Tuple[bool, ...], Leaf] = {}
        outputs, nexts = circuit.steps(state, given, (1 << len(every)) - 1)
        for bit, valuation in enumerate(every):
            after = tuple(it >> bit & 1 == 1 for it in nexts)
            taken = []
            for name, own in signals:
                on = [i for i, text in enumerate(own) if outputs[writes[text]] >> bit & 1]
                if len(on) != 1:
                    where = ", ".join(("" if truth else "not ") + test for test, truth in zip(tests, valuation)) or "there is no test"
                    said = "no update of" if not on else "more than one update of"
                    raise Refused(f"in state {numbers[state]} the circuit makes {said} {name} where {where}")
                taken.append(Update(Signal(name), space.choices[name][on[0]]))
            if after not in numbers:
                if len(numbers) == MOST_STATES:
                    raise Refused(f"the circuit comes to more than {MOST_STATES} states")
                numbers[after] = len(numbers)
                states.append(after)
            leaves[valuation] = Leaf(tuple(taken), numbers[after])

        def tree(asked: Tuple[bool, ...]) -> int:
            if len(asked) == len(tests):
                return number_of(leaves[asked])
            yes, no = tree((*asked, True)), tree((*asked, False))
            return yes if yes == no else number_of(Branch(space.tests[len(asked)], yes, no))
        entries.append(tree(()))
    return Program(space.inputs, space.cells, space.outputs, [], nodes, entries)


# ---- the command ----

HELP = f"""tslx back [--windows PROGRAM] SPECIFICATION CIRCUIT
A circuit in the AIGER form, binary or ASCII, as a program: its inputs are the tests and its outputs the updates, by its table of symbols, as tslx
tlsf names them or as they are written, or else by the order of tsl circuit. In each state that it comes to, for all truths of the tests, it
has to make exactly one update of each cell and output. It may come to {MOST_STATES} states, and there may be {MOST_VALUATIONS} truths of the tests.
Whether the program is right tslx check says.
  --windows PROGRAM the program has the windows of another one: a circuit has none
"""


def main(words: List[str]) -> int:
    """Writes the program of a circuit."""
    options, files = options_of("back", words, {"--windows": "the file of a program"}, 2, 2, "a specification and a circuit")
    windows = program_in(gather([options["--windows"]])).windows if "--windows" in options else []
    spec = specification_in(gather(files[:1]))
    try:
        circuit = read_circuit(read_file(files[1]).decode("latin-1"))
        program = back(spec, circuit)
    except Unreadable as fault:
        raise Stop(f"{shown(files[1])}: {fault.said}", 3)
    except Refused as why:
        raise Stop(str(why), 1)
    program.windows = windows
    write(write_program(program))
    return 0
