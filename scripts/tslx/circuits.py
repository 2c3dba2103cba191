"""Circuits in the AIGER form, binary or ASCII, with the symbols that other tools give."""
from dataclasses import dataclass, field
from typing import Dict, Iterator, List, Sequence, Tuple

from .tokens import Unreadable

MOST_GATES = 1_000_000


@dataclass
class Circuit:
    """Literals of the inputs; of each latch its own and its next one; of each output; of each gate its own and the two that it joins. Literal 2v
    is variable v, 2v + 1 its negation, 0 false and 1 true. Latches start with the value in `starts`, false where there is none. `symbols`
    has the names of inputs, latches and outputs (`i0`, `l0`, `o0`, ..)."""
    inputs: List[int]
    latches: List[Tuple[int, int]]
    outputs: List[int]
    gates: List[Tuple[int, int, int]]
    starts: Dict[int, bool] = field(default_factory=dict)
    symbols: Dict[str, str] = field(default_factory=dict)

    def start(self) -> Tuple[bool, ...]:
        """The values of the latches at first."""
        return tuple(self.starts.get(latch, False) for latch, _ in self.latches)

    def step(self, latches: Sequence[bool], inputs: Sequence[bool]) -> Tuple[List[bool], Tuple[bool, ...]]:
        """The outputs where latches and inputs have values, and the latches' next values. Gates have to stand in an order of computing."""
        outputs, after = self.steps(latches, list(map(int, inputs)), 1)
        return [bit == 1 for bit in outputs], tuple(bit == 1 for bit in after)

    def steps(self, latches: Sequence[bool], inputs: Sequence[int], every: int) -> Tuple[List[int], List[int]]:
        """As many steps as `every` has bits, all of which are set: bit b of an input, of an output and of a latch's next value is that of step b."""
        values = {0: 0}
        values.update((literal // 2, bits) for literal, bits in zip(self.inputs, inputs))
        values.update((latch // 2, every if value else 0) for (latch, _), value in zip(self.latches, latches))

        def of(literal: int) -> int:
            return values[literal // 2] ^ (every if literal % 2 else 0)
        for gate, left, right in self.gates:
            values[gate // 2] = of(left) & of(right)
        return [of(literal) for literal in self.outputs], [of(after) for _, after in self.latches]


def ordered(gates: List[Tuple[int, int, int]], known: List[int], line: int) -> List[Tuple[int, int, int]]:
    """The gates in an order in which each joins what stands before it."""
    by_variable = {gate // 2: (gate, left, right) for gate, left, right in gates}
    done = {0, *(literal // 2 for literal in known)}
    if len(by_variable) != len(gates) or done & set(by_variable):
        raise Unreadable("the circuit gives a variable two meanings", line)
    found: List[Tuple[int, int, int]] = []
    for root in by_variable:
        path = [root]
        waiting = set()
        while path:
            at = path[-1]
            if at in done:
                path.pop()
                continue
            if at not in by_variable:
                raise Unreadable(f"the circuit's variable {at} is no input, latch or gate", line)
            below = [it // 2 for it in by_variable[at][1:] if it // 2 not in done]
            if not below:
                done.add(at)
                found.append(by_variable[at])
                path.pop()
                continue
            if at in waiting:
                raise Unreadable("the circuit's gates lead back to themselves", line)
            waiting.add(at)
            path += below
    return found


def read_circuit(text: str) -> Circuit:
    """The circuit that a text is; its characters are its bytes."""
    head, _, rest = text.partition("\n")
    words = head.split(" ")
    if words[0] not in ("aag", "aig") or len(words) < 6 or not all(it.isdigit() for it in words[1:]):
        raise Unreadable("a circuit begins with aag or aig and five numbers", 1)
    most, inputs, latches, outputs, gates = map(int, words[1:6])
    if any(int(it) for it in words[6:]):
        raise Unreadable("circuits with properties (B, C, J or F) are not read", 1)
    if gates > MOST_GATES or max(inputs, latches, outputs) > len(text):
        raise Unreadable("the circuit is larger than its text, or has more than 1,000,000 gates", 1)
    if words[0] == "aig":
        return read_binary(rest, most, inputs, latches, outputs, gates)
    lines = iter(enumerate(rest.split("\n"), 2))

    def numbers(least: int, largest: int) -> List[int]:
        number, said = next(lines, (0, ""))
        found = said.split()
        if not least <= len(found) <= largest or not all(it.isdigit() and int(it) <= 2 * most + 1 for it in found):
            raise Unreadable("no circuit goes on with this line", number)
        return list(map(int, found))

    circuit = Circuit([numbers(1, 1)[0] for _ in range(inputs)], [], [], [])
    for _ in range(latches):
        add_latch(circuit, numbers(2, 3))
    circuit.outputs = [numbers(1, 1)[0] for _ in range(outputs)]
    made = [tuple(numbers(3, 3)) for _ in range(gates)]
    return finish(circuit, made, [said for _, said in lines])  # type: ignore[arg-type]


def add_latch(circuit: Circuit, words: List[int]) -> None:
    """Adds a latch: its literal, its next one, and perhaps what it is at first."""
    circuit.latches.append((words[0], words[1]))
    if len(words) == 3:
        if words[2] > 1:
            raise Unreadable("a latch that may start with any value is not read", 1)
        circuit.starts[words[0]] = words[2] == 1


def read_binary(rest: str, most: int, inputs: int, latches: int, outputs: int, gates: int) -> Circuit:
    """The binary form, behind its first line."""
    if most != inputs + latches + gates:
        raise Unreadable("the first number of a binary circuit is the sum of its inputs, latches and gates", 1)
    circuit = Circuit([2 * (i + 1) for i in range(inputs)], [], [], [])
    at = 0

    def line() -> List[int]:
        nonlocal at
        end = rest.find("\n", at)
        said = rest[at:end].split(" ") if end >= 0 else []
        if not said or not all(it.isdigit() for it in said):
            raise Unreadable("the binary circuit ends too early, or has something else in place of a number", 1)
        at = end + 1
        return list(map(int, said))

    def delta() -> int:
        nonlocal at
        found = shift = 0
        while True:
            if at >= len(rest) or shift > 63:
                raise Unreadable("the gates of the binary circuit end too early", 1)
            byte = ord(rest[at])
            at += 1
            found |= (byte & 127) << shift
            shift += 7
            if byte < 128:
                return found

    for i in range(latches):
        add_latch(circuit, [2 * (inputs + i + 1), *line()])
    circuit.outputs = [line()[0] for _ in range(outputs)]
    made = []
    for i in range(gates):
        gate = 2 * (inputs + latches + i + 1)
        left = gate - delta()
        right = left - delta()
        if right < 0:
            raise Unreadable("a gate of the binary circuit joins a negative literal", 1)
        made.append((gate, left, right))
    return finish(circuit, made, rest[at:].split("\n"))


def finish(circuit: Circuit, gates: List[Tuple[int, int, int]], lines: List[str]) -> Circuit:
    """Puts the gates in order, and reads the symbols behind them up to the comments."""
    known = circuit.inputs + [latch for latch, _ in circuit.latches]
    if any(literal % 2 or not literal for literal in known) or len(set(known)) != len(known):
        raise Unreadable("the inputs and latches of the circuit are no distinct variables", 1)
    circuit.gates = ordered(gates, known, 1)
    defined = {0, *(it // 2 for it in known), *(gate // 2 for gate, _, _ in gates)}
    for literal in circuit.outputs + [after for _, after in circuit.latches]:
        if literal // 2 not in defined:
            raise Unreadable(f"the circuit's variable {literal // 2} is no input, latch or gate", 1)
    for said in lines:
        if said == "c":
            break
        mark, _, name = said.partition(" ")
        if mark[:1] in ("i", "l", "o") and mark[1:].isdigit():
            circuit.symbols[mark] = name
    return circuit


def valuations(count: int) -> Iterator[Tuple[bool, ...]]:
    """All truths of so many tests, the first one being the bit of value 1."""
    for number in range(2 ** count):
        yield tuple(number >> bit & 1 == 1 for bit in range(count))
