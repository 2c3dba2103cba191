"""`tslx simplify`: a smaller program, by dropping tests, merging states and dropping windows while `tsl check` accepts."""
from dataclasses import dataclass, field, replace
from typing import Callable, Dict, Iterator, List, Optional, Tuple

from .asking import ask
from .files import Stop, gather, tell, write
from .formulas import Formula, Joined, Pair, Prefixed, Test, Truth, write_formula, write_test
from .given import number_in, options_of, parts_of_text, program_in, refused
from .programs import Branch, Leaf, Node, Program, write_program
from .specifications import Item, Specification, read_specification

MOST_PATHS = 4096


@dataclass(frozen=True)
class Changes:
    """What is changed of a program, by the numbers of the first one: the branch that stands in place of a test, the state that stands in
    place of another one, and the windows that go."""
    branches: Tuple[Tuple[int, bool], ...] = ()
    states: Tuple[Tuple[int, int], ...] = ()
    windows: Tuple[int, ...] = ()

    def joined(self, other: "Changes") -> "Changes":
        """Both changes."""
        return Changes(self.branches + other.branches, self.states + other.states, self.windows + other.windows)


def changed(program: Program, changes: Changes) -> Program:
    """The program with changes: what no state comes to any more is left out, nodes that are alike are one, and so are the branches of a test
    that does the same either way. Nodes stand in post-order, the branch of true first."""
    branches, stands = dict(changes.branches), dict(changes.states)

    def state_of(state: int) -> int:
        while state in stands:
            state = stands[state]
        return state

    # A node stands for itself, or for an earlier one that is alike.
    alike: Dict[Node, int] = {}
    stands_for: Dict[int, int] = {}
    made: Dict[int, Node] = {}
    for number, node in enumerate(program.nodes):
        if isinstance(node, Branch):
            yes, no = stands_for[node.yes], stands_for[node.no]
            if number in branches:
                yes = no = yes if branches[number] else no
            if yes == no:
                stands_for[number] = yes
                continue
            now: Node = Branch(node.test, yes, no)
        else:
            now = Leaf(node.updates, state_of(node.go))
        stands_for[number] = alike.setdefault(now, number)
        made[number] = now
    # States that are reached, by rising number.
    reached = {state_of(0)}
    left = [state_of(0)]
    while left:
        for node in (made[it] for it in below(made, stands_for[program.states[left.pop()]])):
            if isinstance(node, Leaf) and node.go not in reached:
                reached.add(node.go)
                left.append(node.go)
    first = state_of(0)
    order = {state: i for i, state in enumerate([first, *sorted(reached - {first})])}
    numbers: Dict[int, int] = {}
    nodes: List[Node] = []
    for state in order:
        for it in below(made, stands_for[program.states[state]]):
            if it in numbers:
                continue
            node = made[it]
            numbers[it] = len(nodes)
            nodes.append(Branch(node.test, numbers[node.yes], numbers[node.no]) if isinstance(node, Branch) else Leaf(node.updates, order[node.go]))
    windows = [it for i, it in enumerate(program.windows) if i not in changes.windows]
    return Program(program.inputs, program.cells, program.outputs, windows, nodes, [numbers[stands_for[program.states[it]]] for it in order])


def below(nodes: Dict[int, Node], root: int) -> List[int]:
    """The nodes that a node leads to, itself last, each behind those that it leads to."""
    found: Dict[int, bool] = {}
    path = [(root, False)]
    while path:
        at, opened = path.pop()
        node = nodes[at]
        if at in found:
            continue
        if opened or isinstance(node, Leaf):
            found[at] = True
        else:
            path += [(at, True), (node.no, False), (node.yes, False)]
    return list(found)


@dataclass
class Simplifier:
    """Goes on until nothing more goes. `accepts` says whether a program is right; `asked` counts how often it was asked, at most `most`."""
    program: Program
    accepts: Callable[[Program], bool]
    most: int
    kept: Changes = field(default_factory=Changes)
    asked: int = 0

    def size(self, changes: Changes) -> int:
        """How much there is of a changed program."""
        now = changed(self.program, changes)
        return len(now.nodes) + len(now.states) + len(now.windows)

    def tries(self, some: List[Changes]) -> bool:
        """Keeps as many of the changes as are accepted: all at once, or else half of them and then the other half."""
        together = self.kept
        for one in some:
            together = together.joined(one)
        if not some or self.asked >= self.most:
            return False
        if self.size(together) < self.size(self.kept):
            self.asked += 1
        elif len(some) == 1:
            return False
        if self.size(together) < self.size(self.kept) and self.accepts(changed(self.program, together)):
            self.kept = together
            return True
        if len(some) == 1:
            return False
        half = len(some) // 2
        first = self.tries(some[:half])
        return self.tries(some[half:]) or first

    def tests_left(self) -> List[int]:
        """The tests of the first program that still stand, the deepest first."""
        gone = dict(self.kept.branches)
        now = changed(self.program, self.kept)
        standing = {node.test for node in now.nodes if isinstance(node, Branch)}
        return [number for number, node in enumerate(self.program.nodes)
                if isinstance(node, Branch) and number not in gone and node.test in standing]

    def go(self) -> Program:
        """The program when nothing more goes."""
        again = True
        while again and self.asked < self.most:
            before = self.size(self.kept)
            for truth in (False, True):
                self.tries([Changes(branches=((number, truth),)) for number in self.tests_left()])
            gone = dict(self.kept.states)
            for state in range(1, len(self.program.states)):
                for other in range(len(self.program.states)):
                    if state != other and state not in gone and other not in gone and self.tries([Changes(states=((state, other),))]):
                        gone = dict(self.kept.states)
            self.tries([Changes(windows=(i,)) for i in range(len(self.program.windows)) if i not in self.kept.windows])
            again = self.size(self.kept) < before
        result = changed(self.program, self.kept)
        # Changes that were kept beside others, and change nothing, are forgotten.
        for kind in ("branches", "states", "windows"):
            for one in getattr(self.kept, kind):
                fewer = replace(self.kept, **{kind: tuple(it for it in getattr(self.kept, kind) if it != one)})
                if changed(self.program, fewer) == result:
                    self.kept = fewer
        return result


# ---- why ----

def truth_under(formula: Formula, truths: Dict[Test, bool]) -> Optional[bool]:
    """The truth of a formula of one step where some tests have truths; none where it hangs on others, on updates or on later steps."""
    if isinstance(formula, Truth):
        return formula.value
    if isinstance(formula, Test):
        return truths.get(formula)
    if isinstance(formula, Prefixed):
        inner = truth_under(formula.operand, truths)
        if formula.operator == "!":
            return None if inner is None else not inner
        # At each step, also at this one: so what is false here is false for G.
        return False if formula.operator == "G" and inner is False else None
    if isinstance(formula, Joined):
        parts = [truth_under(it, truths) for it in formula.operands]
        strong = formula.operator == "||"
        return strong if strong in parts else None if None in parts else not strong
    if isinstance(formula, Pair) and formula.operator in ("->", "<->"):
        left, right = truth_under(formula.left, truths), truth_under(formula.right, truths)
        if formula.operator == "->":
            return True if left is False or right is True else None if None in (left, right) else False
        return None if None in (left, right) else left == right
    return None


def ways(program: Program, to: int) -> Iterator[Dict[Test, bool]]:
    """The truths of the tests on each way from a state to a node."""
    leading: Dict[int, List[Tuple[int, bool]]] = {}
    for number, node in enumerate(program.nodes):
        if isinstance(node, Branch):
            leading.setdefault(node.yes, []).append((number, True))
            leading.setdefault(node.no, []).append((number, False))
    entries = set(program.states)

    def up(at: int, truths: Dict[Test, bool]) -> Iterator[Dict[Test, bool]]:
        if at in entries:
            yield truths
        for number, truth in leading.get(at, []):
            test = program.nodes[number].test  # type: ignore[union-attr]
            if truths.get(test, truth) == truth:
                yield from up(number, {**truths, test: truth})
    yield from up(to, {})


def broken_there(spec: Specification, program: Program, number: int, truth: bool) -> List[Item]:
    """The assumptions of each step that are broken on every way to a branch."""
    node = program.nodes[number]
    assumed = [item for section, item in spec.expanded().items() if section.kind == "assume" and section.always]
    found = assumed
    for count, truths in enumerate(ways(program, number)):
        if count >= MOST_PATHS or not found or not isinstance(node, Branch):
            return []
        if truths.get(node.test, truth) != truth:
            continue
        found = [it for it in found if truth_under(it.formula, {**truths, node.test: truth}) is False] or some_broken(assumed, {**truths, node.test: truth})
    return found


def some_broken(assumed: List[Item], truths: Dict[Test, bool]) -> List[Item]:
    """The assumptions that truths break."""
    return [it for it in assumed if truth_under(it.formula, truths) is False]


def account(spec: Specification, program: Program, changes: Changes, result: Program) -> List[str]:
    """What went, and why, a line each."""
    said = []
    for number, truth in changes.branches:
        node = program.nodes[number]
        if not isinstance(node, Branch):
            continue
        other = "false" if truth else "true"
        why = broken_there(spec, program, number, not truth)
        reason = f"where it is {other}, line {why[0].place.line} is broken, which is assumed: {write_formula(why[0].formula)}" if why else \
            f"what it did where {write_test(node.test)} is {other} is not needed"
        said.append(f"node {number}, {write_test(node.test)}: {reason}")
    said += [f"state {state}: state {other} does for it" for state, other in changes.states]
    said += [f"window {number}: it is not needed" for number in changes.windows]
    counts = [(len(it.nodes), len(it.states), len(it.windows)) for it in (program, result)]
    shown = [f"{counted(nodes, 'node')}, {counted(states, 'state')} and {counted(windows, 'window')}" for nodes, states, windows in counts]
    return [*said, f"{shown[0]} became {shown[1]}"]


def counted(count: int, noun: str) -> str:
    """A number of things."""
    return f"{count} {noun}" + ("" if count == 1 else "s")


# ---- the command ----

HELP = """tslx simplify [--bound K] [--most N] FILE..
The files are a specification and a program that check accepts within the bound K, 0 to 15, 2 by default. Writes a program that it accepts, too,
with fewer nodes, states and windows: a branch stands in place of a test, a state in place of another one, and nodes that are alike are one.
What went, and why, is told on the error output: mostly what a program does once an assumption is broken.
  --bound K         0 to 15; 2 by default: the bound of check
  --most N          1 to 100000; 2000 by default: how often check is asked at most
"""


def main(words: List[str]) -> int:
    """Writes a smaller program."""
    options, files = options_of("simplify", words, {"--bound": "0 to 15", "--most": "1 to 100000"}, 0, None, "the files of a specification and a program")
    bound, most = number_in(options, "--bound", 0, 15, 2), number_in(options, "--most", 1, 100000, 2000)
    gathered = gather(files)
    asked = ["check", "--bound", str(bound)]
    program = program_in(gathered)
    answer = ask(asked, gathered.data)
    if answer.status > 1:
        refused(answer, gathered)
    if answer.status:
        raise Stop(f"check does not accept the program as it is: {answer.out.strip()}", 1)
    text = parts_of_text(gathered.text)[0]

    def accepts(it: Program) -> bool:
        """Whether `check` accepts a program."""
        return ask(asked, text + write_program(it)).status == 0
    it = Simplifier(program, accepts, most)
    result = it.go()
    for said in account(read_specification(text), program, it.kept, result):
        tell("tslx: " + said)
    if it.asked >= most:
        tell(f"tslx: {counted(most, 'question')} asked, and more could go")
    write(write_program(result))
    return 0
