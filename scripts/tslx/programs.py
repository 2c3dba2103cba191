"""Program texts: signals, windows, nodes and states."""
import re
from dataclasses import dataclass, field
from typing import Dict, Iterator, List, Optional, Tuple, Union

from .formulas import Test, Update, test_of, update_of, write_test, write_update
from .tokens import HEAD, Unreadable, lines_of


@dataclass(frozen=True)
class Window:
    """That the left test at one step is as the right one at the last step, where certain updates are made and certain equalities hold at
    the steps beside them; or, without a left test, that the right one is true."""
    left: Optional[Test]
    left_at: int
    right: Test
    length: int
    updates: Tuple[Tuple[Update, int], ...]
    equalities: Tuple[Tuple[Test, int], ...]
    line: int = field(default=0, compare=False)


@dataclass(frozen=True)
class Branch:
    """A node that tests: the number of the node that it leads to where the test is true, and of that where it is false."""
    test: Test
    yes: int
    no: int
    line: int = field(default=0, compare=False)


@dataclass(frozen=True)
class Leaf:
    """A node that ends a step: an update of each cell and output, in order, and the number of the next state."""
    updates: Tuple[Update, ...]
    go: int
    line: int = field(default=0, compare=False)


Node = Union[Branch, Leaf]


@dataclass
class Program:
    """A program: its signals in order, its windows, its nodes by number, and for each state the number of its first node. `line` of a node
    or window is its line in the text that it was read from, `state_lines` are those of the states."""
    inputs: List[str]
    cells: List[str]
    outputs: List[str]
    windows: List[Window]
    nodes: List[Node]
    states: List[int]
    state_lines: List[int] = field(default_factory=list, compare=False)

    @property
    def controlled(self) -> List[str]:
        """The cells and then the outputs."""
        return self.cells + self.outputs

    def reached(self, node: int) -> List[int]:
        """The nodes of the tree that a node begins, each once, in post-order, the branch of true before that of false."""
        found: Dict[int, bool] = {}

        def visit(at: int) -> None:
            if at in found:
                return
            it = self.nodes[at]
            if isinstance(it, Branch):
                visit(it.yes)
                visit(it.no)
            found[at] = True
        visit(node)
        return list(found)

    def paths(self, node: int) -> Iterator[Tuple[Tuple[Tuple[Test, bool], ...], Leaf]]:
        """Each way through the tree that a node begins: the tests on it with their truths, and the leaf that it comes to."""
        it = self.nodes[node]
        if isinstance(it, Leaf):
            yield (), it
        else:
            for truth, to in ((True, it.yes), (False, it.no)):
                for asked, leaf in self.paths(to):
                    yield ((it.test, truth), *asked), leaf

    def tests(self) -> List[Test]:
        """The tests of its nodes, each once, by rising node."""
        return list(dict.fromkeys(it.test for it in self.nodes if isinstance(it, Branch)))


NUMBER = r"(0|[1-9][0-9]*)"
NODE = re.compile(rf"node {NUMBER} (?:if (.+) then {NUMBER} else {NUMBER}|set((?: \[[^\]]*\])*) go {NUMBER})$")
WINDOW = re.compile(rf"window (?:true|(.+?) at {NUMBER}) is (.+?) at {NUMBER}((?: when .+? at {NUMBER})*)$")
WHEN = re.compile(rf" when (.+?) at {NUMBER}")
STATE = re.compile(rf"state {NUMBER} at {NUMBER}$")
UPDATE = re.compile(r"\[[^\]]*\]")
SIGNAL = re.compile(r"(input|cell|output) ([A-Za-z_][A-Za-z0-9_']*)$")


def read_window(said: str, line: int = 0) -> Window:
    """The window that a line of a program, or of a round, is."""
    found = WINDOW.match(said)
    if not found:
        raise Unreadable("this is no window", line)
    updates, equalities = [], []
    for part, step in WHEN.findall(found.group(5)):
        if part.startswith("["):
            updates.append((update_of(part), int(step)))
        else:
            equalities.append((test_of(part), int(step)))
    left = None if found.group(1) is None else test_of(found.group(1))
    return Window(left, int(found.group(2) or 0), test_of(found.group(3)), int(found.group(4)), tuple(updates), tuple(equalities), line)


def read_updates(said: str) -> Tuple[Update, ...]:
    """Updates with blanks between them."""
    return tuple(update_of(it) for it in UPDATE.findall(said))


def read_program(text: str) -> Program:
    """The program that a text is."""
    program = Program([], [], [], [], [], [])
    ended = False
    for number, said in lines_of(text):
        if ended:
            raise Unreadable("a line stands behind the end of the program", number)
        if number == 1:
            if said != HEAD:
                raise Unreadable(f"a program begins with the line {HEAD}", number)
            continue
        signal, node, state = SIGNAL.match(said), NODE.match(said), STATE.match(said)
        if signal:
            {"input": program.inputs, "cell": program.cells, "output": program.outputs}[signal.group(1)].append(signal.group(2))
        elif said.startswith("window "):
            program.windows.append(read_window(said, number))
        elif node and int(node.group(1)) == len(program.nodes):
            if node.group(2) is not None:
                program.nodes.append(Branch(test_of(node.group(2)), int(node.group(3)), int(node.group(4)), number))
            else:
                program.nodes.append(Leaf(read_updates(node.group(5)), int(node.group(6)), number))
        elif state and int(state.group(1)) == len(program.states):
            program.states.append(int(state.group(2)))
            program.state_lines.append(number)
        elif said == "end":
            ended = True
        else:
            raise Unreadable("no program goes on with this line", number)
    if not ended or not program.nodes or not program.states:
        raise Unreadable("the program has no end, no node or no state", text.count("\n") + 1)
    return program


def write_window(window: Window) -> str:
    """The line of a window, without its line feed."""
    left = "true" if window.left is None else f"{write_test(window.left)} at {window.left_at}"
    whens = [f" when {write_update(it)} at {step}" for it, step in window.updates]
    whens += [f" when {write_test(it)} at {step}" for it, step in window.equalities]
    return f"window {left} is {write_test(window.right)} at {window.length}" + "".join(whens)


def write_node(number: int, node: Node) -> str:
    """The line of a node, without its line feed."""
    if isinstance(node, Branch):
        return f"node {number} if {write_test(node.test)} then {node.yes} else {node.no}"
    return f"node {number} set" + "".join(" " + write_update(it) for it in node.updates) + f" go {node.go}"


def write_program(program: Program) -> str:
    """The text of a program."""
    lines = [HEAD]
    for kind, names in (("input", program.inputs), ("cell", program.cells), ("output", program.outputs)):
        lines += [f"{kind} {name}" for name in names]
    lines += map(write_window, program.windows)
    lines += [write_node(number, node) for number, node in enumerate(program.nodes)]
    lines += [f"state {number} at {node}" for number, node in enumerate(program.states)]
    lines.append("end")
    return "".join(line + "\n" for line in lines)
