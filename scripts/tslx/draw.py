"""`tslx draw`: a program, an environment or an automaton as a picture, in the language of Graphviz."""
import pathlib
import re
from typing import Callable, Dict, Hashable, List, Optional, Set, Tuple

from .answers import Environment, read_none
from .automata import Automaton, read_automaton
from .files import Stop, gather, shown, write
from .formulas import Update, write_test, write_update
from .given import options_of
from .programs import HEAD, Branch, Leaf, Program, read_program, write_window
from .simplify import below
from .tokens import Unreadable

HELP = """tslx draw [OPTION].. [FILE]..
A picture in the language of Graphviz, for tslx draw FILE | dot -Tsvg. The files have a program, perhaps behind a specification, or a none
text, of which the last environment is drawn, or an automaton in the Hanoi form. No file, or -: standard input.
  --output NAME     of a program: what one output or cell takes, and no other; states and tests that make no difference to it are left out
  --title TITLE     the title; without it the name of the last file
A program has a box for each state. In it tests lead to what is set, with T where they are true and F where they are not; from there a blue
arrow goes to the next state, or to `again` at the edge of its own box. What is alike in a box is drawn once; what is set in each step stands
below. An environment has a box for each state that it comes to, with the tests that are true and false in it; states that differ in nothing
share one. An arrow says after which updates it goes on, and does not name those that make no difference. An automaton has
an arrow from one state to another with what its edges ask; rejecting ones are red and bold.
"""
# The first lines of what is drawn; before a program a specification may stand, which may have any lines.
BEGINS = (re.compile(r"^tslprogram 1\n", re.MULTILINE), re.compile(r"^(none|HOA: v1)\n", re.MULTILINE))
ENDS = re.compile(r"^(tsltables 1|tslwords 1|tslinputs 1|letters)\n", re.MULTILINE)


def quoted(text: str) -> str:
    """A text within double quotes."""
    return re.sub(r'(["\\])', r"\\\1", text)


def head(kind: str, title: str) -> List[str]:
    """The first lines of a picture."""
    return [f"digraph {kind} {{", "  compound=true;", '  node [fontname="monospace", fontsize=11];', '  edge [fontname="monospace", fontsize=9];',
            '  graph [fontname="monospace", fontsize=11];', f'  label="{quoted(title)}"; labelloc=t;']


def title_of_box(box: List[int], state: int) -> str:
    """The title of a box, which names the states that share it; it is that of one of them."""
    same = [str(number) for number, own in enumerate(box) if own == state]
    return f"state{'s' if len(same) > 1 else ''} {', '.join(same)}"


# ---- programs ----

def stand_for(program: Program, of_leaf: Callable[[Leaf], Hashable]) -> List[int]:
    """For each node the one that is drawn for it: the first one that is alike, where leaves are alike that a function gives the same for; and
    for a test whose branches are alike that of these."""
    alike: Dict[Hashable, int] = {}
    found: List[int] = []
    for number, node in enumerate(program.nodes):
        if isinstance(node, Leaf):
            found.append(alike.setdefault((of_leaf(node),), number))
        elif found[node.yes] == found[node.no]:
            found.append(found[node.yes])
        else:
            found.append(alike.setdefault((node.test, found[node.yes], found[node.no]), number))
    return found


class Picture:
    """A picture of a program: for each node the one that is drawn for it, for each state the one whose box it shares, what stands in a leaf,
    and the titles of the boxes by their states."""

    def __init__(self, program: Program, stands: List[int], box: List[int], label: Callable[[Leaf], str], titles: Dict[int, str]):
        self.program = program
        self.stands = stands
        self.box = box
        self.label = label
        self.titles = titles
        self.drawn: Set[Tuple[str, int]] = set()
        self.somewhere: Set[int] = set()
        self.moves: List[str] = []

    def node(self, start: int, place: str) -> List[str]:
        """The node in a box, and all that it leads to, each once; `place` is what the names in the box begin with."""
        lines: List[str] = []
        left: List[Tuple[int, bool]] = [(start, False)]
        while left:
            number, ends = left.pop()
            it = self.program.nodes[number]
            if ends and isinstance(it, Branch):
                lines.append(f'    {place}n{number} -> {place}n{self.stands[it.yes]} [label="T"];')
                lines.append(f'    {place}n{number} -> {place}n{self.stands[it.no]} [label="F", style=dashed];')
            elif (place, number) not in self.drawn:
                self.drawn.add((place, number))
                self.somewhere.add(number)
                if isinstance(it, Branch):
                    lines.append(f'    {place}n{number} [label="{quoted(write_test(it.test))}", shape=ellipse];')
                    left += [(number, True), (self.stands[it.no], False), (self.stands[it.yes], False)]
                else:
                    lines.append(f'    {place}n{number} [label="{self.label(it)}", shape=box];')
                    self.moves.append(self.move(f"{place}n{number}", place, self.box[it.go]))
        return lines

    def move(self, start: str, place: str, to: int) -> str:
        """The arrow from a leaf, or from the beginning, to a state."""
        if place == f"s{to}":
            return f"  {start} -> {place}stay [color=blue];"
        return f"  {start} -> s{to}n{self.stands[self.program.states[to]]} [lhead=cluster_{to}, color=blue];"

    def write(self, title: str, notes: str, everything: bool) -> List[str]:
        """The lines of the picture, with notes below. Where everything is wanted, nodes that no state comes to stand behind the boxes."""
        lines = head("program", title)
        for state, said in self.titles.items():
            before = len(self.moves)
            lines += [f"  subgraph cluster_{state} {{", f'    label="{said}"; labelloc=t;']
            lines += self.node(self.stands[self.program.states[state]], f"s{state}")
            if any(it.endswith(f" -> s{state}stay [color=blue];") for it in self.moves[before:]):
                lines.append(f'    s{state}stay [label="again", shape=plaintext, fontcolor=blue, height=0.2];')
            lines.append("  }")
        if everything:
            for number in reversed(range(len(self.program.nodes))):
                if self.stands[number] == number and number not in self.somewhere:
                    lines += self.node(number, "")
        if notes:
            lines.append(f'  also [label="{notes}", shape=note];')
        return [*lines, '  start [label="", shape=point];', self.move("start", "", self.box[0]), *self.moves, "}"]


def whole(program: Program, title: str) -> List[str]:
    """The picture of a program with all that it sets."""
    leaves = [it for it in program.nodes if isinstance(it, Leaf)]
    counts: Dict[Update, int] = {}
    for leaf in leaves:
        for update in leaf.updates:
            counts[update] = counts.get(update, 0) + 1
    shared = [it for it, count in counts.items() if len(leaves) > 1 and count == len(leaves)]
    notes = f"each step: {quoted(' '.join(map(write_update, shared)))}\\l" if shared else ""
    notes += "".join(quoted(write_window(it)) + "\\l" for it in program.windows)
    return Picture(program, stand_for(program, lambda leaf: (leaf.updates, leaf.go)), list(range(len(program.states))),
                   lambda leaf: "\\n".join(quoted(write_update(it)) for it in leaf.updates if it not in shared),
                   {state: f"state {state}" for state in range(len(program.states))}).write(title, notes, True)


def update_of_signal(leaf: Leaf, name: str) -> Update:
    """What a leaf sets a cell or an output to."""
    return next(it for it in leaf.updates if it.signal.name == name)


def alike_for(program: Program, name: str) -> Tuple[List[int], List[int]]:
    """What of a program one cell or output needs: for each node the one that stands for it, and for each state the first one that differs from
    it in nothing else."""
    box = [0] * len(program.states)
    while True:
        stands = stand_for(program, lambda leaf: (update_of_signal(leaf, name), box[leaf.go]))
        first: Dict[Tuple[int, int], int] = {}
        now = [first.setdefault((box[state], stands[at]), state) for state, at in enumerate(program.states)]
        if now == box:
            return stands, box
        box = now


def of_output(program: Program, name: str, title: str) -> List[str]:
    """The picture of a program with what one cell or output takes: states that it comes to and that differ in nothing else share a box."""
    stands, box = alike_for(program, name)
    made = dict(enumerate(program.nodes))
    reached = [box[0]]
    for state in reached:
        goes = {box[node.go] for node in (made[it] for it in below(made, program.states[state])) if isinstance(node, Leaf)}
        reached += sorted(goes - set(reached))
    titles = {state: title_of_box(box, state) for state in sorted(reached)}
    return Picture(program, stands, box, lambda leaf: quoted(write_update(update_of_signal(leaf, name))), titles).write(title, "", False)


# ---- environments ----

def cover(vectors: List[Tuple[Update, ...]], wanted: List[int]) -> List[Tuple[Update, ...]]:
    """A few choices of updates that say which vectors are wanted: each of these makes one of them, and no other vector does."""
    of_update: Dict[Update, int] = {}
    for number, vector in enumerate(vectors):
        for update in vector:
            of_update[update] = of_update.get(update, 0) | 1 << number
    every = (1 << len(vectors)) - 1
    own = left = sum(1 << number for number in wanted)

    def made_by(choice: List[Update]) -> int:
        found = every
        for update in choice:
            found &= of_update[update]
        return found

    found: List[Tuple[Update, ...]] = []
    for number in wanted:
        if left >> number & 1:
            choice = list(vectors[number])
            for update in vectors[number]:
                fewer = [it for it in choice if it != update]
                if not made_by(fewer) & ~own:
                    choice = fewer
            found.append(tuple(choice))
            left &= ~made_by(choice)
    return found


def of_environment(it: Environment, title: str) -> List[str]:
    """The picture of an environment: states that it comes to, where those that differ in nothing share a box."""
    box = [0] * it.size
    while True:
        first: Dict[Tuple[object, ...], int] = {}
        now = [first.setdefault((box[state], tuple(it.truths[state]), *(box[to] for to in it.goes[state])), state) for state in range(it.size)]
        if now == box:
            break
        box = now
    reached = [0]
    for state in reached:
        reached += sorted({box[to] for to in it.goes[state]} - set(reached))
    lines = head("environment", title) + ['  start [label="", shape=point];', "  start -> e0 [color=blue];"]
    for state in sorted(reached):
        said = "".join(("" if truth else "not ") + quoted(write_test(test)) + "\\l" for test, truth in zip(it.tests, it.truths[state]))
        lines.append(f'  e{state} [label="{title_of_box(box, state)}\\n{said}", shape=box];')
    for state in sorted(reached):
        goes = [box[to] for to in it.goes[state]]
        covers = {to: cover(it.vectors, [vector for vector, end in enumerate(goes) if end == to]) for to in sorted(set(goes))}
        most = max(covers, key=lambda to: len(covers[to]))
        for to, choices in covers.items():
            if to == most and (len(covers) == 1 or len(choices) > 1):
                said = "after anything" + (" else" if len(covers) > 1 else "")
            else:
                said = "after " + "\\lor ".join(quoted(" ".join(map(write_update, choice))) for choice in choices) + "\\l"
            lines.append(f'  e{state} -> e{to} [label="{said}"];')
    return lines + ["}"]


# ---- automata ----

def of_automaton(it: Automaton, title: str) -> List[str]:
    """The picture of an automaton."""
    lines = head("automaton", title) + ['  start [label="", shape=point];', "  start -> q0;"]
    lines += [f'  q{state} [label="{state}", shape=circle];' for state in range(it.states)]
    arrows: Dict[Tuple[int, int, bool], List[str]] = {}
    for edge in it.edges:
        asks = [("" if truth else "not ") + quoted(it.propositions[bit]) for bit, truth in edge.asks]
        arrows.setdefault((edge.start, edge.to, edge.rejecting), []).append("\\n".join(asks) or "always")
    for (start, to, rejecting), labels in arrows.items():
        said = "always" if "always" in labels else "\\nor\\n".join(dict.fromkeys(labels))
        lines.append(f'  q{start} -> q{to} [label="{said}"{", color=red, style=bold" if rejecting else ""}];')
    return lines + ["}"]


def drawing(text: str, title: str, output: Optional[str]) -> List[str]:
    """The lines of the picture of a text, which begins with the first line of its kind."""
    kind = text.split("\n")[0]
    if output is not None and kind != HEAD:
        raise Stop("--output goes with a program alone")
    if kind == HEAD:
        program = read_program(text)
        if output is None:
            return whole(program, title)
        if output not in program.controlled:
            raise Stop(f"the program has no output and no cell {output}; it has {', '.join(program.controlled) or 'none'}")
        return of_output(program, output, f"{title}: {output}" if title else output)
    if kind == "none":
        none = read_none(text)
        environment = none.environment or (none.rounds[-1].environment if none.rounds else None)
        if environment is None:
            raise Stop("this none text has no environment", 3)
        return of_environment(environment, title)
    return of_automaton(read_automaton(text), title)


def main(words: List[str]) -> int:
    """Writes the picture of what the files have."""
    options, files = options_of("draw", words, {"--output": "the name of an output or a cell", "--title": "a title"}, 0, None, "files")
    gathered = gather(files)
    name = files[-1] if files else "-"
    title = options.get("--title", "" if name == "-" else re.sub(r"\.[^.]*$", "", pathlib.PurePath(name).name))
    begins = BEGINS[0].search(gathered.text) or BEGINS[1].search(gathered.text)
    if not begins:
        raise Stop(f"{shown(name)} has no line tslprogram 1, none or HOA: v1, with which a program, a none text or an automaton begins", 3)
    ends = ENDS.search(gathered.text, begins.end())
    text = gathered.text[begins.start():ends.start() if ends else len(gathered.text)]
    output = shown(options["--output"]) if "--output" in options else None
    try:
        lines = drawing(text, shown(title), output)
    except Unreadable as fault:
        file, line = gathered.place(gathered.text.count("\n", 0, begins.start()) + max(1, fault.line))
        raise Stop(f"{file}:{line}: {fault.said}", 3)
    write("".join(line + "\n" for line in lines))
    return 0
