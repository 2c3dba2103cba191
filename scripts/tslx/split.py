"""`tslx split`: the parts of a specification that can be answered alone, each as a specification, and their programs as one."""
import contextlib
import io
import os
import re
import sys
from dataclasses import dataclass, field
from typing import Dict, List, Tuple, Union

from . import asking
from .code import spelled
from .files import Gathered, Stop, gather, shown, tell, write
from .formulas import Formula, Signal, Update, atoms, signals_read, terms
from .given import number_in, options_of, specification_in
from .programs import Branch, Leaf, Node, Program, Window, read_program, write_program
from .search import Questions, Search
from .simplify import counted
from .specifications import Definition, Item, Section, Space, Specification, read_specification, space_of
from .tokens import Comment

HELP = """tslx split [OPTION].. SPECIFICATION FOLDER
Guarantees that name a common output or cell, updated or read, are one part of a specification, and each part can be answered alone: it goes
into a new or an empty folder as PART.tsl, named after its first signal, with the assumptions that name no output or cell of other parts. Then
tslx search looks for its program, which goes to PART.program; what it answers where there is none goes to PART.none. Where each part has a
program, they are joined to one of the whole, which is written to standard output if check accepts it. It tells which guarantees keep signals
together, and what no part assumes.
  --most N          1 to 8; 8 by default: how many states the program of a part has at most
  --jobs N          1 to 64; 1 by default: how many questions are asked side by side
SPECIFICATION may be -: standard input.
"""
MOST_STATES = 64
# No search asks for a program within a larger bound than this.
BOUND = 8


@dataclass
class Part:
    """The cells and outputs of a part in the order of the whole, its guarantees and its assumptions; and for each guarantee that brought
    signals together, which these are, those of each side by their first one."""
    signals: List[str]
    guarantees: List[Item]
    assumptions: List[Item] = field(default_factory=list)
    joins: List[Tuple[Item, List[str]]] = field(default_factory=list)


def controlled_in(formula: Formula, space: Space) -> Dict[str, bool]:
    """The cells and outputs that an expanded formula names, whether it updates or reads them."""
    own = set(space.controlled)
    found: Dict[str, bool] = {}
    for atom in atoms(formula):
        if isinstance(atom, Update):
            found[atom.signal.name] = True
        for term in terms(atom):
            found.update((it.name, True) for it in signals_read(term) if it.name in own)
    return found


def parts_of(spec: Specification) -> Tuple[List[Part], List[Item]]:
    """The parts of a specification, by their first guarantees, and the assumptions that no part has."""
    space = space_of(spec)
    group: Dict[str, str] = {name: name for name in space.controlled}
    named: List[Tuple[str, Item, List[str]]] = []
    joins: List[Tuple[Item, List[str]]] = []
    for section, item in spec.items():
        names = list(controlled_in(spec.expand(item.formula), space))
        named.append((section.kind, item, names))
        if section.kind == "guarantee" and len({group[name] for name in names}) > 1:
            kept = group[names[0]]
            joins.append((item, list({group[name]: name for name in reversed(names)}.values())[::-1]))
            gone = {group[name] for name in names}
            group = {name: kept if own in gone else own for name, own in group.items()}
    parts: Dict[str, Part] = {}
    for kind, item, names in named:
        if kind == "guarantee":
            own = group[names[0]] if names else ""
            part = parts.setdefault(own, Part([name for name in space.controlled if group[name] == own], []))
            part.guarantees.append(item)
    for item, names in joins:
        parts[group[names[0]]].joins.append((item, names))
    left_out: List[Item] = []
    for kind, item, names in named:
        if kind == "assume":
            groups = {group[name] for name in names}
            takes = [part for own, part in parts.items() if groups <= {own}]
            for part in takes:
                part.assumptions.append(item)
            if not takes:
                left_out.append(item)
    return list(parts.values()), left_out


def text_of(spec: Specification, items: List[Item], title: str) -> str:
    """Some formulas of a specification as one of its own, with the definitions that they need. Formulas are as they are written, with the
    comments beside them."""
    dropped = {item.place.start for _, item in spec.items()} - {item.place.start for item in items}
    chosen: List[Union[Section, Definition]] = []
    for block in spec.blocks:
        if isinstance(block, Section):
            kept = tuple(it for it in block.items if it.place.start not in dropped)
            block = Section(block.when, block.kind, kept, block.place, block.close, block.end)
        chosen.append(block)
    used = set(Specification(spec.text, chosen).used())
    lines = [f"// {title}"]
    for block in chosen:
        if isinstance(block, Definition) and block.name in used:
            lines += beside(spec, block.place.start, block.end, "") + written(spec.text, block.place.start, block.end, "", spec.comments)
        elif isinstance(block, Section) and block.items:
            lines.append(" ".join(filter(None, [block.when, block.kind])) + " {")
            for item in block.items:
                lines += beside(spec, item.place.start, item.end, "  ")
                lines += written(spec.text, item.place.start, item.end, "  ", spec.comments, ";")
            lines.append("}")
    return "".join(line + "\n" for line in lines)


def written(text: str, start: int, end: int, indent: str, comments: List[Comment], mark: str = "") -> List[str]:
    """A piece of the text as lines, with a mark at its end; the comment behind it on its line stands there, too."""
    line_end = text.find("\n", end)
    line_end = len(text) if line_end < 0 else line_end
    behind = [it for it in comments if end <= it.place.start < line_end and re.match(r"[ \t;]*$", text[end:it.place.start])]
    said = text[start:end] + mark + "".join(" " + it.text for it in behind[:1] if "\n" not in it.text)
    return [(indent if number == 0 else "") + line.rstrip() for number, line in enumerate(said.split("\n"))]


def beside(spec: Specification, start: int, end: int, indent: str) -> List[str]:
    """The comments that stand in the lines right above a piece of the text, with nothing else there."""
    found: List[str] = []
    above = spec.text.rfind("\n", 0, start) + 1
    if spec.text[above:start].strip():
        return []
    for comment in reversed([it for it in spec.comments if it.end <= start]):
        begins = spec.text.rfind("\n", 0, comment.place.start) + 1
        between = spec.text[comment.end:above]
        if spec.text[begins:comment.place.start].strip() or between.strip() or between.count("\n") > 1:
            break
        found[:0] = [indent + comment.text]
        above = begins
    return found


# ---- joining ----

def joined(parts: List[Program], space: Space) -> Program:
    """One program that does what all of them do: states are tuples, made from the start on."""
    start = tuple(0 for _ in parts)
    numbers = {start: 0}
    states = [start]
    nodes: List[Node] = []
    known: Dict[Node, int] = {}
    entries: List[int] = []

    def number_of(node: Node) -> int:
        if node not in known:
            known[node] = len(nodes)
            nodes.append(node)
        return known[node]

    for state in states:
        made: Dict[Tuple[int, int, Tuple[Leaf, ...], Tuple], int] = {}

        def walk(at: int, number: int, leaves: Tuple[Leaf, ...], asked: Dict) -> int:
            """The node for a part's node, after the leaves of the parts before it and with the truths of the tests on the way."""
            node = parts[at].nodes[number]
            if isinstance(node, Branch):
                if node.test in asked:
                    return walk(at, node.yes if asked[node.test] else node.no, leaves, asked)
                key = (at, number, leaves, tuple(sorted((repr(test), truth) for test, truth in asked.items())))
                if key not in made:
                    yes = walk(at, node.yes, leaves, {**asked, node.test: True})
                    no = walk(at, node.no, leaves, {**asked, node.test: False})
                    made[key] = yes if yes == no else number_of(Branch(node.test, yes, no))
                return made[key]
            leaves = (*leaves, node)
            if at + 1 < len(parts):
                return walk(at + 1, parts[at + 1].states[state[at + 1]], leaves, asked)
            updates = {update.signal.name: update for leaf in leaves for update in leaf.updates}
            to = tuple(leaf.go for leaf in leaves)
            if to not in numbers:
                if len(numbers) == MOST_STATES:
                    raise Stop(f"the parts together come to more than {MOST_STATES} states", 4)
                numbers[to] = len(numbers)
                states.append(to)
            return number_of(Leaf(tuple(updates.get(name, Update(Signal(name), space.choices[name][0])) for name in space.controlled), numbers[to]))
        entries.append(walk(0, parts[0].states[state[0]], (), {}))
    windows: List[Window] = list(dict.fromkeys(window for part in parts for window in part.windows))
    return Program(space.inputs, space.cells, space.outputs, windows, nodes, entries)


# ---- the command ----

def told(spec: Specification, item: Item) -> str:
    """A formula with its line."""
    return f"line {item.place.line}: " + " ".join(spec.text[item.place.start:item.end].split())


def folder_of(name: str) -> str:
    """The folder of this name, which is made where it is not there, and is empty."""
    try:
        os.makedirs(name, exist_ok=True)
        if os.listdir(name):
            raise Stop(f"{shown(name)} is not empty: name a new or an empty folder")
    except OSError as error:
        raise Stop(f"cannot write into {shown(name)}: {(error.strerror or str(error)).lower()}")
    return name


def save(folder: str, name: str, text: str) -> None:
    """Writes a file of the folder."""
    try:
        with open(os.path.join(folder, name), "wb") as file:
            file.write(text.encode("latin-1"))
    except OSError as error:
        raise Stop(f"cannot write {shown(os.path.join(folder, name))}: {(error.strerror or str(error)).lower()}")


def names_of(parts: List[Part]) -> List[str]:
    """A name for the files of each part, never two alike."""
    firsts = [part.signals[0] for part in parts if part.signals]
    names = spelled(firsts, frozenset())
    alone = "inputs"
    while alone in names.values():
        alone += "_"
    return [names[part.signals[0]] if part.signals else alone for part in parts]


def searched(name: str, text: str, most: int, jobs: int) -> Tuple[int, str]:
    """What a search for a program of a part comes to: its status, and what it writes. On the error output it says what it does."""
    out = io.StringIO()
    gathered = Gathered(text.encode("latin-1"), [(1, name)])
    sys.stdout.flush()
    questions = Questions(gathered.data, jobs)
    try:
        with contextlib.redirect_stdout(out):
            status = Search(questions, gathered, most).go()
    finally:
        questions.end()
    return status, out.getvalue()


def found_of(status: int, answer: str, most: int) -> str:
    """What came of a search, in words."""
    if status == asking.YES:
        program = read_program(answer)
        return f"a program of {counted(len(program.states), 'state')} and {counted(len(program.nodes), 'node')}"
    if status == asking.LARGE:
        return "no program is found, since a question is too large"
    if "\nreason genuine\n" in answer:
        return "no program of any size, since an environment wins"
    return f"no program up to {counted(most, 'state')}" + (", but the budget is spent" if status == asking.SPENT else "")


def changed_kinds(whole: Space, part: Part, own: Space) -> List[str]:
    """What the cells and outputs of a part are in it, where they are something else in the whole."""
    def kind(space: Space, name: str) -> str:
        return "an input" if name in space.inputs else "a cell" if name in space.cells else "an output"
    return [f"{name}, {kind(whole, name)} of the whole, is {kind(own, name)} here" for name in part.signals if kind(whole, name) != kind(own, name)]


def main(words: List[str]) -> int:
    """Writes the parts of a specification, looks for a program of each, and joins these."""
    found, others = options_of("split", words, {"--most": "1 to 8", "--jobs": "1 to 64"}, 2, 2, "a specification and a folder")
    most, jobs = number_in(found, "--most", 1, 8, 8), number_in(found, "--jobs", 1, 64, 1)
    spec = specification_in(gather(others[:1]))
    space = space_of(spec)
    parts, left_out = parts_of(spec)
    if not parts:
        raise Stop("nothing is guaranteed, so there are no parts", 1)
    folder = folder_of(others[1])
    names, texts = names_of(parts), []
    for number, (part, name) in enumerate(zip(parts, names), 1):
        title = f"Part {number} of {len(parts)}: {', '.join(part.signals) or 'what names no cell and no output'}."
        texts.append(text_of(spec, part.assumptions + part.guarantees, title))
        save(folder, f"{name}.tsl", texts[-1])
    worst = 0
    programs: List[Program] = []
    for part, name, text in zip(parts, names, texts):
        tell(f"tslx: {name}.tsl: {', '.join(part.signals) or 'no cell and no output'}, {counted(len(part.guarantees), 'guarantee')}")
        for item, signals in part.joins:
            tell(f"tslx: {name}.tsl: {' and '.join(signals)} stay together because of {told(spec, item)}")
        for said in changed_kinds(space, part, space_of(read_specification(text))):
            tell(f"tslx: {name}.tsl: {said}")
        status, answer = searched(shown(os.path.join(folder, name + ".tsl")), text, most, jobs)
        worst = max(worst, status)
        saved = name + (".none" if status else ".program") if answer else ""
        if saved:
            save(folder, saved, answer)
        if status == asking.YES:
            programs.append(read_program(answer))
        tell(f"tslx: {saved or name + '.tsl'}: {found_of(status, answer, most)}")
    for item in left_out:
        tell(f"tslx: no part assumes {told(spec, item)}")
    if worst:
        if left_out:
            tell("tslx: so a part may lack an assumption for its program")
        return worst
    text = write_program(joined(programs, space))
    answer = asking.ask(["check", "--bound", str(BOUND)], spec.text + ("" if spec.text.endswith("\n") else "\n") + text)
    if answer.status:
        raise Stop(f"check does not accept the programs of the parts as one: {(answer.out or answer.err).strip()}", answer.status)
    write(text)
    return 0
