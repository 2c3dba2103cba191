"""`tslx play`: a page on which one plays against a program, or against an environment."""
import json
import pathlib
from typing import Any, Dict, List, Optional, Tuple

from .answers import Environment, read_none
from .files import Gathered, Stop, gather, write
from .formulas import Formula, Joined, Pair, Prefixed, Signal, Test, Truth, Update, write_formula, write_term, write_test, write_update
from .given import options_of, parts_of_text, program_in, specification_in, title_of
from .programs import Branch, Leaf, Program, Window, write_window
from .specifications import Specification, space_of

HELP = """tslx play [--title TITLE] SPECIFICATION PROGRAM > PAGE.html
tslx play [--title TITLE] [SPECIFICATION] NONE > PAGE.html
A page that stands alone. Of a program it shows its tests and updates, with a switch for each test and a button for a step, what each step
does, which assumption is broken, and what each guarantee waits for. Of a none text with an environment one chooses what each cell and output
takes: no choice helps. The steps stand behind the # of the page's address, so that an address keeps a play.
  --title TITLE     the title; without it the name of the last file
"""
PAGE = pathlib.Path(__file__).with_name("play.html")
MOST_NODES = 20_000


class Numbered:
    """Tests and updates by number, as they are met."""

    def __init__(self) -> None:
        self.tests: Dict[str, int] = {}
        self.updates: Dict[str, int] = {}
        self.parts: List[Update] = []

    def test(self, it: Test) -> int:
        """The number of a test."""
        return self.tests.setdefault(write_test(it), len(self.tests))

    def update(self, it: Update) -> int:
        """The number of an update."""
        said = write_update(it)
        if said not in self.updates:
            self.updates[said] = len(self.updates)
            self.parts.append(it)
        return self.updates[said]

    def formula(self, it: Formula) -> List[Any]:
        """A formula as lists."""
        if isinstance(it, Truth):
            return ["true" if it.value else "false"]
        if isinstance(it, Test):
            return ["test", self.test(it)]
        if isinstance(it, Update):
            return ["update", self.update(it)]
        if isinstance(it, Prefixed):
            return [it.operator, self.formula(it.operand)]
        if isinstance(it, Joined):
            return [it.operator, *map(self.formula, it.operands)]
        assert isinstance(it, Pair)
        return [it.operator, self.formula(it.left), self.formula(it.right)]

    def window(self, it: Window) -> Dict[str, Any]:
        """A window."""
        return {"text": write_window(it)[len("window "):], "left": None if it.left is None else [self.test(it.left), it.left_at],
                "right": self.test(it.right), "length": it.length, "updates": [[self.update(update), at] for update, at in it.updates],
                "equalities": [[self.test(test), at] for test, at in it.equalities]}

    def formulas(self, spec: Optional[Specification]) -> List[Dict[str, Any]]:
        """The formulas of a specification, as they are written and as what they stand for."""
        if spec is None:
            return []
        return [{"kind": section.kind, "always": section.always, "line": item.place.line, "text": write_formula(item.formula),
                 "formula": self.formula(spec.expand(item.formula))} for section, item in spec.items()]


def page_of_program(program: Program, spec: Specification, title: str) -> Dict[str, Any]:
    """What the page of a program is given."""
    it = Numbered()
    for test in space_of(spec).tests:
        it.test(test)
    nodes = [{"test": it.test(node.test), "then": node.yes, "else": node.no} if isinstance(node, Branch) else
             {"set": [it.update(update) for update in node.updates], "go": node.go} for node in program.nodes]
    found = {"kind": "program", "title": title, "nodes": nodes, "states": program.states, "windows": [it.window(window) for window in program.windows],
             "formulas": it.formulas(spec), "signals": [{"name": name} for name in program.controlled]}
    return with_names(found, it)


def grouped(environment: Environment, state: int) -> List[str]:
    """Where an environment goes from a state, in words: after which updates."""
    goes = environment.goes[state]
    if len(set(goes)) == 1:
        return [f"to state {goes[0]} after anything"]
    found = []
    for to in dict.fromkeys(goes):
        vectors = [vector for vector, goal in zip(environment.vectors, goes) if goal == to]
        found.append(f"to state {to} after " + " or ".join(alike(vectors, environment.vectors)))
    return found


def alike(some: List[Tuple[Update, ...]], every: List[Tuple[Update, ...]]) -> List[str]:
    """Vectors in words: one update, where they are all that have it, or else each of them."""
    for place in range(len(every[0])):
        own = dict.fromkeys(vector[place] for vector in some)
        if all((vector[place] in own) == (vector in some) for vector in every):
            return [write_update(update) for update in own]
    return [" ".join(map(write_update, vector)) for vector in some]


def page_of_environment(environment: Environment, spec: Optional[Specification], windows: List[Window], title: str) -> Dict[str, Any]:
    """What the page of an environment is given."""
    it = Numbered()
    for test in environment.tests:
        it.test(test)
    count = len(it.tests)
    vectors = [[it.update(update) for update in vector] for vector in environment.vectors]
    signals = [{"name": update.signal.name, "updates": list(dict.fromkeys(vector[place] for vector in vectors))}
               for place, update in enumerate(environment.vectors[0])]
    states = [{"truths": truths, "to": goes} for truths, goes in zip(environment.truths, environment.goes)]
    formulas = it.formulas(spec)
    if len(it.tests) > count or any(number >= len(vectors) * max(1, len(signals)) for number in it.updates.values()):
        raise Stop("the specification names tests that the environment lacks, so it is another one", 3)
    found = {"kind": "environment", "title": title, "environment": states, "vectors": vectors, "signals": signals,
             "windows": [it.window(window) for window in windows], "formulas": formulas,
             "goes": [grouped(environment, state) for state in range(environment.size)]}
    return with_names(found, it)


def with_names(found: Dict[str, Any], it: Numbered) -> Dict[str, Any]:
    """The value of a page with the tests and updates that it names."""
    found["tests"] = list(it.tests)
    found["updates"] = [{"text": write_update(update), "term": "=" if update.term == Signal(update.signal.name) else write_term(update.term)}
                        for update in it.parts]
    return found


def page(value: Dict[str, Any]) -> str:
    """The page."""
    data = json.dumps(value, ensure_ascii=True).replace("<", "\\u003c")
    return PAGE.read_text(encoding="ascii").replace("DATA", data, 1)


def main(words: List[str]) -> int:
    """Writes a page."""
    options, files = options_of("play", words, {"--title": "a title"}, 0, None, "the files of a specification and a program, or of a none text")
    gathered = gather(files)
    title = options.get("--title", title_of(files))
    lines = gathered.text.split("\n")
    before, text = parts_of_text(gathered.text)
    if text:
        if not before:
            raise Stop("play takes the specification before the program", 3)
        spec, program = specification_in(gathered), program_in(gathered)
        if len(program.nodes) > MOST_NODES:
            raise Stop(f"the program has more than {MOST_NODES} nodes, too many to play", 4)
        space = space_of(spec)
        if (space.inputs, space.cells, space.outputs) != (program.inputs, program.cells, program.outputs):
            raise Stop("the program has other inputs, cells and outputs than the specification", 1)
        write(page(page_of_program(program, spec, title)))
        return 0
    if "none" not in lines:
        raise Stop("play takes a specification with a program behind it, or a none text", 3)
    start = lines.index("none")
    none = read_none("\n".join(lines[start:]))
    environment = none.environment or (none.rounds[-1].environment if none.rounds else None)
    if environment is None:
        raise Stop("this none text has no environment to play against", 1)
    before = "".join(line + "\n" for line in lines[:start])
    given = specification_in(Gathered(before.encode("latin-1"), gathered.files)) if before.strip() else None
    windows = [] if none.environment else [none.rounds[-1].window]
    write(page(page_of_environment(environment, given, [it.window for it in none.rounds] if none.environment else windows, title)))
    return 0
