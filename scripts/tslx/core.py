"""`tslx core`: which guarantees clash, where an environment wins."""
from dataclasses import dataclass, field
from typing import List, Optional, Set, Tuple

from .answers import Environment, read_none
from .asking import Answer, ask
from .explain import environment_lines
from .files import Stop, gather, tell, write
from .formulas import write_formula
from .given import number_in, options_of, refused, specification_in
from .specifications import Item, Section, Space, Specification, read_specification, space_of, without

HELP = """tslx core [OPTION].. FILE
Which guarantees of a specification clash. Where synth says that an environment wins (reason genuine), one guarantee after the other is left
out, as one that need not be kept, while it still says so. What is left is a core: its guarantees clash under all assumptions, and without any
one of them synth finds no environment that wins. It is smallest in that sense: another core may have fewer. Where the answer is another one,
as where a limit is passed, the guarantee stays, and that is told. A guarantee is a formula of a block; definitions and assumptions stay.
The options are those of synth:
  --states N        1 to 8; 1 by default: how many states a controller has
  --env-states M    1 to 8; 2 by default: how many states an environment has
  --env-bound J     0 to 15; 2 by default: how often a path of the environment's automaton may pass a rejecting edge
  --depth D         1 to 3; 3 by default: how many steps a window has at most
  --rounds R        0 to 64; 8 by default: how many windows are added at most
  --budget B        1 to 1000000; 20000 by default: how many clauses the solver learns at most for one question
"""
OPTIONS = {"--states": (1, 8, 1), "--env-states": (1, 8, 2), "--env-bound": (0, 15, 2), "--depth": (1, 3, 3), "--rounds": (0, 64, 8),
           "--budget": (1, 1000000, 20000)}


def loosened(spec: Specification, left_out: Set[int]) -> str:
    """The text of the specification, in which the guarantees that begin at some positions need not be kept: `f` is `(f) || true` there, so
    that all signals, terms and tests stay, and all lines."""
    text = spec.text
    for section in reversed(spec.sections):
        for item in reversed(section.items):
            if item.place.start in left_out:
                text = f"{text[:item.place.start]}({text[item.place.start:item.end]}) || true{text[item.end:]}"
    return text


def said_of(answer: Answer) -> str:
    """What an answer says, in a word or a few."""
    if answer.status == 0:
        return "there is a program"
    if answer.status == 1:
        lines = [line for line in answer.out.split("\n") if line.startswith("reason ")]
        return lines[-1] if lines else "none"
    return answer.err.split("\n")[0] or answer.out.split("\n")[0]


@dataclass
class Search:
    """The questions that were asked, and what was told on the way."""
    spec: Specification
    words: List[str]
    asked: int = 0
    told: List[str] = field(default_factory=list)

    def ask(self, text: str) -> Tuple[bool, Answer]:
        """Whether an environment wins, and the answer."""
        self.asked += 1
        answer = ask(self.words, text)
        return answer.status == 1 and "\nreason genuine\n" in answer.out, answer

    def smallest(self, items: List[Tuple[Section, Item]]) -> List[Tuple[Section, Item]]:
        """The guarantees that stay."""
        left_out: Set[int] = set()
        for _, item in items:
            genuine, answer = self.ask(loosened(self.spec, left_out | {item.place.start}))
            if genuine:
                left_out.add(item.place.start)
            elif answer.status != 0:
                self.told.append(f"line {item.place.line} stays, since without it the answer is {said_of(answer)}")
        return [it for it in items if it[1].place.start not in left_out]


def decides_as(whole: Space, alone: Space) -> bool:
    """Whether a core without the other guarantees, which names fewer tests and so has an environment that is easier to read, says the same:
    it has all terms of the signals that it updates, and its inputs are inputs of the whole."""
    return set(alone.inputs) <= set(whole.inputs) and all(set(alone.choices[name]) == set(whole.choices[name]) for name in alone.controlled)


def environment_of(answer: Answer) -> Optional[Environment]:
    """The environment of a none text."""
    return read_none(answer.out).environment


def main(words: List[str]) -> int:
    """Writes the guarantees that clash, and the environment."""
    options, files = options_of("core", words, {name: f"{least} to {most}" for name, (least, most, _) in OPTIONS.items()}, 0, None, "files")
    asked = ["synth"]
    for name, (least, most, default) in OPTIONS.items():
        asked += [name, str(number_in(options, name, least, most, default))]
    gathered = gather(files)
    spec = specification_in(gathered)
    search = Search(spec, asked)
    genuine, answer = search.ask(spec.text)
    if answer.status > 1 and answer.status != 5:
        refused(answer, gathered)
    if not genuine:
        reason = said_of(answer)
        more = "" if answer.status == 0 else ", and only a specification against which an environment wins has a core"
        raise Stop(f"nothing clashes as far as that is known: {reason}{more}", 1)
    items = [(section, item) for section, item in spec.items() if section.kind == "guarantee"]
    core = search.smallest(items)
    kept = {item.place.start for _, item in core}
    genuine, alone = False, without(spec, [item for _, item in items if item.place.start not in kept])
    if decides_as(space_of(spec), space_of(read_specification(alone))):
        genuine, answer = search.ask(alone)
    if not genuine:
        _, answer = search.ask(loosened(spec, {item.place.start for _, item in items} - kept))
    for said in search.told:
        tell("tslx: " + said)
    counted = "1 guarantee cannot be kept" if len(core) == 1 else f"{len(core)} guarantees clash"
    spared = ", as far as is known" if search.told else "" if len(core) == 1 else ", and none of them can be spared"
    lines = [f"{counted}, of {len(items)}{spared}; {search.asked} questions were asked"]
    for section, item in core:
        name, line = gathered.place(item.place.line)
        lines.append(f"{name}:{line}: {section.when + ' ' if section.when else ''}{write_formula(item.formula)}")
    environment = environment_of(answer)
    if environment is not None:
        lines += environment_lines(environment)
    write("".join(line + "\n" for line in lines))
    return 0
