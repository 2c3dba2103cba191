"""What `tsl run` writes: the steps of a run until it closes, and verdicts."""
import re
from dataclasses import dataclass
from typing import Dict, List, Optional, Tuple

from .formulas import Update
from .programs import NUMBER, read_updates
from .tokens import Unreadable, is_number, lines_of


@dataclass(frozen=True)
class Step:
    """One step: its number, the place among the rows of the inputs, the state, the value of each input and then of each cell, and what each
    cell and output takes."""
    at: int
    place: int
    state: int
    values: Dict[str, int]
    updates: Tuple[Update, ...]


@dataclass
class Run:
    """The steps until the run closes; the step that follows the last one, and how many steps the loop has; whether each window holds; and
    whether the formula does, where there is a specification."""
    steps: List[Step]
    loop_start: int
    loop_length: int
    windows: List[bool]
    formula: Optional[bool]


STEP = re.compile(rf"at {NUMBER} place {NUMBER} state {NUMBER} ")
LOOP = re.compile(rf"loop {NUMBER} {NUMBER}$")
WINDOW = re.compile(rf"window {NUMBER} (holds|fails)$")
FORMULA = re.compile(r"formula (holds|fails)$")


def read_step(said: str, line: int) -> Step:
    """The step that a line is."""
    found = STEP.match(said)
    if not found:
        raise Unreadable("this is no step of a run", line)
    words = said[found.end():].split(" ")
    values: Dict[str, int] = {}
    at = 0
    # A signal may be named `do`, and then has a number behind it.
    while at + 1 < len(words) and is_number(words[at + 1]):
        values[words[at]] = int(words[at + 1])
        at += 2
    if at >= len(words) or words[at] != "do":
        raise Unreadable("this is no step of a run", line)
    at_step, place, state = map(int, found.groups())
    return Step(at_step, place, state, values, read_updates(" ".join(words[at + 1:])))


def read_run(text: str) -> Run:
    """The run that a text is."""
    run = Run([], -1, 0, [], None)
    for number, said in lines_of(text):
        loop, window, formula = LOOP.match(said), WINDOW.match(said), FORMULA.match(said)
        if run.loop_start < 0 and said.startswith("at "):
            run.steps.append(read_step(said, number))
            if run.steps[-1].at != len(run.steps) - 1:
                raise Unreadable(f"step {len(run.steps) - 1} of the run is missing", number)
        elif run.loop_start < 0 and loop and run.steps:
            run.loop_start, run.loop_length = int(loop.group(1)), int(loop.group(2))
            if run.loop_length == 0 or run.loop_start + run.loop_length != len(run.steps):
                raise Unreadable("the loop of the run is not made of its last steps", number)
        elif run.loop_start >= 0 and run.formula is None and window and int(window.group(1)) == len(run.windows):
            run.windows.append(window.group(2) == "holds")
        elif run.loop_start >= 0 and run.formula is None and formula:
            run.formula = formula.group(1) == "holds"
        else:
            raise Unreadable("this is no text of a run, whose lines begin with at and end with loop", number)
    if run.loop_start < 0:
        raise Unreadable("this is no text of a run, whose lines begin with at and end with loop", text.count("\n") + 1)
    return run
