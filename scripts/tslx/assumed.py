"""`tslx assumed`: whether a run keeps what its specification assumes."""
from typing import List

from . import asking
from .faults import tell_answer
from .files import Stop, gather, write
from .formulas import Joined, Truth
from .programs import HEAD
from .specifications import Item, Section, Specification, read_specification, write_specification

HELP = """tslx assumed FILE..
Whether a run keeps what its specification assumes: the files are those of run, specification, program, tables or machine words, and inputs.
A program owes nothing on a run that breaks an assumption, so that "formula holds" then says nothing of what is guaranteed.
"""


def main(words: List[str]) -> int:
    """Runs the program under what is assumed alone."""
    if not words:
        raise Stop("assumed takes the files of a run")
    gathered = gather(words)
    answer = asking.ask(["run"], gathered.data)
    if answer.status > 1:
        tell_answer(answer, gathered)
        return answer.status
    if "\nformula " not in "\n" + answer.out:
        raise Stop("there is no specification of these signals before the program", 1)
    lines = gathered.text.split("\n")
    start = lines.index(HEAD)
    spec = read_specification("".join(line + "\n" for line in lines[:start])).expanded()
    if not any(section.kind == "assume" and section.items for section in spec.sections):
        raise Stop("nothing is assumed", 1)
    answer = asking.ask(["run"], write_specification(alone(spec)) + "\n".join(lines[start:]))
    if answer.status > 1:
        raise Stop(f"the assumptions alone are too large: {answer.err.strip()}", 4)
    if "\nformula holds\n" in "\n" + answer.out:
        write("the run keeps what is assumed\n")
        return 0
    write("the run breaks what is assumed: that the formula holds says nothing of what is guaranteed\n")
    return 1


def alone(spec: Specification) -> Specification:
    """What is assumed as what is guaranteed. A guaranteed formula f becomes true || f, so that the signals stay."""
    blocks = []
    for section in spec.sections:
        items = section.items
        if section.kind == "guarantee":
            items = tuple(Item(Joined("||", (Truth(True), it.formula)), it.place, it.end) for it in items)
        blocks.append(Section(section.when, "guarantee", items, section.place, section.close, section.end))
    return Specification(spec.text, blocks)
