"""What `tsl automaton` writes: a Buechi automaton in the Hanoi form."""
import re
from dataclasses import dataclass
from typing import List, Tuple

from .tokens import Unreadable, lines_of


@dataclass(frozen=True)
class Edge:
    """An edge: from which state to which, what it asks of the propositions, by their numbers, and whether it is rejecting."""
    start: int
    to: int
    asks: Tuple[Tuple[int, bool], ...]
    rejecting: bool


@dataclass
class Automaton:
    """The number of states, which begin with 0; the propositions as they are written, tests before updates; and the edges by state."""
    states: int
    propositions: List[str]
    edges: List[Edge]


LABEL = re.compile(r"\[([^\]]*)\] ([0-9]+)( \{0\})?$")


def read_automaton(text: str) -> Automaton:
    """The automaton that a text is."""
    it = Automaton(0, [], [])
    state, body, ended = 0, False, False
    for number, said in lines_of(text):
        if number == 1 and said != "HOA: v1":
            raise Unreadable("an automaton begins with the line HOA: v1", number)
        label = LABEL.match(said)
        if ended:
            raise Unreadable("a line stands behind the end of the automaton", number)
        if said == "--BODY--":
            body = True
        elif said == "--END--":
            ended = True
        elif body and said.startswith("State: "):
            state = int(said[7:])
        elif body and label:
            asks = () if label.group(1) == "t" else tuple((int(bit.lstrip("!")), not bit.startswith("!")) for bit in label.group(1).split("&"))
            it.edges.append(Edge(state, int(label.group(2)), asks, label.group(3) is not None))
        elif not body and said.startswith("States: "):
            it.states = int(said[8:])
        elif not body and said.startswith("AP: "):
            it.propositions = said.split('"')[1::2]
        elif body:
            raise Unreadable("no automaton goes on with this line", number)
    if not ended:
        raise Unreadable("the automaton has no end", text.count("\n") + 1)
    return it
