"""What `tsl synth` writes where there is no program: a none text, or the rounds behind a limit that was passed."""
import re
from dataclasses import dataclass, field
from typing import List, Optional, Tuple

from .formulas import Test, Update, test_of
from .programs import NUMBER, Window, read_updates, read_window
from .tokens import Unreadable, lines_of


@dataclass
class Environment:
    """An environment: its tests; its vectors, each with a term for each cell and output; and for each state the truths of the tests and,
    by vector, the state that follows. It begins in state 0."""
    size: int
    tests: List[Test] = field(default_factory=list)
    vectors: List[Tuple[Update, ...]] = field(default_factory=list)
    truths: List[List[bool]] = field(default_factory=list)
    goes: List[List[int]] = field(default_factory=list)


@dataclass(frozen=True)
class Round:
    """A round: an environment, and the window that takes it back."""
    environment: Environment
    window: Window


@dataclass
class NoneText:
    """That there is no controller of so many states within a bound: the rounds, and the reason, `rounds R`, `nocounter M J` or `genuine`
    with an environment."""
    states: int
    bound: int
    rounds: List[Round]
    reason: str
    numbers: Tuple[int, ...]
    environment: Optional[Environment]


HEADS = re.compile(rf"(states|bound|round|environment) {NUMBER}$")
TEST = re.compile(rf"test {NUMBER} (.+)$")
VECTOR = re.compile(rf"vector {NUMBER}((?: \[[^\]]*\])*)$")
STATE = re.compile(rf"state {NUMBER} truths((?: [01])*) to((?: (?:0|[1-9][0-9]*))+)$")
REASON = re.compile(rf"reason (rounds {NUMBER}|nocounter {NUMBER} {NUMBER}|genuine)$")


class Lines:
    """The lines of a text, one after the other."""

    def __init__(self, text: str):
        self.lines = [said for _, said in lines_of(text)]
        self.at = 0

    def next(self) -> str:
        """The next line, or nothing behind the last one."""
        return self.lines[self.at] if self.at < len(self.lines) else ""

    def take(self, wanted: "re.Pattern[str]") -> "re.Match[str]":
        """The next line, as one of a form."""
        found = wanted.match(self.next())
        if not found:
            raise Unreadable("no answer of tsl synth goes on with this line" if self.next() else "the answer has no end", self.at + 1)
        self.at += 1
        return found

    def number(self, word: str) -> int:
        """The number of the next line, which has a word and a number."""
        return int(self.take(re.compile(rf"{word} {NUMBER}$")).group(1))


def read_environment(lines: Lines) -> Environment:
    """The environment that comes next."""
    it = Environment(lines.number("environment"))
    while TEST.match(lines.next()):
        it.tests.append(test_of(lines.take(TEST).group(2)))
    while VECTOR.match(lines.next()):
        it.vectors.append(read_updates(lines.take(VECTOR).group(2)))
    for _ in range(it.size):
        found = lines.take(STATE)
        it.truths.append([bit == "1" for bit in found.group(2).split()])
        it.goes.append([int(to) for to in found.group(3).split()])
    return it


def read_rounds(lines: Lines) -> List[Round]:
    """The rounds that come next, perhaps none."""
    rounds = []
    while lines.next().startswith("round "):
        lines.number("round")
        environment = read_environment(lines)
        window = read_window(lines.next(), lines.at + 1)
        lines.at += 1
        rounds.append(Round(environment, window))
    return rounds


def read_none(text: str) -> NoneText:
    """The none text that a text is."""
    lines = Lines(text)
    if lines.next() != "none":
        raise Unreadable("this is no none text, which begins with the line none", 1)
    lines.at += 1
    states, bound = lines.number("states"), lines.number("bound")
    rounds = read_rounds(lines)
    said = lines.take(REASON).group(1).split()
    environment = read_environment(lines) if said[0] == "genuine" else None
    lines.take(re.compile("end$"))
    if lines.next():
        raise Unreadable("a line stands behind the end of the none text", lines.at + 1)
    return NoneText(states, bound, rounds, said[0], tuple(map(int, said[1:])), environment)
