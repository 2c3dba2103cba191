"""`tslx search`: sizes that grow, until there is a program or an environment that wins."""
import time
from typing import TYPE_CHECKING, Dict, List, Optional, Sequence, Tuple

from . import asking
from .asking import LARGE, NO, SPENT, YES, Answer
from .faults import tell_answer
from .files import Gathered, Stop, gather, shown, tell, write
from .options import number

if TYPE_CHECKING:
    from concurrent.futures import Future

HELP = """tslx search [OPTION].. FILE
Asks for a program of 1, 2, .. states, at first without environments, with a bound that grows with the states. Where there is none, asks for an
environment that wins, a small one first; windows that come up so are assumed, and programs are asked for once more under them, a small
one first. Ends with a program; or with an environment that wins against any number of states and any bound; or where no size is left.
  --most N          1 to 8; 8 by default: how many states a program has at most
  --jobs N          1 to 64; 1 by default: how many questions are asked side by side; the answer is the same
FILE is a specification; -: standard input.
"""
MOST_OF_ENVIRONMENT = 4


def controller(states: int) -> Tuple[str, ...]:
    """The question for a program without environments."""
    return ("synth", "--states", str(states), "--bound", str(max(2, states)), "--rounds", "0")


def environment(states: int, size: int) -> Tuple[str, ...]:
    """The question for a program with rounds, whose environments have a size."""
    return ("synth", "--states", str(states), "--bound", str(max(2, states)), "--env-states", str(size), "--env-bound", str(max(2, size)),
            "--depth", "3", "--rounds", "64")


class Questions:
    """Asks each question once, and the next ones beside it, as many as there are jobs."""

    def __init__(self, data: bytes, jobs: int):
        self.data = data
        self.jobs = jobs
        self.answers: Dict[Tuple[str, ...], Answer] = {}
        if jobs > 1:
            from concurrent.futures import ThreadPoolExecutor
            self.pool = ThreadPoolExecutor(jobs)
        self.asked: Dict[Tuple[str, ...], "Future[Answer]"] = {}

    def ask(self, words: Tuple[str, ...], later: Sequence[Tuple[str, ...]]) -> Answer:
        """The answer to a question; `later` are those that come next where it does not help."""
        if words not in self.answers:
            if self.jobs > 1:
                for it in [words, *later][:self.jobs]:
                    if it not in self.asked:
                        self.asked[it] = self.pool.submit(asking.ask, it, self.data)
                self.answers[words] = self.asked[words].result()
            else:
                self.answers[words] = asking.ask(words, self.data)
        return self.answers[words]

    def end(self) -> None:
        """Ends what is still asked."""
        for it in self.asked.values():
            it.cancel()
        # One that was about to start is ended once it has started.
        while not all(it.done() for it in self.asked.values()):
            asking.end_running()
            time.sleep(0.01)
        if self.jobs > 1:
            self.pool.shutdown(wait=True)


def options(words: List[str]) -> Tuple[int, int, str]:
    """The most states, the jobs and the file."""
    given = {"--most": 8, "--jobs": 1}
    most = {"--most": 8, "--jobs": 64}
    files: List[str] = []
    left = list(words)
    while left:
        name, equals, value = left.pop(0).partition("=")
        if name in given:
            if not equals and (not left or left[0].startswith("--")):
                raise Stop(f"{name} takes 1 to {most[name]}, and nothing stands behind it")
            given[name] = number(name, value if equals else left.pop(0), 1, most[name])
        elif name.startswith("-") and name != "-":
            raise Stop(f"search has no option {shown(name)}; it takes --most and --jobs")
        else:
            files.append(name + equals + value)
    if len(files) != 1:
        raise Stop("search takes one file")
    return given["--most"], given["--jobs"], files[0]


def main(words: List[str]) -> int:
    """Searches for a program."""
    most, jobs, file = options(words)
    gathered = gather([file])
    asking.program()
    questions = Questions(gathered.data, jobs)
    try:
        return Search(questions, gathered, most).go()
    finally:
        questions.end()


class Search:
    """A search, and what it knows so far."""

    def __init__(self, questions: Questions, gathered: Gathered, most: int):
        self.questions = questions
        self.gathered = gathered
        self.most = most
        self.none: Optional[Answer] = None
        self.spent = False
        self.large: Optional[Answer] = None

    def go(self) -> int:
        """Asks until the end, and gives the status."""
        plain = [controller(it) for it in range(1, self.most + 1)]
        small = [environment(1, it) for it in range(1, MOST_OF_ENVIRONMENT + 1)]
        for at, words in enumerate(plain):
            status, go_on = self.step(words, f"states {at + 1}, bound {max(2, at + 1)}", plain[at + 1:] + small)
            if status is not None:
                return status
            if not go_on:
                break
        first_large = self.large
        for at, words in enumerate(small):
            status, go_on = self.step(words, f"an environment of {at + 1} states", small[at + 1:])
            if status is not None:
                return status
            if not go_on:
                break
            if "\nround " not in self.questions.answers[words].out:
                continue
            again = [environment(it, at + 1) for it in range(2, self.most + 1)]
            for place, further in enumerate(again):
                status, go_on = self.step(further, f"states {place + 2}, bound {place + 2}, windows of environments of {at + 1} states",
                                          again[place + 1:])
                if status is not None:
                    return status
                if not go_on:
                    break
        return self.ended(first_large)

    def step(self, words: Tuple[str, ...], what: str, later: Sequence[Tuple[str, ...]]) -> Tuple[Optional[int], bool]:
        """Asks one question and says what came: the status where the search ends, and whether a larger one is of use."""
        answer = self.questions.ask(words, later)
        if answer.status == YES:
            tell(f"tslx: {what}: a program")
            write(answer.out)
            return 0, False
        if answer.status == NO:
            reason = next((line[7:] for line in reversed(answer.out.split("\n")) if line.startswith("reason ")), "")
            if reason == "rounds 0":
                tell(f"tslx: {what}: none")
            else:
                windows = answer.out.count("\nround ")
                tell(f"tslx: {what}: none, reason {reason}" + (f", after {windows} windows" if windows > 1 else ", after a window" if windows else ""))
            if self.none is None or reason != "rounds 0" or "reason rounds 0" in self.none.out:
                self.none = answer
            if reason == "genuine":
                tell("tslx: an environment wins against any number of states and any bound: tslx explain tells what it does")
                write(answer.out)
                return 1, False
            return None, True
        if answer.status == SPENT:
            tell(f"tslx: {what}: the budget is spent, and nothing is known of this size")
            self.spent = True
            return None, True
        if answer.status == LARGE:
            tell(f"tslx: {what}: too large: {answer.err.split(chr(10))[0]}")
            self.large = answer
            return None, False
        tell_answer(answer, self.gathered)
        return answer.status, False

    def ended(self, first_large: Optional[Answer]) -> int:
        """Says that no size is left, and gives the status."""
        if first_large is not None:
            tell_answer(Answer(LARGE, "", first_large.err.split("\n")[0] + "\n"), None)
            tell("tslx: no larger size mends that")
        else:
            tell(f"tslx: no program up to {self.most} states")
        if self.none is not None:
            write(self.none.out)
        return LARGE if first_large is not None else SPENT if self.spent else NO
