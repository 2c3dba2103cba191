"""`tslx explain`: a none text in words."""
from typing import Dict, List

from .answers import Environment, NoneText, read_none
from .files import Stop, gather, tell, write
from .formulas import Apply, Signal, Term, Test, Update, signals_read, write_test, write_update
from .programs import write_window
from .tokens import Unreadable

HELP = """tslx explain [FILE]
Tells a none text, which synth writes where there is no program, in words: each environment, each window, the reason, and what to do next.
No file, or -: standard input.
"""


def main(words: List[str]) -> int:
    """Tells the none text that the files are."""
    for word in words:
        if word.startswith("-") and word != "-":
            raise Stop(f"explain has no option {word}")
    gathered = gather(words)
    try:
        none = read_none(gathered.text)
    except Unreadable as fault:
        tell(f"explain: {fault.said}")
        return 3
    write("".join(line + "\n" for line in lines_of(none)))
    return 0


def told_updates(vector: List[Update]) -> str:
    """The updates of a vector in one line."""
    return " ".join(map(write_update, vector)) or "(nothing to choose)"


def environment_lines(it: Environment) -> List[str]:
    """An environment in words."""
    found = [f"an environment of {it.size} states:"]
    for state in range(it.size):
        found.append(f"  in state {state} of {it.size}:" + ("" if it.tests else " no test"))
        found += [f"    {'true ' if truth else 'false'}  {write_test(test)}" for test, truth in zip(it.tests, it.truths[state])]
        for to in range(it.size):
            after = [told_updates(vector) for vector, goes in zip(it.vectors, it.goes[state]) if goes == to]
            if after:
                found += [f"    goes to state {to} after", *("      " + said for said in after)]
    return found


def before(test: Test, vector: List[Update]) -> Test:
    """The test where cells have the terms that a vector gives them."""
    taken: Dict[str, Term] = {it.signal.name: it.term for it in vector}

    def put(term: Term) -> Term:
        if isinstance(term, Signal):
            return taken.get(term.name, term)
        return Apply(term.name, tuple(map(put, term.arguments)))
    return Test(test.name, tuple(map(put, test.arguments)))


def of_test(test: Test, it: Environment, whose: str) -> List[str]:
    """Why no window takes the truth of a test back."""
    found: Dict[str, bool] = {}
    reads_cell = False
    for vector in it.vectors:
        taken = {update.signal.name for update in vector}
        if not any(signal.name in taken for signal in signals_read(test)):
            continue
        reads_cell = True
        was = before(test, vector)
        if was not in it.tests:
            found[f"- {write_test(test)}: where it follows an update, it is what `{write_test(was)}` was before, which no formula names, "
                  f"so {whose} can take its truth back"] = True
    if reads_cell:
        return list(found)
    return [f"- {write_test(test)}: it reads no cell, so its truth comes from outside or from what symbols mean, and {whose} can take it back"]


def lines_of(none: NoneText) -> List[str]:
    """A none text in words."""
    found: List[str] = []
    for number, it in enumerate(none.rounds):
        found.append(f"round {number}: an environment wins, but it tells apart what is the same whatever functions and predicates mean")
        found += environment_lines(it.environment)
        found.append("  so this is assumed from here on, and holds in every run: " + write_window(it.window)[len("window "):])
    if none.environment:
        found += environment_lines(none.environment)
    found.append(f"no controller of {none.states} states within the bound {none.bound}" + (", under the windows above" if none.rounds else "")
                 + ("" if none.reason == "genuine" else "; other sizes may have one"))
    if none.environment:
        found.append("the environment above wins whatever is updated, so no number of states and no bound helps; only a window could")
        equality = any(it.name == "eq" and len(it.arguments) == 2 for it in none.environment.tests)
        for test in none.environment.tests:
            found += of_test(test, none.environment, "only a window with equalities" if equality else "no window")
        found.append("next: assume of these tests what the world keeps, in always assume { .. }; or ask less; or --depth 3 where a value "
                     "goes through several cells")
    elif none.reason == "nocounter":
        found += [f"no environment of {none.numbers[0]} states within the bound {none.numbers[1]} wins either",
                  "next: more --states or a larger --bound first; then more --env-states and a larger --env-bound; tslx search does it in turn"]
    elif none.numbers[0]:
        found += [f"{none.numbers[0]} windows were added, and no more may be",
                  "next: more --rounds where the windows lead somewhere, otherwise more --states or a larger --bound"]
    else:
        found += ["no environment was asked for", "next: leave --rounds 0 out, or more --states or a larger --bound"]
    return found
