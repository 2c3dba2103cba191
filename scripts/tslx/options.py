"""The options of `tsl` in words: which command takes which, their ranges and defaults, and what is wrong about others."""
import re
from dataclasses import dataclass
from typing import Dict, List, Optional, Sequence, Tuple

from .files import Stop, shown


@dataclass(frozen=True)
class Option:
    """An option with a number: the least and the largest one, the default, and what it counts. With a word it takes that too."""
    name: str
    letter: str
    least: int
    most: int
    default: int
    what: str
    word: str = ""

    @property
    def takes(self) -> str:
        """What it takes."""
        return f"{self.least} to {self.most}" + (f", or {self.word}" if self.word else "")


STATES = Option("--states", "N", 1, 8, 2, "how many states a controller has")
BOUND = Option("--bound", "K", 0, 15, 2, "how often a path of the controller's automaton may pass a rejecting edge")
FULL_BOUND = Option("--bound", "K", 0, 15, 2, BOUND.what + "; full: as much as can help", "full")
ENV_STATES = Option("--env-states", "M", 1, 8, 2, "how many states an environment has")
ENV_BOUND = Option("--env-bound", "J", 0, 15, 2, "how often a path of the environment's automaton may pass a rejecting edge")
DEPTH = Option("--depth", "D", 1, 3, 2, "how many steps a window has at most")
ROUNDS = Option("--rounds", "R", 0, 64, 8, "how many windows are added at most")
BUDGET = Option("--budget", "B", 1, 1000000, 20000, "how many clauses the solver learns at most for one question")

# Of each command: its options, the files that it takes, and what it does.
COMMANDS: Dict[str, Tuple[Tuple[Option, ...], str, str]] = {
    "synth": ((STATES, FULL_BOUND, ENV_STATES, ENV_BOUND, DEPTH, ROUNDS, BUDGET), "SPECIFICATION",
              "Writes a program that meets the specification, or that there is none of these sizes, and why."),
    "check": ((BOUND,), "SPECIFICATION PROGRAM", "Says whether every run of the program meets the specification."),
    "run": ((), "[SPECIFICATION] PROGRAM TABLES INPUTS",
            "Runs a program on tables of its functions and predicates, or their operations on machine words, and on inputs."),
    "prove": ((STATES, BOUND, BUDGET), "SPECIFICATION", "Writes a formula that says that there is a controller, and a log that refutes it."),
    "recheck": ((), "FORMULA_AND_LOG", "Says whether a log refutes a formula."),
    "gen": ((), "N", "Says of a specification of N requests, 1 to 5, whether it has a program: a quick trial of tsl."),
    "circuit": ((BOUND,), "SPECIFICATION PROGRAM", "Does as check, and writes a circuit of a program that is accepted."),
    "automaton": ((), "SPECIFICATION", "Writes the automaton of the negation of a specification's formula."),
    "accepts": ((), "AUTOMATON LOOP", "Says whether an automaton accepts a loop of letters."),
}


def option_lines(options: Sequence[Option]) -> str:
    """A line of help for each option."""
    return "".join(f"  {it.name + ' ' + it.letter:<18}{it.takes}; {it.default} by default: {it.what}\n" for it in options)


def help_of(command: str) -> str:
    """What `--help` writes for a command of `tsl`."""
    options, takes, what = COMMANDS[command]
    files = takes if command == "gen" else "[FILE].."
    text = f"tslx {command} {'[OPTION].. ' if options else ''}{files}\n{what}\n"
    if command != "gen":
        text += f"It reads {takes}, from the files one after the other; no file, or -: standard input.\n"
    return text + option_lines(options)


def number(name: str, said: str, least: int, most: int) -> int:
    """A number of a range."""
    if not re.match(r"[+-]?[0-9]{1,18}$", said) or not least <= int(said) <= most:
        raise Stop(f"{name} takes {least} to {most}, and not {shown(said) or 'nothing'}")
    return int(said)


def split_words(command: str, options: Sequence[Option], words: Sequence[str]) -> Tuple[Dict[str, str], List[str]]:
    """The options among the words, each with what it is given, and the other words."""
    by_name = {it.name: it for it in options}
    given: Dict[str, str] = {}
    others: List[str] = []
    at = 0
    while at < len(words):
        word = words[at]
        at += 1
        if word == "--":
            others += words[at:]
            break
        if word == "-" or not word.startswith("-"):
            others.append(word)
            continue
        name, equals, value = word.partition("=")
        option = by_name.get(name)
        if option is None:
            raise Stop(unknown(command, name, options))
        if not equals:
            if at == len(words) or words[at].startswith("--"):
                raise Stop(f"{name} takes {option.takes}, and nothing stands behind it")
            value = words[at]
            at += 1
        if name in given:
            raise Stop(f"{name} stands twice")
        if not (option.word and value == option.word):
            if not re.match(r"[+-]?[0-9]{1,18}$", value) or not option.least <= int(value) <= option.most:
                raise Stop(f"{name} takes {option.takes}, and not {shown(value) or 'nothing'}")
        given[name] = value
    return given, others


def unknown(command: str, name: str, options: Sequence[Option]) -> str:
    """What is wrong about an option that a command does not have."""
    names = [it.name for it in options]
    elsewhere = [other for other, (owns, _, _) in COMMANDS.items() if name in [it.name for it in owns]]
    near = [it for it in names if it.startswith(name) or is_near(it, name)]
    if near:
        return f"{command} has no option {shown(name)}; {near[0]} is meant?"
    if elsewhere:
        return f"{command} has no option {name}, which is one of {' and '.join(elsewhere)}"
    return f"{command} has no option {shown(name)}; it takes {', '.join(names) if names else 'none'}"


def is_near(one: str, other: str) -> bool:
    """Whether one name becomes another one by one letter that is changed, put in or left out, or by two neighbours that change places."""
    if one == other:
        return False
    if len(one) > len(other):
        one, other = other, one
    if len(other) - len(one) > 1:
        return False
    at = 0
    while at < len(one) and one[at] == other[at]:
        at += 1
    if len(one) < len(other):
        return one[at:] == other[at + 1:]
    return one[at + 1:] == other[at + 1:] or (one[at + 2:] == other[at + 2:] and one[at:at + 2] == other[at:at + 2][::-1])
