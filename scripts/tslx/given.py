"""What the commands around the proof are given: their words, and specifications and programs that `tsl` reads as such."""
import pathlib
from typing import Dict, List, NoReturn, Optional, Sequence, Tuple

from .asking import Answer, FAULT, ask
from .faults import tell_answer
from .files import Gathered, Stop, shown
from .programs import HEAD, Program, read_program
from .specifications import Specification, read_specification

# A question that is soon answered, and refused where the text is no specification.
QUICK = ("synth", "--states", "1", "--bound", "0", "--rounds", "0", "--budget", "1")


def options_of(command: str, words: Sequence[str], takes: Dict[str, str], least: int, most: Optional[int], wanted: str) -> Tuple[Dict[str, str], List[str]]:
    """The options among the words, each with what stands behind it or behind `=`, and the other words, of which there are so many. `takes`
    says of each option what that is, or nothing where it takes none; `wanted` says what the command takes."""
    found: Dict[str, str] = {}
    others: List[str] = []
    left = list(words)
    while left:
        word = left.pop(0)
        if word == "--":
            others += left
            break
        if word == "-" or not word.startswith("-"):
            others.append(word)
            continue
        name, equals, value = word.partition("=")
        if name not in takes:
            raise Stop(f"{command} has no option {shown(name)}; it takes {', '.join(takes) if takes else 'none'}")
        if name in found:
            raise Stop(f"{name} stands twice")
        if takes[name] and not equals:
            if not left or left[0].startswith("--"):
                raise Stop(f"{name} takes {takes[name]}, and nothing stands behind it")
            value = left.pop(0)
        elif equals and not takes[name]:
            raise Stop(f"{name} takes nothing")
        found[name] = value
    if len(others) < least or (most is not None and len(others) > most):
        raise Stop(f"{command} takes {wanted}")
    return found, others


def number_in(found: Dict[str, str], name: str, least: int, most: int, default: int) -> int:
    """The number of an option, which has a range."""
    said = found.get(name, str(default))
    if not said.isdigit() or len(said) > 18 or not least <= int(said) <= most:
        raise Stop(f"{name} takes {least} to {most}, and not {shown(said) or 'nothing'}")
    return int(said)


def refused(answer: Answer, gathered: Gathered) -> NoReturn:
    """Tells in words why `tsl` gave no answer, and ends."""
    tell_answer(answer, gathered)
    raise Stop("", answer.status)


def parts_of_text(text: str) -> Tuple[str, str]:
    """A text up to its first line `tslprogram 1`, and from there on, which may be nothing."""
    if text.startswith(HEAD + "\n"):
        return "", text
    at = text.find("\n" + HEAD + "\n") + 1
    return (text[:at], text[at:]) if at else (text, "")


def specification_in(gathered: Gathered) -> Specification:
    """The specification that is given, perhaps before a program; `tsl` reads it as one."""
    text, program = parts_of_text(gathered.text)
    if not text and program:
        raise Stop(f"{gathered.files[0][1]} begins with a program, and a specification is meant", FAULT)
    answer = ask(QUICK, text)
    if answer.status == FAULT or answer.status > 5:
        refused(answer, gathered)
    return read_specification(text)


def program_in(gathered: Gathered) -> Program:
    """The program that is given, perhaps behind a specification and before other parts; `tsl` reads it as one."""
    before, text = parts_of_text(gathered.text)
    if not text:
        raise Stop(f"{gathered.files[-1][1]} has no line {HEAD}, with which a program begins", FAULT)
    for head in ("tsltables 1", "tslwords 1", "tslinputs 1"):
        at = text.find("\n" + head + "\n")
        text = text if at < 0 else text[:at + 1]
    # Beside a specification that says nothing it is the program alone that may be at fault.
    answer = ask(["check"], text)
    if answer.status > 1:
        feeds = before.count("\n")
        refused(answer, Gathered(text.encode("latin-1"), [(line - feeds, name) for line, name in gathered.files]))
    return read_program(text)


def title_of(files: Sequence[str]) -> str:
    """A name from the last file, without folders and what stands behind a dot; for what is no file, `controller`."""
    name = pathlib.PurePath(files[-1]).name if files and files[-1] != "-" and not files[-1].startswith("/dev/") else ""
    return name.split(".")[0] or "controller"
