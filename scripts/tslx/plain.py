"""The commands of `tsl` itself on files, with faults, verdicts and wrong words in words."""
from typing import TYPE_CHECKING, Dict, List, Optional

from . import asking, options
from .files import Gathered, Stop, gather, tell, write

# What only faults and refusals need is read where there is one, so that a question is asked at once.
if TYPE_CHECKING:
    from .programs import Program

help_of = options.help_of


def main(words: List[str]) -> int:
    """Does what a command of `tsl` does; `words` begin with its name."""
    command = words[0]
    own = options.COMMANDS[command][0]
    given, files = options.split_words(command, own, words[1:])
    asked = [command, *(it for pair in given.items() for it in pair)]
    if command == "gen":
        if len(files) != 1:
            raise Stop("gen takes one number, 1 to 5")
        options.number("gen", files[0], 1, 5)
        answer = asking.ask_through([command, *files], b"")
        return told(answer, None)
    gathered = gather(files)
    # Verdicts are a line; all else goes through as it comes.
    if command in ("check", "circuit", "recheck"):
        answer = asking.ask(asked, gathered.data)
        write(answer.out)
        if answer.out.startswith("refused "):
            (tell_step if command == "recheck" else tell_refusal)(answer.out.split(), gathered, given)
    else:
        answer = asking.ask_through(asked, gathered.data)
    return told(answer, gathered)


def told(answer: asking.Answer, gathered: Optional[Gathered]) -> int:
    """Tells what the error output has, and gives the status."""
    if answer.err:
        from .faults import tell_answer
        tell_answer(answer, gathered)
    return answer.status


def tell_refusal(words: List[str], gathered: Gathered, given: Dict[str, str]) -> None:
    """Tells what a verdict of `check` says, with the line of the program that is meant."""
    from .programs import HEAD, read_program
    from .tokens import Unreadable
    kind = words[1]
    lines = gathered.text.split("\n")
    start = lines.index(HEAD) + 1
    try:
        program = read_program("\n".join(lines[start - 1:]))
    except Unreadable:
        return
    line = 0
    if kind in ("test", "choice"):
        line = program.nodes[int(words[2])].line
    elif kind in ("foreign", "window"):
        line = program.windows[int(words[2])].line
    said = sentence(kind, words[2] if len(words) > 2 else "", program, given)
    if not line:
        tell("  " + said)
        return
    file, own = gathered.place(start + line - 1)
    tell(f"{file}:{own}: {said}\n  {lines[start + line - 2]}")


def tell_step(words: List[str], gathered: Gathered, _: Dict[str, str]) -> None:
    """Tells what a verdict of `recheck` says, with the line of the log that is meant."""
    if words[1] == "unfinished":
        tell("  the log ends, and no step of it has the empty clause")
        return
    lines = gathered.text.split("\n")
    for line in range(lines.index("lrat") + 1, len(lines)):
        said = lines[line].split()
        if said[:1] == [words[2]] and said[1:2] != ["d"]:
            file, own = gathered.place(line + 1)
            tell(f"{file}:{own}: {step_sentence(words, said)}\n  {lines[line]}")
            return


def step_sentence(words: List[str], said: List[str]) -> str:
    """What is wrong about a step of a log."""
    if words[1] == "line":
        return f"step {words[2]} has a number that does not rise, a variable that the formula lacks, or a literal with its negation"
    hints = said[said.index("0", 1) + 1:-1]
    if int(words[3]) > len(hints):
        return f"the hints of step {words[2]} end, and none of their clauses became false"
    return f"hint {hints[int(words[3]) - 1]} of step {words[2]} shows nothing: its clause is not there, or is true, or more than one literal of it is open"


def sentence(kind: str, number: str, program: "Program", given: Dict[str, str]) -> str:
    """A refusal in words."""
    if kind == "signals":
        return "inputs, cells and outputs are not those of the specification, in its order; tslx names tells these"
    if kind == "test":
        return f"node {number} asks a test that the specification does not name"
    if kind == "choice":
        return f"node {number} sets a term that no update of the specification names for its signal, nor the cell itself"
    if kind == "foreign":
        return f"window {number} has a test or an update that the specification does not name"
    if kind == "window":
        return (f"window {number} does not hold in every run whatever symbols mean: its tests are not of the same values then, as where "
                "it reads an input at two steps, or lists an update or an equality too few")
    if kind == "bound":
        more = "a larger --bound may accept it" if int(number) < 15 else "15 is the largest bound"
        return (f"nothing is known: no annotation within the bound {number} shows that every run meets the specification; {more}, "
                "or it is right only by what its terms mean")
    return "the program is refused"
