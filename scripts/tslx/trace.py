"""`tslx trace`: the text of a run as a table."""
import re
from typing import Dict, List, Optional, Tuple

from .files import Gathered, Stop, gather, shown, tell, write
from .formulas import Signal, write_term
from .meanings import Meaning, read_meaning, value_of
from .runs import Run, read_run
from .tokens import HEAD, Unreadable

OF_RUN = re.compile(r"at [0-9]+ place [0-9]|loop [0-9]+ [0-9]|window [0-9]+ (holds|fails)$|formula (holds|fails)$")
HELP = """tslx trace [FILE]
tslx trace --values FILE..
The text of a run, which run writes, as a table. A > stands where the loop starts; = says that a cell keeps its value.
  --values          beside each term its value: the files are the run and the tables or machine words that it was made with, in any order;
                    what else stands there, as a specification, a program or inputs, is passed over
No file, or -: standard input.
"""


def main(words: List[str]) -> int:
    """Writes the run that the files are as a table."""
    values = "--values" in words
    names = [it for it in words if it != "--values"]
    for word in names:
        if word.startswith("-") and word != "-":
            raise Stop(f"trace has no option {shown(word)}")
    gathered = gather(names)
    try:
        meaning, text = None, gathered.text
        if values:
            text, meaning = parted(gathered)
        write(table(read_run(text), meaning))
    except Unreadable as fault:
        tell(f"trace: {fault.said}")
        return 3
    return 0


def parted(gathered: Gathered) -> Tuple[str, Meaning]:
    """The text of the run and the meaning among the files, which are found by their lines."""
    run: List[str] = []
    meant: List[str] = []
    within = False
    for said in gathered.text.split("\n"):
        if said in ("tsltables 1", "tslwords 1") and not meant:
            within = True
        elif said in ("tslinputs 1", HEAD) or OF_RUN.match(said):
            within = False
        if OF_RUN.match(said):
            run.append(said)
        elif within:
            meant.append(said)
    if not run:
        raise Unreadable("no file is the text of a run, whose lines begin with at and end with loop")
    if not meant:
        raise Unreadable("no file has the tables or machine words that the run was made with, which begin with the line tsltables 1 or tslwords 1")
    return "\n".join(run) + "\n", read_meaning("\n".join(meant) + "\n")


def table(run: Run, meaning: Optional[Meaning]) -> str:
    """A run as a table: a column for each input, cell and update."""
    rows: List[Dict[str, str]] = []
    titles: Dict[str, bool] = {}
    for step in run.steps:
        row = {"at": str(step.at), "state": str(step.state), **{name: str(value) for name, value in step.values.items()}}
        for update in step.updates:
            name = update.signal.name
            said = "=" if update.term == Signal(name) else write_term(update.term)
            if meaning is not None:
                try:
                    said += f" = {value_of(update.term, step.values, meaning)}" if said != "=" else ""
                except (KeyError, IndexError):
                    raise Unreadable(f"the tables do not say what {write_term(update.term)} is, so the run was made with others")
            row[name + " <-"] = said
        rows.append(row)
        titles.update(dict.fromkeys(row))
    widths = {name: max([len(name), *(len(row.get(name, "")) for row in rows)]) for name in titles}
    lines = ["  " + " ".join(name.ljust(widths[name]) for name in titles)]
    for row in rows:
        mark = "> " if row["at"] == str(run.loop_start) else "  "
        lines.append(mark + " ".join(row.get(name, "").ljust(widths[name]) for name in titles))
    lines.append(f"loop {run.loop_start} {run.loop_length}")
    lines += [f"window {number} {'holds' if it else 'fails'}" for number, it in enumerate(run.windows)]
    if run.formula is not None:
        lines.append(f"formula {'holds' if run.formula else 'fails'}")
    return "".join(line.rstrip() + "\n" for line in lines)
