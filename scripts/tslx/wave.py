"""`tslx wave`: a run as waveforms, as a picture."""
from dataclasses import dataclass
from typing import List, Optional, Tuple

from .asking import ask
from .files import Gathered, gather, write
from .files import shown as shown_name
from .formulas import Signal, Test, write_term, write_test
from .given import options_of, parts_of_text, refused, title_of
from .meanings import Meaning, read_meaning, truth_of
from .programs import read_program
from .runs import Run, read_run
from .specifications import read_specification, space_of

HELP = """tslx wave [--title TITLE] [FILE]..
A run as waveforms, as a picture in SVG. The files are what run reads, a specification, which may be left out, a program, tables or machine
words, and inputs: then each test has a row, high where it is true. Or they are the text of a run alone: then each input and each cell has a
row with its values instead. Each cell and output has a row with what it takes, as long as it takes that; = says that a cell keeps its value.
The part that repeats is shaded, and verdicts stand below.
  --title TITLE     the title; without it the name of the last file
"""
WIDE, ROW, HIGH = 7.3, 30, 20  # of a letter, of a row, and of what stands in it
STYLE = """text { font: 12px ui-monospace, "DejaVu Sans Mono", monospace; fill: #1b1f24; } .quiet { fill: #5d6670; } .bad { fill: #b3261e; }
.page { fill: #ffffff; } .loop { fill: #e7f0fa; } .wave { fill: none; stroke: #1b1f24; stroke-width: 1.5; } .span { fill: #f5f7f9; stroke: #9aa4ae; }
.mark { fill: none; stroke: #0b5cad; stroke-width: 1.5; } .grid { stroke: #d8dde2; }
@media (prefers-color-scheme: dark) { text { fill: #e4e8ec; } .quiet { fill: #9aa4ae; } .bad { fill: #ff8a80; } .page { fill: #15181c; } .loop { fill: #1c2c3e; }
.wave { stroke: #e4e8ec; } .span { fill: #242a31; stroke: #5d6670; } .mark { stroke: #7fb8f5; } .grid { stroke: #2b3138; } }"""


@dataclass
class Shown:
    """A run with what its steps show: the tests with their truths in each step, where tables are given."""
    run: Run
    tests: List[Tuple[Test, List[bool]]]
    controlled: List[str]


def head_of_meaning(text: str) -> Tuple[int, int]:
    """Where tables or machine words begin in a text behind a program, and where they end."""
    starts = [at + 1 for at in (text.find("\ntsltables 1\n"), text.find("\ntslwords 1\n")) if at >= 0]
    start = min(starts)
    return start, text.index("\ntslinputs 1\n", start) + 1


def shown(gathered: Gathered) -> Shown:
    """The run that is given, or that `tsl run` makes of what is given."""
    before, text = parts_of_text(gathered.text)
    if not text:
        run = read_run(gathered.text)
        return Shown(run, [], [it.signal.name for it in run.steps[0].updates])
    answer = ask(["run"], gathered.data)
    if answer.status > 1:
        refused(answer, gathered)
    start, end = head_of_meaning(text)
    program = read_program(text[:start])
    meaning: Meaning = read_meaning(text[start:end])
    if answer.out.startswith("refused "):
        before = ""
        answer = ask(["run"], text)
    run = read_run(answer.out)
    tests = list(dict.fromkeys((space_of(read_specification(before)).tests if before else []) + program.tests()))
    known = [it for it in tests if names_known(it, meaning)]
    return Shown(run, [(it, [truth_of(it, step.values, meaning) for step in run.steps]) for it in known], program.controlled)


def names_known(test: Test, meaning: Meaning) -> bool:
    """Whether tables or words say what a test means."""
    left: list = list(test.arguments)
    if test.name not in meaning.predicates and not (test.name == "eq" and len(test.arguments) == 2):
        return False
    while left:
        it = left.pop()
        if not isinstance(it, Signal):
            if it.name not in meaning.functions:
                return False
            left += it.arguments
    return True


def quoted(text: str) -> str:
    """A text within XML."""
    return text.replace("&", "&amp;").replace("<", "&lt;").replace(">", "&gt;").replace('"', "&quot;")


def taken(run: Run, place: int) -> List[str]:
    """What a cell or output takes in each step."""
    found = []
    for step in run.steps:
        it = step.updates[place]
        found.append("=" if it.term == Signal(it.signal.name) else write_term(it.term))
    return found


def spans(texts: List[str], cut: Optional[int]) -> List[Tuple[int, int, str]]:
    """Texts that stay as one: the first step, the one behind the last, and the text. Nothing goes on over the step `cut`."""
    found: List[Tuple[int, int, str]] = []
    for at, text in enumerate(texts):
        if found and found[-1][2] == text and at != cut:
            found[-1] = (found[-1][0], at + 1, text)
        else:
            found.append((at, at + 1, text))
    return found


def picture(it: Shown, title: str) -> str:
    """The picture."""
    run = it.run
    rows: List[Tuple[str, Optional[List[bool]], List[str]]] = [(write_test(test), truths, []) for test, truths in it.tests]
    if not it.tests:
        rows += [(name, None, [str(step.values[name]) for step in run.steps]) for name in run.steps[0].values]
    rows.append(("state", None, [str(step.state) for step in run.steps]))
    rows += [(f"{name} <-", None, taken(run, place)) for place, name in enumerate(it.controlled)]
    longest = max((len(text) for _, _, texts in rows for text in texts), default=0)
    wide = min(max(36, int(longest * WIDE) + 14), 170)
    left = int(max(len(name) for name, _, _ in rows) * WIDE) + 22
    top, end = 54, left + wide * len(run.steps)
    bottom = top + ROW * len(rows)
    below = [(f"window {i} holds", "") if holds else (f"window {i} fails", "bad") for i, holds in enumerate(run.windows)]
    if run.formula is not None:
        below.append(("formula holds", "") if run.formula else ("formula fails", "bad"))
    repeats = f"steps {run.loop_start} to {run.loop_start + run.loop_length - 1} repeat" if run.loop_length > 1 else f"step {run.loop_start} repeats"
    below.insert(0, (repeats, "quiet"))
    width, height = max(end + 16, left + 260, int(len(title) * WIDE) + 24), bottom + 26 + 18 * len(below)
    lines = [f'<svg xmlns="http://www.w3.org/2000/svg" width="{width}" height="{height}" role="img" aria-label="{quoted(title)}, a run as waveforms">',
             f"<style>{STYLE}</style>", f'<rect class="page" width="{width}" height="{height}"/>', f'<text x="8" y="20">{quoted(title)}</text>']
    loop = left + wide * run.loop_start
    lines += [f'<rect class="loop" x="{loop}" y="{top - 18}" width="{end - loop}" height="{bottom - top + 18}"/>',
              f'<path class="mark" d="M{end} {bottom + 4}v6H{loop}v-6m-3 4l3 -4l3 4"/>']
    for at in range(len(run.steps)):
        lines += [f'<path class="grid" d="M{left + wide * at} {top - 18}V{bottom}"/>', f'<text class="quiet" x="{left + wide * at + 4}" y="{top - 6}">{at}</text>']
    for number, (name, truths, texts) in enumerate(rows):
        high = top + ROW * number + 4
        low = high + HIGH
        lines.append(f'<text x="8" y="{low - 5}">{quoted(name)}</text>')
        if truths is not None:
            path = f"M{left} {high if truths[0] else low}" + "".join(f"V{high if truth else low}H{left + wide * (at + 1)}" for at, truth in enumerate(truths))
            lines.append(f'<path class="wave" d="{path}"/>')
            continue
        for start, stop, text in spans(texts, run.loop_start):
            room = int((wide * (stop - start) - 10) / WIDE)
            said = text if len(text) <= room else text[:max(room - 2, 1)] + ".."
            x = left + wide * start
            lines.append(f'<g><title>{quoted(text)}</title><rect class="span" x="{x + 1}" y="{high}" width="{wide * (stop - start) - 2}" height="{HIGH}" rx="3"/>'
                         f'<text x="{x + 6}" y="{low - 5}">{quoted(said)}</text></g>')
    for number, (text, mark) in enumerate(below):
        lines.append(f'<text class="{mark}" x="8" y="{bottom + 30 + 18 * number}">{text}</text>')
    return "\n".join([*lines, "</svg>"]) + "\n"


def main(words: List[str]) -> int:
    """Writes the picture of a run."""
    options, files = options_of("wave", words, {"--title": "a title"}, 0, None, "the files of a run, or its text")
    write(picture(shown(gather(files)), shown_name(options.get("--title", title_of(files)))))
    return 0
