"""`tslx vcd`: a run for viewers of waveforms."""
from typing import Dict, List, Tuple

from .files import gather, write
from .formulas import write_test, write_update
from .given import options_of, title_of
from .tlsf import spelled_apart
from .wave import Shown, shown

HELP = """tslx vcd [--title TITLE] [FILE]..
A run as a value change dump, which viewers of waveforms read. The files are those of tslx wave. There is a wire for each test, where tables are
given, and for each update that is made, high where it is true or made; for each input, cell and the state its number; and `in_loop`, high in
the steps that repeat. Comments tell which name stands for what. A step takes one nanosecond.
  --title TITLE     the name of the module; without it the name of the last file
"""


def dump(it: Shown, title: str) -> str:
    """The text."""
    run = it.run
    named: List[Tuple[str, str, int, List[int]]] = [("test", write_test(test), 1, [int(truth) for truth in truths]) for test, truths in it.tests]
    widest = {name: max(1, max(step.values[name] for step in run.steps).bit_length()) for name in run.steps[0].values}
    named += [("value", name, widest[name], [step.values[name] for step in run.steps]) for name in widest]
    states = [step.state for step in run.steps]
    named.append(("in", "state", max(1, max(states).bit_length()), states))
    updates = dict.fromkeys(update for step in run.steps for update in step.updates)
    named += [("update", write_update(update), 1, [int(update in step.updates) for step in run.steps]) for update in updates]
    named.append(("in", "loop", 1, [int(at >= run.loop_start) for at in range(len(run.steps))]))
    names: Dict[str, str] = spelled_apart([f"{kind} {text}" for kind, text, _, _ in named])
    module = spelled_apart([title])[title]
    lines = ["$comment Written by tslx vcd. $end"]
    marks = []
    for number, (kind, text, _, _) in enumerate(named):
        mark, left = "", number
        while not mark or left:
            mark, left = mark + chr(33 + left % 90), left // 90
        marks.append(mark)
        lines.append(f"$comment {names[f'{kind} {text}']}: {text} $end")
    lines += ["$timescale 1 ns $end", f"$scope module {module} $end"]
    for (kind, text, width, _), mark in zip(named, marks):
        said = f" [{width - 1}:0]" if width > 1 else ""
        lines.append(f"$var wire {width} {mark} {names[f'{kind} {text}']}{said} $end")
    lines += ["$upscope $end", "$enddefinitions $end"]
    for at in range(len(run.steps)):
        lines.append(f"#{at}")
        for (_, _, width, values), mark in zip(named, marks):
            if at == 0 or values[at] != values[at - 1]:
                lines.append(f"b{values[at]:b} {mark}" if width > 1 else f"{values[at]}{mark}")
    return "\n".join([*lines, f"#{len(run.steps)}"]) + "\n"


def main(words: List[str]) -> int:
    """Writes a run as a value change dump."""
    options, files = options_of("vcd", words, {"--title": "a name"}, 0, None, "the files of a run, or its text")
    write(dump(shown(gather(files)), options.get("--title", title_of(files))))
    return 0
