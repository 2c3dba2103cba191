#!/usr/bin/env python3
"""Times `tsl check` beside the plain reading of the definitions in `plain.py`: on the examples, whose verdicts must be the same, and on
programs of 8 to 64 states. Then come disjunctions of pairs of updates, whose negation has twice as many choices with each pair more:
32,768 with 15 pairs, none of which is larger than another one. Last come programs of 8 to 64 states over ten predicate terms, so with
1,024 valuations in each state, and an automaton of 4,787 edges, where the work is in the annotation."""
import subprocess
import time

import plain
from crossing import crossing
from measuring import HERE, PROGRAM, built, instructions, measured

HEAD = "tslprogram 1\n"


def parted(text):
    at = text.index(HEAD)
    return text[:at], text[at:]


def line(text):
    """What the program says of a text, on one of its outputs."""
    done = subprocess.run([PROGRAM, "check"], input=text, capture_output=True, text=True)
    return (done.stdout or done.stderr).strip()


def row(folder, name, text, before):
    started = time.process_time()
    wanted = plain.verdict(*parted(text), 2)
    slow = time.process_time() - started
    assert line(text) == wanted, (name, line(text), wanted)
    seconds, peak, _ = measured(folder, text.encode(), [PROGRAM, "check"], ("0", "1"))
    growth = f"{seconds / before:7.2f}" if before else "      -"
    print(f"{name:>12} {wanted:>16} {seconds:9.5f} {growth} {peak:9} {slow:9.5f} {slow / seconds:8.1f}")
    return seconds


def round_robin(states):
    """A program that goes round its states and grants by the first predicate, for two requests."""
    spec = "always guarantee { request left -> F [grant <- first()]; request right -> F [grant <- second()]; }\n"
    lines = ["tslprogram 1", "input left", "input right", "output grant"]
    for state in range(states):
        after = (state + 1) % states
        lines.append(f"node {state} set [grant <- {'second' if state % 2 else 'first'}()] go {after}")
    lines += [f"state {state} at {state}" for state in range(states)]
    return spec + "\n".join([*lines, "end", ""])


def pairs(count):
    """Some pair of so many takes its updates, and a program that takes all of them."""
    spec = "guarantee { " + " || ".join(f"([a{i} <- x] && [b{i} <- x])" for i in range(count)) + "; }\n"
    outputs = [f"output {side}{i}" for i in range(count) for side in "ab"]
    updates = " ".join(f"[{side}{i} <- x]" for i in range(count) for side in "ab")
    return spec + "\n".join(["tslprogram 1", "input x", *outputs, f"node 0 set {updates} go 0", "state 0 at 0", "end", ""])


def main():
    with built() as folder:
        print(f"{'text':>12} {'verdict':>16} {'seconds':>9} {'growth':>7} {'peak KiB':>9} {'Python':>9} {'ratio':>8}")
        for path in sorted((HERE.parent / "examples").glob("*/*.check")):
            row(folder, path.stem, path.read_text(), None)
        before = None
        for states in (8, 16, 32, 64):
            before = row(folder, f"{states} states", round_robin(states), before)
        print(f"{'pairs':>12} {'choices':>16} {'seconds':>9} {'growth':>7} {'peak KiB':>9}")
        before = None
        for count in (12, 13, 14, 15, 16):
            seconds, peak, _ = measured(folder, pairs(count).encode(), [PROGRAM, "check"])
            growth = f"{seconds / before:7.2f}" if before else "      -"
            print(f"{count:12} {2**count:16} {seconds:9.5f} {growth} {peak:9}")
            before = seconds
        print(f"{'states':>12} {'valuations':>16} {'seconds':>9} {'growth':>7} {'peak KiB':>9} {'instructions':>14}")
        before = None
        for states in (8, 16, 32, 64):
            text = crossing(states)
            command = [PROGRAM, "check", "--bound=15"]
            seconds, peak, _ = measured(folder, text.encode(), command)
            growth = f"{seconds / before:7.2f}" if before else "      -"
            print(f"{states:12} {states * 1_024:16} {seconds:9.5f} {growth} {peak:9} {instructions(text.encode(), command) or '-':>14}")
            before = seconds


main()
