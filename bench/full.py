#!/usr/bin/env python3
"""Tries on small questions what `tsl synth --bound full` says, by the plain reading of the definitions in `plain.py`. All controllers of
two states over at most three bits are gone through: each has an annotation within the full bound, or a loop of letters on which the
formula fails when it is evaluated there. The program answers none exactly where each one fails, and what it writes is accepted within
the number of the bound, by `check` too where that is at most 15. The first argument is how many questions are tried, 300 if there is
none; with the second one, `plain`, the program is not asked."""
import itertools
import random
import subprocess
import sys

import plain
from loops import formula, holds
from measuring import PROGRAM

STATES = 2
ATOMS = {"one test": ["p x", "[y <- a()]", "[y <- b()]"], "three choices": ["[y <- a()]", "[y <- b()]", "[y <- c()]"],
         "two tests": ["p x", "q x", "[y <- a()]"], "a cell": ["p y", "[y <- x]"]}


def controllers(question):
    """Each controller as a machine: for each state its letters with the states that they go to."""
    space = question.space
    updates = [bit for atom, bit in space.bits.items() if atom[0] == "update"]
    entries = list(itertools.product(itertools.product(*question.groups), range(STATES)))
    for table in itertools.product(entries, repeat=len(question.places)):
        steps = [[] for _ in range(STATES)]
        for (state, valuation), (picked, after) in zip(question.places, table):
            letter = {bit: bool(valuation >> bit & 1) for bit in range(question.tests)}
            letter.update((bit, bit in picked) for bit in updates)
            steps[state].append((letter, after))
        yield steps


def ways(leads, start):
    """The steps by which each node that is led to from a node is first arrived at."""
    found, queue = {start: []}, [start]
    for node in queue:
        for letter, rejecting, after in leads[node]:
            if after not in found:
                found[after] = found[node] + [letter]
                queue.append(after)
    return found


def failing_loop(question, steps):
    """The letters of a stem and of a cycle through a rejecting edge, or None where there is no such cycle."""
    leads = {(s, q): [(letter, rejecting, (after, to)) for letter, after in steps[s] for at, cube, to, rejecting in question.edges
                      if at == q and all(letter[bit] == wanted for bit, wanted in cube)]
             for s in range(STATES) for q in range(question.count)}
    for node, stem in ways(leads, (0, 0)).items():
        for letter, rejecting, after in leads[node]:
            if rejecting:
                back = ways(leads, after)
                if node in back:
                    return stem, [letter, *back[node]]
    return None


def all_fail(text):
    """Whether each controller fails on a loop, and the full bound. Each one that does not has an annotation within it."""
    question = plain.Question(text, STATES, 0)
    full = STATES * question.count
    negated = plain.letters(("!", question.formula), question.space)
    failing = True
    for steps in controllers(question):
        found = failing_loop(question, steps)
        annotated = plain.least_annotation(steps, question.count, question.edges, full) is not None
        assert annotated == (found is None), text
        assert annotated or holds(negated, *found), text
        failing = failing and not annotated
    return failing, full


def asked(text, *words):
    done = subprocess.run([PROGRAM, *words], input=text, capture_output=True, text=True)
    return done.returncode, done.stdout


def main():
    count = int(sys.argv[1]) if len(sys.argv) > 1 else 300
    source, none, within = random.Random(7), 0, 0
    for number in range(count):
        atoms = list(ATOMS.values())[number % len(ATOMS)]
        text = f"guarantee {{ {formula(source, atoms, 3)}; }} always guarantee {{ ({' || '.join(atoms)}) || true; }}\n"
        failing, full = all_fail(text)
        none += failing
        if sys.argv[2:] == ["plain"]:
            continue
        status, written = asked(text, "synth", "--states", str(STATES), "--bound", "full", "--rounds", "0")
        assert status == failing, text
        if failing:
            assert written == f"none\nstates {STATES}\nbound {full}\nreason rounds 0\nend\n", text
            continue
        assert plain.verdict(text, written, full) == "accepted", text
        if full <= 15:
            within += 1
            assert asked(text + written, "check", "--bound", str(full)) == (0, "accepted\n"), text
    print(f"{count} questions, {none} without a controller, {within} programs accepted by check")


main()
