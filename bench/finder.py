#!/usr/bin/env python3
"""Times the search for spurious windows, by `tsl synth` on specifications that no controller meets, at vectors and depths that grow.
What the same run takes with no round, in which no window is looked for, is taken off. Then it reads the rounds of `synth` on random
specifications with equalities: each environment's window is one of the least length that all windows have, with all choices of what they
list, and nothing that it lists can be left out; and there is one where there is any. The first argument is how many specifications, 300 if
there is none. With the second one, `plain`, the program is left out, and random environments are searched by `rounds.py`, which begins
with all that can be listed on a path."""
import random
import subprocess
import sys

import plain
import rounds
from measuring import PROGRAM, built, measured
from windows import is_congruent, is_equality

SIZES = ["--states", "1", "--bound", "0", "--env-states", "2", "--env-bound", "2"]
SIGNALS = ["x", "y", "a", "b"]
UPDATED = ["a", "b"]
ROUNDS = 4
MOST_WINDOWS = 100_000  # from one state, by all choices of what they list


def choices(signal, terms):
    return " || ".join(f"[{signal} <- {term}]" for term in terms) + ";"


def specification(cells, outputs):
    """So many cells that keep themselves or copy the input, an output for each count, of so many terms, and an input that passes at
    every second step, so that an environment has states that differ. A test reads all cells, and stays as it is where they do."""
    lines = [choices(f"cell{i}", [f"cell{i}", "x"]) for i in range(cells)]
    lines += [choices(f"out{i}", [f"f{j} x" for j in range(count)]) for i, count in enumerate(outputs)]
    assumed = ["p x <-> X !p x;"]
    if cells:
        test = "p (h " + " ".join(f"cell{i}" for i in range(cells)) + ")"
        kept = " && ".join(f"[cell{i} <- cell{i}]" for i in range(cells))
        assumed.append(f"({kept}) -> ({test} <-> X {test});")
    return "always guarantee { %s } always assume { %s } guarantee { false; }" % (" ".join(lines), " ".join(assumed))


FAMILIES = [
    ("outputs of two terms", [(specification(0, [2] * n), 2**n, 2) for n in range(5, 11)]),
    ("two outputs", [(specification(0, [n, n + 3]), n * (n + 3), 3) for n in (3, 5, 8, 13)]),
    ("cells", [(specification(n, []), 2**n, 3) for n in range(3, 7)]),
    ("four cells and three outputs", [(specification(4, [2] * 3), 2**7, depth) for depth in (1, 2, 3)]),
]


def time_families(folder):
    for name, rows in FAMILIES:
        print(name)
        before = None
        for text, vectors, depth in rows:
            words = [PROGRAM, "synth", *SIZES, "--depth", str(depth)]
            whole, _, _ = measured(folder, text.encode(), [*words, "--rounds", "1"], ("1",))
            without, _, _ = measured(folder, text.encode(), [*words, "--rounds", "0"], ("1",))
            seconds = max(whole - without, 0)
            growth = f"{seconds / before:8.2f}" if before else " " * 8
            print(f"{vectors:6} vectors  depth {depth}  {vectors**depth:10} paths  {seconds:9.4f} s{growth}")
            before = seconds


def term():
    """A signal, or a function of it."""
    signal = ("signal", random.choice(SIGNALS))
    return signal if random.random() < 0.75 else ("apply", "f", (signal,))


def random_specification():
    """No controller meets it, since it guarantees what is false. Its assumptions say what an environment has to show: what is true at
    first, where most equalities are, and what is true later, mostly after an update."""
    equalities = [("test", "eq", (term(), term())) for _ in range(random.randint(1, 3))]
    others = [("test", random.choice("pq"), (term(),)) for _ in range(random.randint(1, 3))]
    updates = [("update", cell, term()) for cell in UPDATED for _ in range(random.randint(0, 2))]
    tests = [plain.atom_text(test) for test in equalities + others]
    named = tests + [plain.atom_text(update) for update in updates]

    def literal():
        return random.choice(["", "!"]) + random.choice(tests)
    first = [random.choice(["", "", "!"]) + test for test in tests]
    later = [f"{random.choice([literal(), random.choice(named)])} -> {random.choice(['', 'X ', 'X '])}{literal()}"
             for _ in range(random.randint(0, 4))]
    return (f"initially assume {{ {'; '.join(first)} }} always assume {{ {'; '.join(later)} }}"
            f" guarantee {{ {' && '.join(named)} && false; }}\n")


def depth_for(space):
    """The largest depth at which few windows are to be looked at."""
    def count(depth):
        listed = len(space.cells) * depth + sum(map(is_equality, space.tests)) * (depth + 1)
        return 2**listed * len(rounds.vectors_of(space))**depth * len(rounds.sides_of(space, depth))
    return max(depth for depth in range(3) if depth == 0 or count(depth) <= MOST_WINDOWS)


def has_window(space, environment, length):
    """Whether any window of the length is congruent and spurious: all of them are looked at."""
    return any(map(is_congruent, rounds.spurious_windows(space, environment, space.cells, length)))


def is_right(space, environment, window, depth):
    """The window is one of the least length, and nothing that it lists can be left out; or there is none up to the depth."""
    if any(has_window(space, environment, length) for length in range(depth + 1 if window is None else window.length)):
        return False
    return window is None or (window.length <= depth and rounds.is_needed(window, space.cells)
                              and rounds.is_spurious(space, environment, window))


def rounds_of(text, space, depth):
    """The environments that `synth` tells, each with its window, or with None where it says that there is none."""
    words = ["synth", "--states", "1", "--bound", "0", "--depth", str(depth), "--rounds", str(ROUNDS)]
    written = subprocess.run([PROGRAM, *words], input=text, capture_output=True, text=True).stdout
    if not written.startswith("none\n"):
        return []
    lines = written.splitlines()[3:]
    made = rounds.rounds_in(space, lines)
    return made + [(rounds.environment_in(space, lines[1:]), None)] if lines[0] == "reason genuine" else made


def random_round(space, depth):
    """A random environment with the window that the plain search finds."""
    states, vectors = random.randint(1, 3), len(rounds.vectors_of(space))
    truths = [{test for test in space.tests if random.random() < 0.5} for _ in range(states)]
    after = [[random.randrange(states) for _ in range(vectors)] for _ in range(states)]
    environment = rounds.Environment(truths, after)
    return [(environment, rounds.find_window(space, environment, space.cells, depth))]


def compare(count, asks):
    random.seed(1)
    told = {"with equalities": 0, "without a left test": 0, "without both": 0, "times none": 0}
    for _ in range(count):
        text = random_specification()
        _, space = rounds.spec_of(text)
        depth = depth_for(space)
        for environment, window in rounds_of(text, space, depth) if asks else random_round(space, depth):
            if not is_right(space, environment, window, depth):
                shown = "none" if window is None else plain.window_text(window)
                raise SystemExit("\n".join([text, *environment.lines(space), f"depth {depth}: {shown}, but all windows say otherwise"]))
            kind = ("times none" if window is None else "without a left test" if window.left is None
                    else "with equalities" if window.equalities else "without both")
            told[kind] += 1
    print(f"{count} specifications, windows as all windows have them: " + ", ".join(f"{number} {kind}" for kind, number in told.items()))


def main():
    count = int(sys.argv[1]) if len(sys.argv) > 1 else 300
    if sys.argv[2:] != ["plain"]:
        with built() as folder:
            time_families(folder)
    compare(count, sys.argv[2:] != ["plain"])


if __name__ == "__main__":
    main()
