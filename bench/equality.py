#!/usr/bin/env python3
"""Asks `tsl check` of random windows with updates and equalities whether they are congruent, beside the plain reading in `windows.py`: no
answer differs. `check` names the first window that is refused, so a text has windows that are congruent and then one that is not.
Windows that break a rule of their form are asked one by one, and are a fault at their line. The first argument is how many windows are
asked, 100,000 if there is none. With the second one, `plain`, the program is not asked, and the plain reading is tried on random
values."""
import concurrent.futures
import os
import random
import subprocess
import sys
import time

import plain
from measuring import PROGRAM
from windows import Window, asked_pairs, is_congruent, is_equality, is_shaped, needed

MOST_WINDOWS = 64  # in a program
OF_A_WORLD = 500  # windows over one specification
BROKEN = 10  # of them are also asked with a rule of their form broken
SIGNALS = ["x", "y", "a", "b", "c"]
UPDATED = ["a", "b", "c"]
FUNCTIONS = {"f": 1, "g": 2, "k": 0}


def term(depth):
    """A random term, of at most so many functions one in another."""
    if depth == 0 or random.random() < 0.4:
        return ("signal", random.choice(SIGNALS))
    name = random.choice(list(FUNCTIONS))
    return ("apply", name, tuple(term(depth - 1) for _ in range(FUNCTIONS[name])))


class World:
    """A specification that names random tests, most of them equalities, and random updates; and the head and end of a program of its
    signals. The tests `p x` and `p y` are among them, so that one window is never congruent."""

    def __init__(self):
        pool = [("signal", s) for s in SIGNALS] + [term(3) for _ in range(5)]
        tests = [("test", "p", (("signal", s),)) for s in ("x", "y")]
        while len(tests) < 10:
            name = random.choice(["eq", "eq", "eq", "p", "q"])
            tests.append(("test", name, tuple(random.choices(pool, k=1 if name == "p" else 2))))
        updates = [("update", cell, random.choice(pool)) for cell in UPDATED for _ in range(3)]
        self.spec = "guarantee { " + " || ".join(map(plain.atom_text, tests + updates)) + "; }\n"
        self.space = plain.Space(plain.Reader(self.spec).spec())
        self.cells, self.tests = self.space.cells, self.space.tests
        self.equalities = [test for test in self.tests if is_equality(test)]
        declared = (("input", self.space.inputs), ("cell", self.cells), ("output", self.space.outputs))
        self.head = ["tslprogram 1", *(f"{word} {name}" for word, names in declared for name in names)]
        picked = (plain.atom_text(("update", s, self.space.choices[s][0])) for s in self.space.controlled)
        self.end = [" ".join(["node 0 set", *picked, "go 0"]), "state 0 at 0", "end"]

    def window(self):
        """A random window that is shaped."""
        length, often = random.randrange(4), random.choice([0, 0.1, 0.3, 0.6])
        updates = [(("update", cell, random.choice(self.space.choices[cell])), at) for at in range(length) for cell in self.cells
                   if random.random() < 0.6]
        equalities = [(test, at) for at in range(length + 1) for test in random.sample(self.equalities, len(self.equalities))
                      if random.random() < often]
        if self.equalities and random.random() < 0.4:
            return Window(None, 0, random.choice(self.equalities), length, tuple(updates), tuple(equalities))
        left = random.choice(self.tests)
        right = random.choice([test for test in self.tests if test[1] == left[1]])
        return Window(left, random.randint(0, length), right, length, tuple(updates), tuple(equalities))

    def windows(self, count):
        """So many random windows; a congruent one is followed by what of it is needed, and by that without one thing that it lists."""
        found = []
        while len(found) < count:
            found.append(self.window())
            if is_congruent(found[-1]):
                found.append(needed(found[-1]))
                found.append(without_one(found[-1]))
        return found[:count]

    def broken(self, window):
        """The window with one rule of its form broken."""
        p, at_end = self.tests[0], window.length
        test = window.equalities[0] if window.equalities else (p, at_end)
        update = ("update", (self.cells or self.space.inputs)[0], p[2][0])
        return random.choice([
            window._replace(length=4),
            window._replace(left=p, left_at=at_end + 1),
            window._replace(left=None, left_at=0, right=p),
            window._replace(updates=(*window.updates, (update, at_end))),
            window._replace(updates=((update, 0), (update, 0)), length=3),
            window._replace(updates=((("update", "x", p[2][0]), 0),), length=max(1, at_end)),
            window._replace(equalities=(*window.equalities, (p, at_end))),
            window._replace(equalities=(*window.equalities, (test[0], at_end + 1))),
            window._replace(equalities=(test, test)),
            window._replace(equalities=((test[0], 1), (test[0], 0)), length=max(1, at_end)),
        ])

    def text(self, windows):
        return self.spec + plain.text_of([*self.head, *map(plain.window_text, windows), *self.end])


def without_one(window):
    """The window without a random update or equality, where it lists any."""
    listed = window.updates + window.equalities
    lost = random.choice(listed) if listed else None
    left = {kind: tuple(member for member in getattr(window, kind) if member != lost) for kind in ("updates", "equalities")}
    return window._replace(**left)


def values_agree(window):
    """On random values, where the listed equalities are true the sides are as each other."""
    values = {}

    def value(free):
        inner = tuple(value(part) for part in free[2]) if free[0] == "apply" else free[2]
        return values.setdefault((free[1], inner), random.randrange(2))
    asked, joined = asked_pairs(window)
    return any(value(a) != value(b) for a, b in joined) or all(value(a) == value(b) for a, b in asked)


def questions(world, windows):
    """The texts that are to be asked of these windows, each with the answer by the plain reading."""
    congruent = [w for w in windows if is_congruent(w)]
    refused = [w for w in windows if not is_congruent(w)]
    never = Window(world.tests[0], 0, world.tests[1], 0, ())
    while refused or congruent:
        last = refused.pop() if refused else never
        before, congruent = congruent[:MOST_WINDOWS - 1], congruent[MOST_WINDOWS - 1:]
        yield world.text([*before, last]), f"refused window {len(before)}"
    for window in windows[:BROKEN]:
        broken = world.broken(window)
        if not is_shaped(broken, world.cells):
            yield world.text([window, broken]), f"fault program {len(world.head) + 2} window"


def answer(question):
    """The line that the program says of a text where it is not the expected one."""
    text, expected = question
    done = subprocess.run([PROGRAM, "check"], input=text, capture_output=True, text=True)
    said = (done.stdout + done.stderr).strip()
    return None if said == expected else (text, said, expected)


def main():
    count = int(sys.argv[1]) if len(sys.argv) > 1 else 100_000
    asks = sys.argv[2:] != ["plain"]
    if asks and not PROGRAM.exists():
        raise SystemExit("build the program first: ./tsl synth < examples/first/copy.tsl")
    random.seed(1)
    started, left, texts = time.time(), count, 0
    told = {"congruent": 0, "only by their equalities": 0, "without a left test": 0, "broken": 0}
    with concurrent.futures.ThreadPoolExecutor(os.cpu_count()) as pool:
        while left:
            world = World()
            windows = world.windows(min(left, OF_A_WORLD))
            left -= len(windows)
            assert all(is_shaped(w, world.cells) for w in windows)
            congruent = [w for w in windows if is_congruent(w)]
            bare = [w for w in congruent if w.left is not None and is_congruent(w._replace(equalities=()))]
            told["congruent"] += len(congruent)
            told["only by their equalities"] += len(congruent) - len(bare)
            told["without a left test"] += sum(w.left is None for w in congruent)
            asked = list(questions(world, windows))
            texts += len(asked)
            told["broken"] += sum(line.startswith("fault") for _, line in asked)
            if not asks:
                assert all(values_agree(w) for w in congruent for _ in range(10))
                continue
            for text, said, expected in filter(None, pool.map(answer, asked)):
                raise SystemExit(f"{text}\nsays: {said}\nexpected: {expected}")
    answered = "no difference" if asks else "the program was not asked"
    print(f"{count} windows in {texts} texts, {time.time() - started:.0f} seconds: {answered}; "
          + ", ".join(f"{number} {what}" for what, number in told.items()))


if __name__ == "__main__":
    main()
