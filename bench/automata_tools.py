#!/usr/bin/env python3
"""Checks the automata that `tsl automaton` writes, and what `tsl accepts` says of loops of letters, by a plain reader of HOA, by the
description of that format, and by a plain reading of linear temporal logic.

For random formulas and for the specifications of `examples/`, the text is read; its propositions are the tests and updates, and its states
and edges as many as in `plain.py`. On random loops, the plain reader, `accepts` and the truth of the formula's negation agree. The first
argument is on how many loops, 1,000 if there is none. With a second one, `plain`, the program is not asked: the plain automaton stands
in the place of what it writes."""
import random
import re
import subprocess
import sys

import plain
from loops import formula, holds
from measuring import HERE, PROGRAM

ATOMS = [["p x", "[y <- a()]", "[y <- b()]"], ["[y <- a()]", "[y <- b()]", "[y <- c()]"], ["p x", "q x", "[y <- a()]"], ["p y", "[y <- x]"]]
LOOPS_OF_ONE = 10
HAND = """HOA: v1
States: 2
Start: 0
AP: 0
acc-name: Buchi
Acceptance: 1 Inf(0)
--BODY--
State: 0
[t] 1 {0}
State: 1
[t] 1 {0}
--END--
"""


# ---- automata in the Hanoi form ----

class Hoa:
    """A Buchi automaton: its propositions, its first state, and of each state its edges (label, state, whether marked)."""

    def __init__(self, text):
        comment, string = r"/\*.*?\*/", r'"(?:[^"\\]|\\.)*"'
        word = rf"{comment}|{string}|--[A-Z]+--|[A-Za-z_@][A-Za-z0-9_-]*:?|[0-9]+|[\[\]{{}}()&|!]"
        found = re.findall(rf"\s+|{word}", text, re.DOTALL)
        assert "".join(found) == text, "a byte that begins no word"
        self.left = [w for w in found if not w.isspace() and not w.startswith("/*")]
        self.header()
        self.body()
        assert not self.left

    def take(self, wanted=None):
        word = self.left.pop(0)
        assert wanted is None or word == wanted, (wanted, word)
        return word

    def header(self):
        assert [self.take(), self.take()] == ["HOA:", "v1"]
        items = {}
        while self.left[0] != "--BODY--":
            name, values = self.take(), []
            while not self.left[0].endswith(":") and self.left[0] != "--BODY--":
                values.append(self.take())
            assert name.endswith(":") and (name not in items or name in ("Alias:", "Start:")), name
            items[name] = values
        assert items["Acceptance:"] == ["1", "Inf", "(", "0", ")"], "not a Buchi automaton"
        self.start = int(*items["Start:"])
        self.states = int(*items["States:"]) if "States:" in items else None
        self.propositions = [word[1:-1] for word in items["AP:"][1:]]
        assert int(items["AP:"][0]) == len(self.propositions)

    def body(self):
        self.take("--BODY--")
        self.edges = {}
        while self.left[0] != "--END--":
            self.take("State:")
            of_state = self.label() if self.left[0] == "[" else None
            state = int(self.take())
            assert state not in self.edges and (self.states is None or state < self.states)
            if self.left[0].startswith('"'):
                self.take()
            marked, edges = self.marks(), []
            while self.left[0] not in ("State:", "--END--"):
                label = self.label() if of_state is None else of_state
                to = int(self.take())
                edges.append((label, to, self.marks() or marked))
            self.edges[state] = edges
        self.take("--END--")

    def marks(self):
        marked = False
        if self.left[0] == "{":
            self.take()
            while self.left[0] != "}":
                marked = marked or self.take() == "0"
            self.take()
        return marked

    def label(self):
        self.take("[")
        label = self.some()
        self.take("]")
        return label

    def some(self):
        parts = [self.all()]
        while self.left[0] == "|":
            self.take()
            parts.append(self.all())
        return lambda letter: any(part(letter) for part in parts)

    def all(self):
        parts = [self.one()]
        while self.left[0] == "&":
            self.take()
            parts.append(self.one())
        return lambda letter: all(part(letter) for part in parts)

    def one(self):
        word = self.take()
        if word == "!":
            inner = self.one()
            return lambda letter: not inner(letter)
        if word == "(":
            inner = self.some()
            self.take(")")
            return inner
        if word in ("t", "f"):
            return lambda letter: word == "t"
        number = int(word)
        assert number < len(self.propositions)
        return lambda letter: letter[number]

    def accepts(self, stem, cycle):
        """Whether some path over the loop takes marked edges again and again: one of them lies on a cycle that is reached."""
        loop = stem + cycle
        after = [*range(1, len(loop)), len(stem)]
        leads = {}
        queue = [(0, self.start)]
        for node in queue:
            if node not in leads:
                place, state = node
                leads[node] = [((after[place], to), marked) for label, to, marked in self.edges.get(state, []) if label(loop[place])]
                queue += [other for other, _ in leads[node]]
        part = components(leads)
        return any(marked and part[node] == part[other] for node in leads for other, marked in leads[node])


def components(leads):
    """Of each node the strongly connected component, by two walks: along the edges, and back along them in the order of leaving."""
    left, seen = [], set()
    for start in leads:
        walk = [(start, iter(leads[start]))] if start not in seen else []
        seen.add(start)
        while walk:
            node, more = walk[-1]
            other = next((other for other, _ in more if other not in seen), None)
            if other is None:
                left.append(node)
                walk.pop()
            else:
                seen.add(other)
                walk.append((other, iter(leads[other])))
    back = {node: [] for node in leads}
    for node in leads:
        for other, _ in leads[node]:
            back[other].append(node)
    part = {}
    for start in reversed(left):
        queue = [start] if start not in part else []
        for node in queue:
            if node not in part:
                part[node] = start
                queue += [other for other in back[node] if other not in part]
    return part


# ---- what is compared ----

def hoa_text(space, count, edges):
    """The text of the formats: edges stand by the state that they start from."""
    def label(cube):
        return "&".join(("" if wanted else "!") + str(bit) for bit, wanted in sorted(cube)) or "t"
    names = [f'"{plain.atom_text(atom)}"' for atom, _ in sorted(space.bits.items(), key=lambda item: item[1])]
    lines = ["HOA: v1", f"States: {count}", "Start: 0", " ".join(["AP:", str(len(names)), *names]), "acc-name: Buchi",
             "Acceptance: 1 Inf(0)", "--BODY--"]
    for state in range(count):
        lines.append(f"State: {state}")
        lines += [f"[{label(cube)}] {to}" + (" {0}" if marked else "") for at, cube, to, marked in edges if at == state]
    return plain.text_of([*lines, "--END--"])


def letters_text(stem, cycle):
    lines = [" ".join(["letter", *(str(bit) for bit, truth in enumerate(letter) if truth)]) for letter in stem + cycle]
    return plain.text_of(["letters", *lines, f"back {len(stem)}"])


def asked(words, text):
    done = subprocess.run([PROGRAM, *words], input=text, capture_output=True, text=True)
    return done.returncode, done.stdout


def said(text, stem, cycle):
    status, answer = asked(["accepts"], text + letters_text(stem, cycle))
    assert (status, answer) in ((0, "accepted\n"), (1, "rejected\n")), (status, answer)
    return status == 0


def try_one(source, spec, loops, is_plain):
    """How many of the loops are accepted; the ways to say so agree on each."""
    lists = plain.Reader(spec).spec()
    whole, space = plain.whole_formula(lists), plain.Space(lists)
    negated = plain.letters(("!", whole), space)
    count, edges = plain.automaton(negated)
    status, text = (0, hoa_text(space, count, edges)) if is_plain else asked(["automaton"], spec)
    assert status == 0, spec
    hoa = Hoa(text)
    assert hoa.propositions == [plain.atom_text(atom) for atom, _ in sorted(space.bits.items(), key=lambda item: item[1])], spec
    assert (hoa.states, sum(map(len, hoa.edges.values()))) == (count, len(edges)), spec
    accepted = 0
    for _ in range(loops):
        likely = source.choice((0.2, 0.5, 0.8))
        letter = lambda: [source.random() < likely for _ in space.bits]
        stem, cycle = [letter() for _ in range(source.randrange(4))], [letter() for _ in range(source.randrange(1, 4))]
        answer = holds(negated, stem, cycle)
        assert hoa.accepts(stem, cycle) == answer, (spec, stem, cycle)
        assert is_plain or said(text, stem, cycle) == answer, (spec, stem, cycle)
        accepted += answer
    return accepted


def texts_by_hand():
    """Automata of a few lines, whose loops are plain."""
    empty, one = [[]], [[True]]
    assert Hoa(HAND).accepts([], empty) and not Hoa(HAND.replace(" {0}", "")).accepts([], empty)
    often = """HOA: v1 name: "again and again \\"a\\"" States: 2 Start: 0 AP: 1 "a" acc-name: Buchi Acceptance: 1 Inf(0) /* by states */
    --BODY-- State: 0 {0} [0] 0 [!0] 1 State: 1 "waits" [0 & (t | f)] 0 [!0] 1 --END--"""
    assert Hoa(often).accepts([[False]], [[False], [True]]) and Hoa(often).accepts([], one)
    assert not Hoa(often).accepts(one, [[False]])
    assert letters_text([[True, False, True]], [[False, False, False]]) == "letters\nletter 0 2\nletter\nback 1\n"


def main():
    wanted = int(sys.argv[1]) if len(sys.argv) > 1 else 1000
    is_plain = sys.argv[2:] == ["plain"]
    if not is_plain and not PROGRAM.exists():
        raise SystemExit("build the program first: ./tsl synth < examples/first/copy.tsl")
    texts_by_hand()
    if not is_plain:
        assert said(HAND, [], [[]]) and not said(HAND.replace(" {0}", ""), [], [[]])
    source, loops, accepted, formulas, examples = random.Random(5), 0, 0, 0, 0
    while loops < wanted:
        atoms = ATOMS[formulas % len(ATOMS)]
        spec = f"guarantee {{ {formula(source, atoms, 3)}; }} always guarantee {{ ({' || '.join(atoms)}) || true; }}\n"
        accepted += try_one(source, spec, LOOPS_OF_ONE, is_plain)
        loops += LOOPS_OF_ONE
        formulas += 1
    print(f"{formulas} formulas, {loops} loops, {accepted} accepted")
    loops = accepted = 0
    for path in sorted((HERE.parent / "examples").glob("*/*.tsl")):
        accepted += try_one(source, path.read_text(), LOOPS_OF_ONE, is_plain)
        loops += LOOPS_OF_ONE
        examples += 1
    print(f"{examples} examples, {loops} loops, {accepted} accepted")


if __name__ == "__main__":
    main()
