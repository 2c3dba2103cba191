"""A plain reading of the rounds of `synth`, as `plain.py` is one of the rest: environments, the question for one, spurious windows,
and the texts of a search, which are read as well as written. A predicate term's truth in a state is a member of a set of terms."""
import itertools

import plain
from windows import Window, is_congruent, is_equality, is_shaped, needed, tests_of, under_windows

MOST_BRANCHES = 10_000_000


def vectors_of(space):
    """Each choice of all controlled signals, as updates; the first signal is the most significant."""
    return [tuple(("update", s, t) for s, t in zip(space.controlled, terms))
            for terms in itertools.product(*(space.choices[s] for s in space.controlled))]


class Environment:
    """What is true in each state, and for each state and vector the state to go to."""

    def __init__(self, truths, after):
        self.truths, self.after, self.states = truths, after, len(truths)

    def visited(self):
        """The states that it may be in."""
        found = [0]
        for state in found:
            found += plain.distinct(t for t in self.after[state] if t not in found)
        return found

    def steps(self, space):
        """For each state its letters with the states that they go to."""
        vectors = vectors_of(space)

        def letter(state, vector):
            return {bit: atom in (vector if atom[0] == "update" else self.truths[state]) for atom, bit in space.bits.items()}
        return [[(letter(state, vector), after) for vector, after in zip(vectors, self.after[state])] for state in range(self.states)]

    def has_annotation(self, space, automaton, bound):
        return plain.least_annotation(self.steps(space), *automaton, bound) is not None

    def lines(self, space):
        return [f"environment {self.states}",
                *(f"test {i} {plain.atom_text(test)}" for i, test in enumerate(space.tests)),
                *(f"vector {v}" + "".join(f" {plain.atom_text(u)}" for u in vector) for v, vector in enumerate(vectors_of(space))),
                *(f"state {s} truths" + "".join(f" {int(test in self.truths[s])}" for test in space.tests)
                  + " to" + "".join(f" {t}" for t in self.after[s]) for s in range(self.states))]


def spec_of(text):
    lists = plain.Reader(text).spec()
    return plain.whole_formula(lists), plain.Space(lists)


# ---- the question for an environment ----

class EnvironmentQuestion:
    """Is there an environment with so many states that has an annotation within a bound, on the automaton of the formula itself?"""

    def __init__(self, formula, space, states, bound, windows=()):
        self.space, self.states, self.bound = space, states, bound
        self.automaton = plain.automaton(plain.letters(under_windows(windows, formula), space))
        self.count, self.edges = self.automaton
        self.vectors = vectors_of(space)
        numbers = itertools.count(1)
        self.true = {(s, bit): next(numbers) for s in range(states) for bit in range(len(space.tests))}
        self.after = {(s, u, t): next(numbers) for s in range(states) for u in range(len(self.vectors)) for t in range(states)}
        self.least = {(s, q, i): next(numbers) for s in range(states) for q in range(self.count) for i in range(bound + 1)}
        self.variables = next(numbers) - 1

    def demands(self):
        for s, u in itertools.product(range(self.states), range(len(self.vectors))):
            yield from plain.exactly_one([self.after[s, u, t] for t in range(self.states)])
        yield [self.least[0, 0, 0]]
        for s, q, i in self.least:
            if i > 0:
                yield [-self.least[s, q, i], self.least[s, q, i - 1]]
        tests = len(self.space.tests)
        picked = [{self.space.bits[update] for update in vector} for vector in self.vectors]
        for s in range(self.states):
            for q, cube, p, rejecting in self.edges:
                asked = [-self.true[s, bit] if wanted else self.true[s, bit] for bit, wanted in sorted(cube) if bit < tests]
                for u, bits in enumerate(picked):
                    if all((bit in bits) == wanted for bit, wanted in cube if bit >= tests):
                        for t, i in itertools.product(range(self.states), range(self.bound + 1)):
                            then = [self.least[t, p, i + rejecting]] if i + rejecting <= self.bound else []
                            yield [-self.least[s, q, i], -self.after[s, u, t], *asked, *then]

    def clauses(self):
        return [sorted(set(c)) for c in self.demands() if not any(-literal in c for literal in c)]

    def decoded(self, trues):
        truths = [{test for bit, test in enumerate(self.space.tests) if self.true[s, bit] in trues} for s in range(self.states)]
        after = [[next(t for t in range(self.states) if self.after[s, u, t] in trues) for u in range(len(self.vectors))]
                 for s in range(self.states)]
        return Environment(truths, after)


# ---- spurious windows ----

def runs_of(space, environment, length):
    """Each path of so many vectors from a state that may be visited, with the states along it."""
    for path in itertools.product(range(len(vectors_of(space))), repeat=length):
        for state in environment.visited():
            states = [state]
            for v in path:
                states.append(environment.after[states[-1]][v])
            yield path, states


def sides_differ(environment, window, states):
    """Its truths in the states of a path tell its two tests apart; or without a left test the right one is false."""
    left = window.left is None or window.left in environment.truths[states[window.left_at]]
    return left != (window.right in environment.truths[states[-1]])


def is_spurious(space, environment, window):
    """Whether some path from a state that may be visited has the listed updates and equalities, and its sides differ there."""
    if any(test not in space.bits for test in tests_of(window)):
        return False
    vectors = vectors_of(space)
    return any(all(update in vectors[path[at]] for update, at in window.updates)
               and all(test in environment.truths[states[at]] for test, at in window.equalities)
               and sides_differ(environment, window, states)
               for path, states in runs_of(space, environment, window.length))


def is_needed(window, cells):
    """It is as a found window is: congruent, with nothing listed that can be left out, and shaped as those of programs."""
    return is_congruent(window) and needed(window) == window and is_shaped(window, cells)


def is_over_branches(space, depth):
    return len(space.tests) ** 2 * len(vectors_of(space)) ** depth > MOST_BRANCHES


def sides_of(space, length):
    """The left test or None, its step, and the right test, of each window of a length: tests of one predicate, or one equality."""
    pairs = [(left, at, right) for at in range(length + 1) for left in space.tests for right in space.tests if left[1] == right[1]]
    return pairs + [(None, 0, test) for test in space.tests if is_equality(test)]


def lists_along(space, environment, cells, length):
    """For each path: all updates of cells on it, all equalities that are true there, and its states."""
    vectors = vectors_of(space)
    for path, states in runs_of(space, environment, length):
        updates = tuple((u, at) for at, v in enumerate(path) for cell in cells for u in vectors[v] if u[1] == cell)
        equalities = tuple((test, at) for at, state in enumerate(states) for test in space.tests
                           if is_equality(test) and test in environment.truths[state])
        yield updates, equalities, states


def find_window(space, environment, cells, depth):
    """A congruent spurious window of the least length, with nothing listed that can be left out; None where there is none up to the
    depth. It begins with all that can be listed on a path: what lists more stays congruent."""
    for length in range(depth + 1):
        congruent = {}
        for updates, equalities, states in lists_along(space, environment, cells, length):
            if (updates, equalities) not in congruent:
                windows = [Window(*sides, length, updates, equalities) for sides in sides_of(space, length)]
                congruent[updates, equalities] = [window for window in windows if is_congruent(window)]
            for window in congruent[updates, equalities]:
                if sides_differ(environment, window, states):
                    return needed(window)
    return None


def some_of(members):
    """Each choice of some of these, also none and all of them."""
    return [tuple(itertools.compress(members, kept)) for kept in itertools.product((0, 1), repeat=len(members))]


def spurious_windows(space, environment, cells, length):
    """All windows of a length that are spurious, whether congruent or not: on some path they list some of the updates of cells and
    some of the equalities that are true there, and their sides differ."""
    found = set()
    for updates, equalities, states in lists_along(space, environment, cells, length):
        windows = (Window(*sides, length) for sides in sides_of(space, length))
        differing = [window for window in windows if sides_differ(environment, window, states)]
        found.update(window._replace(updates=fewer_updates, equalities=fewer_equalities)
                     for fewer_updates in some_of(updates) for fewer_equalities in some_of(equalities) for window in differing)
    return found


# ---- texts of a search ----

def round_lines(space, rounds):
    return [line for i, (environment, window) in enumerate(rounds)
            for line in (f"round {i}", *environment.lines(space), plain.window_text(window))]


def none_text(space, states, bound, rounds, reason):
    """`reason` is the line, or an environment that is genuine."""
    last = ["reason genuine", *reason.lines(space)] if isinstance(reason, Environment) else [reason]
    return plain.text_of(["none", f"states {states}", f"bound {bound}", *round_lines(space, rounds), *last, "end"])


def spent_text(space, side, sizes, rounds, automaton, learnt):
    count, edges = automaton
    shown = [f"edge {q} {p} {int(rejecting)} " + plain.line_of((b + 1 if wanted else -b - 1) for b, wanted in sorted(cube))
             for q, cube, p, rejecting in edges]
    return plain.text_of([f"spent {side}", "sizes {} {}".format(*sizes), *round_lines(space, rounds), f"automaton {count}", *shown,
                          *(f"clause {plain.line_of(clause)}" for clause in learnt), "end"])


def environment_in(space, lines):
    """The environment that is told by the first of these lines, which are taken off."""
    count = int(lines.pop(0).split()[1])
    del lines[:len(space.tests) + len(vectors_of(space))]
    truths, after = [], []
    for _ in range(count):
        bits, successors = lines.pop(0).split(" truths", 1)[1].split(" to")
        truths.append({test for test, bit in zip(space.tests, bits.split()) if bit == "1"})
        after.append([int(t) for t in successors.split()])
    return Environment(truths, after)


def rounds_in(space, lines):
    """The rounds that are told by the first of these lines, which are taken off."""
    rounds = []
    while lines[0] == f"round {len(rounds)}":
        lines.pop(0)
        environment = environment_in(space, lines)
        rounds.append((environment, plain.window_in(lines.pop(0))))
    return rounds
