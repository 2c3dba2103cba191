#!/usr/bin/env python3
"""Times the program just below and just above each of its limits, at sizes that double up to them, and on families that were slow within
them. Each answer at the largest size below, and each fault just above, has to be the one that is named here. Last come the families that
took too long or too much memory. The first argument is the most seconds of a run, 60 if there is none; parts of titles may follow, and then
only the families whose titles have one of them are run."""
import math
import sys
from typing import Callable, NamedTuple

from crossing import crossing
from finder import specification
from judge import text_of as judged
from measuring import PROGRAM, SOLVER, built
from run import long_inputs, long_program, long_run, long_tables
from solver import measured

CLEAR = 0.03  # seconds; a shorter time is lost in the noise of starting a process
MOST_SECONDS, MOST_KIB = 5, 400 * 1024
MOST_OF_TEXT, MOST_A_BYTE = 20, 5  # seconds of `recheck`, and bytes for a byte of text
LEAST_KIB = 4 * 1024  # what a process takes with any text
FAULTS = ("large", "fault", "usage")
SHOWN = 'exec "$0" "$@" > %s 2>&1'


class Family(NamedTuple):
    """Texts of rising sizes up to a limit, and words, where `#` stands for the size. A line of the answer at the last one begins with
    `said`. The text of size `above` is over the limit, where there is one, and its answer is `refused`. `amount` is what a size counts,
    for the growth at each doubling."""
    title: str
    words: list
    text: Callable
    sizes: list
    said: str
    above: int | None = None
    refused: str = ""
    amount: Callable = float


def doubling(most, halvings=3):
    return [most >> k for k in range(halvings, -1, -1)]


def rising(most, count=4):
    return list(range(most - count + 1, most + 1))


def two_to(size):
    return 2.0**size


def joined(between, form, count):
    return between.join(form.replace("#", str(i)) for i in range(count))


# ---- texts: bytes, levels, nodes, tests and updates ----

SPEC = "always guarantee { [y <- x]; }\n"
COPY = "tslprogram 1\ninput x\noutput y\nnode 0 set [y <- x] go 0\nstate 0 at 0\nend\n"
TABLES = "tsltables 1\ndomain 2\ntslinputs 1\ninput x\nstem cycle row 0\n"


def padded(text):
    """A text behind as many blanks as fill a size."""
    return lambda size: b" " * (size - len(text)) + text.encode()


def levels(size):
    return f"guarantee {{ {'X ' * size}[y <- a()]; }}"


def nodes(size):
    """The conjunction, two nodes for each of ten names again and again, and one for each `true`."""
    names = "".join(f"a{i % 10}; " for i in range((size - 2) // 2))
    return "guarantee { " + names + "true; " * (1 + size % 2) + "}"


def predicates(size):
    return f"always guarantee {{ {joined(' && ', 'p# x', size)} -> X [y <- f x]; }}"


def bits(size):
    return f"always guarantee {{ {joined(' ', '[o# <- t()];', size)} }}"


# ---- texts: choices, states, edges, clauses, branches ----

PAIRS = "([a# <- x#] || ([b# <- y#] && [c# <- z#]))"


def negated(size):
    return f"guarantee {{ !({joined(' && ', PAIRS, size)}); }}"


def due(size):
    """Each set of steps at which an update is due is a state of the negation's automaton."""
    return f"(p x -> {'X ' * size}[w <- a()])"


def delayed(size):
    return f"guarantee {{ !G {due(size)}; }}"


def repeated(size):
    """Choices that each of so many states has to compare, and that one test makes needless."""
    many = joined(" && ", PAIRS, 14)
    return f"guarantee {{ !G ((!q x || ({many})) && !q x && {due(size)}); }}"


def fan(size):
    """2,048 states, each with twice as many edges."""
    return f"guarantee {{ !G ({due(11)} && ({joined(' || ', '[o# <- t()]', size)})); }}"


def arbiter(size):
    return f"always guarantee {{ {joined(' ', 'r x# -> F [g <- t#()];', size)} }}"


def chains(size):
    return f"guarantee {{ {joined(' ', 'X ' * 190 + '[u# <- f()];', size)} }}"


def terms(size):
    """Ten predicate terms, and an output of so many terms of which no two are taken at once."""
    return f"guarantee {{ {joined(' || ', 'p# x', 10)}; }} always guarantee {{ {joined(' || ', '[y <- t#()]', size)}; }}"


def clauses_of(size):
    """Those for three states that choose and go on: by far the most."""
    return 3 * 1024 * (1 + size * (size - 1) / 2 + 4)


def paths(size):
    return specification(0, [size, size + 3])


def cells_in_tests(size):
    """So many cells that keep themselves or copy the input, of which a test reads one. An input that passes at every second step passes in
    the cell that copies it, as long as it is kept: an environment that keeps to that is told apart by no window, and has a truth of its own
    at each step."""
    cells = " ".join(f"[cell{i} <- cell{i}] || [cell{i} <- x];" for i in range(size))
    kept = "p x <-> X !p x; [cell0 <- x] -> (p x <-> X p cell0); [cell0 <- cell0] -> (p cell0 <-> X p cell0);"
    return f"always guarantee {{ {cells} }} always assume {{ {kept} }} guarantee {{ false; }}"


def late_choices(size):
    """Ten tests, and fourteen steps before a negated conjunction of so many disjunctions of three updates at each step; with a program."""
    updates = " && ".join("(" + joined(" || ", f"[o{i}# <- t()]", 3) + ")" for i in range(size))
    spec = f"guarantee {{ {joined(' || ', 'p# x', 10)}; {'X ' * 14}G !({updates}); }}\n"
    names = [f"o{i}{k}" for i in range(size) for k in range(3)]
    lines = ["tslprogram 1", "input x", *[f"output {name}" for name in names]]
    return spec + "\n".join([*lines, "node 0 set" + "".join(f" [{name} <- t()]" for name in names) + " go 0", "state 0 at 0", "end", ""])


# ---- texts: programs, tables, inputs, runs ----

def windows(size):
    spec = "guarantee { p x || !p x; }\n"
    program = "tslprogram 1\ninput x\n" + "window p x at 0 is p x at 0\n" * size + "node 0 set go 0\nstate 0 at 0\nend\n"
    return spec + program + "tsltables 1\ndomain 2\npred p 0 1\n" + "tslinputs 1\ninput x\nstem cycle row 0\n"


def entries(size):
    """A table of two arguments, or of three where it is to have more entries than are allowed."""
    return long_tables(size) if size <= 65_536 else long_tables(41**2).replace(b"f x x]", b"f x x x]")


def domain(size):
    return long_tables(size**2)


def configurations(size):
    """Where there are to be more than are allowed, each comes with three rows."""
    return long_run(size) if size <= 65_536 else long_run(65_536).replace(b"cycle row", b"cycle row row row")


def positions(size):
    return judged("untils", 48, size)


# ---- texts: automata and letters, formulas and logs ----

def loop_text(states, each, propositions, letters):
    """From each state edges to so many next ones."""
    names = "".join(f' "p{i} x"' for i in range(propositions))
    head = ["HOA: v1", f"States: {states}", "Start: 0", f"AP: {propositions}{names}", "acc-name: Buchi", "Acceptance: 1 Inf(0)", "--BODY--"]
    edges = [line for q in range(states) for line in [f"State: {q}", *[f"[t] {(q + k) % states}" for k in range(each)]]]
    return "\n".join([*head, *edges, "--END--", "letters", *["letter"] * letters, "back 0", ""])


def many_letters(size):
    """A proposition's name takes what is left of the size."""
    count = (size - 1000) // len("letter\n")
    text = loop_text(1, 1, 1, count)
    return text.replace("p0 x", "p0" + " " * (size - len(text) + 1) + "x")


def equal_chain(size):
    """The first of some variables holds, each is equal to the next one, and the last does not hold: an even number of clauses."""
    last = size // 2
    there = "".join(f"-{i} {i + 1} 0\n" for i in range(1, last))
    back = "".join(f"{i} -{i + 1} 0\n" for i in range(1, last))
    return f"p cnf {last} {2 * last}\n1 0\n{there}{back}-{last} 0\n"


def chain_refuted(size):
    """One step goes along the chain."""
    hints = " ".join(map(str, range(1, size // 2 + 1)))
    return f"{equal_chain(size)}lrat\n{size + 1} 0 {hints} {size} 0\n"


def implications(size):
    """Each variable implies the next one: as many clauses as variables, but one."""
    return f"p cnf {size} {size - 1}\n".encode() + "".join(f"-{i} {i + 1} 0\n" for i in range(1, size)).encode()


def long_formula(size):
    """A comment that fills the size, 500 units, and the clause of their variables again and again."""
    line = (" ".join(map(str, range(1, 501))) + " 0\n").encode()
    facts = "".join(f"-{i} 0\n" for i in range(1, 501)).encode()
    count = (size - 10_000) // len(line)
    body = f"p cnf 500 {count + 500}\n".encode() + facts + line * count
    return b"c" + b" " * (size - len(body) - 2) + b"\n" + body


def refuted(size):
    """The same with the one step that refutes it."""
    hints = " ".join(map(str, range(1, 502)))
    step = f"lrat\n1048577 0 {hints} 0\n".encode()
    return long_formula(size - len(step)) + step


SYNTH, AUTOMATON, CHECK, RUN = ([PROGRAM, word] for word in ("synth", "automaton", "check", "run"))
ACCEPTS, RECHECK, SOLVE = [PROGRAM, "accepts"], [PROGRAM, "recheck"], [SOLVER]
FIRST = [*SYNTH, "--rounds", "0"]
LIMITS = [
    Family("bytes of synth", SYNTH, padded(SPEC), doubling(2**20), "tslprogram 1", 2**20 + 1, "large text 1048576"),
    Family("bytes of check", CHECK, padded(SPEC + COPY), doubling(2**24), "accepted", 2**24 + 1, "large text 16777216"),
    Family("bytes of run", RUN, padded(SPEC + COPY + TABLES), doubling(2**24), "formula holds", 2**24 + 1, "large text 16777216"),
    Family("bytes of recheck", RECHECK, refuted, doubling(2**28), "verified", 2**28 + 1, "large text 268435456"),
    Family("bytes of solve", SOLVE, long_formula, doubling(2**28), "s UNSAT", 2**28 + 1, "large text 268435456"),
    Family("levels", AUTOMATON, levels, doubling(200), "HOA: v1", 201, "fault spec 1:413 deep"),
    Family("nodes", SYNTH, nodes, doubling(10_000), "none", 10_001, "large nodes 10000"),
    Family("predicates, 8 states", [*SYNTH, "--states", "8"], predicates, rising(10), "tslprogram 1", 11, "large predicates 10", two_to),
    Family("bits", SYNTH, bits, doubling(64), "tslprogram 1", 65, "large bits 64"),
    Family("choices", SYNTH, negated, rising(16), "none", 17, "large choices 65536", two_to),
    Family("states", AUTOMATON, delayed, rising(12), "States: 4096", 13, "large states 4096", two_to),
    Family("edges", AUTOMATON, fan, doubling(48), "States: 2048", 49, "large edges 200000"),
    Family("clauses, 3 states", [*FIRST, "--states", "3"], terms, [9, 18, 25, 35], "none", 36, "large clauses 2000000", clauses_of),
    Family("vectors", SYNTH, lambda n: specification(0, [2] * n), rising(10, 6), "none", 11, "large vectors 1024", two_to),
    Family("branches, depth 3", [*SYNTH, "--depth", "3"], paths, [7, 9, 11, 13], "none", 14, "large branches 10000000",
           lambda n: (n * (n + 3.0)) ** 3),
    Family("branches where a test reads all cells, depth 3", [*SYNTH, "--depth", "3"], lambda n: specification(n, []), rising(7), "none", 8,
           "large branches 10000000", lambda n: 8.0**n),
    Family("branches where a test reads one cell, depth 3", [*SYNTH, "--depth", "3", "--env-states", "4", "--env-bound", "4"], cells_in_tests,
           rising(7), "reason genuine", 8, "large branches 10000000", lambda n: 8.0**n),
    Family("nodes of a program", RUN, long_program, doubling(2**16), "loop", 2**16 + 1, "large program-nodes 65536"),
    Family("states of a program", [*CHECK, "--bound", "15"], crossing, doubling(64), "accepted", 65, "large program-states 64"),
    Family("windows", RUN, windows, doubling(64), "formula holds", 65, "large windows 64"),
    Family("domain", RUN, domain, doubling(256), "loop", 257, "large domain 256"),
    Family("entries", RUN, entries, doubling(2**16), "loop", 2**16 + 1, "large entries 65536"),
    Family("rows", RUN, long_inputs, doubling(2**16), "loop", 2**16 + 1, "large rows 65536"),
    Family("configurations", RUN, configurations, doubling(2**16), "loop 0 65536", 2**16 + 1, "large run 65536"),
    Family("nodes and positions", RUN, positions, doubling(2**16), "formula"),
    Family("nodes at 65,536 positions", RUN, lambda n: judged("atoms", n, 65_536), doubling(48), "formula"),
    Family("bytes of accepts", ACCEPTS, many_letters, doubling(2**24), "rejected", 2**24 + 1, "large text 16777216"),
    Family("states of accepts", ACCEPTS, lambda n: loop_text(n, 1, 1, 1), doubling(4096), "rejected", 4097, "large states 4096"),
    Family("edges of accepts", ACCEPTS, lambda n: loop_text(400, n, 1, 1), doubling(500), "rejected", 501, "large edges 200000"),
    Family("bits of accepts", ACCEPTS, lambda n: loop_text(8, 8, n, 1), doubling(64), "rejected", 65, "large bits 64"),
    Family("letters of accepts", ACCEPTS, lambda n: loop_text(4096, 2, 1, n), doubling(2**13), "rejected"),
    Family("variables of solve", SOLVE, implications, doubling(2**20), "s SATIS", 2**20 + 1, "large variables 1048576"),
    Family("clauses of recheck", RECHECK, chain_refuted, doubling(2_000_000), "verified", 2_000_002, "large clauses 2000000"),
    Family("clauses of solve", SOLVE, equal_chain, doubling(2_000_000), "s UNSAT", 2_000_002, "large clauses 2000000"),
]

SLOW = [
    Family("ten tests, late choices", [*CHECK, "--bound", "15"], late_choices, rising(10, 6), "refused bound 15", amount=lambda n: 3.0**n),
    Family("arbiters", SYNTH, arbiter, rising(6), "none", 7, "large edges 200000", lambda n: 6.0**n),
    Family("arbiters of seven to nine", SYNTH, arbiter, [7, 8, 9], "large edges 200000", amount=lambda n: 6.0**n),
    Family("arbiter of ten", SYNTH, arbiter, [10], "large choices 65536"),
    Family("choices of repeated states", AUTOMATON, repeated, rising(12), "States: 4096", amount=two_to),
    Family("budget", [*FIRST, "--states", "6", "--bound", "6", "--budget", "#"], lambda _: arbiter(7), doubling(20_000), "spent"),
    Family("chains of 190", SYNTH, chains, [3, 5, 10, 20], "none", 50, "large states 4096"),
]


# ---- runs ----

class Runs:
    """Runs of families. What took too long, too much memory, or gave another answer is kept."""

    def __init__(self, folder, seconds):
        self.folder, self.seconds, self.over, self.others, self.worst = folder, seconds, [], [], (0.0, "")

    def once(self, family, size):
        """The run of a size as `measured` gives it, the bytes of its text, and the lines of both outputs."""
        text = family.text(size)
        text = text if isinstance(text, bytes) else text.encode()
        answer = self.folder / "answer"
        words = [str(word).replace("#", str(size)) for word in family.words]
        run = measured(self.folder, text, ["/bin/sh", "-c", SHOWN % answer, *words], self.seconds)
        return run, len(text), answer.read_text().splitlines()

    def keep_over(self, family, size, run, length):
        seconds, peak = (run[0], run[1]) if run else (float(self.seconds), 0)
        most = (MOST_OF_TEXT, MOST_A_BYTE * length / 1024) if family.words == RECHECK else (MOST_SECONDS, MOST_KIB)
        if not run or seconds > most[0] or peak > max(most[1], LEAST_KIB):
            self.over.append(f"{family.title}, {size}: {seconds:.1f} s{'' if run else ' or more'}, {peak / 1024:.0f} MB")

    def row(self, family, size, before, wanted):
        """One line of the table. A line of the answer begins as wanted, and no fault is told where none is expected."""
        run, length, lines = self.once(family, size)
        self.keep_over(family, size, run, length)
        if run is None:
            print(f"{size:>12} {length:>11} {'-':>9}", flush=True)
            return None
        line = next((line for line in lines if line.startswith(wanted)), lines[0] if lines else "")
        if not line.startswith(wanted) or line.startswith(FAULTS) != (wanted or family.said).startswith(FAULTS):
            self.others.append(f"{family.title}, {size}: {line}, not {wanted}")
        growth = self.growth(family, size, run, before)
        print(f"{size:>12} {length:>11} {run[0]:9.3f} {growth:>7} {run[1]:>9}  {line[:40]}", flush=True)
        return size, run[0]

    def growth(self, family, size, run, before):
        """How the time grows where twice as much is counted."""
        if before is None or before[1] < CLEAR:
            return "-"
        times = (run[0] / before[1]) ** (1 / math.log2(family.amount(size) / family.amount(before[0])))
        self.worst = max(self.worst, (times, family.title))
        return f"{times:.2f}"

    def table(self, family):
        print(f"{family.title}: {family.words[0].name} {' '.join(family.words[1:])}")
        before = None
        for size in family.sizes:
            before = self.row(family, size, before, family.said if size == family.sizes[-1] else "")
        if family.above:
            self.row(family, family.above, None, family.refused)


def main():
    seconds = int(sys.argv[1]) if len(sys.argv) > 1 else 60
    wanted = sys.argv[2:]
    with built() as folder:
        runs = Runs(folder, seconds)
        print(f"{'size':>12} {'bytes':>11} {'seconds':>9} {'growth':>7} {'peak KiB':>9}  answer")
        for family in LIMITS + SLOW:
            if not wanted or any(part in family.title for part in wanted):
                runs.table(family)
    print(f"the largest growth for a doubling: {runs.worst[0]:.2f}, {runs.worst[1]}")
    print("over 5 seconds or 400 MB (recheck: 20 seconds, 5 bytes for a byte of text):", *runs.over or ["none"], sep="\n  ")
    print("other answers:", *runs.others or ["none"], sep="\n  ")
    if runs.others:
        raise SystemExit(1)


if __name__ == "__main__":
    main()
