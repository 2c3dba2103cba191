#!/usr/bin/env python3
"""Times `tsl recheck` on refutations of doubling sizes, beside a plain checker in C. The first argument is the largest
size in MiB, 4 if there is none."""
import itertools
import subprocess
import sys

from measuring import HERE, PROGRAM, built, measured


def text_of(variables, clauses, steps):
    lines = [f"p cnf {variables} {len(clauses)}"]
    lines += [f"{' '.join(map(str, clause))} 0" for clause in clauses]
    lines += ["lrat"]
    lines += [
        " ".join(map(str, [len(clauses) + 1 + i, *literals, 0, *hints, 0])) for i, (literals, hints) in enumerate(steps)
    ]
    return ("\n".join(lines) + "\n").encode()


def chain(size):
    """Each variable implies the next; the first holds and the last does not. Each step shows one variable."""
    count = max(2, size // 55)
    clauses = [[1]] + [[-i, i + 1] for i in range(1, count)] + [[-count]]
    first = len(clauses) + 1
    steps = [([i + 1], [first + i - 2 if i > 1 else 1, i + 1]) for i in range(1, count)]
    steps += [([], [first + count - 2, len(clauses)])]
    return text_of(count, clauses, steps)


def long_clauses(size, length=500):
    """Long clauses over variables that are all false, each with a variable of its own; each step shows one of those."""
    count = max(1, size // (9 * length))
    facts = [[-i] for i in range(1, length + 1)]
    clauses = facts + [[*range(1, length + 1), length + j] for j in range(1, count + 1)]
    clauses += [[-(length + count)]]
    steps = [([length + j], [*range(1, length + 1), length + j]) for j in range(1, count + 1)]
    steps += [([], [len(clauses) + count, len(clauses)])]
    return text_of(length + count, clauses, steps)


def pairs(size):
    """All signs of three variables, again and again over new ones; each step shows a clause of two, or of one literal."""
    count = max(1, size // 270)
    clauses, steps = [], []
    for i in range(count):
        a, b, c = 3 * i + 1, 3 * i + 2, 3 * i + 3
        clauses += [[a * x, b * y, c * z] for x in (1, -1) for y in (1, -1) for z in (1, -1)]
    for i in range(count):
        a, b, first, own = 3 * i + 1, 3 * i + 2, 8 * i + 1, 8 * count + 7 * i + 1
        for k, (x, y) in enumerate(((1, 1), (1, -1), (-1, 1), (-1, -1))):
            steps += [([a * x, b * y], [first + 2 * k, first + 2 * k + 1])]
        steps += [([a], [own, own + 1]), ([-a], [own + 2, own + 3]), ([], [own + 4, own + 5])]
    return text_of(3 * count, clauses, steps)


def pigeons(holes):
    """One pigeon more than there are holes. For the first k pigeons, and any holes of which there is one more than the
    others leave room for, each clause of a step says that some of these pigeons is in one of these holes."""
    seat = lambda pigeon, hole: pigeon * holes + hole + 1
    clauses = [[seat(pigeon, hole) for hole in range(holes)] for pigeon in range(holes + 1)]
    apart = {}
    for low, high in itertools.combinations(range(holes + 1), 2):
        for hole in range(holes):
            clauses.append([-seat(low, hole), -seat(high, hole)])
            apart[low, high, hole] = len(clauses)
    steps, some = [], {frozenset(range(holes)): 1}
    for pigeon in range(1, holes + 1):
        later = {}
        for chosen in itertools.combinations(range(holes), holes - pigeon):
            among = frozenset(chosen)
            before = [seat(other, hole) for other in range(pigeon) for hole in chosen]
            shown = []
            for hole in set(range(holes)) - among:
                hints = [apart[other, pigeon, hole] for other in range(pigeon)] + [some[among | {hole}]]
                steps.append(([-seat(pigeon, hole)] + before, hints))
                shown.append(len(clauses) + len(steps))
            steps.append((before + [seat(pigeon, hole) for hole in chosen], shown + [pigeon + 1]))
            later[among] = len(clauses) + len(steps)
        some = later
    return text_of((holes + 1) * holes, clauses, steps)


def table(folder, reference, title, family, sizes):
    print(title)
    print(f"{'bytes':>10} {'seconds':>9} {'growth':>7} {'peak KiB':>9} {'a byte':>7} {'plain C':>9} {'ratio':>6}")
    before = None
    for size in sizes:
        text = family(size)
        seconds, peak, _ = measured(folder, text, [PROGRAM, "recheck"])
        plain, _, _ = measured(folder, text, [reference])
        growth = f"{seconds / before:7.2f}" if before else "      -"
        each = peak * 1024 / len(text)
        print(f"{len(text):10} {seconds:9.4f} {growth} {peak:9} {each:7.1f} {plain:9.4f} {seconds / plain:6.2f}")
        before = seconds


def main():
    largest = float(sys.argv[1]) if len(sys.argv) > 1 else 4
    sizes = [int(largest * 2**20 / 2**k) for k in reversed(range(6))]
    with built() as folder:
        reference = folder / "reference"
        subprocess.run(["cc", "-O2", "-o", reference, HERE / "reference.c"], check=True)
        table(folder, reference, "chains of units", chain, sizes)
        table(folder, reference, "long clauses", long_clauses, sizes)
        table(folder, reference, "clauses of three, two and one literals", pairs, sizes)
        holes = [n for n in range(7, 16) if 2**n * n**3 / 2 <= largest * 2**20]
        table(folder, reference, "pigeons, with a hole more each time", pigeons, holes)


main()
