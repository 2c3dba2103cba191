#!/usr/bin/env python3
"""Times `solve` on pigeons, parities, random formulas, encodings, and large encodings that an assignment meets or that none meets,
beside `minisat`, `cadical` and `picosat` where they are installed. The first argument is the most seconds of a run, 20 if there is none; families
may be named after it, and then `chains` too: pigeons behind a chain of variables, for what is true at level 0."""
import math
import os
import random
import re
import shutil
import statistics
import subprocess
import sys
import tempfile

import plain
from measuring import SOLVER, built

LEAST = 0.005
PASSES = 5
SPAN = 100  # milliseconds of runs in a pass
LONG = 0.02
STANDARD = ("pigeons", "parity", "random", "encodings", "large")


def text_of(variables, clauses):
    return plain.cnf_text(variables, clauses).encode()


def pigeons(holes):
    """One pigeon more than there are holes."""
    seat = lambda pigeon, hole: pigeon * holes + hole + 1
    clauses = [[seat(p, h) for h in range(holes)] for p in range(holes + 1)]
    clauses += [[-seat(p, h), -seat(q, h)] for h in range(holes) for p in range(holes + 1) for q in range(p)]
    return text_of((holes + 1) * holes, clauses)


def parity(count):
    """So many variables, added up modulo 2 along two chains in other orders, whose sums differ."""
    clauses, fresh = [], count

    def chain(order):
        nonlocal fresh
        total = order[0]
        for x in order[1:]:
            fresh += 1
            clauses.extend([[total, x, -fresh], [-total, -x, -fresh], [-total, x, fresh], [total, -x, fresh]])
            total = fresh
        return total

    order = list(range(1, count + 1))
    first = chain(order)
    random.Random(count).shuffle(order)
    second = chain(order)
    clauses += [[first, second], [-first, -second]]
    return text_of(fresh, clauses)


def behind_chain(holes, length):
    """The pigeons, behind a chain of so many variables, each of which follows from the one before."""
    first, *rest = pigeons(holes).decode().splitlines()
    taken, count = map(int, first.split()[2:])
    chain = [[taken + 1]] + [[-v, v + 1] for v in range(taken + 1, taken + length)]
    clauses = [[int(word) for word in line.split()[:-1]] for line in rest]
    clauses = [clause + [-taken - length] if clause[0] > 0 else clause for clause in clauses]
    return text_of(taken + length, chain + clauses)


def threshold(count, seed):
    """Clauses of three different variables, 4.26 for each variable."""
    chance = random.Random(1000 * count + seed)
    clauses = [[v * chance.choice((1, -1)) for v in chance.sample(range(1, count + 1), 3)] for _ in range(round(4.26 * count))]
    return text_of(count, clauses)


def controller(text, states, bound):
    """The clauses whose assignments are the controllers of so many states within the bound."""
    question = plain.Question(text, states, bound)
    return text_of(question.variables, question.clauses())


def arbiter(count):
    return "always guarantee {\n" + "".join(f"req r{i} -> F [g <- pick r{i}];\n" for i in range(count)) + "}\n"


def responses(count):
    """So many outputs, each of which answers requests of its own."""
    return "always guarantee {\n" + "".join(f"req r{i} -> F [g{i} <- pick r{i}];\n" for i in range(count)) + "}\n"


def cells(count):
    """A chain of so many cells, each of which takes the one before it some time after that is ready."""
    names = ["x", *(f"c{i}" for i in range(count))]
    return "always guarantee {\n" + "".join(f"ready {p} -> F [{c} <- {p}];\n" for p, c in zip(names, names[1:])) + "}\n"


def large():
    """Encodings of some 5,000 to 30,000 variables: those of responses and of cells are met, those of arbiters with fewer states than requests are not."""
    yield from ((f"responses {n} {states} {bound}", responses(n), states, bound) for n, states, bound in ((7, 4, 1), (8, 4, 1), (9, 2, 1), (6, 6, 1)))
    yield from ((f"cells {n} {states} {bound}", cells(n), states, bound) for n, states, bound in ((6, 6, 2), (6, 8, 3), (7, 4, 2), (7, 6, 2), (8, 4, 1)))
    yield from ((f"arbiter {n} {states} {bound}", arbiter(n), states, bound) for n, states, bound in ((6, 6, 5), (7, 4, 2), (7, 6, 2), (8, 4, 1), (9, 4, 1)))


def families():
    """Each family with its formulas, which are made as they are asked for."""
    yield "pigeons", ((f"pigeons {n}", pigeons(n)) for n in range(5, 9))
    yield "chains", ((f"chain {length} {n}", behind_chain(n, length)) for n, length in ((5, 5000), (6, 20000)))
    yield "parity", ((f"parity {n}", parity(n)) for n in range(9, 16))
    yield "random", ((f"random {n} {seed}", threshold(n, seed)) for n in (50, 75, 100, 125, 150, 175, 200) for seed in range(3))
    yield "encodings", (
        (f"arbiter {n} {states} {bound}", controller(arbiter(n), states, bound))
        for n, states, bound in ((2, 1, 2), (2, 2, 2), (3, 2, 3), (3, 3, 3), (4, 3, 4), (4, 4, 4)))
    yield "large", ((name, controller(text, states, bound)) for name, text, states, bound in large())


def programs():
    """Each program with its words, and how the number of its conflicts is found in what it writes."""
    found = {"solve": [str(SOLVER)]}
    minisat, cadical, picosat = map(shutil.which, ("minisat", "cadical", "picosat"))
    if minisat:
        found["minisat -no-pre"] = [minisat, "-no-pre"]
        found["minisat"] = [minisat]
    if cadical:
        found["cadical"] = [cadical, "-"]
    if picosat:
        found["picosat"] = [picosat, "-v"]
    return found


def learnt(formula, log):
    """How many clauses of a log were learnt: not the empty one, nor those of one literal that propagation shows, from such clauses and one more."""
    sizes = {number: len(line.split()) - 1 for number, line in enumerate(formula.splitlines())}
    count = -1
    for line in log.splitlines():
        number, *rest = map(int, line.split())
        end = rest.index(0)
        hints = rest[end + 1:-1]
        sizes[number] = end
        count += end != 1 or any(sizes[hint] != 1 for hint in hints[:-1])
    return count


def conflicts(name, words, text, status, seconds):
    """How many conflicts a program had. Of `solve` it is the number of learnt clauses, where it writes a log."""
    if name == "solve":
        if status != 20:
            return None
        words = words + ["--log"]
    done = subprocess.run(words, input=text, capture_output=True, timeout=10 * seconds).stdout.decode()
    if name == "solve":
        return learnt(*done.split("\nlrat\n"))
    number = re.search(r"conflicts *: *(\d+)|(\d+) conflicts", done)
    return int(number.group(1) or number.group(2)) if number else None


def measured(folder, text, words, seconds):
    """The least seconds of some runs, the peak KiB and the status, or None where a run takes too long."""
    with tempfile.NamedTemporaryFile() as file:
        file.write(text)
        file.flush()
        environment = {**os.environ, "MEASURE_SECONDS": str(seconds), "MEASURE_SPAN": str(SPAN)}
        done = subprocess.run([folder / "measure", file.name, *words], capture_output=True, text=True, env=environment)
    if done.returncode != 0:
        return None
    nanoseconds, peak, status = map(int, done.stdout.split())
    return nanoseconds / 1e9, peak, status


def shown(run):
    if run is None:
        return f"{'-':>9} {'-':>9} {'-':>8}"
    seconds, peak, count, _ = run
    return f"{seconds:9.4f} {'-' if count is None else count:>9} {peak:>8}"


def least(one, other):
    """Of two runs of a program on a formula the one that took less time."""
    return min(filter(None, (one, other)), default=None)


def passes(folder, chosen, tools, seconds):
    """For each formula the best run of each program in some passes over all of them, so that another program on the machine disturbs one pass alone."""
    runs = {}
    for number in range(PASSES):
        print(f"pass {number + 1} of {PASSES}", file=sys.stderr, flush=True)
        for name, text in chosen:
            for tool, words in tools.items():
                runs[name, tool] = least(runs.get((name, tool)), measured(folder, text, words, seconds))
            if len({run[2] for run in (runs[name, tool] for tool in tools) if run}) > 1:
                raise SystemExit(f"{name}: the programs disagree")
    return runs


def told(other, pairs):
    """What is said of the runs of `solve` beside those of another program, each with its formula's name."""
    ratio = lambda kind: [one[kind] / two[kind] for _, one, two in pairs if one[kind] and two[kind]]
    median = lambda members: f"{statistics.median(members):.2f}" if members else "-"
    times = ratio(0)
    print(f"{len(pairs)} formulas beside {other}: time {median(times)} by median, {math.exp(statistics.mean(map(math.log, times))):.2f} by the mean of logarithms; "
          f"learnt clauses to conflicts {median(ratio(2))}, memory {median(ratio(1))} by median")
    if long := [(one[0] / two[0], name) for name, one, two in pairs if min(one[0], two[0]) > LONG]:
        print("    the largest ratio where both take more than 20 milliseconds: %.2f, %s" % max(long))
    if met := [(one[0], two[0]) for _, one, two in pairs if one[3] == 10]:
        print("    over those that an assignment meets: %.3f seconds in all, and %.3f" % tuple(map(sum, zip(*met))))


def main():
    seconds = int(sys.argv[1]) if len(sys.argv) > 1 else 20
    wanted = sys.argv[2:] or STANDARD
    tools = programs()
    chosen = [formula for family, formulas in families() if family in wanted for formula in formulas]
    beside = {other: [] for other in tools if other != "solve"}
    with built(SOLVER, "./solve < examples/formulas/stairs.cnf") as folder:
        best = passes(folder, chosen, tools, seconds)
    print(f"{'':20} " + " ".join(f"{name:>28}" for name in tools))
    print(f"{'formula':20} " + " ".join(f"{'seconds':>9} {'conflicts':>9} {'KiB':>8}" for _ in tools))
    for name, text in chosen:
        runs = {}
        for tool, words in tools.items():
            if best[name, tool]:
                taken, peak, status = best[name, tool]
                runs[tool] = (taken, peak, conflicts(tool, words, text, status, seconds), status)
        print(f"{name:20} " + " ".join(shown(runs.get(tool)) for tool in tools), flush=True)
        for other, pairs in beside.items():
            if "solve" in runs and other in runs and max(runs["solve"][0], runs[other][0]) > LEAST:
                pairs.append((name, runs["solve"], runs[other]))
    for other, pairs in beside.items():
        if pairs:
            told(other, pairs)


if __name__ == "__main__":
    main()
