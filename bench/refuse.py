#!/usr/bin/env python3
"""Refuses each allocation of seven runs in turn, by `bench/refuse.c`: a run ends with status 8 and nothing written, or with its own answer."""
import collections
import concurrent.futures
import os
import pathlib
import subprocess
import tempfile

from measuring import HERE, PROGRAM

MEMORY = 8

COPY = b"always guarantee { [y <- x]; }"
CROSSING = b"always guarantee { [y <- y] || [y <- x]; }\nguarantee { F p x -> F p y; }\n"
TWINS = b"""always guarantee { [y <- f x] && [z <- f x]; }
guarantee { X (p y <-> p z); }
tslprogram 1
input x
cell y
cell z
window p y at 1 is p z at 1 when [y <- f x] at 0 when [z <- f x] at 0
node 0 set [y <- f x] [z <- f x] go 0
state 0 at 0
end
"""
COPYING = CROSSING + b"""tslprogram 1
input x
cell y
window p x at 0 is p y at 1 when [y <- x] at 0
node 0 set [y <- x] go 0
state 0 at 0
end
tsltables 1
domain 2
pred p 0 1
cell y 0
tslinputs 1
input x
stem
cycle row 1
"""
GRANTS = b"always guarantee { F [g <- a()]; F [g <- b()]; }"
SQUARE = b"p cnf 2 4\n1 2 0\n1 -2 0\n-1 2 0\n-1 -2 0\nlrat\n5 1 0 1 2 0\n6 0 5 3 4 0\n"

# Words, a text, and the status of the run that is refused nothing. The second search finds a window.
RUNS = [
    (["synth", "--states", "1"], COPY, 0),
    (["synth"], CROSSING, 0),
    (["check"], TWINS, 0),
    (["run"], COPYING, 0),
    (["prove", "--states", "1"], GRANTS, 0),
    (["prove", "--states", "1"], COPY, 1),
    (["recheck"], SQUARE, 0),
]


def run(library, words, text, name, value):
    """The status of a run and what it writes to both outputs, with one of the library's variables set."""
    given = {**os.environ, "LD_PRELOAD": str(library), name: str(value)}
    done = subprocess.run([PROGRAM, *words], input=text, capture_output=True, env=given)
    return done.returncode, done.stdout, done.stderr


def refused(folder, pool, words, text, status):
    """How many allocations a run asks for, and how many of them, refused, end it for want of memory."""
    library, counted = folder / "refuse.so", folder / "count"
    whole = run(library, words, text, "COUNT_TO", counted)
    assert whole[0] == status, (words, whole)
    asked = int(counted.read_text())
    answers = pool.map(lambda at: run(library, words, text, "FAIL_AT", at), range(1, asked + 1))
    ended = collections.Counter()
    for at, answer in enumerate(answers, 1):
        if answer not in (whole, (MEMORY, b"", b"")):
            raise SystemExit(f"tsl {' '.join(words)}: allocation {at} of {asked} refused: {answer}")
        ended[answer[0]] += 1
    return asked, ended[MEMORY]


def main():
    if not PROGRAM.exists():
        raise SystemExit("build the program first: ./tsl synth < examples/first/copy.tsl")
    with tempfile.TemporaryDirectory() as name, concurrent.futures.ThreadPoolExecutor(os.cpu_count()) as pool:
        folder = pathlib.Path(name)
        build = ["cc", "-shared", "-fPIC", "-o", folder / "refuse.so", HERE / "refuse.c", "-ldl"]
        subprocess.run(build, check=True)
        for words, text, status in RUNS:
            asked, ended = refused(folder, pool, words, text, status)
            print(f"tsl {' '.join(words)}: {asked} allocations, {ended} refused ones end it, {asked - ended} change nothing", flush=True)


if __name__ == "__main__":
    main()
