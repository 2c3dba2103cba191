#!/usr/bin/env python3
"""Times `tsl run` on inputs of doubling sizes, each of which puts the work into one part, beside a plain reading and run in Python."""
import time

from measuring import PROGRAM, built, instructions, measured

SIZES = [2**power for power in range(11, 17)]
CLEAR = 0.002  # seconds; a shorter time is lost in the noise of starting a process


def text_of(program, meaning, inputs, head="tsltables 1"):
    return "\n".join(["tslprogram 1", *program, "end", head, *meaning, "tslinputs 1", *inputs, ""]).encode()


DELAY = ["input x", "cell y", "node 0 set [y <- x] go 0", "state 0 at 0"]


def long_program(count):
    """So many nodes, each a test that goes on to the one before it."""
    tests = [f"node {i} if p x then {i - 1} else 0" for i in range(1, count)]
    program = ["input x", "cell y", "node 0 set [y <- x] go 0", *tests, f"state 0 at {count - 1}"]
    return text_of(program, ["domain 2", "pred p 0 0", "cell y 0"], ["input x", "stem", "cycle row 0"])


def long_tables(count):
    """A table of so many entries, over pairs of values."""
    program = ["input x", "cell y", "node 0 set [y <- f x x] go 0", "state 0 at 0"]
    side = int(count**0.5)
    entries = " ".join(str((i * 7) % side) for i in range(side * side))
    return text_of(program, [f"domain {side}", f"func f {entries}", "cell y 0"], ["input x", "stem", "cycle row 0"])


def long_inputs(count):
    """So many rows of a stem, and one of a cycle."""
    rows = " ".join(f"row {i % 2}" for i in range(count - 1))
    return text_of(DELAY, ["domain 2", "cell y 0"], ["input x", f"stem {rows}", "cycle row 0"])


def long_run(count):
    """Few rows, and a run of so many configurations: two cells count in digits of a base."""
    base = int(count**0.5)
    program = [
        "cell low",
        "cell high",
        "node 0 set [low <- zero()] [high <- next high] go 0",
        "node 1 set [low <- next low] [high <- high] go 0",
        "node 2 if last low then 0 else 1",
        "state 0 at 2",
    ]
    tables = [
        f"domain {base}",
        "func zero 0",
        "func next " + " ".join(str((i + 1) % base) for i in range(base)),
        "pred last " + " ".join(str(int(i == base - 1)) for i in range(base)),
        "cell low 0 cell high 0",
    ]
    return text_of(program, tables, ["stem", "cycle row"])


def three_cells(count, meaning, head):
    """A run of so many configurations, a power of two, of three cells: two count in digits of a base, one takes the lower digit.
    The base is a power of two; where its square is twice the count, the higher digit goes on by two."""
    base = 2 ** (count.bit_length() // 2)
    on = "next (next high)" if base * base > count else "next high"
    program = [
        "cell low",
        "cell high",
        "cell before",
        f"node 0 set [low <- next low] [high <- {on}] [before <- low] go 0",
        "node 1 set [low <- next low] [high <- high] [before <- low] go 0",
        "node 2 if first low then 0 else 1",
        "state 0 at 2",
    ]
    cells = f"cell low 0 cell high 0 cell before {base - 1}"
    return text_of(program, [*meaning(base), cells], ["stem", "cycle row"], head)


def three_cells_over_tables(count):
    """The run of three cells, where tables say what is next and which digit is the first."""
    return three_cells(
        count,
        lambda base: [
            f"domain {base}",
            "func next " + " ".join(str((i + 1) % base) for i in range(base)),
            "pred first " + " ".join(str(int(i == 0)) for i in range(base)),
        ],
        "tsltables 1",
    )


def three_cells_over_words(count):
    """The same run of the same program, over machine words."""
    return three_cells(count, lambda base: [f"bits {base.bit_length() - 1}", "func next inc", "pred first zero"], "tslwords 1")


def plain_reading(text):
    """Words by lines and numbers, and nothing of what they mean: the least that a reading in Python does."""
    return [[int(word) if word.isdigit() else word for word in line.split()] for line in text.split("\n")]


def plain_seconds(text):
    decoded = text.decode()
    begun = time.perf_counter()
    plain_reading(decoded)
    return time.perf_counter() - begun


OVER_TABLES = "configurations of three cells over tables"
OVER_WORDS = "configurations of three cells over words"
FAMILIES = [
    ("nodes of a program", long_program),
    ("entries of a table", long_tables),
    ("rows of inputs", long_inputs),
    ("configurations of a run", long_run),
    (OVER_TABLES, three_cells_over_tables),
    (OVER_WORDS, three_cells_over_words),
]


def counted():
    """The growth by instructions, where valgrind is installed: what noise does to seconds it does not do to these."""
    worst = 0.0
    largest = {}
    for title, family in FAMILIES:
        counts = [instructions(family(count), [PROGRAM, "run"]) for count in SIZES]
        if None in counts:
            return
        growths = [after / before for before, after in zip(counts, counts[1:])]
        worst = max(worst, *growths)
        largest[title] = counts[-1]
        print(f"{title}: {counts[-1]} instructions for {SIZES[-1]}, growths " + " ".join(f"{g:.2f}" for g in growths))
    print(f"the largest growth of instructions for a doubling: {worst:.2f}")
    print(f"words take {largest[OVER_WORDS] / largest[OVER_TABLES]:.2f} times the instructions of tables")


def main():
    with built() as folder:
        start, _, _ = measured(folder, long_inputs(2), [PROGRAM, "run"])
        print(f"the start of a process: {start * 1000:.3f} ms, taken off below")
        worst = 0.0
        largest = {}
        for title, family in FAMILIES:
            print(title)
            print(f"{'members':>9} {'bytes':>9} {'seconds':>9} {'growth':>7} {'peak KiB':>9} {'Python reads':>12}")
            before = None
            for count in SIZES:
                text = family(count)
                seconds, peak, _ = measured(folder, text, [PROGRAM, "run"])
                seconds = max(seconds - start, 0.0)
                growth = f"{seconds / before:7.2f}" if before and before > CLEAR else "      -"
                if before and before > CLEAR:
                    worst = max(worst, seconds / before)
                print(f"{count:9} {len(text):9} {seconds:9.4f} {growth} {peak:9} {plain_seconds(text):12.4f}")
                before = seconds
            largest[title] = before
        print(f"the largest growth for a doubling: {worst:.2f}")
        print(f"words take {largest[OVER_WORDS] / largest[OVER_TABLES]:.2f} times what tables take for {SIZES[-1]} configurations of three cells")
    counted()


if __name__ == "__main__":
    main()
