#!/usr/bin/env python3
"""Times the verdict of `tsl run` on nested untils, on many operators and on distinct atoms: nodes times positions, doubled in both
directions, beside a plain program in C, whose verdicts have to be the same. That program reads no formula, so of a run the part counts
that its verdict takes: as much of the seconds as of the instructions, which valgrind counts, less what it takes without the formulas."""
import subprocess

from measuring import HERE, PROGRAM, built, measured, spent_in

DEPTH = 65  # in each formula, so that no formula nests too deep
MOST_FORMULAS = {"untils": 48, "operators": 36, "atoms": 48}  # so that there are nearly as many nodes as are allowed
MOST_POSITIONS = 65536
PREDICATES = 2048  # as many as the plain program has
BETWEEN = ["U", "->", "||", "&&", "R"]
BEFORE = ["X", "F", "!", "G"]
VERDICT = ["checking_commands::meaning::Meaning::judge"]


def formula(family, number):
    text = "p0 x"
    for depth in reversed(range(DEPTH)):
        predicate = (number * DEPTH + depth) % PREDICATES if family == "atoms" else depth % 2
        between, before = ("U", "") if family != "operators" else (BETWEEN[depth % 5], BEFORE[depth % 4] + " ")
        text = f"(p{predicate} x {between} {before}{text})"
    return text


def text_of(family, formulas, positions):
    rows = " ".join(f"row {int(i * 7919 % 101 < 40)}" for i in range(positions))
    predicates = min(PREDICATES, max(2, formulas * DEPTH)) if family == "atoms" else 2
    lines = ["guarantee { p0 x || p1 x;", *[formula(family, number) + ";" for number in range(formulas)], "}"]
    lines += ["tslprogram 1", "input x", "node 0 set go 0", "state 0 at 0", "end", "tsltables 1", "domain 2"]
    lines += [f"pred p{number} {number % 2} {1 - number % 2}" for number in range(predicates)]
    lines += ["tslinputs 1", "input x", "stem", f"cycle {rows}", ""]
    return "\n".join(lines).encode()


def verdict_on(folder, text):
    """The seconds that the verdict of a run takes, those of the whole run, its peak of memory, and its status."""
    seconds, peak, status = measured(folder, text, [PROGRAM, "run"], ("0", "1"))
    counted = spent_in(text, [PROGRAM, "run"], VERDICT)
    if not counted:
        raise SystemExit("what a verdict takes is counted by valgrind: install it")
    return seconds * counted[1][0] / counted[0], seconds, peak, status


def table(folder, reference, family, cases):
    print(family)
    print(f"{'formulas':>8} {'positions':>9} {'whole run':>9} {'more KiB':>9} {'verdict':>9} {'growth':>7} {'plain C':>9} {'ratio':>6}")
    before = None
    for formulas, positions in cases:
        without, _, least, _ = verdict_on(folder, text_of(family, 0, positions))
        verdict, seconds, peak, status = verdict_on(folder, text_of(family, formulas, positions))
        own = max(verdict - without, 1e-6)
        words = [reference, family, str(formulas), str(DEPTH), str(positions)]
        plain, _, expected = measured(folder, b"", words, ("0", "1"))
        if status != expected:
            raise SystemExit("the verdicts differ")
        growth = f"{own / before:7.2f}" if before else "      -"
        print(f"{formulas:8} {positions:9} {seconds:9.5f} {peak - least:9} {own:9.5f} {growth} {plain:9.5f} {own / plain:6.2f}")
        before = own


def main():
    with built() as folder:
        reference = folder / "judge"
        subprocess.run(["cc", "-O2", "-o", reference, HERE / "judge.c"], check=True)
        for family in ("untils", "operators", "atoms"):
            most = MOST_FORMULAS[family]
            table(folder, reference, family, [(most >> k, 1024) for k in (3, 2, 1, 0)])
            table(folder, reference, family, [(most, MOST_POSITIONS >> k) for k in (3, 2, 1, 0)])


if __name__ == "__main__":
    main()
