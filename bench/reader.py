#!/usr/bin/env python3
"""Times `tsl synth` on texts that are hard to read, at doubling sizes."""
from measuring import PROGRAM, built, measured

MOST = 1_048_576
CLEAR = 0.0002  # seconds; a shorter time is lost in the noise of starting a process
SIZES = [MOST >> halvings for halvings in range(5, -1, -1)]


def filled(before, member, after, size):
    """One member again and again between two texts, up to a size."""
    return before + member * ((size - len(before) - len(after)) // len(member)) + after


def numbered(before, form, after, size):
    """Members that each hold a name of their own, up to a size."""
    members = []
    left = size - len(before) - len(after)
    while left >= len(form % len(members)):
        members.append(form % len(members))
        left -= len(members[-1])
    return before + b"".join(members) + after


def chained(last, after, size):
    """Definitions that each use the next one, up to a size; the last one stands for what is told of its number."""
    links = []
    left = size - len(last(0)) - len(after) - len(b"%d" % size)
    while left >= len(b"a%d=a%d;" % (len(links), len(links) + 1)):
        links.append(b"a%d=a%d;" % (len(links), len(links) + 1))
        left -= len(links[-1])
    return b"".join(links) + last(len(links)) + after


def passing(uses_each, size):
    """A definition with parameters, a body that uses each or none of them, and a use of it, up to a size."""
    names = []
    left = size - len(b"f=p;guarantee{f}")
    while left >= len(b" s%d" % len(names)) * (1 + uses_each) + 2:
        names.append(b" s%d" % len(names))
        left -= len(names[-1]) * (1 + uses_each) + 2
    heads = b"".join(names)
    body = b"p" + heads if uses_each else b"p"
    return b"f" + heads + b"=" + body + b";guarantee{f" + b" x" * len(names) + b"}"


def nested(front, middle, back, levels=200):
    return front * levels + middle + back * levels


START, END = b"guarantee {", b"}"
SHAPES = [
    ("formulas in one section", lambda n: filled(START, b"a;", END, n)),
    ("sections of one formula", lambda n: filled(b"", b"guarantee{a}", b"", n)),
    ("operands of one `&&`", lambda n: filled(START + b"a", b"&&a", END, n)),
    ("operands of one `||`, each of two", lambda n: filled(START + b"a", b"||a&&a", END, n)),
    ("arguments of one test", lambda n: filled(START + b"p", b" x", END, n)),
    ("200 brackets again and again", lambda n: filled(START, nested(b"(", b"a", b")") + b";", END, n)),
    ("200 prefixes again and again", lambda n: filled(START, nested(b"!", b"a", b"") + b";", END, n)),
    ("200 arrows again and again", lambda n: filled(START, nested(b"a->", b"a", b"") + b";", END, n)),
    ("200 arguments again and again", lambda n: filled(START, b"p " + nested(b"(f ", b"x", b")") + b";", END, n)),
    ("terms of 200 brackets in updates", lambda n: filled(START, b"[y<-" + nested(b"(", b"x", b")") + b"];", END, n)),
    ("a new name in each formula", lambda n: numbered(START, b"a%d;", END, n)),
    ("a new function in each update", lambda n: numbered(START, b"[y<-f%d x];", END, n)),
    ("one long name", lambda n: filled(START, b"a", END, n)),
    ("long names that differ at their end", lambda n: numbered(START, b"a" * 1000 + b"%d;", END, n)),
    ("blanks", lambda n: b" " * n),
    ("comments that nest", lambda n: filled(b"", b"/*", b"", n // 2) + filled(b"", b"*/", b"", n // 2)),
    ("definitions that none uses", lambda n: numbered(b"", b"a%d=b;", b"", n)),
    ("a chain of definitions that none uses", lambda n: chained(lambda k: b"a%d=b;" % k, b"", n)),
    ("a chain of definitions that is used", lambda n: chained(lambda k: b"a%d=b;" % k, START + b"a0" + END, n)),
    ("a chain of definitions to one that uses itself", lambda n: chained(lambda k: b"a%d=a%d;" % (k, k), b"", n)),
    ("definitions that each use one that uses itself", lambda n: numbered(b"", b"a%d=z;", b"z=z;", n)),
    ("uses of one definition", lambda n: filled(b"d=true;" + START, b"d;", END, n)),
    ("parameters of one definition", lambda n: numbered(b"f", b" s%d", b"=a;", n)),
    ("one parameter again and again", lambda n: filled(b"f", b" s", b"=a;", n)),
    ("names that one use passes", lambda n: passing(False, n)),
    ("names that one use passes, each used", lambda n: passing(True, n)),
    ("a fault at the end", lambda n: filled(START, b"a;", b"(", n)),
    ("a name in another kind at the end", lambda n: numbered(START, b"a%d;", b"a0()}", n)),
]


def main():
    with built() as folder:
        start, _, _ = measured(folder, b"always guarantee {}", [PROGRAM, "synth"])
        print(f"the start of a process: {start * 1000:.3f} ms, taken off below")
        worst = 0.0
        for title, shape in SHAPES:
            print(title)
            print(f"{'bytes':>9} {'status':>6} {'seconds':>9} {'growth':>7} {'peak KiB':>9}")
            before = None
            for size in SIZES:
                text = shape(size)
                seconds, peak, status = measured(folder, text, [PROGRAM, "synth"], ("0", "1", "3", "4", "5"))
                own = max(seconds - start, 1e-6)
                growth = own / before if before and before > CLEAR else None
                print(f"{len(text):9} {status:>6} {own:9.6f} {growth and f'{growth:.2f}' or '-':>7} {peak:9}")
                worst = max(worst, growth or 0.0)
                before = own
        print(f"the largest growth for a doubled size: {worst:.2f}")


main()
