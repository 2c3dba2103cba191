"""A plain reading of linear temporal logic on loops of letters. A letter is the truth of each bit."""
import plain


def holds(part, stem, cycle):
    """Whether a formula in letter form holds on a loop, by its truth at each position."""
    loop = stem + cycle
    after = [*range(1, len(loop)), len(stem)]

    def along(part):
        kind = part[0]
        if kind in (plain.TRUE, plain.FALSE):
            return [kind == plain.TRUE] * len(loop)
        if kind in (plain.BIT, plain.NOT_BIT):
            return [letter[part[1]] == (kind == plain.BIT) for letter in loop]
        if kind in (plain.ALL, plain.ANY):
            columns = [along(p) for p in part[1]]
            return [(all if kind == plain.ALL else any)(column[i] for column in columns) for i in range(len(loop))]
        if kind == plain.NEXT:
            inner = along(part[1])
            return [inner[after[i]] for i in range(len(loop))]
        left, right = along(part[1]), along(part[2])
        truth = [kind == plain.RELEASE] * len(loop)
        for _ in loop:
            for i in reversed(range(len(loop))):
                later = truth[after[i]]
                truth[i] = right[i] and (left[i] or later) if kind == plain.RELEASE else right[i] or (left[i] and later)
        return truth
    return along(part)[0]


def formula(source, atoms, depth):
    """The text of a random formula with so many operators on top of each other."""
    if depth == 0:
        return source.choice(atoms)
    word = source.choice(["!", "X", "F", "G", "&&", "||", "->", "<->", "U", "W", "R"])
    first = formula(source, atoms, depth - 1)
    if word in ("!", "X", "F", "G"):
        return f"{word} ({first})"
    return f"({first}) {word} ({formula(source, atoms, source.randrange(depth))})"
