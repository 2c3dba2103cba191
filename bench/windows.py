"""A plain reading of windows, as `plain.py` is one of the rest: their formulas, unfolding, the classes of free terms, congruence, and the
order of what they list. A window's updates are pairs of an update and its offset, its equalities of a test and its offset; `left` is
None where it says that its right test, an equality, holds."""
from typing import NamedTuple


class Window(NamedTuple):
    left: tuple | None
    left_at: int
    right: tuple
    length: int
    updates: tuple = ()
    equalities: tuple = ()


def conjunction(parts):
    return parts[0] if len(parts) == 1 else ("&&", tuple(parts)) if parts else ("true",)


def later(steps, formula):
    return later(steps - 1, ("X", formula)) if steps else formula


def window_formula(window):
    """Always: if each listed update and equality holds at its offset, then the left test at its step is as the right one at the last, or
    without a left test the right one holds there."""
    listed = conjunction([later(offset, atom) for atom, offset in window.updates + window.equalities])
    right = later(window.length, window.right)
    return ("G", ("->", listed, right if window.left is None else ("<->", later(window.left_at, window.left), right)))


def under_windows(windows, formula):
    return ("->", conjunction([window_formula(w) for w in windows]), formula) if windows else formula


def tests_of(window):
    """What a window tests: its equalities, its left test where it has one, and its right test."""
    return [*(test for test, _ in window.equalities), *([] if window.left is None else [window.left]), window.right]


def is_equality(test):
    return test[1] == "eq" and len(test[2]) == 2


def are_equalities(window):
    """Each listed equality is one, and so is the right test where there is no left one."""
    return all(map(is_equality, [*(test for test, _ in window.equalities), *([window.right] if window.left is None else [])]))


def unfolded(term, at, listed):
    """What a term at a step comes to, where the listed updates are made: `listed` has the term of a signal and an offset."""
    if term[0] == "apply":
        return ("apply", term[1], tuple(unfolded(part, at, listed) for part in term[2]))
    if at and (term[1], at - 1) in listed:
        return unfolded(listed[term[1], at - 1], at - 1, listed)
    return ("leaf", term[1], at)


def parts_of(term):
    """A free term with all that it is made of."""
    return [*(part for inner in term[2] for part in parts_of(inner)), term] if term[0] == "apply" else [term]


def classes_of(terms, pairs):
    """The class, a number, of each of these free terms and of their parts: the smallest equivalence that joins each pair, and joins two
    applications of one function whose arguments are pairwise joined."""
    looked_at = [*terms, *(term for pair in pairs for term in pair)]
    class_of = {part: number for number, part in enumerate(dict.fromkeys(p for term in looked_at for p in parts_of(term)))}
    while pairs:
        for one, other in pairs:
            kept, lost = class_of[one], class_of[other]
            class_of = {part: kept if held == lost else held for part, held in class_of.items()}
        first = {}
        for part in class_of:
            if part[0] == "apply":
                first.setdefault((part[1], *(class_of[inner] for inner in part[2])), []).append(part)
        pairs = [(alike[0], other) for alike in first.values() for other in alike if class_of[alike[0]] != class_of[other]]
    return class_of


def asked_pairs(window):
    """The free terms that have to be in one class, pair by pair, and the pairs that the listed equalities join."""
    listed = {(update[1], offset): update[2] for update, offset in window.updates}

    def arguments(test, at):
        return tuple(unfolded(term, at, listed) for term in test[2])
    right = arguments(window.right, window.length)
    asked = [right] if window.left is None else list(zip(arguments(window.left, window.left_at), right))
    return asked, [arguments(test, offset) for test, offset in window.equalities]


def is_congruent(window):
    """Its equalities are such. Both tests have one predicate, and their arguments are pairwise in one class; or without a left test the
    right one is an equality of two arguments in one class."""
    if not are_equalities(window) or (window.left is not None and window.left[1] != window.right[1]):
        return False
    asked, joined = asked_pairs(window)
    class_of = classes_of([term for pair in asked for term in pair], joined)
    return all(class_of[one] == class_of[other] for one, other in asked)


def is_shaped(window, cells):
    """It has the form of programs: updates of cells within the window, by rising offset and then by the cell's place, and then
    equalities up to its end, whose offsets do not fall, none twice at one offset."""
    places = [(offset, cells.index(update[1])) for update, offset in window.updates if update[1] in cells]
    offsets = [offset for _, offset in window.equalities]
    return (window.left_at <= window.length <= 3 and len(places) == len(window.updates)
            and places == sorted(set(places)) and all(offset < window.length for offset, _ in places)
            and are_equalities(window) and offsets == sorted(offsets) and all(offset <= window.length for offset in offsets)
            and len(set(window.equalities)) == len(offsets))


def needed(window):
    """The window without each update and each equality that can be left out with the rest still congruent, one after another."""
    for kind in ("updates", "equalities"):
        for member in getattr(window, kind):
            less = window._replace(**{kind: tuple(m for m in getattr(window, kind) if m != member)})
            if is_congruent(less):
                window = less
    return window
