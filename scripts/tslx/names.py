"""`tslx names`: what a specification names, and traps."""
import re
from typing import Dict, List, Set, Tuple

from . import asking
from .faults import tell_answer
from .files import Gathered, Stop, gather, shown, write
from .formulas import (Apply, Formula, Joined, Pair, Prefixed, Signal, Term, Test, Truth, Update, atoms, signals_read, terms, write_formula,
                       write_term)
from .options import is_near
from .specifications import Occurrence, Specification, read_specification
from .tokens import Place

HELP = """tslx names FILE..
Tells the inputs, cells and outputs of a specification, the terms that each cell and output may take, its predicates and functions, and traps,
each with its line: what stands once and is one letter away from another name; what looks like an operator or a constant and is a name;
an output that always takes the same; an assumption that a program can break by what it updates, so that it owes nothing; a guarantee
that mentions no update; a definition that no section needs.
"""

# Names that look like operators: before a formula, between two formulas, and alone.
BEFORE = re.compile(r"(?i:not|next|eventually|globally|finally|never|sometime|once|historically)$|[XFG]{2,}$|[HOYZ]$")
BETWEEN = re.compile(r"(?i:and|or|xor|implies|iff|equiv|until|release|weak|since|is|then|else)$|[STBVM]$")
ALONE = re.compile(r"True$|False$|TRUE$|FALSE$")


def well_read(gathered: Gathered) -> Specification:
    """The specification that was gathered; where `tsl` finds a fault in it, that is told."""
    answer = asking.ask(["synth", "--states", "1", "--bound", "0", "--rounds", "0", "--budget", "1"], gathered.data)
    if answer.status == asking.FAULT or answer.status > asking.SPENT:
        tell_answer(answer, gathered)
        raise Stop("", answer.status)
    return read_specification(gathered.text)


def files_of(command: str, words: List[str]) -> Gathered:
    """The files of a command that takes no option."""
    for word in words:
        if word.startswith("-") and word != "-":
            raise Stop(f"{command} has no option {shown(word)}")
    if not words:
        raise Stop(f"{command} takes a file")
    return gather(words)


def main(words: List[str]) -> int:
    """Tells what the specification names."""
    gathered = files_of("names", words)
    spec = well_read(gathered)
    write("".join(line + "\n" for line in listed(spec)))
    for place, said in sorted(traps(spec), key=lambda it: it[0].start):
        file, line = gathered.place(place.line)
        write(f"trap {file}:{line}: {said}\n")
    return 0


def choices_in_text(spec: Specification) -> Dict[str, Dict[Term, Place]]:
    """For each updated signal the terms that it takes in the order of the text, but for itself, each with where its update stands first."""
    found: Dict[str, Dict[Term, Place]] = {}
    for _, item in spec.expanded().items():
        for atom in atoms(item.formula):
            if isinstance(atom, Update):
                own = found.setdefault(atom.signal.name, {})
                if atom.term != Signal(atom.signal.name):
                    own.setdefault(atom.term, atom.place)
    return found


def listed(spec: Specification) -> List[str]:
    """The names by kind, in the order in which they stand first."""
    kinds: Dict[str, str] = {}
    for it in spec.occurrences():
        kinds.setdefault(it.name, it.kind)
    choices = choices_in_text(spec)
    reads = {signal.name for _, item in spec.expanded().items() for atom in atoms(item.formula) for term in terms(atom)
             for signal in signals_read(term)}
    lines: Dict[str, List[str]] = {kind: [] for kind in ("input", "cell", "output", "predicate", "function")}
    for name, kind in kinds.items():
        said = ""
        if kind == "signal":
            kind = "input" if name not in choices else "cell" if name in reads else "output"
            said = " | ".join(map(write_term, choices.get(name, {})))
            said = (" takes " + said if said else "") + (f" | {name} (keeps its value)" if kind == "cell" else "")
        lines[kind].append(f"{kind} {name}{said}")
    return [line for kind in lines for line in lines[kind]]


def traps(spec: Specification) -> List[Tuple[Place, str]]:
    """What may have been meant otherwise, each with its place."""
    occurrences = list(spec.occurrences())
    choices = choices_in_text(spec)
    found = once(spec, occurrences) + operators(spec) + constants(spec, choices, occurrences)
    reads = {signal.name for _, item in spec.expanded().items() for atom in atoms(item.formula) for term in terms(atom)
             for signal in signals_read(term)}
    for name, own in choices.items():
        if name not in reads and len(own) == 1:
            term, place = next(iter(own.items()))
            found.append((place, f"{name} takes {write_term(term)} at each step, since no formula names another term for it"))
    for section, item in spec.items():
        formula = spec.expand(item.formula)
        updates = any(isinstance(atom, Update) for atom in atoms(formula))
        if section.kind == "assume" and updates and may_break(formula):
            found.append((item.place, f"a program can break the assumption {short(item.formula)} by what it updates, and then owes nothing"))
        if section.kind == "guarantee" and not updates and weakest(Prefixed("!", formula), True) != Truth(False):
            cells = any(signal.name in choices for atom in atoms(formula) for term in terms(atom) for signal in signals_read(term))
            found.append((item.place, f"the guarantee {short(item.formula)} mentions no update" + (
                "; only windows say what it has to do with those of cells" if cells else " and reads no cell, so that no program has a say in it")))
    used = spec.used()
    found += [(it.place, f"{name} is a definition that no section needs") for name, it in spec.definitions.items() if name not in used]
    return found


def short(formula: Formula) -> str:
    """A formula in so many letters as go into a line."""
    said = write_formula(formula)
    return said if len(said) <= 60 else said[:57].rstrip() + "..."


def once(spec: Specification, occurrences: List[Occurrence]) -> List[Tuple[Place, str]]:
    """Names that are written once and are one letter away from another one."""
    written: Dict[str, Set[Tuple[int, int]]] = {}
    first: Dict[str, Occurrence] = {}
    for it in occurrences:
        written.setdefault(it.name, set()).add((it.written.start, it.stands.start))
        first.setdefault(it.name, it)
    names = [*written, *spec.definitions]
    found = []
    for name, places in written.items():
        near = [other for other in names if len(name) > 3 and len(other) > 3 and is_near(name, other)
                and re.sub("[0-9]", "", name) != re.sub("[0-9]", "", other)]
        if len(places) == 1 and near:
            found.append((first[name].written, f"{name} stands only here and is a {first[name].kind}; is {near[0]} meant?"))
    return found


def operators(spec: Specification) -> List[Tuple[Place, str]]:
    """Names that look like operators, where an operator could stand."""
    found: Dict[str, Tuple[Place, str]] = {}

    def looks(name: str, place: Place, kind: str) -> None:
        found.setdefault(name, (place, f"{name} is read as the name of a {kind}, and is no operator; "
                                "these are !, &&, ||, ->, <->, X, F, G, U, W and R, and true and false"))
    for _, item in spec.expanded().items():
        for atom in atoms(item.formula):
            if not isinstance(atom, Test):
                continue
            if BEFORE.match(atom.name) and atom.arguments:
                looks(atom.name, atom.place, "predicate")
            for argument in atom.arguments[:-1]:
                if isinstance(argument, Signal) and BETWEEN.match(argument.name):
                    looks(argument.name, argument.place, "signal")
            if atom.name == "?" and ALONE.match(atom.arguments[0].name):
                looks(atom.arguments[0].name, atom.place, "signal")
    return list(found.values())


def constants(spec: Specification, choices: Dict[str, Dict[Term, Place]], occurrences: List[Occurrence]) -> List[Tuple[Place, str]]:
    """Inputs that stand behind <- alone, where the same signal takes constants too."""
    behind: Dict[str, int] = {}
    total: Dict[str, int] = {}
    for it in occurrences:
        total[it.name] = total.get(it.name, 0) + 1
    for _, item in spec.expanded().items():
        for atom in atoms(item.formula):
            if isinstance(atom, Update) and isinstance(atom.term, Signal):
                behind[atom.term.name] = behind.get(atom.term.name, 0) + 1
    found = []
    for name, own in choices.items():
        known = [it for it in own if isinstance(it, Apply) and not it.arguments]
        for term, place in own.items():
            if isinstance(term, Signal) and known and term.name not in choices and behind[term.name] == total[term.name]:
                found.append((place, f"{term.name} is an input here, and {write_term(known[0])} a constant; is {term.name}() meant?"))
    return found


# ---- what a program can break ----

def may_break(formula: Formula) -> bool:
    """Whether a program can break an assumption by its updates: it does not hold whatever is updated, even where each test is as it helps
    most, but for those of premises, which are met."""
    return weakest(formula, True, True) != Truth(True)


def weakest(formula: Formula, positive: bool, met: bool = False, helps: bool = True) -> Formula:
    """The formula with each test as it helps most to make it true, or false where it is not `positive`, as far as that decides it. Where
    premises are `met`, the tests left of an arrow are as they help least."""
    if isinstance(formula, Test):
        return Truth(positive == helps)
    if isinstance(formula, Prefixed):
        inner = weakest(formula.operand, positive != (formula.operator == "!"), met, helps)
        if isinstance(inner, Truth):
            return Truth(inner.value != (formula.operator == "!"))
        return Prefixed(formula.operator, inner)
    if isinstance(formula, Joined):
        ends = formula.operator == "||"
        parts = [weakest(it, positive, met, helps) for it in formula.operands]
        left = tuple(it for it in parts if it != Truth(not ends))
        if Truth(ends) in parts or not left:
            return Truth(ends if Truth(ends) in parts else not ends)
        return left[0] if len(left) == 1 else Joined(formula.operator, left)
    if isinstance(formula, Pair) and formula.operator == "<->":
        sides = [all(isinstance(it, (Test, Truth)) for it in atoms(side)) for side in (formula.left, formula.right)]
        return Truth(positive == helps) if any(sides) else formula
    if isinstance(formula, Pair):
        arrow = formula.operator == "->"
        return decided(formula.operator, weakest(formula.left, positive != arrow, met, helps and not (met and arrow)),
                       weakest(formula.right, positive, met, helps))
    return formula


def decided(operator: str, left: Formula, right: Formula) -> Formula:
    """Two formulas with `->`, `U`, `W` or `R` between them, as far as one of them decides it."""
    if operator == "->" and left == Truth(True):
        return right
    always = {"->": left == Truth(False) or right == Truth(True), "U": right == Truth(True),
              "W": right == Truth(True) or left == Truth(True), "R": right == Truth(True)}[operator]
    never = right == Truth(False) and operator in ("U", "R")
    return Truth(True) if always else Truth(False) if never else Pair(operator, left, right)
