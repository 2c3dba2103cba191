"""Terms, tests, updates and formulas as trees, how they are read from tokens, and how they are written.

Two of them are equal where they say the same: places are not compared."""
import sys
from dataclasses import dataclass, field
from typing import Callable, Dict, Iterator, List, Optional, Tuple, Union

from .tokens import Place, Reader, is_name

# Formulas nest up to 200 levels deep, and each takes a few calls.
sys.setrecursionlimit(max(sys.getrecursionlimit(), 20000))

NOWHERE = Place(0, 0, 0)
# From the weakest on; arrows go to the right.
OPERATORS = ("<->", "->", "||", "&&")


def placed() -> Place:
    """The field of a tree that says where its first token stands in the text that it was read from."""
    return field(default=NOWHERE, compare=False, repr=False)


@dataclass(frozen=True)
class Signal:
    """The value of a signal."""
    name: str
    place: Place = placed()


@dataclass(frozen=True)
class Apply:
    """A function of arguments; a constant has none."""
    name: str
    arguments: Tuple["Term", ...]
    place: Place = placed()


Term = Union[Signal, Apply]


@dataclass(frozen=True)
class Test:
    """A predicate of arguments. The predicate `?` of a signal is a Boolean signal."""
    name: str
    arguments: Tuple[Term, ...]
    place: Place = placed()


@dataclass(frozen=True)
class Update:
    """That the signal takes the value of the term in this step."""
    signal: Signal
    term: Term
    place: Place = placed()


@dataclass(frozen=True)
class Truth:
    """`true` or `false`."""
    value: bool
    place: Place = placed()


@dataclass(frozen=True)
class Prefixed:
    """One of `!`, `X`, `F` and `G` before a formula."""
    operator: str
    operand: "Formula"
    place: Place = placed()


@dataclass(frozen=True)
class Joined:
    """Two or more formulas with `&&` or with `||` between them."""
    operator: str
    operands: Tuple["Formula", ...]
    place: Place = placed()


@dataclass(frozen=True)
class Pair:
    """Two formulas with `->`, `<->`, `U`, `W` or `R` between them."""
    operator: str
    left: "Formula"
    right: "Formula"
    place: Place = placed()


@dataclass(frozen=True)
class Use:
    """The use of a definition, with the signals that it passes."""
    name: str
    arguments: Tuple[Signal, ...]
    place: Place = placed()


Formula = Union[Truth, Test, Update, Prefixed, Joined, Pair, Use]


# ---- reading ----

def read_term(reader: Reader) -> Term:
    """The longest term that begins with the next token."""
    if reader.word() == "(":
        reader.take()
        term = read_term(reader)
        reader.take(")")
        return term
    name = reader.take_name()
    if ends_constant(reader):
        return Apply(name.word, (), name.place)
    arguments = read_arguments(reader)
    return Apply(name.word, arguments, name.place) if arguments else Signal(name.word, name.place)


def ends_constant(reader: Reader) -> bool:
    """Takes `(` `)` where they come next."""
    if reader.word() == "(" and reader.word(1) == ")":
        reader.at += 2
        return True
    return False


def read_arguments(reader: Reader) -> Tuple[Term, ...]:
    """The arguments that come next, perhaps none."""
    found: List[Term] = []
    while is_name(reader.word()) or reader.word() == "(":
        if reader.word() == "(":
            found.append(read_term(reader))
            continue
        name = reader.take()
        found.append(Apply(name.word, (), name.place) if ends_constant(reader) else Signal(name.word, name.place))
    return tuple(found)


def read_test(reader: Reader) -> Test:
    """The longest test that begins with the next token."""
    name = reader.take_name()
    if ends_constant(reader):
        return Test(name.word, (), name.place)
    arguments = read_arguments(reader)
    return Test(name.word, arguments, name.place) if arguments else Test("?", (Signal(name.word, name.place),), name.place)


def read_update(reader: Reader) -> Update:
    """An update in its square brackets."""
    place = reader.take("[").place
    name = reader.take_name()
    reader.take("<-")
    term = read_term(reader)
    reader.take("]")
    return Update(Signal(name.word, name.place), term, place)


def read_formula(reader: Reader, parameters_of: Optional[Dict[str, int]] = None) -> Formula:
    """The longest formula that begins with the next token. Names that are defined are read as uses, with as many names behind them as the
    definition has parameters."""
    defined = parameters_of or {}

    def formula() -> Formula:
        place = reader.place()
        first = prefix()
        if reader.word() in ("U", "W", "R"):
            return Pair(reader.take().word, first, prefix(), place)
        return joined(0, place, first)

    def joined(level: int, place: Place, first: Optional[Formula]) -> Formula:
        """What operators of a level and of higher ones join; the first operand, where it is read already."""
        if level == len(OPERATORS):
            return prefix() if first is None else first
        operator = OPERATORS[level]
        parts = [joined(level + 1, place, first)]
        while reader.word() == operator and (level > 1 or len(parts) == 1):
            reader.take()
            parts.append(joined(level + (level > 1), reader.place(), None))
        if len(parts) == 1:
            return parts[0]
        return Joined(operator, tuple(parts), place) if level > 1 else Pair(operator, parts[0], parts[1], place)

    def prefix() -> Formula:
        if reader.word() in ("!", "X", "F", "G"):
            token = reader.take()
            return Prefixed(token.word, prefix(), token.place)
        return atom()

    def atom() -> Formula:
        word, place = reader.word(), reader.place()
        if word in ("true", "false"):
            reader.take()
            return Truth(word == "true", place)
        if word == "(":
            reader.take()
            inner = formula()
            reader.take(")")
            return inner
        if word == "[":
            return read_update(reader)
        if word in defined:
            reader.take()
            passed = [reader.take_name() for _ in range(defined[word])]
            return Use(word, tuple(Signal(it.word, it.place) for it in passed), place)
        if not is_name(word):
            reader.fail("a test, an update or a formula in brackets")
        return read_test(reader)

    return formula()


def test_of(text: str) -> Test:
    """The test that a text is."""
    return whole(text, read_test)


def update_of(text: str) -> Update:
    """The update that a text is."""
    return whole(text, read_update)


def term_of(text: str) -> Term:
    """The term that a text is."""
    return whole(text, read_term)


def whole(text: str, read: Callable):
    """What a function reads from a text and that leaves nothing of it."""
    reader = Reader(text)
    found = read(reader)
    if reader.word():
        reader.fail("nothing more")
    return found


# ---- writing ----

def write_argument(term: Term) -> str:
    """A term as an argument: in brackets where it has arguments of its own."""
    written = write_term(term)
    return f"({written})" if isinstance(term, Apply) and term.arguments else written


def write_term(term: Term) -> str:
    """A term as `tsl` writes it."""
    if isinstance(term, Signal):
        return term.name
    if not term.arguments:
        return term.name + "()"
    return " ".join([term.name, *map(write_argument, term.arguments)])


def write_test(test: Test) -> str:
    """A test as `tsl` writes it."""
    if test.name == "?":
        return write_term(test.arguments[0])
    return write_term(Apply(test.name, test.arguments))


def write_update(update: Update) -> str:
    """An update as `tsl` writes it."""
    return f"[{update.signal.name} <- {write_term(update.term)}]"


def write_formula(formula: Formula) -> str:
    """A formula that a specification can hold, with no more brackets than it needs."""
    def rank(part: Formula) -> int:
        if isinstance(part, Pair):
            return {"->": 2, "<->": 1}.get(part.operator, 0)
        return {"&&": 4, "||": 3}[part.operator] if isinstance(part, Joined) else 5

    def within(part: Formula, least: int) -> str:
        return write_formula(part) if rank(part) >= least else f"({write_formula(part)})"

    if isinstance(formula, Truth):
        return "true" if formula.value else "false"
    if isinstance(formula, Test):
        return write_test(formula)
    if isinstance(formula, Update):
        return write_update(formula)
    if isinstance(formula, Use):
        return " ".join([formula.name, *(it.name for it in formula.arguments)])
    if isinstance(formula, Prefixed):
        between = "" if formula.operator == "!" else " "
        return formula.operator + between + within(formula.operand, 5)
    if isinstance(formula, Joined):
        return f" {formula.operator} ".join(within(it, rank(formula) + 1) for it in formula.operands)
    own = rank(formula)
    least = (5, 5) if own == 0 else (own + 1, own)
    return f"{within(formula.left, least[0])} {formula.operator} {within(formula.right, least[1])}"


# ---- walking ----

def parts_of(formula: Formula) -> Tuple[Formula, ...]:
    """The formulas that a formula is made of; atoms have none."""
    if isinstance(formula, Prefixed):
        return (formula.operand,)
    if isinstance(formula, Joined):
        return formula.operands
    if isinstance(formula, Pair):
        return (formula.left, formula.right)
    return ()


def atoms(formula: Formula) -> Iterator[Union[Truth, Test, Update, Use]]:
    """The atoms of a formula, from the left."""
    parts = parts_of(formula)
    if not parts:
        yield formula
    for part in parts:
        yield from atoms(part)


def terms(atom: Formula) -> Tuple[Term, ...]:
    """The terms that a test or an update reads."""
    if isinstance(atom, Test):
        return atom.arguments
    return (atom.term,) if isinstance(atom, Update) else ()


def signals_read(term: Union[Term, Test]) -> Iterator[Signal]:
    """The signals that a term or a test reads, from the left."""
    if isinstance(term, Signal):
        yield term
    else:
        for argument in term.arguments:
            yield from signals_read(argument)


def functions_in(term: Union[Term, Test]) -> Iterator[Apply]:
    """The applications of functions in a term or a test, outer ones first."""
    if isinstance(term, Apply):
        yield term
    for argument in getattr(term, "arguments", ()):
        yield from functions_in(argument)


def mapped(formula: Formula, atom: Callable[[Formula], Formula]) -> Formula:
    """The formula with each atom replaced by what a function gives for it."""
    if isinstance(formula, Prefixed):
        return Prefixed(formula.operator, mapped(formula.operand, atom), formula.place)
    if isinstance(formula, Joined):
        return Joined(formula.operator, tuple(mapped(it, atom) for it in formula.operands), formula.place)
    if isinstance(formula, Pair):
        return Pair(formula.operator, mapped(formula.left, atom), mapped(formula.right, atom), formula.place)
    return atom(formula)


def renamed_term(term: Term, names: Dict[str, Signal]) -> Term:
    """The term with other signals in the place of those that a dictionary names; places stay."""
    if isinstance(term, Signal):
        return Signal(names[term.name].name, term.place) if term.name in names else term
    return Apply(term.name, tuple(renamed_term(it, names) for it in term.arguments), term.place)


def renamed(formula: Formula, names: Dict[str, Signal]) -> Formula:
    """The formula with other signals in the place of those that a dictionary names; places stay."""
    def atom(it: Formula) -> Formula:
        if isinstance(it, Test):
            return Test(it.name, tuple(renamed_term(term, names) for term in it.arguments), it.place)
        if isinstance(it, Update):
            return Update(renamed_term(it.signal, names), renamed_term(it.term, names), it.place)
        if isinstance(it, Use):
            return Use(it.name, tuple(renamed_term(passed, names) for passed in it.arguments), it.place)
        return it
    return mapped(formula, atom) if names else formula


