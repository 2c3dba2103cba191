"""What symbols mean and what is read: tables, machine words, and inputs."""
from dataclasses import dataclass, field
from typing import Callable, Dict, List, Optional, Sequence, Tuple, Union

from .formulas import Signal, Term, Test
from .tokens import Reader, Unreadable, is_name, is_number

# What each operation of machine words gives for its arguments, before the result is taken modulo 2 to the power of the bits.
OPERATIONS: Dict[str, Callable[..., int]] = {
    "add": lambda a, b: a + b, "sub": lambda a, b: a - b, "mul": lambda a, b: a * b, "and": lambda a, b: a & b, "or": lambda a, b: a | b,
    "xor": lambda a, b: a ^ b, "not": lambda a: ~a, "inc": lambda a: a + 1, "dec": lambda a: a - 1, "shl": lambda a: a * 2,
    "shr": lambda a: a // 2}
TESTS: Dict[str, Callable[..., bool]] = {
    "less": lambda a, b: a < b, "atmost": lambda a, b: a <= b, "zero": lambda a: a == 0, "odd": lambda a: a % 2 == 1,
    "nonzero": lambda a: a != 0}


@dataclass
class Tables:
    """The values of functions and predicates as tables, and those of cells at first."""
    domain: int
    functions: Dict[str, List[int]] = field(default_factory=dict)
    predicates: Dict[str, List[int]] = field(default_factory=dict)
    cells: Dict[str, int] = field(default_factory=dict)

    def apply(self, name: str, arguments: Sequence[int]) -> int:
        """The value of a function."""
        return self.functions[name][self.index(arguments)]

    def holds(self, name: str, arguments: Sequence[int]) -> bool:
        """The truth of a predicate other than equality."""
        return self.predicates[name][self.index(arguments)] == 1

    def index(self, arguments: Sequence[int]) -> int:
        """Where the entry for a list of arguments stands in its table."""
        found = 0
        for value in arguments:
            found = found * self.domain + value
        return found


@dataclass
class Words:
    """Functions and predicates as operations and tests of machine words, a constant as its number, and the values of cells at first."""
    bits: int
    functions: Dict[str, Union[str, int]] = field(default_factory=dict)
    predicates: Dict[str, str] = field(default_factory=dict)
    cells: Dict[str, int] = field(default_factory=dict)

    @property
    def domain(self) -> int:
        """How many values there are."""
        return 2 ** self.bits

    def apply(self, name: str, arguments: Sequence[int]) -> int:
        """The value of a function."""
        meant = self.functions[name]
        return (meant if isinstance(meant, int) else OPERATIONS[meant](*arguments)) % self.domain

    def holds(self, name: str, arguments: Sequence[int]) -> bool:
        """The truth of a predicate other than equality."""
        return TESTS[self.predicates[name]](*arguments)


Meaning = Union[Tables, Words]


@dataclass
class Inputs:
    """The values that are read: the inputs in the order in which they are named, the rows of the stem, and those of the cycle."""
    names: List[str]
    stem: List[List[int]]
    cycle: List[List[int]]

    @property
    def rows(self) -> List[List[int]]:
        """The rows of the stem and then those of the cycle."""
        return self.stem + self.cycle


def value_of(term: Term, values: Dict[str, int], meaning: Meaning) -> int:
    """The value of a term, where signals have values."""
    if isinstance(term, Signal):
        return values[term.name]
    return meaning.apply(term.name, [value_of(it, values, meaning) for it in term.arguments])


def truth_of(test: Test, values: Dict[str, int], meaning: Meaning) -> bool:
    """The truth of a test, where signals have values. `eq` with two arguments is equality."""
    arguments = [value_of(it, values, meaning) for it in test.arguments]
    if test.name == "eq" and len(arguments) == 2:
        return arguments[0] == arguments[1]
    return meaning.holds(test.name, arguments)


# ---- reading ----

def read_meaning(text: str) -> Meaning:
    """The tables or the machine words that a text is."""
    reader = Reader(text)
    return read_words(reader) if reader.word() == "tslwords" else read_tables(reader)


def read_entry(reader: Reader) -> Tuple[str, str]:
    """What an entry is of, `func`, `pred` or `cell`, and its name."""
    kind = reader.word()
    if kind not in ("func", "pred", "cell"):
        reader.fail("func, pred or cell")
    reader.take()
    if not is_name_here(reader.word()) and not (kind == "pred" and reader.word() == "?"):
        reader.fail("a name")
    return kind, reader.take().word


def is_name_here(word: str) -> bool:
    """Whether a token is a name where no word is reserved."""
    return is_name(word) or (word != "" and word[0].isalpha())


def numbers(reader: Reader) -> List[int]:
    """The numbers that come next."""
    found = []
    while is_number(reader.word()):
        found.append(reader.take_number())
    return found


def read_tables(reader: Reader) -> Tables:
    """Tables, from their head on."""
    head(reader, "tsltables")
    reader.take("domain")
    tables = Tables(reader.take_number())
    while reader.word():
        kind, name = read_entry(reader)
        if kind == "cell":
            tables.cells[name] = reader.take_number()
        else:
            (tables.functions if kind == "func" else tables.predicates)[name] = numbers(reader)
    return tables


def read_words(reader: Reader) -> Words:
    """Machine words, from their head on."""
    head(reader, "tslwords")
    reader.take("bits")
    words = Words(reader.take_number())
    while reader.word():
        kind, name = read_entry(reader)
        if kind == "cell":
            words.cells[name] = reader.take_number()
        elif kind == "func" and reader.word() == "const":
            reader.take()
            words.functions[name] = reader.take_number()
        else:
            known = OPERATIONS if kind == "func" else TESTS
            if reader.word() not in known:
                reader.fail("an operation" if kind == "func" else "a test")
            if kind == "func":
                words.functions[name] = reader.take().word
            else:
                words.predicates[name] = reader.take().word
    return words


def head(reader: Reader, word: str) -> None:
    """Takes the first line of a part."""
    reader.take(word)
    reader.take("1")


def read_inputs(text: str) -> Inputs:
    """The inputs that a text is."""
    reader = Reader(text)
    head(reader, "tslinputs")
    inputs = Inputs([], [], [])
    while reader.word() == "input":
        reader.take()
        if not is_name_here(reader.word()):
            reader.fail("a name")
        inputs.names.append(reader.take().word)
    for word, rows in (("stem", inputs.stem), ("cycle", inputs.cycle)):
        reader.take(word)
        while reader.word() == "row":
            reader.take()
            rows.append(numbers(reader))
    if reader.word() or not inputs.cycle:
        reader.fail("row")
    return inputs


# ---- writing ----

def write_tables(tables: Tables) -> str:
    """The text of tables."""
    lines = ["tsltables 1", f"domain {tables.domain}"]
    for kind, entries in (("func", tables.functions), ("pred", tables.predicates)):
        lines += [" ".join([kind, name, *map(str, values)]) for name, values in entries.items()]
    lines += [f"cell {name} {value}" for name, value in tables.cells.items()]
    return "".join(line + "\n" for line in lines)


def write_inputs(inputs: Inputs) -> str:
    """The text of inputs."""
    lines = ["tslinputs 1", *(f"input {name}" for name in inputs.names)]
    for word, rows in (("stem", inputs.stem), ("cycle", inputs.cycle)):
        lines.append(word)
        lines += [" ".join(["row", *map(str, row)]) for row in rows]
    return "".join(line + "\n" for line in lines)
