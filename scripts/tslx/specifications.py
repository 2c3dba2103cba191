"""Specifications: their sections and definitions, with places and comments, as they are written and with definitions expanded."""
from dataclasses import dataclass, field
from typing import Dict, Iterator, List, Optional, Tuple, Union

from .formulas import (Apply, Formula, Joined, Prefixed, Signal, Term, Test, Truth, Update, Use, atoms, functions_in, mapped, read_formula,
                       renamed, signals_read, terms, write_formula)
from .tokens import (BEGINS_SECTION, KINDS_OF_SECTION, Comment, Place, Reader, Token, is_name, scan)


@dataclass(frozen=True)
class Item:
    """One formula of a section, and where it stands: its first byte, and how many bytes stand before its end."""
    formula: Formula
    place: Place
    end: int


@dataclass(frozen=True)
class Section:
    """`always assume { .. }` and the like. `when` is the word before the kind: `always`, `initially` or nothing. `close` is where its `}`
    stands, and `end` how many bytes stand before what comes behind it."""
    when: str
    kind: str
    items: Tuple[Item, ...]
    place: Place
    close: Place
    end: int

    @property
    def always(self) -> bool:
        """Whether its formulas hold at every step, and not at the first alone."""
        return self.when == "always"


@dataclass(frozen=True)
class Definition:
    """A name for a formula, with parameters that stand for signals. `end` is how many bytes stand before what comes behind its `;`."""
    name: str
    parameters: Tuple[Signal, ...]
    body: Formula
    place: Place
    end: int


@dataclass(frozen=True)
class Occurrence:
    """A name that the expanded text has: its kind (`signal`, `function`, `predicate`), where it is written, and where it stands, which for
    a passed name is where the parameter stands in the body. A name that several uses of one definition have from its body is written once."""
    name: str
    kind: str
    written: Place
    stands: Place


@dataclass
class Specification:
    """A specification as it is written. `text` is what it was read from, `blocks` are its sections and definitions in order."""
    text: str
    blocks: List[Union[Section, Definition]]
    comments: List[Comment] = field(default_factory=list)

    @property
    def sections(self) -> List[Section]:
        """The sections in order."""
        return [it for it in self.blocks if isinstance(it, Section)]

    @property
    def definitions(self) -> Dict[str, Definition]:
        """The definitions by name, in order."""
        return {it.name: it for it in self.blocks if isinstance(it, Definition)}

    def items(self) -> List[Tuple[Section, Item]]:
        """The formulas of all sections in order, each with its section."""
        return [(section, item) for section in self.sections for item in section.items]

    def expand(self, formula: Formula) -> Formula:
        """The formula with each use replaced by what it stands for."""
        defined = self.definitions

        def atom(it: Formula) -> Formula:
            if not isinstance(it, Use):
                return it
            definition = defined[it.name]
            passed = {own.name: given for own, given in zip(definition.parameters, it.arguments)}
            return mapped(renamed(definition.body, passed), atom)
        return mapped(formula, atom)

    def expanded(self) -> "Specification":
        """The specification without definitions, each use being replaced by what it stands for. Places stay those of the text."""
        return Specification(self.text, [
            Section(section.when, section.kind, tuple(Item(self.expand(it.formula), it.place, it.end) for it in section.items),
                    section.place, section.close, section.end) for section in self.sections], self.comments)

    def used(self) -> List[str]:
        """The definitions that some section needs, in order."""
        defined = self.definitions
        found: Dict[str, bool] = {}
        left = [item.formula for _, item in self.items()]
        while left:
            for it in atoms(left.pop()):
                if isinstance(it, Use) and it.name not in found:
                    found[it.name] = True
                    left.append(defined[it.name].body)
        return [name for name in defined if name in found]

    def occurrences(self) -> Iterator[Occurrence]:
        """The names of the expanded text, from its first to its last; those of a term or test before those of its arguments."""
        defined = self.definitions

        def of_signal(it: Signal, passed: Dict[str, Signal]) -> Occurrence:
            given = passed.get(it.name, it)
            return Occurrence(given.name, "signal", given.place, it.place)

        def of_term(it: Term, passed: Dict[str, Signal]) -> Iterator[Occurrence]:
            if isinstance(it, Signal):
                yield of_signal(it, passed)
            else:
                yield Occurrence(it.name, "function", it.place, it.place)
                for argument in it.arguments:
                    yield from of_term(argument, passed)

        def of_formula(formula: Formula, passed: Dict[str, Signal]) -> Iterator[Occurrence]:
            for it in atoms(formula):
                if isinstance(it, Use):
                    definition = defined[it.name]
                    given = [passed.get(argument.name, argument) for argument in it.arguments]
                    inner = {own.name: argument for own, argument in zip(definition.parameters, given)}
                    yield from of_formula(definition.body, inner)
                elif isinstance(it, Update):
                    yield of_signal(it.signal, passed)
                    yield from of_term(it.term, passed)
                elif isinstance(it, Test):
                    if it.name != "?":
                        yield Occurrence(it.name, "predicate", it.place, it.place)
                    for argument in it.arguments:
                        yield from of_term(argument, passed)
        for _, item in self.items():
            yield from of_formula(item.formula, {})

    def line_of(self, place: Place) -> str:
        """The line of the text in which a place stands."""
        return self.text.split("\n")[place.line - 1]


@dataclass
class Space:
    """What a controller decides about: the signals by kind, in the order of their numbers; the tests; and the terms that each cell and each
    output may take. Tests and terms stand in the order of the whole formula, whose assumptions come first, and of these and of the
    guarantees what holds at the first step; a cell that no formula keeps takes itself last."""
    inputs: List[str]
    cells: List[str]
    outputs: List[str]
    tests: List[Test]
    choices: Dict[str, List[Term]]
    functions: Dict[str, int]
    predicates: Dict[str, int]

    @property
    def controlled(self) -> List[str]:
        """The cells and then the outputs."""
        return self.cells + self.outputs


def in_whole_order(spec: Specification) -> List[Formula]:
    """The formulas of an expanded specification as the whole formula has them."""
    return [item.formula for kind in KINDS_OF_SECTION for always in (False, True)
            for section, item in spec.items() if section.kind == kind and section.always == always]


def space_of(spec: Specification) -> Space:
    """The signals, tests and choices of a specification."""
    plain = spec.expanded()
    order: Dict[str, bool] = {}
    functions: Dict[str, int] = {}
    predicates: Dict[str, int] = {}
    updated, reads = set(), set()
    for _, item in plain.items():
        for atom in atoms(item.formula):
            if isinstance(atom, Update):
                order[atom.signal.name] = True
                updated.add(atom.signal.name)
            for term in terms(atom):
                for signal in signals_read(term):
                    order[signal.name] = True
                    reads.add(signal.name)
                for apply in functions_in(term):
                    functions.setdefault(apply.name, len(apply.arguments))
            if isinstance(atom, Test):
                predicates.setdefault(atom.name, len(atom.arguments))
    tests: Dict[Test, bool] = {}
    choices: Dict[str, Dict[Term, bool]] = {name: {} for name in order if name in updated}
    for formula in in_whole_order(plain):
        for atom in atoms(formula):
            if isinstance(atom, Test):
                tests[atom] = True
            if isinstance(atom, Update):
                choices[atom.signal.name][atom.term] = True
    cells = [name for name in order if name in updated and name in reads]
    for name in cells:
        choices[name][Signal(name)] = True
    outputs = [name for name in order if name in updated and name not in reads]
    return Space([name for name in order if name not in updated], cells, outputs, list(tests),
                 {name: list(choices[name]) for name in cells + outputs}, functions, predicates)


# ---- reading ----

def parameters_by_name(tokens: List[Token]) -> Dict[str, int]:
    """How many parameters each definition has: names of a text and, for each, the names behind it in its head."""
    found: Dict[str, int] = {}
    at = 0
    while at < len(tokens):
        if tokens[at].word == "{":
            while at < len(tokens) and tokens[at].word != "}":
                at += 1
            at += 1
        elif is_name(tokens[at].word):
            head = at
            while at < len(tokens) and is_name(tokens[at].word):
                at += 1
            found.setdefault(tokens[head].word, at - head - 1)
            while at < len(tokens) and tokens[at].word != ";" and tokens[at].word not in BEGINS_SECTION:
                at += 1
            at += at < len(tokens) and tokens[at].word == ";"
        else:
            at += 1
    return found


def read_specification(text: str) -> Specification:
    """The specification that a text is."""
    tokens, comments = scan(text)
    reader = Reader(text, tokens)
    defined = parameters_by_name(tokens)
    blocks: List[Union[Section, Definition]] = []
    while reader.word():
        place = reader.place()
        if is_name(reader.word()):
            name = reader.take()
            parameters = []
            while is_name(reader.word()):
                token = reader.take()
                parameters.append(Signal(token.word, token.place))
            reader.take("=")
            own = {it: count for it, count in defined.items() if it not in {own.name for own in parameters}}
            body = read_formula(reader, own)
            reader.take(";")
            blocks.append(Definition(name.word, tuple(parameters), body, place, reader.end()))
            continue
        when = reader.take().word if reader.word() in ("always", "initially") else ""
        if reader.word() not in KINDS_OF_SECTION:
            reader.fail("assume or guarantee" if when else "always, initially, assume, guarantee or a definition")
        kind = reader.take().word
        reader.take("{")
        items: List[Item] = []
        while reader.word() != "}":
            start = reader.place()
            formula = read_formula(reader, defined)
            items.append(Item(formula, start, reader.end()))
            if reader.word() != ";":
                break
            reader.take()
        close = reader.take("}").place
        blocks.append(Section(when, kind, tuple(items), place, close, reader.end()))
    return Specification(text, blocks, comments)


# ---- writing ----

def write_specification(spec: Specification) -> str:
    """A text of the same sections and definitions, without comments. `read_specification` reads it as the same."""
    lines: List[str] = []
    for block in spec.blocks:
        if isinstance(block, Definition):
            head = " ".join([block.name, *(it.name for it in block.parameters)])
            lines.append(f"{head} = {write_formula(block.body)};")
        else:
            lines.append(" ".join(filter(None, [block.when, block.kind])) + " {")
            lines += [f"  {write_formula(item.formula)};" for item in block.items]
            lines.append("}")
    return "".join(line + "\n" for line in lines)


def without(spec: Specification, left_out: List[Item]) -> str:
    """The text of the specification as it is written, with blanks in the place of some formulas of its sections: lines and columns of all
    others stay."""
    text = spec.text
    dropped = {item.place.start for item in left_out}
    for section in spec.sections:
        for item in section.items:
            if item.place.start in dropped:
                end = item.end
                behind = scan_one(text, end)
                if behind and behind.word == ";":
                    end = behind.end
                gone = "".join(c if c in "\n\r\t" else " " for c in text[item.place.start:end])
                text = text[:item.place.start] + gone + text[end:]
    return text


def scan_one(text: str, at: int) -> Optional[Token]:
    """The first token of a text from a position on, with places as if the text began there."""
    tokens = scan(text[at:], strict=False)[0]
    if not tokens:
        return None
    place = tokens[0].place
    return Token(tokens[0].word, Place(place.line, place.column, place.start + at))


def nodes_of(formula: Formula) -> int:
    """How much an expanded formula counts towards the limit of nodes."""
    def of_term(term: Term) -> int:
        return 1 + sum(map(of_term, term.arguments)) if isinstance(term, Apply) else 1
    if isinstance(formula, Truth):
        return 1
    if isinstance(formula, (Test, Update)):
        return 1 + sum(map(of_term, terms(formula)))
    if isinstance(formula, Prefixed):
        return 1 + nodes_of(formula.operand)
    if isinstance(formula, Joined):
        return 1 + sum(map(nodes_of, formula.operands))
    if isinstance(formula, Use):
        raise ValueError("an expanded formula has no use")
    left, right = nodes_of(formula.left), nodes_of(formula.right)
    return 1 + left * (2 if formula.operator == "<->" else 1) + right * (2 if formula.operator in ("<->", "W") else 1)
