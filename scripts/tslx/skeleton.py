"""`tslx tables`: tables or machine words, and inputs, that fit a specification, to fill in."""
import itertools
from typing import List, Tuple

from .files import Stop, gather, write
from .names import well_read
from .options import number
from .programs import HEAD
from .specifications import Space, space_of

HELP = """tslx tables [--domain D] FILE..
tslx tables --words BITS FILE..
Writes tables and inputs that fit a specification, all entries 0, with a comment on each: a text to fill in, for run.
  --domain D        1 to 256; 2 by default: how many values there are
  --words BITS      1 to 16: machine words of so many bits in place of tables
"""
MOST_ENTRIES = 65536


def main(words: List[str]) -> int:
    """Writes tables, or words, and inputs."""
    domain, bits, files = options(words)
    gathered = gather(files)
    text = gathered.text
    if "\n" + HEAD + "\n" in "\n" + text and not text.startswith(HEAD):
        gathered.data = text[:("\n" + text).index("\n" + HEAD + "\n")].encode("latin-1")
    space = space_of(well_read(gathered))
    write("".join(line + "\n" for line in (word_lines(space, bits) if bits else table_lines(space, domain)) + input_lines(space)))
    return 0


def options(words: List[str]) -> Tuple[int, int, List[str]]:
    """The number of values, that of bits or 0, and the files."""
    given = {"--domain": 2, "--words": 0}
    most = {"--domain": 256, "--words": 16}
    files: List[str] = []
    left = list(words)
    seen = []
    while left:
        name, equals, value = left.pop(0).partition("=")
        if name in given:
            if not equals and not left:
                raise Stop(f"{name} takes 1 to {most[name]}, and nothing stands behind it")
            seen.append(name)
            given[name] = number(name, value if equals else left.pop(0), 1, most[name])
        elif name.startswith("-") and name != "-":
            raise Stop(f"tables has no option {name}; it takes --domain and --words")
        else:
            files.append(name + equals + value)
    if len(seen) > 1:
        raise Stop("one of --domain and --words is given, and once")
    if not files:
        raise Stop("tables takes a file")
    return given["--domain"], given["--words"], files


def called(name: str, arity: int) -> str:
    """A function or predicate with letters for its arguments."""
    return name + "()" if arity == 0 else " ".join([name, *(f"x{it + 1}" for it in range(arity))] if arity > 3 else [name, *"xyz"[:arity]])


def table_lines(space: Space, domain: int) -> List[str]:
    """Tables of zeros."""
    lines = ["tsltables 1", f"domain {domain}  // the values are 0 to {domain - 1}"]
    for kind, names in (("func", space.functions), ("pred", space.predicates)):
        for name, arity in names.items():
            if (name, arity) == ("eq", 2) and kind == "pred":
                continue
            if domain ** arity > MOST_ENTRIES:
                raise Stop(f"{name} has {arity} arguments, so with {domain} values its table needs {domain ** arity} entries, and {MOST_ENTRIES} "
                           "are the most; give a smaller --domain")
            lines.append(f"{kind} {name}{' 0' * domain ** arity}  // {of_entry(kind, name, arity, domain)}")
    return lines + [f"cell {name} 0  // its value at first" for name in space.cells]


def of_entry(kind: str, name: str, arity: int, domain: int) -> str:
    """What the entries of a table are."""
    if name == "?":
        return f"1 where a Boolean signal of the value {'0' if domain == 1 else '0, 1' if domain == 2 else '0, 1, ..'} is true"
    what = called(name, arity) + ("" if kind == "func" else ", 1 where it is true")
    if arity == 0:
        return what
    first = [" ".join(map(str, it)) for it in itertools.islice(itertools.product(range(domain), repeat=arity), 4)]
    return f"{what}, of {', '.join(first)}{', ..' if domain ** arity > 4 else ''}"


def word_lines(space: Space, bits: int) -> List[str]:
    """Machine words, with operations that have the right number of arguments."""
    lines = ["tslwords 1", f"bits {bits}  // the values are 0 to {2 ** bits - 1}"]
    for name, arity in space.functions.items():
        if arity > 2:
            raise Stop(f"{name} has {arity} arguments, and operations of machine words have at most 2; leave --words out")
        lines.append(f"func {name} " + ("const 0  // or another number", "inc  // or not, dec, shl, shr",
                                        "add  // or sub, mul, and, or, xor")[arity] + f": {called(name, arity)}")
    for name, arity in space.predicates.items():
        if (name, arity) == ("eq", 2):
            continue
        if not 1 <= arity <= 2:
            raise Stop(f"{name} has {arity} arguments, and tests of machine words have 1 or 2; leave --words out")
        what = "Boolean signals" if name == "?" else called(name, arity)
        lines.append(f"pred {name} " + ("nonzero  // or zero, odd", "less  // or atmost")[arity - 1] + f": {what}")
    return lines + [f"cell {name} 0  // its value at first" for name in space.cells]


def input_lines(space: Space) -> List[str]:
    """Inputs of one row that repeats."""
    lines = ["tslinputs 1", *(f"input {name}" for name in space.inputs), "stem  // rows that come once, as those below; here none"]
    row = "row" + " 0" * len(space.inputs)
    return lines + ["cycle  // rows that repeat, at least one, each with a value for each input in this order", row]
