"""`tslx code`: a program as a step function of another language, and its control as a circuit in Verilog."""
import re
from typing import Callable, Dict, FrozenSet, List, Tuple, Union

from .asking import ask
from .circuits import Circuit, read_circuit
from .files import Stop, gather, shown, write
from .formulas import Apply, Signal, Term, Test, Update, write_test, write_update
from .given import number_in, options_of, parts_of_text, program_in, refused, title_of
from .programs import Branch, Leaf, Node, Program
from .specifications import read_specification, space_of

# A branch that stands deeper than this in a function begins a function of its own, and so does a node that several lead to, but for leaves
# with few terms; a term that is nested deeper is computed in parts. So the text is about as long as the program, and no compiler meets its
# limits.
DEEPEST_BRANCH = 16
DEEPEST_TERM = 10
FEW_TERMS = 12

# ---- names ----

C_WORDS = frozenset("""
alignas alignof and and_eq asm atomic_cancel auto bitand bitor bool break case catch char class co_await co_return co_yield compl concept
const const_cast consteval constexpr constinit continue decltype default delete do double dynamic_cast else enum explicit export extern
float for friend goto i386 if inline int linux long mutable namespace new noexcept not not_eq nullptr operator or or_eq private protected
public register reinterpret_cast requires restrict return short signed sizeof static static_assert static_cast struct switch template this
thread_local throw try typedef typeid typename typeof typeof_unqual union unix unsigned using virtual void volatile wchar_t while xor
xor_eq vax sun errno assert stdin stdout stderr NULL EOF own state unused""".split())
PYTHON_WORDS = frozenset("""
False None True and as assert async await break case class continue def del elif else except exec finally for from global if import in is
lambda match nonlocal not or pass print raise return try type while with yield Any dataclass self state""".split())
JAVASCRIPT_WORDS = frozenset("""
abstract arguments async await boolean break byte case catch char class const constructor continue debugger default delete do double else
enum eval export extends final finally float for function get goto hasOwnProperty if implements import in instanceof int interface
isPrototypeOf let long module native new null package private propertyIsEnumerable protected prototype public return set short state static
super switch synchronized then this throw throws toLocaleString toString transient try typeof undefined valueOf var void volatile while
with yield""".split())
RUST_WORDS = frozenset("""
Self abstract as async await become box break const continue crate do dyn else enum extern final fn for gen if impl in let loop macro match
mod move mut override priv pub raw ref return self state static struct super trait try type typeof union unsafe unsized use virtual where
while yield""".split())
VERILOG_WORDS = frozenset("""
accept_on alias always always_comb always_ff always_latch and assert assign assume automatic before begin bind bins binsof bit break buf
bufif0 bufif1 byte case casex casez cell chandle checker class clock clocking cmos config const constraint context continue cover covergroup
coverpoint cross deassign default defparam design disable dist do edge else end endcase endchecker endclass endclocking endconfig
endfunction endgenerate endgroup endinterface endmodule endpackage endprimitive endprogram endproperty endsequence endspecify endtable
endtask enum event eventually expect export extends extern final first_match for force foreach forever fork forkjoin function generate
genvar global highz0 highz1 if iff ifnone ignore_bins illegal_bins implements implies import incdir include initial inout input inside
instance int integer interconnect interface intersect join join_any join_none large let liblist library local localparam logic longint
macromodule matches medium modport module nand negedge nettype new nexttime nmos nor noshowcancelled not notif0 notif1 null or output
package packed parameter pmos posedge primitive priority program property protected pull0 pull1 pulldown pullup pulsestyle_ondetect
pulsestyle_onevent pure rand randc randcase randsequence rcmos real realtime ref reg reject_on release repeat reset restrict return rnmos
rpmos rtran rtranif0 rtranif1 s_always s_eventually s_nexttime s_until s_until_with scalared sequence shortint shortreal showcancelled
signed small soft solve specify specparam static string strong strong0 strong1 struct super supply0 supply1 sync_accept_on sync_reject_on
table tagged task this throughout time timeprecision timeunit tran tranif0 tranif1 tri tri0 tri1 triand trior trireg type typedef union
unique unique0 unsigned until until_with untyped use uwire var vectored virtual void wait wait_order wand weak weak0 weak1 while wildcard
wire with within wor xnor xor""".split())

PLAIN = re.compile(r"[A-Za-z][A-Za-z0-9_]*$")


def spelled(names: List[str], reserved: FrozenSet[str]) -> Dict[str, str]:
    """A spelling for each name that a language takes, never one for two. A name that it takes stays; `?` is spelled `truth`."""
    found = {name: name for name in names if PLAIN.match(name) and name not in reserved}
    taken = set(found.values())
    for name in names:
        if name in found:
            continue
        said = "truth" if name == "?" else re.sub(r"[^A-Za-z0-9_]", "_", name.replace("'", "_prime"))
        if not said[:1].isalpha():
            said = "n" + said
        while said in taken or said in reserved:
            said += "_"
        found[name] = said
        taken.add(said)
    return found


# ---- what all languages write of a program ----

class Parts:
    """The functions and predicates that a program's nodes have, with their numbers of arguments, in the order of the nodes; and the nodes that
    begin a function, by rising number."""

    def __init__(self, program: Program):
        self.program = program
        self.functions: Dict[str, int] = {}
        self.predicates: Dict[str, int] = {}
        leading: Dict[int, int] = {}
        for entry in dict.fromkeys(program.states):
            leading[entry] = 2
        self.reached = self.numbers_reached()
        for number in self.reached:
            node = program.nodes[number]
            if isinstance(node, Branch):
                for to in {node.yes, node.no}:
                    leading[to] = leading.get(to, 0) + 1
                if not is_equality(node.test):
                    self.predicates[node.test.name] = len(node.test.arguments)
                for term in node.test.arguments:
                    self.note(term)
            else:
                for update in node.updates:
                    self.note(update.term)
        self.first = {number for number, count in leading.items()
                      if number in program.states or (count > 1 and not self.is_small(program.nodes[number]))}
        # From the greatest number on, each node knows how deep it stands in its function.
        depth: Dict[int, int] = {}
        for number in reversed(self.reached):
            node = program.nodes[number]
            if number in self.first:
                depth[number] = 0
            elif isinstance(node, Branch) and depth[number] > DEEPEST_BRANCH:
                self.first.add(number)
                depth[number] = 0
            if isinstance(node, Branch):
                for to in (node.yes, node.no):
                    depth[to] = depth[number] + 1

    @staticmethod
    def is_small(node: Node) -> bool:
        """Whether a node is a leaf with few terms."""
        return isinstance(node, Leaf) and sum(size_of(it.term) for it in node.updates) <= FEW_TERMS

    def numbers_reached(self) -> List[int]:
        """The nodes that some state comes to, by rising number."""
        found = set(self.program.states)
        for number in range(len(self.program.nodes) - 1, -1, -1):
            node = self.program.nodes[number]
            if number in found and isinstance(node, Branch):
                found.update((node.yes, node.no))
        return sorted(found)

    def note(self, term: Term) -> None:
        """Notes the functions of a term."""
        left = [term]
        while left:
            it = left.pop()
            if isinstance(it, Apply):
                self.functions.setdefault(it.name, len(it.arguments))
                left += reversed(it.arguments)

    def names(self) -> List[str]:
        """All names: signals, functions and predicates."""
        return self.program.inputs + self.program.cells + self.program.outputs + list(self.functions) + list(self.predicates)


def is_equality(test: Test) -> bool:
    """Whether a test is equality, which no device has to give."""
    return test.name == "eq" and len(test.arguments) == 2


def depth_of(term: Union[Term, Test]) -> int:
    """How deep applications are nested."""
    if isinstance(term, Signal) or not term.arguments:
        return 0
    return 1 + max(map(depth_of, term.arguments))


def size_of(term: Term) -> int:
    """How many signals and applications a term has."""
    return 1 + sum(map(size_of, term.arguments)) if isinstance(term, Apply) else 1


# A statement is a line, or a condition with the statements of its two branches.
Statement = Union[str, Tuple[str, List["Statement"], List["Statement"]]]  # type: ignore[misc]


class Language:
    """What each language writes in its own way."""
    words: FrozenSet[str] = frozenset()
    comment = "//"
    indent = "    "

    def __init__(self, name: str, program: Program):
        self.name = name
        self.program = program
        self.parts = Parts(program)
        self.spelling = spelled(self.parts.names(), self.words)
        self.count = 0

    # What a language has to give.

    def signal(self, name: str) -> str:
        """The value of an input or a cell."""
        raise NotImplementedError

    def call(self, name: str, arguments: List[str]) -> str:
        """A function or a predicate of the device."""
        raise NotImplementedError

    def equal(self, left: str, right: str) -> str:
        """Whether two values are equal."""
        raise NotImplementedError

    def local(self, name: str, value: str) -> str:
        """A statement that keeps a value under a new name."""
        raise NotImplementedError

    def leaf(self, leaf: Leaf, number: int) -> List[Statement]:
        """The statements that end a step."""
        raise NotImplementedError

    def to_function(self, number: int) -> str:
        """The statement that goes on in the function of a node."""
        raise NotImplementedError

    def branches(self, condition: str, yes: List[str], no: List[str], chained: bool) -> List[str]:
        """The lines of a condition. Where it is `chained` the branch of false is another condition alone."""
        raise NotImplementedError

    # What they have in common.

    def value(self, term: Term, before: List[Statement]) -> str:
        """A term; what has to be computed first is added to the statements before it."""
        if isinstance(term, Signal):
            return self.signal(term.name)
        return self.call(term.name, self.values(term, before))

    def values(self, it: Union[Apply, Test], before: List[Statement]) -> List[str]:
        """The arguments of a term or of a test."""
        found = []
        for term in it.arguments:
            said = self.value(term, before)
            if depth_of(term) and depth_of(term) % DEEPEST_TERM == 0:
                self.count += 1
                before.append(self.local(f"part_{self.count}", said))
                said = self.part(f"part_{self.count}")
            found.append(said)
        return found

    def part(self, name: str) -> str:
        """A value that was kept, as an argument."""
        return name

    def truth(self, test: Test, before: List[Statement]) -> str:
        """A test as a condition."""
        arguments = self.values(test, before)
        return self.equal(*arguments) if is_equality(test) else self.call(test.name, arguments)

    def tree(self, number: int, root: bool) -> List[Statement]:
        """The statements of a node."""
        node = self.program.nodes[number]
        if not root and number in self.parts.first:
            return [self.to_function(number)]
        if isinstance(node, Leaf):
            return self.leaf(node, number)
        before: List[Statement] = []
        condition = self.truth(node.test, before)
        return before + [(condition, self.tree(node.yes, False), self.tree(node.no, False))]

    def lines(self, statements: List[Statement]) -> List[str]:
        """Statements as lines."""
        found: List[str] = []
        for it in statements:
            if isinstance(it, str):
                found.append(it)
            else:
                condition, yes, no = it
                chained = len(no) == 1 and not isinstance(no[0], str)
                found += self.branches(condition, self.lines(yes), self.lines(no), chained)
        return found

    def body(self, number: int) -> List[str]:
        """The lines of a node's function."""
        self.count = 0
        return self.lines(self.tree(number, True))

    def nodes_first(self) -> List[int]:
        """The nodes that have a function, those that others call before these."""
        return sorted(self.parts.first)

    def changed(self, leaf: Leaf) -> List[Tuple[str, Term]]:
        """The cells that a leaf gives another term than the cell itself."""
        cells = leaf.updates[:len(self.program.cells)]
        return [(it.signal.name, it.term) for it in cells if it.term != Signal(it.signal.name)]

    def given(self, leaf: Leaf) -> List[Tuple[str, Term]]:
        """What a leaf gives the outputs."""
        return [(it.signal.name, it.term) for it in leaf.updates[len(self.program.cells):]]

    def stored(self, leaf: Leaf) -> Tuple[List[Statement], List[Statement]]:
        """The statements that compute new values of cells, and those that store them afterwards."""
        made: List[Statement] = []
        stores: List[Statement] = []
        changed = self.changed(leaf)
        for name, term in changed:
            own = self.spelling[name]
            value = self.owned(term, made)
            if len(changed) > 1:
                made.append(self.local(f"new_{own}", value))
                value = f"new_{own}"
            stores.append(self.store(own, value))
        return made, stores

    def owned(self, term: Term, before: List[Statement]) -> str:
        """A term as a value that is stored."""
        return self.value(term, before)

    def store(self, cell: str, value: str) -> str:
        """The statement that stores a value in a cell, or the next state."""
        raise NotImplementedError

    def table(self) -> List[str]:
        """Comments on names that are spelled otherwise, and on what the names are."""
        other = [f"{name} is {said}" for name, said in self.spelling.items() if name != said and name != "?"]
        found = [f"{self.comment} Spelled otherwise: {', '.join(other)}."] if other else []
        if "?" in self.spelling:
            found.append(f"{self.comment} {self.spelling['?']} says whether a Boolean signal is true.")
        return found

    def write(self) -> str:
        """The whole text."""
        raise NotImplementedError


def indented(lines: List[str], by: str = "    ") -> List[str]:
    """Lines that stand further in."""
    return [by + line if line else line for line in lines]


def in_braces(condition: str, yes: List[str], no: List[str], chained: bool, indent: str) -> List[str]:
    """A condition in the languages that have braces."""
    found = [f"if {condition} {{", *indented(yes, indent)]
    if chained:
        return [*found, "} else " + no[0], *no[1:]]
    return [*found, "} else {", *indented(no, indent), "}"]


class C(Language):
    """C, from its standard of 1999 on, and what C++ takes of it."""
    words = C_WORDS

    def __init__(self, name: str, program: Program):
        self.words = C_WORDS | {f"{name.upper()}_{what}" for what in ("VALUE", "EQUAL", "INCLUDED")}
        super().__init__(name, program)
        self.takes = (f"const struct {name}_device *device, const struct {name}_inputs *inputs,\n"
                      f"    struct {name}_state *state, struct {name}_outputs *outputs")

    def signal(self, name: str) -> str:
        return ("inputs->" if name in self.program.inputs else "state->") + self.spelling[name]

    def call(self, name: str, arguments: List[str]) -> str:
        return f"device->{self.spelling[name]}({', '.join(['device->own', *arguments])})"

    def equal(self, left: str, right: str) -> str:
        return f"{self.name.upper()}_EQUAL({left}, {right})"

    def local(self, name: str, value: str) -> str:
        return f"const {self.name}_value {name} = {value};"

    def store(self, cell: str, value: str) -> str:
        return f"state->{cell} = {value};"

    def leaf(self, leaf: Leaf, number: int) -> List[Statement]:
        made: List[Statement] = []
        for name, term in self.given(leaf):
            value = self.value(term, made)
            made.append(f"outputs->{self.spelling[name]} = {value};")
        computed, stores = self.stored(leaf)
        return made + computed + stores + [f"state->state = {leaf.go};", f"return {number};"]

    def to_function(self, number: int) -> str:
        return f"return {self.name}_node_{number}(device, inputs, state, outputs);"

    def branches(self, condition: str, yes: List[str], no: List[str], chained: bool) -> List[str]:
        return in_braces(f"({condition})", yes, no, chained, self.indent)

    def record(self, what: str, said: str, members: List[str]) -> List[str]:
        """A struct."""
        return [f"/* {said} */", f"struct {self.name}_{what} {{", *indented(members or ["char unused;"]), "};", ""]

    def write(self) -> str:
        name, big, value = self.name, self.name.upper(), f"{self.name}_value"
        members = ["void *own; /* given to each of them */"]
        for kind, symbols in ((value, self.parts.functions), ("int", self.parts.predicates)):
            for symbol, count in symbols.items():
                members.append(f"{kind} (*{self.spelling[symbol]})({', '.join(['void *own'] + [value] * count)});")
        lines = [
            "/* Written by tslx code. A step reads a record of inputs and fills one of outputs. At first the state is 0, and the cells have the",
            f"   values of your choice. {name}_step answers with the number of the node of the program that was set. */",
            *(f"/*{line[2:]} */" for line in self.table()),
            f"#ifndef {big}_INCLUDED", f"#define {big}_INCLUDED", "",
            f"#ifndef {big}_VALUE", f"#define {big}_VALUE long", "#endif",
            f"#ifndef {big}_EQUAL", f"#define {big}_EQUAL(left, right) ((left) == (right))", "#endif",
            f"typedef {big}_VALUE {value};", "",
            *self.record("device", "The functions and predicates that the device gives.", members),
            *self.record("inputs", "What is read in a step.", [f"{value} {self.spelling[it]};" for it in self.program.inputs]),
            *self.record("state", "What is kept between steps.", ["int state;"] + [f"{value} {self.spelling[it]};" for it in self.program.cells]),
            *self.record("outputs", "What a step gives out.", [f"{value} {self.spelling[it]};" for it in self.program.outputs])]
        for number in self.nodes_first():
            body = self.body(number)
            said = "\n".join(body)
            silent = [f"(void){it};" for it in ("device", "inputs", "state", "outputs") if not re.search(rf"\b{it}\b", said)]
            lines += [f"static int {name}_node_{number}({self.takes})", "{", *indented(silent + body), "}", ""]
        lines += [f"int {name}_step({self.takes});", f"int {name}_step({self.takes})", "{", "    switch (state->state) {"]
        for state, entry in enumerate(self.program.states[:-1]):
            lines.append(f"    case {state}: {self.to_function(entry)}")
        lines += [f"    default: {self.to_function(self.program.states[-1])}", "    }", "}", "", f"#endif /* {big}_INCLUDED */"]
        return "\n".join(lines) + "\n"


class Python(Language):
    """Python, from 3.8 on."""
    words = PYTHON_WORDS
    comment = "#"

    def signal(self, name: str) -> str:
        return ("inputs." if name in self.program.inputs else "state.") + self.spelling[name]

    def call(self, name: str, arguments: List[str]) -> str:
        return f"device.{self.spelling[name]}({', '.join(arguments)})"

    def equal(self, left: str, right: str) -> str:
        return f"{left} == {right}"

    def local(self, name: str, value: str) -> str:
        return f"{name} = {value}"

    def store(self, cell: str, value: str) -> str:
        return f"state.{cell} = {value}"

    def leaf(self, leaf: Leaf, number: int) -> List[Statement]:
        made: List[Statement] = []
        given = ", ".join(f"{self.spelling[name]}={self.value(term, made)}" for name, term in self.given(leaf))
        made.append(f"outputs = Outputs({given})")
        computed, stores = self.stored(leaf)
        return made + computed + stores + [f"state.state = {leaf.go}", f"return outputs, {number}"]

    def to_function(self, number: int) -> str:
        return f"return node_{number}(device, inputs, state)"

    def branches(self, condition: str, yes: List[str], no: List[str], chained: bool) -> List[str]:
        found = [f"if {condition}:", *indented(yes)]
        return [*found, "el" + no[0], *no[1:]] if chained else [*found, "else:", *indented(no)]

    def record(self, name: str, said: str, members: List[str]) -> List[str]:
        """A class of data."""
        return ["", "", "@dataclass", f"class {name}:", f'    """{said}"""', *indented(members)]

    def write(self) -> str:
        lines = [f'"""{self.name}, written by tslx code. A step reads a record of inputs and gives one of outputs. At first the state is 0, and the cells',
                 'have the values of your choice."""', *self.table(), "from dataclasses import dataclass", "from typing import Any", "", "", "class Device:",
                 '    """The functions and predicates that the device gives: a class of yours has them all."""']
        for kind, symbols in (("Any", self.parts.functions), ("bool", self.parts.predicates)):
            for symbol, count in symbols.items():
                takes = ", ".join(["self"] + [f"argument_{i + 1}: Any" for i in range(count)])
                lines += ["", f"    def {self.spelling[symbol]}({takes}) -> {kind}:", "        raise NotImplementedError"]
        lines += self.record("Inputs", "What is read in a step.", [f"{self.spelling[it]}: Any" for it in self.program.inputs])
        lines += self.record("State", "What is kept between steps.", [f"{self.spelling[it]}: Any" for it in self.program.cells] + ["state: int = 0"])
        lines += self.record("Outputs", "What a step gives out.", [f"{self.spelling[it]}: Any" for it in self.program.outputs])
        for number in self.nodes_first():
            lines += ["", "", f"def node_{number}(device, inputs, state):", *indented(self.body(number))]
        entries = ", ".join(f"node_{entry}" for entry in self.program.states)
        lines += ["", "", "def step(device, inputs, state):", '    """Makes a step: the outputs, and the number of the node of the program that was set."""',
                  f"    return ({entries},)[state.state](device, inputs, state)"]
        return "\n".join(lines) + "\n"


class JavaScript(Language):
    """JavaScript, from 2015 on, for pages and for Node."""
    words = JAVASCRIPT_WORDS
    indent = "  "

    def signal(self, name: str) -> str:
        return ("inputs." if name in self.program.inputs else "state.") + self.spelling[name]

    def call(self, name: str, arguments: List[str]) -> str:
        return f"device.{self.spelling[name]}({', '.join(arguments)})"

    def equal(self, left: str, right: str) -> str:
        return f"{left} === {right}"

    def local(self, name: str, value: str) -> str:
        return f"const {name} = {value};"

    def store(self, cell: str, value: str) -> str:
        return f"state.{cell} = {value};"

    def leaf(self, leaf: Leaf, number: int) -> List[Statement]:
        made: List[Statement] = []
        given = ", ".join(f"{self.spelling[name]}: {self.value(term, made)}" for name, term in self.given(leaf))
        made.append(f"const outputs = {{ {given} }};" if given else "const outputs = {};")
        computed, stores = self.stored(leaf)
        return made + computed + stores + [f"state.state = {leaf.go};", f"return {{ outputs, node: {number} }};"]

    def to_function(self, number: int) -> str:
        return f"return node_{number}(device, inputs, state);"

    def branches(self, condition: str, yes: List[str], no: List[str], chained: bool) -> List[str]:
        return in_braces(f"({condition})", yes, no, chained, self.indent)

    def write(self) -> str:
        symbols = [self.spelling[it] + "(" + ", ".join(f"argument{i + 1}" for i in range(count)) + ")"
                   for it, count in [*self.parts.functions.items(), *self.parts.predicates.items()]]
        cells = [self.spelling[it] for it in self.program.cells]
        inner = ["// The device is an object with: " + (", ".join(symbols) or "nothing") + ".",
                 "// A record of inputs has: " + (", ".join(self.spelling[it] for it in self.program.inputs) or "nothing") + ".",
                 "// A record of outputs has: " + (", ".join(self.spelling[it] for it in self.program.outputs) or "nothing") + "."]
        for number in self.nodes_first():
            inner += ["", f"function node_{number}(device, inputs, state) {{", *indented(self.body(number), self.indent), "}"]
        entries = ", ".join(f"node_{entry}" for entry in self.program.states)
        inner += ["", "// The state at first, with a value of your choice for each cell.",
                  f"function start({', '.join(cells)}) {{", f"  return {{ {', '.join(['state: 0', *cells])} }};", "}", "",
                  "// Makes a step: the outputs, and the number of the node of the program that was set.",
                  "function step(device, inputs, state) {", f"  return [{entries}][state.state](device, inputs, state);", "}", "",
                  "return { start, step };"]
        lines = ["// Written by tslx code. A step reads a record of inputs, gives one of outputs, and changes the state that it is given.",
                 *self.table(), f"const {self.name} = (() => {{", '  "use strict";', *indented(inner, self.indent), "})();",
                 f'if (typeof module !== "undefined") module.exports = {self.name};']
        return "\n".join(lines) + "\n"


class Rust(Language):
    """Rust, from its edition of 2018 on, as a module."""
    words = RUST_WORDS
    allowed = "#[allow(non_snake_case, dead_code, unused_variables)]"

    def generic(self, names: List[str]) -> str:
        """What a record with these members takes: the type of values, if it has any."""
        return "<V>" if names else ""

    def of_device(self, record: str, names: List[str]) -> str:
        """A record with the device's values."""
        return f"{record}<D::Value>" if names else record

    def signal(self, name: str) -> str:
        return ("&inputs." if name in self.program.inputs else "&state.") + self.spelling[name]

    def call(self, name: str, arguments: List[str]) -> str:
        return f"device.{self.spelling[name]}({', '.join(arguments)})"

    def values(self, it: Union[Apply, Test], before: List[Statement]) -> List[str]:
        found = super().values(it, before)
        return [said if said.startswith("&") else "&" + said for said in found]

    def equal(self, left: str, right: str) -> str:
        return f"{left} == {right}"

    def owned(self, term: Term, before: List[Statement]) -> str:
        said = self.value(term, before)
        return said[1:] + ".clone()" if isinstance(term, Signal) else said

    def local(self, name: str, value: str) -> str:
        return f"let {name} = {value};"

    def store(self, cell: str, value: str) -> str:
        return f"state.{cell} = {value};"

    def leaf(self, leaf: Leaf, number: int) -> List[Statement]:
        made: List[Statement] = []
        given = ", ".join(f"{self.spelling[name]}: {self.owned(term, made)}" for name, term in self.given(leaf))
        made.append(f"let outputs = Outputs {{ {given} }};" if given else "let outputs = Outputs {};")
        computed, stores = self.stored(leaf)
        return made + computed + stores + [f"state.state = {leaf.go};", f"(outputs, {number})"]

    def to_function(self, number: int) -> str:
        return f"node_{number}(device, inputs, state)"

    def branches(self, condition: str, yes: List[str], no: List[str], chained: bool) -> List[str]:
        return in_braces(condition, yes, no, chained, self.indent)

    def record(self, name: str, said: str, names: List[str], more: Tuple[str, ...] = ()) -> List[str]:
        """A struct."""
        members = [*more, *(f"pub {self.spelling[it]}: V," for it in names)]
        return ["", f"/// {said}", self.allowed, "#[derive(Clone, Debug)]", f"pub struct {name}{self.generic(names)} {{", *indented(members), "}"]

    def write(self) -> str:
        program = self.program
        takes = (f"device: &D, inputs: &{self.of_device('Inputs', program.inputs)}, "
                 f"state: &mut {self.of_device('State', program.cells)}")
        gives = f"({self.of_device('Outputs', program.outputs)}, usize)"
        lines = ["// Written by tslx code. A step reads a record of inputs and gives one of outputs. At first the state is 0, and the cells have the",
                 "// values of your choice.", *self.table(), "", "/// The functions and predicates that the device gives.", self.allowed, "pub trait Device {",
                 "    type Value: Clone + PartialEq;"]
        for kind, symbols in (("Self::Value", self.parts.functions), ("bool", self.parts.predicates)):
            for symbol, count in symbols.items():
                arguments = ["&self"] + [f"argument_{i + 1}: &Self::Value" for i in range(count)]
                lines.append(f"    fn {self.spelling[symbol]}({', '.join(arguments)}) -> {kind};")
        lines.append("}")
        lines += self.record("Inputs", "What is read in a step.", program.inputs)
        lines += self.record("State", "What is kept between steps.", program.cells, ("pub state: usize,",))
        lines += self.record("Outputs", "What a step gives out.", program.outputs)
        for number in self.nodes_first():
            lines += ["", self.allowed, f"fn node_{number}<D: Device>({takes}) -> {gives} {{", *indented(self.body(number)), "}"]
        lines += ["", "/// Makes a step: the outputs, and the number of the node of the program that was set.", self.allowed,
                  f"pub fn step<D: Device>({takes}) -> {gives} {{", "    match state.state {"]
        for state, entry in enumerate(program.states[:-1]):
            lines.append(f"        {state} => {self.to_function(entry)},")
        lines += [f"        _ => {self.to_function(program.states[-1])},", "    }", "}"]
        return "\n".join(lines) + "\n"


LANGUAGES: Dict[str, Callable[[str, Program], Language]] = {"c": C, "python": Python, "javascript": JavaScript, "rust": Rust}


def code(language: str, name: str, program: Program) -> str:
    """A program as a text of a language."""
    words = {"c": C_WORDS, "python": PYTHON_WORDS, "javascript": JAVASCRIPT_WORDS, "rust": RUST_WORDS}[language]
    return LANGUAGES[language](spelled([name], words)[name], program).write()


# ---- Verilog ----

def verilog(name: str, circuit: Circuit, tests: List[str], updates: List[str]) -> str:
    """A circuit of `tsl circuit`, with names for its inputs, the tests, and its outputs, the updates."""
    module = spelled([name], VERILOG_WORDS)[name]
    texts = tests + updates
    ports: Dict[str, str] = {}
    taken = set(VERILOG_WORDS) | {module}
    for text in texts:
        said = re.sub(r"_+", "_", re.sub(r"[^A-Za-z0-9]", "_", text.replace("<-", "gets"))).strip("_")
        said = said if said[:1].isalpha() else "n" + said
        while said in taken or re.match(r"(gate|latch)_[0-9]+$", said):
            said += "_"
        ports[text] = said
        taken.add(said)
    wire = {0: "1'b0"}
    wire.update({literal // 2: ports[test] for literal, test in zip(circuit.inputs, tests)})
    wire.update({latch // 2: f"latch_{latch // 2}" for latch, _ in circuit.latches})
    wire.update({gate // 2: f"gate_{gate // 2}" for gate, _, _ in circuit.gates})

    def of(literal: int) -> str:
        if literal < 2:
            return f"1'b{literal}"
        return ("~" if literal % 2 else "") + wire[literal // 2]

    lines = ["// Written by tslx code: the control alone. What computes the tests, and keeps the values, stands around it."]
    lines += [f"// {ports[test]}: {test}" for test in tests]
    lines += [f"// {ports[update]}: {update}" for update in updates]
    names = ["input wire clock", "input wire reset", *(f"input wire {ports[it]}" for it in tests), *(f"output wire {ports[it]}" for it in updates)]
    lines += [f"module {module} (", ",\n".join("    " + it for it in names), ");"]
    lines += [f"    reg latch_{latch // 2} = 1'b0;" for latch, _ in circuit.latches]
    lines += [f"    wire gate_{gate // 2} = {of(left)} & {of(right)};" for gate, left, right in sorted(circuit.gates)]
    lines += [f"    assign {ports[update]} = {of(literal)};" for update, literal in zip(updates, circuit.outputs)]
    if circuit.latches:
        lines.append("    always @(posedge clock) begin")
        lines += [f"        latch_{latch // 2} <= reset ? 1'b0 : {of(after)};" for latch, after in circuit.latches]
        lines.append("    end")
    lines.append("endmodule")
    return "\n".join(lines) + "\n"


# ---- the command ----

HELP = """tslx code c|python|javascript|rust [--name NAME] [FILE]..
    The program in FILE, or in standard input, as a step function: a record of inputs goes in, one of outputs comes out, and cells stand in a
    state that the caller keeps. Functions and predicates are the device's. NAME is the name of the file without it. A name that the language
    reserves, or cannot spell, is spelled otherwise, never two alike; a comment tells which. A specification may stand before the program.
tslx code verilog [--name NAME] [--bound K] [FILE]..
    The control alone, as a module: tests go in, and updates come out. It reads a specification and a program, as tsl circuit does, which has
    to accept the program within the bound K, from 0 to 15; 2 by default.
"""


def main(words: List[str]) -> int:
    """Writes a program in another language."""
    options, others = options_of("code", words, {"--name": "a name", "--bound": "0 to 15"}, 1, None,
                                 "a language (c, python, javascript, rust or verilog) and files")
    language, files = others[0], others[1:]
    if language not in LANGUAGES and language != "verilog":
        raise Stop(f"code knows no language {shown(language)}: c, python, javascript, rust or verilog")
    if "--bound" in options and language != "verilog":
        raise Stop("--bound goes with verilog alone")
    bound = number_in(options, "--bound", 0, 15, 2)
    name = options.get("--name", title_of(files))
    if not re.search("[A-Za-z0-9]", name):
        raise Stop("--name takes a name with a letter or a digit")
    gathered = gather(files)
    if language != "verilog":
        write(code(language, name, program_in(gathered)))
        return 0
    answer = ask(["circuit", "--bound", str(bound)], gathered.data)
    if answer.status == 1:
        raise Stop(f"check does not accept the program, so there is no circuit: {answer.out.strip()}", 1)
    if answer.status:
        refused(answer, gathered)
    space = space_of(read_specification(parts_of_text(gathered.text)[0]))
    updates = [write_update(Update(Signal(signal), term)) for signal in space.controlled for term in space.choices[signal]]
    write(verilog(name, read_circuit(answer.out), list(map(write_test, space.tests)), updates))
    return 0
