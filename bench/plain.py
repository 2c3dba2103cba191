"""A plain reading of the definitions, from the text of a specification and of a program to the verdict of `check`,
and the question for a controller. Windows, environments and rounds stand in `rounds.py`. It is short and slow: each definition
is written down as docs/DEFINITIONS.md says it, with Python's own sets, tuples and dictionaries. Nothing of the tool's code is used.

A term is ("signal", name) or ("apply", name, terms). A formula is a tuple whose first member is its operator.
A formula of linear temporal logic is a tuple as well, whose first member is the rank of its operator, so that Python's
order of tuples is the order of formulas."""
import itertools
import re

from windows import Window, is_congruent, tests_of, under_windows

RESERVED = "assume guarantee always initially true false X F G U W R A".split()


# ---- texts ----

def tokens(text):
    text = re.sub(r"//[^\n]*", " ", text)
    found = re.findall(r"\s+|[A-Za-z_][A-Za-z0-9_']*|[0-9]+|&&|\|\||<->|->|<-|[{}()\[\];!?=]", text)
    assert "".join(found) == text, "a byte that begins no token"
    return [t for t in found if not t.isspace()]


def expanded(left):
    """The tokens of the sections alone, where each use of a definition is replaced by its body in brackets, with the names that
    it passes for the parameters, until no use is left."""
    definitions, own = {}, []
    while left:
        if left[0] in RESERVED:
            end = left.index("}") + 1
            own += left[:end]
        else:
            equals, end = left.index("="), left.index(";") + 1
            definitions[left[0]] = left[1:equals], left[equals + 1:end - 1]
        left = left[end:]

    def put(some):
        found, at = [], 0
        while at < len(some):
            token, at = some[at], at + 1
            if token not in definitions:
                found.append(token)
                continue
            parameters, body = definitions[token]
            passed = dict(zip(parameters, some[at:]))
            at += len(parameters)
            found += ["(", *put([passed.get(t, t) for t in body]), ")"]
        return found
    return put(own)


class Reader:
    def __init__(self, text):
        self.left = tokens(text)

    def peek(self):
        return self.left[0] if self.left else None

    def take(self, wanted=None):
        token = self.left.pop(0)
        assert wanted is None or token == wanted, (wanted, token)
        return token

    def is_name(self):
        return self.peek() is not None and re.match(r"[A-Za-z_]", self.peek()) and self.peek() not in RESERVED

    def spec(self):
        lists = {(kind, when): [] for kind in ("assume", "guarantee") for when in ("first", "always")}
        lists["text"] = []
        self.left = expanded(self.left)
        while self.left:
            when = "first"
            if self.peek() in ("always", "initially"):
                when = "always" if self.take() == "always" else "first"
            kind = self.take()
            self.take("{")
            while self.peek() != "}":
                lists["text"].append(self.formula())
                lists[kind, when].append(lists["text"][-1])
                if self.peek() == ";":
                    self.take()
            self.take("}")
        return lists

    def formula(self):
        before = list(self.left)
        left = self.prefix()
        if self.peek() in ("U", "W", "R"):
            return (self.take(), left, self.prefix())
        self.left = before
        return self.iff()

    def iff(self):
        left = self.implies()
        if self.peek() != "<->":
            return left
        self.take()
        return ("<->", left, self.iff())

    def implies(self):
        left = self.some("||", lambda: self.some("&&", self.prefix))
        if self.peek() != "->":
            return left
        self.take()
        return ("->", left, self.implies())

    def some(self, word, part):
        parts = [part()]
        while self.peek() == word:
            self.take()
            parts.append(part())
        return parts[0] if len(parts) == 1 else (word, tuple(parts))

    def prefix(self):
        if self.peek() in ("!", "X", "F", "G"):
            return (self.take(), self.prefix())
        return self.atom()

    def atom(self):
        token = self.take()
        if token in ("true", "false"):
            return (token,)
        if token == "(":
            inner = self.formula()
            self.take(")")
            return inner
        if token == "[":
            signal = self.take()
            self.take("<-")
            term = self.term()
            self.take("]")
            return ("update", signal, term)
        if self.peek() == "(" and self.left[1] == ")":
            self.take()
            self.take()
            return ("test", token, ())
        arguments = self.arguments()
        return ("test", token, arguments) if arguments else ("test", "?", (("signal", token),))

    def term(self):
        if self.peek() == "(":
            self.take()
            inner = self.term()
            self.take(")")
            return inner
        name = self.take()
        if self.peek() == "(" and self.left[1] == ")":
            self.take()
            self.take()
            return ("apply", name, ())
        arguments = self.arguments()
        return ("apply", name, arguments) if arguments else ("signal", name)

    def arguments(self):
        found = []
        while self.is_name() or self.peek() == "(":
            if self.peek() == "(":
                self.take()
                found.append(self.term())
                self.take(")")
                continue
            name = self.take()
            if self.peek() == "(" and len(self.left) > 1 and self.left[1] == ")":
                self.take()
                self.take()
                found.append(("apply", name, ()))
            else:
                found.append(("signal", name))
        return tuple(found)


def whole_formula(lists):
    def all_of(kind):
        parts = lists[kind, "first"] + [("G", f) for f in lists[kind, "always"]]
        return parts[0] if len(parts) == 1 else ("&&", tuple(parts)) if parts else ("true",)
    if not lists["assume", "first"] + lists["assume", "always"]:
        return all_of("guarantee")
    return ("->", all_of("assume"), all_of("guarantee"))


# ---- signals, letters ----

def atoms(formula):
    if formula[0] in ("test", "update"):
        return [formula]
    if formula[0] in ("&&", "||"):
        return [a for part in formula[1] for a in atoms(part)]
    return [a for part in formula[1:] for a in atoms(part)]


def read_by(term):
    return [term[1]] if term[0] == "signal" else [s for part in term[2] for s in read_by(part)]


def distinct(members):
    return list(dict.fromkeys(members))


class Space:
    """The predicate terms, the signals, and the choices of each controlled signal. Signals stand in the order of the text."""

    def __init__(self, lists):
        found = atoms(whole_formula(lists))
        self.tests = distinct(a for a in found if a[0] == "test")
        reads = [s for a in found for t in (a[2] if a[0] == "test" else (a[2],)) for s in read_by(t)]
        order = distinct(s for formula in lists["text"] for a in atoms(formula) for s in
                         ([a[1]] + read_by(a[2]) if a[0] == "update" else [s for t in a[2] for s in read_by(t)]))
        updated = distinct(a[1] for a in found if a[0] == "update")
        self.cells = [s for s in order if s in updated and s in reads]
        self.outputs = [s for s in order if s in updated and s not in reads]
        self.inputs = [s for s in order if s not in updated]
        self.controlled = self.cells + self.outputs
        self.choices = {}
        for signal in self.controlled:
            terms = [a[2] for a in found if a[0] == "update" and a[1] == signal]
            if signal in self.cells:
                terms.append(("signal", signal))
            self.choices[signal] = distinct(terms)
        self.bits = {test: place for place, test in enumerate(self.tests)}
        for signal in self.controlled:
            for term in self.choices[signal]:
                self.bits["update", signal, term] = len(self.bits)

    def valuations(self):
        return range(2 ** len(self.tests))


# ---- linear temporal logic ----

TRUE, FALSE, BIT, NOT_BIT, ALL, ANY, NEXT, UNTIL, RELEASE = range(9)


def letters(formula, space, holds=True):
    """The letter form of a formula, or of its negation."""
    word, parts = formula[0], formula[1:]

    def of(part, same=True):
        return letters(part, space, holds == same)
    if word in ("true", "false"):
        return (TRUE,) if (word == "true") == holds else (FALSE,)
    if word in ("test", "update"):
        return (BIT if holds else NOT_BIT, space.bits[formula])
    if word == "!":
        return of(parts[0], False)
    if word in ("&&", "||"):
        return (ALL if (word == "&&") == holds else ANY, tuple(of(part) for part in parts[0]))
    if word == "->":
        return (ANY if holds else ALL, (of(parts[0], False), of(parts[1])))
    if word == "<->":
        left, right = parts
        plain = lambda part, wanted: letters(part, space, wanted)
        return (ANY, ((ALL, (plain(left, True), plain(right, holds))), (ALL, (plain(left, False), plain(right, not holds)))))
    if word == "X":
        return (NEXT, of(parts[0]))
    if word in ("F", "G"):
        return (UNTIL, (TRUE,), of(parts[0])) if (word == "F") == holds else (RELEASE, (FALSE,), of(parts[0]))
    left, right = of(parts[0]), of(parts[1])
    if word == "W":
        return (RELEASE, right, (ANY, (right, left))) if holds else (UNTIL, right, (ALL, (right, left)))
    return (UNTIL if (word == "U") == holds else RELEASE, left, right)


# A choice is (cube, next, postponed): a frozenset of (bit, truth), and two frozensets of formulas.
EMPTY = (frozenset(), frozenset(), frozenset())


def reduced(choices):
    choices = distinct(choices)
    assert len(choices) <= 65536

    def within(low, high):
        return low != high and all(a <= b for a, b in zip(low, high))
    if len(choices) > 400:
        lighter = []
        for choice in sorted(choices, key=lambda c: sum(map(len, c))):
            if not any(within(low, choice) for low in lighter):
                lighter.append(choice)
        kept = set(lighter)
        return [c for c in choices if c in kept]
    return [c for c in choices if not any(within(low, c) for low in choices)]


def product(left, right):
    joined = []
    for a in left:
        for b in right:
            cube = a[0] | b[0]
            if len({bit for bit, _ in cube}) == len(cube):
                joined.append((cube, a[1] | b[1], a[2] | b[2]))
    return reduced(joined)


def expansion(formula, known):
    if formula in known:
        return known[formula]
    kind = formula[0]
    if kind == TRUE:
        answer = [EMPTY]
    elif kind == FALSE:
        answer = []
    elif kind in (BIT, NOT_BIT):
        answer = [(frozenset([(formula[1], kind == BIT)]), frozenset(), frozenset())]
    elif kind == ALL:
        answer = choices_of(formula[1], known)
    elif kind == ANY:
        answer = []
        for part in formula[1]:
            answer = reduced(answer + expansion(part, known))
    elif kind == NEXT:
        answer = [(frozenset(), frozenset([formula[1]]), frozenset())]
    elif kind == UNTIL:
        later = (frozenset(), frozenset([formula]), frozenset([formula]))
        answer = reduced(expansion(formula[2], known) + product(expansion(formula[1], known), [later]))
    else:
        later = (frozenset(), frozenset([formula]), frozenset())
        answer = product(expansion(formula[2], known), reduced(expansion(formula[1], known) + [later]))
    known[formula] = answer
    return answer


def choices_of(formulas, known):
    answer = [EMPTY]
    for formula in formulas:
        answer = product(answer, expansion(formula, known))
    return answer


def untils(formula):
    found = [formula] if formula[0] == UNTIL else []
    parts = formula[1] if formula[0] in (ALL, ANY) else [p for p in formula[1:] if isinstance(p, tuple)]
    return distinct(found + [u for part in parts for u in untils(part)])


def automaton(formula):
    """The number of states, and the edges (from, cube, to, rejecting), each once. States have numbers as they are found."""
    waits, known = untils(formula), {}
    states = {(frozenset([formula]), 0): 0}
    queue, edges = [(frozenset([formula]), 0)], {}
    for state in queue:
        formulas, counter = state
        for cube, later, postponed in choices_of(sorted(formulas), known):
            risen = counter
            while risen < len(waits) and waits[risen] not in postponed:
                risen += 1
            rejecting = risen == len(waits)
            after = (later, 0 if rejecting else risen)
            if after not in states:
                states[after] = len(states)
                queue.append(after)
                assert len(states) <= 4096
            edges[states[state], cube, states[after], rejecting] = None
            assert len(edges) <= 200000
    return len(states), list(edges)


# ---- programs, controllers, annotations ----

class Program:
    def __init__(self, text):
        self.declared, self.nodes, self.states, self.windows = {"input": [], "cell": [], "output": []}, [], [], []
        for line in text.splitlines():
            word = line.split()[0]
            if word == "window":
                self.windows.append(window_in(line))
            if word in self.declared:
                self.declared[word].append(line.split()[1])
            elif word == "state":
                self.states.append(int(line.split()[3]))
            elif word == "node" and line.split()[2] == "if":
                test, targets = line.split(" if ")[1].rsplit(" then ", 1)
                self.nodes.append((Reader(test).formula(), *(int(n) for n in targets.split(" else "))))
            elif word == "node":
                updates, target = line.split(" set", 1)[1].rsplit(" go ", 1)
                found, reader = [], Reader(updates)
                while reader.left:
                    found.append(reader.formula())
                self.nodes.append((found, int(target)))

    def walk(self, state, truths):
        node = self.nodes[self.states[state]]
        while len(node) == 3:
            node = self.nodes[node[1] if truths[node[0]] else node[2]]
        return node


def window_in(line):
    """The window of a line. Updates stand before equalities."""
    sides, *listed = line.removeprefix("window ").split(" when ")
    left, (right, length) = (side.rsplit(" at ", 1) for side in sides.split(" is "))
    left, left_at = (None, 0) if left == ["true"] else (Reader(left[0]).formula(), int(left[1]))
    atoms_at = [(Reader(text).formula(), int(offset)) for text, offset in (atom.rsplit(" at ", 1) for atom in listed)]
    updates, equalities = (tuple(a for a in atoms_at if (a[0][0] == "update") == updates) for updates in (True, False))
    return Window(left, left_at, Reader(right).formula(), int(length), updates, equalities)


def window_text(window):
    left = "true" if window.left is None else f"{atom_text(window.left)} at {window.left_at}"
    listed = "".join(f" when {atom_text(atom)} at {offset}" for atom, offset in window.updates + window.equalities)
    return f"window {left} is {atom_text(window.right)} at {window.length}{listed}"


def verdict(spec_text, program_text, bound):
    """The line that `check` says of a program."""
    lists = Reader(spec_text).spec()
    formula, space, program = whole_formula(lists), Space(lists), Program(program_text)
    if [program.declared[kind] for kind in ("input", "cell", "output")] != [space.inputs, space.cells, space.outputs]:
        return "refused signals"
    for number, node in enumerate(program.nodes):
        if len(node) == 3 and node[0] not in space.bits:
            return f"refused test {number}"
        if len(node) == 2 and any(update not in space.bits for update in node[0]):
            return f"refused choice {number}"
    for number, window in enumerate(program.windows):
        if any(atom not in space.bits for atom in (*tests_of(window), *(u for u, _ in window.updates))):
            return f"refused foreign {number}"
    for number, window in enumerate(program.windows):
        if not is_congruent(window):
            return f"refused window {number}"
    count, edges = automaton(letters(("!", under_windows(program.windows, formula)), space))
    steps = []
    for state in range(len(program.states)):
        of_state = []
        for valuation in space.valuations():
            truths = {test: bool(valuation >> bit & 1) for bit, test in enumerate(space.tests)}
            updates, after = program.walk(state, truths)
            chosen = {space.bits[u] for u in updates}
            letter = {bit: truths[test] for bit, test in enumerate(space.tests)}
            letter.update({bit: bit in chosen for a, bit in space.bits.items() if a[0] == "update"})
            of_state.append((letter, after))
        steps.append(of_state)
    return "accepted" if least_annotation(steps, count, edges, bound) is not None else f"refused bound {bound}"


def least_annotation(steps, count, edges, bound):
    """The least numbers of the pairs of a machine's and an automaton's states, or None where one is above the bound. A machine is,
    for each of its states, its letters with the states that they go to."""
    leaving = [[e for e in edges if e[0] == state] for state in range(count)]
    numbers, work = {(0, 0): 0}, [(0, 0)]
    while work:
        state, at = work.pop()
        for letter, after in steps[state]:
            for _, cube, to, rejecting in leaving[at]:
                if all(letter[bit] == wanted for bit, wanted in cube):
                    least = numbers[state, at] + rejecting
                    if least > numbers.get((after, to), -1):
                        if least > bound:
                            return None
                        numbers[after, to] = least
                        work.append((after, to))
    return numbers


# ---- the search for a controller: its variables, its clauses, and what an assignment of them says ----

class Question:
    """Is there a controller with so many states that has an annotation within a bound? Variables have numbers from 1:
    `choice[s, v, bit]`, `after[s, v, t]` and `least[s, q, i]`, in this order, each kind by rising indices."""

    def __init__(self, spec_text, states, bound, windows=()):
        lists = Reader(spec_text).spec()
        self.formula, self.space, self.states, self.bound = whole_formula(lists), Space(lists), states, bound
        self.windows = list(windows)
        self.count, self.edges = automaton(letters(("!", under_windows(self.windows, self.formula)), self.space))
        self.tests = len(self.space.tests)
        self.groups = [[self.space.bits["update", signal, term] for term in self.space.choices[signal]]
                       for signal in self.space.controlled]
        self.places = list(itertools.product(range(states), self.space.valuations()))
        numbers = itertools.count(1)
        self.choice = {(s, v, bit): next(numbers) for s, v in self.places for group in self.groups for bit in group}
        self.after = {(s, v, t): next(numbers) for s, v in self.places for t in range(states)}
        self.least = {(s, q, i): next(numbers) for s in range(states) for q in range(self.count) for i in range(bound + 1)}
        self.variables = next(numbers) - 1

    def meets(self, valuation, cube):
        """Whether a valuation has what a cube asks of the tests."""
        return all(bool(valuation >> bit & 1) == wanted for bit, wanted in cube if bit < self.tests)

    def demands(self):
        """All clauses, also those with a literal and its negation, as lists of literals."""
        for s, v in self.places:
            for group in self.groups:
                yield from exactly_one([self.choice[s, v, bit] for bit in group])
        for s, v in self.places:
            yield from exactly_one([self.after[s, v, t] for t in range(self.states)])
        yield [self.least[0, 0, 0]]
        for s, q, i in self.least:
            if i > 0:
                yield [-self.least[s, q, i], self.least[s, q, i - 1]]
        for s in range(self.states):
            for q, cube, p, rejecting in self.edges:
                asked = sorted((bit, wanted) for bit, wanted in cube if bit >= self.tests)
                for v in self.space.valuations():
                    if self.meets(v, cube):
                        chosen = [-self.choice[s, v, bit] if wanted else self.choice[s, v, bit] for bit, wanted in asked]
                        for t, i in itertools.product(range(self.states), range(self.bound + 1)):
                            then = [self.least[t, p, i + rejecting]] if i + rejecting <= self.bound else []
                            yield [-self.least[s, q, i], -self.after[s, v, t], *chosen, *then]

    def clauses(self):
        """Each clause by rising numbers, without repeats; those with a literal and its negation are left out."""
        return [sorted(set(c)) for c in self.demands() if not any(-literal in c for literal in c)]

    def decoded(self, trues):
        """The controller and the annotation that the true variables say. The controller is a table: for a state and a
        valuation the picked bits and the next state. The annotation has a number for each pair that is numbered."""
        def one(variables, members):
            found = [m for m in members if variables[m] in trues]
            assert len(found) == 1
            return found[0][-1]
        table = {(s, v): ([one(self.choice, [(s, v, bit) for bit in group]) for group in self.groups],
                          one(self.after, [(s, v, t) for t in range(self.states)])) for s, v in self.places}
        numbers = {}
        for s, q in itertools.product(range(self.states), range(self.count)):
            if self.least[s, q, 0] in trues:
                numbers[s, q] = max(i for i in range(self.bound + 1) if self.least[s, q, i] in trues)
        return table, numbers

    def is_annotation(self, table, numbers):
        """Whether the numbers are an annotation of the controller within the bound."""
        if (0, 0) not in numbers or max(numbers.values()) > self.bound:
            return False
        for (s, q), number in numbers.items():
            for v in self.space.valuations():
                picked, t = table[s, v]
                for _, cube, p, rejecting in (e for e in self.edges if e[0] == q):
                    chosen = all((bit in picked) == wanted for bit, wanted in cube if bit >= self.tests)
                    if chosen and self.meets(v, cube) and numbers.get((t, p), -1) < number + rejecting:
                        return False
        return True

    def program_text(self, table):
        """The program of a controller, by `flow_of`."""
        updates = {bit: atom for atom, bit in self.space.bits.items() if atom[0] == "update"}
        reachable, queue = {0}, [0]
        for s in queue:
            for v in self.space.valuations():
                if table[s, v][1] not in reachable:
                    reachable.add(table[s, v][1])
                    queue.append(table[s, v][1])
        new = {s: place for place, s in enumerate(sorted(reachable))}
        nodes = {}

        def node_of(node):
            return nodes.setdefault(node, len(nodes))

        def tree(s, v, bit):
            if bit == self.tests:
                picked, t = table[s, v]
                return node_of("set" + "".join(f" {atom_text(updates[b])}" for b in picked) + f" go {new[t]}")
            then, other = tree(s, v | 1 << bit, bit + 1), tree(s, v, bit + 1)
            return then if then == other else node_of(f"if {atom_text(self.space.tests[bit])} then {then} else {other}")
        roots = [tree(s, 0, 0) for s in sorted(reachable)]
        declared = [("input", self.space.inputs), ("cell", self.space.cells), ("output", self.space.outputs)]
        return text_of(["tslprogram 1", *(f"{word} {name}" for word, names in declared for name in names),
                        *map(window_text, self.windows),
                        *(f"node {i} {node}" for node, i in nodes.items()),
                        *(f"state {s} at {root}" for s, root in enumerate(roots)), "end"])


def exactly_one(literals):
    """Some literal, and then not both of each two."""
    return [literals, *([-a, -b] for a, b in itertools.combinations(literals, 2))]


def line_of(literals):
    return " ".join([*map(str, literals), "0"])


def text_of(lines):
    return "".join(f"{line}\n" for line in lines)


def cnf_text(variables, clauses):
    return text_of([f"p cnf {variables} {len(clauses)}", *map(line_of, clauses)])


# ---- terms and formulas as text ----

def term_text(term):
    if term[0] == "signal":
        return term[1]
    return applied(term[1], term[2])


def applied(name, arguments):
    if not arguments:
        return f"{name}()"
    inner = [f"({term_text(t)})" if t[0] == "apply" and t[2] else term_text(t) for t in arguments]
    return " ".join([name, *inner])


def atom_text(atom):
    if atom[0] == "update":
        return f"[{atom[1]} <- {term_text(atom[2])}]"
    return atom[2][0][1] if atom[1] == "?" else applied(atom[1], atom[2])


def formula_text(formula):
    word, parts = formula[0], formula[1:]
    if word in ("true", "false"):
        return word
    if word in ("test", "update"):
        return atom_text(formula)
    if word == "!":
        return f"!{formula_text(parts[0])}"
    if word in ("X", "F", "G"):
        return f"{word} {formula_text(parts[0])}"
    if word in ("&&", "||"):
        return "(" + f" {word} ".join(map(formula_text, parts[0])) + ")"
    return f"({formula_text(parts[0])} {word} {formula_text(parts[1])})"
