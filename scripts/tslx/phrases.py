"""What faults, limits and refusals say in words."""
from typing import Dict, Tuple

# What each fault says, and its usual reason: by PART KIND, or `met` and the byte with which no token begins.
FAULTS: Dict[str, Tuple[str, str]] = {
    "spec byte": ("no token begins with this byte", "names have letters, digits, _ and quotes; comments begin with //"),
    "spec comment": ("this comment is never closed", "each /* needs a */ of its own, since comments nest"),
    "spec form": ("no specification goes on like this", ""),
    "spec deep": ("more than 200 levels of nesting", "leave brackets out, or divide the formula by ;"),
    "spec defined": (
        "the name has a meaning already",
        "a name is defined once, and a parameter is no defined name and no other parameter of its definition"),
    "spec cycle": ("the definition reaches itself", "no definition may use itself, and none that leads back to it"),
    "spec kind": (
        "the name is used as something else than before",
        "a name is a signal, a function or a predicate, and one of these throughout; a constant is written with (), as off()"),
    "spec kind use": (
        "this is no use of the name",
        "a use is the name as an atom, alone or before the signals that it passes, none of them in brackets or a defined name"),
    "spec arity use": ("the definition has another number of parameters", "a use passes one signal for each parameter"),
    "spec arity": (
        "the name has another number of arguments than before",
        "an argument that has arguments of its own stands in brackets: p (f x)"),
    "spec deepuse": ("what the name stands for nests more than 200 levels deep here", "use it under fewer operators and brackets"),
    "parts program": ("the line tslprogram 1 is missing", "give the program behind the specification"),
    "parts tables": ("the line tsltables 1 is missing", "give the tables behind the program; the head line stands alone on its line"),
    "parts inputs": ("the line tslinputs 1 is missing", "give the inputs behind the tables; the head line stands alone on its line"),
    "parts letters": ("no line is letters", "put the line letters between the automaton and the loop; the automaton ends with a line feed"),
    "parts lrat": ("no line is lrat", "put the line lrat between formula and log; the formula must end with a line feed"),
    "program form": (
        "no program goes on with this line",
        "lines come in the order input, cell, output, window, node, state, end, with single spaces and numbers that count from 0"),
    "program order": ("a test leads to nodes with smaller numbers alone", "number the nodes from the leaves up"),
    "program target": ("no state or node has this number", "go names a state, at names a node"),
    "program updates": ("each cell and then each output is set once, in their order", "a cell that keeps its value is set to itself: [c <- c]"),
    "program window": (
        "no window has this shape",
        "at most 3 steps, the left test no later than the right one, updates of cells at rising steps before the last, then equalities "
        "eq x y at steps that do not fall; after true comes an equality"),
    "program unknown": ("a term reads what is neither an input nor a cell", "outputs are not read"),
    "program kind": ("the name is used as something else than before", "the names of the specification before it count as used"),
    "program arity": ("the name has another number of arguments than before", "the names of the specification before it count as used"),
    "tables byte": ("no token begins with this byte", "values are numbers from 0 on, divided by blanks; comments begin with //"),
    "tables comment": ("this comment is never closed", "each /* needs a */ of its own"),
    "tables form": ("no tables go on like this", "domain N, then entries func NAME VALUES, pred NAME VALUES and cell NAME VALUE"),
    "tables unknown": (
        "nothing of this name and kind is needed",
        "look at the kinds by tslx names; an input has no entry here, and an output none"),
    "tables twice": ("the name has an entry already", "leave one of them out"),
    "tables missing": (
        "the name has no entry",
        "each function and predicate of specification and program needs one, and each cell; a Boolean signal is tested by pred ?"),
    "tables count": (
        "the entry has too few or too many values",
        "so many as the domain to the power of the number of arguments; the last argument counts up first"),
    "tables range": ("the value is too large", "values are below the domain; those of a predicate are 0 and 1"),
    "words byte": ("no token begins with this byte", "operations, tests and numbers are divided by blanks; comments begin with //"),
    "words comment": ("this comment is never closed", "each /* needs a */ of its own"),
    "words form": (
        "no machine words go on like this",
        "bits N, from 1 on, then entries func NAME OPERATION, pred NAME TEST and cell NAME VALUE"),
    "words unknown": (
        "nothing of this name and kind is needed",
        "look at the kinds by tslx names; an input has no entry here, and an output none"),
    "words twice": ("the name has an entry already", "leave one of them out"),
    "words missing": (
        "the name has no entry",
        "each function and predicate of specification and program needs one, and each cell; a Boolean signal is tested by pred ?"),
    "words arity": (
        "its operation or test has another number of arguments",
        "not, inc, dec, shl, shr, zero, odd and nonzero take one, const takes none, the others take two"),
    "words range": ("the value is too large", "values are below 2 to the power of the bits"),
    "inputs byte": ("no token begins with this byte", "values are numbers from 0 on, divided by blanks"),
    "inputs comment": ("this comment is never closed", "each /* needs a */ of its own"),
    "inputs form": ("no inputs go on like this", "input NAME for each, then stem and its rows, then cycle and at least one row"),
    "inputs unknown": ("the program has no such input", "a signal that is updated is a cell or an output; tslx names tells which"),
    "inputs twice": ("the input is named already", "leave one of them out"),
    "inputs missing": ("the input is not named", "name each input of the program once"),
    "inputs count": ("the row has too few or too many values", "one for each input, in the order in which they are named"),
    "inputs range": ("the value is too large", "values are below the domain of the tables"),
    "cnf form": ("no formula goes on like this", "p cnf VARIABLES CLAUSES, then so many clauses, each ended by 0"),
    "log form": ("the line is no step of a log", "NUMBER LITERALS 0 HINTS 0, with positive hints"),
    "automaton form": (
        "no automaton goes on with this line",
        "the lines are those that tsl automaton writes, with single spaces; of an edge [LABEL] STATE, with bits that rise"),
    "letters form": (
        "no loop of letters goes on with this line",
        "letter and the numbers of its true propositions, rising and below their count; last back and the number of a letter"),
    "met ,": ("no token begins with ,", "arguments are divided by blanks: f x y"),
    "met >": ("no token begins with >", "an order is a predicate of yours, as above x y"),
    "met <": ("no token begins with <", "an order is a predicate of yours, as below x y; an update is written [s <- t]"),
    "met &": ("no token begins with one &", "and is written &&"),
    "met |": ("no token begins with one bar", "or is written with two bars"),
    "met -": ("no token begins with -", "subtraction is a function of yours, as minus x y; implication is written ->"),
    "met +": ("no token begins with +", "addition is a function of yours, as add x y"),
    "met *": ("no token begins with *", "multiplication is a function of yours"),
    "met \"": ("no token begins with \"", "a text is a constant of yours, as green()"),
    "met .": ("no token begins with .", "a name has no dot; use _"),
}

# What helps where a limit is passed.
LIMITS: Dict[str, str] = {
    "text": "shorten it; comments count too",
    "nodes": "shorten formulas: both sides of <-> and the right side of W count twice",
    "predicates": "name fewer tests with different arguments, or divide the specification",
    "bits": "fewer tests, and fewer terms that cells and outputs may take",
    "choices": "divide the specification: a step of its formulas branches too often",
    "states": "fewer guarantees at once; where rounds stand behind the line, ask with --rounds 0 and more --states",
    "edges": "fewer guarantees at once; where no controller was found, ask with --rounds 0 and more --states",
    "clauses": "fewer states, a smaller bound, or fewer tests",
    "vectors": "fewer terms that cells and outputs may take, or --rounds 0 and more --states",
    "branches": "a smaller --depth, or --rounds 0",
    "domain": "at most 256 values",
    "entries": "a smaller domain, or functions of fewer arguments",
    "rows": "fewer rows",
    "run": "a smaller domain, or fewer cells or rows",
    "windows": "at most 64",
    "program-nodes": "at most 65536",
    "program-states": "at most 64",
    "variables": "at most 1048576",
}
