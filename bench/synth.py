#!/usr/bin/env python3
"""Times `tsl synth` on the examples and on arbiters of growing size, and checks what it writes by the plain reading of the
definitions in `plain.py` and `rounds.py`. Beside it stand `minisat` and `cadical` on the clauses of the last question for a
controller, where they are installed. The first argument is the most seconds of a run, 60 if there is none; parts of names may
follow, and then only the questions whose names have one of them are asked. Last come the examples once more, each with what the full
bound costs beside bound 2."""
import statistics
import subprocess
import sys

import plain
import rounds
from measuring import HERE, PROGRAM, SOLVER, built, spent_in
from solver import arbiter, conflicts, measured, programs

USUAL = {"--states": 2, "--bound": 2, "--env-states": 2, "--env-bound": 2, "--depth": 2, "--rounds": 8, "--budget": 20_000}
ASKS = ("--states", "--bound", "--budget")  # what `prove` takes
PARTS = ("read", "automaton", "questions", "solver", "rest")
STEPS = ["tsl_reader::read_spec", "program_check::automaton_for", "refinement_loop::controller_answer",
         "refinement_loop::environment_turn", "sat_core::search"]
CLEAR = 0.1  # seconds of minisat, from which on the whole is compared to it
WRITTEN, NONE, LARGE, SPENT = 0, 1, 4, 5
HEADS = {WRITTEN: 0, NONE: 3, LARGE: 1, SPENT: 2}  # lines before those of rounds


def questions():
    """Name, specification and sizes: the examples with those of their words, arbiters of so many requests with as many states and
    the same bound, and one of six with two, without rounds and with them."""
    for path in sorted((HERE.parent / "examples").glob("*/*.tsl")):
        words = path.with_suffix(".words").read_text().split()
        numbers = (word if word == "full" else int(word) for word in words[2::2])
        yield path.stem, path.read_text(), USUAL | dict(zip(words[1::2], numbers))
    for count in (3, 4, 5):
        yield f"generator {count}", arbiter(count), USUAL | {"--states": count, "--bound": count, "--rounds": 0}
    yield "6 responses", arbiter(6), USUAL | {"--rounds": 0}
    yield "6 responses, rounds", arbiter(6), USUAL


def question_for(text, sizes, windows=()):
    """The question for a controller. The full bound is its states times those of the automaton."""
    question = plain.Question(text, sizes["--states"], 0, windows)
    bound = sizes["--states"] * question.count if sizes["--bound"] == "full" else sizes["--bound"]
    return plain.Question(text, sizes["--states"], bound, windows)


def words_of(command, sizes):
    named = sizes if command == "synth" else {name: sizes[name] for name in ASKS}
    return [str(PROGRAM), command, *(word for name, value in named.items() for word in (name, str(value)))]


def asked(words, text):
    """The status of a run, and what it writes to both outputs."""
    done = subprocess.run(words, input=text, capture_output=True, text=True)
    return done.returncode, done.stdout + done.stderr


def learnt_in(lines):
    return [[int(word) for word in line.split()[1:-1]] for line in lines if line.startswith("clause ")]


def has_assignment(question):
    status = subprocess.run([str(SOLVER)], input=plain.cnf_text(question.variables, question.clauses()), capture_output=True, text=True)
    assert status.returncode in (10, 20)
    return status.returncode == 10


class Answer:
    """What `synth` wrote, read: its windows, its rounds where it tells them, and the line of the reason."""

    def __init__(self, text, sizes, status, written):
        self.text, self.sizes, self.status, self.written = text, sizes, status, written
        self.formula, self.space = rounds.spec_of(text)
        self.left = [*written.splitlines()[HEADS[status]:], ""]
        self.rounds = [] if status == WRITTEN else rounds.rounds_in(self.space, self.left)
        self.windows = plain.Program(written).windows if status == WRITTEN else [window for _, window in self.rounds]
        self.reason = self.left[0] if status == NONE else written.splitlines()[0]

    def for_controller(self, count=None):
        """Under so many windows, all where no number is given."""
        return question_for(self.text, self.sizes, self.windows[:count])

    def for_environment(self, count=None):
        return rounds.EnvironmentQuestion(self.formula, self.space, self.sizes["--env-states"], self.sizes["--env-bound"],
                                          self.windows[:count])

    def check(self):
        """A program is accepted with the bound; the rounds are a chain; and other texts are as they are defined, and true."""
        sizes = self.sizes
        if self.status == WRITTEN:
            assert plain.verdict(self.text, self.written, self.for_controller().bound) == "accepted"
            return
        for made, (environment, window) in enumerate(self.rounds):
            assert not has_assignment(self.for_controller(made))
            assert environment.has_annotation(self.space, self.for_environment(made).automaton, sizes["--env-bound"])
            assert window.length <= sizes["--depth"] and rounds.is_needed(window, self.space.cells)
            assert rounds.is_spurious(self.space, environment, window)
            assert rounds.find_window(self.space, environment, self.space.cells, window.length - 1) is None
        assert len(self.rounds) <= sizes["--rounds"]
        if self.status == NONE:
            self.check_none()
        elif self.status == SPENT:
            side = self.reason.split()[1]
            question = self.for_controller() if side == "controller" else self.for_environment()
            learnt = learnt_in(self.written.splitlines())
            named = ("--env-states", "--env-bound")
            automaton = question.count, question.edges
            told = [question.states, question.bound] if side == "controller" else [sizes[n] for n in named]
            shown = rounds.spent_text(self.space, side, told, self.rounds, automaton, learnt)
            assert self.written == shown and len(learnt) == sizes["--budget"]

    def check_none(self):
        sizes, reason = self.sizes, self.reason
        assert not has_assignment(self.for_controller())
        if reason == "reason genuine":
            reason = rounds.environment_in(self.space, self.left[1:])
            assert reason.has_annotation(self.space, self.for_environment().automaton, sizes["--env-bound"])
            assert rounds.find_window(self.space, reason, self.space.cells, sizes["--depth"]) is None
        elif reason.startswith("reason nocounter"):
            assert reason == f"reason nocounter {sizes['--env-states']} {sizes['--env-bound']}"
            assert not has_assignment(self.for_environment())
        else:
            assert reason == f"reason rounds {sizes['--rounds']}" and len(self.rounds) == sizes["--rounds"]
        assert self.written == rounds.none_text(self.space, sizes["--states"], self.for_controller().bound, self.rounds, reason)

    def name(self):
        return "program" if self.status == WRITTEN else self.reason.split()[1]


def check_refutation(answer):
    """What `prove` writes where there is no controller: its formula and its clauses are those of the plain reading. It takes no full
    bound."""
    if answer.sizes["--bound"] == "full":
        return
    question = answer.for_controller(0)
    status, written = asked(words_of("prove", answer.sizes), answer.text)
    formula, _ = written.split("lrat\n")
    comment = f"c {plain.formula_text(question.formula)}\n"
    assert status == WRITTEN and formula == comment + plain.cnf_text(question.variables, question.clauses())
    assert asked([str(PROGRAM), "recheck"], written) == (0, "verified\n")


def least_budget(text, sizes):
    """The least budget that is not spent."""
    def is_spent(budget):
        return asked(words_of("synth", sizes | {"--budget": budget}), text)[0] == SPENT
    low, high = 0, 1
    while is_spent(high):
        low, high = high, 2 * high
    while high - low > 1:
        middle = (low + high) // 2
        low, high = (middle, high) if is_spent(middle) else (low, middle)
    return high


def seconds_of(run):
    return f"{run[0]:9.4f}" if run else f"{'-':>9}"


def parts_of(text, words):
    """The shares of a run's instructions: reading, the automata, the questions without these and without the solver (the encodings,
    what is read off an assignment, and the search for windows), the solver, and the program or another text. None where valgrind is
    not installed."""
    counted = spent_in(text.encode(), words, STEPS)
    if counted is None:
        return None
    whole, (read, automaton, controller, environment, solver) = counted
    questions = controller + environment - automaton - solver
    rest = whole - read - automaton - questions - solver
    return [100 * part / whole for part in (read, automaton, questions, solver, rest)]


def run_within(folder, text, sizes, seconds):
    return measured(folder, text.encode(), words_of("synth", sizes), seconds)


def row(folder, name, text, sizes, seconds, ratios):
    """One question: what was answered, the sizes of the last question for a controller, the times of the parts, and those of the other
    programs on its clauses. Then a line for each round that was made. A limit that is passed has one line."""
    status, written = asked(words_of("synth", sizes), text)
    answer = Answer(text, sizes, status, written)
    answer.check()
    if status != WRITTEN:
        check_refutation(answer)
    if status == LARGE:
        print(f"{name:>22} {sizes['--states']:2} {sizes['--bound']:>4} {answer.reason}, rounds {len(answer.rounds)}", flush=True)
        return
    question = answer.for_controller()
    clauses = question.clauses()
    learnt = sizes["--budget"] if status == SPENT else least_budget(text, sizes) - 1
    whole, before, least = (run_within(folder, text, sizes | changed, seconds) for changed in (
        {}, {"--budget": 1}, {"--states": 1, "--bound": 0, "--rounds": 0, "--budget": 1}))
    counts = f"{question.count:4} {len(question.edges):6} {question.variables:7} {len(clauses):8}"
    line = f"{name:>22} {sizes['--states']:2} {sizes['--bound']:>4} {answer.name():>9} {len(answer.windows):6} {counts} {learnt:7}"
    line += f" {seconds_of(least)} {seconds_of(before)} {seconds_of(whole)} {whole[1] if whole else '-':>8}"
    parts = parts_of(text, words_of("synth", sizes))
    line += "".join(f" {f'{part:.0f}%':>9}" for part in parts) if parts else f" {'-':>9}" * len(PARTS)
    cnf = plain.cnf_text(question.variables, clauses).encode()
    for tool, words in programs().items():
        if tool == "solve":
            continue
        run = measured(folder, cnf, words, seconds)
        line += f" {seconds_of(run)}"
        assert run is None or status == SPENT or run[2] == {WRITTEN: 10, NONE: 20}[status], (name, tool)
        if run and tool == "minisat -no-pre":
            count = conflicts(tool, words, cnf, run[2], seconds)
            line += f" {count:9}"
            if count and not answer.windows:
                ratios["learnt clauses to conflicts"].append(learnt / count)
        if run and whole and tool == "minisat" and run[0] > CLEAR:
            ratios["time of the whole"].append(whole[0] / run[0])
    print(line, flush=True)
    print_rounds(folder, answer, seconds)


def print_rounds(folder, answer, seconds):
    """For each round: the seconds of it, as a search with so many rounds takes longer than one with a round less; the window's length;
    and the sizes of the question for an environment that it asked, and of that for a controller after it."""
    before = run_within(folder, answer.text, answer.sizes | {"--rounds": 0}, seconds)
    for made, window in enumerate(answer.windows):
        after = run_within(folder, answer.text, answer.sizes | {"--rounds": made + 1}, seconds)
        spent = f"{max(after[0] - before[0], 0):9.4f}" if before and after else f"{'-':>9}"
        sides = []
        for question in (answer.for_environment(made), answer.for_controller(made + 1)):
            sides.append(f"{question.count:4} {len(question.edges):6} {question.variables:7} {len(question.clauses()):8}")
        line = f"{f'round {made}':>22} window of {window.length}, seconds {spent}, environment {sides[0]}, controller {sides[1]}"
        print(line, flush=True)
        before = after


def print_full(folder, name, text, sizes, seconds):
    """What the full bound costs beside bound 2: the clauses of the first question for a controller, the seconds of the whole, and the
    most clauses that were learnt for one question. A limit that is passed has the word of it in place of all that."""
    line = f"{name:>22} {sizes['--states']:2}"
    for bound in (2, "full"):
        asked_for = sizes | {"--bound": bound}
        status, written = asked(words_of("synth", asked_for), text)
        if status == LARGE:
            line += f" {written.splitlines()[0]:>38}"
            continue
        learnt = sizes["--budget"] if status == SPENT else least_budget(text, asked_for) - 1
        run = run_within(folder, text, asked_for, seconds)
        question = question_for(text, asked_for)
        line += f" {question.bound:4} {len(question.clauses()):8} {seconds_of(run)} {learnt:7} {status:6}"
    print(line, flush=True)


def main():
    seconds = int(sys.argv[1]) if len(sys.argv) > 1 else 60
    wanted = sys.argv[2:]
    ratios = {"learnt clauses to conflicts": [], "time of the whole": []}
    others = [tool for tool in programs() if tool != "solve"]
    heads = "".join(f" {tool[:9]:>9}" + (f" {'conflicts':>9}" if tool == "minisat -no-pre" else "") for tool in others)
    print(f"{'question':>22} {'n':>2} {'k':>4} {'answer':>9} {'rounds':>6} {'Q':>4} {'edges':>6} {'vars':>7} {'clauses':>8} {'learnt':>7}"
          f" {'small':>9} {'before':>9} {'whole':>9} {'KiB':>8}" + "".join(f" {part:>9}" for part in PARTS) + heads)
    with built() as folder:
        for name, text, sizes in questions():
            if not wanted or any(part in name for part in wanted):
                row(folder, name, text, sizes, seconds, ratios)
        heads = "".join(f" {'k':>4} {'clauses':>8} {'whole':>9} {'learnt':>7} {'status':>6}" for _ in range(2))
        print(f"{'question':>22} {'n':>2}{heads}")
        for name, text, sizes in questions():
            if not wanted or any(part in name for part in wanted):
                print_full(folder, name, text, sizes, seconds)
    for title, members in ratios.items():
        if members:
            print(f"{title} of minisat: median {statistics.median(members):.2f}, most {max(members):.2f} of {len(members)}")


if __name__ == "__main__":
    main()
