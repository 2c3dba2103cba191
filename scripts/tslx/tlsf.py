"""`tslx tlsf`: what `tsl` decides about a specification as a text that other tools for synthesis read, in the Basic format of TLSF."""
import re
from typing import Dict, List, Tuple

from .files import gather, write
from .formulas import Formula, Joined, Pair, Prefixed, Signal, Test, Truth, Update, write_test, write_update
from .given import options_of, specification_in, title_of
from .specifications import Space, Specification, space_of

WORDS = frozenset("""
info title description semantics target tags main inputs outputs initially preset require assert invariants assume assumptions guarantee
guarantees global parameters definitions mealy moore strict finite true false not and or implies equiv next globally finally until release
weak strong implication in enum otherwise x f g u w r m v xor elem cup cap setminus div mod mul sum prod plus minus eq neq le leq ge geq
""".split())


def spelled_apart(texts: List[str]) -> Dict[str, str]:
    """A name of small letters, digits and underscores for each text, never one for two, and none that is a word of TLSF or of its formulas."""
    names: Dict[str, str] = {}
    taken = set(WORDS)
    for text in texts:
        said = re.sub(r"_+", "_", re.sub(r"[^a-z0-9]", "_", text.lower().replace("<-", "gets"))).strip("_")
        said = said if said[:1].isalpha() else "n" + said
        number, base = 1, said
        while said in taken:
            number += 1
            said = f"{base}_{number}"
        names[text] = said
        taken.add(said)
    return names


def propositions(space: Space) -> Tuple[Dict[str, str], List[str], List[Tuple[str, List[str]]]]:
    """A name for each test and update, never one for two; the tests as they are written; and for each signal its updates so."""
    tests = list(map(write_test, space.tests))
    updates = [(name, [write_update(Update(Signal(name), term)) for term in space.choices[name]]) for name in space.controlled]
    return spelled_apart(tests + [it for _, own in updates for it in own]), tests, updates


def formula_text(formula: Formula, names: Dict[str, str]) -> str:
    """A formula in TLSF, with brackets around all that joins."""
    def of(it: Formula) -> str:
        if isinstance(it, Truth):
            return "true" if it.value else "false"
        if isinstance(it, Test):
            return names[write_test(it)]
        if isinstance(it, Update):
            return names[write_update(it)]
        if isinstance(it, Prefixed):
            return f"{it.operator}{'' if it.operator == '!' else ' '}{of(it.operand)}"
        if isinstance(it, Joined):
            return "(" + f" {it.operator} ".join(map(of, it.operands)) + ")"
        assert isinstance(it, Pair)
        return f"({of(it.left)} {it.operator} {of(it.right)})"
    return of(formula)


def exactly_one(updates: List[str], names: Dict[str, str]) -> str:
    """That one of the updates of a signal is made, and no other."""
    own = [names[it] for it in updates]
    both = [f"!({left} && {right})" for i, left in enumerate(own) for right in own[i + 1:]]
    return " && ".join(["(" + " || ".join(own) + ")", *both])


def tlsf(spec: Specification, title: str) -> str:
    """The text. Its system answers the tests of a step with the updates of the step."""
    plain = spec.expanded()
    names, tests, updates = propositions(space_of(spec))
    parts: Dict[str, List[str]] = {"assume": [], "guarantee": []}
    for section, item in plain.items():
        said = formula_text(item.formula, names)
        parts[section.kind].append(f"G {said}" if section.always else said)
    parts["guarantee"] += [f"G ({exactly_one(own, names)})" for _, own in updates]
    lines = ["// Written by tslx tlsf. What the names stand for:"]
    lines += [f"//   {said}: {text}" for text, said in names.items()]
    quoted = re.sub(r'[^ !#-\[\]-~]', "_", title)
    lines += ["INFO {", f'  TITLE:       "{quoted}"', f'  DESCRIPTION: "the tests and updates of {quoted}, each taken as it is named"', "  SEMANTICS:   Mealy",
              "  TARGET:      Mealy", "}", "MAIN {", "  INPUTS {", *(f"    {names[it]};" for it in tests), "  }",
              "  OUTPUTS {", *(f"    {names[it]};" for _, own in updates for it in own), "  }"]
    for kind, title_of in (("assume", "ASSUMPTIONS"), ("guarantee", "GUARANTEES")):
        if parts[kind]:
            lines += [f"  {title_of} {{", *(f"    {it};" for it in parts[kind]), "  }"]
    return "\n".join([*lines, "}"]) + "\n"


# ---- the command ----

HELP = """tslx tlsf [--title TITLE] [FILE]
The specification in FILE, or in standard input, as a text in the Basic format of TLSF, for other tools of synthesis: the tests of a step are
inputs, its updates outputs, each cell and output takes exactly one update, and comments tell which name stands for what. A system that such a
tool finds comes back by tslx back.
  --title TITLE     the title; without it the name of the file
"""


def main(words: List[str]) -> int:
    """Writes a specification as TLSF."""
    options, files = options_of("tlsf", words, {"--title": "a title"}, 0, 1, "one file")
    write(tlsf(specification_in(gather(files)), options.get("--title", title_of(files))))
    return 0
