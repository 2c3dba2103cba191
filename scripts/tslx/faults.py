"""Faults and passed limits in words: the file, its line and column, what may stand there, and the usual reason."""
from typing import Dict, List, Optional, Tuple

from .asking import Answer
from .files import Gathered, tell
from .phrases import FAULTS, LIMITS
from .tokens import BEGINS_SECTION, HEAD, Token, is_name, is_number, scan

OPENS, CLOSES = ("[", "(", "{"), ("]", ")", "}")


class Before:
    """What stands before a token of a specification: which brackets are open, and whether it is within a section or a definition."""

    def __init__(self, tokens: List[Token], count: int):
        self.tokens = tokens
        self.count = count
        self.open: List[int] = []
        # For each number of open brackets, the token U, W or R since the last `;` there.
        self.until: Dict[int, int] = {}
        self.within = ""
        self.head = ""
        for at in range(count):
            word = tokens[at].word
            if not self.open and word in BEGINS_SECTION:
                self.within = "section"
            elif not self.within and is_name(word):
                self.within, self.head = "head", word
            elif self.within == "head" and word == "=":
                self.within = "body"
            elif not self.open and self.within == "body" and word == ";":
                self.within = ""
            if word in OPENS:
                self.open.append(at)
                self.until.pop(len(self.open), None)
            elif word in CLOSES:
                if self.open:
                    self.open.pop()
                if not self.open and word == "}":
                    self.within = ""
            elif word == ";":
                self.until.pop(len(self.open), None)
            elif word in ("U", "W", "R"):
                self.until[len(self.open)] = at

    def word(self, at: int) -> str:
        """The word of a token, empty where there is none."""
        return self.tokens[at].word if 0 <= at < len(self.tokens) else ""

    def top(self) -> str:
        """The innermost open bracket."""
        return self.word(self.open[-1]) if self.open else ""

    def follows(self) -> str:
        """What may stand in place of the token."""
        before, opened = self.word(self.count - 1), self.top()
        within_update = ""
        for at in self.open:
            if self.word(at) == "[":
                within_update = "[" if opened == "[" else "[("
        opened = within_update or opened
        if not opened and self.within == "head":
            return "a parameter or ="
        if not opened and self.within != "body":
            if before in ("always", "initially"):
                return "assume or guarantee"
            return "{" if before in ("assume", "guarantee") else "always, initially, assume, guarantee or a definition"
        if opened == "[":
            if before == "[":
                return "a signal"
            return "<-" if self.word(self.count - 2) == "[" else "a term" if before == "<-" else "] or an argument"
        if opened == "[(":
            return "a term" if before == "(" else ") or an argument"
        if before in ("{", ";", "(", "=", "!", "X", "F", "G", "U", "W", "R", "&&", "||", "->", "<->"):
            return "a test, an update [s <- t], !, X, F, G or (" + (", or }" if before in ("{", ";") else "")
        ends = ", ; or }" if opened == "{" else " or )" if opened else " or ;"
        return "an operator (&&, ||, ->, <->, U, W, R)" + (", an argument" if is_name(before) else "") + ends

    def reason(self) -> str:
        """The usual reason why the token cannot stand there."""
        met, top = self.word(self.count), self.top()
        ended = self.count >= len(self.tokens)
        if met == "]" and self.word(self.count - 1) == "[":
            return "that something always holds is G, and that it holds some time F; an update is [s <- t]"
        if self.within == "head":
            return "outside of braces a name begins a definition, as both a = p a && q a; formulas stand in always guarantee { .. }"
        if self.within == "body" and not self.open and (ended or met in BEGINS_SECTION or met == "}"):
            return f"the definition of {self.head} has no ; at its end"
        if met == "=":
            if top != "{":
                return "an update is written [s <- t]; that two values are equal is eq x y"
            return "that two values are equal is eq x y; a definition stands outside of the braces"
        if ended or (top and (met in (";", "}") or met in BEGINS_SECTION)):
            if not self.open:
                return "a section is missing"
            return f"the {top} of {self.tokens[self.open[-1]].place} is not closed"
        if is_number(met):
            return "a number is no term; name a constant, as zero()"
        if met in ("U", "W", "R") or self.until.get(len(self.open)):
            return ("both sides of U, W and R that are more than an atom with prefixes stand in brackets, and so does the whole: "
                    "(a && b) U c")
        if met == "<-":
            return "an update stands in square brackets: [s <- t]"
        if met in CLOSES:
            if not top:
                return "nothing is open here that it could close"
            return f"the {top} of {self.tokens[self.open[-1]].place} is still open"
        if met in ("true", "false", "X", "F", "G", "A") and top == "[":
            return f"{met} is a reserved word and no name"
        if met in ("!", "X", "F", "G", "(", "[", "true", "false"):
            return "an operator is missing before it"
        return "a term is missing, or an operator"


def definitions(tokens: List[Token]) -> Dict[str, Token]:
    """The names that are defined, each with its first head, of a text that may have faults."""
    found: Dict[str, Token] = {}
    at = 0
    while at < len(tokens):
        if tokens[at].word == "{":
            while at < len(tokens) and tokens[at].word != "}":
                at += 1
        elif is_name(tokens[at].word):
            found.setdefault(tokens[at].word, tokens[at])
            while at < len(tokens) and tokens[at].word != ";" and tokens[at].word not in BEGINS_SECTION:
                at += 1
            at -= at < len(tokens) and tokens[at].word != ";"
        at += 1
    return found


def parts_of(lines: List[str]) -> Dict[str, int]:
    """At which line, from 1, each part of a text begins."""
    found = {"spec": 1, "cnf": 1, "automaton": 1}
    meaning = False
    for number, said in enumerate(lines, 1):
        if said == HEAD:
            found.setdefault("program", number)
        if said in ("tsltables 1", "tslwords 1") and "program" in found and not meaning:
            meaning = True
            found[said[3:-2]] = number
        if said == "tslinputs 1" and meaning:
            found.setdefault("inputs", number)
        if said == "lrat":
            found.setdefault("log", number + 1)
        if said == "letters":
            found.setdefault("letters", number + 1)
    return found


def entry_line(lines: List[str], part: str, name: str, parts: Dict[str, int]) -> int:
    """The line of the entry of a name, or of a row by its number; where there is none, that of the part's head."""
    row = -1
    for number in range(parts.get(part, 1), len(lines) + 1):
        words = lines[number - 1].split()
        for at, word in enumerate(words):
            if part == "inputs" and word == "row":
                row += 1
                if str(row) == name:
                    return number
            if part in ("tables", "words") and word in ("func", "pred", "cell") and words[at + 1:at + 2] == [name]:
                return number
        if part in ("tables", "words") and number + 1 == parts.get("inputs"):
            break
    return parts.get(part, 1)


def said_of_specification(spec: str, line: int, column: int, kind: str, name: str) -> Tuple[str, str]:
    """What a fault of a specification says, and its usual reason."""
    said, why = FAULTS.get("spec " + kind, ("no specification goes on like this", ""))
    tokens, _ = scan(spec, strict=False)
    at = next((at for at, it in enumerate(tokens) if (it.place.line, it.place.column) == (line, column)), len(tokens))
    if kind == "form":
        before = Before(tokens, at)
        met = f"met {tokens[at].word}" if at < len(tokens) else "the text ends"
        said, why = f"{met}, where {before.follows()} may follow", before.reason()
    defined = definitions(tokens)
    if name in defined and (at >= len(tokens) or defined[name] != tokens[at]):
        said, why = FAULTS.get(f"spec {kind} use", (said, why))
        said += f", defined at {defined[name].place}"
    elif kind in ("kind", "arity"):
        first = next((it for it in tokens if it.word == name), None)
        if first and (at >= len(tokens) or first != tokens[at]):
            said += f", at {first.place}"
    if kind == "byte" and at < len(tokens):
        met, behind = tokens[at].word, tokens[at + 1].word if at + 1 < len(tokens) else ""
        touches = at > 0 and tokens[at - 1].end == tokens[at].place.start
        if met == ">" and touches and tokens[at - 1].word == "=":
            return "no token begins with >", "implication is written ->"
        if met == "<" and behind == ">" and tokens[at].end == tokens[at + 1].place.start:
            return "no token begins with <", "that something holds some time is written F"
        said, why = FAULTS.get("met " + met, (said, why))
    return said, why


def marked(line: str, column: int) -> List[str]:
    """A line of a text, and below it a mark under one of its bytes; bytes that go on with a character take no room."""
    before = "".join("\t" if byte == "\t" else " " for byte in line[:column - 1] if not "\x80" <= byte <= "\xbf")
    return ["  " + line, "  " + before + "^"]


def fault_in_words(words: List[str], gathered: Gathered) -> List[str]:
    """The lines that tell a fault; `words` are those of its line."""
    text = gathered.text
    lines = text.split("\n")
    if lines[-1] == "":
        lines.pop()
    parts = parts_of(lines)
    part, line, column, kind, name, value = words[1], 0, 1, "", "", ""
    rest = words[2:]
    if part == "parts":
        name, line = rest[0], max(len(lines), 1)
    elif rest and rest[0].replace(":", "").isdigit():
        place = [int(it) for it in rest[0].split(":")]
        line, column = parts.get(part, 1) + place[0] - 1, (place + [1])[1]
        kind, name = (rest[1:] + ["", ""])[:2]
    else:
        kind, name, value = (rest + ["", "", ""])[:3]
        line = parts.get(part, 1) if kind == "missing" else entry_line(lines, part, name, parts)
    said, why = FAULTS.get(f"{part} {name if part == 'parts' else kind}", (" ".join(words[1:]), ""))
    if part == "spec":
        end = parts.get("program", len(lines) + 1) - 1
        first = lines[line - gathered.place(line)[1]:][:1] if line <= len(lines) else lines[:1]
        if lines[:1] == [HEAD]:
            line = column = 1
            said, why, name = "this is a program, where a specification is meant", "check and run take a specification and then a program", ""
        elif first and (first[0] == "none" or first[0].startswith(("tsltables ", "tslwords ", "HOA: "))):
            line, column, name = line - gathered.place(line)[1] + 1 if line <= len(lines) else 1, 1, ""
            said, why = f"met {first[0]}, where a specification is meant", "tslx --help tells what each command takes"
        else:
            said, why = said_of_specification("".join(it + "\n" for it in lines[:end]), line, column, kind, name)
    if part == "program" and kind == "form" and len(gathered.files) > 1 and line <= len(lines) and gathered.place(line)[1] == 1:
        why = "the files are read one after the other, and the specification stands before the program"
    if line > len(lines):
        line, column = max(len(lines), 1), (len(lines[-1]) if lines else 0) + 1
    file, own_line = gathered.place(line)
    whose = ""
    if name and part != "parts":
        whose = f"row numbered {name}: " if part == "inputs" and kind in ("count", "range") else f"{name}: "
    found = [f"{file}:{own_line}:{column}: {whose}{said}{f' ({value})' if value else ''}"]
    found += marked(lines[line - 1] if lines else "", column)
    if why:
        found.append("  hint: " + why)
    return found


def tell_answer(answer: Answer, gathered: Optional[Gathered]) -> None:
    """Tells what `tsl` wrote on its error output, in words."""
    words = answer.first
    if not answer.err:
        return
    if words[0] == "fault" and len(words) > 2 and gathered is not None:
        tell("\n".join(fault_in_words(words, gathered)))
        return
    tell(answer.err.rstrip("\n"))
    if words[0] == "large" and words[1] in LIMITS:
        tell("  hint: " + LIMITS[words[1]])
