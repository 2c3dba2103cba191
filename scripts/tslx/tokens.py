"""Tokens, the places that they stand at, and comments."""
import re
from dataclasses import dataclass
from typing import Iterator, List, NoReturn, Optional, Tuple

RESERVED = frozenset("assume guarantee always initially true false X F G U W R A".split())
KINDS_OF_SECTION = ("assume", "guarantee")
# The first line of a program.
HEAD = "tslprogram 1"
BEGINS_SECTION = frozenset(("assume", "guarantee", "always", "initially"))

TOKEN = re.compile(r"[A-Za-z_][A-Za-z0-9_']*|[0-9]+|<->|&&|\|\||->|<-|[{}()\[\];!?=]")
BLANKS = re.compile(r"[ \t\r\n]+")
IN_COMMENT = re.compile(r"/\*|\*/")


class Unreadable(Exception):
    """What a text holds that none of its kind holds, in one sentence, and where: the line from 1, and the column in bytes from 1, or 0 for a
    whole line."""

    def __init__(self, said: str, line: int = 0, column: int = 0):
        super().__init__(said)
        self.said = said
        self.line = line
        self.column = column


@dataclass(frozen=True)
class Place:
    """Where something begins: the line from 1, the column in bytes from 1, and the bytes before it."""
    line: int
    column: int
    start: int

    def __str__(self) -> str:
        return f"{self.line}:{self.column}"


@dataclass(frozen=True)
class Token:
    """A name, a number or a symbol, as it is written. A byte that begins no token is a token of its own, if such bytes are asked for."""
    word: str
    place: Place

    @property
    def end(self) -> int:
        """How many bytes stand before what comes behind the token."""
        return self.place.start + len(self.word)


@dataclass(frozen=True)
class Comment:
    """A comment as it is written, with its marks, without the line feed behind one of a line."""
    text: str
    place: Place

    @property
    def end(self) -> int:
        """How many bytes stand before what comes behind the comment."""
        return self.place.start + len(self.text)


def is_name(word: str) -> bool:
    """Whether a token's word is a name."""
    return word[:1] != "" and (word[0].isalpha() or word[0] == "_") and word not in RESERVED


def is_number(word: str) -> bool:
    """Whether a token's word is a number."""
    return word[:1] in set("0123456789") and word != ""


class Lines:
    """Finds the line and the column of a place in a text."""

    def __init__(self, text: str):
        self.line = 1
        self.line_start = 0
        self.at = 0
        self.text = text

    def place(self, start: int) -> Place:
        """The place of a position; positions are asked for in rising order."""
        feeds = self.text.count("\n", self.at, start)
        if feeds:
            self.line += feeds
            self.line_start = self.text.rindex("\n", self.at, start) + 1
        self.at = start
        return Place(self.line, start - self.line_start + 1, start)


def scan(text: str, strict: bool = True) -> Tuple[List[Token], List[Comment]]:
    """The tokens and the comments of a text. Where it is not read strictly, a byte that begins no token is a token, and a comment that is
    never closed ends with the text."""
    tokens: List[Token] = []
    comments: List[Comment] = []
    lines = Lines(text)
    at = 0
    while at < len(text):
        blank = BLANKS.match(text, at)
        if blank:
            at = blank.end()
            continue
        place = lines.place(at)
        if text.startswith("//", at):
            end = text.find("\n", at)
            comments.append(Comment(text[at:end if end >= 0 else len(text)], place))
            at = comments[-1].end
        elif text.startswith("/*", at):
            depth, end = 0, at
            for mark in IN_COMMENT.finditer(text, at):
                depth += 1 if mark.group() == "/*" else -1
                end = mark.end()
                if depth == 0:
                    break
            if depth:
                if strict:
                    raise Unreadable("this comment is never closed", place.line, place.column)
                end = len(text)
            comments.append(Comment(text[at:end], place))
            at = end
        else:
            token = TOKEN.match(text, at)
            if not token and strict:
                raise Unreadable(f"no token begins with {text[at]}", place.line, place.column)
            tokens.append(Token(token.group() if token else text[at], place))
            at = tokens[-1].end
    return tokens, comments


class Reader:
    """Goes over the tokens of a text, one by one."""

    def __init__(self, text: str, tokens: Optional[List[Token]] = None):
        self.text = text
        self.tokens = scan(text)[0] if tokens is None else tokens
        self.at = 0

    def word(self, ahead: int = 0) -> str:
        """The word of the next token, or of one behind it; empty behind the last one."""
        at = self.at + ahead
        return self.tokens[at].word if at < len(self.tokens) else ""

    def place(self) -> Place:
        """Where the next token stands, or the end of the text."""
        if self.at < len(self.tokens):
            return self.tokens[self.at].place
        return Place(self.text.count("\n") + 1, len(self.text) - self.text.rfind("\n"), len(self.text))

    def end(self) -> int:
        """How many bytes stand before the end of the last token that was taken."""
        return self.tokens[self.at - 1].end if self.at else 0

    def fail(self, wanted: str) -> NoReturn:
        """Says that something else was wanted in place of the next token."""
        place = self.place()
        met = f"met {self.word()}" if self.word() else "the text ends"
        raise Unreadable(f"{met}, where {wanted} may follow", place.line, place.column)

    def take(self, wanted: str = "") -> Token:
        """The next token, which is the one that is wanted, if one is named."""
        if not self.word() or (wanted and self.word() != wanted):
            self.fail(wanted or "more")
        self.at += 1
        return self.tokens[self.at - 1]

    def take_name(self) -> Token:
        """The next token, which is a name."""
        if not is_name(self.word()):
            self.fail("a name")
        return self.take()

    def take_number(self) -> int:
        """The next token, which is a number."""
        if not is_number(self.word()):
            self.fail("a number")
        return int(self.take().word)


def lines_of(text: str) -> Iterator[Tuple[int, str]]:
    """The lines of a text with their numbers from 1, without their line feeds."""
    lines = text.split("\n")
    if lines[-1] == "":
        lines.pop()
    return enumerate(lines, 1)
