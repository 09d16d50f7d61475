"""The tokens of Rattle, which are those of Rust with clauses and ghost items; a clause or a ghost item is one token."""

from __future__ import annotations

from enum import Enum, auto
from typing import Callable, NamedTuple, Sequence

from plain_rust.faults import NotKnown


class Kind(Enum):
    """What a token is."""

    SPACE = auto()
    COMMENT = auto()
    STRING = auto()
    CHARACTER = auto()
    LIFETIME = auto()
    WORD = auto()
    NUMBER = auto()
    SIGN = auto()
    CLAUSE = auto()
    GHOST = auto()


TRIVIA = (Kind.SPACE, Kind.COMMENT)
OPENING = {"(": ")", "[": "]", "{": "}"}
CLOSING = frozenset(OPENING.values())
CLAUSES = ("requires", "ensures")


class Token(NamedTuple):
    """A token with the line, from 1 on, that it begins in."""

    kind: Kind
    text: str
    line: int

    def is_sign(self, text: str) -> bool:
        """Whether it is this sign."""
        return self.kind is Kind.SIGN and self.text == text

    def is_word(self, text: str) -> bool:
        """Whether it is this word."""
        return self.kind is Kind.WORD and self.text == text

    @property
    def is_trivia(self) -> bool:
        """Whether it is white space or a comment."""
        return self.kind in TRIVIA


def sign(text: str) -> Token:
    """A sign that stands in no source."""
    return Token(Kind.SIGN, text, 0)


def word(text: str) -> Token:
    """A word or a path that stands in no source."""
    return Token(Kind.WORD, text, 0)


def text_of(tokens: Sequence[Token]) -> str:
    """The tokens as they are written."""
    return "".join(token.text for token in tokens)


def begins_word(letter: str) -> bool:
    """Whether a name may begin with it."""
    return letter == "_" or letter.isalpha()


def continues_word(letter: str) -> bool:
    """Whether it may stand in a name."""
    return letter == "_" or letter.isalnum()


class Reader:
    """Reads a source from its start to its end."""

    def __init__(self, file: str, source: str) -> None:
        self.file = file
        self.source = source
        self.place = 0
        self.line = 1

    def refuse(self, what: str) -> NotKnown:
        """The fault of what stands here."""
        return NotKnown(self.file, self.line, what)

    def at(self, *texts: str) -> bool:
        """Whether one of these stands here."""
        return self.source.startswith(texts, self.place)

    def past(self, text: str, start: int) -> int:
        """The place behind the next such text."""
        found = self.source.find(text, start)
        if found < 0:
            raise self.refuse(f"no {text!r} ends what begins here")
        return found + len(text)

    def while_letters(self, holds: Callable[[str], bool], start: int) -> int:
        """The first place from `start` on whose letter is another."""
        end = start
        while end < len(self.source) and holds(self.source[end]):
            end += 1
        return end

    def block_end(self, start: int) -> int:
        """The place behind the block of the prover's language that begins at this brace, with its own comments and strings."""
        depth, place = 0, start
        while place < len(self.source):
            letter = self.source[place]
            if letter == '"':
                place = self.string_end(place)
                continue
            if self.source.startswith("//", place) or (self.source.startswith("--", place) and self.source[place - 1].isspace()):
                place = self.past("\n", place) - 1
            depth += (letter == "{") - (letter == "}")
            place += 1
            if depth == 0:
                return place
        raise self.refuse("a block that isn't closed")

    def string_end(self, quote: int) -> int:
        """The place behind the string whose first quote is here."""
        place = quote + 1
        while self.source[place : place + 1] != '"':
            if place >= len(self.source):
                raise self.refuse("a string that isn't closed")
            place += 2 if self.source[place] == "\\" else 1
        return place + 1

    def raw_string_end(self) -> int:
        """The place behind the raw string that begins here."""
        place = self.place + (2 if self.at("b") else 1)
        hashes = self.while_letters(lambda letter: letter == "#", place) - place
        if self.source[place + hashes] != '"':
            raise self.refuse("a raw name")
        return self.past('"' + "#" * hashes, place + hashes + 1)

    def comment_end(self) -> int:
        """The place behind the block comment that begins here; block comments stand in one another."""
        depth, place = 1, self.place + 2
        while depth:
            opened, closed = self.source.find("/*", place), self.source.find("*/", place)
            if closed < 0:
                raise self.refuse("a comment that isn't closed")
            nested = 0 <= opened < closed
            depth += 1 if nested else -1
            place = (opened if nested else closed) + 2
        return place

    def quoted(self) -> tuple[Kind, int]:
        """The character or the lifetime that begins here, and the place behind it."""
        start = self.place + (2 if self.at("b") else 1)
        if self.source[start] == "\\":
            return Kind.CHARACTER, self.past("'", start + 2)
        if self.source[start + 1 : start + 2] == "'":
            return Kind.CHARACTER, start + 2
        return Kind.LIFETIME, self.while_letters(continues_word, start)

    def ghost_end(self, start: int) -> int:
        """The place behind a ghost item, field or import whose first word is before `start`."""
        if self.source.startswith("use ", start + 1):
            return self.past(";", start)
        place = start
        while True:
            letter = self.source[place : place + 1]
            if letter == "{":
                place = self.block_end(place)
            elif letter in (";", ","):
                return place + 1
            elif letter in ("}", ""):
                return place
            else:
                place += 1

    def named(self) -> tuple[Kind, int]:
        """The word, the clause or the ghost item that begins here, and the place behind it."""
        end = self.while_letters(continues_word, self.place)
        name = self.source[self.place : end]
        if name in CLAUSES:
            return Kind.CLAUSE, self.block_end(self.past("{", end) - 1)
        if name == "ghost":
            return Kind.GHOST, self.ghost_end(end)
        return Kind.WORD, end

    def number_end(self) -> int:
        """The place behind the number that begins here."""
        end = self.while_letters(continues_word, self.place)
        if self.source[end : end + 1] == "." and self.source[end + 1 : end + 2].isdigit():
            end = self.while_letters(continues_word, end + 1)
        return end

    def trivia(self) -> tuple[Kind, int]:
        """The white space or the comment that begins here, and the place behind it."""
        if self.at("//"):
            return Kind.COMMENT, self.while_letters(lambda one: one != "\n", self.place)
        if self.at("/*"):
            return Kind.COMMENT, self.comment_end()
        return Kind.SPACE, self.while_letters(str.isspace, self.place)

    def following(self) -> tuple[Kind, int]:
        """What begins here, and the place behind it."""
        letter = self.source[self.place]
        if letter.isspace() or self.at("//", "/*"):
            return self.trivia()
        if self.at('"', 'b"', 'c"'):
            return Kind.STRING, self.string_end(self.source.index('"', self.place))
        if self.at('r"', "r#", 'br"', "br#"):
            return Kind.STRING, self.raw_string_end()
        if self.at("'", "b'"):
            return self.quoted()
        if begins_word(letter):
            return self.named()
        if letter.isdigit():
            return Kind.NUMBER, self.number_end()
        return Kind.SIGN, self.place + 1

    def read(self) -> list[Token]:
        """All tokens."""
        tokens = []
        while self.place < len(self.source):
            kind, end = self.following()
            text = self.source[self.place : end]
            tokens.append(Token(kind, text, self.line))
            self.line += text.count("\n")
            self.place = end
        return tokens


def tokens_of(file: str, source: str) -> list[Token]:
    """The tokens of a source; the file's name is for faults."""
    return Reader(file, source).read()


def rust(source: str) -> list[Token]:
    """The tokens of Rust that stands in no source."""
    return tokens_of("", source)


def skip(tokens: Sequence[Token], place: int) -> int:
    """The first place from `place` on that is no trivia; the end where there is none."""
    while place < len(tokens) and tokens[place].is_trivia:
        place += 1
    return place


def before(tokens: Sequence[Token], place: int) -> int:
    """The last place before `place` that is no trivia; -1 where there is none."""
    place -= 1
    while place >= 0 and tokens[place].is_trivia:
        place -= 1
    return place


def closing(tokens: Sequence[Token], opening: int) -> int:
    """The place of the bracket that closes the one at `opening`."""
    depth = 0
    for place in range(opening, len(tokens)):
        token = tokens[place]
        if token.kind is Kind.SIGN:
            depth += (token.text in OPENING) - (token.text in CLOSING)
            if depth == 0:
                return place
    raise ValueError(f"line {tokens[opening].line}: a bracket that isn't closed")


def closing_angle(tokens: Sequence[Token], opening: int) -> int:
    """The place of the `>` that closes the `<` at `opening`, among types."""
    depth = 0
    for place in range(opening, len(tokens)):
        if tokens[place].is_sign("<"):
            depth += 1
        elif tokens[place].is_sign(">") and not tokens[place - 1].is_sign("-"):
            depth -= 1
            if depth == 0:
                return place
    raise ValueError(f"line {tokens[opening].line}: an angle bracket that isn't closed")


def split_at_commas(tokens: Sequence[Token]) -> list[list[Token]]:
    """The parts between the commas outside all brackets; an empty last part is left out."""
    parts: list[list[Token]] = [[]]
    depth = 0
    for place, token in enumerate(tokens):
        if token.kind is Kind.SIGN:
            is_arrow = token.text == ">" and place > 0 and tokens[place - 1].is_sign("-")
            depth += (token.text in "([{<") - (token.text in ")]}>" and not is_arrow)
        if depth == 0 and token.is_sign(","):
            parts.append([])
        else:
            parts[-1].append(token)
    return [part for part in parts if any(not token.is_trivia for token in part)]
