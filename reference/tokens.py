"""Tokens of scripts, points and programs, and what their three readers share.

docs/FORMATS.md, "Tokens" and "Refusals". A text is read once, token by token. Each refusal is
noted with its byte and its row in the table of its page; the reading ends at the first BadToken
or Unexpected, and the refusal with the lowest byte (at one byte, with the first row) is answered.
"""

from __future__ import annotations

import re
from typing import List, Optional, Pattern, Set, Tuple

from . import literal

RESERVED = {"in", "not", "fixed", "int", "fma", "float", "sqrt"}
NAME = re.compile(r"[A-Za-z_][A-Za-z0-9_]*")
SIGN = re.compile(r"<=|>=|<>|->|-/|/\\|\\/|[{}()\[\],;=+\-*/|<>?$~@]")
BLANK = re.compile(r"(?:[ \t\r\n]+|#[^\n]*)+")
WORD = re.compile(r"[A-Za-z0-9_]")
DIGITS = re.compile(r"[0-9]+")
# Rows that the tables of all three kinds of texts have in common.
NOT_TEXT, BAD_TOKEN, UNEXPECTED = 1, 2, 3


class Token:
    """A token: its kind is name, reserved, literal, sign, format or end."""
    __slots__ = ("kind", "text", "start", "end")

    def __init__(self, kind: str, text: str, start: int, end: int) -> None:
        """Its kind, its text, and its first and last byte."""
        self.kind, self.text, self.start, self.end = kind, text, start, end


class Refusal(Exception):
    """The refusal or fault that is answered."""

    def __init__(self, kind: str, at: int) -> None:
        """Kind and byte."""
        Exception.__init__(self, kind, at)
        self.kind, self.at = kind, at


class Stop(Exception):
    """The reading ends at a BadToken or Unexpected."""


class Tokens:
    """The tokens of a text, read on demand."""

    def __init__(self, text: str, sign: Pattern[str] = SIGN, reserved: Set[str] = RESERVED,
                 formats: Optional[Pattern[str]] = None) -> None:
        """Signs, reserved words and formats are those of the kind of text."""
        self.text = text
        self.list = []
        self.place = 0
        self.bad = None
        self.sign, self.reserved, self.formats = sign, reserved, formats

    def _read(self) -> Optional[Token]:
        """The next token, or None if no token begins there."""
        text = self.text
        m = BLANK.match(text, self.place)
        at = m.end() if m else self.place
        if at >= len(text):
            return Token("end", "", len(text), len(text))
        m = literal.PATTERN.match(text, at)
        if m:
            end = m.end()
            if end < len(text) and WORD.match(text, end):
                self.bad = at
                return None
            kind = "literal"
        else:
            kind = None
            m = self.formats.match(text, at) if self.formats else None
            if m:
                kind = "format"
            else:
                m = NAME.match(text, at)
                if m:
                    kind = "reserved" if m.group() in self.reserved else "name"
                else:
                    m = self.sign.match(text, at)
                    if m:
                        kind = "sign"
            if kind is None:
                self.bad = at
                return None
            end = m.end()
        self.place = end
        return Token(kind, m.group(), at, end)

    def get(self, i: int) -> Optional[Token]:
        """Token number i, or None where a BadToken stands there."""
        while len(self.list) <= i:
            if self.bad is not None:
                return None
            t = self._read()
            if t is None:
                return None
            self.list.append(t)
            if t.kind == "end":
                break
        return self.list[min(i, len(self.list) - 1)]


class Reading:
    """The head of the three readers: the coming token, and the refusals so far."""

    def __init__(self, tokens: Tokens) -> None:
        self.tokens = tokens
        self.at = 0
        self.refusals: List[Tuple[int, int, int]] = []  # (byte, row, limit's row)

    def refuse(self, row: int, at: int, limit: int = 0) -> None:
        """Notes a refusal of this row at the byte."""
        self.refusals.append((at, row, limit))

    def peek(self) -> Token:
        """The coming token; the reading ends at a BadToken."""
        t = self.tokens.get(self.at)
        if t is None:
            self.refuse(BAD_TOKEN, self.tokens.bad)
            raise Stop
        return t

    def take(self) -> Token:
        """The coming token, which is read now."""
        t = self.peek()
        self.at += 1
        return t

    def is_sign(self, text: str) -> bool:
        """Whether the coming token is this sign."""
        t = self.peek()
        return t.kind == "sign" and t.text == text

    def unexpected(self) -> None:
        """The coming token has no place: the reading ends at it."""
        self.refuse(UNEXPECTED, self.peek().start)
        raise Stop

    def expect(self, text: str) -> Token:
        """The coming token, which has to be this sign."""
        if not self.is_sign(text):
            self.unexpected()
        return self.take()

    def first_refusal(self, kinds: List[str]) -> Optional[Tuple[str, int, int]]:
        """Kind, byte and limit's row of the refusal that is answered, or None."""
        if not self.refusals:
            return None
        at, row, limit = min(self.refusals)
        return kinds[row], at, limit


def decode(data: bytes, most: int) -> str:
    """The text with one character per byte, after the judgements on bytes."""
    if len(data) > most:
        raise Refusal("Limit", most)
    try:
        data.decode("utf-8")
    except UnicodeDecodeError as e:
        raise Refusal("NotText", e.start)
    return data.decode("latin-1")
