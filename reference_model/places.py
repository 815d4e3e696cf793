"""Where in its text the refusal of a program lies: what `--explain` adds, `at line 2 column 12`; and which word of a
description tells what is too long.

Read anew from the refused text.  Of S4 the token at fault is found by trying: a front of the statement is let stand if
some words behind it make a statement of it.
"""

from __future__ import annotations

import re
from typing import NamedTuple

import svf
from controller import NEXT, STABLE


class Token(NamedTuple):
    start: int
    text: bytes

    @property
    def word(self) -> str:
        return self.text.decode().upper()


TAILS = tuple(tail.split() for tail in (
    "", "IDLE", "Z", "1 HZ", "HZ", "1", "( )", ")", "1 TCK", "TCK", "SEC", "1 SEC", "ENDSTATE IDLE"))
"""Behind each front of a statement that can go on, one of these makes a statement of it."""


def second_line(text: bytes, code: int, number: int) -> str:
    """The line of a refusal; empty where the text is too long."""
    place = offset(text, code, number)
    return "" if place is None else "at line %d column %d" % position(text, place)


def description_line(file: str, text: bytes, code: int, value: int | str | None) -> str:
    """The line of a refused description.  Empty for a token that does not fit (B2): that within quotes is not found here."""
    if code == 2:
        return ""
    words = ""
    if code in (1, 5, 9) and value is not None:
        words = " at line %d column %d" % position(text, value)
    if code in (5, 9) and value is not None:
        words += " name " + re.match(rb"[A-Za-z0-9_]+", text[value:])[0].decode()
    if code in (3, 4):
        words = f" name {value}"
    if code == 8:
        words = f" cell {value}"
    return f"in {file}{words}"


def position(text: bytes, place: int) -> tuple[int, int]:
    """By line and column; a line ends with a line feed, a carriage return, or both."""
    lines = re.split(rb"\r\n|\r|\n", text[:place])
    if text[place - 1:place + 1] == b"\r\n":  # between both
        lines = lines[:-2] + [lines[-2] + b"\r"]
    return len(lines), len(lines[-1]) + 1


def offset(text: bytes, code: int, number: int) -> int | None:
    """Where the byte or the token stands that is at fault; the statement's first token where no one token is."""
    if number == 0:
        return None
    group, at, before = [], 0, 1
    while at < len(text):
        found = svf.TOKEN.match(text, at)
        if not found:
            return at
        if found.lastgroup != "gap":
            group.append(Token(at, found.group()))
            if found.group() == b";":
                if len(group) > 1:
                    if before == number and code > 2:
                        break
                    before += 1
                group = []
        at = found.end()
    if code == 2:
        return group[0].start
    return at_fault(group, code).start


def at_fault(group: list[Token], code: int) -> Token:
    """The token at fault of a statement, which `;` ends; the first where no one token is."""
    if code == 4:
        return next(token for k, token in enumerate(group) if not goes_on(group[:k + 1]))
    if code == 9:  # a path: its first state is one clock from where the program rests, which the statement does not say
        return next((to for at, to in zip(group[1:-1], group[2:-1]) if to.word not in NEXT[at.word]), group[1])
    if group[0].word not in svf.FORMS or group[0].word in ("PIO", "PIOMAP"):
        return group[0]
    return next((token for k, token in enumerate(group[:-1]) if code in codes_of(group, k)), group[0])


def goes_on(front: list[Token]) -> bool:
    """Whether some statement begins so; one that has its `;` is a statement."""
    tails = [[]] if front[-1].text == b";" else TAILS
    words = [token.text for token in front if token.text != b";"]
    return any(is_form(words + [word.encode() for word in tail]) for tail in tails)


def is_form(tokens: list[bytes]) -> bool:
    try:
        svf.parse_statement(tokens)
    except svf.Fault as fault:
        return fault.code != 4
    return True


def codes_of(group: list[Token], k: int) -> list[int]:
    """What token k of a statement has against itself."""
    codes: list[int] = []
    command, token, behind = group[0].word, group[k], group[k + 1].word
    in_brackets = [other.text for other in group[:k] if other.text in (b"(", b")")][-1:] == [b"("]
    if k == 0:
        return codes
    if command in svf.SCANS and k == 1:
        if svf.read_length(token.text, codes) == 0:
            codes.append(12)
    elif in_brackets and token.text != b")":
        codes += codes_of_run(group, k)
    elif command == "FREQUENCY" and behind == "HZ":
        svf.read_period(token.text, codes)
    elif command == "RUNTEST" and behind in ("TCK", "SCK"):
        svf.read_count(token.text, codes)
    elif command == "RUNTEST" and behind == "SEC":
        svf.read_time(token.text, codes)
    elif command == "RUNTEST" and token.word == "SCK":
        codes.append(13)
    elif token.word in NEXT and token.word not in STABLE and (command != "STATE" or behind == ";"):
        codes.append(8)
    return codes


def codes_of_run(group: list[Token], k: int) -> list[int]:
    """A run of a field: a digit that is none (S5); or its field is too wide, and it has the highest 1 of it (S6)."""
    if re.search(rb"[^0-9A-Fa-f]", group[k].text):
        return [5]
    begin = max(j for j in range(k) if group[j].text == b"(") + 1
    end = min(j for j in range(k, len(group)) if group[j].text == b")")
    digits = b"".join(token.text for token in group[begin:end])
    if re.search(rb"[^0-9A-Fa-f]", digits) or not group[1].text.isdigit():
        return []
    before = b"".join(token.text for token in group[begin:k])
    is_highest = not before.strip(b"0") and group[k].text.strip(b"0")
    return [6] if is_highest and int(digits, 16) >> int(group[1].text) else []
