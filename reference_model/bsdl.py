"""The Boundary-Scan Description Language as a subset: a text becomes a `Device`, or is refused.

The least number among B1 to B9 that applies is the refusal.  Every byte is one character here (Latin-1), so
that places are places of bytes.  Words match in any case; names are kept in upper case.
"""

from __future__ import annotations

import re
from itertools import count
from typing import NamedTuple

from refusal import Refusal

FAULT_NAMES = {
    1: "BadToken", 2: "BadForm", 3: "Missing", 4: "Twice", 5: "BadLength", 6: "BadCapture",
    7: "BadId", 8: "BadCell", 9: "TooLarge",
}

TEXT_LIMIT = 4 * 1024 * 1024
INDEX_LIMIT = 65_535  # of a port's subscripts, and of the cell numbers of which B8 speaks
INSTRUCTION_BITS = (2, 64)
INSTRUCTION_ROWS = 256
CELLS = (1, 4_096)
PORT_BITS = 8_192
USER_REGISTERS = 64
USER_BITS = (1, 4_096)

TRUTHS = ("TAP_SCAN_IN", "TAP_SCAN_OUT", "TAP_SCAN_MODE", "TAP_SCAN_RESET")
NEEDED = (
    "TAP_SCAN_IN", "TAP_SCAN_OUT", "TAP_SCAN_MODE", "TAP_SCAN_CLOCK", "INSTRUCTION_LENGTH",
    "BOUNDARY_LENGTH", "INSTRUCTION_OPCODE", "INSTRUCTION_CAPTURE", "BOUNDARY_REGISTER",
)
STANDARD = frozenset("BYPASS EXTEST SAMPLE PRELOAD IDCODE USERCODE CLAMP HIGHZ INTEST RUNBIST".split())
SEEING = frozenset(("INPUT", "CLOCK", "OBSERVE_ONLY", "BIDIR"))
DRIVING = frozenset(("OUTPUT2", "OUTPUT3", "BIDIR"))
CONTROLS = frozenset(("CONTROL", "CONTROLR"))
WITHOUT_PORT = CONTROLS | {"INTERNAL"}
FUNCTIONS = SEEING | DRIVING | WITHOUT_PORT
RESULTS = ("Z", "WEAK0", "WEAK1", "PULL0", "PULL1", "KEEPER")


def refusal(code: int, value=None) -> Refusal:
    return Refusal(f"bsdl B{code} {FAULT_NAMES[code]}", value)


# What a description says

class OpcodeRow(NamedTuple):
    name: str
    patterns: list[str]


class Control(NamedTuple):
    """While the control cell's bit is the disabling value, the port has the result."""
    cell: int
    disabling: int
    result: str


class Cell(NamedTuple):
    """A row of BOUNDARY_REGISTER; its port is (name, subscript or None), or None for `*`."""
    number: int
    port: tuple | None
    function: str
    control: Control | None


class Access(NamedTuple):
    """The register that an instruction selects, its length if it is a user's, and what it captures."""
    register: str
    length: int | None
    captures: str | None


class Device(NamedTuple):
    """A description: patterns with the highest bit first, ports with their subscripts (None: a scalar)."""
    ports: dict[str, range | None]
    modes: dict[str, str]
    taps: frozenset[str]
    has_trst: bool
    opcodes: list[OpcodeRow]
    capture: str
    codes: dict[str, str]
    cells: list[Cell]
    private: frozenset[str]
    accesses: dict[str, Access]

    def reset_latch(self) -> list[int]:
        """IDCODE where there is an IDCODE pattern and an IDCODE opcode, else all ones, which is BYPASS."""
        patterns = {row.name: row.patterns for row in self.opcodes}
        if "IDCODE" in self.codes and "IDCODE" in patterns:
            return bits_of(patterns["IDCODE"][0])
        return [1] * len(self.capture)

    def is_left_out(self, name: str | None) -> bool:
        """INTEST, RUNBIST and private instructions are treated as BYPASS with the core's pins."""
        return name in ("INTEST", "RUNBIST") or name in self.private

    def left_out(self) -> list[str]:
        return [row.name for row in self.opcodes if self.is_left_out(row.name)]


def bits_of(pattern: str) -> list[int]:
    """A pattern's bits, bit 0 (the rightmost) first, X as 0."""
    return [int(character == "1") for character in reversed(pattern)]


def matches(pattern: str, opcode: list[int]) -> bool:
    """A pattern matches only an opcode of its own length; an X matches both."""
    return len(pattern) == len(opcode) and all(
        character in ("X", str(bit)) for character, bit in zip(reversed(pattern), opcode))


def instruction(opcodes: list[OpcodeRow], opcode: list[int]) -> str | None:
    """All ones is BYPASS; else the first row with a matching pattern names the instruction."""
    if all(opcode):
        return "BYPASS"
    rows = (row for row in opcodes if any(matches(pattern, opcode) for pattern in row.patterns))
    return next((row.name for row in rows), None)


# Tokens

class Token(NamedTuple):
    kind: str  # "word", "number", "string", "end", or the mark itself
    text: str
    start: int


GAP = r"[ \t\n\r\v\f]"
WORD = r"[A-Za-z][A-Za-z0-9_]*"
NUMBER = r"[0-9][A-Za-z0-9_.]*"
TOKEN = re.compile(rf"""(?P<gap>{GAP}+|--[^\n\r]*)|(?P<word>{WORD})|(?P<number>{NUMBER})"""
                   rf"""|"(?P<string>[^"\n\r]*)"|(?P<mark>[()\[\],;:.&=*+\-<>'/|])""")


def tokens_of(text: str) -> list[Token]:
    """The tokens, and one of kind "end" at the text's end.

    A comment runs from `--` to the line's end, a string to the next quote on its line.  Another byte outside
    both, or an unclosed string, is B1.
    """
    found, at = [], 0
    while at < len(text):
        match = TOKEN.match(text, at)
        if match is None:
            raise refusal(1, at)
        kind, at = match.lastgroup, match.end()
        if kind != "gap":
            found.append(Token(match[0] if kind == "mark" else kind, match[kind], match.start()))
    return found + [Token("end", "", len(text))]


def value_of(digits: str) -> int:
    """The value of decimal digits, of any number of them."""
    value = 0
    for at in range(0, len(digits), 4_000):
        piece = digits[at:at + 4_000]
        value = value * 10 ** len(piece) + int(piece)
    return value


# Texts inside strings

class Misfit(Exception):
    """The text inside joined strings has not its form."""


class Inner:
    """Reads the joined text of an attribute's strings, in which nothing is a comment."""

    def __init__(self, text: str):
        self.text, self.at = text, 0
        self.take("")

    def take(self, expression: str) -> str:
        match = re.compile(f"({expression}){GAP}*").match(self.text, self.at)
        if match is None:
            raise Misfit
        self.at = match.end()
        return match[1]

    def peek(self, character: str) -> bool:
        return self.text.startswith(character, self.at)

    def done(self) -> bool:
        return self.at == len(self.text)

    def word(self) -> str:
        return self.take(WORD)

    def number(self) -> int:
        """Digits alone; leading zeros are free."""
        digits = self.take(NUMBER)
        if not digits.isdigit():
            raise Misfit
        return value_of(digits)

    def mark(self, character: str) -> None:
        self.take(re.escape(character))

    def number_within(self, opening: str, closing: str) -> int | None:
        """A number between these marks, None where the first doesn't stand."""
        if not self.peek(opening):
            return None
        self.mark(opening)
        number = self.number()
        self.mark(closing)
        return number

    def one_of(self, choices) -> str:
        token = self.take(f"{WORD}|{NUMBER}").upper()
        if token not in choices:
            raise Misfit
        return token

    def pattern(self) -> str:
        """Characters 0, 1, X, at least one; white space between them is skipped."""
        return re.sub(GAP, "", self.take(f"[01Xx](?:{GAP}*[01Xx])*")).upper()

    def listed(self, item, closing: str = "") -> list:
        """Items parted by commas, at least one, with or without a comma behind the last."""
        def over():
            return self.peek(closing) if closing else self.done()

        items = [item()]
        while not over():
            self.mark(",")
            if over():
                break
            items.append(item())
        self.mark(closing)
        return items

    def bracketed(self, item) -> list:
        self.mark("(")
        return self.listed(item, ")")


class Port(NamedTuple):
    """A declared port: its mode, and its subscripts, None for a scalar."""
    mode: str
    subscripts: range | None


class Named(NamedTuple):
    """Something with a name: its spelling, its place in the file or the joined text, and what it is."""
    spelling: str
    place: int
    what: object

    @property
    def name(self) -> str:
        return self.spelling.upper()


def opcode_row(inner: Inner) -> Named:
    """`name (pattern {, pattern})`"""
    place, spelling = inner.at, inner.word()
    return Named(spelling, place, OpcodeRow(spelling.upper(), inner.bracketed(inner.pattern)))


def cell_row(inner: Inner) -> Cell:
    """`number (cell, port or *, function, safe [, control, disabling, result])`

    The last three are read everywhere, and count for a function that drives.
    """
    number = inner.number()
    inner.mark("(")
    inner.word()
    inner.mark(",")
    if inner.peek("*"):
        port = None
        inner.mark("*")
    else:
        port = (inner.word().upper(), inner.number_within("(", ")"))
    inner.mark(",")
    function = inner.one_of(FUNCTIONS)
    inner.mark(",")
    inner.one_of(("0", "1", "X"))
    control = None
    if inner.peek(","):
        inner.mark(",")
        cell = inner.number()
        inner.mark(",")
        disabling = int(inner.one_of(("0", "1")))
        inner.mark(",")
        control = Control(cell, disabling, inner.one_of(RESULTS))
    inner.mark(")")
    return Cell(number, port, function, control if function in DRIVING else None)


def access_row(inner: Inner) -> list[Named]:
    """`register (name [CAPTURES pattern] {, ..})`, with BOUNDARY, BYPASS, DEVICE_ID or `name[length]`."""
    register, length = inner.word().upper(), inner.number_within("[", "]")
    if length is None and register not in ("BOUNDARY", "BYPASS", "DEVICE_ID"):
        raise Misfit

    def access() -> Named:
        place, spelling, captures = inner.at, inner.word(), None
        if not inner.peek(",") and not inner.peek(")"):
            inner.one_of(("CAPTURES",))
            captures = inner.pattern()
        return Named(spelling, place, Access(register, length, captures))

    return inner.bracketed(access)


STRINGS = {
    "INSTRUCTION_OPCODE": lambda inner: inner.listed(lambda: opcode_row(inner)),
    "INSTRUCTION_CAPTURE": lambda inner: inner.pattern(),
    "BOUNDARY_REGISTER": lambda inner: inner.listed(lambda: cell_row(inner)),
    "IDCODE_REGISTER": lambda inner: inner.listed(inner.pattern),
    "USERCODE_REGISTER": lambda inner: inner.listed(inner.pattern),
    "INSTRUCTION_PRIVATE": lambda inner: inner.listed(inner.word),
    "REGISTER_ACCESS": lambda inner: inner.listed(lambda: access_row(inner)),
}
TABLE = frozenset(NEEDED) | frozenset(TRUTHS) | frozenset(STRINGS)


# Outer form

class Given(NamedTuple):
    """What is given for an attribute of the table: the port after `of`, the value and the place of that."""
    of: str
    value: object
    place: int


class Outer:
    """Reads the outer form; a token that doesn't fit is B2 at its place."""

    def __init__(self, text: str):
        self.tokens, self.at = tokens_of(text), 0
        self.ports: list[Named] = []
        self.given: list[Named] = []

    @property
    def next(self) -> Token:
        return self.tokens[self.at]

    def take(self, *kinds: str) -> Token:
        """Tokens of these kinds; the last of them."""
        for kind in kinds:
            if self.next.kind != kind:
                raise refusal(2, self.next.start)
            self.at += 1
        return self.tokens[self.at - 1]

    def is_word(self, *words: str) -> bool:
        return self.next.kind == "word" and self.next.text.upper() in words

    def word(self, *words: str) -> str:
        """One of these words, in upper case."""
        if not self.is_word(*words):
            raise refusal(2, self.next.start)
        return self.take("word").text.upper()

    def number(self) -> int:
        token = self.take("number")
        if not token.text.isdigit():
            raise refusal(2, token.start)
        return value_of(token.text)

    def up_to_semicolon(self) -> None:
        while self.next.kind not in (";", "end"):
            self.at += 1
        self.take(";")

    def brackets(self) -> None:
        """`(` tokens `)`, among which `(` and `)` alone match."""
        self.take("(")
        depth = 1
        while depth:
            if self.next.kind == "end":
                raise refusal(2, self.next.start)
            depth += {"(": 1, ")": -1}.get(self.next.kind, 0)
            self.at += 1

    def file(self) -> None:
        """entity name is [generic (..);] port (..); {item} end [word] [word]; and nothing behind it."""
        self.word("ENTITY")
        self.take("word")
        self.word("IS")
        if self.is_word("GENERIC"):
            self.take("word")
            self.brackets()
            self.take(";")
        self.port()
        while not self.is_word("END"):
            if self.word("USE", "CONSTANT", "ATTRIBUTE") == "ATTRIBUTE":
                self.attribute()
            else:
                self.up_to_semicolon()
        self.take("word")
        for _ in range(2):
            if self.next.kind == "word":
                self.take("word")
        self.take(";", "end")

    def port(self) -> None:
        """port (group {; group} [;]);"""
        self.word("PORT")
        self.take("(")
        self.group()
        while self.next.kind == ";":
            self.take(";")
            if self.next.kind == ")":
                break
            self.group()
        self.take(")", ";")

    def group(self) -> None:
        """name {, name} : mode kind; a range that runs the wrong way is B2 at its second number."""
        names = [self.take("word")]
        while self.next.kind == ",":
            self.take(",")
            names.append(self.take("word"))
        self.take(":")
        mode = self.word("IN", "OUT", "INOUT", "BUFFER", "LINKAGE")
        subscripts = None
        if self.word("BIT", "BIT_VECTOR") == "BIT_VECTOR":
            self.take("(")
            first, way = self.number(), self.word("TO", "DOWNTO")
            place, second = self.next.start, self.number()
            low, high = (first, second) if way == "TO" else (second, first)
            if low > high:
                raise refusal(2, place)
            subscripts = range(low, high + 1)
            self.take(")")
        self.ports += [Named(name.text, name.start, Port(mode, subscripts)) for name in names]

    def attribute(self) -> None:
        """NAME of name : word is value; where NAME isn't in the table, anything up to a semicolon.

        A TAP_SCAN attribute names a declared scalar port, also where it is false, which counts as absent.
        """
        name = self.take("word")
        key = name.text.upper()
        if key not in TABLE:
            self.up_to_semicolon()
            return
        self.word("OF")
        of = self.next.text.upper()
        declared = next((port for port in self.ports if port.name == of), None)
        if key.startswith("TAP_SCAN") and (declared is None or declared.what.subscripts is not None):
            raise refusal(2, self.next.start)
        self.take("word", ":", "word")
        self.word("IS")
        place, value = self.next.start, self.value(key)
        self.take(";")
        if value is not False:
            self.given.append(Named(name.text, name.start, Given(of, value, place)))

    def value(self, key: str):
        if key in TRUTHS:
            return self.word("TRUE", "FALSE") == "TRUE"
        if key in STRINGS:
            return self.strings(STRINGS[key])
        if key == "TAP_SCAN_CLOCK":
            return self.brackets()
        return self.number()

    def strings(self, form):
        """Strings joined by `&` are one text; a bad one is B2 at its first quote."""
        place, text = self.next.start, self.take("string").text
        while self.next.kind == "&":
            self.take("&")
            text += self.take("string").text
        try:
            inner = Inner(text)
            value = form(inner)
            if not inner.done():
                raise Misfit
        except Misfit:
            raise refusal(2, place) from None
        return value


# Meaning

def read(text: bytes) -> Device:
    """The device of a text, or its refusal."""
    if len(text) > TEXT_LIMIT:
        raise refusal(9)
    outer = Outer(text.decode("latin-1"))
    outer.file()
    first = {given.name: given.what for given in reversed(outer.given)}
    for name in NEEDED:
        if name not in first:
            raise refusal(3, name)
    value = {name: given.value for name, given in first.items()}
    private = frozenset(name.upper() for name in value.get("INSTRUCTION_PRIVATE", ()))
    own_names = {row.name for row in value["INSTRUCTION_OPCODE"]} - STANDARD - private
    own = [access for row in value.get("REGISTER_ACCESS", ()) for access in row if access.name in own_names]
    cells = sorted(value["BOUNDARY_REGISTER"], key=lambda cell: cell.number)
    declared: dict[str, Port] = {}
    for port in outer.ports:
        declared.setdefault(port.name, port.what)
    ports = {name: port.subscripts for name, port in declared.items()}
    taps = frozenset(given.of for name, given in first.items() if name.startswith("TAP_SCAN"))
    accesses = {access.name: access.what for access in reversed(own)}
    opcodes = [row.what for row in value["INSTRUCTION_OPCODE"]]

    judge_twice(outer, first, own)
    judge_reset(opcodes)
    words = Words(outer, first)
    judge_lengths(value, own, words)
    codes = {name[:-len("_REGISTER")]: value[name][0]
             for name in ("IDCODE_REGISTER", "USERCODE_REGISTER") if name in value}
    if not value["INSTRUCTION_CAPTURE"].endswith("01"):
        raise refusal(6)
    if not codes.get("IDCODE", "1").endswith("1"):
        raise refusal(7)
    judge_cells(cells, value["BOUNDARY_LENGTH"], ports, taps)
    judge_limits(value, cells, own, outer.ports, words)
    modes = {name: port.mode for name, port in declared.items()}
    return Device(ports, modes, taps, "TAP_SCAN_RESET" in first, opcodes, value["INSTRUCTION_CAPTURE"], codes,
                  cells, private, accesses)


def judge_twice(outer: Outer, first: dict[str, Given], own: list[Named]) -> None:
    """B4 for a port, attribute, opcode row or own access given twice: that whose second giving stands first.

    Of an attribute given twice the first value counts, and the second is judged for its form alone.
    """
    def inside(attribute: str, named: Named) -> tuple:
        return first[attribute].place, named.place

    givings = [(port.place, 0, "port", port) for port in outer.ports]
    givings += [(given.place, 0, "attribute", given) for given in outer.given]
    givings += [(*inside("INSTRUCTION_OPCODE", row), "opcode", row)
                for row in first["INSTRUCTION_OPCODE"].value]
    givings += [(*inside("REGISTER_ACCESS", access), "access", access) for access in own]
    seen = set()
    for _, _, kind, giving in sorted(givings, key=lambda giving: giving[:2]):
        if (kind, giving.name) in seen:
            raise refusal(4, giving.spelling)
        seen.add((kind, giving.name))


def judge_reset(opcodes: list[OpcodeRow]) -> None:
    """B4 too where the first pattern of IDCODE, X as 0, isn't an opcode of IDCODE."""
    for row in opcodes:
        if row.name == "IDCODE" and instruction(opcodes, bits_of(row.patterns[0])) != "IDCODE":
            raise refusal(4, "IDCODE")


class Words:
    """The places of the words that tell what is too long or too short."""

    def __init__(self, outer: Outer, first: dict[str, Given]):
        self.outer, self.first = outer, first

    def attribute(self, name: str) -> int:
        return next(given.place for given in self.outer.given if given.name == name)

    def inside(self, attribute: str, named: Named) -> int:
        """A name in an attribute's text, in the string that has its first letter."""
        tokens, offset = self.outer.tokens, named.place
        at = next(at for at, token in enumerate(tokens) if token.start == self.first[attribute].place)
        while offset >= len(tokens[at].text):
            offset, at = offset - len(tokens[at].text), at + 2
        return tokens[at].start + 1 + offset


def judge_lengths(value: dict, own: list[Named], words: Words) -> None:
    """B5: a pattern hasn't its register's length, a register has two lengths, or one is below its limit."""
    bits, cells = value["INSTRUCTION_LENGTH"], value["BOUNDARY_LENGTH"]
    fixed = {"BOUNDARY": cells, "BYPASS": 1, "DEVICE_ID": 32}
    if bits < INSTRUCTION_BITS[0]:
        raise refusal(5, words.attribute("INSTRUCTION_LENGTH"))
    if cells < CELLS[0]:
        raise refusal(5, words.attribute("BOUNDARY_LENGTH"))
    for row in value["INSTRUCTION_OPCODE"]:
        if any(len(pattern) != bits for pattern in row.what.patterns):
            raise refusal(5, words.inside("INSTRUCTION_OPCODE", row))
    if len(value["INSTRUCTION_CAPTURE"]) != bits:
        raise refusal(5, words.attribute("INSTRUCTION_CAPTURE"))
    for name in ("IDCODE_REGISTER", "USERCODE_REGISTER"):
        if any(len(pattern) != 32 for pattern in value.get(name, ())):
            raise refusal(5, words.attribute(name))
    for named in own:
        access = named.what
        length = fixed[access.register] if access.length is None else access.length
        if access.length == 0 or access.captures is not None and len(access.captures) != length:
            raise refusal(5, words.inside("REGISTER_ACCESS", named))
    user = {(named.what.register, named.what.length) for named in own if named.what.length is not None}
    if len(user) != len({register for register, _ in user}):
        raise refusal(5, words.attribute("REGISTER_ACCESS"))


def judge_cells(cells: list[Cell], length: int, ports: dict, taps: frozenset) -> None:
    """B8: the least cell up to 65,535 that is missing, listed twice, not below the length or unfit."""
    numbers = [cell.number for cell in cells]
    listed = set(numbers)
    controls = {cell.number for cell in cells if cell.function in CONTROLS and cell.number <= INDEX_LIMIT}
    driven: dict[tuple, int] = {}
    bad = {before for before, number in zip(numbers, numbers[1:]) if before == number}
    missing = next(number for number in count() if number not in listed)
    if missing < length:
        bad.add(missing)
    for cell in cells:
        fits = cell.number < length
        if cell.function in WITHOUT_PORT:
            fits &= cell.port is None
        else:
            fits &= cell.port is not None and cell.port[0] not in taps and is_bit(ports, cell.port)
        if cell.function in DRIVING:
            if cell.control is None:
                fits &= cell.function == "OUTPUT2"
            else:
                itself = cell.function == "OUTPUT2" and cell.control.cell == cell.number
                fits &= itself or cell.control.cell in controls
            fits &= driven.setdefault(cell.port, cell.number) == cell.number
        if not fits:
            bad.add(cell.number)
    bad = {number for number in bad if number <= INDEX_LIMIT}
    if bad:
        raise refusal(8, min(bad))


def is_bit(ports: dict[str, range | None], bit: tuple) -> bool:
    """Whether (name, subscript or None) is a bit of these ports."""
    name, subscript = bit
    if name not in ports:
        return False
    return subscript is None if ports[name] is None else subscript is not None and subscript in ports[name]


def judge_limits(value: dict, cells: list[Cell], own: list[Named], ports: list[Named], words: Words) -> None:
    """B9: a limit is passed; subscripts and the numbers of cells have one too."""
    if value["INSTRUCTION_LENGTH"] > INSTRUCTION_BITS[1]:
        raise refusal(9, words.attribute("INSTRUCTION_LENGTH"))
    if len(value["INSTRUCTION_OPCODE"]) > INSTRUCTION_ROWS:
        raise refusal(9, words.inside("INSTRUCTION_OPCODE", value["INSTRUCTION_OPCODE"][INSTRUCTION_ROWS]))
    if value["BOUNDARY_LENGTH"] > CELLS[1]:
        raise refusal(9, words.attribute("BOUNDARY_LENGTH"))
    if cells[-1].number > INDEX_LIMIT:
        raise refusal(9, words.attribute("BOUNDARY_REGISTER"))
    port_bits = 0
    for port in ports:
        vector = port.what.subscripts
        port_bits += 1 if vector is None else vector.stop - vector.start
        if port_bits > PORT_BITS or vector is not None and vector.stop - 1 > INDEX_LIMIT:
            raise refusal(9, port.place)
    user = [named for named in own if named.what.length is not None]
    for named in user:
        if named.what.length > USER_BITS[1]:
            raise refusal(9, words.inside("REGISTER_ACCESS", named))
    if len({named.what.register for named in user}) > USER_REGISTERS:
        raise refusal(9, words.attribute("REGISTER_ACCESS"))
