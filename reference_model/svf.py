"""Serial Vector Format, revision E as a subset: a text becomes the steps of a program, or is refused.

`accept(text)` first reads the whole text to statements (faults S1 to S6, S13, S15), then takes them in order
through the settings (faults S7 to S12, S14, S15).  Each of the two passes names its first faulty statement
and, in it, the least number; a fault of the first pass anywhere comes before one of the second.
"""

from __future__ import annotations

import re
from fractions import Fraction
from typing import List, NamedTuple, Optional

from controller import NEXT, STABLE, default_path
from refusal import Refusal

TEXT_LIMIT = 16 * 1024 * 1024
STATEMENT_LIMIT = 200_000
BITS_LIMIT = 1_048_576
CYCLES_LIMIT = 4_294_967_295
PICOSECONDS_LIMIT = 10**18
MANTISSA_LIMIT = 18
EXPONENT_LIMIT = 18
PICOSECONDS_PER_SECOND = 10**12
USUAL_PERIOD = 1_000_000

FAULT_NAMES = {
    1: "BadByte", 2: "Unclosed", 3: "UnknownCommand", 4: "BadForm", 5: "BadNumber", 6: "TooWide",
    7: "MissingTdi", 8: "BadState", 9: "BadPath", 10: "TrstHeld", 11: "TrstAbsent", 12: "EmptyScan",
    13: "Unsupported", 14: "TooSlow", 15: "TooLarge",
}


class Fault(Exception):
    """One statement's faults, of which the least number counts."""

    def __init__(self, *codes: int):
        super().__init__(*codes)
        self.code = min(codes)


def refusal(code: int, statement: int) -> Refusal:
    """Statements count from 1; statement 0 is the text itself."""
    return Refusal(f"svf S{code} {FAULT_NAMES[code]} statement {statement}", (code, statement))


# Tokens

TOKEN = re.compile(rb"""
      (?P<gap>  [ \t\n\r\v\f]+ | (?: ! | // ) [^\r\n]* )
    | (?P<run>  [A-Za-z0-9.+_-]+ )
    | (?P<mark> [();] )
""", re.VERBOSE)


def groups(text: bytes):
    """Give the tokens before each `;`, leaving out empty groups.

    A byte that begins no token is S1; tokens behind the last `;` are S2.  Both belong to the statement
    numbered one more than the groups that were closed before.
    """
    number, group, at = 1, [], 0
    while at < len(text):
        found = TOKEN.match(text, at)
        if not found:
            raise refusal(1, number)
        at = found.end()
        if found.lastgroup == "gap":
            continue
        if found.group() != b";":
            group.append(found.group())
        elif group:
            yield number, group
            number, group = number + 1, []
    if group:
        raise refusal(2, number)


# Numbers

NUMBER = re.compile(rb"(?:([0-9]+)(?:\.([0-9]*))?|\.([0-9]+))(?:[Ee]([+-]?)([0-9]+))?")


def read_number(run: bytes, codes: list[int]) -> Fraction | None:
    """The exact value; None where there is none, its code then being noted.

    Another spelling is S5.  More than 18 digits of mantissa (leading zeros counted), or an exponent outside
    -18 to 18 (its leading zeros are free), is S15 and has no value for any other rule.
    """
    found = NUMBER.fullmatch(run)
    if not found:
        codes.append(5)
        return None
    whole, behind, alone, sign, power = (part or b"" for part in found.groups())
    behind += alone
    power = power.lstrip(b"0") or b"0"
    if len(whole + behind) > MANTISSA_LIMIT or len(power) > 2 or int(power) > EXPONENT_LIMIT:
        codes.append(15)
        return None
    return int(whole + behind) * Fraction(10) ** (int(sign + power) - len(behind))


def round_up(value: Fraction) -> int:
    return -(-value.numerator // value.denominator)


def read_length(run: bytes, codes: list[int]) -> int | None:
    """Digits alone, else S5; above 1,048,576 it is S15, and still the length by which S6 is judged."""
    if not run.isdigit():
        codes.append(5)
        return None
    value = read_number(run, codes)
    if value is None:
        return None
    if value > BITS_LIMIT:
        codes.append(15)
    return int(value)


def read_count(run: bytes, codes: list[int]) -> int | None:
    """Any number with a whole value, else S5; above 4,294,967,295 it is S15."""
    value = read_number(run, codes)
    if value is None:
        return None
    if value.denominator != 1:
        codes.append(5)
    if value > CYCLES_LIMIT:
        codes.append(15)
    return int(value)


def read_time(run: bytes, codes: list[int]) -> int | None:
    """Seconds, as picoseconds rounded up; above 10^18 it is S15."""
    value = read_number(run, codes)
    if value is None:
        return None
    time = round_up(value * PICOSECONDS_PER_SECOND)
    if time > PICOSECONDS_LIMIT:
        codes.append(15)
    return time


def read_period(run: bytes, codes: list[int]) -> int | None:
    """Hertz, as the period in picoseconds rounded up; 0 is S5, a period above 10^18 is S15."""
    value = read_number(run, codes)
    if value is None:
        return None
    if value == 0:
        codes.append(5)
        return None
    period = round_up(PICOSECONDS_PER_SECOND / value)
    if period > PICOSECONDS_LIMIT:
        codes.append(15)
    return period


def read_hex(runs: list[bytes], length: int | None, codes: list[int]) -> list[int] | None:
    """The bits of the joined runs, bit 0 first; a wrong digit is S5, a 1 beyond the length S6."""
    digits = b"".join(runs)
    if re.search(rb"[^0-9A-Fa-f]", digits):
        codes.append(5)
        return None
    if length is None:
        return None
    value = int(digits or b"0", 16)
    if value >> length:
        codes.append(6)
        return None
    if length > BITS_LIMIT:
        return None
    return [int(bit) for bit in reversed(f"{value:0{length}b}")] if length else []


# Statements

Bits = List[int]
EndState = NamedTuple("EndState", [("column", str), ("state", str)])
Frequency = NamedTuple("Frequency", [("period", Optional[int])])
Scan = NamedTuple("Scan", [("command", str), ("length", Optional[int]), ("tdi", Optional[Bits]),
                           ("tdo", Optional[Bits]), ("mask", Optional[Bits])])
RunTest = NamedTuple("RunTest", [("run", Optional[str]), ("count", Optional[int]), ("least", Optional[int]),
                                 ("most", Optional[int]), ("end", Optional[str])])
States = NamedTuple("States", [("path", List[str])])
Trst = NamedTuple("Trst", [("word", str)])


class Group(NamedTuple):
    """A statement's tokens behind its command, as they stand and in upper case, and how they fit."""
    command: str
    tokens: list[bytes]
    words: list[str]
    fit: re.Match


def unsupported(group: Group, codes: list[int]):
    """The board has no parallel port."""
    raise Fault(13)


def frequency(group: Group, codes: list[int]) -> Frequency:
    return Frequency(read_period(group.tokens[0], codes) if group.tokens else USUAL_PERIOD)


def run_test(group: Group, codes: list[int]) -> RunTest:
    """At least one of the count and the first SEC is there, else S4; a count of SCK is S13."""
    _, tokens, words, fit = group
    if not fit["count"] and not fit["least"]:
        raise Fault(4)
    run = end = most = None
    count = least = at = 0
    if fit["run"]:
        run, at = words[0], 1
    if fit["count"]:
        count = read_count(tokens[at], codes)
        if words[at + 1] == "SCK":
            codes.append(13)
        at += 2
    if fit["least"]:
        least = read_time(tokens[at], codes)
        at += 2
    if fit["most"]:
        most = read_time(tokens[at + 1], codes)
    if fit["end"]:
        end = words[-1]
    return RunTest(run, count, least, most, end)


def scan(group: Group, codes: list[int]) -> Scan:
    """Fields come in any order, each at most once, else S4; SMASK is judged and has no effect."""
    command, tokens, words, _ = group
    fields, at = {}, 1
    while at < len(tokens):
        close = tokens.index(b")", at)
        if words[at] in fields:
            raise Fault(4)
        fields[words[at]] = tokens[at + 2:close]
        at = close + 1
    length = read_length(tokens[0], codes)
    bits = {name: read_hex(runs, length, codes) for name, runs in fields.items()}
    return Scan(command, length, bits.get("TDI"), bits.get("TDO"), bits.get("MASK"))


SCANS = ("HDR", "HIR", "TDR", "TIR", "SDR", "SIR")
FORMS = {
    "ENDDR": ("@ ", lambda group, codes: EndState("DR", group.words[0])),
    "ENDIR": ("@ ", lambda group, codes: EndState("IR", group.words[0])),
    "FREQUENCY": ("(# HZ )?", frequency),
    "STATE": ("(@ )+", lambda group, codes: States(group.words)),
    "TRST": ("(ON|OFF|Z|ABSENT) ", lambda group, codes: Trst(group.words[0])),
    "RUNTEST": (r"(?P<run>@ )?(?P<count># (TCK|SCK) )?"
                r"(?P<least># SEC (?P<most>MAXIMUM # SEC )?)?(?P<end>ENDSTATE @ )?", run_test),
    **dict.fromkeys(("PIO", "PIOMAP"), (".*", unsupported)),
    **dict.fromkeys(SCANS, (r"# ((TDI|TDO|MASK|SMASK) \( ([^() ]+ )*\) )*", scan)),
}
"""By command: the form of what stands behind it, in the signs of `signs`, and its reader."""


def signs(tokens: list[bytes]) -> str:
    """The tokens as a form sees them: `#` a number, `@` a state, else the word in upper case.

    A run that begins with a digit or `.` stands for a number, any other for a word.
    """
    found = []
    for token in tokens:
        word = token.decode().upper()
        found.append("#" if word[0] in "0123456789." else "@" if word in NEXT else word)
    return "".join(sign + " " for sign in found)


def parse_statement(tokens: list[bytes]):
    """The statement that the tokens spell, or Fault.

    A first token that is no command's word is S3, an unfit form S4.  Only in a fit form are there numbers,
    digits and clocks to be judged, and their faults all have higher numbers.
    """
    command, rest = tokens[0].decode().upper(), tokens[1:]
    if command not in FORMS:
        raise Fault(3)
    form, read = FORMS[command]
    fit = re.fullmatch(form, signs(rest))
    if not fit:
        raise Fault(4)
    codes: list[int] = []
    made = read(Group(command, rest, [token.decode().upper() for token in rest], fit), codes)
    if codes:
        raise Fault(*codes)
    return made


def parse(text: bytes) -> list:
    """The statements of a text.

    A text above the size limit is S15 whatever it holds; so is the statement behind the last that may be,
    unless it has a fault itself, which has a lower number.
    """
    if len(text) > TEXT_LIMIT:
        raise refusal(15, 0)
    statements = []
    for number, tokens in groups(text):
        try:
            statements.append(parse_statement(tokens))
        except Fault as fault:
            raise refusal(fault.code, number) from None
        if number > STATEMENT_LIMIT:
            raise refusal(15, number)
    return statements


# Steps

class Bit(NamedTuple):
    """One bit of a whole vector: what is sent, what is wanted (None: nothing), and where it belongs."""
    tdi: int
    want: int | None
    part: str
    place: int


ScanStep = NamedTuple("ScanStep", [("number", int), ("column", str), ("vector", List[Bit]), ("end", str)])
GoStep = NamedTuple("GoStep", [("number", int), ("end", str)])
PathStep = NamedTuple("PathStep", [("number", int), ("path", List[str])])
RunStep = NamedTuple("RunStep", [("number", int), ("run", str), ("cycles", int), ("end", str)])
TrstStep = NamedTuple("TrstStep", [("number", int), ("word", str)])


class Settings:
    """What holds at a statement: always what the last statement that sets it has set."""

    def __init__(self):
        self.end = {"DR": "IDLE", "IR": "IDLE"}
        self.run = self.run_end = "IDLE"
        self.period = USUAL_PERIOD
        self.trst_word = "OFF"
        self.place = "RESET"
        self.last: dict[str, Scan] = {}  # by command, with its TDI and MASK as they were in force

    def step(self, number: int, statement):
        """The statement's step (None if it has none), or Fault; the settings go on."""
        return {
            EndState: self.end_state, Frequency: self.frequency, Scan: self.scan, RunTest: self.run_test,
            States: self.states, Trst: self.trst,
        }[type(statement)](number, statement)

    def end_state(self, number: int, statement: EndState) -> None:
        if statement.state not in STABLE:
            raise Fault(8)
        self.end[statement.column] = statement.state

    def frequency(self, number: int, statement: Frequency) -> None:
        self.period = statement.period

    def recalled(self, scan: Scan) -> Scan:
        """The scan with its absent TDI and MASK filled in.

        Both are those in force at the previous statement of the same command if that had the same length.
        Else MASK is all ones, and TDI is S7 unless the length is 0.
        """
        before = self.last.get(scan.command)
        same = before if before and before.length == scan.length else None
        mask = scan.mask if scan.mask is not None else same.mask if same else [1] * scan.length
        tdi = scan.tdi if scan.tdi is not None else same.tdi if same else None
        if tdi is None and scan.length:
            raise Fault(7)
        return scan._replace(tdi=tdi or [], mask=mask)

    def leaves_reset(self, path: list[str]) -> list[int]:
        """S10 where TRST is held and a state other than RESET is entered, also on the way back to RESET."""
        return [10] if self.trst_word == "ON" and any(state != "RESET" for state in path) else []

    def whole_vector(self, column: str) -> list[Bit]:
        """Header, body, trailer; a bit is wanted where TDO is given and MASK is 1."""
        vector = []
        for part, command in (("header", "H"), ("data", "S"), ("trailer", "T")):
            scan = self.last.get(command + column)
            for place in range(scan.length if scan else 0):
                want = scan.tdo[place] if scan.tdo is not None and scan.mask[place] else None
                vector.append(Bit(scan.tdi[place], want, part, place))
        return vector

    def scan(self, number: int, statement: Scan) -> ScanStep | None:
        """S7, S10, S12 for an empty body, S15 for too long a whole vector."""
        scan = self.recalled(statement)
        self.last[scan.command] = scan
        if scan.command not in ("SDR", "SIR"):
            return None
        column = scan.command[1:]
        codes = self.leaves_reset(default_path(self.place, column + "SHIFT"))
        if scan.length == 0:
            codes.append(12)
        parts = (self.last.get(part + column) for part in "HST")
        if sum(part.length for part in parts if part) > BITS_LIMIT:
            codes.append(15)
        if codes:
            raise Fault(*codes)
        self.place = self.end[column]
        return ScanStep(number, column, self.whole_vector(column), self.place)

    def states(self, number: int, statement: States) -> GoStep | PathStep:
        """One state is gone to by the default path; of more, each is one TCK from the one before, else S9.

        The last state must be stable, else S8.
        """
        path = statement.path
        if path[-1] not in STABLE:
            raise Fault(8)
        if len(path) == 1:
            step, path = GoStep(number, path[0]), default_path(self.place, path[0])
        else:
            step = PathStep(number, path)
        codes = self.leaves_reset(path)
        if any(state not in NEXT[before] for before, state in zip([self.place] + path, path)):
            codes.append(9)
        if codes:
            raise Fault(*codes)
        self.place = path[-1]
        return step

    def run_test(self, number: int, statement: RunTest) -> RunStep:
        """A named run state sets run and end state, unless ENDSTATE sets the latter; both stable, else S8.

        The cycles are the greater of the count and the least time in periods, rounded up; S14 where they
        take longer than MAXIMUM.
        """
        run = statement.run or self.run
        end = statement.end or statement.run or self.run_end
        if run not in STABLE or end not in STABLE:
            raise Fault(8)
        path = [] if run == self.place else default_path(self.place, run)
        codes = self.leaves_reset(path + ([] if end == run else default_path(run, end)))
        cycles = max(statement.count, round_up(Fraction(statement.least, self.period)))
        if statement.most is not None and cycles * self.period > statement.most:
            codes.append(14)
        if cycles > CYCLES_LIMIT:
            codes.append(15)
        if codes:
            raise Fault(*codes)
        self.run, self.run_end, self.place = run, end, end
        return RunStep(number, run, cycles, end)

    def trst(self, number: int, statement: Trst) -> TrstStep:
        """ABSENT while TRST is held is S10; ON, OFF and Z after ABSENT are S11; ON leads to RESET."""
        word = statement.word
        if word == "ABSENT" and self.trst_word == "ON":
            raise Fault(10)
        if word != "ABSENT" and self.trst_word == "ABSENT":
            raise Fault(11)
        self.trst_word = word
        if word == "ON":
            self.place = "RESET"
        return TrstStep(number, word)


Program = NamedTuple("Program", [("statements", int), ("steps", list)])


def accept(text: bytes) -> Program:
    """The program of a text, or its refusal."""
    statements, settings, steps = parse(text), Settings(), []
    for number, statement in enumerate(statements, 1):
        try:
            step = settings.step(number, statement)
        except Fault as fault:
            raise refusal(fault.code, number) from None
        if step:
            steps.append(step)
    return Program(len(statements), steps)
