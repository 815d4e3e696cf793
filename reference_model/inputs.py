"""Made-up inputs: SVF texts, descriptions of devices, board files.

Programs are written with the model at hand, so that most of what they want is what the board will answer.
"""

from __future__ import annotations

import copy
import random
import re
from typing import NamedTuple

import bsdl
import svf
from board import BARE, WholeBoard, read_board
from controller import NEXT, STABLE
from refusal import Refusal


class Case(NamedTuple):
    """The program's text, the board file's tables (None: the bare board), and the files that it may name."""
    text: bytes
    tree: dict | None = None
    files: dict[str, bytes] = {}


def some(rng, *chances: tuple) -> list:
    """Of pairs (chance, items) the items of those that come about, joined."""
    return [item for chance, items in chances if rng.random() < chance for item in items]


def random_bits(rng, length: int) -> list[int]:
    return [rng.randint(0, 1) for _ in range(length)]


# SVF

FIELDS = ["TDI", "TDO", "MASK", "SMASK"]
STATES = list(NEXT)
LIKELY = list(STABLE) * 12 + STATES
GAPS = [
    " ", "\n", "\t", "\r", "\x0b", "\x0c", "\r\n", "!\n", "//\r", "! c;(\x00ÿ\n", "!!//\r", "///\n",
    "\n!\x0b\x0c;\n",
]
WORDS = list(svf.FORMS) + FIELDS + STATES + "TCK SCK SEC HZ MAXIMUM ENDSTATE ON OFF Z ABSENT".split()
NEAR = "SD SDRR SDR1 1SDR _SDR S.DR -SDR IDL IDLE. DRPAUSE1 PIOMAPS KHZ MASKS O ZZ + _ 1A F ( ) ;".split()
ODD_BYTES = b"#/!\"$%&'*,:<=>?@[\\]^`{|}~\x00\x07\x0e\x1a\x7f\x80\xff\v\f\r\n\t ();+-._0A9azZGg"
NUMBERS = """
    0 1 2 3 00 01 0. .0 1. 1.0 .5 1.5 1.5E1 15E-1 10E-1 1E0 1E-0 1E+0 1.E3 .5E1 5.E-1 1e3 1.00E-003 0E19
    0E-19 1E18 1E000000000000000000000000000018 1E19 1E-18 1E-19 1E+18 1E99 1E-99 1E-018
    1E18446744073709551616 1E4294967299 1E256 65536 65537 1048575 1048576 1048577 000000000001048576
    0000000000001048576 1048576. 1.048576E6 4294967294 4294967295 4294967296 4294967295.0 4294967295.5
    4294967294.5 4.294967295E9 4.294967296E9 42949672950E-1 42949672960E-1 3E6 7 70000 999999999999999999
    1000000000000000000 0000000000000000001 0.0000000000000000000 0.00000000000000001E-18
    .000000000000000001 999999999999999999E18 123456789.012345678 1234567890.123456789 18446744073709551617
    9999999999999999999x 1234567890123456789E 1x 1E 1E+ 1E++1 1E+-1 1E1. 1E1E1 1..1 .. . .E1 1_0 1-0 1+
    0x10 1A 0E 1E6 1.000001E6 1000000.00000000001 1000000.000000000001 999999.999999999999 1E-12 1E-13
    1.1E-12 9E-13 1E12 1E13 1E-6 9E-7 9.99999999999999999E-7 1.0000000000000001E-6 2.5E-6 7E11
    1000000000001 +1 -1 + E1 A -.5 IDLE ( )
""".split()
CONTEXTS = [
    "SDR %s TDI (0);", "HDR %s TDI ();", "SDR %s TDI (1FFFFFFFFFFFFFFFFF);", "RUNTEST %s TCK;",
    "RUNTEST %s SCK;", "RUNTEST %s SEC;", "RUNTEST 1 TCK 0 SEC MAXIMUM %s SEC;",
    "RUNTEST 1E-6 SEC MAXIMUM %s SEC;", "FREQUENCY %s HZ; RUNTEST 2E-6 SEC;",
    "FREQUENCY %s HZ; RUNTEST 1 TCK 0 SEC MAXIMUM 1E-6 SEC;", "FREQUENCY 1E13 HZ; RUNTEST %s SEC;",
    "FREQUENCY 1E-6 HZ; RUNTEST %s SEC;", "SDR 4 TDI (%s);", "SDR 8 MASK (0 %s 1) TDI (0);",
    "SDR 1 TDI (0); HDR %s TDI (0); SDR 1;",
]
PIECES = """
    # ; SDR 4 \x80; FOO / ; FOO; 4; (); FOO 1E99; SDR; SDR 4 TDI; SDR 4 TDI (1) TDI (G); SDR +4; STATE;
    STATE FOO; TRST; TRST ON ON; FREQUENCY 5; FREQUENCY; FREQUENCY 1 HZ; FREQUENCY 3E6 HZ; RUNTEST;
    RUNTEST IDLE; RUNTEST 5; SDR 4. TDI (1); SDR 4 TDI (G); SDR 1048577 TDI (G); FREQUENCY 0 HZ; RUNTEST 1.5
    TCK; RUNTEST 1E99 TCK 1x SEC; RUNTEST 1.5 SCK; SDR 4 TDI (1F); SDR 4 MASK (1F); SDR 4 SMASK (1F); HDR
    0 TDI (1); SDR 4 TDI (1F) TDO (G); SDR 4; HDR 4; SDR 4 TDO (1); STATE DRSHIFT; ENDDR DREXIT1; ENDIR
    IRSHIFT; RUNTEST DRSHIFT 1 TCK; HDR 2 TDI (1); HDR 0; RUNTEST 1 TCK ENDSTATE DRSHIFT; STATE IDLE IDLE
    DRSHIFT; STATE DRPAUSE IDLE; STATE IDLE RESET; SDR 0; SIR 0 TDI (); SDR 0 TDI (0); PIO; PIOMAP (X) )
    (; RUNTEST 5 SCK; RUNTEST 5 TCK 1E-6 SEC MAXIMUM 1E-6 SEC; SDR 1048577 TDI (0); RUNTEST 1 SEC MAXIMUM 0
    SEC; HDR 1048576 TDI (0); SDR 65537 TDI (0); RUNTEST 4294967296 TCK; RUNTEST 1.000001E6 SEC; FREQUENCY
    9E-7 HZ; SDR 1234567890123456789 TDI (F); STATE IDLE; STATE RESET; RUNTEST RESET 1 TCK; RUNTEST 1 TCK;
    RUNTEST 1 TCK ENDSTATE RESET; STATE IDLE DRSELECT IRSELECT RESET; SDR 2 TDI (3); SIR 2 TDI (0) TDO
    (1); FREQUENCY 1E13 HZ; RUNTEST 430 SEC; RUNTEST 1E6 SEC MAXIMUM 0 SEC; SDR 4 TDI (1) MASK (0); SDR 4
    TDO (F)
""".replace("\n", " ").split(";")
TRST_PIECES = [
    "STATE IDLE DRSELECT IRSELECT RESET", "RUNTEST IDLE 0 TCK ENDSTATE RESET",
    "TRST ON", "TRST ON", "TRST OFF", "TRST Z", "TRST ABSENT", "STATE RESET", "RUNTEST RESET 1 TCK",
]
TAILS = ["", "", "", "!x", "STATE", "FOO", "SDR 4 TDI (F", "#", "/", "//", "\n;"]


def hex_runs(rng, bits: list[int]) -> list[str]:
    """The bits as hexadecimal digits, with or without leading zeros, in one run or several."""
    value = sum(bit << place for place, bit in enumerate(bits))
    width = rng.choice((0, -(-len(bits) // 4), len(bits) // 4 + 9))
    digits = f"{value:0{width}X}" if value or rng.random() < 0.7 else ""
    cuts = sorted(rng.randrange(len(digits) + 1) for _ in range(rng.choice((0, 0, 0, 1, 3))))
    pieces = [digits[start:stop] for start, stop in zip([0] + cuts, cuts + [len(digits)])]
    return [piece for piece in pieces if piece]


def field(rng, name: str, bits: list[int]) -> list[str]:
    return [name, "(", *hex_runs(rng, bits), ")"]


def spell(rng, statements: list[list[str]], plain: float = 0.7) -> bytes:
    """Statements as a text, in any case, with gaps wherever they are needed or free."""
    text, before = "", ";"
    for tokens in statements:
        for token in tokens + [";"]:
            needed = before not in "();" and token not in "();"
            if rng.random() < plain:
                text += " " if needed or before == ";" else ""
            else:
                text += "".join(rng.choices(GAPS, k=rng.randrange(int(needed), 3)))
            text += rng.choice((token, token, token, token.lower(), token.capitalize(), token.swapcase()))
            before = token
        text += rng.choice(("", ";", " ; ;", "!;\n;")) if rng.random() < 0.04 else ""
    return text.encode("latin-1")


def walk(rng, place: str) -> list[str]:
    """States one TCK apart, the last of them mostly stable."""
    path = []
    while len(path) < 2 or path[-1] not in STABLE and rng.random() < 0.97 or rng.random() < 0.3:
        place = rng.choice(NEXT[place])
        path.append(place)
    return path


def scan(rng, command: str, length: int) -> list[str]:
    """A scan with some fields, seldom with a bit too many."""
    names = some(rng, (0.75, ["TDI"]), (0.2, ["TDO"]), (0.3, ["MASK"]), (0.15, ["SMASK"]), (0.01, ["TDI"]))
    rng.shuffle(names)
    fields = [token for name in names
              for token in field(rng, name, random_bits(rng, length + int(rng.random() < 0.03)))]
    return [command, str(length), *fields]


def run_test(rng) -> list[str]:
    count = [rng.choice(("0", "1", "2", "5", "17", "1.5E1")), rng.choice(["TCK"] * 30 + ["SCK"])]
    least = [rng.choice(("0", "1E-6", "1.00E-006", "2.5E-6", "1E-12", "3E-5", "1.000001E-6")), "SEC"]
    least += some(rng, (0.4, ["MAXIMUM", rng.choice(("0", "1E-6", "3E-6", "1E-4", "1E6")), "SEC"]))
    return ["RUNTEST", *some(rng, (0.5, [rng.choice(LIKELY)])), *rng.choice((count, least, count + least)),
            *some(rng, (0.4, ["ENDSTATE", rng.choice(LIKELY)]))]


def statement(rng, place: str = "RESET") -> list[str]:
    """A statement of good form that stands mostly for something else than a scan."""
    kind = rng.randrange(9)
    if kind == 0:
        return scan(rng, rng.choice(svf.SCANS), rng.choice((0, 1, 2, 3, 4, 5, 8, 33)))
    if kind == 1:
        return [rng.choice(("ENDDR", "ENDIR")), rng.choice(LIKELY)]
    if kind == 2:
        return ["FREQUENCY", *rng.choice(([], [rng.choice(("1E6", "3E6", "7E5", "1E7", "2.5E6")), "HZ"]))]
    if kind < 5:
        return run_test(rng)
    if kind < 6:
        return ["STATE", rng.choice(LIKELY)]
    if kind < 8:
        return ["STATE", *walk(rng, place)]
    return ["TRST", rng.choice(("ON", "ON", "OFF", "Z", "ABSENT"))]


def after(settings: svf.Settings, tokens: list[str]) -> tuple | None:
    """The settings behind one more statement and its step, or None where it is refused."""
    settings = copy.copy(settings)
    settings.end, settings.last = dict(settings.end), dict(settings.last)
    try:
        return settings, settings.step(0, svf.parse_statement([token.encode() for token in tokens]))
    except svf.Fault:
        return None


class Writer:
    """Writes statements nearly all of which are accepted, with TDO mostly as the board will answer."""

    def __init__(self, rng, board, flips: float):
        self.rng, self.flips = rng, flips
        self.settings, self.whole, self.statements = svf.Settings(), WholeBoard(board), []

    def add(self, tokens: list[str], stubborn: float = 0.995) -> list[int] | None:
        """Take a statement; the out of its step, or None where it is refused: then it is seldom taken."""
        fits = after(self.settings, tokens)
        if fits or self.rng.random() > stubborn:
            self.statements.append(tokens)
        if fits is None:
            return None
        self.settings, step = fits
        return self.whole.command(step) if step else []

    def body(self, column: str, favoured: tuple) -> list[int]:
        """Bits to send: mostly as many as the chain has, and opcodes of favoured instructions."""
        rng, bits = self.rng, []
        for chip in self.whole.chips:
            if column == "DR":
                bits += random_bits(rng, len(chip.stage("DR")))
                continue
            own = [row for row in chip.device.opcodes if row.name in favoured or not favoured]
            pattern = rng.choice(rng.choice(own or chip.device.opcodes).patterns)
            bits += [int(rng.choice("01") if digit == "X" else digit) for digit in reversed(pattern)]
        head, tail = (self.settings.last.get(part + column) for part in "HT")
        bits = bits[head.length if head else 0:max(1, len(bits) - (tail.length if tail else 0))]
        if bits and rng.random() < 0.8:
            return bits
        return random_bits(rng, rng.choice((1, 2, 5, 14, len(bits) + 9)))

    def scan(self, column: str, favoured: tuple = ()) -> None:
        """Perhaps headers, and then a scan."""
        rng, headers = self.rng, {}
        for part in ("H", "T"):
            before = self.settings.last.get(part + column)
            if rng.random() < (0.9 if before and before.tdo else 0.07):
                length = rng.choice((0, 0, 1, 2, 5))
                headers[part] = [part + column, str(length), *field(rng, "TDI", random_bits(rng, length))]
                self.add(headers[part])
        bits = self.body(column, favoured)
        tokens = ["S" + column, str(len(bits))]
        mask = random_bits(rng, len(bits))
        tokens += some(rng, (0.85, field(rng, "TDI", bits)), (0.15, field(rng, "MASK", mask)))
        out = self.add(tokens)
        if not out:
            return
        out = [bit ^ int(rng.random() < self.flips) for bit in out]
        head = self.settings.last.get("H" + column)
        start = head.length if head else 0
        wanted = {"H": out[:start], "S": out[start:start + len(bits)], "T": out[start + len(bits):]}
        for part, its_tokens in (*headers.items(), ("S", tokens)):
            if rng.random() < (0.85 if part == "S" else 0.6):
                its_tokens += field(rng, "TDO", wanted[part])
                last = self.settings.last[part + column]
                self.settings.last[part + column] = last._replace(tdo=wanted[part])

    def go_on(self) -> None:
        """One statement, or some that show together what one alone seldom shows."""
        rng = self.rng
        if self.settings.trst_word == "ON" and rng.random() < 0.8:
            self.add(["TRST", rng.choice(("OFF", "Z"))])
        elif rng.random() < 0.6:
            self.add(statement(rng, self.settings.place))
        else:
            self.scan("IR", rng.choice(((), ("SAMPLE", "PRELOAD", "EXTEST"), OWN)))
            self.scan("DR")
            if rng.random() < 0.3:
                self.add(["ENDDR", rng.choice(("DRPAUSE", "DRPAUSE", "IRPAUSE", "IDLE"))])
                self.scan("DR")
                if self.settings.trst_word != "ABSENT":
                    self.add(["TRST", "ON"])
                    self.add(["TRST", "OFF"])
            self.scan("IR", rng.choice(((), ("EXTEST", "CLAMP"), ("EXTEST",), OWN)))
            self.scan("DR")
            self.scan("DR")


def written(rng, board, rounds: int) -> list[list[str]]:
    writer = Writer(rng, board, rng.choice((0, 0, 0, 0.001, 0.01)))
    for _ in range(rounds):
        writer.go_on()
    return writer.statements


def programs(rng, number: int) -> Case:
    """Good programs in any spelling on one bare device."""
    text = spell(rng, written(rng, BARE, rng.randrange(1, 12)))
    return Case(text + rng.choice((b"", b"", b"! end", b"//")))


def statements(rng, number: int) -> Case:
    """Statements of good form, or pieces with a fault or two each; the first four cases are about limits."""
    if number < 2:
        return Case(b"FREQUENCY;" * (200_000 + number))
    if number < 4:
        return Case(b"HDR 1 TDI (0); SDR %d TDI (0);" % (1_048_573 + number))
    if rng.random() < 0.01:
        return Case(b"SDR 1048577 TDI (4" + b"0" * rng.choice((262_143, 262_144)) + b");")
    if rng.random() < 0.3:
        return Case(spell(rng, [statement(rng) for _ in range(rng.randrange(1, 7))], 0.9))
    pieces = rng.choice((PIECES + TRST_PIECES, PIECES + TRST_PIECES, TRST_PIECES))
    rows = [rng.choice(pieces) for _ in range(rng.randrange(1, 6))]
    return Case((";".join(rows) + ";" + rng.choice(TAILS)).encode("latin-1"))


def mutants(rng, number: int) -> Case:
    """Good programs of which some tokens, or some bytes, are lost, doubled, swapped, changed or put in."""
    good = written(rng, BARE, rng.randrange(1, 4))
    if rng.random() < 0.5:
        return Case(damaged_bytes(rng, spell(rng, good, 0.85), ODD_BYTES))
    tokens = [token for row in good for token in row + [";"]] or [";"]
    return Case(" ".join(damaged(rng, tokens, WORDS + NEAR + NUMBERS)).encode())


def numbers(rng, number: int) -> Case:
    """Every number of the list in every context, the contexts going round faster than the list."""
    rounds, place = divmod(number, len(NUMBERS))
    return Case((CONTEXTS[(place + rounds) % len(CONTEXTS)] % NUMBERS[place]).encode())


def damaged(rng, pieces: list, pool: list) -> list:
    """A list of which one to three items are lost, doubled, swapped, changed or put in."""
    pieces = list(pieces)
    for _ in range(rng.choice((1, 1, 1, 2, 3))):
        at, other, kind = rng.randrange(len(pieces)), rng.randrange(len(pieces)), rng.randrange(6)
        if kind == 0 and len(pieces) > 1:
            del pieces[at]
        elif kind == 1:
            pieces.insert(at, pieces[other])
        elif kind == 2:
            pieces[at], pieces[other] = pieces[other], pieces[at]
        elif kind == 3:
            pieces.insert(at, rng.choice(pool))
        elif kind == 4:
            pieces[at] = rng.choice(pool)
        else:
            pieces[at] = pieces[other]
    return pieces


def damaged_bytes(rng, text: bytes, pool: bytes) -> bytes:
    """A text damaged by bytes, and seldom cut off."""
    damage = bytes(damaged(rng, list(text) or [32], list(pool) + [rng.randrange(256) for _ in range(9)]))
    return damage[:rng.randrange(len(damage) + 1)] if rng.random() < 0.1 else damage


# BSDL

STANDARD = sorted(bsdl.STANDARD)
OWN = ("LOAD", "UT1", "UT2", "SCRATCH", "CAPTURES", "E_1")
TAPS = {"TAP_SCAN_IN": "TDI", "TAP_SCAN_MODE": "TMS", "TAP_SCAN_OUT": "TDO", "TAP_SCAN_CLOCK": "TCK"}
LOOSE_ITEMS = [
    "use STD_1149_1_2001.all;", 'constant C : S := "a:1," & "b:(2,3)";', "use;",
    "attribute X ' [ 1.0e6 ) & is;", 'attribute COMPLIANCE_PATTERNS of K : entity is "(A) (1)";',
]
ODD_VALUES = [
    "7", "007", '"" & "7"', '""', '" "', "", '"1" & 1', "true", "false", "(1)", "( ( )", '"0', '"01" "01"',
    "1.5", "X", '"01" &', '"é"', '"--"', '(")")', "((;))", "(", "12x",
]
TOKENS = r"""
    ( ) [ ] , ; : . & = * + - < > ' / | " "" 0 1 2 00 X x 10 007 65535 65536 99999999999999999999 1.0
    entity is port generic end use attribute of signal true false bit bit_vector inout to downto
    TAP_SCAN_IN TAP_SCAN_RESET BYPASS EXTEST IDCODE INTEST LOAD CAPTURES BOUNDARY DEVICE_ID DATA input
    bidir output3 output2 control controlr internal Z PULL0 KEEPER K TDI TRST "01" -- $ _A é
""".split()
TOKEN = re.compile(r"--[^\n\r]*|[A-Za-z][A-Za-z0-9_]*|[0-9][A-Za-z0-9_.]*|[ \t\n\r\v\f]+|.", re.S)


class Description:
    """A made description: parts that a fault may change, and its text in a free layout."""

    def __init__(self, rng):
        self.rng, self.bits = rng, rng.choice((2, 3, 3, 4, 4, 5, 8, 64))
        self.has_trst, self.tail, self.dropped = rng.random() < 0.4, "end K;", ""
        self.extra: list[list[str]] = []  # further attributes: name, name after `of`, value
        self.make_ports()
        self.make_instructions()
        self.make_cells()
        self.make_accesses()

    def pattern(self, length: int, loose: float = 0.15) -> str:
        rng = self.rng
        return "".join(rng.choice("Xx" if rng.random() < loose else "01") for _ in range(length))

    def make_ports(self) -> None:
        """`ports` by name: their kind; `free`: the bits that aren't the TAP's."""
        rng = self.rng
        self.ports = {name: "bit" for name in (*TAPS.values(), "TRST")}
        self.free = [] if self.has_trst else [("TRST", None)]
        for number in range(rng.randint(1, 6)):
            name, kind, subscripts = f"P{number}", "bit", [None]
            if rng.random() < 0.5:
                low = rng.choice((0, 0, 1, 7, 65531))
                subscripts = range(low, low + rng.randint(1, 5))
                ends = [(low, "to", subscripts[-1]), (subscripts[-1], "downto", low)]
                kind = "bit_vector({} {} {})".format(*rng.choice(ends))
            self.ports[name] = kind
            self.free += [(name, subscript) for subscript in subscripts]

    def make_instructions(self) -> None:
        rng, bits = self.rng, self.bits
        names = [name for name in (*STANDARD, *OWN) if rng.random() < 0.6] or ["EXTEST"]
        rng.shuffle(names)
        names.sort(key=lambda name: name != "IDCODE")
        loose = 0.1 if bits > 3 else 0
        self.opcodes = [[name, [self.pattern(bits, loose) for _ in range(rng.choice((1, 1, 2)))]]
                        for name in names]
        if names[0] == "IDCODE":
            self.opcodes[0][1][0] = self.pattern(bits - 1) + "0"
        self.capture = self.pattern(bits - 2) + "01"
        self.idcode = some(rng, (0.7, [self.pattern(31, 0.1) + "1"] + some(rng, (0.2, [self.pattern(32)]))))
        self.usercode = some(rng, (0.5, [self.pattern(32, 0.1)]), (0.1, [self.pattern(32)]))
        self.private = [name for name in (*STANDARD, *OWN, "NOROW") if rng.random() < 0.06]

    def make_cells(self) -> None:
        """Rows: number, port, function, and the list of control, disabling value and result."""
        rng, self.cells = self.rng, []
        self.length = rng.choice((1, 2, 3, 4, 6, 6, 8, 8, 12, 12, 20, 70))
        controls = [cell for cell in range(self.length) if rng.random() < 0.3]
        undriven = rng.sample(self.free, len(self.free))
        for cell in range(self.length):
            function, port = rng.choice(("input", "clock", "observe_only", "internal")), None
            control = [rng.choice(controls or [cell]), rng.choice("01"), rng.choice(bsdl.RESULTS)]
            if cell in controls:
                function = rng.choice(("control", "controlr", "controlr"))
            elif undriven and rng.random() < 0.7:
                function = rng.choice(("output3", "bidir", "output2") if controls else ("output2",))
                port = undriven.pop()
                if function == "output2":
                    control = rng.choice(([], control, [cell, *control[1:]]))
            elif function != "internal":
                port = rng.choice(self.free or [None])
                function = function if port else "internal"
            if function not in ("output2", "output3", "bidir") and rng.random() < 0.9:
                control = []
            self.cells.append([cell, port, function, control])
        if rng.random() < 0.3:
            rng.shuffle(self.cells)

    def make_accesses(self) -> None:
        """Rows: register, length or "", and pairs of an instruction and its CAPTURES pattern or ""."""
        rng, self.accesses, lengths = self.rng, [], {}
        known = [name for name, _ in self.opcodes if name in OWN and name not in self.private]
        while known or rng.random() < 0.4:
            register = rng.choice(("BOUNDARY", "BYPASS", "DEVICE_ID", "DATA", "DATA", "R2", "BOUNDARY"))
            size, length = {"BOUNDARY": self.length, "BYPASS": 1}.get(register, 32), ""
            if register in ("DATA", "R2") or rng.random() < 0.1:
                size = length = lengths.setdefault(register, rng.choice((1, 2, 4, 7, 33, 65)))
            its = [(known.pop(), self.pattern(size) if rng.random() < 0.4 else "")
                   for _ in known[:rng.choice((0, 1, 2))]]
            its += some(rng, (0.3, [(rng.choice(self.private or STANDARD), "X1")]), (0.1, [("NOROW", "")]))
            if its:
                self.accesses.append([register, length, its])
            elif rng.random() < 0.2:
                known = known[1:]

    def gap(self, least: str = "") -> str:
        return self.rng.choice((least, least, least, " ", "\n", "\t", " -- c\n", "--\"\r")) or least

    def recased(self, text: str) -> str:
        return self.rng.choice((text, text, text, text.lower(), text.upper()))

    def listed(self, items) -> str:
        return self.rng.choice((",", ", ")).join(items) + ("," if self.rng.random() < 0.08 else "")

    def quoted(self, text: str) -> str:
        """The text as strings joined by `&`, cut anywhere."""
        cuts = sorted(self.rng.randrange(len(text) + 1) for _ in range(self.rng.choice((0, 0, 1, 3))))
        parts = [text[start:stop] for start, stop in zip([0] + cuts, cuts + [len(text)])]
        return (self.gap() + "&" + self.gap()).join(f'"{part}"' for part in parts)

    def strings(self) -> dict[str, str]:
        """The attributes that are strings; an empty list gives none."""
        cells = []
        for number, port, function, control in self.cells:
            name = "*" if port is None else port[0] + ("" if port[1] is None else f"({port[1]})")
            cells.append(f"{number} (BC_1, {', '.join(map(str, [name, function, 'x', *control]))})")
        accesses = []
        for register, length, its in self.accesses:
            names = [name + (captures and f" CAPTURES {captures}") for name, captures in its]
            accesses.append(f"{register}{f'[{length}]' if length != '' else ''} ({self.listed(names)})")
        opcodes = [f"{name} ({self.listed(patterns)})" for name, patterns in self.opcodes]
        lists = {"INSTRUCTION_OPCODE": opcodes, "INSTRUCTION_CAPTURE": [self.capture],
                 "BOUNDARY_REGISTER": cells, "IDCODE_REGISTER": self.idcode,
                 "USERCODE_REGISTER": self.usercode, "INSTRUCTION_PRIVATE": self.private,
                 "REGISTER_ACCESS": accesses}
        return {name: self.listed(rows) if rows[1:] else rows[0] for name, rows in lists.items() if rows}

    def attributes(self) -> list[list]:
        """Each its name, the name after `of`, and its value."""
        rng = self.rng
        rows = [[name, port, "(10.0e6, BOTH)" if port == "TCK" else "true"] for name, port in TAPS.items()]
        rows += [["TAP_SCAN_RESET", "TRST", "true"]] if self.has_trst else []
        rows += [["INSTRUCTION_LENGTH", "K", self.bits], ["BOUNDARY_LENGTH", "K", self.length]]
        rows += [[name, "K", self.quoted(self.recased(text))] for name, text in self.strings().items()]
        rows = [row for row in rows if row[0] != self.dropped]
        for change in self.extra:
            place = next((place for place, row in enumerate(rows) if row[0] == change[0]), 0)
            rows[place:place + rng.randint(0, 1)] = [change]
        return rows

    def mode(self, name: str) -> str:
        return self.rng.choice(("in", "out", "inout", "buffer", "linkage"))

    def text(self) -> bytes:
        rng, gap = self.rng, self.gap
        items = [f"{self.recased(f'attribute {name} of')} {of}{gap()}: entity is{gap(' ')}{value};"
                 for name, of, value in self.attributes()]
        items += some(rng, *((0.2, [item]) for item in LOOSE_ITEMS))
        rng.shuffle(items)
        groups = [f"{self.recased(name)}{gap()}: {self.mode(name)} {kind}"
                  for name, kind in self.ports.items()]
        generic = rng.choice(("", "", 'generic (A : string := "X;)");', "generic ((;));"))
        head = f"entity{gap(' ')}K is {generic} port({';'.join(groups)}{rng.choice(('', '', ';'))});"
        return f"{head}\n{gap().join(items)}\n{self.tail}".encode("latin-1")


class Banks(Description):
    """A made description whose ports are driven by cells close together: most without a control, or most with one."""

    def make_ports(self) -> None:
        self.ports = {name: "bit" for name in (*TAPS.values(), "TRST")}
        self.free = [] if self.has_trst else [("TRST", None)]
        for number in range(self.rng.choice((1, 1, 2, 2, 2, 2, 3, 9))):
            self.ports[f"P{number}"] = "bit_vector(0 to 8)"
            self.free += [(f"P{number}", subscript) for subscript in range(9)]

    def make_instructions(self) -> None:
        rng, names = self.rng, ["EXTEST", "SAMPLE", "PRELOAD", "CLAMP", "HIGHZ"]
        self.bits = rng.choice((3, 4, 5))
        opcodes = rng.sample(range(2 ** self.bits - 1), len(names))
        self.opcodes = [[name, [f"{opcode:0{self.bits}b}"]] for name, opcode in zip(names, opcodes)]
        self.capture = self.pattern(self.bits - 2) + "01"
        self.idcode, self.usercode, self.private = [], [], []

    def make_cells(self) -> None:
        rng, rows = self.rng, []
        without = rng.choice((0.85, 0.85, 0.5, 0.05))
        for port in rng.sample(self.free, len(self.free)):
            rows.append((port, "output2" if rng.random() < without else rng.choice(("output3", "bidir"))))
        rows += [(rng.choice(self.free), "input") for _ in range(rng.choice((0, 3, 9)))]
        rows += [(None, rng.choice(("control", "controlr", "internal"))) for _ in range(rng.choice((0, 1, 3)))]
        rows.append((None, "controlr"))
        if rng.random() < 0.5:
            rng.shuffle(rows)
        controls = [cell for cell, (_, function) in enumerate(rows) if function in ("control", "controlr")]
        self.length, self.cells = len(rows), []
        for cell, (port, function) in enumerate(rows):
            enabled = function in ("output3", "bidir") or function == "output2" and rng.random() < 0.04
            control = [rng.choice(controls), rng.choice("01"), rng.choice(bsdl.RESULTS)] if enabled else []
            self.cells.append([cell, port, function, control])


class Followed(Description):
    """A made description most of whose ports can be the target or the source of a string of `follow`."""

    make_instructions = Banks.make_instructions

    def mode(self, name: str) -> str:
        driven = {port[0] for _, port, function, _ in self.cells if function.upper() in bsdl.DRIVING}
        return self.rng.choice(("inout", "inout", "out", "buffer", "in") if name in driven
                               else ("in", "in", "inout", "linkage"))


def part_changes(rng, made: Description) -> list[tuple]:
    """Parts of a description by name, with what may be put in their place."""
    big = rng.choice((0, made.length - 1, made.length, made.length + 1, 4097, 65535, 65536, 10**25))
    cell, opcode, port = rng.choice(made.cells), rng.choice(made.opcodes), rng.choice(list(made.ports))
    own = [name for name, _ in made.opcodes if name in OWN and name not in made.private] or OWN
    drivers = [row for row in made.cells if row[2] in ("output2", "output3", "bidir")] or [cell]
    name = rng.choice((*bsdl.NEEDED, "TAP_SCAN_RESET", "IDCODE_REGISTER", "REGISTER_ACCESS"))
    kind = rng.choice(("bit", "bit_vector(5 to 3)", "bit_vector(3 downto 5)", "bit_vector(65535 to 65536)",
                       "bits", "bit_vector(0 to 8191)", "bit_vector(1.0 to 2)", "bit_vector(3 downto 3)"))
    many = [[f"X{place}", ["X" * len(made.capture)]] for place in range(rng.choice((255, 256)))]
    rows = [["DATA", rng.choice((0, 4096, 4097, 4097)), [(own[0], "")]], ["data", 4, [(own[-1], "")]],
            [rng.choice(("DATA", "boundary", "bypass")), "", [(own[-1], made.pattern(rng.choice((1, 4))))]],
            [rng.choice(("FOO", "DATA(4)", "DATA[x]")), "", [(own[0], "")]]]
    same, room = ["0" * len(made.capture)], 8_188 - made.has_trst - len(made.free)
    return [
        ("dropped", name), ("idcode", [made.pattern(31) + rng.choice("01X")]),
        ("capture", made.capture[:-2] + rng.choice(("00", "11", "X1", "0X"))),
        ("capture", rng.choice((made.capture[1:], made.capture + "1", "2", "1,"))),
        ("bits", rng.choice((0, 1, made.bits + 1, 65, 10**20))),
        ("length", rng.choice((0, made.length + 1, made.length - 1, big))),
        ("idcode", [made.pattern(rng.choice((31, 32, 33))), *some(rng, (0.5, [made.pattern(31)]))]),
        ("usercode", [made.pattern(rng.choice((31, 32, 33)))]),
        ("tail", rng.choice(("end;", "end K K;", "end K K K;", "end K", "end K;;", "end K; x"))),
        ("private", rng.choice((["IDCODE"], ["a", ""], ["1A"], STANDARD))),
        ("ports", {**made.ports, port: kind}), ("ports", {**made.ports, port.lower(): "bit"}),
        ("ports", {**made.ports, "BIG": f"bit_vector(1 to {room + rng.randint(0, 1)})"}),
        ("ports", {other: its_kind for other, its_kind in made.ports.items() if other != port}),
        ("cells", [*made.cells, [rng.choice((big, cell[0])), *cell[1:]]]),
        ("cells", [other for other in made.cells if other is not cell] or made.cells),
        ("opcodes", [*made.opcodes, [opcode[0].lower(), opcode[1]]]), ("opcodes", made.opcodes[:1] + many),
        ("opcodes", [["SAMPLE", same], ["IDCODE", rng.choice((same, ["1" * len(made.capture)]))]]),
        ("cells", [[row[0], drivers[0][1], *row[2:]] if row is drivers[-1] else row for row in made.cells]),
        ("accesses", rows[:1]), ("accesses", rows[:1]), ("accesses", rows[:2]), ("accesses", rows[2:3]),
        ("accesses", rows[3:]), ("accesses", made.accesses + rows[1:2]),
    ]


def cell_changes(rng, made: Description, cell: list) -> list[tuple]:
    """Parts of a cell by place, with what may be put there."""
    big = rng.choice((0, len(made.cells), 4097, 65535, 65536, 10**25))
    subscript = rng.choice((None, 0, 5, big, "00"))
    return [
        (0, big), (1, rng.choice([None, ("TDI", None), ("TRST", None), ("NOPE", None), *made.free])),
        (1, cell[1] and (cell[1][0], subscript)), (2, rng.choice(sorted(bsdl.FUNCTIONS))),
        (2, "merge"), (3, []),
        (3, [rng.choice((big, *range(len(made.cells)))), rng.choice("01"), rng.choice(bsdl.RESULTS)]),
        (3, [0, rng.choice(("X", "2", "00")), "Z"]), (3, [0, "1", rng.choice(("OPEN0", "", "Z, Z"))]),
    ]


def spoil_description(rng, made: Description) -> None:
    """Change one thing of a made description; mostly a fault, sometimes only odd."""
    kind = rng.randrange(14)
    if kind < 7:
        setattr(made, *rng.choice(part_changes(rng, made)))
    elif kind < 11:
        cell = rng.choice(made.cells)
        place, value = rng.choice(cell_changes(rng, made, cell))
        cell[place] = value
    elif kind < 12:
        patterns = rng.choice(made.opcodes)[1]
        first = patterns[0]
        patterns[0] = rng.choice(("X" * len(first), "1" * rng.randint(1, 5), first[1:], first + "X"))
    else:
        name = rng.choice((*bsdl.NEEDED, "TAP_SCAN_RESET", "IDCODE_REGISTER", "REGISTER_ACCESS"))
        value = rng.choice(ODD_VALUES) if rng.random() < 0.6 else "false"
        made.extra.append([name, rng.choice(("TDI", "TRST", "K", "NOPE", "P1")), value])


def chained(rng, texts: list[bytes], more: float = 0.9) -> tuple[dict, dict]:
    """The tables and files of a board of these descriptions; of those that are accepted pins are on nets."""
    files = {f"{place}.bsdl": text for place, text in enumerate(texts)}
    tables, pins = [], []
    for place in range(rng.choice((len(texts), len(texts), len(texts) + 1))):
        name, file = f"U{place}", f"{place % len(texts)}.bsdl"
        tables.append({"name": name, "bsdl": file})
        try:
            device = bsdl.read(files[file])
        except Refusal:
            continue
        core = "".join(map(str, random_bits(rng, len(device.cells))))
        extest = rng.choice(("core", "update"))
        tables[-1].update(some(rng, (0.85, [("core", core)]), (0.6, [("extest", extest)])))
        for port, subscripts in device.ports.items():
            if port not in device.taps:
                port = rng.choice((port, port.lower()))
                pins += [f"{name}.{port}" + ("" if subscript is None else f"({subscript})")
                         for subscript in ([None] if subscripts is None else subscripts[:9])]
    rng.shuffle(pins)
    nets = []
    while pins and rng.random() < more:
        size = rng.choice((0, 1, 1, 2, 2, 3, 5))
        nets.append({"name": f"N{len(nets)}", "pins": pins[:size]})
        nets[-1].update(some(rng, (0.5, [("pull", rng.choice(("up", "down", "none")))])))
        pins = pins[size:]
    return {"device": tables, "net": nets}, files


def on_board(rng, texts: list[bytes], rounds: int, more: float = 0.9) -> Case:
    """A board of these descriptions, and a program for it if it is accepted."""
    return played_on(rng, *chained(rng, texts, more), rounds)


def played_on(rng, tree: dict, files: dict, rounds: int) -> Case:
    """The board of these tables and files, and a program for it if it is accepted."""
    try:
        board = read_board(tree, files)
    except Refusal:
        return Case(rng.choice((b"", b"FOO;")), tree, files)
    return Case(spell(rng, written(rng, board, rounds), 0.97), tree, files)


def descriptions(rng, number: int) -> Case:
    """A made description with up to three faults of meaning."""
    made = Description(rng)
    for _ in range(rng.choice((0, 1, 1, 1, 2, 3))):
        spoil_description(rng, made)
    return on_board(rng, [made.text()], 3)


def texts(rng, number: int) -> Case:
    """A made description damaged at its tokens or bytes."""
    text = Description(rng).text()
    if rng.random() < 0.5:
        pieces = TOKEN.findall(text.decode("latin-1"))
        pieces = damaged(rng, pieces, TOKENS + ["\n", " ", '" & "', '"&', "--\r"])
        text = "".join(pieces).encode("latin-1")
    else:
        text = damaged_bytes(rng, text, ODD_BYTES)
    return on_board(rng, [text], 2)


def boards(rng, number: int) -> Case:
    """Random devices on random nets, and programs for them."""
    described = [Description(rng).text() for _ in range(rng.choice((1, 1, 2, 2, 3)))]
    return on_board(rng, described, rng.choice((2, 4, 7)))


def banks(rng, number: int) -> Case:
    """Devices most of whose pins are driven by cells without a control, and programs for them."""
    described = [Banks(rng).text() for _ in range(rng.choice((1, 2, 2, 3)))]
    return on_board(rng, described, rng.choice((2, 3, 5)), 0.99)


# Cores that follow

ODD_STRINGS = [
    "", " ", "=", "!", "P0", "P0=", "=P0", "P0=!", "P0==P0", "P0=P0=P0", "P0 P0", "!P0=P0", "P0=!!P0",
    "P0=! !P0", "P0=P0!", "P0=~P0", "P0=0", "P0=P0;", "P0=P0,P1=P0", "P0\t=P0", "P0=\tP0", "\nP0=P0",
    "P0=P0\n", "P0=P0\r", "P0=\u00a0P0", "P0 (1)=P0", "P0( 1)=P0", "P0(1 )=P0", "P 0=P0", "P0=P 0",
    "P0=P0 (1)", "U0.P0=P0", "P0=U0.P0", "P0()=P0", "P0=P0()", "P0=P0(1", "P0=P0 1)", "P0=P0(1x)",
    "P0=P0(-1)", "P0=P0[1]", "1P=P0", "_P=P0", "P0=é", "P0=P0(１)", "P0=TDI", "P0=tck", "P0=TDO", "P0=TRST",
    "TDO=P0", "TDI=TDI", "P0=NOPE", "NOPE=P0", "P0=P0", "P0=!P0", "P1=P0", "P0(0)=P1(0)", "P0=P0(65536)",
    "P0(99999999999999999999)=P0",
]


def spelt(rng, port: tuple) -> str:
    """A port bit in either case, its subscript seldom with a leading zero."""
    name, subscript = port
    zero = "0" if rng.random() < 0.1 else ""
    return rng.choice((name, name, name.lower())) + ("" if subscript is None else f"({zero}{subscript})")


def string(rng, target: tuple, source: tuple) -> str:
    gaps = rng.choice((("", "", "", "", ""), ("", " ", " ", "", ""), rng.choices(("", " ", "   "), k=5)))
    signs = ("", spelt(rng, target), "=", rng.choice(("", "", "!")), spelt(rng, source))
    return "".join(sign + gap for sign, gap in zip(signs, gaps)) + gaps[0]


def driven_bits(device: bsdl.Device) -> list[tuple]:
    return [cell.port for cell in device.cells if cell.function in bsdl.DRIVING]


def strings(rng, device: bsdl.Device, chance: float) -> list[str]:
    """Strings for some of the port bits that the device drives, each with some source that is fit."""
    sources = [(name, subscript) for name, subscripts in device.ports.items()
               if name not in device.taps and device.modes[name] in ("IN", "INOUT")
               for subscript in ([None] if subscripts is None else subscripts[:9])]
    targets = [target for target in driven_bits(device) if sources and rng.random() < chance]
    rng.shuffle(targets)
    return [string(rng, target, rng.choice(sources)) for target in targets]


def open_circles(rng, tree: dict, files: dict, chance: float) -> None:
    """Take away the first string on a circle, mostly, until there is none."""
    while rng.random() < chance:
        try:
            read_board(tree, files)
            return
        except Refusal as its_refusal:
            if not str(its_refusal).startswith("board C9"):
                return
            name, target = its_refusal.value.split(".")
        table = next(table for table in tree["device"] if table["name"] == name)
        table["follow"] = [text for text in table["follow"] if text.split("=")[0].strip() != target]


def spoil_strings(rng, tree: dict, devices: dict[str, bsdl.Device]) -> None:
    """One fault of a device's strings, or of its description: then their form alone is judged."""
    table = rng.choice([table for table in tree["device"] if "follow" in table] or tree["device"])
    texts, device, kind = list(table.get("follow", [])), devices[table["bsdl"]], rng.randrange(8)
    ports = [(name, subscripts and subscripts[0]) for name, subscripts in device.ports.items()]
    if kind < 3:
        texts.insert(rng.randint(0, len(texts)), rng.choice(ODD_STRINGS))
    elif kind < 5:
        texts.append(string(rng, rng.choice(driven_bits(device) or ports), rng.choice(ports)))
    elif kind < 6:
        texts = [rng.choice(ODD_TABLE_VALUES), *texts]
    elif kind < 7:
        texts = rng.choice(ODD_TABLE_VALUES)
    else:
        table["bsdl"] = rng.choice(("bad.bsdl", "missing.bsdl"))
        texts += some(rng, (0.3, [rng.choice(ODD_STRINGS)]), (0.5, texts[:1]))
    table["follow"] = texts


def follows(rng, number: int) -> Case:
    """Devices some of whose core bits follow pins, and programs for them; some of the boards are refused."""
    texts = [Followed(rng).text() for _ in range(rng.choice((1, 2, 2, 3, 4)))]
    tree, its_files = chained(rng, texts, rng.choice((0.8, 0.97)))
    its_files["bad.bsdl"] = b"entity $"
    devices = {name: bsdl.read(its_files[name]) for name in {table["bsdl"] for table in tree["device"]}}
    chance = rng.choice((0.3, 0.6, 0.9, 1))
    for table in tree["device"]:
        table.update(some(rng, (0.9, [("follow", strings(rng, devices[table["bsdl"]], chance))])))
    open_circles(rng, tree, its_files, 0.93)
    if rng.random() < 0.2:
        spoil_strings(rng, tree, devices)
    return played_on(rng, tree, its_files, rng.choice((2, 3, 5)))


# Faults of nets

class Small(Description):
    """A made description of few pins, each of which a cell may drive, see, or both."""

    mode = Followed.mode

    def make_ports(self) -> None:
        self.ports, self.free = {name: "bit" for name in (*TAPS.values(), "TRST")}, []
        for number in range(self.rng.choice((2, 2, 3))):
            size = self.rng.choice((1, 1, 2))
            self.ports[f"P{number}"] = "bit" if size == 1 else "bit_vector(0 to 1)"
            self.free += [(f"P{number}", subscript) for subscript in ([None] if size == 1 else range(size))]

    def make_instructions(self) -> None:
        Banks.make_instructions(self)
        if self.rng.random() < 0.1:
            Description.make_instructions(self)

    def make_cells(self) -> None:
        rng = self.rng
        rows = [(None, rng.choice(("control", "controlr"))), *some(rng, (0.1, [(None, "internal")]))]
        for port in self.free:
            drives = (port, rng.choice(("output2", "output2", "output3", "output3", "bidir", "bidir")))
            sees = (port, rng.choice(("input", "input", "clock", "observe_only")))
            rows += rng.choice(([drives], [drives], [sees], [sees], [drives, sees], [drives, sees], []))
        rng.shuffle(rows)
        control = next(cell for cell, (_, function) in enumerate(rows) if function.startswith("control"))
        self.length, self.cells = len(rows), []
        for cell, (port, function) in enumerate(rows):
            enable = {"output2": rng.choice((None, None, cell)), "output3": control, "bidir": control}.get(function)
            result = rng.choice(("Z", *bsdl.RESULTS))
            self.cells.append([cell, port, function, [] if enable is None else [enable, rng.choice("01"), result]])


LOOKS = ("IDLE DRSELECT DRCAPTURE DREXIT1 DRUPDATE IDLE", "IDLE DRSELECT DRCAPTURE DRSHIFT DREXIT1 DRUPDATE IDLE",
         "DRPAUSE", "DRPAUSE DREXIT2 DRUPDATE IDLE")
"""Ways through the controller that capture, and pass on some of what was captured or all of it."""


def tested(rng, board, rounds: tuple = (1, 1, 2), scans: tuple = (2, 4, 7)) -> list[list[str]]:
    """A test of the nets of a board, with other statements in between; seldom it wants what does not come."""
    writer = Writer(rng, board, rng.choice((0,) * 15 + (0.01,)))
    for _ in range(rng.choice(rounds)):
        for tokens in some(rng, (0.4, [["STATE", "RESET"]]), (0.2, [["ENDDR", rng.choice(("DRPAUSE", "IDLE"))]])):
            writer.add(tokens, 1)
        writer.scan("IR", rng.choice((("SAMPLE", "PRELOAD"), ())))
        writer.scan("DR")
        writer.scan("IR", rng.choice((("EXTEST",), ("EXTEST",), ("EXTEST", "HIGHZ"), ("EXTEST", "CLAMP", "SAMPLE"))))
        for _ in range(rng.choice(scans)):
            look = ["STATE", *rng.choice(LOOKS).split()]
            for tokens in some(rng, (0.06, [["TRST", "ON"], ["TRST", "OFF"]]), (0.15, [look])):
                writer.add(tokens, 1)
            if rng.random() < 0.05:
                writer.go_on()
            writer.scan("DR")
    return writer.statements


def covers(rng, number: int) -> Case:
    """Small boards, and tests of their nets; a few texts and boards are refused."""
    texts = [Small(rng).text() for _ in range(rng.choice((1, 2, 2, 3)))]
    tree, its_files = chained(rng, texts, 0.97)
    devices = {name: bsdl.read(text) for name, text in its_files.items()}
    if rng.random() < 0.3:
        for table in tree["device"]:
            table["follow"] = strings(rng, devices[table["bsdl"]], 0.9)
        open_circles(rng, tree, its_files, 1)
    if rng.random() < 0.03:
        spoil_table(rng, tree, rng.choice(tree["device"] + tree["net"]))
    try:
        board = read_board(tree, its_files)
    except Refusal:
        return Case(b"", tree, its_files)
    text = spell(rng, tested(rng, board), 0.97)
    return Case(damaged_bytes(rng, text, ODD_BYTES) if rng.random() < 0.03 else text, tree, its_files)


class Many(Small):
    """A made description of the same kind with so many pins that a board of two has some forty nets."""

    def make_ports(self) -> None:
        self.ports, self.free = {name: "bit" for name in (*TAPS.values(), "TRST")}, []
        for number in range(4):
            self.ports[f"P{number}"] = "bit_vector(0 to 8)"
            self.free += [(f"P{number}", subscript) for subscript in range(9)]


def many_covers(rng, number: int) -> Case:
    """Boards of many nets, and short tests of them: most have more than 256 faults that are missed."""
    tree, its_files = chained(rng, [Many(rng).text() for _ in range(2)], 1)
    board = read_board(tree, its_files)
    return Case(spell(rng, tested(rng, board, (1,), (1, 2)), 0.97), tree, its_files)


def diagnoses(rng, number: int) -> Case:
    """Boards and tests as those of `covers`."""
    return covers(rng, number)


# Waves

FREQUENCIES = ("1E6", "3E6", "7E5", "1.5E7", "3E11", "1E12", "1E-3", "2E-6")
RESTS = ("1", "2", "60", "62", "63", "64", "65", "66", "67", "130", "400")


def rests(rng, number: int) -> Case:
    """Programs that rest about as long as each cycle of a rest is drawn, at all kinds of frequencies."""
    tree, its_files, board = None, {}, BARE
    if number % 3:
        tree, its_files = chained(rng, [Description(rng).text() for _ in range(rng.choice((1, 1, 2)))])
        try:
            board = read_board(tree, its_files)
        except Refusal:
            tree, its_files = None, {}
    writer = Writer(rng, board, rng.choice((0, 0, 0.01)))
    for _ in range(rng.choice((2, 4, 6))):
        writer.add(["FREQUENCY", *some(rng, (0.9, [rng.choice(FREQUENCIES), "HZ"]))])
        run, end = some(rng, (0.6, [rng.choice(STABLE)])), some(rng, (0.4, ["ENDSTATE", rng.choice(STABLE)]))
        writer.add(["RUNTEST", *run, rng.choice(RESTS), "TCK", *end], 1)
        if rng.random() < 0.4:
            writer.add(["TRST", rng.choice(("ON", "ON", "OFF", "Z"))], 1)
        if rng.random() < 0.6:
            writer.go_on()
    return Case(spell(rng, writer.statements, 0.97), tree, its_files)


# Board files

ODD_TABLE_VALUES = [
    1, True, "", [], {}, 1.5, ['x'], "none ", "Up", [1], [['U0.P0']], ['U0.P0', 1], "core", "01", "2",
    "0 1", "U 1", "1U", "_U", "U-1", "U0", "N0", [{}], {'a': 1}, "é", "U1\n", "missing.bsdl", "bad.bsdl",
    "update",
]
ODD_KEYS = [
    "Name", "color", "", "aaa", "zzz", "pull", "extest", "core", "pins", "bsdl", "é", "name.x", "NAME",
    "name", "follow",
]
ODD_PINS = [
    "", ".", "U0.", ".P0", "U0", "U0.P0 ", " U0.P0", "U0 .P0", "U0.P0 (1)", "U0.P0()", "U0.P1()", "U0.P2()",
    "U0.P0(1",
    "U0.P0(1))", "U0.P0[1]", "U0.P0.P0", "U0.P0(1x)", "U0.P0(99999999999999999999)", "U0.P0(65536)",
    "U0.é", "U0.P0(１)", "U9.P0", "U0.*", "u0.P0", "U0.TDI", "U0.tck", "U0.TRST", "U0.P0", "U0.P0(00)",
    "U0.P0(07)", "U0.P1", "U0.P0(0)", "U0.P0(1)\n",
]


def spoil_table(rng, tree: dict, table: dict) -> None:
    """One fault of a board file's tables, mostly in this one."""
    kind, key = rng.randrange(10), rng.choice(list(table) or ["name"])
    pins = table.get("pins")
    if kind < 2:
        table[key] = rng.choice(ODD_TABLE_VALUES)
    elif kind < 3:
        table.pop(key, None)
    elif kind < 4:
        table[rng.choice(ODD_KEYS)] = rng.choice(ODD_TABLE_VALUES)
    elif "core" in table:
        table["core"] = str(table["core"])[rng.randint(0, 1):]
    elif "bsdl" in table:
        table["bsdl"] = rng.choice(("bad.bsdl", "short.bsdl", "missing.bsdl", "", ".", "0.bsdl"))
    elif kind < 8 and isinstance(pins, list):
        table["pins"] = pins + [rng.choice(ODD_PINS + pins * 9)]
    elif isinstance(pins, list):
        pins = pins[-1:] + some(rng, (0.4, [rng.choice(ODD_PINS)]))
        tree["net"].append({"name": "AGAIN", "pins": pins})


def files(rng, number: int) -> Case:
    """A board file with up to three faults, or one about a limit."""
    tree, its_files = chained(rng, [Description(rng).text() for _ in range(rng.choice((1, 2)))])
    its_files.update({"bad.bsdl": b"entity $", "short.bsdl": b"entity K is"})
    faults = rng.choice((0, 1, 1, 2, 3))
    if rng.random() < 0.06:
        faults, word, limit = 0, *rng.choice((("device", 256), ("net", 16_384)))
        more = range(limit + rng.randint(0, 1) - len(tree[word]))
        rest = {"bsdl": "0.bsdl"} if word == "device" else {"pins": []}
        tree[word] += [{"name": f"X{place}", **rest} for place in more]
    tables = tree["device"] + tree["net"]
    for _ in range(faults):
        spoil_table(rng, tree, rng.choice(tables))
    if rng.random() < 0.04:
        del tree[rng.choice(list(tree))]
    if rng.random() < 0.06:
        key = rng.choice(("title", "devices", "", "Net", "zz", "device", "net"))
        tree[key] = rng.choice(ODD_TABLE_VALUES)
    return Case(rng.choice((b"", b"", b"", b"FOO;")), tree, its_files)


KINDS = {kind.__name__: kind for kind in (
    programs, statements, mutants, numbers, descriptions, texts, boards, banks, follows, files)}
WAVE_KINDS = {kind.__name__: kind for kind in (rests, programs, boards, banks, follows)}


COVER_KINDS = {kind.__name__: kind for kind in (covers, many_covers)}
DIAGNOSE_KINDS = {diagnoses.__name__: diagnoses}


def case_of(kind: str, number: int) -> Case:
    return {**KINDS, **WAVE_KINDS, **COVER_KINDS, **DIAGNOSE_KINDS}[kind](random.Random(f"{kind} {number}"), number)
