"""The waves of a play: the value change dump that `play --vcd FILE [--all]` draws, with `--vcd-fails`, `--vcd-names`,
`--vcd-tdo`, `--vcd-drives` and `--vcd-plain`.

Each message of the play is put to the board of edges, and behind it all that is shown is worked out anew: what
differs from what was drawn last is written. What is told of the bits that a scan wants (`--vcd-fails`) is written
before the message at whose time it becomes so. What is drawn of devices and pins besides (`--vcd-names`, `--vcd-tdo`,
`--vcd-drives`) stands behind all else of its time.
"""

from __future__ import annotations

from dataclasses import dataclass
from itertools import count

from board import Board, EdgeBoard
from controller import STABLE
from described import spelt
from program import OPENING, place_after, step_bytes
from svf import USUAL_PERIOD, Bit, Frequency, ScanStep, accept, parse

DRAWN_RESTS = 128  # messages of a rest, after which TCK is drawn as unknown
LATEST = 2 ** 63 - 2
FIRST_SIGN, SIGNS = 33, 94  # `!` to `~`
LINES = ("TCK", "TMS", "TDI", "TDO", "TRST")
EXTRAS = (("string 1", "instruction_name"), ("wire 1", "tdo"))
NOTES = (("wire 1", "wanted"), ("wire 1", "fail"), ("integer 32", "bit"), ("string 1", "part"))
STATE_CODES = {
    "DREXIT2": 0x0, "DREXIT1": 0x1, "DRSHIFT": 0x2, "DRPAUSE": 0x3, "IRSELECT": 0x4, "DRUPDATE": 0x5, "DRCAPTURE": 0x6,
    "DRSELECT": 0x7, "IREXIT2": 0x8, "IREXIT1": 0x9, "IRSHIFT": 0xA, "IRPAUSE": 0xB, "IDLE": 0xC, "IRUPDATE": 0xD,
    "IRCAPTURE": 0xE, "RESET": 0xF,
}
"""The codes of the standard's own example (IEEE Std 1149.1-2001, 6.1)."""
LEVELS = {"Zero": "0", "One": "1", "Float": "z", "Contend": "x"}
DRIVES = {("strong", 0): "0", ("strong", 1): "1", ("weak", 0): "l", ("weak", 1): "h", None: "z"}


def sign(number: int) -> str:
    """What stands for a variable: its number in base 94, the lowest digit first."""
    rest, digit = divmod(number, SIGNS)
    return chr(FIRST_SIGN + digit) + (sign(rest) if rest else "")


@dataclass(frozen=True)
class Asked:
    """What is drawn besides: bits that are wanted, of each device the name of its instruction, and its TDO, and what
    each pin of a net drives."""
    noted: bool = False
    names: bool = False
    tdos: bool = False
    drives: bool = False

    def extras(self) -> list[int]:
        """Which of the two extras of a device are drawn."""
        return [place for place, drawn in enumerate((self.names, self.tdos)) if drawn]


def first_of_extras(board: Board) -> int:
    """Numbers are counted as if the bits that are wanted were always drawn."""
    return len(LINES) + 1 + 3 * len(board.parts) + len(board.nets) + len(NOTES)


def first_of_pins(board: Board) -> int:
    """So are those of devices."""
    return first_of_extras(board) + len(EXTRAS) * len(board.parts)


def heading(board: Board, asked: Asked) -> str:
    """The variables in their scopes, numbered in order; those of the bits that are wanted come behind all others in
    that, and behind them those of devices, and those of pins, that are drawn besides."""
    numbers, pins = count(), count(first_of_pins(board))
    notes = count(len(LINES) + 1 + 3 * len(board.parts) + len(board.nets))

    def variable(kind: str, name: str) -> str:
        return f"$var {kind} {sign(next(numbers))} {name} $end"

    lines = ["$timescale 1 ps $end", "$scope module board $end", "$scope module tap $end"]
    lines += [variable("wire 1", name) for name in LINES] + [variable("integer 32", "statement")]
    lines += [f"$var {kind} {sign(next(notes))} {name} $end" for kind, name in NOTES if asked.noted] + ["$upscope $end"]
    for part in board.parts:
        instruction = f"reg {len(part.device.capture)}"
        lines += [f"$scope module {part.name} $end", variable("reg 4", f"{part.name}_state"),
                  variable("string 1", f"{part.name}_word"), variable(instruction, f"{part.name}_instruction"),
                  "$upscope $end"]
    lines += [variable("wire 1", net.name) for net in board.nets]
    for place, part in enumerate(board.parts if asked.extras() else []):
        first = first_of_extras(board) + len(EXTRAS) * place
        its = [(EXTRAS[which], sign(first + which)) for which in asked.extras()]
        lines += [f"$scope module {part.name} $end",
                  *(f"$var {kind} {code} {part.name}_{name} $end" for (kind, name), code in its), "$upscope $end"]
    for net in board.nets if asked.drives else []:
        names = [f"{net.name}-{board.parts[place].name}-{spelt(port)}" for place, port in net.pins]
        lines += [f"$scope module {net.name} $end", *(f"$var wire 1 {sign(next(pins))} {name} $end" for name in names),
                  "$upscope $end"]
    return "".join(line + "\n" for line in [*lines, "$upscope $end", "$enddefinitions $end"])


def level(bit: int | None, none: str) -> str:
    return none if bit is None else str(bit)


class Drawing:
    """A board that takes a play, and what was drawn of it last; `tck` is None within a stretch of rest."""

    def __init__(self, board: Board, asked: Asked):
        self.edges, self.asked = EdgeBoard(board), asked
        self.first_extra, self.first_pin = first_of_extras(board), first_of_pins(board)
        self.tck, self.tms, self.tdi = 0, None, None
        self.time = self.rested = self.statement = 0
        self.values = self.shown()
        self.wanted, self.fails = "x", "0"
        self.more = self.shown_besides()
        first = [*self.values, *("x", "0", "bx ", "snone ")[:4 * asked.noted]]
        lines = "".join(f"{value}{sign(number)}\n" for number, value in enumerate(first))
        lines += "".join(f"{value}{sign(number)}\n" for number, value in self.more.items())
        self.pieces = [heading(board, asked), f"#0\n$dumpvars\n{lines}$end\n"]

    def shown(self) -> list[str]:
        """All values in the order of the variables, with the blank behind those of more than one letter."""
        edges = self.edges
        values = [level(self.tck, "x"), level(self.tms, "x"), level(self.tdi, "x"),
                  level(edges.outputs[0], "z"), "0" if edges.trst else "1", f"b{self.statement:b} "]
        for chip, state in zip(edges.chips, edges.states):
            latch = "".join(str(bit) for bit in reversed(chip.latch))
            values += [f"b{STATE_CODES[state]:04b} ", f"s{state} ", f"b{latch} "]
        return values + [LEVELS[its_level] for its_level in edges.levels().named]

    def shown_besides(self) -> dict[int, str]:
        """By the number of its variable what is shown of devices and pins besides."""
        found, number = {}, self.first_extra
        for chip, output in zip(self.edges.chips, self.edges.outputs):
            values = f"s{chip.instruction or '-'} ", level(output, "z")
            found |= {number + which: values[which] for which in self.asked.extras()}
            number += len(EXTRAS)
        drives = self.edges.levels().drives if self.asked.drives else []
        pins = [pin for net in self.edges.nets for pin in net.pins] if self.asked.drives else []
        return found | {number: DRIVES[drives[place].get(port)] for number, (place, port) in enumerate(pins, self.first_pin)}

    def begin(self, statement: int) -> None:
        """Write the time at which a statement begins, and its number."""
        self.statement = statement
        self.values[len(LINES)] = f"b{statement:b} "
        self.pieces.append(f"#{self.time}\n{self.values[len(LINES)]}{sign(len(LINES))}\n")

    def tell(self, wanted: str, failing: Bit | None) -> None:
        """Write the time, and which bit is wanted and whether it fails, where that is another than before."""
        fails = str(int(failing is not None))
        values = [wanted if wanted != self.wanted else "", fails if fails != self.fails else "", "", ""]
        if any(values):
            if failing:
                values[2:] = [f"b{failing.place:b} ", f"s{failing.part} "]
            first = len(self.values)
            self.pieces += [f"#{self.time}\n", *(f"{value}{sign(first + k)}\n" for k, value in enumerate(values) if value)]
        self.wanted, self.fails = wanted, fails

    def byte(self, byte: str, period: int) -> int | None:
        """Take a byte and draw it; its answer. Only what sets a level takes time."""
        answer = self.edges.byte(byte)
        if byte in "01234567":
            self.rest(int(byte) >> 1 & 1, int(byte) & 1)
            self.mark(None if self.rested > DRAWN_RESTS else self.edges.clock)
            self.go_on(period // 2 if self.edges.clock else period - period // 2)
        elif byte in "rt":
            self.rested = 0
            self.mark(self.edges.clock)
            self.go_on(period)
        return answer

    def rest(self, tms: int, tdi: int) -> None:
        """Count the messages in a row that moved TCK alone while every device stands in a stable state."""
        still = (tms, tdi) == (self.tms, self.tdi) and set(self.edges.states) <= set(STABLE)
        self.rested = self.rested + 1 if still else 0
        self.tms, self.tdi = tms, tdi

    def mark(self, tck: int | None) -> None:
        """Write the time and what differs from what was drawn last; nothing within a stretch."""
        if tck is None and self.tck is None:
            return
        self.tck = tck
        before, self.values = self.values, self.shown()
        told, self.more = self.more, self.shown_besides()
        self.pieces.append(f"#{self.time}\n")
        self.pieces += [f"{value}{sign(number)}\n" for number, (value, old) in enumerate(zip(self.values, before))
                        if value != old]
        self.pieces += [f"{value}{sign(number)}\n" for number, value in self.more.items()
                        if value != told[number] or self.is_renamed(number, before)]

    def is_renamed(self, number: int, before: list[str]) -> bool:
        """Whether a variable is the name of an instruction whose bits have changed: a name comes with its bits."""
        place, which = divmod(number - self.first_extra, len(EXTRAS))
        bits = len(LINES) + 1 + 3 * place + 2
        return number < self.first_pin and which == 0 and self.values[bits] != before[bits]

    def go_on(self, time: int) -> None:
        self.time = min(self.time + time, LATEST)

    def text(self) -> str:
        """The whole file, which ends with the time, and with TCK where it was left unknown."""
        last = f"{self.edges.clock}{sign(0)}\n" if self.tck is None else ""
        return "".join(self.pieces) + f"#{self.time}\n" + last


def periods(text: bytes) -> dict[int, int]:
    """By the number of each statement the period in force at it, in picoseconds."""
    period, found = USUAL_PERIOD, {}
    for number, statement in enumerate(parse(text), 1):
        found[number] = period
        if isinstance(statement, Frequency):
            period = statement.period
    return found


def scan(drawing: Drawing, step: ScanStep, place: str, period: int, to_the_end: bool) -> list[int]:
    """Draw a scan with what is told of the bits that it wants; its answers. TCK goes high behind the byte that asks."""
    asked = [bit for bit in step.vector if bit.want is not None]
    answers, bit = [], None
    for byte in step_bytes(place, step):
        if byte in "0123":
            drawing.tell(drawing.wanted, None)
        elif byte in "4567" and bit is None:
            drawing.tell("x", None)
        elif byte in "4567":
            failing = bit if bit.want != answers[-1] else None
            drawing.tell(str(bit.want), failing)
            asked = asked if to_the_end or not failing else []
            bit = None
        answer = drawing.byte(byte, period)
        if answer is not None:
            answers.append(answer)
            bit = asked.pop(0) if asked else None
    return answers


def without_strings(text: str) -> str:
    """A file as `--vcd-plain` has it."""
    return "".join(f"{line}\n" for line in text.splitlines() if not line.startswith(("s", "$var string ")))


def waves(board: Board, text: bytes, to_the_end: bool = False, asked: Asked = Asked()) -> str:
    """The file of an accepted text, drawn up to and with the first statement that fails."""
    drawing, place, period_at = Drawing(board, asked), "RESET", periods(text)
    for byte in OPENING:
        drawing.byte(byte, USUAL_PERIOD)
    for step in accept(text).steps:
        drawing.begin(step.number)
        if asked.noted and isinstance(step, ScanStep):
            answers = scan(drawing, step, place, period_at[step.number], to_the_end)
        else:
            answers = [drawing.byte(byte, period_at[step.number]) for byte in step_bytes(place, step)]
        place = place_after(place, step)
        if isinstance(step, ScanStep) and not to_the_end:
            wanted = [bit.want for bit in step.vector if bit.want is not None]
            if wanted != [answer for answer in answers if answer is not None]:
                break
    return drawing.text()
