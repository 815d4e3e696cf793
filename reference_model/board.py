"""The simulated board: its devices' registers, its nets, two ways of moving it, and the board file.

A register is a list of bits, first the one nearest TDO.  The first device is nearest the board's TDO.
`EdgeBoard` takes the bytes of OpenOCD's remote_bitbang protocol one by one.  `WholeBoard` takes whole
commands: it knows no clock and no TDO, and captures, shifts and updates whole registers.
"""

from __future__ import annotations

import re
from typing import Callable, NamedTuple

import bsdl
import follow
from controller import NEXT
from places import description_line
from refusal import Refusal
from svf import GoStep, PathStep, RunStep, ScanStep


class Part(NamedTuple):
    """A device on the board; `extest_update`: EXTEST captures outputs' and controls' update bits."""
    name: str
    device: bsdl.Device
    core: list[int]
    extest_update: bool
    follows: list[follow.String]


class Net(NamedTuple):
    """A named net; a pin is (place of the part, (port, subscript or None)).

    `rule` says what it shows: ("counted",) what its drivers say; ("tied", bit) that bit; of strong drivers that disagree
    ("wired-or",) 1, and ("led", n) what those of its first n pins say, 0 where these disagree or there are none.
    """
    name: str
    pins: list[tuple]
    pull: str
    rule: tuple = ("counted",)


class Board(NamedTuple):
    parts: list[Part]
    nets: list[Net]


BARE_MODES = {"TDI": "IN", "TMS": "IN", "TCK": "IN", "TDO": "OUT"}
BARE_DEVICE = bsdl.Device(
    ports=dict.fromkeys(BARE_MODES), modes=BARE_MODES, taps=frozenset(BARE_MODES), has_trst=False,
    opcodes=[bsdl.OpcodeRow("BYPASS", ["11"]), bsdl.OpcodeRow("EXTEST", ["00"])],
    capture="01", codes={}, cells=[bsdl.Cell(0, None, "INTERNAL", None)], private=frozenset(), accesses={})
BARE = Board([Part("U1", BARE_DEVICE, [0], False, [])], [])
"""The board where none is named."""


# One device

class Sight(NamedTuple):
    """What a device is told at one moment: the bit that a port sees, and its core's bits in force."""
    sees: Callable[[tuple], int]
    core: list[int]


RESULT_DRIVES = {"WEAK0": ("weak", 0), "PULL0": ("weak", 0), "WEAK1": ("weak", 1), "PULL1": ("weak", 1)}


class Chip:
    """The registers of a device as it powers up, and what they capture, update and drive.

    `stages` are the shifted lists and `held` the update lists, by register; a user's register has its name,
    in upper case, and the others have words in lower case.
    """

    def __init__(self, part: Part):
        self.device, self.core, self.extest_update = part.device, part.core, part.extest_update
        self.follows = part.follows
        cells, accesses = len(self.device.cells), self.device.accesses.values()
        user = {access.register: access.length for access in accesses if access.length is not None}
        self.stages = {"instruction": [0] * len(self.device.capture), "boundary": [0] * cells, "bypass": [0],
                       "identification": [0] * 32, **{name: [0] * length for name, length in user.items()}}
        self.held = {"boundary": [0] * cells, **{name: [0] * length for name, length in user.items()}}
        self.reset()

    def set_latch(self, latch: list[int]) -> None:
        """The instruction that the latch names, and the one by whose meaning the device acts."""
        self.latch = latch
        self.instruction = bsdl.instruction(self.device.opcodes, latch)
        self.meaning = "BYPASS" if self.device.is_left_out(self.instruction) else self.instruction

    def reset(self) -> None:
        """The reset instruction; a controlr cell takes its disabling value.

        That is the one of the lowest driving cell that names it as its control, 0 if none does.
        """
        self.set_latch(self.device.reset_latch())
        controls = [cell.control for cell in self.device.cells if cell.control]
        for cell in self.device.cells:
            if cell.function == "CONTROLR":
                self.held["boundary"][cell.number] = next(
                    (control.disabling for control in controls if control.cell == cell.number), 0)

    def code(self) -> str | None:
        """The pattern that the meaning has in the identification register, if the device has it."""
        access = self.device.accesses.get(self.meaning)
        by_access = access and (access.register, access.length) == ("DEVICE_ID", None)
        return self.device.codes.get("IDCODE" if by_access else self.meaning)

    def selected(self) -> str:
        """The data register that the meaning selects: bypass unless something else is said."""
        access = self.device.accesses.get(self.meaning)
        if self.code():
            return "identification"
        if access and access.length is not None:
            return access.register
        if self.meaning in ("EXTEST", "SAMPLE", "PRELOAD") or access and access.register == "BOUNDARY":
            return "boundary"
        return "bypass"

    def register(self, column: str) -> str:
        return "instruction" if column == "IR" else self.selected()

    def stage(self, column: str) -> list[int]:
        return self.stages[self.register(column)]

    def captured(self, register: str, sight: Sight | None) -> list[int]:
        """What a register captures; an instruction register needs no sight."""
        if register == "instruction":
            return bsdl.bits_of(self.device.capture)
        if register == "bypass":
            return [0]
        if register == "identification":
            return bsdl.bits_of(self.code())
        if register == "boundary":
            return [self.captured_bit(cell, sight) for cell in self.device.cells]
        captures = self.device.accesses[self.meaning].captures
        return list(self.held[register]) if captures is None else bsdl.bits_of(captures)

    def captured_bit(self, cell: bsdl.Cell, sight: Sight) -> int:
        if cell.function in bsdl.SEEING:
            return sight.sees(cell.port)
        if self.extest_update and self.meaning == "EXTEST" and cell.function != "INTERNAL":
            return self.held["boundary"][cell.number]
        return sight.core[cell.number]

    def capture(self, column: str, sight: Sight | None) -> None:
        register = self.register(column)
        self.stages[register] = self.captured(register, sight)

    def update(self, column: str) -> None:
        """The latch, a boundary's update stage or a user register's latch takes the stage."""
        register = self.register(column)
        if register == "instruction":
            self.set_latch(list(self.stages[register]))
        elif register in self.held:
            self.held[register] = list(self.stages[register])

    def core_under(self, sees) -> list[int]:
        """The core's bits: what the source sees, or its opposite, where a string says so."""
        core = list(self.core)
        for string in self.follows:
            core[string.cell] = sees(string.source) ^ int(string.inverted)
        return core

    def drives(self, core: list[int]) -> dict[tuple, tuple]:
        """By port bit that drives: ("strong" or "weak", bit); the core has these bits."""
        if self.meaning == "HIGHZ":
            return {}
        bits = self.held["boundary"] if self.meaning in ("EXTEST", "CLAMP") else core
        drives = {}
        for cell in self.device.cells:
            if cell.function not in bsdl.DRIVING:
                continue
            if cell.control is None or bits[cell.control.cell] != cell.control.disabling:
                drives[cell.port] = ("strong", bits[cell.number])
            elif cell.control.result in RESULT_DRIVES:
                drives[cell.port] = RESULT_DRIVES[cell.control.result]
        return drives

    def registers(self) -> tuple:
        """Everything that this device remembers."""
        return self.latch, self.stages, self.held


# Nets

def level(drives: list[tuple]) -> str:
    """The strong drivers decide, else the weak ones; opposed ones contend."""
    for strength in ("strong", "weak"):
        bits = {bit for its_strength, bit in drives if its_strength == strength}
        if bits:
            return "Contend" if len(bits) == 2 else "One" if 1 in bits else "Zero"
    return "Float"


PULL_DRIVES = {"up": [("weak", 1)], "down": [("weak", 0)], "none": []}


def net_level(net: Net, placed: list[tuple]) -> str:
    """The level of a net, by its rule; a driver is (place of its pin among the net's, drive)."""
    drives = [drive for _, drive in placed]
    strong = {bit for strength, bit in drives if strength == "strong"}
    if net.rule[0] == "tied":
        return "One" if net.rule[1] else "Zero"
    if net.rule[0] != "counted" and len(strong) == 2:
        leading = {drive[1] for place, drive in placed if drive[0] == "strong" and place < net.rule[-1]} \
            if net.rule[0] == "led" else {1}
        return "One" if leading == {1} else "Zero"
    return level(drives + PULL_DRIVES[net.pull])


class Levels:
    """The levels of the nets at one moment, the cores having these bits; a pull is one weak driver."""

    def __init__(self, nets: list[Net], chips: list[Chip], cores: list[list[int]]):
        self.cores = cores
        self.drives = [chip.drives(core) for chip, core in zip(chips, cores)]
        self.named, self.strong, self.of_pin = [], [], {}
        for net in nets:
            placed = [(place, self.drives[part][port]) for place, (part, port) in enumerate(net.pins)
                      if port in self.drives[part]]
            self.strong.append({drive[1] for _, drive in placed if drive[0] == "strong"})
            self.named.append(net_level(net, placed))
            self.of_pin.update(dict.fromkeys(net.pins, self.named[-1]))

    def contending(self) -> list[int]:
        """The places of the named nets of which strong drivers disagree."""
        return [place for place, bits in enumerate(self.strong) if len(bits) == 2]

    def seen(self, part: int, port: tuple) -> int:
        """What a port sees: 0 for Zero and Contend.  A port on no net is a net of its own."""
        alone = [self.drives[part][port]] if port in self.drives[part] else []
        return int(self.of_pin.get((part, port), level(alone)) in ("One", "Float"))

    def sight(self, part: int) -> Sight:
        return Sight(lambda port: self.seen(part, port), self.cores[part])


def levels_by_ranks(nets: list[Net], chips: list[Chip], groups: list[list[follow.Dependence]]) -> Levels:
    """The levels with the core bits in force: of the nets of each rank once those below it have theirs."""
    cores = [list(chip.core) for chip in chips]
    for group in groups:
        levels = Levels(nets, chips, cores)
        for part, string, _, _ in group:
            cores[part][string.cell] = levels.seen(part, string.source) ^ int(string.inverted)
    return Levels(nets, chips, cores)


def levels_by_rounds(nets: list[Net], chips: list[Chip]) -> Levels:
    """The same: all followed bits by the levels of the round before, until a round changes none of them."""
    levels = Levels(nets, chips, [chip.core for chip in chips])
    while True:
        cores = [chip.core_under(levels.sight(part).sees) for part, chip in enumerate(chips)]
        if cores == levels.cores:
            return levels
        levels = Levels(nets, chips, cores)


# By edges

class EdgeBoard:
    """The board as bytes move it: every controller by its own state, every TDO on the falling edge."""

    def __init__(self, board: Board):
        self.nets, self.chips = board.nets, [Chip(part) for part in board.parts]
        self.groups = follow.by_rank(board.parts, board.nets)
        self.states = ["RESET"] * len(self.chips)
        self.outputs: list[int | None] = [None] * len(self.chips)
        self.clock, self.trst = 0, False

    def levels(self) -> Levels:
        return levels_by_ranks(self.nets, self.chips, self.groups)

    def byte(self, byte: str) -> int | None:
        """Take one byte; `R` answers TDO, an undriven one as 1."""
        if byte == "R":
            return 1 if self.outputs[0] is None else self.outputs[0]
        if byte in "01234567":
            clock, tms, tdi = int(byte) >> 2, int(byte) >> 1 & 1, int(byte) & 1
            if clock > self.clock:
                self.rise(tms, tdi)
            elif clock < self.clock:
                self.fall()
            self.clock = clock
        elif byte in "rt":
            self.set_trst(byte == "t")
        return None

    def set_trst(self, asserted: bool) -> None:
        """Asserted, it takes every device with a TRST port to RESET at once, whatever the clock does."""
        self.trst = asserted
        for place, chip in enumerate(self.chips):
            if asserted and chip.device.has_trst:
                self.states[place], self.outputs[place] = "RESET", None
                chip.reset()

    def rise(self, tms: int, tdi: int) -> None:
        """All devices move at once, from the levels and TDOs before the edge; an undriven TDI reads 1."""
        levels = self.levels() if "DRCAPTURE" in self.states else None
        inputs = [1 if bit is None else bit for bit in self.outputs[1:]] + [tdi]
        for place, (chip, state) in enumerate(zip(self.chips, self.states)):
            if state.endswith("CAPTURE"):
                chip.capture(state[:2], levels and levels.sight(place))
            elif state.endswith("SHIFT"):
                stage = chip.stage(state[:2])
                del stage[0]
                stage.append(inputs[place])
            held = self.trst and chip.device.has_trst
            self.states[place] = "RESET" if held else NEXT[state][tms]

    def fall(self) -> None:
        """Updates and resets; TDO is bit 0 of the selected register in a Shift state, else undriven."""
        for place, (chip, state) in enumerate(zip(self.chips, self.states)):
            if state.endswith("UPDATE"):
                chip.update(state[:2])
            elif state == "RESET":
                chip.reset()
            self.outputs[place] = chip.stage(state[:2])[0] if state.endswith("SHIFT") else None


# By whole registers

class WholeBoard:
    """The board at rest in a stable state, moved by whole commands; in a pause an update is pending."""

    def __init__(self, board: Board):
        self.nets, self.chips = board.nets, [Chip(part) for part in board.parts]
        self.place, self.trst = "RESET", False

    def levels(self) -> Levels:
        return levels_by_rounds(self.nets, self.chips)

    def capture(self, column: str) -> None:
        """Every selected register captures, all from the levels and core bits before."""
        levels = self.levels() if column == "DR" else None
        for part, chip in enumerate(self.chips):
            chip.capture(column, levels and levels.sight(part))

    def shift(self, column: str, bits: list[int]) -> list[int]:
        """Of the joined registers with the bits behind them, as many as there are bits go out."""
        stages = [chip.stage(column) for chip in self.chips]
        whole = [bit for stage in stages for bit in stage] + bits
        out, rest = whole[:len(bits)], whole[len(bits):]
        for stage in stages:
            stage[:], rest = rest[:len(stage)], rest[len(stage):]
        return out

    def update(self, column: str) -> None:
        for chip in self.chips:
            chip.update(column)

    def reset(self) -> None:
        for chip in self.chips:
            chip.reset()

    def settle(self) -> None:
        """Make the pending update, if there is one."""
        if self.place.endswith("PAUSE"):
            self.update(self.place[:2])

    def arrive(self, place: str) -> None:
        """Come to a stable state from IDLE's side."""
        if place == "RESET":
            self.reset()
        elif place.endswith("PAUSE"):
            self.capture(place[:2])
        self.place = place

    def along(self, path: list[str]) -> None:
        """One action for each Capture, Shift (of a single 0), Update and RESET of a stated path."""
        for state in path:
            if state.endswith("CAPTURE"):
                self.capture(state[:2])
            elif state.endswith("SHIFT"):
                self.shift(state[:2], [0])
            elif state.endswith("UPDATE"):
                self.update(state[:2])
            elif state == "RESET":
                self.reset()
        self.place = path[-1]

    def scan(self, step: ScanStep) -> list[int]:
        """The whole out of a scan; an end in its own column's pause leaves the update pending."""
        self.settle()
        self.capture(step.column)
        out = self.shift(step.column, [bit.tdi for bit in step.vector])
        if step.end == step.column + "PAUSE":
            self.place = step.end
        else:
            self.update(step.column)
            self.arrive(step.end)
        return out

    def command(self, step) -> list[int]:
        """Make one step; the out of a scan, and nothing for other steps."""
        if isinstance(step, ScanStep):
            return self.scan(step)
        if isinstance(step, GoStep):
            self.settle()
            self.arrive(step.end)
        elif isinstance(step, PathStep):
            self.along(step.path)
        elif isinstance(step, RunStep):
            for state in (step.run, step.end):
                if self.place != state:
                    self.settle()
                    self.arrive(state)
        elif step.word == "ON":
            self.assert_trst()
        elif step.word in ("OFF", "Z"):
            self.trst = False
        return []

    def assert_trst(self) -> None:
        """A device with a TRST port resets at once; in the others a pending update is made before."""
        self.trst = True
        for chip in self.chips:
            if self.place.endswith("PAUSE") and not chip.device.has_trst:
                chip.update(self.place[:2])
        self.arrive("RESET")


# The board file

FAULT_NAMES = {2: "BadField", 5: "UnknownPin", 6: "PinTwice", 7: "TooLarge", 9: "CoreLoop"}
NAME = re.compile("[A-Za-z][A-Za-z0-9_]*")
PIN = re.compile(rf"({NAME.pattern})\.{follow.PORT}")
LIMITS = {"device": 256, "net": 16_384}


SHOWN = {code: "".join(f"\\x{byte:02x}" for byte in chr(code).encode()) for code in (*range(32), 92, *range(127, 160))}
"""How characters are shown that a terminal may act on, and the backslash that shows them."""


def refusal(code: int, value: str = "", table: str = "") -> Refusal:
    """A refused board file; of a key (C2) with the table in which it stands, as `device 3 `."""
    word = f"{table}key" if code == 2 else "name"
    second = f"{word} {value.translate(SHOWN)}" if value else ""
    return Refusal(f"board C{code} {FAULT_NAMES[code]}", value, second)


def is_text(value) -> bool:
    return isinstance(value, str)


def is_name(value) -> bool:
    return is_text(value) and NAME.fullmatch(value) is not None


def is_core(value) -> bool:
    """0s and 1s alone, cell 0 rightmost; their number is judged with the description."""
    return is_text(value) and set(value) <= {"0", "1"}


def is_pins(value) -> bool:
    return isinstance(value, list) and all(map(is_text, value))


KEYS = {
    "device": {"name": is_name, "bsdl": is_text, "core": is_core, "extest": ("core", "update").__contains__,
               "follow": follow.has_form},
    "net": {"name": is_name, "pins": is_pins, "pull": ("up", "down", "none").__contains__},
}
NEEDED = ("name", "bsdl", "pins")
FITS = {"core": lambda core, device: len(core) == len(device.cells), "follow": follow.fits}
"""By key of a device what else its value needs once the description is known."""


def judge_top(tree: dict) -> None:
    """C2: the least key, in byte order, but `device` (not empty) and `net` as arrays of tables."""
    bad = [] if tree.get("device") else ["device"]
    for key, value in tree.items():
        is_tables = isinstance(value, list) and all(isinstance(table, dict) for table in value)
        if key not in KEYS or not is_tables:
            bad.append(key)
    if bad:
        raise refusal(2, min(bad, key=str.encode))


def judge_tables(tree: dict, devices: dict[str, bsdl.Device]) -> None:
    """C2: the devices in order, then the nets; within a table the least key in byte order.

    A key is missing, unknown or unfit; `name` is unfit a second time, and `core` and `follow` also by the
    description, where it is known by its file's name.
    """
    for word, keys in KEYS.items():
        names = set()
        for number, table in enumerate(tree.get(word, []), 1):
            bad = {key for key, value in table.items() if key not in keys or not keys[key](value)}
            bad |= {key for key in keys if key in NEEDED and key not in table}
            if "name" not in bad and table["name"] in names:
                bad.add("name")
            device = None if "bsdl" in bad else devices.get(table.get("bsdl"))
            if device:
                bad |= {key for key, fits in FITS.items()
                        if key in table and key not in bad and not fits(table[key], device)}
            if bad:
                raise refusal(2, min(bad, key=str.encode), f"{word} {number} ")
            names.add(table["name"])


def find_pin(text: str, places: dict[str, int], devices: list[bsdl.Device]) -> tuple:
    """The pin of a text such as `U1.Q` or `U1.A(3)`, else C5; a port of the TAP is none."""
    form = PIN.fullmatch(text)
    if form is None or form[1] not in places:
        raise refusal(5, text)
    place = places[form[1]]
    port = follow.port_bit(form[2], form[3])
    if port[0] in devices[place].taps or not bsdl.is_bit(devices[place].ports, port):
        raise refusal(5, text)
    return place, port


def described(text: bytes) -> bsdl.Device | Refusal:
    try:
        return bsdl.read(text)
    except Refusal as its_refusal:
        return its_refusal


def read_board(tree: dict, files: dict[str, bytes]) -> Board:
    """The board of a board file's tables and of the files that can be read, or its refusal.

    A file that can't be read is told once the keys are judged, before all that needs the descriptions.
    """
    judge_top(tree)
    judge_tables(tree, {})
    tables, net_tables = tree["device"], tree.get("net", [])
    for table in tables:
        if table["bsdl"] not in files:
            raise Refusal(f"file {table['bsdl']}")
    readings = {name: described(files[name]) for name in {table["bsdl"] for table in tables}}
    judge_tables(tree, {name: device for name, device in readings.items()
                        if isinstance(device, bsdl.Device)})
    devices = [readings[table["bsdl"]] for table in tables]
    for table, device in zip(tables, devices):
        if isinstance(device, Refusal):
            file = table["bsdl"]
            code = int(str(device).split()[1][1:])
            device.second = description_line(file.translate(SHOWN), files[file], code, device.value)
            raise device
    places = {table["name"]: place for place, table in enumerate(tables)}
    pins = [[find_pin(text, places, devices) for text in table["pins"]] for table in net_tables]
    judge_pins(pins, net_tables)
    if any(len(tree.get(word, [])) > limit for word, limit in LIMITS.items()):
        raise refusal(7)
    cores = [table.get("core", "0" * len(device.cells)) for table, device in zip(tables, devices)]
    parts = [Part(table["name"], device, bsdl.bits_of(core), table.get("extest") == "update",
                  [follow.string_of(text, device) for text in table.get("follow", [])])
             for table, device, core in zip(tables, devices, cores)]
    nets = [Net(table["name"], row, table.get("pull", "none")) for table, row in zip(net_tables, pins)]
    judge_circles(parts, nets)
    return Board(parts, nets)


def judge_circles(parts: list[Part], nets: list[Net]) -> None:
    """C9 for a net that depends on itself: the target of the first string on such a circle."""
    found = follow.first_on_circle(parts, nets)
    if found:
        raise refusal(9, f"{parts[found.part].name}.{found.string.target}")


def judge_pins(pins: list[list[tuple]], net_tables: list[dict]) -> None:
    """C6 for a pin a second time, in one net or two."""
    used = set()
    for table, row in zip(net_tables, pins):
        for text, pin in zip(table["pins"], row):
            if pin in used:
                raise refusal(6, text)
            used.add(pin)
