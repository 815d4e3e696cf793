"""Which faults of a board's nets a program would miss, and which of them give the bits that failed.

    coverage.py BOARD SVF [--list]              what the program would miss; of every way of every fault
    coverage.py BOARD SVF --like OTHER_BOARD    which faults of BOARD give the bits that fail on OTHER_BOARD

The first of these is what `jt_tool cover` prints.  A board with a fault is a board with other nets, so each way of each
fault is played by whole registers.  A way can show where some drives that its pins' cells can give are read otherwise
with it by a pin that someone reads.
"""

from __future__ import annotations

import argparse
import sys
from typing import NamedTuple

import bsdl
import follow
from board import Board, Net, RESULT_DRIVES, WholeBoard, net_level, read_board
from described import spelt
from program import Answer, MOST_LISTED, failing, verdict
from svf import Program, ScanStep, accept

KINDS = ("opens", "pulls", "stuck", "shorts")
PULLED = ("down", "up")


class Way(NamedTuple):
    """One way in which a fault may show: what it is called, empty where there is one, and the board's nets with it."""
    name: str
    nets: list[Net]


class Fault(NamedTuple):
    """A fault: its kind, what it is called, its ways, and the nets that it is about."""
    kind: str
    name: str
    ways: list[Way]
    places: tuple[int, ...]


# The faults of a board

def with_nets(nets: list[Net], place: int, *instead: Net) -> list[Net]:
    return nets[:place] + list(instead) + nets[place + 1:]


def open_pin(nets: list[Net], place: int, pin: tuple, bit: int) -> list[Net]:
    """The pin stands alone and reads the bit where it drives nothing; the rest keeps its pull, or floats to the bit."""
    net = nets[place]
    rest = net._replace(pins=[other for other in net.pins if other != pin],
                        pull=PULLED[bit] if net.pull == "none" else net.pull)
    return with_nets(nets, place, rest) + [Net("", [pin], PULLED[bit])]


def joined_pull(one: str, other: str) -> str:
    """Of two pulls that disagree the net reads 0, as of one downwards."""
    return next((pull for pull in ("down", "up") if pull in (one, other)), "none")


def bridge(nets: list[Net], first: int, second: int, rule: tuple, leader: int) -> list[Net]:
    """One net of all pins, those of the leading one first."""
    one, other = nets[first], nets[second]
    pins = one.pins + other.pins if leader == first else other.pins + one.pins
    whole = Net(one.name, pins, joined_pull(one.pull, other.pull), rule)
    return with_nets(with_nets(nets, second), first, whole)


def bridge_ways(nets: list[Net], first: int, second: int) -> list[Way]:
    return [Way("wired-and", bridge(nets, first, second, ("counted",), first)),
            Way("wired-or", bridge(nets, first, second, ("wired-or",), first)),
            Way("first-leads", bridge(nets, first, second, ("led", len(nets[first].pins)), first)),
            Way("second-leads", bridge(nets, first, second, ("led", len(nets[second].pins)), second))]


def faults(board: Board) -> list[Fault]:
    """By nets in the order of the board file: its pins' opens, its pull, stuck at 0 and 1, bridges with later nets."""
    nets, found = board.nets, []
    for place, net in enumerate(nets):
        for pin in net.pins:
            ways = [Way(f"at {bit}", open_pin(nets, place, pin, bit)) for bit in (0, 1)]
            found.append(Fault("opens", f"open {board.parts[pin[0]].name}.{spelt(pin[1])}", ways, (place,)))
        if net.pull != "none":
            turned = net._replace(pull="down" if net.pull == "up" else "up")
            found.append(Fault("pulls", f"pull {net.name}", [Way("", with_nets(nets, place, turned))], (place,)))
        for bit in (0, 1):
            stuck = [Way("", with_nets(nets, place, net._replace(rule=("tied", bit))))]
            found.append(Fault("stuck", f"stuck {net.name} at {bit}", stuck, (place,)))
        for later in range(place + 1, len(nets)):
            name = f"short {net.name} {nets[later].name}"
            found.append(Fault("shorts", name, bridge_ways(nets, place, later), (place, later)))
    return found


def is_loop(board: Board, fault: Fault) -> bool:
    """Whether a net depends on itself by strings once two are bridged."""
    return fault.kind == "shorts" and follow.first_on_circle(board.parts, fault.ways[0].nets) is not None


# Which ways can show

def driver(device: bsdl.Device, port: tuple) -> bsdl.Cell | None:
    return next((cell for cell in device.cells if cell.function in bsdl.DRIVING and cell.port == port), None)


def drives_of(device: bsdl.Device, port: tuple) -> set:
    """What a pin's cell can drive: nothing; either bit, of its own control the enabling one; what it leaves else."""
    cell = driver(device, port)
    if cell is None:
        return {None}
    bits = {0, 1}
    drives: set = {None}
    if cell.control is not None:
        if cell.control.cell == cell.number:
            bits = {1 - cell.control.disabling}
        drives.add(RESULT_DRIVES.get(cell.control.result))
    return drives | {("strong", bit) for bit in bits}


def is_read(board: Board, pin: tuple) -> bool:
    """Whether a cell sees the pin, or a string has it as its source."""
    part, port = board.parts[pin[0]], pin[1]
    return (any(cell.function in bsdl.SEEING and cell.port == port for cell in part.device.cells)
            or any(string.source == port for string in part.follows))


def choices(board: Board, pins: list[tuple]) -> set[frozenset]:
    """The sets of drives that these pins can have together."""
    sets = {frozenset()}
    for pin in pins:
        options = drives_of(board.parts[pin[0]].device, pin[1])
        sets = {drives | ({drive} - {None}) for drives in sets for drive in options}
    return sets


def reads(level: str) -> int:
    return int(level in ("One", "Float"))


def can_show(board: Board, fault: Fault, way: Way) -> bool:
    """Whether some drives make a pin of the fault's nets that is read see another bit with the fault than without.

    The pins are in groups that stay together: those of each net with the fault that stand on one net without it.
    """
    before = [board.nets[place] for place in fault.places]
    after = [net for net in way.nets if set(net.pins) & {pin for its in before for pin in its.pins}]
    groups = [[pin for pin in net.pins if pin in its.pins] for its in before for net in after]
    groups = [group for group in groups if group]
    return differs(board, before, after, groups, [])


def differs(board: Board, before: list[Net], after: list[Net], groups: list, chosen: list) -> bool:
    if len(chosen) < len(groups):
        return any(differs(board, before, after, groups, chosen + [drives])
                   for drives in choices(board, groups[len(chosen)]))
    for group in groups:
        pins = [pin for pin in group if is_read(board, pin)]
        if pins and level_among(before, pins[0], groups, chosen) != level_among(after, pins[0], groups, chosen):
            return True
    return False


def level_among(nets: list[Net], pin: tuple, groups: list, chosen: list) -> int:
    """What the pin reads, the pins of each group having these drives together; the leading pins are whole groups."""
    net = next(net for net in nets if pin in net.pins)
    placed = [(place, drive) for place, its_pin in enumerate(net.pins)
              for group, drives in zip(groups, chosen) if its_pin in group for drive in drives]
    return reads(net_level(net, placed))


# What a program catches

def plays(board: Board, program: Program, nets: list[Net], to_the_end: bool = True) -> list[str]:
    """The bits that fail on the board with these nets, from power-up; or those of the first scan that has any."""
    whole, found = WholeBoard(board._replace(nets=nets)), []
    for step in program.steps:
        out = whole.command(step)
        if isinstance(step, ScanStep):
            found += failing(step, zip(step.vector, out))
            if found and not to_the_end:
                break
    return found


def contentions(board: Board, program: Program) -> list[str]:
    """Each net of which two strong drivers disagree after a step, once, at the first."""
    whole, told = WholeBoard(board), {}
    for step in program.steps:
        whole.command(step)
        for place in whole.levels().contending():
            told.setdefault(place, f"contends command {step.number} net {board.nets[place].name}")
    return list(told.values())


class Judged(NamedTuple):
    """Of each way the bits that fail on the board with it, up to the first scan that has any, or None where it cannot show.

    There is None in place of them all where the fault is a bridge that cannot be judged.
    """
    fault: Fault
    found: list | None


def judge(board: Board, program: Program) -> list[Judged]:
    return [Judged(fault, None if is_loop(board, fault) else [judge_way(board, program, fault, way) for way in fault.ways])
            for fault in faults(board)]


def judge_way(board: Board, program: Program, fault: Fault, way: Way) -> list[str] | None:
    found = plays(board, program, way.nets, to_the_end=False)
    if can_show(board, fault, way):
        return found
    assert not found, "an invisible way is caught"
    return None


def verdict_of(judged: Judged) -> str:
    showing = [found for found in judged.found if found is not None]
    if not showing:
        return "invisible"
    return "caught" if all(showing) else "missed"


def way_lines(judged: Judged) -> list[str]:
    lines = []
    for way, found in zip(judged.fault.ways, judged.found):
        name = f"{judged.fault.name} {way.name}".rstrip()
        if found is None:
            lines.append(f"invisible {name}")
        elif found:
            lines.append(f"caught {name} {found[0][len('fail '):]}")
        else:
            lines.append(f"missed {name}")
    return lines


def missed_line(judged: Judged) -> str:
    showing = [(way, found) for way, found in zip(judged.fault.ways, judged.found) if found is not None]
    missed = [way.name for way, found in showing if not found]
    return " ".join([f"missed {judged.fault.name}"] + (missed if len(missed) < len(showing) else []))


def cover(board: Board, program: Program) -> tuple[Answer, Answer]:
    """What is told of a program's faults, and what is told with every way of every fault listed."""
    failures = plays(board, program, board.nets)
    if failures:
        failed = Answer("".join(line + "\n" for line in verdict(failures, False)), "", 1)
        return failed, failed
    contends, judged = contentions(board, program), judge(board, program)
    return told(contends, judged, False), told(contends, judged, True)


def told(contends: list[str], judged: list[Judged], listed: bool) -> Answer:
    verdicts = [(its.fault.kind, verdict_of(its)) for its in judged if its.found is not None]
    loops = [its for its in judged if its.found is None]
    missed = [missed_line(its) for its in judged if its.found is not None and verdict_of(its) == "missed"]
    lines = list(contends)
    if listed:
        for its in judged:
            lines += [f"loop {its.fault.name}"] if its.found is None else way_lines(its)
    else:
        lines += missed[:MOST_LISTED]
    for kind in KINDS:
        counts = [sum(1 for its in verdicts if its == (kind, word)) for word in ("caught", "missed", "invisible")]
        lines.append(f"{kind} caught {counts[0]} missed {counts[1]} invisible {counts[2]}")
    if loops:
        lines.append(f"loops {len(loops)}")
    return Answer("".join(line + "\n" for line in lines), "", int(bool(missed or contends)))


def tried(board: Board, program: Program) -> list[tuple[Fault, list[list[str]]]]:
    """Each fault with which the board has a meaning, and of each of its ways all the bits that fail."""
    return [(fault, [plays(board, program, way.nets) for way in fault.ways])
            for fault in faults(board) if not is_loop(board, fault)]


def diagnosis(found: list[tuple[Fault, list[list[str]]]], said: list[str], to_the_end: bool) -> Answer:
    """The faults that give exactly these bits, `said` being what a play told of them."""
    lines = []
    for fault, ways in found:
        fits = [verdict(failures, to_the_end) == said for failures in ways]
        names = [way.name for way, its in zip(fault.ways, fits) if its]
        if names:
            lines.append(" ".join([fault.name] + (names if len(names) < len(fits) else [])))
    if not lines:
        return Answer("none: no single fault gives these bits\n", "", 1)
    return Answer("".join(line + "\n" for line in lines), "", 0)


def read_files(name: str) -> Board:
    """The board of a file, whose descriptions are found from here.  It needs Python 3.11."""
    import tomllib
    with open(name, "rb") as file:
        tree = tomllib.load(file)
    files = {}
    for table in tree["device"]:
        with open(table["bsdl"], "rb") as file:
            files[table["bsdl"]] = file.read()
    return read_board(tree, files)


def main() -> int:
    parser = argparse.ArgumentParser(description=__doc__.splitlines()[0])
    parser.add_argument("board")
    parser.add_argument("svf")
    parser.add_argument("--list", action="store_true", help="tell every way of every fault")
    parser.add_argument("--like", metavar="OTHER_BOARD", help="tell which faults give the bits that fail there")
    words = parser.parse_args()
    board = read_files(words.board)
    with open(words.svf, "rb") as file:
        program = accept(file.read())
    if words.like:
        other = read_files(words.like)
        answer = diagnosis(tried(board, program), verdict(plays(other, program, other.nets), True), True)
    else:
        answer = cover(board, program)[words.list]
    print(answer.out, end="")
    return answer.status


if __name__ == "__main__":
    sys.exit(main())
