"""What the program prints: the lines of `check [--board FILE]`, of `describe --board FILE` and of `play [--board FILE] --bytes [--all]`.

A play is made twice, by edges and by whole registers, and both must agree.
"""

from __future__ import annotations

from typing import NamedTuple

from board import BARE, Board, EdgeBoard, WholeBoard, read_board
from controller import NEXT, default_path, path_from_exit1
from described import describe
from places import second_line
from refusal import Refusal
from svf import GoStep, PathStep, Program, RunStep, ScanStep, TrstStep, accept

OPENING = "r26262626260"
TRST_BYTES = {"ON": "t26262626260", "OFF": "r", "Z": "r", "ABSENT": ""}
MOST_LISTED = 256


class Answer(NamedTuple):
    out: str
    err: str
    status: int


def read(text: bytes, tree: dict | None, files: dict[str, bytes]) -> tuple[Board, Program]:
    """The board of the board file's tables (the bare one if there are none) and the program, or a refusal.

    The board is judged before the text.
    """
    board = BARE if tree is None else read_board(tree, files)
    try:
        return board, accept(text)
    except Refusal as refusal:
        refusal.second = second_line(text, *refusal.value)
        raise


def refused(refusal: Refusal) -> Answer:
    return Answer("", f"{refusal}\n", 2)


def described(tree: dict, files: dict[str, bytes]) -> Answer:
    try:
        return Answer(describe(read_board(tree, files), tree), "", 0)
    except Refusal as refusal:
        return refused(refusal)


def check(board: Board, program: Program) -> Answer:
    lines = [f"accepted {program.statements} statements {len(program.steps)} steps"]
    lines += [f"{part.name} treats {name} as BYPASS"
              for part in board.parts for name in part.device.left_out()]
    return Answer("".join(line + "\n" for line in lines), "", 0)


def play(board: Board, program: Program, to_the_end: bool = False) -> Answer:
    sent, failures, edges = play_by_edges(board, program, to_the_end)
    whole_failures, whole = play_by_registers(board, program, to_the_end)
    assert failures == whole_failures, "the two ways of moving the board give different failures"
    assert all(one.registers() == other.registers() for one, other in zip(edges.chips, whole.chips)), \
        "the two ways of moving the board leave different registers"
    assert (set(edges.states), edges.trst, edges.clock) == ({whole.place}, whole.trst, 0), \
        "the two ways of moving the board leave it in different places"
    levels, whole_levels = edges.levels(), whole.levels()
    assert (levels.named, levels.cores) == (whole_levels.named, whole_levels.cores), \
        "levels and cores by ranks aren't those by rounds"
    lines = [f"bytes {sent}"] + verdict(failures, to_the_end)
    for part, chip, state in zip(board.parts, edges.chips, edges.states):
        latch = "".join(str(bit) for bit in reversed(chip.latch))
        lines.append(f"{part.name} {state} {latch} {chip.instruction or '-'}")
    lines += [f"{net.name} {level}" for net, level in zip(board.nets, levels.named)]
    return Answer("".join(line + "\n" for line in lines), "", 1 if failures else 0)


def verdict(failures: list[str], to_the_end: bool) -> list[str]:
    """The first failure; of a play to the end the first ones, and how many there were."""
    if not failures:
        return ["pass"]
    return failures[:MOST_LISTED] + [f"failures {len(failures)}"] if to_the_end else failures[:1]


def failing(step: ScanStep, wanted_and_got) -> list[str]:
    """The bits of a scan that aren't as wanted, in the order of the vector."""
    return [f"fail command {step.number} {bit.part} bit {bit.place}"
            for bit, got in wanted_and_got if bit.want not in (None, got)]


def play_by_edges(board: Board, program: Program, to_the_end: bool) -> tuple[str, list[str], EdgeBoard]:
    """The bytes of the opening, of the steps (up to the first that fails) and `Q`; failures; board left."""
    edges, sent, place, failures = EdgeBoard(board), [OPENING], "RESET", []
    for byte in OPENING:
        edges.byte(byte)
    for step in program.steps:
        sent.append(step_bytes(place, step))
        answers = [answer for answer in map(edges.byte, sent[-1]) if answer is not None]
        place = place_after(place, step)
        if isinstance(step, ScanStep):
            wanted = [bit for bit in step.vector if bit.want is not None]
            assert len(wanted) == len(answers), "a scan asks for other bits than the wanted ones"
            failures += failing(step, zip(wanted, answers))
            if failures and not to_the_end:
                break
    return "".join(sent) + "Q", failures, edges


def play_by_registers(board: Board, program: Program, to_the_end: bool) -> tuple[list[str], WholeBoard]:
    """The failures, and the board left; the opening leaves a fresh board as it is."""
    whole, failures = WholeBoard(board), []
    for step in program.steps:
        out = whole.command(step)
        if isinstance(step, ScanStep):
            failures += failing(step, zip(step.vector, out))
            if failures and not to_the_end:
                break
    return failures, whole


# Bytes

def cycle(tms: int, tdi: int = 0, asks: bool = False) -> str:
    """One cycle of TCK: the low byte, `R` where a bit is wanted, the high byte."""
    low = 2 * tms + tdi
    return f"{low}R{low + 4}" if asks else f"{low}{low + 4}"


def walk(place: str, path: list[str]) -> str:
    """One cycle for each state entered."""
    return "".join(cycle(NEXT[before].index(state)) for before, state in zip([place] + path, path))


def step_bytes(place: str, step) -> str:
    """The bytes of a step from its resting place; `0` closes a step that made cycles."""
    if isinstance(step, TrstStep):
        return TRST_BYTES[step.word]
    if isinstance(step, ScanStep):
        sent = scan_bytes(place, step)
    elif isinstance(step, GoStep):
        sent = walk(place, default_path(place, step.end))
    elif isinstance(step, PathStep):
        sent = walk(place, step.path)
    else:
        sent = run_bytes(place, step)
    return sent and sent + "0"


def scan_bytes(place: str, step: ScanStep) -> str:
    """To the Shift state, a cycle for each bit with TMS 1 on the last, and from Exit1 to the end state."""
    last = len(step.vector) - 1
    bits = (cycle(int(at == last), bit.tdi, bit.want is not None) for at, bit in enumerate(step.vector))
    return (walk(place, default_path(place, step.column + "SHIFT")) + "".join(bits)
            + walk(step.column + "EXIT1", path_from_exit1(step.column, step.end)))


def run_bytes(place: str, step: RunStep) -> str:
    """To the run state, the cycles there, and to the end state; no move to a state where the board is."""
    sent = "" if place == step.run else walk(place, default_path(place, step.run))
    sent += cycle(int(step.run == "RESET")) * step.cycles
    return sent + ("" if step.end == step.run else walk(step.run, default_path(step.run, step.end)))


def place_after(place: str, step) -> str:
    """The resting place after a step."""
    if isinstance(step, TrstStep):
        return "RESET" if step.word == "ON" else place
    return step.path[-1] if isinstance(step, PathStep) else step.end
