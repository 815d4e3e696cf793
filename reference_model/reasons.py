"""What `play --explain` adds behind the line of each failing bit.

That is where its statement starts, what was wanted, and where the bit came from. Each bit of the joined registers and
of the vector behind them has a label, which moves through the scan as the bit does.
"""

from __future__ import annotations

import bsdl
from board import Board, Chip, Levels, WholeBoard
from described import spelt
from program import MOST_LISTED, Answer, play
from svf import Program, ScanStep


def explain(board: Board, program: Program, text: bytes, to_the_end: bool = False) -> Answer:
    """What a play prints with its reasons, without the bytes."""
    plain = play(board, program, to_the_end)
    lines = plain.out.splitlines()[1:]
    told = reasons(board, program, starts(text))
    out = []
    for line in lines:
        out.append(line)
        if line.startswith("fail "):
            out += next(told)
    return plain._replace(out="".join(line + "\n" for line in out))


def starts(text: bytes) -> list[tuple[int, int]]:
    """The line and column at which each statement starts: the first token behind a `;` that is none itself."""
    found, is_open, in_comment, line, column = [], False, False, 1, 1
    for at, byte in enumerate(text):
        if byte in b"\r\n":
            in_comment = False
        elif byte in b"!" or text[at:at + 2] == b"//":
            in_comment = True
        elif not in_comment and byte not in b" \t\v\f":
            if byte in b";":
                is_open = False
            elif not is_open:
                is_open = True
                found.append((line, column))
        if byte in b"\r\n":
            # A line feed behind a carriage return ends no second line.
            line += 0 if text[at - 1:at + 1] == b"\r\n" else 1
            column = 1
        else:
            column += 1
    return found


def reasons(board: Board, program: Program, places: list[tuple[int, int]]):
    """The lines behind each failing bit, one bit after another, up to the last that is listed."""
    whole, count = WholeBoard(board), 0
    for step in program.steps:
        if not isinstance(step, ScanStep):
            whole.command(step)
            continue
        whole.settle()
        levels = whole.levels()
        whole.capture(step.column)
        labels = [line for part, chip in zip(board.parts, whole.chips)
                  for line in labels_of(part.name, board, whole, chip, step.column, levels)]
        labels += [f"TDI {bit.part} bit {bit.place}" for bit in step.vector]
        out = whole.shift(step.column, [bit.tdi for bit in step.vector])
        for bit, got, label in zip(step.vector, out, labels):
            if bit.want not in (None, got):
                line, column = places[step.number - 1]
                yield [f"at line {line} column {column}", f"wanted {bit.want} got {got}", f"from {label}"]
                count += 1
                if count == MOST_LISTED:
                    return
        if step.end == step.column + "PAUSE":
            whole.place = step.end
        else:
            whole.update(step.column)
            whole.arrive(step.end)


def labels_of(name: str, board: Board, whole: WholeBoard, chip: Chip, column: str, levels: Levels) -> list[str]:
    """What holds each bit of the register that a device has between TDI and TDO, once it has captured."""
    register = chip.register(column)
    if register == "boundary":
        place = whole.chips.index(chip)
        return [f"{name} boundary cell {cell.number} {cell_label(board, chip, place, cell, levels)}"
                for cell in chip.device.cells]
    if register == "bypass":
        return [f"{name} bypass by {bypass_label(chip)}"]
    if register not in ("instruction", "identification"):
        # The accesses are kept from the last on; one without a length selects a register of the standard.
        first = [own for own, access in chip.device.accesses.items()
                 if access.register == register and access.length is not None][-1]
        register = f"register of {first}"
    return [f"{name} {register} bit {bit}" for bit in range(len(chip.stage(column)))]


def bypass_label(chip: Chip) -> str:
    if chip.instruction is None:
        return "an opcode without an instruction"
    return f"instruction {chip.instruction}" + \
        (" which stands for BYPASS" if chip.device.is_left_out(chip.instruction) else "")


def cell_label(board: Board, chip: Chip, place: int, cell: bsdl.Cell, levels: Levels) -> str:
    """A cell's function and port, and what it captured: what its port sees, its update bit, or its core's bit."""
    label = cell.function.lower() + (f" port {spelt(cell.port)}" if cell.port else "")
    if cell.function in bsdl.SEEING:
        at = [number for number, net in enumerate(board.nets) if (place, cell.port) in net.pins]
        return label + (f" net {board.nets[at[0]].name} level {levels.named[at[0]]}" if at else " no net")
    takes_update = chip.extest_update and chip.meaning == "EXTEST" and cell.function != "INTERNAL"
    return label + (" captured update" if takes_update else " captured core")
