"""What `describe` prints of a board: its devices from TDO on with their cores, ports, instructions and cells, its nets,
and where the registers of each device lie in the joined ones."""

from __future__ import annotations

import bsdl
from board import SHOWN, Board, Part


def describe(board: Board, tree: dict) -> str:
    nets = {pin: net.name for net in reversed(board.nets) for pin in net.pins}
    lines = []
    for place, (part, table) in enumerate(zip(board.parts, tree["device"])):
        lines.append(device_line(part, table["bsdl"]))
        lines += setting_lines(part, nets, place)
        lines += instruction_lines(part)
        lines += [cell_line(part, cell, nets, place) for cell in part.device.cells]
    for net in board.nets:
        pins = "".join(f" {board.parts[place].name}.{spelt(port)}" for place, port in net.pins)
        lines.append(f"net {net.name} pull {net.pull}{pins}")
    devices = [part.device for part in board.parts]
    instruction = boundary = 0
    for part in board.parts:
        lines.append(f"{part.name} first instruction bit {instruction} first boundary bit {boundary}")
        instruction += len(part.device.capture)
        boundary += len(part.device.cells)
    lines.append(f"chain {len(devices)} devices, {sum(len(device.capture) for device in devices)} instruction bits, "
                 f"{sum(len(device.cells) for device in devices)} boundary bits")
    return "".join(line + "\n" for line in lines)


def spelt(port: tuple) -> str:
    name, subscript = port
    return name if subscript is None else f"{name}({subscript})"


def device_line(part: Part, file: str) -> str:
    device = part.device
    code = device.codes.get("IDCODE")
    code = "none" if code is None else f"0x{int(code.replace('X', '0'), 2):08X}"
    reset = bsdl.instruction(device.opcodes, device.reset_latch()) or "-"
    capture = device.capture.replace("X", "0")
    return (f"{part.name} bsdl {file.translate(SHOWN)} length {len(capture)} capture {capture} reset {reset} "
            f"idcode {code} trst {'yes' if device.has_trst else 'no'}")


def setting_lines(part: Part, nets: dict, place: int) -> list[str]:
    """The user code, the core (cell 0 last), the strings that it follows, and the port bits."""
    device, lines = part.device, []
    if (code := device.codes.get("USERCODE")) is not None:
        lines.append(f"{part.name} usercode 0x{int(code.replace('X', '0'), 2):08X}")
    core = "".join(str(bit) for bit in reversed(part.core))
    lines.append(f"{part.name} core {core} extest {'update' if part.extest_update else 'core'}")
    for string in part.follows:
        target = device.cells[string.cell].port
        lines.append(f"{part.name} follow {spelt(target)} = {'!' if string.inverted else ''}{spelt(string.source)}")
    for name, subscripts in device.ports.items():
        for port in [(name, None)] if subscripts is None else [(name, subscript) for subscript in sorted(subscripts)]:
            net = nets.get((place, port))
            reach = "tap" if name in device.taps else f"net {net}" if net else "no net"
            lines.append(f"{part.name} port {spelt(port)} {device.modes[name].lower()} {reach}")
    return lines


def instruction_lines(part: Part) -> list[str]:
    device, lines = part.device, []
    for row in device.opcodes:
        for pattern in row.patterns:
            played = played_by(device, pattern)
            if played != row.name:
                end = f" covered by {played}"
            else:
                end = " stands for BYPASS" if device.is_left_out(row.name) else ""
            lines.append(f"{part.name} instruction {row.name} {pattern} register {register(device, played)}{end}")
    return lines


def played_by(device: bsdl.Device, pattern: str) -> str:
    """The instruction that a device plays by an opcode: that of the first opcode with all of its codes. All ones is
    BYPASS before all others."""
    if "X" not in pattern:
        return bsdl.instruction(device.opcodes, [int(digit) for digit in reversed(pattern)])
    return next(row.name for row in device.opcodes for other in row.patterns
                if all(wide in ("X", digit) for wide, digit in zip(other, pattern)))


def register(device: bsdl.Device, name: str) -> str:
    """The register that an instruction selects, a user's by the first that selects it, and its length."""
    access = None if device.is_left_out(name) else device.accesses.get(name)
    if not device.is_left_out(name) and device.codes.get(name) is not None:
        return "identification 32"
    if access and access.length is not None:
        # The accesses are kept from the last on; one without a length selects a register of the standard, whatever its name.
        first = [own for own, its in device.accesses.items()
                 if its.register == access.register and its.length is not None][-1]
        return f"of {first} {access.length}"
    if access and access.register == "DEVICE_ID" and "IDCODE" in device.codes:
        return "identification 32"
    if not device.is_left_out(name) and name in ("EXTEST", "SAMPLE", "PRELOAD") or access and access.register == "BOUNDARY":
        return f"boundary {len(device.cells)}"
    return "bypass 1"


def cell_line(part: Part, cell: bsdl.Cell, nets: dict, place: int) -> str:
    line = f"{part.name} cell {cell.number} {cell.function.lower()}"
    if cell.port:
        net = nets.get((place, cell.port))
        line += f" port {spelt(cell.port)}" + (f" net {net}" if net else " no net")
    if cell.control:
        line += f" control {cell.control.cell} disables {cell.control.disabling} leaves {cell.control.result}"
    return line
