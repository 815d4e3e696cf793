"""Cores that follow: a board file's strings such as `Q = !D`, and how nets depend on each other by them.

The core bit of the target's driving cell is what the source sees, or its opposite, in place of its own.  So a
string makes the net of its target depend on the net of its source, whatever the instructions are.  A net is
the place of a named one, or the one pin of a port on no net.
"""

from __future__ import annotations

import re
from typing import NamedTuple

import bsdl

PORT = r"([A-Za-z][A-Za-z0-9_]*)(?:\(([0-9]+)\))?"
FORM = re.compile(rf" *({PORT}) *= *(!?) *{PORT} *")  # spaces alone, and none inside a port


class String(NamedTuple):
    """The target as it is spelt and its driving cell, the source's port bit, and whether `!` stands there."""
    target: str
    cell: int
    source: tuple
    inverted: bool


def port_bit(name: str, subscript: str | None) -> tuple:
    """The port bit of the two groups of PORT."""
    return name.upper(), None if subscript is None else bsdl.value_of(subscript)


# What is fit

def has_form(value) -> bool:
    """An array of strings `target = source` or `target = !source`; it may be empty."""
    return isinstance(value, list) and all(
        isinstance(text, str) and FORM.fullmatch(text) is not None for text in value)


def string_of(text: str, device: bsdl.Device) -> String | None:
    """The string of a text of the form, None where one of its ports is unfit.

    The target has a driving cell; the source is a port bit of mode in or inout that isn't the TAP's.
    """
    match = FORM.fullmatch(text)
    target, source = port_bit(match[2], match[3]), port_bit(match[5], match[6])
    cell = next((cell.number for cell in device.cells
                 if cell.function in bsdl.DRIVING and cell.port == target), None)
    if cell is None or source[0] in device.taps or not bsdl.is_bit(device.ports, source):
        return None
    if device.modes[source[0]] not in ("IN", "INOUT"):
        return None
    return String(match[1], cell, source, match[4] == "!")


def fits(texts: list[str], device: bsdl.Device) -> bool:
    """Whether the ports of all strings are fit, and no target has a second string."""
    strings = [string_of(text, device) for text in texts]
    return None not in strings and len({string.cell for string in strings}) == len(strings)


# What depends on what

class Dependence(NamedTuple):
    """A string, the place of its device, and the nets of its target and of its source."""
    part: int
    string: String
    net: object
    source_net: object


def dependences(parts, nets) -> list[Dependence]:
    """All strings, by devices and then in the order of the file."""
    named = {pin: place for place, net in enumerate(nets) for pin in net.pins}

    def net_of(pin):
        return named.get(pin, pin)

    return [Dependence(place, string, net_of((place, part.device.cells[string.cell].port)),
                       net_of((place, string.source)))
            for place, part in enumerate(parts) for string in part.follows]


def source_nets(strings: list[Dependence]) -> dict:
    """By net the nets of the sources of the strings whose targets stand on it."""
    sources: dict = {}
    for string in strings:
        sources.setdefault(string.net, set()).add(string.source_net)
    return sources


def ranks(sources: dict) -> dict:
    """By net its rank: 0 where no target stands on it, else one more than the highest of its sources' nets.

    A net that depends on itself, or on a net that does, has none.
    """
    rank = {net: 0 for nets in sources.values() for net in nets if net not in sources}
    waiting = dict(sources)
    while True:
        ready = [net for net, nets in waiting.items() if all(source in rank for source in nets)]
        if not ready:
            return rank
        rank.update({net: 1 + max(rank[source] for source in waiting[net]) for net in ready})
        for net in ready:
            del waiting[net]


def by_rank(parts, nets) -> list[list[Dependence]]:
    """The strings in groups, by the rank of the net that their targets stand on."""
    strings = dependences(parts, nets)
    rank = ranks(source_nets(strings))
    groups: list = [[] for _ in range(max(rank.values(), default=0))]
    for string in strings:
        groups[rank[string.net] - 1].append(string)
    return groups


def first_on_circle(parts, nets) -> Dependence | None:
    """The first string whose source's net depends, in any number of steps, on its target's net."""
    strings = dependences(parts, nets)
    sources = source_nets(strings)
    rank = ranks(sources)
    for string in strings:
        if string.net not in rank and string.net in depended_on(string.source_net, sources):
            return string
    return None


def depended_on(net, sources: dict) -> set:
    """The nets that this one depends on, itself among them."""
    found, waiting = {net}, [net]
    while waiting:
        more = sources.get(waiting.pop(), set()) - found
        found |= more
        waiting += more
    return found
