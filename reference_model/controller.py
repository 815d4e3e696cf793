"""The controller of a test access port: its sixteen states, their next states, and default paths."""

from __future__ import annotations

NEXT = {
    "RESET": ("IDLE", "RESET"),
    "IDLE": ("IDLE", "DRSELECT"),
    "DRSELECT": ("DRCAPTURE", "IRSELECT"),
    "DRCAPTURE": ("DRSHIFT", "DREXIT1"),
    "DRSHIFT": ("DRSHIFT", "DREXIT1"),
    "DREXIT1": ("DRPAUSE", "DRUPDATE"),
    "DRPAUSE": ("DRPAUSE", "DREXIT2"),
    "DREXIT2": ("DRSHIFT", "DRUPDATE"),
    "DRUPDATE": ("IDLE", "DRSELECT"),
    "IRSELECT": ("IRCAPTURE", "RESET"),
    "IRCAPTURE": ("IRSHIFT", "IREXIT1"),
    "IRSHIFT": ("IRSHIFT", "IREXIT1"),
    "IREXIT1": ("IRPAUSE", "IRUPDATE"),
    "IRPAUSE": ("IRPAUSE", "IREXIT2"),
    "IREXIT2": ("IRSHIFT", "IRUPDATE"),
    "IRUPDATE": ("IDLE", "DRSELECT"),
}
"""By state: the next one after a rising edge of TCK with TMS 0, and with TMS 1.  The words are SVF's."""

STABLE = ("RESET", "IDLE", "DRPAUSE", "IRPAUSE")

FROM_IDLE = {
    "RESET": ["DRSELECT", "IRSELECT", "RESET"],
    "IDLE": ["IDLE"],
    "DRPAUSE": ["DRSELECT", "DRCAPTURE", "DREXIT1", "DRPAUSE"],
    "IRPAUSE": ["DRSELECT", "IRSELECT", "IRCAPTURE", "IREXIT1", "IRPAUSE"],
    "DRSHIFT": ["DRSELECT", "DRCAPTURE", "DRSHIFT"],
    "IRSHIFT": ["DRSELECT", "IRSELECT", "IRCAPTURE", "IRSHIFT"],
}


def default_path(start: str, goal: str) -> list[str]:
    """The states entered from a stable state to a stable or a Shift state.

    A pause is left by its own Exit2 and Update, so that a scan from a pause updates and captures anew.
    """
    if start == "IDLE":
        return FROM_IDLE[goal]
    if start == "RESET":
        return [goal] if goal in ("RESET", "IDLE") else ["IDLE"] + FROM_IDLE[goal]
    return [start[:2] + "EXIT2", start[:2] + "UPDATE"] + FROM_IDLE[goal]


def path_from_exit1(column: str, goal: str) -> list[str]:
    """The states entered from Exit1 of DR or IR: straight to its own pause, else through its Update."""
    return [goal] if goal == column + "PAUSE" else [column + "UPDATE"] + FROM_IDLE[goal]
