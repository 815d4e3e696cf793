"""Compares a program with the reference model on made-up inputs.

    compare.py PROGRAM [KIND ..] [--cases N] [--from N]    compares N cases of each kind
    compare.py PROGRAM --show KIND NUMBER [--waves]        prints a case's input and both answers
    compare.py PROGRAM --describe BOARD ..                 compares what is told of board files
    compare.py PROGRAM --diagnose BOARD SVF                compares what is told of the log of every way of every fault
    compare.py PROGRAM [KIND ..] --waves [--cases N] [--from N]    compares the waves of short plays
"""

from __future__ import annotations

import argparse
import json
import os
import subprocess
import sys
import tempfile
from typing import NamedTuple

import coverage
import program
import reasons
from inputs import COVER_KINDS, DIAGNOSE_KINDS, KINDS, WAVE_KINDS, Case, case_of
from refusal import Refusal
from waves import Asked, waves, without_strings

CASES = 450
WAVE_CASES = 40
COVER_CASES = 200
MANY_CASES = 6
DIAGNOSE_CASES = 100
LONGEST_PLAY = 60_000  # bits and cycles; a longer program is checked and not played
LONGEST_WAVE = 2_000  # and its waves are not compared
TIMEOUT = 60
BOARD_FILE = "board.toml"
WAVE_FILE = "waves.vcd"
WORDS = {"check": ["check"], "check, explained": ["check", "--explain"], "play": ["play", "--bytes"],
         "play to the end": ["play", "--bytes", "--all"],
         "describe": ["describe"], "waves": ["play", "--vcd", WAVE_FILE],
         "waves to the end": ["play", "--all", f"--vcd={WAVE_FILE}"],
         "waves, noted": ["play", "--vcd-fails", "--vcd", WAVE_FILE],
         "waves to the end, noted": ["play", "--all", "--vcd-fails", "--vcd", WAVE_FILE],
         "waves, noted and plain": ["play", "--vcd-plain", "--vcd-fails", "--vcd", WAVE_FILE],
         "waves with names": ["play", "--vcd", WAVE_FILE, "--vcd-names"],
         "waves with TDOs": ["play", "--all", "--vcd-tdo", "--vcd", WAVE_FILE],
         "waves with drives": ["play", "--all", "--vcd-drives", "--vcd", WAVE_FILE],
         "waves with all": ["play", "--vcd-names", "--vcd-fails", "--vcd-tdo", "--vcd-drives", "--vcd", WAVE_FILE],
         "waves with all, plain": ["play", "--vcd-names", "--vcd-fails", "--vcd-tdo", "--vcd-drives", "--vcd-plain",
                                   "--vcd", WAVE_FILE],
         "reasons": ["play", "--all", "--explain"], "cover": ["cover"], "cover, listed": ["cover", "--list"]}


def toml(value) -> str:
    """A value of TOML: its strings may be written as JSON's are."""
    if isinstance(value, dict):
        return "{" + ", ".join(f"{toml(key)} = {toml(its_value)}" for key, its_value in value.items()) + "}"
    if isinstance(value, list):
        return "[" + ", ".join(map(toml, value)) + "]"
    return json.dumps(value, ensure_ascii=False)


def toml_text(tree: dict) -> str:
    """The tables as a text: what can be an array of tables is written as one."""
    lines, sections = [], []
    for key, value in tree.items():
        if isinstance(value, list) and value and all(isinstance(table, dict) for table in value):
            for table in value:
                sections.append(f"[[{toml(key)}]]")
                sections += [f"{toml(its_key)} = {toml(its_value)}" for its_key, its_value in table.items()]
        else:
            lines.append(f"{toml(key)} = {toml(value)}")
    return "".join(line + "\n" for line in lines + sections)


def expected(case: Case) -> dict[str, program.Answer]:
    """By command, what the program should print; a long program isn't played, and a board is described whatever its program."""
    answers = {} if case.tree is None else {"describe": program.described(case.tree, case.files)}
    try:
        board, its_program = program.read(*case)
    except Refusal as refusal:
        refused = program.refused(refusal)
        if refusal.second:
            answers["check, explained"] = refused._replace(err=f"{refused.err}{refusal.second}\n")
        return {**dict.fromkeys(("check", "play", "play to the end"), refused), **answers}
    answers["check"] = program.check(board, its_program)
    if length_of(its_program) <= LONGEST_PLAY:
        answers["play"] = program.play(board, its_program)
        if answers["play"].status:  # a play that passes is the same to the end
            answers["play to the end"] = program.play(board, its_program, to_the_end=True)
            answers["reasons"] = reasons.explain(board, its_program, case.text, to_the_end=True)
    return answers


def length_of(its_program: program.Program) -> int:
    """The bits and cycles of a program."""
    return sum(len(getattr(step, "vector", ())) + getattr(step, "cycles", 0) for step in its_program.steps)


def expected_waves(case: Case) -> dict[str, program.Answer]:
    """By command, the waves that the program should draw, with its status; nothing of a refused or a long program."""
    try:
        board, its_program = program.read(*case)
    except Refusal:
        return {}
    if length_of(its_program) > LONGEST_WAVE:
        return {}
    ends = {"waves": (False, Asked()), "waves to the end": (True, Asked()), "waves, noted": (False, Asked(noted=True)),
            "waves to the end, noted": (True, Asked(noted=True)), "waves with names": (False, Asked(names=True)),
            "waves with TDOs": (True, Asked(tdos=True)), "waves with drives": (True, Asked(drives=True)),
            "waves with all": (False, Asked(True, True, True, True))}
    drawn = {command: program.play(board, its_program, end)._replace(out=waves(board, case.text, end, asked))
             for command, (end, asked) in ends.items()}
    noted = drawn["waves, noted"]
    nameless = waves(board, case.text, False, Asked(noted=True, tdos=True, drives=True))
    return drawn | {"waves, noted and plain": noted._replace(out=without_strings(noted.out)),
                    "waves with all, plain": noted._replace(out=without_strings(nameless))}


def expected_covers(case: Case) -> dict[str, program.Answer]:
    """By command, what should be told of the faults of the board that the program would miss."""
    commands = ("cover", "cover, listed")
    try:
        return dict(zip(commands, coverage.cover(*program.read(*case))))
    except Refusal as refusal:
        return dict.fromkeys(commands, program.refused(refusal))


class Diagnose(NamedTuple):
    """The command that tells which faults give what this log says."""
    log: str

    def __str__(self) -> str:
        return f"diagnose of {shortened(self.log, 200)}"


def expected_diagnoses(case: Case) -> dict[Diagnose, program.Answer]:
    """By log, what should be told of it: of each log that a fault of the board gives, played to the end or not."""
    try:
        board, its_program = program.read(*case)
    except Refusal as refusal:
        return {Diagnose("pass\n"): program.refused(refusal)}
    found, answers = coverage.tried(board, its_program), {}
    played = program.play(board, its_program, to_the_end=True).out.splitlines()
    around = played[:1], played[len(played) - len(board.parts) - len(board.nets):]
    for to_the_end in (True, False):
        for said in {tuple(program.verdict(failures, to_the_end)): None for _, ways in found for failures in ways}:
            log = "".join(line + "\n" for line in [*around[0], *said, *around[1]])
            answers[Diagnose(log)] = coverage.diagnosis(found, list(said), to_the_end)
    return answers


def obtained(path: str, command: str | Diagnose, case: Case, folder: str) -> program.Answer:
    """What the program prints, its files being in the folder, or the waves that it draws."""
    text, words = case.text, WORDS.get(command)
    if isinstance(command, Diagnose):
        text, words = command.log.encode(), ["diagnose", "./-"]
    words = [path, *words] + ([] if case.tree is None else ["--board", BOARD_FILE])
    try:
        done = subprocess.run(words, input=text, cwd=folder, capture_output=True, timeout=TIMEOUT)
    except subprocess.TimeoutExpired:
        return program.Answer("", f"hangs for {TIMEOUT} seconds", -1)
    drawn = os.path.join(folder, WAVE_FILE)
    content = done.stdout
    if os.path.exists(drawn):
        with open(drawn, "rb") as file:
            content = file.read()
        os.remove(drawn)
    out, err = (stream.decode("utf-8", "replace") for stream in (content, done.stderr))
    return program.Answer(out, err, done.returncode)


def input_files(case: Case) -> dict[str, bytes]:
    """The input files of a case by name; the program's text has the name `-`."""
    board = {} if case.tree is None else {BOARD_FILE: toml_text(case.tree).encode()}
    return {**case.files, **board, "-": case.text}


def both_answers(path: str, case: Case, expect) -> list[tuple]:
    """By command: its name, the program's answer and the expected one."""
    with tempfile.TemporaryDirectory() as folder:
        for name, content in input_files(case).items():
            with open(os.path.join(folder, name), "wb") as file:
                file.write(content)
        return [(command, obtained(path, command, case, folder), answer)
                for command, answer in expect(case).items()]


def shortened(value, most: int) -> str:
    text = repr(value)
    return text if len(text) <= most else f"{text[:most // 2]} ... {text[-most // 2:]}"


def compare(path: str, kind: str, numbers: range, expect) -> int:
    """Compare some cases of a kind; the number of those that differ."""
    differing = answered = 0
    for number in numbers:
        case = case_of(kind, number)
        both = both_answers(path, case, expect)
        different = [answers for answers in both if answers[1] != answers[2]]
        differing += bool(different)
        answered += bool(both)
        for command, got, wanted in different:
            print(f"{kind} {number} {command} differs")
            for what, value in (("input", input_files(case)), ("program", got), ("expected", wanted)):
                print(f"  {what}: {shortened(value, 400)}")
    what = f"waves of {kind}: {answered} plays" if expect is expected_waves else f"{kind}: {len(numbers)} cases"
    print(f"{what}, {differing} differ", flush=True)
    return differing


def read_case(board: str, svf: str | None) -> Case:
    """The case of a board file, whose descriptions are found from here, and of a program. It needs Python 3.11."""
    import tomllib
    with open(board, "rb") as file:
        tree = tomllib.load(file)
    files = {}
    for table in tree["device"]:
        with open(table["bsdl"], "rb") as file:
            files[table["bsdl"]] = file.read()
    if svf is None:
        return Case(b"", tree, files)
    with open(svf, "rb") as file:
        return Case(file.read(), tree, files)


def compare_diagnoses(path: str, board: str, svf: str) -> int:
    """Compare what is told of each log that a fault of a board gives; how many differ."""
    case = read_case(board, svf)
    flat = Case(case.text, {**case.tree, "device": [{**table, "bsdl": os.path.basename(table["bsdl"])}
                                                    for table in case.tree["device"]]},
                {os.path.basename(name): text for name, text in case.files.items()})
    both = both_answers(path, flat, expected_diagnoses)
    for command, got, wanted in both:
        if got != wanted:
            print(f"{command} differs\n  program: {shortened(got, 400)}\n  expected: {shortened(wanted, 400)}")
    differing = sum(1 for _, got, wanted in both if got != wanted)
    print(f"logs of {board}: {len(both)} diagnosed, {differing} differ", flush=True)
    return differing


def compare_boards(path: str, names: list[str]) -> int:
    """Compare what is told of board files, whose descriptions are found from here; how many differ."""
    differing = 0
    for name in names:
        case = read_case(name, None)
        wanted = program.described(case.tree, case.files)
        done = subprocess.run([path, "describe", "--board", name], capture_output=True, timeout=TIMEOUT)
        got = program.Answer(done.stdout.decode(), done.stderr.decode(), done.returncode)
        if got != wanted:
            differing += 1
            print(f"{name} is told otherwise\n  program: {shortened(got, 400)}\n  expected: {shortened(wanted, 400)}")
    print(f"board files: {len(names)} described, {differing} differ", flush=True)
    return differing


def show(path: str, kind: str, number: int, expect) -> None:
    case = case_of(kind, number)
    for name, content in input_files(case).items():
        print(f"--- {name}\n{content.decode('utf-8', 'backslashreplace')}")
    for command, got, wanted in both_answers(path, case, expect):
        for who, answer in (("program", got), ("expected", wanted)):
            print(f"--- {command}, {who}, status {answer.status}\n{answer.out}{answer.err}")


def main() -> int:
    parser = argparse.ArgumentParser(description=__doc__.splitlines()[0])
    parser.add_argument("program")
    parser.add_argument("kinds", nargs="*", metavar="KIND", 
                        help=", ".join({**KINDS, **COVER_KINDS, **DIAGNOSE_KINDS, **WAVE_KINDS}))
    parser.add_argument("--cases", type=int, metavar="N")
    parser.add_argument("--from", type=int, default=0, metavar="N", dest="start")
    parser.add_argument("--waves", action="store_true", help="compare the waves of short plays")
    parser.add_argument("--show", nargs=2, metavar=("KIND", "NUMBER"))
    parser.add_argument("--describe", nargs="+", metavar="BOARD")
    parser.add_argument("--diagnose", nargs=2, metavar=("BOARD", "SVF"))
    words = parser.parse_args()
    path = os.path.abspath(words.program)
    if words.describe:
        return int(compare_boards(path, words.describe) > 0)
    if words.diagnose:
        return int(compare_diagnoses(path, *words.diagnose) > 0)
    if words.show:
        show(path, words.show[0], int(words.show[1]), way_of(words.show[0], words.waves)[0])
        return 0
    differing = 0
    for kind in words.kinds or (WAVE_KINDS if words.waves else {**KINDS, **COVER_KINDS, **DIAGNOSE_KINDS}):
        expect, usual = way_of(kind, words.waves)
        numbers = range(words.start, words.start + (usual if words.cases is None else words.cases))
        differing += compare(path, kind, numbers, expect)
    return int(differing > 0)


def way_of(kind: str, as_waves: bool) -> tuple:
    """How a kind is compared: what says the expected answers, and the usual number of cases."""
    if as_waves:
        return expected_waves, WAVE_CASES
    if kind in DIAGNOSE_KINDS:
        return expected_diagnoses, DIAGNOSE_CASES
    if kind in COVER_KINDS:
        return expected_covers, MANY_CASES if kind == "many_covers" else COVER_CASES
    return expected, CASES


if __name__ == "__main__":
    sys.exit(main())
