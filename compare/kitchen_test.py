#!/usr/bin/env python3
"""Tries ./kitchen: the examples, faulty texts, texts and bytes that the library refuses, and what is told in names."""

import os
import random
import re
import resource
import shutil
import subprocess
import tempfile
import tomllib
import unittest
from pathlib import Path

ROOT = Path(__file__).resolve().parent.parent
EXAMPLES = sorted({path.parent for path in (ROOT / "examples").rglob("*.bin")})
NAMES = {"sheet.bin", "state.bin", "wish.bin"} | {f"wish{n}.bin" for n in range(2, 9)}

# A text whose lines are not easy to count: prose with brackets and quotes, comments, lists over several lines.
TEXT = '''\
# [machines] of a stove, "all" of them
title = "A stove with [brackets], #1"
about = """
Prose = { with [ signs, a "quote" and ""two"" of them,
\\""" and # no comment. ]
"""
machines = [  # three ] of them
    { name = "board", modes = ["off", "on"] },

    { name = "fan", modes = [
        'off',  # a comment, [
        "on",
    ], about = "over the flame" },
    { name = "burner", modes = ["off", "lit", "tripped"], out_of_order = ["tripped"] },
]
moves = [
    { machine = "board", from = "off", to = "on", command = 1 },
    { machine = "board", from = "on", to = "off", command = 2 },
    { machine = "fan", from = "off", to = "on", command = 1, needs = { burner = "off", board = "on" } },
    { machine = "burner", from = "off", to = "lit", command = 1, needs = { board = ["on"], "fan" = ["off",
        "on"] } },
]
notes = \'\'\'
It's [short] = ''quoted''\'\'\'
tags = [
    "fan",
]
short = ["wish2"]

[state]
board = "on"

fan = "off"
burner = "off"

[wish]
burner = ["off", "lit"]
[ "wish2" ]  # of the pastry cook
board = "on"
'''
SHEET = bytes([2, 0, 1, 0, 2, 3, 2, 0, 1, 0, 2, 3, 2, 0, 1, 0, 3, 3,
               4, 0, 2, 0, 0, 0, 1, 1, 4, 0, 2, 0, 0, 1, 0, 2,
               8, 0, 2, 0, 1, 0, 1, 1, 0, 2, 2, 1, 8, 0, 2, 0, 2, 0, 1, 1, 0, 2, 1, 3, 0, 0, 3, 0])
FILES = {"sheet.bin": SHEET, "state.bin": bytes([1, 0, 0, 1, 0, 0]), "wish.bin": bytes([3, 3, 3]), "wish2.bin": bytes([2])}

# The same with amendments, from line 23 on, the bytes of these, and the clean text.
AMENDED = TEXT.replace("notes = ", """\
amendments = [  # by a fitter
    { machine = "burner", from = "off", to = "lit", command = 1, needs = { fan = "on" } },
    { machine = "board", from = "on", command = 2, withdrawn = true },

    { machine = "burner", from = "off", to = "lit", command = 1, needs = { fan = [
        "on"], board = "on" } },
]
notes = """, 1)
TAIL = bytes([6, 0, 4, 0, 2, 0, 1, 1, 1, 2, 3, 0, 5, 0, 0, 1, 2, 8, 0, 4, 0, 2, 0, 1, 1, 0, 2, 1, 2])
AMENDED_SHEET = SHEET[:-4] + TAIL + SHEET[-4:]
CLEAN = TEXT.replace('    { machine = "board", from = "on", to = "off", command = 2 },\n', "").replace(
    '["off",\n        "on"] } }', '"on" } }')
CLEAN_SHEET = SHEET[:26] + SHEET[34:57] + bytes([2]) + SHEET[-4:]

# What is put in place of what, and all faults that are told: line and reason, or how the reason begins.
A_NAME = "a name must be words on one line, in quotes"
A_BYTE = "a byte must be a whole number from 0 to 255"
FAULTS = [
    ('"off", command = 2', '"off" command = 2', [(18, "Unclosed inline table (at line 18, column 50)")]),
    ('fan = "off"', 'fan = "off"\nfan = "on"', [(34, "Cannot overwrite a value (at line 34, column 11)")]),
    ('board = "on"\n', 'board = "on', [(31, "Illegal character '\\n' (at line 31, column 12)")]),
    ('[ "wish2" ]  # of the pastry cook\nboard = "on"\n', "short =", [(38, "Invalid value (at end of document)")]),
    ('title = "A', 'titel = "A', [(1, "missing: title"), (2, 'unknown: "titel"; known here: title, about, like, ')]),
    ('title = "A stove with [brackets], #1"', "title = 3", [(2, "title must be text in quotes")]),
    ('short = ["wish2"]', 'short = "wish2"', [(28, "short must be a list")]),
    ('short = ["wish2"]', 'short = ["wish", "wish3"]', [(28, 'no wish by names: "wish3"')]),
    ('short = ["wish2"]', 'short = ["wish2",\n "wish2"]', [(29, 'a second "wish2"')]),
    ("moves = [", "move = [", [(1, "missing: moves"), (16, 'unknown: "move"; ')]),
    ('\n    { name = "fan"', '\n    { name = "board"', [(10, 'a second "board"')]),
    ('\n    { name = "fan"', '\n    { name = ""', [(10, A_NAME)]),
    ('\n    { name = "fan"', '\n    { name = "a\\nb"', [(10, A_NAME)]),
    ('\n    { name = "fan"', '\n    { name = 1', [(10, "name must be text in quotes"), (10, A_NAME)]),
    ('\n    { name = "fan"', '\n    { named = "fan"', [(10, 'unknown: "named"; '), (10, "missing: name"), (10, A_NAME)]),
    ('\n    { name = "fan"', '\n    "fan", { name = "fan"', [(10, "a table must stand here: { .. }"), (10, A_NAME)]),
    ('        "on",', '        "off",', [(12, 'a second "off"'), (19, 'fan has no mode "on"'), (21, 'fan has no mode "on"')]),
    ('        "on",', '        1,', [(12, A_NAME), (19, 'fan has no mode "on"'), (21, 'fan has no mode "on"')]),
    ('["off", "lit", "tripped"]', '"off"', [(14, "modes must be a list")]),
    ('modes = ["off", "lit", "tripped"], ', "", [(14, "missing: modes")]),
    ('out_of_order = ["tripped"]', 'out_of_order = ["trip"]', [(14, 'burner has no mode "trip"')]),
    ('out_of_order = ["tripped"]', 'out_of_order = ["tripped", "tripped"]', [(14, 'a second "tripped"')]),
    ('machine = "burner"', 'machine = "burnr"', [(20, 'no machine "burnr"')]),
    ('machine = "burner", from', "from", [(20, "missing: machine")]),
    ('to = "lit"', 'to = "on"', [(20, 'burner has no mode "on"')]),
    ('to = "lit"', 'to = ["lit"]', [(20, "to must be text in quotes")]),
    ('from = "on"', 'from = "ON"', [(18, 'board has no mode "ON"')]),
    ("command = 2", "command = 256", [(18, "command 256 is no byte: 1 to 255")]),
    ("command = 2", "command = -1", [(18, "command -1 is no byte: 1 to 255")]),
    ("command = 2", "command = true", [(18, "command must be a whole number")]),
    ("command = 2", "command = 2.0", [(18, "command must be a whole number")]),
    (", command = 2", "", [(18, "missing: command")]),
    ('{ burner = "off"', '{ boiler = "off"', [(19, 'unknown: "boiler"; known here: board, fan, burner')]),
    ('{ burner = "off"', '{ burner = "of"', [(19, 'burner has no mode "of"')]),
    ('{ burner = "off"', '{ burner = 0', [(19, "burner must be text in quotes or a list")]),
    ('{ burner = "off"', '{ burner = "off", cost.much = 2', [(19, 'unknown: "cost"; ')]),
    ('        "on"] } }', '        "off"] } }', [(21, 'a second "off"')]),
    ('        "on"] } }', '        "no"] } }', [(21, 'fan has no mode "no"')]),
    ('        "on"] } }', '        "on"] }, x = 1979-05-27 07:32:00.5 }', [(21, 'unknown: "x"; ')]),
    ('    "fan",\n]', '    "fan", "lamp" ]', [(26, 'no machine "lamp"')]),
    ('    "fan",\n]', '    "fan",\n    "fan" ]', [(27, 'a second "fan"')]),
    ('\nfan = "off"', "", [(30, "missing: fan")]),
    ('\nfan = "off"', '\nfan = ["off"]', [(33, "fan must be text in quotes")]),
    ('\nfan = "off"', '\nfan = "out"', [(33, 'fan has no mode "out"')]),
    ('\nburner = "off"', '\nburner = "off"\nlamp = "on"', [(35, 'unknown: "lamp"; known here: board, fan, burner')]),
    ('burner = ["off", "lit"]', 'burner = ["off", "out"]', [(37, 'burner has no mode "out"')]),
    ('burner = ["off", "lit"]', 'lamp = ["off", "lit"]', [(37, 'unknown: "lamp"; ')]),
    ('[ "wish2" ]', "[ wish9 ]", [(28, 'no wish by names: "wish2"'), (38, 'unknown: "wish9"; ')]),
    ("[wish]", "[[wish]]", [(36, A_BYTE)]),
    ("[state]\n", "[was]\n", [(25, "tags hang on a state by names, and there is none"), (30, 'unknown: "was"; ')]),
    ("short = [", "wish3 = [1,\n2,\n256]\nshort = [", [(30, A_BYTE)]),
    ("short = [", 'wish3 = [1, "2"]\nshort = [', [(28, A_BYTE)]),
    ("short = [", "wish3 = []\nshort = [", [(28, "a list of bytes must have some")]),
    ("command = 2 }", "command = 2, withdrawn = true }", [(18, 'unknown: "withdrawn"; known here: machine, from, ')]),
]

# The same of the amended text.
AMENDED_FAULTS = [
    ("amendments = [", "amendment = [", [(23, 'unknown: "amendment"; ')]),
    ("amendments = [", "amendments = true #", [(24, "Invalid statement (at line 24, column 5)")]),
    ("amendments = [", 'amendments = "none"\nx = [', [(23, "amendments must be a list"), (24, 'unknown: "x"; ')]),
    ("amendments = [", "amendments = [7,", [(23, "a table must stand here: { .. }")]),
    ('"lit", command = 1, needs = { fan', '"lit", command = 1, command = 1, needs = { fan', [
        (24, "Duplicate inline table key 'command' (at line 24, ")]),
    ("{ fan = \"on\" }", "{ fan = \"high\" }", [(24, 'fan has no mode "high"')]),
    ("{ fan = \"on\" }", "{ hood = \"on\" }", [(24, 'unknown: "hood"; known here: board, fan, burner')]),
    ('"on", command = 2, withdrawn', '"on", command = 256, withdrawn', [(25, "command 256 is no byte: 1 to 255")]),
    ('"on", command = 2, withdrawn', '"on", withdrawn', [(25, "missing: command")]),
    ('"on", command = 2, withdrawn', '"on", command = "2", withdrawn', [(25, "command must be a whole number")]),
    ('"board", from = "on", command', '"borad", from = "on", command', [(25, 'no machine "borad"')]),
    ('"board", from = "on", command', '"board", from = "lit", command', [(25, 'board has no mode "lit"')]),
    ('"board", from = "on", command', '"board", command', [(25, "missing: from")]),
    ('{ machine = "board", from = "on", command', '{ from = "on", command', [(25, "missing: machine")]),
    ('{ machine = "board", from = "on", command', '{ board = "on", command', [
        (25, 'unknown: "board"; known here: machine, from, to, command, needs, withdrawn'),
        (25, "missing: machine"), (25, "missing: from")]),
    ("withdrawn = true", 'withdrawn = true, to = "off"', [(25, "a withdrawn move has no to")]),
    ("withdrawn = true", 'withdrawn = true, needs = {}', [(25, "a withdrawn move has no needs")]),
    ("withdrawn = true", 'withdrawn = true, needs = {}, to = "of"', [
        (25, "a withdrawn move has no to"), (25, "a withdrawn move has no needs"), (25, 'board has no mode "of"')]),
    ("withdrawn = true", "withdrawn = false", [(25, "missing: to")]),
    (", withdrawn = true", "", [(25, "missing: to")]),
    ("withdrawn = true", 'withdrawn = "yes"', [(25, "withdrawn must be true or false")]),
    ("withdrawn = true", "withdrawn = 1", [(25, "withdrawn must be true or false")]),
    ("withdrawn = true", "withdrawed = true", [(25, 'unknown: "withdrawed"; '), (25, "missing: to")]),
    ('"lit", command = 1, needs = { fan = [', '["lit"], command = 1, needs = { fan = [', [(27, "to must be text in quotes")]),
    ('        "on"], board', '        "of"], board', [(28, 'fan has no mode "of"')]),
]


def run(*arguments, told="", root=ROOT, **options):
    """Runs ./kitchen, and gives its status and what it writes."""
    ran = subprocess.run([root / "kitchen", *arguments], input=told, capture_output=True, text=True, timeout=60, **options)
    return ran.returncode, ran.stdout, ran.stderr


def program(name, folder):
    """What a program prints in a folder."""
    return subprocess.run([ROOT / "target/bin" / name], cwd=folder, capture_output=True, text=True, timeout=60, check=True).stdout


def sides(folder):
    """All that stands in a folder."""
    return {path.name: path.read_bytes() if path.is_file() else None for path in folder.iterdir()}


def bytes_in(folder):
    return {name: data for name, data in sides(folder).items() if name.endswith(".bin")}


def machine(name, modes=2, **more):
    """A machine's line of a text."""
    said = "".join(f", {key} = {value}" for key, value in more.items())
    return f'{{ name = "{name}", modes = {[f"m{n}" for n in range(modes)]}{said} }}'


def text_of(machines, moves, rest=""):
    """A text with its machines from line 3 on, and its moves from the second line behind them."""
    machines, moves = ("".join(f"{line},\n" for line in lines) for lines in (machines, moves))
    return f'title = "t"\nmachines = [\n{machines}]\nmoves = [\n{moves}]\n{rest}'


def step(machine="a", start="m0", end="m1", command=1, needs=""):
    """A move's line of a text."""
    return f'{{ machine = "{machine}", from = "{start}", to = "{end}", command = {command}, needs = {{ {needs} }} }}'


def gone(machine="a", start="m0", command=1):
    """The line of a text that withdraws a move."""
    return f'{{ machine = "{machine}", from = "{start}", command = {command}, withdrawn = true }}'


def amended_text(machines, moves, amendments):
    """A text with its amendments from the second line behind its moves."""
    lines = "".join(f"{line},\n" for line in amendments)
    return text_of(machines, moves, f"amendments = [\n{lines}]\n")


def random_amendments(pick):
    """Moves of the machines a and b, amendments of those that stand, and what stands in the end."""
    keys = [(name, start, command) for name in "ab" for start in range(2) for command in range(1, 9)]
    line = lambda key, end, needs: step(key[0], f"m{key[1]}", f"m{end}", key[2], needs)
    some = lambda key: line(key, 1 - key[1], pick.choice(["", f'{"ba"[key[0] == "b"]} = "m{pick.randrange(2)}"']))
    standing = [(key, some(key)) for key in pick.sample(keys, pick.randint(1, 24))]
    moves, amendments = [said for _, said in standing], []
    while standing and len(amendments) < pick.randint(1, 40):
        place = pick.randrange(len(standing))
        key, _ = standing[place]
        if pick.randrange(2):
            standing[place] = key, some(key)
            amendments.append(standing[place][1])
        else:
            del standing[place]
            amendments.append(gone(key[0], f"m{key[1]}", key[2]))
    return moves, amendments, [said for _, said in standing]


AB = [machine("a"), machine("b")]
TWELVE = [machine(f"d{n}") for n in range(12)]
NEEDS = ", ".join(f'd{n} = "m1"' for n in range(1, 10))

# Texts that the library refuses: the number, the byte, and what is told of it.
REFUSED = [
    (text_of([], []), 4, 0, "the end of the sheet, FOLDER/kitchen.toml"),
    (text_of([machine(f"d{n}") for n in range(33)], []), 4, 192, "machine 32, d32, FOLDER/kitchen.toml:35"),
    (text_of([machine(f"d{n}") for n in range(300)], [step("d299", needs='d298 = "m1"')]), 4, 192,
     "machine 32, d32, FOLDER/kitchen.toml:35"),
    (text_of(AB, [step(command=n + 1) for n in range(250)] + [step("b")]), 4, 2012,
     "move 250, b: m0 to m1 (command 1), FOLDER/kitchen.toml:257"),
    (text_of([machine("a"), machine("b", 9)], [step("b", end="m8")]), 5, 6, "machine 1, b, FOLDER/kitchen.toml:4"),
    (text_of([machine("a"), machine("b", 264)], [step("b", "m262", "m263", needs='a = "m1"'), step(needs='b = "m263"')]), 5, 6,
     "machine 1, b, FOLDER/kitchen.toml:4"),
    (text_of([machine("a", 0)], []), 5, 0, "machine 0, a, FOLDER/kitchen.toml:3"),
    (text_of([machine("a"), machine("b", out_of_order='["m1", "m0"]')], []), 5, 6, "machine 1, b, FOLDER/kitchen.toml:4"),
    (text_of(AB, [step(), step("b", "m1", "m1")]), 6, 20, "move 1, b: m1 to m1 (command 1), FOLDER/kitchen.toml:8"),
    (text_of([machine("a", 3, out_of_order='["m1"]')], [step(end="m2"), step(end="m1", command=2)]), 6, 14,
     "move 1, a: m0 to m1 (command 2), FOLDER/kitchen.toml:7"),
    (text_of(AB, [step(needs='b = "m1"'), step("b", needs='b = "m0"')]), 7, 22,
     "move 1, b: m0 to m1 (command 1), FOLDER/kitchen.toml:8"),
    (text_of(AB, [step(needs="b = []")]), 7, 12, "move 0, a: m0 to m1 (command 1), FOLDER/kitchen.toml:7"),
    (text_of(AB, [step(), step("b", command=0)]), 8, 20, "move 1, b: m0 to m1 (command 0), FOLDER/kitchen.toml:8"),
    (text_of([machine("a", 3)], [step(), step(end="m2")]), 8, 14, "move 1, a: m0 to m2 (command 1), FOLDER/kitchen.toml:7"),
    (text_of(TWELVE, [step("d11"), step("d0", needs=NEEDS)]), 2, 80, "move 1, d0: m0 to m1 (command 1), FOLDER/kitchen.toml:18"),
]

# The same of texts with amendments: the moves are BACK, in lines 7 to 9, and the amendments stand from line 12 on.
ABSENT = "an amendment for which no move stands, a 65th one, or a move behind one"
REFUSED_AMENDMENTS = [
    ([gone(command=2)], 21, 38, "amendment 0, a: from m0 (command 2) withdrawn, FOLDER/kitchen.toml:12"),
    ([gone("b", "m1")], 21, 38, "amendment 0, b: from m1 (command 1) withdrawn, FOLDER/kitchen.toml:12"),
    ([gone("b", command=0)], 21, 38, "amendment 0, b: from m0 (command 0) withdrawn, FOLDER/kitchen.toml:12"),
    ([step("b", "m1", "m0")], 21, 38, "amendment 0, b: m1 to m0 (command 1), FOLDER/kitchen.toml:12"),
    ([gone(), gone()], 21, 45, "amendment 1, a: from m0 (command 1) withdrawn, FOLDER/kitchen.toml:13"),
    ([step(), gone(), step()], 21, 53, "amendment 2, a: m0 to m1 (command 1), FOLDER/kitchen.toml:14"),
    ([step()] * 64 + [gone()], 21, 550, "amendment 64, a: from m0 (command 1) withdrawn, FOLDER/kitchen.toml:76"),
    ([step()] * 64 + [step(command=0)], 8, 550, "amendment 64, a: m0 to m1 (command 0), FOLDER/kitchen.toml:76"),
    ([gone("b"), step(end="m0")], 6, 45, "amendment 1, a: m0 to m0 (command 1), FOLDER/kitchen.toml:13"),
    ([step(needs='a = "m0"')], 7, 38, "amendment 0, a: m0 to m1 (command 1), FOLDER/kitchen.toml:12"),
    ([step(command=0)], 8, 38, "amendment 0, a: m0 to m1 (command 0), FOLDER/kitchen.toml:12"),
]

# What the walk refuses, of a state and wishes behind the machines a and b, each with a move to and fro.
BACK = [step(), step(start="m1", end="m0"), step("b", needs='a = "m1"')]
WALKED = [
    ('[state]\na = "m0"\nb = "m0"\n[wish]\na = "m0"\nb = []\n', 14, 1, "at b"),
    ('wish = [3, 4]\n[state]\na = "m0"\nb = "m0"\n', 14, 1, "at b"),
    ('wish = [3, 3, 3]\n[state]\na = "m0"\nb = "m0"\n', 14, 255, "at the length"),
    ('state = [0, 0, 2, 0]\n[wish]\nb = "m1"\n', 13, 1, "at b"),
    ('state = [0, 0, 0]\n[wish]\nb = "m1"\n', 13, 255, "at the length"),
    ('tags = ["a"]\n[state]\nb = "m0"\na = "m0"\n[wish]\nb = "m1"\n', 16, 0, "at a"),
    ('tags = ["b"]\n[state]\na = "m0"\nb = "m0"\n[wish]\nb = "m1"\n', 16, 1, "at b"),
    ('[state]\na = "m0"\nb = "m1"\n[wish]\nb = "m0"\n', 17, 1, "at b"),
]

# Bytes that no text says, made of the text's own sheet, and where.
UNSAID = [
    (lambda sheet: sheet[:-1], 58),
    (lambda sheet: sheet[:-4], 58),
    (lambda sheet: sheet[:20], 18),
    (lambda sheet: sheet + b"\0", 62),
    (lambda sheet: sheet[:-2] + b"\4\0", 58),
    (lambda sheet: sheet[:18] + bytes([2, 0, 9, 0, 0, 0]) + sheet[18:], 18),
    (lambda sheet: sheet[:18] + bytes([1, 0, 3, 0, 0]), 18),
    (lambda sheet: sheet[:26] + sheet[:6] + sheet[26:], 26),
    (lambda sheet: sheet[:5] + b"\4" + sheet[6:], 0),
    (lambda sheet: sheet[:22] + b"\3" + sheet[23:], 18),
    (lambda sheet: sheet[:23] + b"\2" + sheet[24:], 18),
    (lambda sheet: sheet[:24] + b"\2" + sheet[25:], 18),
    (lambda sheet: sheet[:42] + bytes([2, 1, 0, 2]) + sheet[46:], 34),
    (lambda sheet: sheet[:42] + bytes([0, 2, 0, 2]) + sheet[46:], 34),
    (lambda sheet: sheet[:44] + bytes([3, 1]) + sheet[46:], 34),
    (lambda sheet: sheet[:44] + bytes([2, 8]) + sheet[46:], 34),
    (lambda sheet: sheet[:18] + bytes([5, 0, 2, 0, 0, 0, 1, 1, 1]) + sheet[26:], 18),
    (lambda sheet: b"", 0),
    (lambda sheet: sheet[:-4] + TAIL + sheet[18:26] + sheet[-4:], 87),
    (lambda sheet: sheet[:-4] + TAIL + sheet[:6] + sheet[-4:], 87),
    (lambda sheet: sheet[:18] + TAIL[10:17] + sheet[:6] + sheet[-4:], 25),
    (lambda sheet: sheet[:-4] + bytes([2, 0, 5, 0, 0, 1]) + sheet[-4:], 58),
    (lambda sheet: sheet[:-4] + bytes([4, 0, 5, 0, 0, 1, 0, 2]) + sheet[-4:], 58),
    (lambda sheet: sheet[:-4] + bytes([3, 0, 4, 0, 0, 1, 2]) + sheet[-4:], 58),
    (lambda sheet: sheet[:-4] + bytes([3, 0, 2, 0, 0, 1, 2]) + sheet[-4:], 58),
    (lambda sheet: sheet[:-4] + bytes([3, 0, 5, 0, 3, 0, 1]) + sheet[-4:], 58),
    (lambda sheet: sheet[:-4] + bytes([3, 0, 5, 0, 0, 2, 1]) + sheet[-4:], 58),
    (lambda sheet: sheet[:-4] + bytes([3, 0, 6, 0, 0, 1, 2]) + sheet[-4:], 58),
    (lambda sheet: sheet[:-4] + bytes([4, 0, 4, 0, 0, 1, 2, 2]) + sheet[-4:], 58),
    (lambda sheet: sheet[:-4] + bytes([4, 0, 4, 0, 3, 0, 1, 1]) + sheet[-4:], 58),
]


class Case(unittest.TestCase):
    def setUp(self):
        kept = tempfile.TemporaryDirectory()
        self.addCleanup(kept.cleanup)
        self.folder = Path(kept.name) / "mine"
        self.folder.mkdir()

    def put(self, text=TEXT, **files):
        """Puts a text into the folder, and bytes by the stems of their files."""
        (self.folder / "kitchen.toml").write_text(text)
        for name, data in files.items():
            (self.folder / f"{name}.bin").write_bytes(data)

    def here(self, told):
        """What is told, with the folder's path as FOLDER."""
        return told.replace(str(self.folder), "FOLDER")

    def part(self, title):
        """The part of the page in the folder under a title."""
        _, behind = (self.folder / "README.md").read_text().split(f"\n\n## {title}\n\n")
        return re.split(r"\n\n(?:## |This page )", behind)[0]

    def written(self, text=TEXT):
        """Writes a text, and gives the bytes that stand there then."""
        self.put(text)
        self.assertEqual(run("write", self.folder), (0, "", ""))
        return bytes_in(self.folder)


class Examples(Case):
    def test_every_example_is_what_its_text_says(self):
        self.assertEqual(len(EXAMPLES), 16)
        self.assertEqual(run("check", *EXAMPLES), (0, "", ""))

    def test_no_example_has_other_bytes(self):
        strays = [path for path in (ROOT / "examples").rglob("*.bin") if path.name not in NAMES]
        self.assertEqual(strays, [])

    def test_bytes_are_read_back(self):
        for example in EXAMPLES:
            status, text, wrong = run("read", example)
            self.assertEqual((status, wrong), (0, ""), example)
            self.assertEqual(self.written(text), bytes_in(example), example)
            for path in self.folder.iterdir():
                path.unlink()

    def test_bytes_are_read_back_without_names(self):
        for example in EXAMPLES:
            for name, data in bytes_in(example).items():
                (self.folder / name).write_bytes(data)
            status, text, wrong = run("read", self.folder)
            self.assertEqual((status, wrong), (0, ""), example)
            self.assertIn('name = "machine_0", modes = ["mode_0"', text)
            self.assertEqual(self.written(text), bytes_in(example), example)
            for path in self.folder.iterdir():
                path.unlink()

    def test_names_are_read_back(self):
        for example in EXAMPLES:
            given = (example / "kitchen.toml").read_text()
            values, read = tomllib.loads(given), tomllib.loads(run("read", example)[1])
            if "like" not in values:
                self.assertEqual(read["machines"], values["machines"], example)
                self.assertEqual(read["moves"], values["moves"], example)
            for key in ["amendments", "state", "wish", "wish2", "tags", "short"]:
                self.assertEqual(read.get(key), values.get(key), (example, key))

    def test_every_walk_is_told(self):
        count = 0
        for expect in sorted((ROOT / "examples/walks").glob("*/expect.txt")):
            lines, text = expect.read_text(), expect.parent / "kitchen.toml"
            if not text.exists():
                self.assertEqual(list(expect.parent.iterdir()), [expect])
                self.assertEqual(run("tell", expect.parent, told=lines)[0], 2)
                continue
            values = tomllib.loads(text.read_text())
            if "like" in values:
                values = tomllib.loads((expect.parent / values["like"] / "kitchen.toml").read_text())
            status, told, wrong = run("tell", expect.parent, told=lines)
            self.assertEqual((status, wrong), (int("refused" in lines), ""), expect)
            self.assertEqual(len(told.splitlines()), len(lines.splitlines()))
            for line, said in zip(lines.splitlines(), told.splitlines()):
                if re.fullmatch(r"\d+ \d+ \d+", line):
                    move = values["moves"][int(line.split()[2])]
                    self.assertEqual(values["machines"][int(line.split()[0])]["name"], move["machine"])
                    self.assertEqual(said, f'{move["machine"]}: {move["from"]} to {move["to"]} '
                                           f'(command {move["command"]}, move {line.split()[2]})')
                else:
                    self.assertRegex(said, "^done after " if line.startswith("done") else "^refused ")
            count += 1
        self.assertEqual(count, 11)


class Texts(Case):
    def test_a_text_gives_its_bytes(self):
        self.assertEqual(self.written(), FILES)
        self.assertEqual(program("show", self.folder).splitlines()[-1], "3 machines, 4 moves, 12 states")
        self.assertEqual(run("check", self.folder), (0, "", ""))

    def test_modes_past_the_eighth_have_no_bit(self):
        files = self.written(text_of([machine("a"), machine("b", 9, out_of_order='["m0"]')], [step(needs='b = ["m1", "m8"]')],
                                     '[state]\na = "m1"\nb = "m8"\n[wish]\na = "m0"\n[wish2]\nb = ["m2", "m8"]\n'))
        self.assertEqual(files, {"state.bin": bytes([1, 0, 8, 0]), "wish.bin": bytes([1, 255]), "wish2.bin": bytes([3, 4]),
                                 "sheet.bin": bytes([2, 0, 1, 0, 2, 3, 2, 0, 1, 0, 9, 254, 6, 0, 2, 0, 0, 0, 1, 1, 1, 2, 0, 0, 3, 0])})

    def test_line_ends_of_another_system(self):
        self.put()
        path = self.folder / "kitchen.toml"
        path.write_bytes(TEXT.replace("\n", "\r\n").encode())
        self.assertEqual(run("write", self.folder), (0, "", ""))
        self.assertEqual(bytes_in(self.folder), FILES)
        page = (self.folder / "README.md").read_bytes()
        self.assertNotIn(b"\r", page)
        path.write_bytes(TEXT.replace("command = 2", "command = 256").replace("\n", "\r\n").encode())
        self.assertIn("kitchen.toml:18: command 256", run("write", self.folder)[2])

    def test_faults_are_told_by_line(self):
        for text, (old, new, faults) in [(TEXT, case) for case in FAULTS] + [(AMENDED, case) for case in AMENDED_FAULTS]:
            with self.subTest(new):
                self.assertIn(old, text)
                self.put(text.replace(old, new, 1))
                before = sides(self.folder)
                status, out, told = run("write", self.folder)
                self.assertEqual((status, out, sides(self.folder)), (1, "", before))
                told = self.here(told).splitlines()
                self.assertEqual(len(told), len(faults), told)
                for said, (line, reason) in zip(told, faults):
                    self.assertTrue(said.startswith(f"kitchen: FOLDER/kitchen.toml:{line}: {reason}"), said)

    def test_other_ways_to_write_a_text(self):
        text = """title = 't'
[[machines]]
name = "a"
modes = ["m0", "m1"]
[[machines]]
name = "b"
"modes" = ["m0", "m1",
  "m1"]
[[moves]]
machine = "b"
from = "m0"
to = "m1"
command = 1
needs.a = "m1"
[[moves]]
machine = "b"
from = "m1"
to = "m0"
command = 256
[moves.needs]
a = "m2"
[state]
'a' = "m3"
"b" = "m1"
"""
        self.put(text)
        told = self.here(run("check", self.folder)[2])
        self.assertEqual(told.splitlines(), [f"kitchen: FOLDER/kitchen.toml:{said}" for said in [
            '8: a second "m1"', "19: command 256 is no byte: 1 to 255", '21: a has no mode "m2"', '23: a has no mode "m3"']])
        text = text.replace(',\n  "m1"]', "]").replace("256", "2").replace("m2", "m1").replace("m3", "m1")
        self.assertEqual(self.written(text), {"state.bin": bytes([1, 0, 1, 0]), "sheet.bin": bytes([
            2, 0, 1, 0, 2, 3, 2, 0, 1, 0, 2, 3, 6, 0, 2, 0, 1, 0, 1, 1, 0, 2, 6, 0, 2, 0, 1, 1, 0, 2, 0, 2, 0, 0, 3, 0])})

    def test_amendments_give_their_bytes(self):
        self.assertEqual(self.written(AMENDED), {**FILES, "sheet.bin": AMENDED_SHEET})
        self.assertEqual(run("check", self.folder), (0, "", ""))
        self.assertEqual(self.written(CLEAN), {**FILES, "sheet.bin": CLEAN_SHEET})
        files = self.written(AMENDED.replace("withdrawn = true", 'withdrawn = false, to = "off"'))
        self.assertEqual(files["sheet.bin"], AMENDED_SHEET[:68] + bytes([4, 0, 4, 0, 0, 1, 0, 2]) + AMENDED_SHEET[75:])
        self.assertEqual(self.written(TEXT.replace("notes = ", "amendments = []\nnotes = ", 1)), FILES)

    def test_amendments_in_tables_of_their_own(self):
        text = text_of(AB, BACK) + """[[amendments]]
machine = "b"
from = "m0"
to = "m1"
command = 1
needs.a = "m0"
[[amendments]]
machine = "a"
from = "m1"
command = 1
withdrawn = true
"""
        self.put(text.replace("withdrawn = true", 'to = "m2"'))
        self.assertEqual(self.here(run("check", self.folder)[2]), 'kitchen: FOLDER/kitchen.toml:21: a has no mode "m2"\n')
        tail = bytes([6, 0, 4, 0, 1, 0, 1, 1, 0, 1, 3, 0, 5, 0, 0, 1, 1, 0, 0, 3, 0])
        self.assertEqual(self.written(text)["sheet.bin"][-len(tail):], tail)

    def test_the_page_shows_what_stands_and_what_was_amended(self):
        self.written(CLEAN)
        moves = self.part("Moves")
        self.written(AMENDED)
        self.assertEqual(self.part("Moves"), moves)
        self.assertEqual(self.part("Amendments"), """\
They act in this order; the moves above are those that then stand.

| No. | Machine | From | Command | Was | Is now |
|---|---|---|---|---|---|
| 0 | burner | off | 1 | to lit, waits for board on, fan off or on | to lit, waits for fan on |
| 1 | board | on | 2 | to off, waits for nothing | withdrawn |
| 2 | burner | off | 1 | to lit, waits for fan on | to lit, waits for board on, fan on |""")

    def test_the_page_shows_amendments_that_find_nothing(self):
        self.written(amended_text(AB, [step()], [gone(), gone(), step(), step(command=2)]))
        self.assertEqual(self.part("Moves"), "None.")
        self.assertEqual(self.part("Amendments").splitlines()[-3:], [
            "| 1 | a | m0 | 1 | no such move | withdrawn |", "| 2 | a | m0 | 1 | no such move | to m1, waits for nothing |",
            "| 3 | a | m0 | 2 | no such move | to m1, waits for nothing |"])

    def test_random_amendments_leave_what_stands(self):
        for seed in range(12):
            moves, amendments, standing = random_amendments(random.Random(seed))
            self.written(text_of(AB, standing))
            clean = self.part("Moves")
            self.written(amended_text(AB, moves, amendments))
            self.assertEqual(self.part("Moves"), clean, seed)

    def test_ten_faults_are_told_and_the_rest_counted(self):
        self.put(text_of(AB, [step(command=256)] * 13))
        told = run("write", self.folder)[2].splitlines()
        self.assertEqual(len(told), 11)
        self.assertEqual(told[10], "kitchen: and 3 more")

    def test_a_text_that_is_no_text(self):
        (self.folder / "kitchen.toml").write_bytes(b'title = "t"\n\n# \xff\n')
        self.assertEqual(self.here(run("write", self.folder)[2]), "kitchen: FOLDER/kitchen.toml:3: a byte that is not UTF-8\n")
        self.put("x = " + "[" * 5000 + "]" * 5000)
        self.assertEqual(run("write", self.folder)[0], 1)

    def test_like_takes_machines_and_moves(self):
        other = self.folder.parent / "other"
        other.mkdir()
        (other / "kitchen.toml").write_text(TEXT)
        files = self.written('title = "u"\nlike = "../other/"\n[wish]\nfan = "on"\n')
        self.assertEqual(files, {"sheet.bin": SHEET, "wish.bin": bytes([3, 2, 7])})
        self.assertIn("those of [A stove with [brackets], #1](../other/README.md).", (self.folder / "README.md").read_text())
        self.assertIn(f"{other}/kitchen.toml:20: ", run("tell", self.folder, told="refused 7 46")[1])
        (other / "kitchen.toml").write_text(TEXT.replace("command = 2", "command = 256"))
        self.assertEqual(run("check", self.folder)[2], f"kitchen: {other}/kitchen.toml:18: command 256 is no byte: 1 to 255\n")

    def test_like_takes_amendments_and_more_may_follow(self):
        other = self.folder.parent / "other"
        other.mkdir()
        (other / "kitchen.toml").write_text(AMENDED)
        files = self.written('title = "u"\nlike = "../other"\n')
        self.assertEqual(files, {"sheet.bin": AMENDED_SHEET})
        self.assertNotIn("##", (self.folder / "README.md").read_text())
        files = self.written('title = "u"\nlike = "../other"\namendments = [\n'
                             '{ machine = "fan", from = "off", command = 1, withdrawn = true },\n]\n')
        self.assertEqual(files, {"sheet.bin": AMENDED_SHEET[:-4] + bytes([3, 0, 5, 0, 1, 0, 1, 0, 0, 3, 0])})
        page = (self.folder / "README.md").read_text()
        self.assertIn("those of [A stove with [brackets], #1](../other/README.md), the moves as amended here.", page)
        self.assertEqual(self.part("Moves").splitlines()[-1], "| 1 | burner | off | lit | 1 | board on, fan on |")
        self.assertEqual(self.part("Amendments").count("\n| "), 1 + 4)
        for byte, told in [(85, f"amendment 2, burner: off to lit (command 1), {other}/kitchen.toml:27"),
                           (87, "amendment 3, fan: from off (command 1) withdrawn, FOLDER/kitchen.toml:4")]:
            self.assertIn(f"refused 21 at {told}: ", self.here(run("tell", self.folder, told=f"refused 21 {byte}")[1]))

    def test_like_stands_alone_and_leads_somewhere(self):
        self.put(TEXT.replace("short = [", 'like = "nowhere"\nshort = ['))
        self.assertEqual(self.here(run("check", self.folder)[2]).splitlines(), [f"kitchen: FOLDER/kitchen.toml:{said}" for said in [
            "7: machines are those that like leads to", "16: moves are those that like leads to",
            "28: like leads nowhere: no FOLDER/nowhere/kitchen.toml"]])

    def test_like_leads_round(self):
        other = self.folder.parent / "other"
        other.mkdir()
        (other / "kitchen.toml").write_text('title = "u"\nlike = "../mine"\n')
        self.put('title = "t"\n\nlike = "../other"\n')
        self.assertEqual(run("check", self.folder), (1, "", f"kitchen: {other}/kitchen.toml:2: like leads round in a circle\n"))
        self.put('title = "t"\n\nlike = "."\n')
        self.assertEqual(self.here(run("check", self.folder)[2]), "kitchen: FOLDER/kitchen.toml:3: like leads round in a circle\n")


class Library(Case):
    def test_what_the_library_refuses_is_passed_on(self):
        amended = [(amended_text(AB, BACK, amendments), *rest) for amendments, *rest in REFUSED_AMENDMENTS]
        for text, number, byte, told in REFUSED + amended:
            with self.subTest(told):
                self.written(text)
                said = program("show", self.folder)
                self.assertTrue(said.startswith(f"refused {number} {byte}: "), said)
                status, out, wrong = run("tell", self.folder, told=said)
                self.assertEqual((status, wrong), (1, ""))
                self.assertTrue(self.here(out).startswith(f"refused {number} at {told}: "), out)
                self.assertEqual(out.count("\n"), 1)

    def test_what_the_walk_refuses_is_told_by_name(self):
        for rest, number, place, told in WALKED:
            with self.subTest(rest):
                for path in self.folder.iterdir():
                    path.unlink()
                self.written(text_of(AB, BACK, rest))
                said = program("walk", self.folder)
                self.assertEqual(said, f"refused {number} {place}\n")
                status, out, wrong = run("tell", self.folder, told=said)
                self.assertEqual((status, wrong), (1, ""))
                self.assertTrue(out.startswith(f"refused {number} {told}: "), out)

    def test_every_line_of_show_is_told(self):
        self.written()
        status, told, wrong = run("tell", self.folder, told=program("show", self.folder))
        self.assertEqual((status, wrong), (0, ""))
        self.assertEqual(told.splitlines(), [
            "machine 0, board: 0 off, 1 on",
            "machine 1, fan: 0 off, 1 on",
            "machine 2, burner: 0 off, 1 lit, 2 tripped (out of order)",
            "move 0, board: off to on (command 1)",
            "move 1, board: on to off (command 2)",
            "move 2, fan: off to on (command 1), waits for board on, burner off",
            "move 3, burner: off to lit (command 1), waits for board on, fan off or on",
            "3 machines, 4 moves, 12 states"])
        kitchen = ROOT / "examples/kitchen"
        status, told, wrong = run("tell", kitchen, told=program("show", kitchen))
        self.assertEqual((status, wrong, "does not say" in told), (0, "", False))

    def test_every_line_of_an_amended_sheet_is_told(self):
        self.written(AMENDED)
        status, told, wrong = run("tell", self.folder, told=program("show", self.folder))
        self.assertEqual((status, wrong), (0, ""))
        self.assertEqual(told.splitlines()[3:], [
            "move 0, board: off to on (command 1)",
            "move 1, fan: off to on (command 1), waits for board on, burner off",
            "move 2, burner: off to lit (command 1), waits for board on, fan on",
            "3 machines, 3 moves, 12 states"])

    def test_the_library_reads_an_amended_text_as_the_clean_one(self):
        for seed in range(12):
            moves, amendments, standing = random_amendments(random.Random(seed))
            self.written(text_of(AB, standing))
            clean = program("show", self.folder)
            self.written(amended_text(AB, moves, amendments))
            self.assertEqual(program("show", self.folder), clean, seed)


class Telling(Case):
    def setUp(self):
        super().setUp()
        self.written()

    def told(self, line, status):
        """What is told of a line, beside the bytes of the text."""
        got, out, wrong = run("tell", self.folder, told=line + "\n")
        self.assertEqual((got, wrong), (status, ""))
        return self.here(out).rstrip("\n")

    def test_lines_of_a_walk(self):
        self.assertEqual(self.told("2 1 3", 0), "burner: off to lit (command 1, move 3)")
        self.assertEqual(self.told("done 4 bound 7", 0), "done after 4 commands; no wish takes more than 7, from any state")
        self.assertEqual(self.told("done 1 bound 7", 0), "done after 1 command; no wish takes more than 7, from any state")

    def test_lines_that_do_not_fit(self):
        self.assertEqual(self.told("2 1 4", 1), "2 1 4: kitchen.toml has no move 4")
        self.assertEqual(self.told("1 1 3", 1), "1 1 3: in kitchen.toml, move 3 is burner: off to lit (command 1)")
        self.assertEqual(self.told("2 2 3", 1), "2 2 3: in kitchen.toml, move 3 is burner: off to lit (command 1)")
        self.assertEqual(self.told("machine 0: modes 3, live 0 1", 1), "machine 0: modes 3, live 0 1: kitchen.toml does not say so")
        self.assertIn("at machine 9, which kitchen.toml does not have: ", self.told("refused 17 9", 1))
        self.assertIn("at byte 62, behind the end of the sheet: ", self.told("refused 3 62", 1))

    def test_other_lines_are_passed_on(self):
        for line in ["", "hello", "1 2", "0 1 0 0", "done 4", "refused", "3 machines, 7 moves, 12 states"]:
            self.assertEqual(self.told(line, 0), line)
        self.assertEqual(self.told("refused 99 3", 1), "refused 99 3")

    def test_every_cause_has_words_and_a_place(self):
        rows = re.findall(r"^\| (\d+) \| (.*?) \| .* \|$", (ROOT / "docs/REFUSALS.md").read_text(), re.M)
        self.assertEqual({int(number) for number, _ in rows}, set(range(1, 22)))
        words = {number: cause for number, cause in reversed(rows)}
        for number in range(1, 22):
            sheet = number < 9 or number == 21
            at = " at machine 1, fan, FOLDER/kitchen.toml:10" if sheet else " at burner"
            if number in (10, 11, 12, 15, 20):
                at = ""
            line = f"refused {number} {8 if sheet else 2}"
            self.assertEqual(self.told(line, 1), f"refused {number}{at}: {words[str(number)]}")
        self.assertEqual(self.told("refused 13 255", 1), f"refused 13 at the length: {words['13']}")
        self.assertEqual(self.told("refused 14 255", 1), f"refused 14 at the length: {words['14']}")

    def test_the_byte_before_a_record_is_of_the_one_before(self):
        for byte, told in [(0, "machine 0, board"), (5, "machine 0, board"), (6, "machine 1, fan"), (17, "machine 2, burner"),
                           (18, "move 0, board: off to on (command 1)"), (57, "move 3, burner: off to lit (command 1)"),
                           (58, "the end of the sheet"), (61, "the end of the sheet")]:
            self.assertIn(f"refused 2 at {told}, FOLDER/kitchen.toml", self.told(f"refused 2 {byte}", 1))

    def test_moves_are_told_by_their_numbers_after_amending(self):
        self.written(AMENDED)
        self.assertEqual(self.told("1 1 1", 0), "fan: off to on (command 1, move 1)")
        self.assertEqual(self.told("2 1 2", 0), "burner: off to lit (command 1, move 2)")
        self.assertEqual(self.told("2 1 3", 1), "2 1 3: kitchen.toml has no move 3")
        needs = "needs machine 0 in 1, needs machine 1 in"
        self.assertEqual(self.told(f"move 2: machine 2 from 0 to 1, command 1, {needs} 1", 0),
                         "move 2, burner: off to lit (command 1), waits for board on, fan on")
        self.assertIn("kitchen.toml does not say so", self.told(f"move 2: machine 2 from 0 to 1, command 1, {needs} 0 1", 1))

    def test_records_of_an_amended_sheet(self):
        self.written(AMENDED)
        for byte, told in [(26, "move 1 as sent, board: on to off (command 2), FOLDER/kitchen.toml:18"),
                           (57, "move 3 as sent, burner: off to lit (command 1), FOLDER/kitchen.toml:20"),
                           (58, "amendment 0, burner: off to lit (command 1), FOLDER/kitchen.toml:24"),
                           (67, "amendment 0, burner: off to lit (command 1), FOLDER/kitchen.toml:24"),
                           (68, "amendment 1, board: from on (command 2) withdrawn, FOLDER/kitchen.toml:25"),
                           (75, "amendment 2, burner: off to lit (command 1), FOLDER/kitchen.toml:27"),
                           (87, "the end of the sheet, FOLDER/kitchen.toml"), (91, "byte 91, behind the end of the sheet")]:
            self.assertIn(f"refused 21 at {told}: an amendment for which no move stands, ", self.told(f"refused 21 {byte}", 1))

    def test_bytes_of_another_text_are_told(self):
        self.put(TEXT.replace('fan = "off"', 'fan = "on"'))
        status, out, wrong = run("tell", self.folder, told="0 1 0")
        self.assertEqual((status, out), (1, "board: off to on (command 1, move 0)\n"))
        self.assertEqual(self.here(wrong), "kitchen: FOLDER/state.bin is not what kitchen.toml says\n")

    def test_nothing_to_tell(self):
        self.assertEqual(run("tell", self.folder), (2, "", "kitchen: nothing to tell on standard input\n"))

    def test_no_room_for_what_is_told(self):
        with open("/dev/full", "w") as full:
            ran = subprocess.run([ROOT / "kitchen", "tell", self.folder], input="0 1 0\n", text=True, stdout=full,
                                 stderr=subprocess.PIPE, timeout=60, check=False)
        self.assertEqual((ran.returncode, ran.stderr), (2, "kitchen: [Errno 28] No space left on device\n"))


class Reading(Case):
    def test_bytes_that_no_text_says(self):
        for change, byte in UNSAID:
            sheet = change(SHEET)
            with self.subTest(sheet):
                self.put(sheet=sheet)
                status, out, wrong = run("read", self.folder)
                self.assertEqual((status, out), (1, ""))
                self.assertTrue(self.here(wrong).startswith(f"kitchen: FOLDER/sheet.bin: byte {byte}: "), wrong)
        self.put(sheet=SHEET, state=b"")
        self.assertEqual(run("read", self.folder)[:2], (1, ""))

    def test_amendments_are_read_back_by_name(self):
        files = self.written(AMENDED)
        status, text, wrong = run("read", self.folder)
        self.assertEqual((status, wrong), (0, ""))
        self.assertIn("""
amendments = [
    { machine = "burner", from = "off", to = "lit", command = 1, needs = { fan = "on" } },
    { machine = "board", from = "on", command = 2, withdrawn = true },
    { machine = "burner", from = "off", to = "lit", command = 1, needs = { board = "on", fan = "on" } },
]
""", text)
        self.assertEqual(self.written(text), files)

    def test_refused_texts_are_read_back(self):
        amended = [(amended_text(AB, BACK, amendments), *rest) for amendments, *rest in REFUSED_AMENDMENTS]
        for text, _, _, told in REFUSED + amended:
            with self.subTest(told):
                files = self.written(text)
                if len(files["sheet.bin"]) < 1000 and "m263" not in text:
                    read = run("read", self.folder)
                    self.assertEqual((read[0], self.written(read[1])), (0, files), read[2])

    def test_other_states_and_wishes_are_read_back(self):
        for files in [{"state": bytes(7), "wish": b"\7"}, {"state": b"\0\0\0\2\0\0", "wish": b""}, {"state": b"\0\0\2\0\0\0"},
                      {"state": b"\0\1\0\1\2\1", "wish": b"\3\3\7\1"}, {"wish": b"\0\4\7"}, {"wish": b"\0\0\0"},
                      {"wish": b"\3\3", "wish2": b"\3\1\7", "wish8": b"\2"}]:
            with self.subTest(files):
                for path in self.folder.iterdir():
                    path.unlink()
                self.put(sheet=SHEET, **files)
                before = bytes_in(self.folder)
                status, text, wrong = run("read", self.folder)
                self.assertEqual((status, wrong), (0, ""))
                self.assertEqual(self.written(text), before)

    def test_names_of_any_kind_are_read_back(self):
        self.written(text_of([machine("a"), machine("about"), machine("needs")], [step(needs="about = [], needs = []")],
                             "[wish]\nabout = []\nneeds = []\n").replace('"t"', '""'))
        read = run("read", self.folder)
        self.assertEqual((read[0], bytes_in(self.folder)), (0, self.written(read[1])))
        strange = TEXT.replace('"fan"', '"Lüfter 1"').replace("\nfan", '\n"Lüfter 1"').replace('"lit"', r'"a \"|\" \\ b"')
        (self.folder / "wish.bin").unlink()
        files = self.written(strange)
        self.assertEqual(files, FILES)
        self.assertIn(r'| 0 off, 1 a "\|" \ b, 2 tripped (out of order) |', (self.folder / "README.md").read_text())
        read = run("read", self.folder)
        self.assertEqual((read[0], self.written(read[1])), (0, files))
        self.assertIn('"Lüfter 1" = "off"', read[1])
        self.assertEqual(run("read", self.folder, env={**os.environ, "PYTHONIOENCODING": "ascii"}), read)

    def test_other_modes_have_made_names(self):
        self.put(TEXT.replace('"tripped"]', '"tripped", "burst"]', 1), **{name[:-4]: data for name, data in FILES.items()})
        status, text, _ = run("read", self.folder)
        self.assertEqual(status, 0)
        self.assertIn('name = "machine_2", modes = ["mode_0", "mode_1", "mode_2"], out_of_order = ["mode_2"]', text)
        self.assertEqual(self.written(text), FILES)

    def test_a_faulty_text_has_no_names(self):
        self.put(TEXT.replace("command = 2", "command = 256"), sheet=SHEET)
        self.assertEqual(run("read", self.folder)[:2], (1, ""))

    def test_random_kitchens_are_read_back(self):
        for seed in range(12):
            pick = random.Random(seed)
            counts = [pick.randint(1, 8) for _ in range(pick.randint(1, 32))]
            some = lambda count: pick.randint(0, 2 ** count - 1)
            sheet = b"".join(bytes([2, 0, 1, 0, count, some(count)]) for count in counts)
            for kind in [2] * pick.randint(0, 40) + pick.choices([4, 5], k=pick.randint(0, 20)):
                number = pick.randrange(len(counts))
                others = sorted(pick.sample(range(len(counts)), pick.randint(0, min(8, len(counts)))))
                needs = bytes(value for other in others for value in (other, some(counts[other])))
                body = bytes([number, pick.randrange(counts[number]), pick.randrange(counts[number]), pick.randrange(256)])
                body = body[:2] + body[3:] if kind == 5 else body + needs
                sheet += bytes([len(body), 0, kind, 0]) + body
            self.put(sheet=sheet + bytes([0, 0, 3, 0]),
                     state=bytes(value for count in counts for value in (pick.randrange(count), pick.randrange(2))),
                     wish=bytes(map(some, counts)), wish3=bytes(map(some, counts[:pick.randint(0, len(counts))])))
            (self.folder / "kitchen.toml").unlink()
            before = bytes_in(self.folder)
            status, text, wrong = run("read", self.folder)
            self.assertEqual((status, wrong), (0, ""), seed)
            self.assertEqual(self.written(text), before, seed)


class Readme(Case):
    """What README.md says that is printed on the way from a text to a walk."""

    def shows(self, told):
        for line in told.splitlines():
            self.assertIn(f"\n    {line}\n", (ROOT / "README.md").read_text())

    def test_the_walk_in_names(self):
        stove = ROOT / "examples/stove"
        status, told, wrong = run("tell", stove, told=program("walk", stove))
        self.assertEqual((status, wrong), (0, ""))
        self.shows(told)

    def test_a_slip_and_a_refusal(self):
        text = (ROOT / "examples/stove/kitchen.toml").read_text()
        self.put(text.replace('to = "lit"', 'to = "lid"'))
        status, _, told = run("write", "mine", cwd=self.folder.parent)
        self.assertEqual(status, 1)
        self.shows(told)
        self.written(text.replace('\nburner = "lit"', '\nburner = "tripped"'))
        status, told, _ = run("tell", self.folder, told=program("walk", self.folder))
        self.assertEqual(status, 1)
        self.shows(told)


    def test_an_amended_stove(self):
        amended = ROOT / "examples/amended"
        text = (amended / "kitchen.toml").read_text()
        self.shows(text[text.index("like = "):text.index("notes = ")])
        status, told, wrong = run("tell", amended, told=program("walk", amended))
        self.assertEqual((status, wrong), (0, ""))
        self.shows(told)

    def test_an_amendment_of_no_move(self):
        for name in ["stove", "amended"]:
            copy = self.folder / "examples" / name
            copy.mkdir(parents=True)
            text = (ROOT / "examples" / name / "kitchen.toml").read_text()
            (copy / "kitchen.toml").write_text(text.replace("command = 2, withdrawn", "command = 3, withdrawn"))
        self.assertEqual(run("write", copy), (0, "", ""))
        status, told, wrong = run("tell", "examples/amended", told="refused 21 98: and so on", cwd=self.folder)
        self.assertEqual((status, wrong), (1, ""))
        self.shows(told)
        self.assertEqual(program("walk", copy), "refused 21 98\n")


class Clean(Case):
    """The clean sheet of a folder, in a file of its own."""

    def setUp(self):
        super().setUp()
        self.clean = self.folder.parent / "clean.bin"

    def refused(self, status, told):
        """No clean sheet is written, and this is told; all else stays."""
        before = sides(self.folder)
        said = run("clean", self.folder, self.clean)
        self.assertEqual((said[0], said[1], self.here(said[2])), (status, "", f"kitchen: {told}\n"))
        self.assertEqual((sides(self.folder), self.clean.exists()), (before, False))

    def test_a_sheet_without_amendments_is_clean(self):
        files = self.written()
        before = sides(self.folder)
        self.assertEqual(run("clean", self.folder, self.clean), (0, "", ""))
        self.assertEqual((self.clean.read_bytes(), sides(self.folder)), (files["sheet.bin"], before))
        self.assertEqual(run("clean", self.folder, "clean.bin", cwd=self.folder), (0, "", ""))
        self.assertEqual(sides(self.folder), {**before, "clean.bin": SHEET})

    def test_an_amended_sheet(self):
        self.put(AMENDED)
        self.assertEqual(run("clean", self.folder, self.clean), (0, "", ""))
        self.assertEqual(self.clean.read_bytes(), CLEAN_SHEET)
        self.assertEqual(set(sides(self.folder)), {"kitchen.toml"})

    def test_the_clean_text_writes_it(self):
        for seed in range(4):
            moves, amendments, standing = random_amendments(random.Random(seed))
            self.put(amended_text(AB, moves, amendments))
            self.assertEqual(run("clean", self.folder, self.clean), (0, "", ""))
            self.assertEqual(self.clean.read_bytes(), self.written(text_of(AB, standing))["sheet.bin"], seed)
            self.clean.unlink()

    def test_the_clean_sheet_is_read_by_the_names_of_the_text(self):
        self.put(AMENDED)
        self.assertEqual(run("clean", self.folder, self.folder / "sheet.bin"), (0, "", ""))
        status, text, wrong = run("read", self.folder)
        self.assertEqual((status, wrong), (0, ""))
        self.assertEqual(tomllib.loads(text)["moves"][2], {
            "machine": "burner", "from": "off", "to": "lit", "command": 1, "needs": {"board": "on", "fan": "on"}})
        self.assertNotIn("amendments", text)

    def test_what_the_library_refuses_has_no_clean_sheet(self):
        self.put(text_of(AB, [step(), step()]))
        self.refused(1, "refused 8 at move 1, a: m0 to m1 (command 1), FOLDER/kitchen.toml:8: "
                        "command 0, or a move with machine, mode and command of an earlier one, be that withdrawn or not")
        self.put(text_of([], []))
        self.refused(1, "refused 4 at the end of the sheet, FOLDER/kitchen.toml: a machine behind a move, a 33rd machine, "
                        "a 251st move, or a first move or end without a machine; withdrawn moves count")

    def test_amendments_that_the_library_refuses_have_no_clean_sheet(self):
        self.put(amended_text(AB, BACK, [gone(), gone()]))
        self.refused(1, f"refused 21 at amendment 1, a: from m0 (command 1) withdrawn, FOLDER/kitchen.toml:13: {ABSENT}")
        self.put(amended_text(AB, BACK, [step()] * 65))
        self.refused(1, f"refused 21 at amendment 64, a: m0 to m1 (command 1), FOLDER/kitchen.toml:76: {ABSENT}")

    def test_a_faulty_text_has_no_clean_sheet(self):
        self.put(AMENDED.replace("withdrawn = true", 'withdrawn = true, to = "off"'))
        self.refused(1, "FOLDER/kitchen.toml:25: a withdrawn move has no to")

    def test_nothing_is_overwritten(self):
        self.written()
        for name in ["sheet.bin", "kitchen.toml", "README.md", "."]:
            before = sides(self.folder)
            status, out, wrong = run("clean", self.folder, f"{self.folder}/{name}")
            told = f"kitchen: FOLDER/{name} is there already: name a new file\n"
            self.assertEqual((status, out, self.here(wrong)), (2, "", told))
            self.assertEqual(sides(self.folder), before)
        (self.folder / "link").symlink_to("nowhere")
        self.assertEqual(run("clean", self.folder, self.folder / "link")[0], 2)
        self.assertFalse((self.folder / "nowhere").exists())

    def test_where_no_file_can_stand(self):
        self.put()
        for path, told in [("", '"" names no file'), ("new/", '"new/" names no file'), ("new/c.bin", "no folder for new/c.bin"),
                           ("kitchen.toml/c.bin", "no folder for kitchen.toml/c.bin")]:
            self.assertEqual(run("clean", self.folder, path, cwd=self.folder), (2, "", f"kitchen: {told}\n"))
        limit = lambda: resource.setrlimit(resource.RLIMIT_FSIZE, (10, 10))
        status, out, wrong = run("clean", self.folder, self.clean, preexec_fn=limit)
        self.assertEqual((status, out, "Traceback" in wrong, self.clean.exists()), (2, "", False, False), wrong)
        self.assertEqual(set(sides(self.folder)), {"kitchen.toml"})

    def test_another_library_is_not_trusted(self):
        """One that reads something else in every sheet, and two that cannot work."""
        self.put(AMENDED)
        copy = self.folder.parent / "copy"
        for name in ["names", "docs"]:
            shutil.copytree(ROOT / name, copy / name)
        shutil.copy(ROOT / "kitchen", copy)
        unasked = "the library could not be asked what it reads in the sheet"
        for script, told in [('wc -c <"$1/sheet.bin"', "the library reads something else in the clean sheet, so it is not written"),
                             ("exit 2", unasked), ("exit 0", unasked)]:
            (copy / "show").write_text(f"#!/bin/sh\n{script}\n")
            (copy / "show").chmod(0o755)
            ran = run("clean", self.folder, self.clean, root=copy)
            self.assertEqual((*ran, self.clean.exists()), (2, "", f"kitchen: {told}\n", False))


class Files(Case):
    def test_a_faulty_text_leaves_every_file(self):
        self.written()
        self.put(TEXT.replace("command = 2", "command = 256").replace('"on", command = 1', '"on", command = 7'))
        before = sides(self.folder)
        self.assertEqual(run("write", self.folder)[0], 1)
        self.assertEqual(sides(self.folder), before)

    def test_a_failed_write_leaves_every_file(self):
        self.written()
        self.put(TEXT.replace('"on", command = 1', '"on", command = 7'))
        before = sides(self.folder)
        limit = lambda: resource.setrlimit(resource.RLIMIT_FSIZE, (100, 100))
        status, out, wrong = run("write", self.folder, preexec_fn=limit)
        self.assertEqual((status, out, "Traceback" in wrong), (2, "", False), wrong)
        self.assertEqual(sides(self.folder), before)
        for name in ["README.md", "wish.bin"]:
            os.rename(self.folder / name, self.folder / "aside")
            (self.folder / name).mkdir()
            before = sides(self.folder)
            status, out, wrong = run("write", self.folder)
            self.assertEqual((status, out, self.here(wrong)), (2, "", f"kitchen: FOLDER/{name} is a folder\n"))
            self.assertEqual(sides(self.folder), before)
            (self.folder / name).rmdir()
            os.rename(self.folder / "aside", self.folder / name)

    def test_a_page_by_hand_is_left(self):
        self.put(TEXT)
        (self.folder / "README.md").write_text("# My own notes\n")
        before = sides(self.folder)
        status, out, wrong = run("write", self.folder)
        by_hand = "kitchen: FOLDER/README.md was written by hand: give it another name, then write again\n"
        self.assertEqual((status, out, self.here(wrong)), (2, "", by_hand))
        self.assertEqual(sides(self.folder), before)

    def test_what_differs_is_named_and_left(self):
        self.written()
        (self.folder / "wish.bin").write_bytes(b"\3\3")
        (self.folder / "sheet.bin").unlink()
        (self.folder / "wish8.bin").write_bytes(b"\3")
        with open(self.folder / "README.md", "a") as page:
            page.write("\n")
        before = sides(self.folder)
        status, out, wrong = run("check", self.folder)
        self.assertEqual((status, out), (1, ""))
        self.assertEqual(self.here(wrong).splitlines(), [f"kitchen: FOLDER/{said}" for said in [
            "sheet.bin is missing", "wish.bin is not what kitchen.toml says",
            "wish8.bin is there, but kitchen.toml does not say it", "README.md is not what kitchen.toml says"]])
        self.assertEqual(sides(self.folder), before)
        status, out, wrong = run("write", self.folder)
        self.assertEqual((status, out, self.here(wrong)),
                         (1, "", "kitchen: FOLDER/wish8.bin is there, but kitchen.toml does not say it\n"))
        self.assertEqual(bytes_in(self.folder), {**FILES, "wish8.bin": b"\3"})

    def test_each_folder_is_tried(self):
        self.put()
        self.assertEqual(run("write", ROOT / "no", self.folder), (2, "", f"kitchen: no folder {ROOT}/no\n"))
        self.assertEqual(bytes_in(self.folder), FILES)

    def test_what_it_cannot_work_with(self):
        for arguments in [[], ["write"], ["walk", "."], ["tell", ".", "."], ["read"], ["clean", "."], ["clean", ".", "a", "b"]]:
            status, out, wrong = run(*arguments)
            self.assertEqual((status, out, "kitchen tell FOLDER" in wrong), (2, "", True))
        self.assertEqual(run("check", self.folder)[0], 2)
        self.assertEqual(run("read", self.folder)[0], 2)
        (self.folder / "tomllib.py").write_text("raise ImportError\n")
        status, out, wrong = run("check", self.folder, env={**os.environ, "PYTHONPATH": str(self.folder)})
        self.assertEqual((status, out, wrong), (2, "", "kitchen: python 3.11 or later is needed\n"))


if __name__ == "__main__":
    unittest.main()
