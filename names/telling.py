"""What ./walk and ./show print, told in names."""

import os
import re
import sys

from names.faults import Unable, complain, content
from names.files import amiss
from names.text import BYTES, TEXT, Text

REFUSALS = os.path.join(os.path.dirname(os.path.realpath(__file__)), os.pardir, "docs", "REFUSALS.md")


def causes():
    """The cause of each refusal in words: the first that the page of refusals has."""
    rows = re.findall(r"^\| (\d+) \| (.*?) \|", content(REFUSALS).decode(), re.M)
    return {int(number): cause for number, cause in reversed(rows)}


def place(text, number, at):
    """Where a refusal stands, in words."""
    if number in (10, 11, 12, 15, 20):
        return ""
    if number in (13, 14) and at == 255:
        return " at the length"
    if number > 8 and number != 21:
        return f" at {text.names[at]}" if at < len(text.names) else f" at machine {at}, which {TEXT} does not have"
    end = 0
    for data, what, where in text.records():
        end += len(data)
        if at < end:
            return f" at {what}, {where}"
    return f" at byte {at}, behind the end of the sheet"


def shown(text):
    """What ./show prints of each machine and move, and the same in names."""
    lines, number = {}, lambda modes: " ".join(map(str, modes))
    for n, machine in enumerate(text.machines):
        line = f"machine {n}: modes {len(machine.modes)}, live {number(machine.live())}"
        lines[line] = f"machine {n}, {machine.name}: {machine.words()}"
    for n, move in enumerate(text.moves):
        needs = "".join(f", needs machine {other} in {number(modes)}" for other, modes in move.needs.items())
        line = f"move {n}: machine {move.machine} from {move.start} to {move.end}, command {move.command}{needs}"
        lines[line] = f"move {n}, {text.move(move)}" + f", waits for {text.needs(move)}" * bool(needs)
    return lines


def told(text, line, known, words):
    """A line in names, and the status that it stands for."""
    step = re.fullmatch(r"(\d{1,9}) (\d{1,9}) (\d{1,9})", line)
    done = re.fullmatch(r"done (\d+) bound (\d+)", line)
    refused = re.fullmatch(r"refused (\d{1,9}) (\d{1,9})(: .*)?", line)
    if step:
        machine, command, number = map(int, step.groups())
        if number >= len(text.moves):
            return f"{line}: {TEXT} has no move {number}", 1
        move = text.moves[number]
        if (move.machine, move.command) != (machine, command):
            return f"{line}: in {TEXT}, move {number} is {text.move(move)}", 1
        return text.move(move, f", move {number}"), 0
    if done:
        commands = "1 command" if done[1] == "1" else f"{done[1]} commands"
        return f"done after {commands}; no wish takes more than {done[2]}, from any state", 0
    if refused:
        number, at = int(refused[1]), int(refused[2])
        return (f"refused {number}{place(text, number, at)}: {words[number]}" if number in words else line), 1
    if re.match(r"(machine|move) \d+: ", line) and line not in known:
        return f"{line}: {TEXT} does not say so", 1
    return known.get(line, line), 0


def tell(folder):
    text, words = Text(folder), causes()
    known, status = shown(text), complain(amiss(folder, text.data(), BYTES))
    lines = sys.stdin.buffer.read().decode(errors="replace").splitlines()
    if not lines:
        raise Unable("nothing to tell on standard input")
    for line in lines:
        said, grade = told(text, line, known, words)
        print(said)
        status = max(status, grade)
    return status
