"""A text from the bytes of a folder."""

import os
import re

from names.faults import Faulty, content
from names.sheet import Machine, mask
from names.text import TEXT, WISHES, Text, quote


class Sheet:
    """The bodies of a sheet's records, as far as a text says them. An amendment of three bytes withdraws a move."""

    def __init__(self):
        self.machines, self.moves, self.amendments = [], [], []

    def has(self, number, *modes):
        """Whether there is a machine with these modes."""
        return number < len(self.machines) and max(modes) < self.machines[number][0]

    def may_need(self, number, bits):
        return number < len(self.machines) and bits >> self.machines[number][0] == 0

    def is_move(self, body):
        others = body[4::2]
        return (len(body) >= 4 and len(body) % 2 == 0 and self.has(*body[:3]) and others == bytes(sorted(set(others)))
                and all(map(self.may_need, others, body[5::2])))

    def says(self, kind, body):
        """Whether a text says such a record behind those so far."""
        if kind == 1:
            return len(body) == 2 and not (self.moves or self.amendments) and body[1] >> body[0] == 0
        if kind == 2:
            return self.is_move(body) and not self.amendments
        if kind == 5:
            return len(body) == 3 and self.has(*body[:2])
        return kind == 4 and self.is_move(body)

    def add(self, kind, body):
        {1: self.machines, 2: self.moves}.get(kind, self.amendments).append(body)


def apart(path, data):
    """A sheet taken apart. Stops at the first byte that no text gives."""
    sheet, at = Sheet(), 0
    while True:
        size, kind = (int.from_bytes(data[start:start + 2], "little") for start in (at, at + 2))
        body = data[at + 4:at + 4 + size]
        if len(data) < at + 4 + size:
            raise Faulty(f"{path}: byte {at}: a record is cut short or missing, so no text says this")
        if not sheet.says(kind, body) and (kind, size) != (3, 0):
            raise Faulty(f"{path}: byte {at}: no text says this record")
        at += 4 + size
        if kind == 3 and at < len(data):
            raise Faulty(f"{path}: byte {at}: no text says the bytes from here on")
        if kind == 3:
            return sheet
        sheet.add(kind, body)


def toml(value):
    """A value as TOML, on one line."""
    if type(value) is list:
        return f"[{', '.join(map(toml, value))}]"
    return f"{{ {', '.join(pairs(value))} }}" if type(value) is dict else quote(value)


def pairs(table):
    """Each key of a table with its value, as TOML."""
    return [f"{key if re.fullmatch('[A-Za-z0-9_-]+', key) else quote(key)} = {toml(value)}" for key, value in table.items()]


def lean(table, *spare):
    """A table without the keys that are empty and may be missing."""
    return {key: value for key, value in table.items() if value or key not in spare}


def chosen(machine, bits):
    """The modes that a byte allows: the name of one, else a list."""
    names = [mode for n, mode in enumerate(machine.modes) if bits >> n & 1]
    return names[0] if len(names) == 1 else names


def said_move(machines, body):
    """A move by names, or the withdrawal of one."""
    if len(body) == 3:
        number, start, command = body
        machine = machines[number]
        return {"machine": machine.name, "from": machine.modes[start], "command": command, "withdrawn": True}
    number, start, end, command, *needs = body
    machine, needs = machines[number], ((machines[n], bits) for n, bits in zip(needs[::2], needs[1::2]))
    said = {"machine": machine.name, "from": machine.modes[start], "to": machine.modes[end], "command": command,
            "needs": {other.name: chosen(other, bits) for other, bits in needs}}
    return lean(said, "needs")


def said_state(machines, data, values):
    """A state by names, or as bytes where names cannot say it."""
    if len(data) != 2 * len(machines) or any(tag > 1 for tag in data[1::2]) or any(
            mode >= len(machine.modes) for machine, mode in zip(machines, data[::2])):
        return list(data)
    values["tags"] = [machine.name for machine, tag in zip(machines, data[1::2]) if tag]
    return {machine.name: machine.modes[mode] for machine, mode in zip(machines, data[::2])}


def said_wish(machines, data, values, name):
    """A wish by names, or as bytes where names cannot say it."""
    if len(data) > len(machines) or any(bits >> len(machine.modes) for machine, bits in zip(machines, data)):
        return list(data)
    last = None
    if len(data) < len(machines):
        values["short"].append(name)
        last = len(data) - 1
    return {machine.name: chosen(machine, bits) for n, (machine, bits) in enumerate(zip(machines, data))
            if bits != mask(machine.all()) or n == last}


def named(folder, sheet):
    """A title and the machines of a sheet, by the names of the text if that has as many modes, else by made ones."""
    if os.path.lexists(os.path.join(folder, TEXT)):
        text = Text(folder)
        if [len(machine.modes) for machine in text.machines] == [count for count, _ in sheet.machines]:
            return text.title, text.machines
    return "A kitchen", [Machine(f"machine_{n}", [f"mode_{mode}" for mode in range(count)])
                         for n, (count, _) in enumerate(sheet.machines)]


def read(folder):
    path = os.path.join(folder, "sheet.bin")
    sheet = apart(path, content(path))
    title, machines = named(folder, sheet)
    values, tables = {"title": title, "machines": [], "moves": [], "amendments": [], "tags": [], "short": []}, {}
    for machine, (_, live) in zip(machines, sheet.machines):
        out = [mode for n, mode in enumerate(machine.modes) if not live >> n & 1]
        said = {"name": machine.name, "modes": machine.modes, "out_of_order": out, "about": machine.about}
        values["machines"].append(lean(said, "out_of_order", "about"))
    values["moves"] = [said_move(machines, body) for body in sheet.moves]
    values["amendments"] = [said_move(machines, body) for body in sheet.amendments]
    for name in ["state", *WISHES]:
        path = os.path.join(folder, f"{name}.bin")
        if os.path.lexists(path):
            data = content(path)
            said = said_state(machines, data, values) if name == "state" else said_wish(machines, data, values, name)
            if said == []:
                raise Faulty(f"{path}: no text says a state of no bytes")
            (values if type(said) is list else tables)[name] = said
    for key, value in lean(values, "amendments", "tags", "short").items():
        if key in ("machines", "moves", "amendments"):
            value = [f"\n    {toml(item)}," for item in value]
            print(f"{key} = [{''.join(value)}\n]")
        else:
            print(f"{key} = {toml(value)}")
    for name, said in tables.items():
        print("\n".join(["", f"[{name}]", *pairs(said)]))
    return 0
