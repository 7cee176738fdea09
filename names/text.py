"""The text of a folder: what it says, and its faults."""

import json
import os
import re
import tomllib

from names.faults import Faulty, content
from names.lines import Lines
from names.sheet import Amendment, Machine, Move, amended, mask, octets, record

TEXT, PAGE = "kitchen.toml", "README.md"
WISHES = ["wish"] + [f"wish{n}" for n in range(2, 9)]
BYTES = [f"{name}.bin" for name in ["sheet", "state", *WISHES]]

# The keys of each table, and the kinds of value that each may have.
TOP = {"title": [str], "about": [str], "like": [str], "machines": [list], "moves": [list], "amendments": [list], "tags": [list],
       "short": [list], "notes": [str], "state": [dict, list], **{wish: [dict, list] for wish in WISHES}}
MACHINE = {"name": [str], "modes": [list], "out_of_order": [list], "about": [str]}
MOVE = {"machine": [str], "from": [str], "to": [str], "command": [int], "needs": [dict]}
AMENDMENT = {**MOVE, "withdrawn": [bool]}
# Those that find a move, and those that a withdrawn one does not have.
FINDING, LEADING = ["machine", "from", "command"], ["to", "needs"]
KINDS = {str: "text in quotes", list: "a list", int: "a whole number", bool: "true or false", dict: "a table"}


def quote(value):
    """A name or a number as TOML."""
    return json.dumps(value, ensure_ascii=False).replace("\x7f", "\\u007f")


class Text:
    """What the text of a folder says. Its faults are gathered and raised together."""

    def __init__(self, folder, above=()):
        self.folder, self.path, self.faults, self.lines = folder, os.path.join(folder, TEXT), [], {}
        values = self.parsed()
        values = self.fields((), values, TOP, ["title"] if "like" in values else ["title", "machines", "moves"])
        self.title = " ".join(values.get("title", "").split())
        self.about, self.notes = (values.get(key, "").strip() for key in ("about", "notes"))
        self.machines, self.sent, self.amendments, self.names, self.like = [], [], [], [], None
        if "like" in values:
            self.take_over(values, (*above, os.path.realpath(folder)))
            self.settle()
        else:
            self.take_machines(values)
            self.take_moves(values)
        self.take_amendments(values)
        self.take_state(values)
        self.take_wishes(values)
        self.take_bytes(values)
        self.settle()

    def settle(self):
        """Raises the faults that were found."""
        if self.faults:
            faults = sorted(self.faults, key=lambda fault: fault[0])
            raise Faulty(*(f"{self.path}:{line}: {reason}" for line, reason in faults))

    def parsed(self):
        """The values of the text. Keeps the line of each."""
        data = content(self.path)
        try:
            text = data.decode()
            values = tomllib.loads(text)
            self.lines = Lines(text)
            return values
        except UnicodeDecodeError as error:
            line, reason = data.count(b"\n", 0, error.start) + 1, "a byte that is not UTF-8"
        except RecursionError:
            line, reason = 1, "nested too deep"
        except ValueError as error:
            found = re.search(r" \(at line (\d+), column \d+\)$", str(error))
            line, reason = int(found[1]) if found else data.count(b"\n") + 1, str(error)
        raise Faulty(f"{self.path}:{line}: {reason}")

    def fault(self, path, reason):
        while path not in self.lines:
            path = path[:-1]
        self.faults.append((self.lines[path], reason))

    def where(self, path):
        return f"{self.path}:{self.lines[path]}"

    def fields(self, path, table, known, needed=()):
        """The values of a table that are known and of a right kind."""
        if type(table) is not dict:
            self.fault(path, "a table must stand here: { .. }")
            return {}
        for key, value in table.items():
            if key not in known:
                self.fault(path + (key,), f"unknown: {quote(key)}; known here: {', '.join(known)}")
            elif type(value) not in known[key]:
                self.fault(path + (key,), f"{key} must be {' or '.join(KINDS[kind] for kind in known[key])}")
        for key in needed:
            if key not in table:
                self.fault(path, f"missing: {key}")
        return {key: value for key, value in table.items() if type(value) in known.get(key, [])}

    def places(self, path, names, known=None, unknown=""):
        """Where the names of a list, each there once, stand among those that are known."""
        found = []
        for n, name in enumerate(names):
            if type(name) is not str or not (name.strip() and name.isprintable()):
                self.fault(path + (n,), "a name must be words on one line, in quotes")
            elif name in names[:n]:
                self.fault(path + (n,), f"a second {quote(name)}")
            elif known is not None and name not in known:
                self.fault(path + (n,), f"{unknown} {quote(name)}")
            else:
                found.append((known or names).index(name))
        return found

    def modes(self, path, number, value):
        """The modes of a machine that a name or a list of names says, by number."""
        machine = self.machines[number]
        names = value if type(value) is list else [value]
        return sorted(self.places(path, names, machine.modes, f"{machine.name} has no mode"))

    def by_machine(self, path, table, kinds, needed=()):
        """The modes that a table says of machines, all by number, machines rising."""
        said = self.fields(path, table, dict.fromkeys(self.names, kinds), needed)
        numbers = sorted(map(self.names.index, said))
        return {n: self.modes(path + (self.names[n],), n, said[self.names[n]]) for n in numbers}

    def take_over(self, values, above):
        """Machines and moves of another text, with its amendments."""
        for key in ("machines", "moves"):
            if key in values:
                self.fault((key,), f"{key} are those that like leads to")
        folder = os.path.normpath(os.path.join(self.folder, values["like"]))
        if os.path.realpath(folder) in above:
            self.fault(("like",), "like leads round in a circle")
        elif not os.path.isfile(os.path.join(folder, TEXT)):
            self.fault(("like",), f"like leads nowhere: no {os.path.join(folder, TEXT)}")
        else:
            other = Text(folder, above)
            self.machines, self.sent, self.amendments, self.names = other.machines, other.sent, other.amendments, other.names
            self.like = f"[{other.title}]({values['like'].rstrip('/')}/{PAGE})"

    def take_machines(self, values):
        for n, value in enumerate(values.get("machines", [])):
            path = ("machines", n)
            got = self.fields(path, value, MACHINE, ["name", "modes"])
            name, modes = got.get("name"), got.get("modes")
            self.places(path + ("modes",), modes or [])
            out = self.places(path + ("out_of_order",), got.get("out_of_order", []), modes, f"{name} has no mode")
            self.names.append(name)
            self.machines.append(Machine(name, modes, out, got.get("about", ""), self.where(path)))
        if len(self.places(("machines",), self.names)) < len(self.names):
            self.settle()  # what names machines cannot be judged

    def step(self, path, got):
        """The move that the values of a table say, in a list; the list is empty where they do not say which."""
        needs = self.by_machine(path + ("needs",), got.get("needs", {}), [str, list])
        if not 0 <= got.get("command", 0) <= 255:
            self.fault(path + ("command",), f"command {got['command']} is no byte: 1 to 255")
        machine = [got["machine"]] if all(key in got for key in FINDING) else []
        moves = []
        for number in self.places(path + ("machine",), machine, self.names, "no machine"):
            modes = [self.modes(path + (key,), number, got[key]) or [0] for key in ("from", "to") if key in got]
            moves.append(Move(number, modes[0][0], modes[-1][0], got["command"], needs, self.where(path)))
        return moves

    def take_moves(self, values):
        for n, value in enumerate(values.get("moves", [])):
            path = ("moves", n)
            self.sent += self.step(path, self.fields(path, value, MOVE, [*FINDING, "to"]))

    def change(self, path, value):
        """The amendment that a table says, in a list, as of a move."""
        withdrawn = type(value) is dict and value.get("withdrawn", False) is not False
        got = self.fields(path, value, AMENDMENT, FINDING if withdrawn else [*FINDING, "to"])
        for key in LEADING:
            if withdrawn and key in got:
                self.fault(path + (key,), f"a withdrawn move has no {key}")
        return [Amendment(move.key(), None if withdrawn else move, move.where) for move in self.step(path, got)]

    def take_amendments(self, values):
        """The amendments of this text, behind those of the text that it is like, and the moves that then stand."""
        self.own = []
        for n, value in enumerate(values.get("amendments", [])):
            self.own += self.change(("amendments", n), value)
        self.amendments = self.amendments + self.own
        self.moves, self.found = amended(self.sent, self.amendments)

    def take_state(self, values):
        self.tags = self.places(("tags",), values.get("tags", []), self.names, "no machine")
        self.state = None
        if type(values.get("state")) is dict:
            self.state = self.by_machine(("state",), values["state"], [str], self.names)
        elif "tags" in values:
            self.fault(("tags",), "tags hang on a state by names, and there is none")

    def take_wishes(self, values):
        """The modes that each wish by names allows: of every machine, or of those up to the last that it names."""
        tables = {name: values[name] for name in WISHES if type(values.get(name)) is dict}
        short = self.places(("short",), values.get("short", []), list(tables), "no wish by names:")
        self.wishes = {}
        for place, (name, table) in enumerate(tables.items()):
            said = self.by_machine((name,), table, [str, list])
            length = max(said, default=-1) + 1 if place in short else len(self.machines)
            self.wishes[name] = [said.get(n) for n in range(length)]

    def take_bytes(self, values):
        """What is given as bytes."""
        self.given = {name: values[name] for name in ["state", *WISHES] if type(values.get(name)) is list}
        for name, data in self.given.items():
            if not data:
                self.fault((name,), "a list of bytes must have some")
            for n, value in enumerate(data):
                if type(value) is not int or not 0 <= value <= 255:
                    self.fault((name, n), "a byte must be a whole number from 0 to 255")

    def move(self, move, more=""):
        """A move in words."""
        machine = self.machines[move.machine]
        return f"{machine.name}: {machine.modes[move.start]} to {machine.modes[move.end]} (command {move.command}{more})"

    def amendment(self, amendment):
        """An amendment in words."""
        if amendment.move:
            return self.move(amendment.move)
        number, start, command = amendment.key
        return f"{self.names[number]}: from {self.machines[number].modes[start]} (command {command}) withdrawn"

    def needs(self, move):
        """What a move waits for, in words."""
        return ", ".join(f"{self.machines[n].name} {self.machines[n].some(modes)}" for n, modes in move.needs.items())

    def records(self):
        """Each record of the sheet: its bytes, what it is, and where that stands."""
        for n, machine in enumerate(self.machines):
            yield machine.record(), f"machine {n}, {machine.name}", machine.where
        sent = " as sent" * bool(self.amendments)
        for n, move in enumerate(self.sent):
            yield move.record(), f"move {n}{sent}, {self.move(move)}", move.where
        for n, amendment in enumerate(self.amendments):
            yield amendment.record(), f"amendment {n}, {self.amendment(amendment)}", amendment.where
        yield record(3), "the end of the sheet", self.path

    def clean(self):
        """The sheet without amendments: machines, the moves that stand, and the end."""
        return b"".join(item.record() for item in [*self.machines, *self.moves]) + record(3)

    def data(self):
        """The files of bytes, by name."""
        files = {"sheet.bin": b"".join(data for data, _, _ in self.records())}
        files |= {f"{name}.bin": bytes(data) for name, data in self.given.items()}
        if self.state is not None:
            files["state.bin"] = octets(value for n, [mode] in self.state.items() for value in (mode, n in self.tags))
        for name, wish in self.wishes.items():
            said = zip(self.machines, wish)
            files[f"{name}.bin"] = bytes(mask(machine.all() if modes is None else modes) for machine, modes in said)
        return {name: files[name] for name in BYTES if name in files}
