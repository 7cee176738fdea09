"""Machines, moves and amendments, and their records."""

from dataclasses import dataclass


def mask(modes):
    """The byte that allows these modes; it holds the eight that a machine may have."""
    return sum(1 << mode for mode in modes) & 255


def octets(numbers):
    """Numbers as bytes. One that does not fit is more than a sheet may have, and so is 255."""
    return bytes(min(number, 255) for number in numbers)


def record(kind, body=()):
    """Length and kind, two bytes each, low byte first, then the body."""
    body = octets(body)[:65535]
    return len(body).to_bytes(2, "little") + kind.to_bytes(2, "little") + body


@dataclass
class Machine:
    name: str
    modes: list
    out: list = ()  # the modes that are out of order, by number
    about: str = ""
    where: str = ""  # file and line

    def all(self):
        return range(len(self.modes))

    def live(self):
        return [n for n in self.all() if n not in self.out]

    def record(self):
        return record(1, [len(self.modes), mask(self.live())])

    def words(self):
        """Every mode, in words."""
        return ", ".join(f"{n} {mode}" + " (out of order)" * (n in self.out) for n, mode in enumerate(self.modes))

    def some(self, modes):
        """Some modes, in words."""
        return " or ".join(self.modes[n] for n in modes) or "in no mode"


@dataclass
class Move:
    machine: int
    start: int
    end: int
    command: int
    needs: dict  # the modes of each machine that is needed, all by number, machines rising
    where: str = ""

    def key(self):
        """What an amendment finds it by."""
        return self.machine, self.start, self.command

    def record(self, kind=2):
        needs = [value for other, modes in self.needs.items() for value in (other, mask(modes))]
        return record(kind, [self.machine, self.start, self.end, self.command, *needs])


@dataclass
class Amendment:
    key: tuple  # of the move that it is for
    move: Move  # what takes the place of that move; None withdraws it
    where: str = ""

    def record(self):
        return self.move.record(4) if self.move else record(5, self.key)


def amended(sent, amendments):
    """The moves that stand after the amendments, in number order, and the one that each amendment found, or None."""
    moves, places, found = list(sent), {}, []
    for n, move in enumerate(sent):
        places.setdefault(move.key(), n)
    for amendment in amendments:
        place = places.get(amendment.key)
        found.append(None if place is None else moves[place])
        if found[-1]:
            moves[place] = amendment.move
    return [move for move in moves if move], found
