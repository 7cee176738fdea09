"""The page of a folder, in Markdown."""

from names.text import TEXT

# The last line of every page, by which a page is known.
CLOSING = f"This page and the bytes beside it are written from [{TEXT}]({TEXT}) by `./kitchen write`."


def table(heads, rows):
    """A table of the page, if it has rows."""
    cells = [[" ".join(str(cell).split()).replace("|", "\\|") for cell in row] for row in (heads, *rows)]
    lines = [f"| {' | '.join(row)} |".replace("|  |", "| |") for row in cells]
    return "\n".join([lines[0], "|---" * len(heads) + "|", *lines[1:]]) if lines[1:] else ""


def page(text):
    """The page of a folder."""
    parts = [f"# {text.title}", text.about]
    if text.like:
        parts += [f"Machines and moves are those of {text.like}" + ", the moves as amended here" * bool(text.own) + "."]
    else:
        parts += machines(text)
    if text.own or not text.like:
        parts += moves(text)
    if text.own:
        parts += amendments(text)
    parts += [run(text), text.notes, CLOSING]
    return "\n\n".join(part for part in parts if part) + "\n"


def machines(text):
    rows = ([n, machine.name, machine.about, machine.words()] for n, machine in enumerate(text.machines))
    return ["## Machines", table(["No.", "Machine", "What it is", "Modes"], rows) or "None."]


def moves(text):
    """The part of the page about the moves that stand."""
    rows = ([n, machine.name, machine.modes[move.start], machine.modes[move.end], move.command, waits(text, move)]
            for n, move in enumerate(text.moves) for machine in [text.machines[move.machine]])
    return ["## Moves", table(["No.", "Machine", "From", "To", "Command", "Waits for"], rows) or "None."]


def waits(text, move):
    return text.needs(move) or "nothing"


def amendments(text):
    """The part of the page about what became of moves."""
    def leads(move, otherwise):
        return f"to {text.machines[move.machine].modes[move.end]}, waits for {waits(text, move)}" if move else otherwise

    rows = ([n, text.names[number], text.machines[number].modes[start], command, leads(was, "no such move"),
             leads(amendment.move, "withdrawn")]
            for n, (amendment, was) in enumerate(zip(text.amendments, text.found)) for number, start, command in [amendment.key])
    return ["## Amendments", "They act in this order; the moves above are those that then stand.",
            table(["No.", "Machine", "From", "Command", "Was", "Is now"], rows)]


def run(text):
    """The part of the page about the state and the wishes: by machine what names say, then all bytes."""
    columns = {}
    if text.state is not None:
        columns["state"] = [machine.modes[mode] + ", tagged" * (n in text.tags)
                            for machine, (n, [mode]) in zip(text.machines, text.state.items())]
    for name, wish in text.wishes.items():
        columns[name] = ["any mode" if modes is None else machine.some(modes) for machine, modes in zip(text.machines, wish)]
        columns[name] += ["any mode, past the end"] * (len(text.machines) - len(wish))
    rows = ([n, machine.name, *cells] for n, (machine, *cells) in enumerate(zip(text.machines, *columns.values()))
            if set(cells) - {"any mode"})
    parts = [table(["No.", "Machine", *map(str.capitalize, columns)], rows)]
    for name, data in list(text.data().items())[1:]:
        what = "a mode and a tag for each machine" if name == "state.bin" else "a bit for each mode that a machine may be in"
        parts.append(f"`{name}`, {what}: {' '.join(map(str, data)) or 'no bytes'}.")
    return "\n\n".join(["## State and wish", *filter(None, parts)]) if any(parts) else ""
