#!/usr/bin/env python3
"""Respells this repository's own definitions and lemmas: words in snake case, each in every .rt, .antt and .edit file below crates/.

usage: python3 tools/respell.py       at the top of the repository, once, behind the kit's port.py

Names that would fall together with another one are in APART, with what they become.
"""

import os
import re
import sys

WORD = re.compile(r"[A-Za-z_][A-Za-z0-9_']*(?:-[A-Za-z0-9_']+)*")

# Whole names, before any other rule.
APART = {
    "four_bytes": "four_are_bytes",  # a lemma beside fourBytes
    "inGroup": "is_in_group",
    "isLive": "is_live_mode",
    "machineRead": "with_machine_read",
    "moveRead": "with_move_read",
    "noMove": "absent_move",
    "noGuard": "absent_guard",
    "noRoom": "has_no_room",
    "node_row": "node_row-at",  # a lemma beside nodeRow
    "readyBy": "is_ready_by",
    "sameMove": "is_same_move",
    "toldOf": "told_reply",
    "get_d_map": "get_or-map",
}
# A lemma of the antt files beside a definition; the .rt files have a function of that name.
APART_IN_ANTT = {"two_bytes": "two_are_bytes"}
# A name of std's in a lemma's name.
INNER = {"getD": "get_or"}


def snake(part):
    if part in INNER:
        return INNER[part]
    if not re.match(r"[a-z]", part):
        return part
    return re.sub(r"(?<=[a-z0-9])([A-Z])", lambda m: "_" + m.group(1).lower(), part)


def respelled(word, antt):
    if word in APART:
        return APART[word]
    if antt and word in APART_IN_ANTT:
        return APART_IN_ANTT[word]
    if re.match(r"x[0-9A-F_]+$", word):  # the tail of a hexadecimal number
        return word
    return "-".join(snake(p) for p in word.split("-"))


def files(root):
    for folder, dirs, names in os.walk(os.path.join(root, "crates")):
        dirs[:] = sorted(d for d in dirs if d not in ("out", "data"))
        for name in sorted(names):
            if name.endswith((".rt", ".antt", ".edit")):
                yield os.path.join(folder, name)


def main():
    if not os.path.isdir("crates"):
        sys.exit("respell: no folder crates here: run it at the top of the repository")
    changed = 0
    for path in files("."):
        with open(path, encoding="utf-8") as f:
            text = f.read()
        antt = path.endswith(".antt")
        new = WORD.sub(lambda m: m.group(0) if text[max(0, m.start() - 7) : m.start()] == "record." else respelled(m.group(0), antt), text)
        if new != text:
            changed += 1
            with open(path, "w", encoding="utf-8") as f:
                f.write(new)
    print(f"respell: {changed} files changed")


if __name__ == "__main__":
    main()
