"""The files of a folder, held against its text or written from it."""

import os
import tempfile

from names.faults import Unable, complain, content
from names.page import CLOSING, page
from names.text import BYTES, PAGE, TEXT, Text


def files(text):
    """Every file that is written, by name."""
    return {**text.data(), PAGE: page(text).encode()}


def amiss(folder, right, names):
    """What stands in a folder under these names and is not as it should be."""
    for name in names:
        path = os.path.join(folder, name)
        if not os.path.lexists(path):
            if name in right:
                yield f"{path} is missing"
        elif name not in right:
            yield f"{path} is there, but {TEXT} does not say it"
        elif content(path) != right[name]:
            yield f"{path} is not what {TEXT} says"


def check(folder):
    return complain(amiss(folder, files(Text(folder)), [*BYTES, PAGE]))


def replaceable(path):
    """Says no where a folder is in the way, or a page that somebody wrote by hand."""
    if os.path.isdir(path):
        raise Unable(f"{path} is a folder")
    if os.path.basename(path) == PAGE and os.path.lexists(path) and CLOSING.encode() not in content(path):
        raise Unable(f"{path} was written by hand: give it another name, then write again")


def put(folder, new):
    """Writes all files aside first, so that a failure leaves the old ones."""
    with tempfile.TemporaryDirectory(dir=folder, prefix=".kitchen") as aside:
        for name, data in new.items():
            with open(os.path.join(aside, name), "wb") as file:
                file.write(data)
        for name in new:
            os.replace(os.path.join(aside, name), os.path.join(folder, name))


def write(folder):
    new = files(Text(folder))
    for name in new:
        replaceable(os.path.join(folder, name))
    put(folder, new)
    return check(folder)
