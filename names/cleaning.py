"""The clean sheet of a folder: its machines, the moves that stand, and the end."""

import os
import subprocess
import tempfile

from names.faults import Unable, complain
from names.files import put
from names.telling import causes, told
from names.text import Text, quote

SHOW = os.path.join(os.path.dirname(os.path.realpath(__file__)), os.pardir, "show")


def vacant(path):
    """Says no where a new file cannot stand."""
    if not os.path.basename(path):
        raise Unable(f"{quote(path)} names no file")
    if os.path.lexists(path):
        raise Unable(f"{path} is there already: name a new file")
    if not os.path.isdir(os.path.dirname(path) or "."):
        raise Unable(f"no folder for {path}")


def understood(sheet):
    """What the library reads in a sheet: the lines of ./show."""
    with tempfile.TemporaryDirectory() as folder:
        put(folder, {"sheet.bin": sheet})
        ran = subprocess.run([SHOW, folder], stdout=subprocess.PIPE, check=False)
    if ran.returncode not in (0, 1) or not ran.stdout:
        raise Unable("the library could not be asked what it reads in the sheet")
    return ran.stdout.decode().splitlines()


def clean(folder, path):
    """Writes the clean sheet to a new file, where the library takes the sheet and reads the same in both."""
    text = Text(folder)
    vacant(path)
    sheet = understood(text.data()["sheet.bin"])
    said, status = told(text, sheet[-1], {}, causes())
    if status:
        return complain([said])
    if understood(text.clean()) != sheet:
        raise Unable("the library reads something else in the clean sheet, so it is not written")
    put(os.path.dirname(path) or ".", {os.path.basename(path): text.clean()})
    return 0
