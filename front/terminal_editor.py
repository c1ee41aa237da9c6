"""A script in the editor of the person, and back."""

import os
import shlex
import shutil
import subprocess
import tempfile
from typing import List

from front.terminal_reader import Reader
from front.terminal_text import Coding, to_bytes

# Which editors are tried where neither VISUAL nor EDITOR says one.
USUAL = ("editor", "nano", "vi")


class NotEdited(Exception):
    """There is no editor, or it failed; the text says which. What was edited isn't taken."""


def edited(script: bytes, reader: Reader, coding: Coding) -> bytes:
    """What the person makes of the script. The editor sees lines with line feeds, in the coding of the terminal.

    Raises NotEdited, and NoSuchCharacter where Mac Roman doesn't have a character of what was written."""
    command = _editor()
    with tempfile.TemporaryDirectory(prefix="yarvekko-") as folder:
        path = os.path.join(folder, "script.hypertalk")
        with open(path, "wb") as file:
            file.write(_out(script, coding))
        try:
            with reader.lent():
                status = subprocess.call(command + [path])
        except OSError as error:
            raise NotEdited("the editor %s can't be started: %s" % (command[0], error)) from None
        if status:
            raise NotEdited("the editor %s ended with status %d" % (command[0], status))
        with open(path, "rb") as file:
            return _back(file.read(), script, coding)


def _editor() -> List[str]:
    """The command of the editor."""
    said = os.environ.get("VISUAL") or os.environ.get("EDITOR")
    if said:
        return shlex.split(said)
    for name in USUAL:
        if shutil.which(name):
            return [name]
    raise NotEdited("there is no editor: set EDITOR to the command of one")


def _out(script: bytes, coding: Coding) -> bytes:
    """The bytes of the file for the editor: its last line has an end."""
    text = script.decode(coding.value, "surrogateescape").replace("\r", "\n")
    return (text + "\n" if text else "").encode("utf-8", "surrogateescape")


def _back(data: bytes, script: bytes, coding: Coding) -> bytes:
    """The script that a file of the editor holds. Where nothing was changed it is the script that was, also where
    that has line feeds in it."""
    if data == _out(script, coding):
        return script
    text = data.decode("utf-8", "surrogateescape").replace("\r\n", "\n").replace("\r", "\n")
    return to_bytes((text[:-1] if text.endswith("\n") else text).replace("\n", "\r"), coding)
