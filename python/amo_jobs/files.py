"""Files that hold a text, and folders whose names are on the disk."""

from __future__ import annotations

import json
import os
from contextlib import suppress
from typing import Any, Optional

from amo_jobs.messages import refused


def content(path: str, is_json: bool = False) -> Any:
    """Returns the text of a file that `place` made, or the value that the text states as JSON; None
    if the file is missing."""
    with suppress(FileNotFoundError), open(path, errors="surrogateescape") as file:
        try:
            return json.load(file) if is_json else file.read().rstrip("\n")
        except ValueError:
            raise refused(f"`{path}`: it is damaged; restore this file from a copy, or move it away"
                          " if you know what it held") from None
    return None


def bytes_of(path: str) -> Optional[bytes]:
    """Returns the bytes of a file; None if it is missing."""
    with suppress(FileNotFoundError, NotADirectoryError), open(path, "rb") as file:
        return file.read()
    return None


def place(path: str, text: str) -> None:
    """Writes a text to a new file, and gives the file this name, on the disk."""
    with open(f"{path}.new", "w", errors="surrogateescape") as file:
        file.write(f"{text}\n")
        file.flush()
        os.fsync(file.fileno())
    os.replace(f"{path}.new", path)
    sync_folder(os.path.dirname(path))


def sync_folder(path: str) -> None:
    """Syncs which names stand in a folder."""
    folder = os.open(path, os.O_RDONLY | os.O_DIRECTORY)
    os.fsync(folder)
    os.close(folder)
