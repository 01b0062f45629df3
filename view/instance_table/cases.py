"""The instances that the words name."""
from __future__ import annotations

import os
import pathlib
from typing import Dict, List

from schedule_view.files import cause
from schedule_view.refusal import Refusal, printable


def cases(words: List[str]) -> List[str]:
    """The files of the words, each once: a file as it is, of a folder those that end in `.json`, by their names.

    A path is written without what doesn't change it, as a `./` before it, and is the name of its row.
    """
    found: Dict[str, None] = {}
    for word in words:
        for path in _in_folder(word) if os.path.isdir(word) else [word]:
            name = os.path.normpath(path)
            if printable(name) != name:
                raise Refusal(name, "", "a name that can't be printed")
            found[name] = None
    return list(found)


def _in_folder(folder: str) -> List[str]:
    try:
        names = sorted(entry.name for entry in os.scandir(folder) if entry.name.endswith(".json") and entry.is_file())
    except OSError as error:
        raise Refusal(folder, "", f"can't be read: {cause(error)}") from None
    if not names:
        raise Refusal(folder, "", "no file in it ends in .json")
    return [os.path.join(folder, name) for name in names]


def certificate_paths(folder: str, names: List[str]) -> Dict[str, str]:
    """Where the certificate of each instance goes. Refused where two would go to one file."""
    owners: Dict[str, str] = {}
    for name in names:
        path = os.path.join(folder, pathlib.PurePath(name).stem + ".cert")
        if path in owners:
            raise Refusal(path, "", f"would be the certificate of {owners[path]} and of {name}")
        owners[path] = name
    return {name: path for path, name in owners.items()}
