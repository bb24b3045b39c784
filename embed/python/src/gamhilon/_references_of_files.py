"""References of several files, as commands and documents name them."""
from __future__ import annotations

from typing import Callable, Dict, List, Optional, Sequence

from . import references
from ._console import name_of


def items_of_files(paths: Sequence[str], locale: Optional[str],
                   warn: Callable[[str, str], None]) -> List[references.Item]:
    """The references of files; of those with one key the first counts. Warns of what is no entry,
    with the name of the file. Raises ReferencesError and OSError."""
    found: Dict[str, references.Item] = {}
    for path in paths:
        told = references.load(path, lang=locale or 'en-US')
        for problem in told.problems:
            warn(name_of(path), problem)
        for item in told.items:
            found.setdefault(str(item['id']), item)
    return list(found.values())
