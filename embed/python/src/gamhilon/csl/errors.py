"""Why nothing is rendered."""
from __future__ import annotations

from typing import Optional

from ..errors import GamhilonError

__all__ = [
    'AbbreviationsRefused', 'CitationRefused', 'EntriesRefused', 'StyleMissing', 'StyleRefused',
]


class StyleMissing(GamhilonError, ValueError):
    """There is no style of this name or path."""


class _FileRefused(GamhilonError, ValueError):
    """A file isn't one that can be read. The message says all of it."""

    def __init__(self, file: str, line: Optional[int], column: Optional[int], fault: str) -> None:
        super().__init__(file, line, column, fault)
        self.file, self.line, self.column, self.fault = file, line, column, fault

    def __str__(self) -> str:
        place = '' if self.line is None else f':{self.line}:{self.column}'
        return f'{self.file}{place}: {self.fault}'


class StyleRefused(_FileRefused):
    """A style file or a locale file isn't one that can be read.

    `file` is its path, or `the style` where its text was handed in; `line` and `column` count from
    1, and are None where the fault has no place. The message says all of it.
    """


class AbbreviationsRefused(_FileRefused):
    """A file of abbreviations isn't one that can be read.

    `file` is its path, or `the abbreviations` where its value was handed in; `line` and `column`
    count from 1, and are None where the fault has no place. The message says all of it.
    """


class CitationRefused(GamhilonError, ValueError):
    """A citation can't be read, or cites an entry that isn't there.

    `citation` is its index, `cite` that of its cite, both from 0, and `field` the key of that; None
    where the fault is in a whole citation or cite, or in none of them. The message says all of it.
    """

    def __init__(self, citation: Optional[int], cite: Optional[int], field: Optional[str],
                 fault: str) -> None:
        super().__init__(citation, cite, field, fault)
        self.citation, self.cite, self.field, self.fault = citation, cite, field, fault

    def __str__(self) -> str:
        if self.citation is None:
            return self.fault
        return f'{place(self.citation, self.cite, self.field)}: {self.fault}'


class EntriesRefused(GamhilonError, ValueError):
    """The entries are no list of entries."""


def place(citation: int, cite: Optional[int] = None, field: Optional[str] = None) -> str:
    """The place of a fault or a warning, as messages name it."""
    parts = [f'citation {citation}']
    if cite is not None:
        parts.append(f'cite {cite}')
    if field is not None:
        parts.append(field)
    return ', '.join(parts)
