"""What is wrong and odd in the texts of `gamhilon.cite`."""
from __future__ import annotations

from dataclasses import dataclass
from typing import Any, Dict, List, Optional, Tuple

from . import _faults

__all__ = ['TextFault', 'TextWarning']


@dataclass(frozen=True)
class TextWarning:
    """Something that is read otherwise than it stands in a text.

    `file` is the text: `style`, `locales`, `locales/0` for the first of the locale files, `items`,
    `citations` or `options`. The place in it is a line and a column, both from 1, or the JSON
    Pointer (RFC 6901) to a part of its JSON, or the `field` of an `entry` of BibTeX or RIS; none of
    these where the whole text is meant. `message` is for people.
    """

    file: str
    message: str
    pointer: Optional[str] = None
    line: Optional[int] = None
    column: Optional[int] = None
    entry: Optional[str] = None
    field: Optional[str] = None

    def __str__(self) -> str:
        place = f' {self.pointer}:' if self.pointer else ''
        if self.line is not None:
            place = f'{self.line}:{self.column}:'
        if self.entry is not None:
            place = f' {self.entry}: {self.field}:'
        return _faults.in_one_line(f'{self.file}:{place} {self.message}')


@dataclass(frozen=True)
class TextFault(TextWarning):
    """What is wrong with a text.

    A style file that stands for another one has the link to that as `parent`, and maybe as
    `parent_locale` the language to be asked for then.
    """

    parent: Optional[str] = None
    parent_locale: Optional[str] = None


def findings_of(said: Dict[str, Any]) -> Tuple[Optional[TextFault], List[TextWarning]]:
    """The fault and the warnings that the library tells."""
    fault = TextFault(**said['fault']) if 'fault' in said else None
    return fault, [TextWarning(**warning) for warning in said['warnings']]
