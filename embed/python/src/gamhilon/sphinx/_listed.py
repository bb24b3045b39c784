"""What pages cite, and which reference lists they have."""
from __future__ import annotations

from dataclasses import dataclass
from typing import List, Optional

from ..csl import Cite

__all__ = ['Cited', 'LIST_TYPES', 'Listed']

LIST_TYPES = ('citation', 'bullet', 'enumerated')


@dataclass(frozen=True)
class Cited:
    """A citation: its page and its place there, its line, its role, its cites, and, where it stands
    in a note, the number of that, and whether it is all of that. What is cited in a footnote of a
    work (`is_foot`) isn't cited in lists."""

    docname: str
    number: int
    line: Optional[int]
    form: str
    cites: List[Cite]
    note: Optional[int] = None
    is_note: bool = False
    is_foot: bool = False


@dataclass(frozen=True)
class Listed:
    """A reference list: its page and its place there, its line, and what its options say. `files`
    and `style` are None where they are those of conf.py; `start` is 0 where the numbers go on."""

    docname: str
    number: int
    line: int
    files: Optional[List[str]]
    style: Optional[str]
    expression: str
    keys: List[str]
    key_prefix: str
    label_prefix: str
    list_type: str
    enumtype: str
    start: int
