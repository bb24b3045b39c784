"""What is warned of."""
from __future__ import annotations

from dataclasses import dataclass
from typing import Optional

__all__ = ['Warned']


@dataclass(frozen=True)
class Warned:
    """Something that is odd, and doesn't keep the rest from being written: where it is, and what
    became of it. `citation` is the index of the citation in which it is, from 0, and `entry` the id
    of the entry; None where it is elsewhere. As a text it is a line that says both."""

    place: str
    message: str
    citation: Optional[int] = None
    entry: Optional[str] = None

    def __str__(self) -> str:
        return f'{self.place}: {self.message}'
