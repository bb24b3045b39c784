"""What callers hand in: styles by name, path or text, and references as they have them."""
from __future__ import annotations

import os
from typing import Any, Iterable, List, Mapping, Tuple, Union

from .. import references
from ..references import References
from .warned import Warned

__all__ = ['ReferencesLike', 'StyleLike', 'items_of', 'read_of', 'style_of']

StyleLike = Union[str, 'os.PathLike[str]']
"""A style: its name, its path, or its text."""

ReferencesLike = Union[References, Iterable[Mapping[str, Any]], str, 'os.PathLike[str]']
"""References: what `references.load` gives, items of CSL-JSON, or the path of a file."""


def style_of(style: StyleLike) -> str:
    """A style as a text."""
    return os.fspath(style)


def items_of(given: ReferencesLike) -> Any:
    """The items of references. Raises ReferencesError and OSError where they are a file that can't
    be read."""
    return read_of(given)[0]


def read_of(given: ReferencesLike) -> Tuple[Any, List[Warned]]:
    """The items of references, and what is odd in the file that has them. Raises as `items_of`
    does."""
    name = 'the references'
    if isinstance(given, os.PathLike) or isinstance(given, str) and '\n' not in given:
        name = os.fspath(given)
        given = references.load(name)
    if not isinstance(given, References):
        return given, []
    return given.items, [Warned(name, problem) for problem in given.problems]
