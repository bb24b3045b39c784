"""Warnings, which Sphinx shows with their place."""
from __future__ import annotations

from typing import Any, Optional, Tuple, Union

from sphinx.util import logging

__all__ = ['Place', 'say', 'warn']

Place = Union[str, Tuple[str, Optional[int]], None]
"""The name of a page and a line in it, or that of a file."""

_LOGGER = logging.getLogger(__name__)


def warn(message: str, place: Place, subtype: str) -> None:
    """A warning, of the type `gamhilon` and a type below that."""
    location: Any = place
    _LOGGER.warning(message, location=location, type='gamhilon', subtype=subtype)


def say(message: str) -> None:
    """What is shown where more is asked for."""
    _LOGGER.verbose(message)
