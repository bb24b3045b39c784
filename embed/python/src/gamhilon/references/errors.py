"""Why references aren't read."""
from __future__ import annotations

from ..errors import GamhilonError

__all__ = ['ReaderMissing', 'ReferencesError']


class ReferencesError(GamhilonError, ValueError):
    """A file is not of its form. The message names it."""


class ReaderMissing(GamhilonError, ImportError):
    """What reads files of this form isn't there."""
