"""Older names, which stay for a version."""
from __future__ import annotations

import warnings


def deprecated(older: str, newer: str, depth: int = 3) -> None:
    """Warns that a name has another one now."""
    warnings.warn(f'{older}: the name is now {newer}', DeprecationWarning, stacklevel=depth)
