"""The known word that was probably meant."""
from __future__ import annotations

import difflib
from typing import Iterable


def meant(word: str, known: Iterable[str]) -> str:
    """Asks whether a known word was meant, to stand behind a message; nothing where none is
    near."""
    found = difflib.get_close_matches(word, sorted(known), 1, 0.7)
    return f': is {found[0]!r} meant?' if found else ''
