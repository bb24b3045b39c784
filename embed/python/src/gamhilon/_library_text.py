"""Texts as the shared library takes them (gamhilon_text of gamhilon.h)."""
from __future__ import annotations

import ctypes

__all__ = ['TextStruct', 'given']


class TextStruct(ctypes.Structure):
    """gamhilon_text of gamhilon.h."""

    _fields_ = [('bytes', ctypes.c_char_p), ('length', ctypes.c_size_t)]


def given(text: bytes) -> TextStruct:
    """A text, which is there as long as what is given."""
    return TextStruct(text, len(text))
