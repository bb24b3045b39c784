"""The texts of files of XML."""
from __future__ import annotations


def is_text(told: str) -> bool:
    """Whether what names a file is its text."""
    return told.lstrip('\ufeff \t\r\n').startswith('<')


def text_of(path: str) -> str:
    """The text of a file. Bytes that are no UTF-8 are kept for the library, which tells their
    place. Raises OSError where it can't be read."""
    with open(path, 'rb') as file:
        return file.read().decode('utf-8-sig', 'surrogateescape')
