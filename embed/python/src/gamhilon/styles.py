"""Four styles that come with the package: files of CSL 1.0.2, as examples/styles of the repository
has them.

    from gamhilon import csl, styles

    csl.render('author-date', references, citations)
    print(styles.text('author-date'))           # the file, to be changed
"""
from __future__ import annotations

import os
from typing import List

from .csl.errors import StyleMissing

__all__ = ['names', 'path', 'text']

_HERE = os.path.dirname(os.path.abspath(__file__))
_FOLDERS = (os.path.join(_HERE, 'style_files'),
            os.path.normpath(os.path.join(_HERE, '../../../../examples/styles')))
_SUFFIX = '.csl'


def names() -> List[str]:
    """The names of the styles.

        >>> names()
        ['author-date', 'labels', 'notes', 'numeric']
    """
    return sorted(name[:-len(_SUFFIX)] for name in os.listdir(_folder())
                  if name.endswith(_SUFFIX))


def path(name: str) -> str:
    """The path of the style of this name. Raises csl.StyleMissing where there is no such style."""
    if name not in names():
        raise StyleMissing(f'there is no style {name!r}: the styles are {", ".join(names())}')
    return os.path.join(_folder(), name + _SUFFIX)


def text(name: str) -> str:
    """The text of the style of this name. Raises csl.StyleMissing where there is no such style."""
    with open(path(name), encoding='utf-8') as file:
        return file.read()


def _folder() -> str:
    """Where the styles are: in the wheel, or in the repository."""
    return next(folder for folder in _FOLDERS if os.path.isdir(folder))
