"""The version of this package, and what its library was built of."""
from __future__ import annotations

import json
import os
from dataclasses import dataclass
from typing import Optional

from . import _library

__version__ = '0.3.0'


@dataclass(frozen=True)
class Version:
    """The package's version, and the commit and the toolchain that its library was proved and built
    by.

    `commit` and `toolchain` are None where nothing tells them, as of a library that
    GAMHILON_LIBRARY names.
    """

    version: str
    commit: Optional[str] = None
    toolchain: Optional[str] = None

    def __str__(self) -> str:
        commit, toolchain = self.commit or 'unknown', self.toolchain or 'unknown'
        return f'gamhilon {self.version} (commit {commit}, proved by {toolchain})'


def version() -> Version:
    """The version: what embed/build.py noted beside the library."""
    noted = os.path.join(os.path.dirname(_library.path()), 'gamhilon_build.json')
    try:
        with open(noted, encoding='utf-8') as file:
            said = json.load(file)
        return Version(__version__, said.get('commit'), said.get('toolchain'))
    except (OSError, ValueError):
        return Version(__version__)
