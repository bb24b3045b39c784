"""The page of `gamhilon explain`, which the program writes: which element of a style wrote each
text."""
from __future__ import annotations

import os
import shutil
import subprocess
import sysconfig
from typing import List, Optional

from . import csl
from ._preview_page import FOLLOWING, Previewed, fault_page

__all__ = ['EXPLAINED', 'explained_page', 'program']

EXPLAINED = '/explained'
"""Where `preview` has the page."""

_SECONDS = 60.0
"""How long the program may take."""


def program() -> Optional[str]:
    """The path of the program that the wheel installs, or else of the one on PATH; None where there
    is none."""
    beside = os.path.join(sysconfig.get_path('scripts'), 'gamhilon')
    return beside if os.access(beside, os.X_OK) else shutil.which('gamhilon')


def explained_page(shown: Previewed, at: str) -> str:
    """The page that the program at a path writes of a style, with the script by which it follows
    the file; or what is wrong, with the lines of the file."""
    try:
        done = subprocess.run(_words(shown, at), capture_output=True, timeout=_SECONDS, check=False)
    except (OSError, subprocess.TimeoutExpired) as error:
        return fault_page(shown, f'{at}: {error}')
    if done.returncode:
        return fault_page(shown, done.stderr.decode('utf-8', 'replace').strip())
    page = done.stdout.decode('utf-8', 'replace')
    return page.replace('</head>', f'<script src="{FOLLOWING}" defer></script>\n</head>', 1)


def _words(shown: Previewed, at: str) -> List[str]:
    """The command line of the program."""
    words = [at, 'explain', '--to', 'html']
    if shown.locale is not None:
        words += ['--locale', shown.locale]
    if shown.locales is not None:
        words += ['--locales', shown.locales]
    return [*words, csl.find(shown.style)]
