"""The command `org`: where the export processor for Org is, and what it needs beside `cite`."""
from __future__ import annotations

import os
from typing import Any, Optional

from . import csl
from ._console import INPUT_OR_OUTPUT_FAILED, say, write
from ._style_parts import is_author_date, names_style
from .errors import GamhilonError

FILE = 'oc-gamhilon.el'

_HERE = os.path.dirname(os.path.abspath(__file__))
_FOLDERS = (os.path.join(_HERE, 'org'), os.path.normpath(os.path.join(_HERE, '../../../org')))


def add_org(commands: Any) -> None:
    """What the command line of `org` may say."""
    command = commands.add_parser(
        'org', help=f'the folder of {FILE}, which Emacs loads for citations in Org',
        epilog='docs/GUIDES/ORG.md has the lines of the init file.')
    command.add_argument('--names', metavar='STYLE', dest='style',
                         help='print a style that writes authors alone, where the citations of '
                              'this one have none')


def folder() -> str:
    """The folder that has the processor: in the wheel, or in the repository."""
    return next((place for place in _FOLDERS if os.path.isfile(os.path.join(place, FILE))),
                _FOLDERS[0])


def org_command(style: Optional[str] = None) -> int:
    """Prints the folder, or a style that writes the authors of works where a style writes none."""
    if style is None:
        write(f'{folder()}\n')
        return 0
    try:
        writes_authors = csl.about(style).is_note or is_author_date(style)
    except (GamhilonError, OSError) as error:
        say(str(error))
        return INPUT_OR_OUTPUT_FAILED
    write('' if writes_authors else names_style('short'))
    return 0
