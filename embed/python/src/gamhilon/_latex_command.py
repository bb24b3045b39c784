"""The command `latex`: the .bbl file of a LaTeX document, and gamhilon.sty."""
from __future__ import annotations

import argparse
import os
import shutil
import subprocess
from typing import Any, Optional

from . import _console, csl, latex_documents, references
from ._console import INPUT_OR_OUTPUT_FAILED, NOT_OF_ITS_FORM, say
from .errors import GamhilonError, LibraryMissing, Refused

NAME = 'gamhilon.sty'
_EPILOG = """In the document: \\usepackage[style=apa, library=library.bib]{gamhilon}. Run LaTeX,
this command and LaTeX again; docs/GUIDES/LATEX.md has three lines by which latexmk does so."""


def add_latex(commands: Any) -> None:
    """What the command line of `latex` may say."""
    made = commands.add_parser('latex', help='the citations and the list of a LaTeX document with '
                                             'gamhilon.sty', epilog=_EPILOG)
    made.add_argument('paper', nargs='?', metavar='PAPER',
                      help='the document: PAPER.aux, which LaTeX has written, or its name without '
                           '.aux; PAPER.bbl is written beside it')
    made.add_argument('--where', action='store_true',
                      help='print the folder of gamhilon.sty, for TEXINPUTS, and do nothing else')
    made.add_argument('--install', action='store_true',
                      help='copy gamhilon.sty into your own TeX tree (TEXMFHOME), where LaTeX '
                           'finds it')
    made.add_argument('--locales', metavar='FOLDER', help='where locale files are')
    made.add_argument('--strict', action='store_true',
                      help='what is odd in the document is a failure (status 2)')


def latex_command(words: argparse.Namespace) -> int:
    """Does what the command line says, and gives the exit status."""
    if words.where:
        _console.write(latex_documents.folder() + '\n')
        return 0
    try:
        if words.install:
            _console.write(f'{_install()}\n')
        return _write(words) if words.paper else 0
    except (LibraryMissing, references.ReaderMissing, _console.OutputFailed):
        raise
    except OSError as error:
        say(f'{error.filename or words.paper}: {error.strerror or error}')
        return INPUT_OR_OUTPUT_FAILED
    except Refused as error:
        say(f'{words.paper}: {error}')
        return error.status
    except csl.StyleMissing as error:
        say(str(error))
        return INPUT_OR_OUTPUT_FAILED
    except GamhilonError as error:
        say(str(error))
        return NOT_OF_ITS_FORM


def _write(words: argparse.Namespace) -> int:
    with _console.progress(f'citing in {words.paper}'):
        warnings = latex_documents.write_bbl(words.paper, locales=words.locales)
    for warning in warnings:
        place = '' if warning.line is None else f':{warning.line}'
        say(f'{warning.file}{place}: warning: {warning.message}')
    return NOT_OF_ITS_FORM if words.strict and warnings else 0


def _install() -> str:
    """Copies gamhilon.sty into the user's own TeX tree, and gives its path there."""
    tree = os.path.join(_home_tree() or os.path.expanduser('~/texmf'), 'tex', 'latex', 'gamhilon')
    os.makedirs(tree, exist_ok=True)
    return str(shutil.copy(os.path.join(latex_documents.folder(), NAME), tree))


def _home_tree() -> Optional[str]:
    """The user's own TeX tree, where kpsewhich knows it."""
    try:
        done = subprocess.run(['kpsewhich', '-var-value=TEXMFHOME'], capture_output=True, text=True)
    except OSError:
        return None
    trees = done.stdout.strip().strip('{}').split(',')
    return os.path.expanduser(trees[0]) if done.returncode == 0 and trees[0] else None
