"""The command `markdown`: pages of Markdown with their citations written."""
from __future__ import annotations

import argparse
import os
import shutil
from typing import Any, Dict, Iterator, List, NamedTuple, Optional, Sequence, Tuple

from . import _console, csl, references
from ._console import COMMAND, INPUT_OR_OUTPUT_FAILED, NOT_OF_ITS_FORM, name_of, say
from ._front_matter import FrontMatterRefused, front_matter_of
from ._references_of_files import items_of_files
from .errors import GamhilonError, LibraryMissing, Refused
from .markdown_pages import CitedPage, PreparedStyle, cite_page

_SUFFIXES = ('.md', '.markdown', '.mdown', '.mkd')


def add_markdown(commands: Any) -> None:
    """What the command line of `markdown` may say."""
    made = commands.add_parser('markdown', help='pages of Markdown with their citations written, '
                                                'and reference lists')
    made.add_argument('pages', nargs='+', metavar='PAGE',
                      help='a page, a folder of pages, or - for standard input')
    made.add_argument('--bibliography', action='append', default=[], metavar='FILE',
                      help='references, in place of those of `bibliography:` in the front matter '
                           'of a page; it may stand several times')
    made.add_argument('--style', help=f'a style: its name ({COMMAND} styles --all), or a file; '
                                      'else `csl:` of the page, or author-date')
    made.add_argument('--locale', metavar='TAG',
                      help='the language; else `lang:` of the page, or that of the style')
    made.add_argument('--locales', metavar='FOLDER', help='where locale files are')
    made.add_argument('--nocite', action='append', default=[], metavar='KEY',
                      help='an entry that is listed without being cited; * for all')
    made.add_argument('--title', help='the heading of the reference list (References, where a page '
                                      'has that)')
    made.add_argument('--mark', help='a line in whose place the reference list stands')
    made.add_argument('--html', action='store_true',
                      help='citations and lists are HTML in the page, and no Markdown')
    made.add_argument('--no-links', action='store_true', help='cites lead nowhere')
    made.add_argument('--strict', action='store_true',
                      help='a page on which something is odd is a failure (status 2)')
    made.add_argument('--output', metavar='PATH',
                      help='a file for the page, or a folder for several')
    made.add_argument('--copy-files', action='store_true',
                      help='the other files of folders are copied to those of the output')


class _Target(NamedTuple):
    """A file, the one that is written of it (None for standard output), and whether it is a
    page."""

    source: str
    path: Optional[str]
    is_page: bool


class _Failed(Exception):
    """Why nothing is written: what is said, and the exit status."""

    def __init__(self, message: str, status: int) -> None:
        super().__init__(message)
        self.status = status


def markdown_command(words: argparse.Namespace) -> int:
    """Writes the pages, and says on standard error what is odd in them."""
    try:
        styles = _Styles(words.locales)
        if words.bibliography:
            styles.items(words.bibliography, words.locale)
        targets = list(_targets(words.pages, words.output))
        status = 0
        for target in targets:
            if target.is_page:
                status = max(status, _page(words, styles, target.source, target.path))
            elif words.copy_files:
                _copy(target.source, str(target.path))
        return status
    except _Failed as failure:
        say(str(failure))
        return failure.status


class _Styles:
    """Styles, and the references of files, which are read once however many pages name them."""

    def __init__(self, locales: Optional[str]) -> None:
        self._locales = locales
        self._read: Dict[Tuple[Sequence[str], Optional[str]], List[Dict[str, Any]]] = {}
        self._prepared: Dict[Any, PreparedStyle] = {}

    def prepared(self, style: str, paths: Sequence[str], locale: Optional[str]) -> PreparedStyle:
        """A style with the references of files."""
        key = style, tuple(paths), locale
        if key not in self._prepared:
            items = self.items(paths, locale) if paths else []
            self._prepared[key] = PreparedStyle(style, items, locale, self._locales)
        return self._prepared[key]

    def items(self, paths: Sequence[str], locale: Optional[str]) -> List[Dict[str, Any]]:
        """The references of files. The first of a key counts."""
        key = tuple(paths), locale
        if key not in self._read:
            self._read[key] = _items(paths, locale)
        return self._read[key]


def _items(paths: Sequence[str], locale: Optional[str]) -> List[Dict[str, Any]]:
    try:
        return items_of_files(paths, locale,
                              lambda name, problem: say(f'{name}: warning: {problem}'))
    except references.ReferencesError as error:
        raise _Failed(str(error), _console.reason_and_status(error)[1]) from error
    except OSError as error:
        reason, status = _console.reason_and_status(error)
        raise _Failed(f'{name_of(error.filename or "the references")}: {reason}', status) from error


def _targets(pages: List[str], output: Optional[str]) -> Iterator[_Target]:
    """Each page, and each file of a folder of pages."""
    if len(pages) == 1 and not os.path.isdir(pages[0]):
        is_folder = output is not None and os.path.isdir(output)
        name = os.path.basename(pages[0])
        yield _Target(pages[0], os.path.join(str(output), name) if is_folder else output, True)
        return
    if output is None:
        raise _Failed('several pages have to have a folder, by --output', 64)
    for page in pages:
        if os.path.isdir(page):
            for path in _files_below(page, output):
                place = os.path.join(output, os.path.relpath(path, page))
                yield _Target(path, place, path.endswith(_SUFFIXES))
        else:
            yield _Target(page, os.path.join(output, os.path.basename(page)), True)


def _files_below(folder: str, output: str) -> Iterator[str]:
    """The files of a folder and of its folders, but for what is hidden and what is written."""
    for place, folders, names in os.walk(folder):
        folders[:] = sorted(name for name in folders if not name.startswith('.')
                            and os.path.realpath(os.path.join(place, name))
                            != os.path.realpath(output))
        yield from (os.path.join(place, name) for name in sorted(names) if not name.startswith('.'))


def _copy(source: str, path: str) -> None:
    """Copies a file that is no page."""
    try:
        os.makedirs(os.path.dirname(path) or '.', exist_ok=True)
        shutil.copyfile(source, path)
    except shutil.SameFileError:
        pass
    except OSError as error:
        raise _Failed(f'{source}: {error.strerror or error}', INPUT_OR_OUTPUT_FAILED) from error


def _page(words: argparse.Namespace, styles: _Styles, path: str,
          target: Optional[str]) -> int:
    """Writes a page. The status is not 0 where something is odd and that is a failure."""
    try:
        with _console.progress(f'citing in {name_of(path)}'):
            page = _cited(words, styles, path)
        if target is not None:
            os.makedirs(os.path.dirname(target) or '.', exist_ok=True)
            with open(target, 'w', encoding='utf-8', newline='') as file:
                file.write(page.text)
    except LibraryMissing:
        raise
    except (FrontMatterRefused, references.ReaderMissing, references.ReferencesError) as error:
        raise _Failed(f'{name_of(path)}: {error}', _console.reason_and_status(error)[1]) from error
    except UnicodeDecodeError as error:
        raise _Failed(f'{name_of(path)}: no UTF-8 from byte {error.start}', NOT_OF_ITS_FORM) \
            from error
    except Refused as error:
        raise _Failed(f'{name_of(path)}: {error}', error.status) from error
    except csl.StyleMissing as error:
        raise _Failed(str(error), INPUT_OR_OUTPUT_FAILED) from error
    except GamhilonError as error:
        raise _Failed(str(error), NOT_OF_ITS_FORM) from error
    except OSError as error:
        raise _Failed(f'{name_of(path)}: {error.strerror or error}', INPUT_OR_OUTPUT_FAILED) \
            from error
    if target is None:
        _console.write(page.text)
    for warning in page.warnings:
        say(_said(warning))
    return NOT_OF_ITS_FORM if words.strict and page.warnings else 0


def _cited(words: argparse.Namespace, styles: _Styles, path: str) -> CitedPage:
    """A page with its citations written: as the command line says, and where that says nothing as
    the front matter of the page does."""
    text = _console.read(path).decode('utf-8')
    own = front_matter_of(text, path)
    paths, locale = words.bibliography or own.bibliography(), words.locale or own.locale()
    style = styles.prepared(words.style or own.style() or 'author-date', paths, locale)
    page = cite_page(text, style, nocite=words.nocite or own.nocite(),
                     links=not words.no_links and own.links(), html=words.html,
                     mark=words.mark, title=words.title, name=name_of(path))
    if not paths and page.warnings:
        say(f'{name_of(path)}: warning: it has no references: --bibliography names files of them, '
            'or bibliography: in its front matter')
    return page


def _said(warning: Any) -> str:
    place = '' if warning.line is None else f':{warning.line}:{warning.column}'
    return f'{warning.page}{place}: warning: {warning.message}'
