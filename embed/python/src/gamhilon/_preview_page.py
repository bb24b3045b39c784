"""The page of the command `preview`: the sample of a style, or what is wrong in its file."""
from __future__ import annotations

import html
import os
import re
from dataclasses import dataclass
from typing import Dict, List, Optional, Tuple

from . import csl, pages
from ._sample import sample_of
from ._sample_command import sample_in_html
from .csl.files import text_of
from .csl.locales import FOLDER, files_for, with_dialect
from .csl.rendering import LANGUAGE
from .csl.style import load
from .errors import GamhilonError, LibraryMissing

__all__ = ['FOLLOWING', 'Previewed', 'State', 'content_of', 'fault_page', 'page_of', 'state_of',
           'watched']

FOLLOWING = '/follow.js'
"""Where the page finds the script by which it follows the file."""

State = Tuple[Optional[Tuple[int, int, int]], ...]
"""When files changed, how long they are, and which they are; None for one that isn't there."""

_AROUND = 2
"""How many lines are shown before and after one in which something is wrong."""

_LAYOUT = f"""<style>
.csl-sample th {{ padding-right: 1.5em; text-align: left; vertical-align: top; color: #555;
  font-weight: normal; white-space: nowrap; }}
.csl-fault {{ color: #a00; }}
.csl-excerpt {{ margin-left: 1em; }}
</style>
<script src="{FOLLOWING}" defer></script>
"""
_PLACE = re.compile(r'(?P<file>.+?):(?P<line>[0-9]+):[0-9]+')


@dataclass(frozen=True)
class Previewed:
    """What is shown: a style, by its name or its path, the language in place of its own, and the
    folder of locale files."""

    style: str
    locale: Optional[str] = None
    locales: Optional[str] = None


def watched(shown: Previewed) -> List[str]:
    """The files that the page depends on: the style, the one on which that depends, and the locale
    files of its language with their folder."""
    files = [shown.style]
    try:
        files.append(csl.find(shown.style))
        style = load(shown.style)
        files.append(style.file)
        language = with_dialect(shown.locale or style.language or LANGUAGE)
        files += [locale.file for locale in files_for(language, shown.locales)]
    except ValueError:
        pass  # (the page says what is wrong)
    return list(dict.fromkeys([*files, shown.locales or FOLDER]))


def state_of(files: List[str]) -> State:
    """The state of some files, which changes as one of them does."""
    return tuple(map(_state, files))


def _state(file: str) -> Optional[Tuple[int, int, int]]:
    try:
        found = os.stat(file)
    except (OSError, ValueError):
        return None
    return found.st_mtime_ns, found.st_size, found.st_ino


def content_of(file: str) -> bytes:
    """What is in a file; nothing of a folder, or of a file that can't be read."""
    try:
        with open(file, 'rb') as opened:
            return opened.read()
    except (OSError, ValueError):
        return b''


def page_of(shown: Previewed, above: str = '') -> str:
    """The page: the sample, below this HTML, with what is odd in the style, or what is wrong, each
    with the lines of the file that it names. Raises LibraryMissing."""
    try:
        sample = sample_of(shown.style, shown.locale, shown.locales)
    except LibraryMissing:
        raise
    except (GamhilonError, OSError, ValueError) as error:
        return fault_page(shown, str(error))
    excerpts = _Excerpts(shown)
    remarks = [f'<li>{_escaped(remark)}\n{excerpts.of(remark)}</li>\n'
               for remark in sample.remarks()]
    odd = f'<ul class="csl-fault">\n{"".join(remarks)}</ul>\n' if remarks else ''
    return _page(sample.title, f'{odd}{above}{sample_in_html(sample)}')


def fault_page(shown: Previewed, fault: str) -> str:
    """The page of a style with which something is wrong, and the lines of the file that this
    names."""
    return _page(shown.style, f'<h1>{html.escape(shown.style)}</h1>\n'
                              f'<p class="csl-fault" role="alert">{_escaped(fault)}</p>\n'
                              f'{_Excerpts(shown).of(fault)}')


def _page(title: str, content: str) -> str:
    return pages.standalone(content, title, _LAYOUT)


class _Excerpts:
    """Lines of the files on which a page depends."""

    def __init__(self, shown: Previewed) -> None:
        self._files = watched(shown)
        self._lines: Dict[str, List[str]] = {}

    def of(self, message: str) -> str:
        """The lines around the one that a message names at its beginning; nothing where it names
        none."""
        place = _PLACE.match(message)
        if place is None or place['file'] not in self._files:
            return ''
        lines, at = self._lines_of(place['file']), int(place['line'])
        first, last = max(at - _AROUND, 1), min(at + _AROUND, len(lines))
        width = len(str(last))
        numbered = [(number, f'{number:>{width}}  {_escaped(lines[number - 1])}')
                    for number in range(first, last + 1)]
        shown = [f'<mark>{line}</mark>' if number == at else line for number, line in numbered]
        return f'<pre class="csl-excerpt">{chr(10).join(shown)}</pre>\n' if shown else ''

    def _lines_of(self, file: str) -> List[str]:
        if file not in self._lines:
            try:
                self._lines[file] = text_of(file).splitlines()
            except OSError:
                self._lines[file] = []
        return self._lines[file]


def _escaped(text: str) -> str:
    return html.escape(text, quote=False)
