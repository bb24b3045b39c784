"""References as people have them: CSL-JSON, BibTeX, BibLaTeX, RIS and hayagriva's YAML, each as
CSL-JSON.

    from gamhilon import references

    read = references.load('library.bib')
    print(read.items)           # CSL-JSON
    for loss in read.losses:    # fields for which CSL has no place
        print(loss)
    for warning in read.warnings:
        print(warning)

BibTeX, BibLaTeX and RIS are read by the library, and YAML by PyYAML (Debian's python3-yaml).
"""
from __future__ import annotations

import json
import os
import re
from dataclasses import dataclass
from typing import Any, Dict, List, Optional, Tuple, Union

from .. import _console, _faults
from ..csl_json import Loss
from . import by_library, hayagriva
from .errors import ReaderMissing, ReferencesError
from .shown import is_shown

__all__ = [
    'FORMS', 'Item', 'PathLike', 'ReaderMissing', 'References', 'ReferencesError', 'form_of',
    'is_named', 'is_shown', 'load', 'loads', 'read',
]

Item = Dict[str, Any]
"""An item of CSL-JSON."""

PathLike = Union[str, 'os.PathLike[str]']
"""The path of a file."""

FORMS = ('csl-json', *by_library.FORMS, 'hayagriva')

_SUFFIXES = {
    '.json': 'csl-json', '.bib': 'biblatex', '.biblatex': 'biblatex', '.bibtex': 'bibtex',
    '.ris': 'ris', '.yaml': 'hayagriva', '.yml': 'hayagriva',
}
_COMMAND = re.compile(r'^[ \t]*@[ \t]*[A-Za-z]+[ \t]*[{(]', re.MULTILINE)
_RECORD = re.compile(r'\s*TY  -')
_BYTE_ORDER_MARK = '\ufeff'


@dataclass(frozen=True)
class References:
    """The items of a file as CSL-JSON, each of another id; what isn't kept of its entries, by entry
    and field; and what in the file is no entry that can be read. Of entries of one key the first
    counts, and of items of CSL-JSON the last, in the place of the first."""

    items: List[Item]
    losses: List[Loss]
    problems: List[str]

    @property
    def warnings(self) -> List[str]:
        """What is odd in the file: its problems."""
        return self.problems


def load(path: PathLike, *, form: Optional[str] = None, lang: str = 'en-US') -> References:
    """The references of a file, or of standard input where the path is `-`.

    The form is one of FORMS; where none is told the name of the file tells it, and else the file.
    `lang` is the language of entries of .bib files that tell none: English titles are put into
    sentence case, which CSL asks for. Raises ReferencesError where the file isn't of its form,
    ReaderMissing where nothing reads it, and OSError.
    """
    path = os.fspath(path)
    try:
        return read(path, _console.read(path), form=form, lang=lang)
    except ReferencesError as error:
        raise ReferencesError(f'{_console.name_of(path)}: {error}') from error


def read(path: str, data: bytes, *, form: Optional[str] = None, lang: str = 'en-US') -> References:
    """The references in the bytes of a file of this name. Raises as `load` does, without the
    name."""
    return loads(_decoded(data), form=form or _SUFFIXES.get(_suffix(path)), lang=lang)


def is_named(path: str) -> bool:
    """Whether the name of a file tells that it has references, and no document."""
    return _suffix(path) in _SUFFIXES and _suffix(path) != '.json'


def loads(text: str, *, form: Optional[str] = None, lang: str = 'en-US') -> References:
    """The references of a text, as `load` reads them of a file.

        >>> read = loads('[{"id": "doe99", "title": "On Order"}, {"id": "doe99"}]')
        >>> [item['id'] for item in read.items]
        ['doe99']
        >>> print(read.losses[0].reason)
        a second item of this id, in place of the first
    """
    text = text[1:] if text.startswith(_BYTE_ORDER_MARK) else text
    form = form or form_of(text)
    if form not in FORMS:
        raise ReferencesError(f'there is no form {form!r}: the forms are {", ".join(FORMS)}')
    if form == 'csl-json':
        items, losses, problems = _csl_json(text)
    elif form == 'hayagriva':
        items, losses, problems = hayagriva.items(text)
    else:
        items, losses, problems = by_library.items(text, form, lang)
    return _each_once(items, losses, problems, form == 'csl-json')


def form_of(text: str) -> str:
    """The form of a text: CSL-JSON begins with a bracket, RIS with a type, and lines of .bib files
    with an `@` and a word."""
    text = text.lstrip(_BYTE_ORDER_MARK)
    if text.lstrip(' \t\r\n')[:1] in ('[', '{'):
        return 'csl-json'
    if _RECORD.match(text):
        return 'ris'
    return 'biblatex' if _COMMAND.search(text) else 'hayagriva'


def __dir__() -> List[str]:
    return sorted(__all__)


def _suffix(path: str) -> str:
    return os.path.splitext(path)[1].lower()


def _decoded(data: bytes) -> str:
    try:
        return data.decode('utf-8-sig')
    except UnicodeDecodeError as error:
        line = data.count(b'\n', 0, error.start) + 1
        raise ReferencesError(f'no UTF-8 from byte {error.start}, in line {line}') from error


def _csl_json(text: str) -> Tuple[List[Item], List[Loss], List[str]]:
    try:
        value = json.loads(text)
    except RecursionError as error:
        raise ReferencesError(_faults.TOO_DEEP) from error
    except ValueError as error:
        raise ReferencesError(f'no JSON: {error}') from error
    if isinstance(value, dict) and isinstance(value.get('items'), list):
        value = value['items']
    if not isinstance(value, list):
        raise ReferencesError('CSL-JSON is a list of items')
    items = [item for item in value if isinstance(item, dict)]
    wrong = [place for place, item in enumerate(value) if not isinstance(item, dict)]
    return items, [], [f'item {place} is not an object' for place in wrong]


def _each_once(items: List[Item], losses: List[Loss], problems: List[str],
               last_counts: bool) -> References:
    """The first item of each id, or the last, in the place of the first. An item without an id
    can't be cited."""
    found: Dict[str, Item] = {}
    left_out: List[Loss] = []
    for place, item in enumerate(items):
        key = item.get('id')
        if not isinstance(key, (str, int, float)) or isinstance(key, bool) or key == '':
            reason = 'an item without an id, left out'
            left_out.append(Loss(f'item {place}', 'id', item, reason))
        elif str(key) in found and last_counts:
            reason = 'a second item of this id, in place of the first'
            left_out.append(Loss(str(key), 'id', found[str(key)], reason))
            found[str(key)] = item
        elif str(key) in found:
            left_out.append(Loss(str(key), 'id', item, 'a second item of this id, left out'))
        else:
            found[str(key)] = item
    return References(list(found.values()), [*losses, *left_out], problems)
