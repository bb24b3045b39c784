"""Entries from CSL-JSON, which reference managers export.

    converted = csl_json.entries(csl_json.load('references.json'))
    document['entries'] = converted.entries
    for loss in converted.losses:
        print(loss)

What an entry of docs/DOCUMENT.md has no place for is listed as a loss.
"""
from __future__ import annotations

import json
import os
import re
from dataclasses import dataclass
from typing import Any, Dict, Iterable, List, Optional, Tuple, Union

from .errors import GamhilonError

__all__ = ['Converted', 'CslJsonError', 'Entry', 'Loss', 'entries', 'label', 'load', 'summary']

Entry = Dict[str, Any]
"""An entry of a document (docs/DOCUMENT.md)."""

NAMES = ('author', 'editor', 'translator')
DATES = ('issued', 'accessed', 'available-date', 'event-date', 'submitted', 'original-date')
TEXTS = {
    'title': 'title', 'container-title': 'container-title', 'publisher': 'publisher',
    'publisher-place': 'publisher-place',
    'note': 'note', 'URL': 'url', 'DOI': 'doi', 'volume': 'volume', 'issue': 'issue',
    'number': 'number',
    'edition': 'edition', 'citation-label': 'label',
}
YEARS = range(-2 ** 31, 2 ** 31)
FINER_THAN_YEARS = {
    'month and day: dates are years', 'season: dates are years', 'circa: dates are years',
    'all of a date but its first year',
}
_TAG = re.compile(r'</?(?:i|b|sup|sub|sc)>|<span (?:class|style)="[^"]*">|</span>')
_NAME_PARTS = {'family', 'given', 'dropping-particle', 'non-dropping-particle', 'suffix',
               'comma-suffix', 'literal',
               'static-ordering', 'parse-names', 'isInstitution'}


class CslJsonError(GamhilonError, ValueError):
    """A text or a value that isn't CSL-JSON: not a list of items."""


@dataclass(frozen=True)
class Loss:
    """What an item of CSL-JSON says and its entry doesn't, and why. Of .bib files and RIS the value
    is None."""

    key: str
    field: str
    value: Any
    reason: str

    def __str__(self) -> str:
        said = f'{self.key}: {self.field}: {self.reason}'
        if self.value is None:
            return said
        return f'{said} ({json.dumps(self.value, ensure_ascii=False)})'


@dataclass(frozen=True)
class Converted:
    """The entries, in the order of the items, and what they lack."""

    entries: List[Entry]
    losses: List[Loss]


def load(path: Union[str, 'os.PathLike[str]']) -> List[Any]:
    """The items of a file of CSL-JSON. Raises CslJsonError where it isn't one, and OSError where it
    can't be read."""
    with open(path, 'rb') as file:
        data = file.read()
    try:
        return _items_of(json.loads(data.decode('utf-8-sig')))
    except (ValueError, RecursionError) as error:
        raise CslJsonError(f'{path}: {error}') from error


def entries(items: Any) -> Converted:
    """The entries of a list of CSL-JSON items, of what `references.load` gives, or of a file of
    CSL-JSON, by its Path. Raises CslJsonError where it isn't one.

        >>> converted = entries([{'id': 'doe99', 'title': 'On Order', 'page': '3'}])
        >>> converted.entries
        [{'key': 'doe99', 'title': 'On Order'}]
        >>> [loss.field for loss in converted.losses]
        ['page']
    """
    if isinstance(items, os.PathLike):
        items = load(items)
    found: Dict[str, Entry] = {}
    losses: List[Loss] = []
    read = getattr(items, 'items', None)
    for place, item in enumerate(_items_of(read if isinstance(read, list) else items)):
        if not isinstance(item, dict):
            raise CslJsonError(f'item {place} is not an object')
        key = _as_text(item.get('id'))
        if not key:
            losses.append(Loss(f'item {place}', 'id', item, 'an item without an id, left out'))
        elif key in found:
            losses.append(Loss(key, 'id', item, 'a second item of this id, left out'))
        else:
            reader = _Reader(key)
            found[key] = reader.entry_of(item)
            losses += reader.losses
    return Converted(list(found.values()), losses)


def summary(losses: Iterable[Loss]) -> List[str]:
    """A line for each field and reason, with the keys of the items that have it."""
    keys: Dict[Tuple[str, str], List[str]] = {}
    for loss in losses:
        keys.setdefault((loss.field, loss.reason), []).append(loss.key)
    return [f'{field}: {reason} ({len(own)}: {", ".join(own[:5])}{", .." if len(own) > 5 else ""})'
            for (field, reason), own in keys.items()]


def label(entry: Entry) -> str:
    """A label for an entry without one, as labels of mathematics have it: three letters of one
    family name, or the first letters of up to four, and the last two digits of the year."""
    persons: List[List[str]] = next((entry[name] for name in NAMES if entry.get(name)), [])
    families = [re.sub(r'\W', '', person[0].split(' ')[-1]) for person in persons]
    letters = (families[0][:3] if len(families) == 1
               else ''.join(family[:1] for family in families[:4]))
    if not letters:
        letters = re.sub(r'\W', '', entry.get('title', entry['key']))[:3]
    return letters + str(abs(entry.get('issued', 0)) % 100).zfill(2)


def _items_of(value: Any) -> List[Any]:
    if isinstance(value, dict) and isinstance(value.get('items'), list):
        value = value['items']
    if not isinstance(value, list):
        raise CslJsonError('CSL-JSON is a list of items')
    return value


def _as_text(value: Any) -> Optional[str]:
    """The text of a string or a number."""
    if isinstance(value, str):
        return value
    if isinstance(value, (int, float)) and not isinstance(value, bool):
        return str(value)
    return None


class _Reader:
    """Reads one item, and notes what its entry can't hold."""

    def __init__(self, key: str) -> None:
        self.key = key
        self.losses: List[Loss] = []

    def lose(self, field: str, value: Any, reason: str) -> None:
        self.losses.append(Loss(self.key, field, value, reason))

    def entry_of(self, item: Dict[str, Any]) -> Entry:
        entry: Entry = {'key': self.key}
        for field, value in item.items():
            if field in NAMES:
                self._put(entry, field, self._persons(field, value))
            elif field in DATES:
                self._put(entry, field, self._year(field, value))
            elif field in TEXTS:
                self._put(entry, TEXTS[field], self._text(field, value))
            elif field != 'id':
                self.lose(field, value, 'entries have no such field')
        return entry

    @staticmethod
    def _put(entry: Entry, field: str, value: Any) -> None:
        if value is not None:
            entry[field] = value

    def _text(self, field: str, value: Any) -> Optional[str]:
        text = _as_text(value)
        if text is None:
            self.lose(field, value, 'not a text or a number')
            return None
        bare = _TAG.sub('', text)
        if bare != text:
            self.lose(field, value, 'formatting inside a text')
        return ' '.join(bare.split()) if re.search(r'[\n\r\t]', bare) else bare

    def _persons(self, field: str, value: Any) -> Optional[List[List[str]]]:
        if not isinstance(value, list):
            self.lose(field, value, 'not a list of names')
            return None
        persons = [self._person(field, name) for name in value]
        return [person for person in persons if person] or None

    def _person(self, field: str, name: Any) -> Optional[List[str]]:
        if not isinstance(name, dict):
            self.lose(field, name, 'not a name')
            return None
        parts = {part: ' '.join((_as_text(name.get(part)) or '').split()) for part in _NAME_PARTS}
        for part in name:
            if part not in _NAME_PARTS:
                self.lose(field, name, f'names have no part {part}')
        if name.get('static-ordering'):
            self.lose(field, name, 'static-ordering: the family name stands last')
        family, given = self._parts_of(field, name, parts)
        if not family:
            self.lose(field, name, 'a name without a family, a given name or a literal')
            return None
        return [family, given] if given else [family]

    def _parts_of(self, field: str, name: Any, parts: Dict[str, str]) -> Tuple[str, str]:
        """Family and given name. A particle that stays with the family name stands before it, one
        that drops behind the given name, and a suffix behind the family name."""
        if not parts['family']:
            if parts['literal'] and parts['given']:
                self.lose(field, name, 'the given name beside a literal')
            return parts['literal'] or parts['given'], ''
        if parts['literal']:
            self.lose(field, name, 'the literal beside a family name')
        family = _joined(parts['non-dropping-particle'], parts['family'])
        given, dropped = parts['given'], parts['dropping-particle']
        if dropped[-1:] in ("'", '\u2019') and dropped:
            family = dropped + family
            self.lose(field, name, 'the dropping particle is a part of the family name, '
                                   'and stands in short forms too')
        elif dropped:
            given = _joined(given, dropped)
            self.lose(field, name, 'the dropping particle is a part of the given name, '
                                   'and is abbreviated with it')
        if parts['suffix']:
            comma = ', ' if name.get('comma-suffix') else ' '
            family += comma + parts['suffix']
            self.lose(field, name,
                      'the suffix is a part of the family name, and stands in short forms too')
        return family, given

    def _year(self, field: str, value: Any) -> Optional[int]:
        if not isinstance(value, dict):
            self.lose(field, value, 'not a date')
            return None
        year = self._year_of_parts(field, value)
        for part in value:
            if part in ('season', 'circa') and value[part]:
                self.lose(field, value, f'{part}: dates are years')
        if year is None or year not in YEARS:
            self.lose(field, value, 'a date without a year')
            return None
        return year

    def _year_of_parts(self, field: str, value: Dict[str, Any]) -> Optional[int]:
        parts = value.get('date-parts')
        if isinstance(parts, list) and parts and isinstance(parts[0], list) and parts[0]:
            if len(parts) > 1:
                self.lose(field, value, 'the end of a range: dates are years')
            if len(parts[0]) > 1:
                self.lose(field, value, 'month and day: dates are years')
            year = re.fullmatch(r'[+-]?\d{1,10}', str(parts[0][0]).strip())
            # CSL counts from 1 BC, the year -1; a document has that as 0
            number = int(year.group()) if year else 0
            return number + (number < 0) if number else None
        text = str(value.get('raw') or value.get('literal') or '').strip()
        year = re.match(r'[+-]?\d{4,10}(?!\d)', text) or re.search(r'(?<!\d)\d{4}(?!\d)', text)
        if year and year.group() != text:
            self.lose(field, value, 'all of a date but its first year')
        return int(year.group()) if year else None


def _joined(first: str, second: str) -> str:
    """Two parts of a name with a space between them, or none behind an apostrophe."""
    if not first or not second:
        return first or second
    return first + ('' if first[-1] in "'\u2019" else ' ') + second
