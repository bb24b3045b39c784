"""What the metadata of a page says: its settings, and its references."""
from __future__ import annotations

import os
import re
from dataclasses import dataclass
from typing import Any, Callable, Dict, Iterator, List, Optional, Sequence

from . import _pandoc_command, references
from ._pandoc_inlines import rich_text_of, text_of
from .csl_json import Loss
from .errors import GamhilonError
from .references.dates import csl_date

Warn = Callable[[str], None]
Item = Dict[str, Any]

_DATES = {
    'issued', 'accessed', 'available-date', 'event-date', 'submitted', 'original-date',
}
_PARTS_OF_DATES = ('year', 'month', 'day')


class FilterError(GamhilonError, ValueError):
    """Why a page can't be worked on."""


@dataclass(frozen=True)
class Source:
    """References of one place: a file, with its path, or the page; the name of its list, if it has
    one; and what isn't kept of its entries."""

    name: str
    items: List[Item]
    list_name: str = ''
    path: str = ''
    losses: Sequence[Loss] = ()


class Metadata:
    """The metadata of a page."""

    def __init__(self, fields: Dict[str, Any], warn: Warn) -> None:
        self.fields, self.warn = fields, warn
        path = self.said('resource-path')
        told = [part for part in (path if isinstance(path, list) else [path])
                if isinstance(part, str)]
        resources = [folder for part in told for folder in part.split(os.pathsep)]
        self.folders = list(dict.fromkeys([*_pandoc_command.folders(), *resources, '']))

    def said(self, name: str) -> Any:
        """The value of a field as texts, truth values, lists and maps; None where it is absent."""
        return plain_value(self.fields[name]) if name in self.fields else None

    def truth(self, name: str, otherwise: bool) -> bool:
        """Whether a field says so."""
        said = self.said(name)
        if said is None:
            return otherwise
        return said is True or str(said).lower() in ('true', 'yes')

    def text(self, *names: str) -> Optional[str]:
        """The text of the first of some fields that is there."""
        said = next((self.said(name) for name in names if name in self.fields), None)
        return None if said is None else str(said)

    # Files

    def find(self, path: str) -> Optional[str]:
        """The path of a file that the page names: beside the page, in the resource path, or in the
        working folder."""
        places = [os.path.join(folder, path) for folder in self.folders]
        return next((place for place in places if os.path.isfile(place)), None)

    def sources(self) -> List[Source]:
        """The references of the page, and those of its files."""
        found = [Source('references', items_of_page(self.fields['references'], self.warn))] \
            if 'references' in self.fields else []
        said = self.said('bibliography')
        for list_name, paths in said.items() if isinstance(said, dict) else [('', said)]:
            for path in paths if isinstance(paths, list) else [paths] if paths else []:
                found.append(self._load(str(path), list_name))
        return found

    def _load(self, path: str, list_name: str) -> Source:
        place = self.find(path)
        if place is None:
            looked = ', '.join(folder or '.' for folder in self.folders)
            raise FilterError(f'bibliography: there is no file {path}: looked in {looked}')
        try:
            read = references.load(place, lang=self.text('lang') or 'en-US')
        except (references.ReferencesError, references.ReaderMissing, OSError) as error:
            raise FilterError(f'bibliography: {error}') from error
        for problem in read.problems:
            self.warn(f'{path}: {problem}')
        return Source(path, read.items, list_name, place, read.losses)


def plain_value(value: Any) -> Any:
    """A value of the metadata as texts, truth values, lists and maps."""
    if value['t'] == 'MetaList':
        return [plain_value(member) for member in value['c']]
    if value['t'] == 'MetaMap':
        return {name: plain_value(member) for name, member in value['c'].items()}
    if value['t'] in ('MetaBool', 'MetaString'):
        return value['c']
    return text_of(value['c'])


# References in a page

def items_of_page(value: Any, warn: Warn) -> List[Item]:
    """The items of the field `references`, whose texts are Markdown."""
    found = []
    for place, entry in enumerate(value['c'] if value['t'] == 'MetaList' else [value]):
        item = _item_of_page(entry) if entry['t'] == 'MetaMap' else {}
        if isinstance(item.get('id'), bool):
            read = str(item['id']).lower()
            warn(f'references: item {place + 1}: its id reads as {read}: put it in quotes')
        elif not isinstance(item.get('id'), str) or not item['id']:
            warn(f'references: item {place + 1}: it has no id')
        else:
            found.append(item)
    return found


def _item_of_page(entry: Any) -> Item:
    item: Item = {}
    for name, value in entry['c'].items():
        if name in ('id', 'type', 'URL', 'DOI', 'ISBN', 'ISSN', 'language'):
            item[name] = plain_value(value)
        elif name in _DATES:
            item[name] = _date_of_page(plain_value(value))
        elif value['t'] == 'MetaList':
            item[name] = [_name_of_page(name) for name in plain_value(value)]
        else:
            item[name] = _text_of_page(value)
    return item


def _text_of_page(value: Any) -> Any:
    if value['t'] == 'MetaInlines':
        return rich_text_of(value['c'])
    if value['t'] == 'MetaBlocks':
        return ' '.join(rich_text_of(block['c'])
                        for block in value['c'] if block['t'] in ('Para', 'Plain'))
    return plain_value(value)


def _name_of_page(value: Any) -> Item:
    """A name: its parts, of which each may be a list of words, or a text."""
    if not isinstance(value, dict):
        return {'literal': str(value)}
    return {part: ' '.join(map(str, member)) if isinstance(member, list) else member
            for part, member in value.items()}


def _date_of_page(value: Any) -> Item:
    """A date: as CSL-JSON has it, as years with months and days, or as a text."""
    if isinstance(value, dict) and not set(value) & set(_PARTS_OF_DATES):
        return value
    if isinstance(value, (dict, list)):
        points = value if isinstance(value, list) else [value]
        parts = list(_parts(points))
        rest = {key: member for point in points
                if isinstance(point, dict)
                for key, member in point.items() if key not in _PARTS_OF_DATES}
        return {'date-parts': parts, **rest}
    return csl_date(str(value))[0]


def _parts(points: Sequence[Any]) -> Iterator[List[Any]]:
    for point in points:
        told = [point.get(name) for name in _PARTS_OF_DATES] if isinstance(point, dict) else []
        known = [str(number) for number in told if number is not None]
        yield [int(number) if re.fullmatch(r'-?\d+', number) else number for number in known]
