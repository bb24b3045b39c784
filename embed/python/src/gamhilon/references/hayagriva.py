"""The YAML of hayagriva as CSL-JSON: types and fields as hayagriva documents them."""
from __future__ import annotations

import re
from typing import Any, Dict, List, Optional, Tuple

from ..csl_json import Loss
from .dates import CslDate, csl_date
from .latex_math import math_runs
from .rich_text import Run, csl_title
from .yaml_values import load_values

Item = Dict[str, Any]
"""An item of CSL-JSON."""

Entry = Dict[str, Any]
"""An entry of hayagriva, or a parent of one."""

_TYPES = {
    'article': 'article', 'chapter': 'chapter', 'entry': 'entry', 'anthos': 'chapter',
    'report': 'report', 'thesis': 'thesis', 'web': 'webpage', 'scene': 'motion_picture',
    'artwork': 'graphic', 'patent': 'patent', 'case': 'legal_case',
    'newspaper': 'article-newspaper', 'legislation': 'legislation', 'manuscript': 'manuscript',
    'original': 'document', 'post': 'post', 'tweet': 'post', 'misc': 'document',
    'performance': 'performance', 'periodical': 'article-journal', 'proceedings': 'book',
    'book': 'book', 'blog': 'webpage', 'reference': 'book', 'conference': 'event',
    'anthology': 'book', 'repository': 'software', 'thread': 'post', 'video': 'motion_picture',
    'audio': 'song', 'exhibition': 'event',
}
_TYPES_IN = {
    ('article', 'periodical'): 'article-journal', ('article', 'newspaper'): 'article-newspaper',
    ('article', 'proceedings'): 'paper-conference', ('article', 'conference'): 'paper-conference',
    ('article', 'blog'): 'post-weblog', ('article', 'anthology'): 'chapter',
    ('article', 'book'): 'chapter',
    ('article', 'reference'): 'entry-encyclopedia', ('entry', 'reference'): 'entry-encyclopedia',
    ('entry', 'blog'): 'post-weblog', ('entry', 'thread'): 'post', ('post', 'blog'): 'post-weblog',
    ('article', 'web'): 'webpage',
}
"""The types of CSL for entries of a type with a parent of another."""

_TYPES_OF_PARENTS = {
    'article': 'periodical', 'chapter': 'book', 'entry': 'reference', 'anthos': 'anthology',
    'web': 'web', 'scene': 'video', 'artwork': 'exhibition', 'legislation': 'anthology',
    'tweet': 'tweet', 'video': 'video', 'audio': 'audio',
}
"""What a parent is that tells no type."""

_PARTS = {
    'article', 'chapter', 'entry', 'anthos', 'scene', 'web', 'post', 'tweet', 'case', 'legislation',
    'video', 'audio',
}
"""Entries whose parent contains them; the parent of any other is its series."""

_EVENTS = {'conference', 'exhibition', 'performance'}
_ROLES = {
    'translator': 'translator', 'compiler': 'compiler', 'director': 'director',
    'illustrator': 'illustrator', 'composer': 'composer', 'producer': 'producer',
    'executive-producer': 'executive-producer', 'narrator': 'narrator', 'organizer': 'organizer',
    'writer': 'script-writer', 'cast-member': 'performer', 'collaborator': 'contributor',
}
_TEXTS = {
    'abstract': 'abstract', 'genre': 'genre', 'archive': 'archive',
    'archive-location': 'archive-place', 'call-number': 'call-number', 'note': 'note',
    'language': 'language', 'runtime': 'dimensions', 'page-range': 'page',
    'page-total': 'number-of-pages', 'chapter': 'chapter-number',
}
_INHERITED_TEXTS = {
    'edition': 'edition', 'volume': 'volume', 'issue': 'issue', 'volume-total': 'number-of-volumes',
}
_IDENTIFIERS = {'doi': 'DOI', 'isbn': 'ISBN', 'issn': 'ISSN', 'pmid': 'PMID', 'pmcid': 'PMCID'}
_USED = {
    'type', 'title', 'author', 'editor', 'affiliated', 'date', 'parent', 'publisher', 'location',
    'organization', 'url', 'serial-number', 'arxiv', *_IDENTIFIERS, *_INHERITED_TEXTS,
}
_PIECE = re.compile(r'\\(.)|\$((?:[^$\\]|\\.)*)\$|([{}])|([^\\${}]+|[\\$])', re.DOTALL)


def items(text: str) -> Tuple[List[Item], List[Loss], List[str]]:
    """The items of a YAML file of hayagriva, what isn't kept of its entries, and what in it is no
    entry. Raises ReferencesError where it is no YAML, and ReaderMissing where there is no
    PyYAML."""
    value, errors = load_values(text)
    if value is None or value == '':
        return [], [], errors
    if not isinstance(value, dict):
        return [], [], [*errors, 'no map from keys to entries']
    found: List[Item] = []
    losses: List[Loss] = []
    for key, entry in value.items():
        if not isinstance(entry, dict):
            errors.append(f'{key}: no entry, which is a map of fields')
            continue
        conversion = _Conversion(key, entry)
        found.append(conversion.item())
        losses += conversion.losses
    return found, losses, errors


class _Conversion:
    """One entry as an item. What isn't kept of it is noted."""

    def __init__(self, key: str, entry: Entry) -> None:
        self.key, self.entry = key, entry
        self.losses: List[Loss] = []
        self.type = self._type_of(entry, 'type', '')
        self.parents = self._parents(entry, self.type)
        self.event = self._parent_of(_EVENTS)
        self.original = self._parent_of({'original'})
        containers = [parent for parent in self.parents
                      if parent['type'] not in (*_EVENTS, 'original')]
        self.container = containers[0] if containers else None
        # (where there are no proceedings, what a conference tells of its volume counts)
        self.around = [entry for entry in (self.container, self.event) if entry is not None]

    def item(self) -> Item:
        """The item, whose fields that say nothing are left out."""
        made: Item = {'id': self.key, 'type': self._csl_type()}
        for part in (self._titles, self._names, self._dates, self._texts, self._publication,
                     self._identifiers):
            made.update({name: value for name, value in part().items() if value})
        if 'event-title' in made:
            # (most published styles ask for it by its older name)
            made['event'] = made['event-title']
        self._note_unused()
        return made

    def lose(self, field: str, value: Any, reason: str) -> None:
        self.losses.append(Loss(self.key, field, value, reason))

    # Entries and parents

    def _type_of(self, entry: Entry, field: str, otherwise: str) -> str:
        told = entry.get('type', otherwise)
        kind = told.lower() if isinstance(told, str) else ''
        if kind not in _TYPES:
            known = 'no type of hayagriva' if told else 'no type'
            self.lose(field, told, f'{known}, read as misc')
            return 'misc'
        return kind

    def _parents(self, entry: Entry, kind: str) -> List[Entry]:
        """The parents of an entry, each with its type."""
        told = entry.get('parent', [])
        found = []
        for parent in told if isinstance(told, list) else [told]:
            if isinstance(parent, dict):
                own = self._type_of(parent, 'parent.type', _TYPES_OF_PARENTS.get(kind, 'misc'))
                found.append({**parent, 'type': own})
            else:
                self.lose('parent', parent, 'no map of fields')
        return found

    def _parent_of(self, kinds: Any) -> Optional[Entry]:
        return next((parent for parent in self.parents if parent['type'] in kinds), None)

    def _csl_type(self) -> str:
        known = [_TYPES_IN.get((self.type, parent['type'])) for parent in self.around]
        return next((csl_type for csl_type in known if csl_type), _TYPES[self.type])

    def _collection(self) -> Optional[Entry]:
        """The series: the parent of what contains a part, or of a whole work."""
        if self.container is None:
            return None
        if self.type not in _PARTS:
            return self.container
        return next(iter(self._parents(self.container, self.container['type'])), None)

    def _first(self, field: str) -> Any:
        """The value of a field of the entry, or of what contains it."""
        around = self.around if self.type in _PARTS else []
        told = (entry.get(field) for entry in (self.entry, *around))
        return next((value for value in told if value not in (None, '')), None)

    # Fields

    def _text(self, field: str, value: Any) -> str:
        """The text of a formatted string."""
        if isinstance(value, dict):
            text = value.get('value', value.get('title-case', value.get('sentence-case', '')))
            runs = _runs(text) if isinstance(text, str) else []
            if value.get('verbatim') == 'true':
                runs = [run._replace(is_protected=True) for run in runs]
            return csl_title(runs)
        if value is None or isinstance(value, str):
            return csl_title(_runs(value or ''))
        self.lose(field, value, 'not a text')
        return ''

    def _texts(self) -> Item:
        made: Item = {}
        for field, variable in _TEXTS.items():
            made[variable] = self._text(field, self.entry.get(field))
        for field, variable in _INHERITED_TEXTS.items():
            made[variable] = self._text(field, self._first(field))
        return made

    def _titles(self) -> Item:
        made: Item = {'title': self._text('title', self.entry.get('title'))}
        title = self.entry.get('title')
        if isinstance(title, dict):
            made['title-short'] = self._text('title.short', title.get('short'))
        collection = self._collection()
        if self.container is not None and self.container is not collection:
            name = self.container.get('title')
            made['container-title'] = self._text('parent.title', name)
            if isinstance(name, dict):
                made['container-title-short'] = self._text('parent.title.short', name.get('short'))
        if collection is not None:
            made['collection-title'] = self._text('parent.title', collection.get('title'))
            number = collection.get('volume', collection.get('issue'))
            made['collection-number'] = self._text('parent.volume', number)
        if self.event is not None:
            made['event-title'] = self._text('parent.title', self.event.get('title'))
            made['event-place'] = self._text('parent.location', self.event.get('location'))
        if self.original is not None:
            made['original-title'] = self._text('parent.title', self.original.get('title'))
        return made

    def _names(self) -> Item:
        made: Item = {'author': self._persons('author', self.entry.get('author'))}
        made['editor'] = self._persons('editor', self.entry.get('editor'))
        collection = self._collection()
        if self.container is not None and self.container is not collection:
            outer = self.container
            made['container-author'] = self._persons('parent.author', outer.get('author'))
            made['editor'] = made['editor'] or self._persons('parent.editor', outer.get('editor'))
        if collection is not None:
            made['collection-editor'] = self._persons('parent.editor', collection.get('editor'))
        if self.original is not None:
            made['original-author'] = self._persons('parent.author', self.original.get('author'))
        told = self._first('affiliated') or []
        for group in told if isinstance(told, list) else [told]:
            role = group.get('role') if isinstance(group, dict) else None
            if role in _ROLES:
                names = self._persons('affiliated', group.get('names'))
                made[_ROLES[role]] = [*made.get(_ROLES[role], []), *names]
            else:
                self.lose('affiliated', group, f'CSL has no place for the role {role}')
        return made

    def _persons(self, field: str, value: Any) -> List[Dict[str, str]]:
        told = value if isinstance(value, list) else [] if value in (None, '') else [value]
        found = []
        for person in told:
            name = _of_text(person) if isinstance(person, str) else {}
            if isinstance(person, dict):
                name = _of_map(person)
                if 'alias' in person:
                    self.lose(field, person['alias'], 'CSL has no place for an alias')
            if name:
                found.append(name)
            else:
                self.lose(field, person, 'no name')
        return found

    def _dates(self) -> Item:
        made: Item = {'issued': self._date('date', self._first('date'))}
        url = self._first('url')
        if isinstance(url, dict):
            made['accessed'] = self._date('url.date', url.get('date'))
        if self.event is not None:
            made['event-date'] = self._date('parent.date', self.event.get('date'))
        if self.original is not None:
            made['original-date'] = self._date('parent.date', self.original.get('date'))
        return made

    def _date(self, field: str, value: Any) -> CslDate:
        if value in (None, ''):
            return {}
        if not isinstance(value, str):
            self.lose(field, value, 'not a date')
            return {}
        # (hayagriva marks what is approximate before the year)
        text = value.strip()
        date, lost = csl_date(text[1:] + '~' if text[:1] == '~' else text)
        for reason in lost:
            self.lose(field, value, reason)
        return date

    def _publication(self) -> Item:
        publisher = self._first('publisher')
        told = publisher if isinstance(publisher, dict) else {'name': publisher}
        place = told.get('location')
        names = [self._text('organization', self._first('organization')),
                 self._text('publisher', told.get('name', told.get('value')))]
        made: Item = {}
        if self.type in ('case', 'legislation', 'patent'):
            made['authority'] = names.pop(0)
        made['publisher'] = '; '.join(name for name in names if name)
        location = self.entry.get('location') or (self.container or {}).get('location')
        if self.type in _EVENTS:
            made['event-place'] = self._text('location', location)
            made['event-title'] = self._text('title', self.entry.get('title'))
            location = None
        made['publisher-place'] = self._text('location', place or location)
        if self.original is not None:
            made.update(self._original_publication(self.original))
        return made

    def _original_publication(self, original: Entry) -> Item:
        publisher = original.get('publisher')
        told = publisher if isinstance(publisher, dict) else {'name': publisher}
        place = told.get('location') or original.get('location')
        return {
            'original-publisher': self._text('parent.publisher', told.get('name')),
            'original-publisher-place': self._text('parent.location', place),
        }

    def _identifiers(self) -> Item:
        """Numbers of the work, and the ISSN or the ISBN of what contains it."""
        numbers = self._serial_numbers('serial-number', self.entry)
        if self.type in _PARTS and self.container is not None:
            outer = self._serial_numbers('parent.serial-number', self.container)
            for key in {'isbn', 'issn'} & set(outer):
                numbers.setdefault(key, outer[key])
        made: Item = {variable: numbers.pop(key, '') for key, variable in _IDENTIFIERS.items()}
        url = self._first('url')
        made['URL'] = (url.get('value', '') if isinstance(url, dict) else url) or ''
        arxiv = numbers.pop('arxiv', '')
        if arxiv:
            number = re.sub('^arxiv:', '', arxiv, flags=re.IGNORECASE)
            made['URL'] = made['URL'] or f'https://arxiv.org/abs/{number}'
        made['version' if self.type == 'repository' else 'number'] = numbers.pop('serial', '')
        for key, number in numbers.items():
            self.lose(f'serial-number.{key}', number, 'CSL has no place for it')
        return made

    def _serial_numbers(self, field: str, entry: Entry) -> Dict[str, str]:
        told = entry.get('serial-number') or {}
        numbers = {'serial': told} if isinstance(told, str) else told
        if not isinstance(numbers, dict):
            self.lose(field, told, 'not a number or a map of numbers')
            numbers = {}
        earlier = {key: entry[key] for key in (*_IDENTIFIERS, 'arxiv') if key in entry}
        found = {}
        for key, number in {**earlier, **numbers}.items():
            if isinstance(number, str):
                found[key.lower()] = number
            else:
                self.lose(f'{field}.{key}', number, 'not a text')
        return found

    # What isn't kept

    def _note_unused(self) -> None:
        """Notes the fields that no item has a place for."""
        for field, value in self.entry.items():
            if field not in (*_USED, *_TEXTS):
                self.lose(field, value, 'CSL has no place for it')
        for parent in self.parents:
            if not any(parent is known for known in (self.container, self.event, self.original)):
                reason = f'a second container ({parent["type"]}), left out'
                self.lose('parent', parent.get('title', ''), reason)
                continue
            for field, value in parent.items():
                if field not in _USED:
                    self.lose(f'parent.{field}', value, 'CSL has no place for it')


def _runs(text: str) -> List[Run]:
    """The runs of a formatted string: what stands in braces is protected, and dollar signs are
    around formulas."""
    runs, depth = [], 0
    for escaped, formula, brace, plain in _PIECE.findall(text):
        if brace:
            depth = max(depth + (brace == '{') - (brace == '}'), 0)
        elif formula:
            made = math_runs(formula) or [Run(f'${formula}$')]
            runs += [run._replace(is_protected=True) for run in made]
        else:
            runs.append(Run(escaped or plain, (), depth > 0))
    return runs


def _of_text(text: str) -> Dict[str, str]:
    """The name of a text: prefix and family name, given name, suffix."""
    family, *more = [' '.join(part.split()) for part in text.split(',')]
    words = family.split(' ')
    end = (next((place for place, word in enumerate(words) if not word[:1].islower()), 0) if more
           else 0)
    parts = {'family': ' '.join(words[end:]), 'non-dropping-particle': ' '.join(words[:end])}
    if not more:
        return {'literal': family} if family else {}
    parts.update({'given': more[0], 'suffix': ', '.join(more[1:])})
    return {key: part for key, part in parts.items() if part}


def _of_map(person: Dict[str, Any]) -> Dict[str, str]:
    """The name of a map."""
    told = {key: ' '.join(part.split()) for key, part in person.items() if isinstance(part, str)}
    parts = {'family': told.get('name', ''), 'given': told.get('given-name', ''),
             'non-dropping-particle': told.get('prefix', ''), 'suffix': told.get('suffix', '')}
    return {key: part for key, part in parts.items() if part} if parts['family'] else {}
