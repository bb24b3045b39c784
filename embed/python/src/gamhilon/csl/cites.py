"""Cites and citations, as a document has them."""
from __future__ import annotations

import itertools
import json
import operator
import reprlib
from collections import abc
from dataclasses import dataclass
from functools import cached_property
from typing import (Any, Dict, Iterator, List, Mapping, Optional, Sequence, Set, Tuple, Union,
                    overload)

from .._nearest import meant
from .errors import CitationRefused, place
from .warned import Warned

__all__ = ['LABELS', 'Citation', 'CitationLike', 'CitationPart', 'CitationParts',
           'CitationReader', 'Cite', 'CiteLike', 'CiteSequence', 'ids_of', 'json_of_citations',
           'part_number']

LABELS = (
    'act', 'appendix', 'article-locator', 'book', 'canon', 'chapter', 'column', 'elocation',
    'equation', 'figure', 'folio', 'issue', 'line', 'note', 'opus', 'page', 'paragraph', 'part',
    'rule', 'scene', 'section', 'sub-verbo', 'supplement', 'table', 'timestamp', 'title-locator',
    'verse', 'version', 'volume',
)
"""The kinds of locators of CSL 1.0.2."""

_JSON = json.JSONEncoder(ensure_ascii=False)
_quoted = _JSON.encode
_KNOWN_LABELS = frozenset(LABELS)
_OLDER_LABELS = {'sub verbo': 'sub-verbo'}
_TEXTS = ('id', 'locator', 'label', 'prefix', 'suffix')
_FLAGS = ('suppress-author', 'author-only', 'hidden')
_KEYS = (*_TEXTS, *_FLAGS, 'note')
# (in the order of the fields of a cite)
_CITATION_KEYS = ('schema', 'citationID', 'citationItems', 'properties')
_PROPERTIES = ('noteIndex', 'unsorted')
_NO_CITATION = 'no citation, which is a list of cites or an object with citationItems'


@dataclass(frozen=True)
class Cite:
    """A cite of an entry, by its `id`. `label` is the kind of the locator as CSL names it. The
    affixes may have the markup of fields; a space is put between them and the cite where they end
    or begin with a letter. `author_only` writes the author alone, with nothing around. `note` is
    the number of the note in which the citation stands. The entry of one that is `hidden` is
    listed, and the cite isn't shown."""

    id: str
    locator: Optional[str] = None
    label: str = 'page'
    prefix: str = ''
    suffix: str = ''
    suppress_author: bool = False
    author_only: bool = False
    hidden: bool = False
    note: Optional[int] = None

    def data(self) -> Dict[str, Any]:
        """The cite as JSON has it, without what doesn't apply."""
        told: Dict[str, Any] = {key: value for key, value in zip(_KEYS, vars(self).values())
                                if value is not None and value is not False and value != ''}
        if self.locator is None:
            told.pop('label', None)
        return told

    @property
    def json(self) -> str:
        """The JSON of `data`."""
        if self.author_only or self.hidden or self.note is not None or not self.id:
            return _JSON.encode(self.data())
        text = f'{{"id": {_quoted(self.id)}'
        if self.locator:
            text += f', "locator": {_quoted(self.locator)}, "label": {_quoted(self.label)}'
        if self.prefix:
            text += f', "prefix": {_quoted(self.prefix)}'
        if self.suffix:
            text += f', "suffix": {_quoted(self.suffix)}'
        return text + (', "suppress-author": true}' if self.suppress_author else '}')


_SETTLED = frozenset((str, locator, str, str, str, bool, bool, bool, note)
                     for locator in (str, type(None)) for note in (int, type(None)))

CiteLike = Union[Cite, Mapping[str, Any]]
"""A cite, or an object of CSL-JSON: `id`, `locator`, `label`, `prefix`, `suffix`,
`suppress-author`, `author-only`, `hidden`, `note`."""


class CiteSequence(Sequence[Cite]):
    """A sequence of its `cites`."""

    cites: Tuple[Cite, ...]

    def __len__(self) -> int:
        return len(self.cites)

    @overload
    def __getitem__(self, index: int) -> Cite: ...

    @overload
    def __getitem__(self, index: slice) -> Sequence[Cite]: ...

    def __getitem__(self, index: Union[int, slice]) -> Union[Cite, Sequence[Cite]]:
        return self.cites[index]


@dataclass(frozen=True)
class Citation(CiteSequence):
    """A citation, as a sequence of its cites. `note_index` is the number of the note in which it
    stands, 0 or None where it gives none. The cites of one that is `unsorted` keep their order.

        >>> seen = Citation((Cite('roe'), Cite('doe99')), note_index=3, unsorted=True)
        >>> [cite.id for cite in seen]
        ['roe', 'doe99']
        >>> seen.data()['properties']
        {'noteIndex': 3, 'unsorted': True}
    """

    cites: Tuple[Cite, ...]
    note_index: Optional[int] = None
    unsorted: bool = False

    def data(self) -> Union[List[Any], Dict[str, Any]]:
        """The citation as JSON has it: a list of cites, or an object where more is said of it."""
        cites = [cite.data() for cite in self.cites]
        properties: Dict[str, Any] = {}
        if self.note_index:
            properties['noteIndex'] = self.note_index
        if self.unsorted:
            properties['unsorted'] = True
        return {'citationItems': cites, 'properties': properties} if properties else cites

    @cached_property
    def json(self) -> str:
        """The JSON of `data`."""
        if self.note_index or self.unsorted:
            return _JSON.encode(self.data())
        return f'[{", ".join([cite.json for cite in self.cites])}]'

    def keyed_json(self, key: str) -> str:
        """The JSON of an object that has a key too."""
        text = self.json
        members = text[1:] if text[0] == '{' else f'"citationItems": {text}}}'
        return f'{{"citationID": "{key}", {members}'

    @cached_property
    def ids(self) -> Tuple[str, ...]:
        """The keys of its cites, in their order."""
        return tuple([cite.id for cite in self.cites])

    @cached_property
    def is_settled(self) -> bool:
        """Whether each of its cites is of its form, and says nothing that is left out."""
        return all(isinstance(cite, Cite) and is_settled(cite) for cite in self.cites)


class CitationPart:
    """Citations of a document that stay together, as those of a page, and the ids of their cites.
    Each of them `is_settled`. Their keys have the `number` of the part: one that stands in the
    place of another takes over its number, so that only citations which differ are new."""

    def __init__(self, citations: Sequence[Citation], number: Optional[int] = None) -> None:
        self.citations = tuple(citations)
        self.number = part_number() if number is None else number
        self.ids = frozenset([cite.id for citation in self.citations for cite in citation.cites])

    @cached_property
    def json(self) -> bytes:
        """The JSON of these citations, with commas between."""
        return _bytes_of([citation.json for citation in self.citations])

    @cached_property
    def keyed_json(self) -> bytes:
        """The same with a key for each citation, which none of a part of another number has."""
        return _bytes_of([citation.keyed_json(key)
                          for key, citation in zip(self.keys, self.citations)])

    @cached_property
    def keys(self) -> List[str]:
        """The keys of its citations, in their order."""
        return [f'{self.number}.{place}' for place in range(len(self.citations))]


_numbers = itertools.count()


def part_number() -> int:
    """A number that no other part has."""
    return next(_numbers)


def _bytes_of(members: List[str]) -> bytes:
    """The JSON of the members of a list, without its brackets."""
    return ', '.join(members).encode('utf-8', 'replace')


class CitationParts(Sequence[Citation]):
    """The citations of a document, in parts. Each part is made once for many documents."""

    def __init__(self, parts: Sequence[CitationPart]) -> None:
        self.parts = parts
        self._citations = [citation for part in parts for citation in part.citations]

    def __len__(self) -> int:
        return len(self._citations)

    @overload
    def __getitem__(self, index: int) -> Citation: ...

    @overload
    def __getitem__(self, index: slice) -> Sequence[Citation]: ...

    def __getitem__(self, index: Union[int, slice]) -> Union[Citation, Sequence[Citation]]:
        return self._citations[index]

    def json(self) -> bytes:
        """The JSON of the list of these citations."""
        return b'[' + b', '.join([part.json for part in self.parts if part.citations]) + b']'

    def keyed_json(self) -> bytes:
        """The same with a key for each citation."""
        texts = [part.keyed_json for part in self.parts if part.citations]
        return b'[' + b', '.join(texts) + b']'

    @cached_property
    def ids(self) -> Set[str]:
        """The keys of all cites."""
        return set().union(*[part.ids for part in self.parts])


def ids_of(citations: Sequence[Citation]) -> Set[str]:
    """The keys of all cites of citations."""
    if isinstance(citations, CitationParts):
        return citations.ids
    return {key for citation in citations for key in citation.ids}


def json_of_citations(citations: Sequence[Citation]) -> bytes:
    """The JSON of a list of citations."""
    if isinstance(citations, CitationParts):
        return citations.json()
    text = ', '.join([citation.json for citation in citations])
    return f'[{text}]'.encode('utf-8', 'replace')


CitationLike = Union[Citation, Sequence[CiteLike], Mapping[str, Any]]
"""A citation, a list of cites, or an object as in csl-citation.json: `citationItems`, and maybe
`citationID` and `properties` with `noteIndex` and `unsorted`."""


class CitationReader:
    """Reads citations, and keeps what is odd in them as `warnings`."""

    def __init__(self) -> None:
        self.warnings: List[Warned] = []

    def citations(self, values: Any) -> List[Citation]:
        """The citations of a document. Raises CitationRefused where one isn't of its form."""
        if not _is_list(values) and not isinstance(values, Iterator):
            raise CitationRefused(None, None, None, 'the citations are no list of citations')
        return [value if type(value) is Citation and value.is_settled
                else self._citation(number, value) for number, value in enumerate(values)]

    def _citation(self, number: int, value: Any) -> Citation:
        if isinstance(value, Citation):
            cites = self._cites(number, value.cites)
            is_same = len(cites) == len(value.cites) and all(map(operator.is_, cites, value.cites))
            return value if is_same else Citation(cites, value.note_index, value.unsorted)
        if isinstance(value, abc.Mapping):
            return self._citation_of_object(number, value)
        if not _is_list(value):
            raise CitationRefused(number, None, None, _NO_CITATION)
        return Citation(self._cites(number, value))

    def _citation_of_object(self, number: int, value: Mapping[str, Any]) -> Citation:
        if 'citationItems' not in value:
            raise CitationRefused(number, None, None, _NO_CITATION)
        cites, properties = value['citationItems'], value.get('properties')
        if not _is_list(cites):
            raise CitationRefused(number, None, 'citationItems', 'no list of cites')
        if not isinstance(properties, (Mapping, type(None))):
            raise CitationRefused(number, None, 'properties', 'no object')
        known = properties or {}
        self._warn_of_keys(number, value, _CITATION_KEYS)
        self._warn_of_keys(number, known, _PROPERTIES)
        note, unsorted = known.get('noteIndex'), known.get('unsorted', False)
        if note is not None and not _is_note(note):
            fault = f'{reprlib.repr(note)} is not a whole number, the number of a note'
            raise CitationRefused(number, None, 'noteIndex', fault)
        if not isinstance(unsorted, bool):
            fault = f'{reprlib.repr(unsorted)} is not true or false'
            raise CitationRefused(number, None, 'unsorted', fault)
        return Citation(self._cites(number, cites), note and int(note), unsorted)

    def _warn_of_keys(self, number: int, value: Mapping[str, Any], keys: Sequence[str]) -> None:
        for key in map(str, value):
            if key not in keys:
                fault = f'citations have no such key, left out{meant(key, keys)}'
                self.warnings.append(Warned(place(number, None, key), fault, citation=number))

    def _cites(self, number: int, values: Any) -> Tuple[Cite, ...]:
        return tuple([self._cite(number, index, cite) for index, cite in enumerate(values)])

    def _cite(self, number: int, index: int, value: Any) -> Cite:
        if isinstance(value, Cite) and is_settled(value):
            return value
        told = value.data() if isinstance(value, Cite) else value
        if not isinstance(told, Mapping):
            raise CitationRefused(number, index, None, 'no cite, which is an object')
        if told.get('id') is None:
            raise CitationRefused(number, index, 'id', 'a cite has to have an id')
        known: Dict[str, Any] = {}
        for given, member in told.items():
            key = str(given).replace('_', '-')
            if key not in _KEYS:
                near = meant(key, _KEYS)
                self._warn(number, index, str(given), f'cites have no such key, left out{near}')
            elif member is not None:
                known[key.replace('-', '_')] = _value(number, index, key, member)
        if 'label' in known:
            known['label'] = self._label(number, index, known['label'])
        return Cite(**known)

    def _label(self, number: int, index: int, label: str) -> str:
        label = _OLDER_LABELS.get(label, label)
        if label in LABELS:
            return label
        fault = f'there is no kind of locator {label!r}, taken for a page{meant(label, LABELS)}'
        self._warn(number, index, 'label', fault)
        return 'page'

    def _warn(self, number: int, index: int, field: str, fault: str) -> None:
        self.warnings.append(Warned(place(number, index, field), fault, citation=number))


def is_settled(cite: Cite) -> bool:
    """Whether a cite is of its form, and says nothing that is left out."""
    if tuple(map(type, vars(cite).values())) not in _SETTLED or cite.id == '':
        return False
    has_label = cite.label in _KNOWN_LABELS if cite.locator else \
        cite.locator is None and cite.label == 'page'
    return has_label and (cite.note is None or _is_note(cite.note))


def _is_list(value: Any) -> bool:
    return isinstance(value, (list, tuple, abc.Sequence)) and not isinstance(value, (str, bytes))


def _is_note(value: Any) -> bool:
    """Whether a value is the number of a note."""
    is_number = isinstance(value, (int, float)) and not isinstance(value, bool)
    is_whole = is_number and (isinstance(value, int) or value.is_integer())
    return bool(is_whole and 0 <= value < 2 ** 64)


def _value(number: int, index: int, key: str, member: Any) -> Any:
    """The value of a key of a cite. Raises CitationRefused where it is another than the key
    wants."""
    if key in _FLAGS and isinstance(member, bool):
        return member
    is_number = isinstance(member, (int, float)) and not isinstance(member, bool)
    if key in _TEXTS and (is_number or isinstance(member, str)):
        return str(member)
    if key == 'note' and _is_note(member):
        return int(member)
    wanted = ('true or false' if key in _FLAGS else 'a text or a number' if key in _TEXTS
              else 'a whole number, the number of a note')
    # (of what is long or deep a part is shown)
    raise CitationRefused(number, index, key, f'{reprlib.repr(member)} is not {wanted}')
