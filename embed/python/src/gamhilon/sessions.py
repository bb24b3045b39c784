"""Sessions: a document that is edited, and what each edit changes of its texts."""
from __future__ import annotations

import json
import re
from dataclasses import dataclass
from types import TracebackType
from typing import Any, Dict, Iterable, List, Mapping, Optional, Sequence, Type

from ._library import library
from ._library_session import LibrarySession, SessionFault
from ._limits import style_limits
from .csl.abbreviations import Abbreviations, AbbreviationsLike, abbreviations_of
from .csl.calling import Document, bytes_of, json_of
from .csl.cites import Citation, CitationLike, CitationReader
from .csl.entries import EntryReader, EntryTexts
from .csl.handed_in import ReferencesLike, StyleLike, read_of, style_of
from .csl.locales import LocaleFile, Locales, files_for, with_dialect
from .csl.rendering import LANGUAGE
from .csl.style import Style, load
from .csl.warned import Warned
from .errors import LibraryFailed, NumberOverflow, StyleLimitExceeded, TextRefused
from .texts import TextFault, TextWarning

__all__ = ['Changes', 'Session', 'TextChanges']

NUMBER_OVERFLOW, LIMIT_EXCEEDED = 4, 10
_ERROR = re.compile(r'(?P<file>style|locales(?:/\d+)?|items|citations|options):'
                    r'(?:(?P<line>\d+):(?P<column>\d+):)?(?: (?P<pointer>/\S*):)? '
                    r'(?P<message>.*)', re.DOTALL)


@dataclass(frozen=True)
class TextChanges:
    """What changed of citations by their keys, or of the items of the list by their ids: the texts
    that are `changed`, new ones too; the keys that are `gone`; and all keys that there are, in
    their `order`."""

    changed: Mapping[str, str]
    gone: Sequence[str]
    order: Sequence[str]
    is_reordered: bool = False

    def __bool__(self) -> bool:
        """Whether anything changed."""
        return bool(self.changed or self.gone or self.is_reordered)


@dataclass(frozen=True)
class Changes:
    """What changed since the update before; at the first update all is new."""

    citations: TextChanges
    bibliography: TextChanges

    def __bool__(self) -> bool:
        """Whether anything changed."""
        return bool(self.citations or self.bibliography)


class _Texts:
    """Texts by their keys, which each answer brings up to date."""

    def __init__(self, key: str, keys: str) -> None:
        self._key, self._keys = key, keys
        self._texts: Dict[str, str] = {}

    def apply(self, part: Optional[Mapping[str, Any]]) -> TextChanges:
        """What an answer says of these texts; it says nothing where a style has no list."""
        before = list(self._texts)
        if part is None:
            self._texts = {}
            return TextChanges({}, before, [])
        changed = {it[self._key]: it['text'] for it in part['changed']}
        known = {**self._texts, **changed}
        order = part.get(self._keys, before)
        self._texts = {key: known[key] for key in order}
        gone = [key for key in before if key not in self._texts]
        stayed = [key for key in order if key in known and key not in changed]
        return TextChanges(changed, gone, order, stayed != [key for key in before if key in stayed])

    def now(self) -> Dict[str, str]:
        """The texts as they are, in their order."""
        return dict(self._texts)


class Session:
    """A document in a style, with its references, that is edited. Each `update` takes all citations
    as they stand, and gives what changed; what didn't change isn't written again.

        >>> works = [{'id': 'doe99', 'type': 'book', 'title': 'On Order',
        ...           'author': [{'family': 'Doe'}], 'issued': {'date-parts': [[1999]]}},
        ...          {'id': 'roe00', 'type': 'book', 'title': 'A Reply',
        ...           'author': [{'family': 'Roe'}], 'issued': {'date-parts': [[2000]]}}]
        >>> with Session('author-date', works) as session:
        ...     first = session.update([[{'id': 'doe99'}]])
        ...     then = session.update([[{'id': 'doe99'}], [{'id': 'roe00'}]])
        ...     now = session.citations
        >>> then.citations.changed, list(then.bibliography.changed)
        ({'1': '(Roe 2000)'}, ['roe00'])
        >>> now
        {'0': '(Doe 1999)', '1': '(Roe 2000)'}

    `style`, `references`, `locale`, `locales`, `abbreviations`, `most_steps` and `most_bytes` are
    those of `csl.render`. `form` is `text`, `html`, `markdown` or `latex`. With `nocite` references
    that aren't cited are listed too. In a `draft`, a cite of a reference that isn't there is its id
    in bold letters, and a warning.

    The key of a citation is its `citationID`, or else its place in the list, from 0. What is raised
    is what `csl.render` raises; a call that raises leaves the session as it was. A session is used
    by one thread at a time.
    """

    def __init__(self, style: StyleLike, references: ReferencesLike = (), *, form: str = 'text',
                 nocite: bool = False, draft: bool = False, locale: Optional[str] = None,
                 locales: Optional[Locales] = None,
                 abbreviations: Optional[AbbreviationsLike] = None,
                 most_steps: Optional[int] = None, most_bytes: Optional[int] = None) -> None:
        self._options = {'form': form, 'nocite': nocite, 'draft': draft,
                         **_limits(style_limits(most_steps, most_bytes))}
        self._abbreviations = abbreviations_of(abbreviations)
        self._locale, self._locales = locale, locales
        self._odd: List[Warned] = []
        self._ids: List[str] = []
        self._texts = {'citations': _Texts('key', 'keys'), 'bibliography': _Texts('id', 'ids')}
        self._held: Optional[LibrarySession] = library().session()
        self._style = self._set_style('open', style)
        self.put(references)

    def __enter__(self) -> Session:
        return self

    def __exit__(self, kind: Optional[Type[BaseException]], error: Optional[BaseException],
                 trace: Optional[TracebackType]) -> None:
        self.close()

    def close(self) -> None:
        """Frees all that was read and written. No other call follows."""
        if self._held is not None:
            self._held.close()
        self._held = None

    @property
    def citations(self) -> Dict[str, str]:
        """The texts of the citations at the last update, by their keys, in their order."""
        return self._texts['citations'].now()

    @property
    def bibliography(self) -> Dict[str, str]:
        """The texts of the items of the list at the last update, by their ids, in their order."""
        return self._texts['bibliography'].now()

    @property
    def warnings(self) -> List[Warned]:
        """What is odd in the style, in the references that were put last, and in the citations."""
        said = json.loads(self._text('warnings'))['warnings']
        document = self._document()
        return [*self._odd, *[document.warned(TextWarning(**warning)) for warning in said]]

    def update(self, citations: Iterable[CitationLike]) -> Changes:
        """Puts these citations in place of all others, and says what changed."""
        asked = list(citations)
        reader = CitationReader()
        read = reader.citations(asked)
        self._edit('set_citations', _json_of(asked, read))
        return self._applied(json.loads(self._text('answer')))

    def put(self, references: ReferencesLike) -> None:
        """Adds references; those whose ids are known take the places of the known ones."""
        reader = EntryReader()
        items, odd = read_of(references)
        entries = reader.entries(items)
        self._edit('put_items', EntryTexts().json(list(entries.values())), ids=list(entries))
        self._ids, self._odd = list(entries), [*odd, *reader.warnings]

    def remove(self, ids: Iterable[str]) -> None:
        """Removes references. An update that cites one of them raises CitationRefused."""
        self._edit('remove_items', json_of(list(ids)))

    def set_style(self, style: StyleLike) -> None:
        """Goes on in another style. The next update has what changed."""
        self._style = self._set_style('set_style', style)

    def _set_style(self, call: str, style: StyleLike) -> Style:
        found = load(style_of(style))
        language = with_dialect(self._locale or found.language or LANGUAGE)
        files = files_for(language, self._locales)
        options: Dict[str, Any] = {'locale': language, **self._options}
        if self._abbreviations is not None:
            options['abbreviations'] = self._abbreviations.value
        document = _document(found, files, language, self._abbreviations)
        texts = [bytes_of(found.text), json_of([file.text for file in files]), json_of(options)]
        self._edit(call, *texts, document=document)
        self._files, self._language = files, language
        return found

    def _applied(self, answer: Mapping[str, Any]) -> Changes:
        """What an answer changes of the texts that there are."""
        return Changes(**{part: texts.apply(answer.get(part))
                          for part, texts in self._texts.items()})

    def _opened(self) -> LibrarySession:
        if self._held is None:
            raise ValueError('the session is closed')
        return self._held

    def _edit(self, call: str, *texts: bytes, document: Optional[Document] = None,
              ids: Sequence[str] = ()) -> None:
        """A call that changes the session."""
        try:
            self._opened().edit(call, *texts)
        except SessionFault as fault:
            raise _error(fault, document or self._document(ids)) from None

    def _text(self, call: str) -> bytes:
        """A call that gives a text."""
        try:
            return self._opened().text(call)
        except SessionFault as fault:
            raise _error(fault, self._document()) from None

    def _document(self, ids: Optional[Sequence[str]] = None) -> Document:
        """What names the places of faults and warnings; these are the ids of the items that were
        put."""
        named = self._ids if ids is None else ids
        return _document(self._style, self._files, self._language, self._abbreviations,
                         [{'id': key} for key in named])


def _limits(limits: Optional[Mapping[str, int]]) -> Dict[str, Any]:
    return {'limits': dict(limits)} if limits else {}


def _document(style: Style, files: Sequence[LocaleFile], language: str,
              abbreviations: Optional[Abbreviations],
              entries: Sequence[Dict[str, Any]] = ()) -> Document:
    return Document(style, files, entries, (), language, abbreviations)


def _json_of(asked: Sequence[CitationLike], read: Sequence[Citation]) -> bytes:
    """The JSON of citations that were read of what was handed in, with their keys."""
    values: List[Any] = []
    for given, citation in zip(asked, read):
        value = citation.data()
        key = given.get('citationID') if isinstance(given, Mapping) else None
        if key is not None:
            items = value if isinstance(value, list) else value['citationItems']
            properties = {} if isinstance(value, list) else {'properties': value['properties']}
            value = {'citationID': str(key), 'citationItems': items, **properties}
        values.append(value)
    return json_of(values)


def _error(fault: SessionFault, document: Document) -> Exception:
    """What is raised of what the library says."""
    found = _ERROR.fullmatch(fault.message)
    if fault.status == NUMBER_OVERFLOW:
        return NumberOverflow("the citation numbers don't fit 64 bits")
    if found is None:
        return LibraryFailed(f'the library ended a call on a session with status {fault.status}'
                             f'{fault.message and ": "}{fault.message}')
    text = TextFault(found['file'], found['message'], found['pointer'], _number(found['line']),
                     _number(found['column']))
    if fault.status == LIMIT_EXCEEDED:
        return StyleLimitExceeded(text)
    return document.error(TextRefused(text, []))


def _number(digits: Optional[str]) -> Optional[int]:
    return None if digits is None else int(digits)
