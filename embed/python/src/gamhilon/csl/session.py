"""Sessions: a style and references that write citations again and again, and what changed."""
from __future__ import annotations

from dataclasses import dataclass
from types import TracebackType
from typing import Any, Dict, Iterable, List, Mapping, Optional, Sequence, Tuple, Type, Union

from .._limits import style_limits
from ..answer import Answer, Node, Tree
from .abbreviations import AbbreviationsLike, abbreviations_of
from .cites import CitationLike, CitationReader
from .entries import Entry
from .handed_in import ReferencesLike, StyleLike, style_of
from .kept import Kept
from .locales import Locales
from .rendering import ReadEntries, Renderer, read_entries
from .results import Rendered
from .style import load
from .warned import Warned

__all__ = ['Changes', 'KeyChanges', 'Session']

_Shown = Union[Tree, Tuple[Optional[Node], Tree]]
"""What is shown of a citation or of an item: its trees."""


@dataclass(frozen=True)
class KeyChanges:
    """What changed of citations by their `citationID`, or of the items of the list by their ids:
    those that are written otherwise, the new ones, and those that are `gone`; and whether ones that
    stayed are in another order."""

    changed: Sequence[str] = ()
    new: Sequence[str] = ()
    gone: Sequence[str] = ()
    reordered: bool = False

    def __bool__(self) -> bool:
        return bool(self.changed or self.new or self.gone or self.reordered)


@dataclass(frozen=True)
class Changes:
    """What comes of citations (`rendered`), and what of it is other than at the update before:
    `citations` are the indexes at which another citation is written, or one is new or gone;
    `named` is the same of the citations that have a `citationID`, and `items` of the list. At the
    first update all is new."""

    rendered: Rendered
    citations: Sequence[int]
    named: KeyChanges
    items: KeyChanges

    def __bool__(self) -> bool:
        """Whether anything changed."""
        return bool(self.citations or self.named or self.items)


@dataclass(frozen=True)
class _Given:
    """What was shown at an update."""

    citations: Sequence[_Shown]
    named: Mapping[str, _Shown]
    items: Mapping[str, _Shown]


_NOTHING = _Given((), {}, {})


class Session:
    """A style and references, which are read once, and write citations at each `update`.

        >>> works = [{'id': 'doe99', 'type': 'book', 'title': 'On Order',
        ...           'author': [{'family': 'Doe'}], 'issued': {'date-parts': [[1999]]}},
        ...          {'id': 'roe00', 'type': 'book', 'title': 'A Reply',
        ...           'author': [{'family': 'Roe'}], 'issued': {'date-parts': [[2000]]}}]
        >>> with Session('author-date', works) as session:
        ...     first = session.update([[{'id': 'doe99'}]])
        ...     then = session.update([[{'id': 'doe99'}], [{'id': 'roe00'}]])
        >>> then.rendered.citations[1], then.citations, then.items.new
        ('(Roe 2000)', [1], ['roe00'])

    Arguments are those of `render`, and so is what is raised. Each update gives what a call of that
    gives; what didn't change isn't written again. A call that raises leaves the session as it was.
    A session is used by one thread at a time.
    """

    def __init__(self, style: StyleLike, references: ReferencesLike = (), *,
                 nocite: Union[str, Iterable[str]] = (), locale: Optional[str] = None,
                 locales: Optional[Locales] = None,
                 abbreviations: Optional[AbbreviationsLike] = None,
                 most_steps: Optional[int] = None, most_bytes: Optional[int] = None) -> None:
        self._nocite = nocite if isinstance(nocite, str) else list(nocite)
        self._options = (locale, locales, abbreviations_of(abbreviations),
                         style_limits(most_steps, most_bytes))
        self._style, self._kept = load(style_of(style)), Kept()
        self._entries, self._odd = read_entries(references)
        self._renderer: Optional[Renderer] = self._renderer_of(self._entries)
        self._given = _NOTHING

    def __enter__(self) -> Session:
        return self

    def __exit__(self, kind: Optional[Type[BaseException]], error: Optional[BaseException],
                 trace: Optional[TracebackType]) -> None:
        self.close()

    def close(self) -> None:
        """Lets go of all that was read. No other call follows."""
        self._renderer, self._entries, self._given = None, {}, _NOTHING
        self._kept.close()

    def update(self, citations: Iterable[CitationLike]) -> Changes:
        """Writes these citations, and says what changed since the last update."""
        asked, reader = list(citations), CitationReader()
        renderer, read = self._opened(), reader.citations(asked)
        rendered = renderer.render(read, self._nocite, [*self._odd, *reader.warnings])
        given = _given_of(rendered.answer, asked)
        before, self._given = self._given, given
        return _changes(rendered, before, given)

    def put(self, references: ReferencesLike) -> None:
        """Adds references; those whose ids are known take the places of the known ones."""
        self._opened()
        entries, odd = read_entries(references)
        self._replace({**self._entries, **entries})
        self._odd += odd

    def remove(self, ids: Iterable[str]) -> None:
        """Removes references. An update that cites one of them raises CitationRefused."""
        self._opened()
        gone = frozenset(ids)
        self._replace({key: entry for key, entry in self._entries.items() if key not in gone})

    def set_style(self, style: StyleLike) -> None:
        """Goes on in another style."""
        self._opened()
        before, self._style = self._style, load(style_of(style))
        try:
            self._replace(self._entries)
        except BaseException:
            self._style = before
            raise

    def _replace(self, entries: Dict[str, Entry]) -> None:
        self._renderer, self._entries = self._renderer_of(entries), entries

    def _renderer_of(self, entries: Dict[str, Entry]) -> Renderer:
        return Renderer(self._style, ReadEntries(entries, []), *self._options, kept=self._kept)

    def _opened(self) -> Renderer:
        if self._renderer is None:
            raise ValueError('the session is closed')
        return self._renderer


def _given_of(answer: Answer, asked: Sequence[Any]) -> _Given:
    """What is shown of an answer to these citations."""
    citations: List[_Shown] = [citation.content for citation in answer.citations]
    named = {}
    for citation, shown in zip(asked, citations):
        key = citation.get('citationID') if isinstance(citation, Mapping) else None
        if key is not None:
            named[str(key)] = shown
    listed = answer.bibliography.items if answer.bibliography else []
    return _Given(citations, named, {item.key: (item.first_field, item.content)
                                     for item in listed})


def _changes(rendered: Rendered, old: _Given, new: _Given) -> Changes:
    return Changes(rendered, differing(old.citations, new.citations),
                   key_changes(old.named, new.named), key_changes(old.items, new.items))


def differing(old: Sequence[Any], new: Sequence[Any]) -> List[int]:
    """The indexes at which two sequences differ, also those at which only one has something."""
    both = min(len(old), len(new))
    return [index for index in range(max(len(old), len(new)))
            if index >= both or old[index] != new[index]]


def key_changes(old: Mapping[str, Any], new: Mapping[str, Any]) -> KeyChanges:
    """What changed from one mapping to another."""
    stayed = [key for key in new if key in old]
    return KeyChanges([key for key in stayed if old[key] != new[key]],
                      [key for key in new if key not in old],
                      [key for key in old if key not in new],
                      stayed != [key for key in old if key in new])
