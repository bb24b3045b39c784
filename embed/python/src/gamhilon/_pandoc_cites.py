"""Pandoc's citations as citations of a style, and what is written of these as inlines."""
from __future__ import annotations

import re
from dataclasses import dataclass, field
from typing import Any, List, Mapping, Optional, Set, Tuple

from . import _locators, csl
from ._cited_style import PageCitation
from ._locators import ENGLISH, Locator
from ._pandoc_inlines import (CLOSING_QUOTES, SPACE, Inlines, inlines_of_pieces, joined,
                              leading_text, linked, strong, text_of, words)
from ._pandoc_marks import (Part, closing, first_cite, opening, parts_of, shown_in,
                            text_of_pieces, without_empty)
from ._pandoc_names import names_in
from ._writing import Piece
from .answer import Tree

NORMAL, AUTHOR_IN_TEXT, SUPPRESS_AUTHOR = 'NormalCitation', 'AuthorInText', 'SuppressAuthor'


@dataclass
class Cited:
    """One entry of a citation: what pandoc says of it."""

    key: str
    mode: str
    prefix: Inlines
    suffix: Inlines
    locator: Optional[Locator]


@dataclass
class Citation(PageCitation):
    """A citation of the text: its entries that are there, what is shown of those that aren't, and
    where it stands."""

    place: str
    cited: List[Cited]
    missing: List[str] = field(default_factory=list)
    note: Optional[int] = None
    is_in_note: bool = False
    is_in_link: bool = False
    keeps_names: bool = False

    @property
    def keys(self) -> List[str]:
        return [cited.key for cited in self.cited]

    @property
    def names_author(self) -> bool:
        """Whether the author of the first entry stands in the text, before the citation."""
        return bool(self.cited) and self.cited[0].mode == AUTHOR_IN_TEXT and not self.keeps_names

    def cites(self, keeps_authors: bool = False) -> List[csl.Cite]:
        """The cites of a style: without the author that stands in the text, unless it is kept. The
        words of the page are marks; where there are none behind a cite, punctuation may move into
        it."""
        return [self._cite(place, cited, keeps_authors)
                for place, cited in enumerate(self.cited)]

    def has_words(self, place: int) -> bool:
        """Whether words of the page stand around a cite."""
        return bool(self.cited[place].prefix or self.cited[place].suffix)

    def _cite(self, place: int, cited: Cited, keeps_authors: bool) -> csl.Cite:
        is_named = place == 0 and self.names_author
        is_marked = bool(cited.prefix or cited.suffix) or is_named
        leaves_out = cited.mode == SUPPRESS_AUTHOR or is_named and not keeps_authors
        kind, text = cited.locator or ('page', None)
        # (the style moves punctuation into quotation marks before it)
        suffix = _punctuation(cited.suffix) + closing(place) if cited.suffix else ''
        return csl.Cite(cited.key, text, kind, opening(place) if is_marked else '', suffix,
                        suppress_author=leaves_out, note=self.note)


def citation_of(cite: Any, number: int, known: Set[str],
                words_of_locators: Mapping[str, str] = ENGLISH) -> Citation:
    """A citation, by its Cite element. Entries that aren't known stand as such beside their
    neighbours."""
    parts, shown = cite['c']
    place = f'citation {number}, {text_of(shown)}'
    made = Citation(place, [])
    waiting: Inlines = []
    for part in parts:
        if part['citationId'] not in known:
            made.missing.append(part['citationId'])
            mark = [strong(f'{part["citationId"]}?')]
            if made.cited:
                made.cited[-1].suffix += [*words('; '), *mark]
            else:
                waiting += [*mark, *words(';')]
            continue
        cited = _cited_of(part, words_of_locators)
        cited.prefix, waiting = joined([*waiting, *([SPACE] if waiting and cited.prefix else []),
                                        *cited.prefix]), []
        made.cited.append(cited)
    return made


def _cited_of(part: Any, words_of_locators: Mapping[str, str]) -> Cited:
    text, behind = leading_text(part['citationSuffix'])
    locator, rest = _locators.split(text, words_of_locators)
    suffix = joined([*words(rest), *behind])
    if not text_of(suffix).strip():
        suffix = []
    return Cited(part['citationId'], part['citationMode']['t'], list(part['citationPrefix']),
                 suffix, locator)


@dataclass
class Written:
    """A citation as inlines: the author's names where they stand in the text, and the rest; and
    what of it shows nothing."""

    names: Inlines
    rest: Inlines
    lost: List[str]
    begins_with_words: bool = False


def written(citation: Citation, tree: Tree, with_authors: Optional[Tree], links: bool) -> Written:
    """The inlines of a citation, of which this is the tree of the answer; and where its author
    stands in the text, the tree with it."""
    made = Written([], [], [])
    parts = parts_of(tree)
    shown = shown_in(parts)
    for part in without_empty(parts, shown, citation.has_words):
        if part.place is None:
            made.rest += _between(made.rest, part)
        else:
            made.rest += _cite(citation, part, links)
    if with_authors is not None:
        names = names_in(first_cite(parts_of(with_authors)), first_cite(parts))
        made.names = inlines_of_pieces(names)
    tells_places = not parts or any(part.place is not None for part in parts)
    for place, cited in enumerate(citation.cited):
        if cited.mode == SUPPRESS_AUTHOR and tells_places and place not in shown:
            made.lost.append(f'the style writes nothing of {cited.key} but its author')
    first = next((part.place for part in parts if part.place is not None), None)
    made.begins_with_words = first is not None and bool(citation.cited[first].prefix)
    made.rest = joined(made.rest)
    return made


def _between(before: Inlines, part: Part) -> Inlines:
    """What stands between cites or behind them, without a full stop behind another one."""
    inlines = inlines_of_pieces(part.pieces)
    is_doubled = bool(inlines) and inlines[0].get('t') == 'Str' \
        and inlines[0]['c'].startswith('.') and text_of(before).endswith('.')
    if not is_doubled:
        return inlines
    rest = inlines[0]['c'][1:]
    return [*([{'t': 'Str', 'c': rest}] if rest else []), *inlines[1:]]


def _cite(citation: Citation, part: Part, links: bool) -> Inlines:
    """A cite, with the words of the page around it."""
    place = part.place or 0
    cited = citation.cited[place]
    pieces, suffix = _settled(part.pieces, cited.suffix)
    content = inlines_of_pieces(pieces)
    if links:
        content = linked(content, cited.key)
    needs_comma = place == 0 and citation.names_author and not cited.locator
    return [*_before(cited.prefix), *content, *_behind(suffix, needs_comma)]


def _punctuation(suffix: Inlines) -> str:
    """The comma or the full stop with which a suffix begins."""
    first = text_of(suffix[:1])[:1]
    return first if suffix and suffix[0]['t'] == 'Str' and first in (',', '.') else ''


def _settled(pieces: List[Piece], suffix: Inlines) -> Tuple[List[Piece], Inlines]:
    """A cite that the style wrote with the punctuation of the suffix, and the suffix: it stands in
    the cite where the style moved it into quotation marks, and else in the suffix."""
    mark, text = _punctuation(suffix), text_of_pieces(pieces)
    if mark and text.endswith(mark):
        return _without_last(pieces), suffix
    if mark and re.search(f'{re.escape(mark)}[{CLOSING_QUOTES}]+$', text):
        rest = suffix[0]['c'][1:]
        return pieces, [*([{'t': 'Str', 'c': rest}] if rest else []), *suffix[1:]]
    return pieces, suffix


def _without_last(pieces: List[Piece]) -> List[Piece]:
    """Parts of a tree without the last letter of the last text."""
    at = max(place for place, piece in enumerate(pieces)
             if piece.kind in ('text', 'markup') and piece.node[piece.kind])
    last = pieces[at]
    cut = last._replace(node={**last.node, last.kind: last.node[last.kind][:-1]})
    return [*pieces[:at], cut, *pieces[at + 1:]]


def _before(prefix: Inlines) -> Inlines:
    return [*prefix, SPACE] if prefix else []


def _behind(suffix: Inlines, needs_comma: bool) -> Inlines:
    """A suffix, set off from the cite by the space or the punctuation that it has, or by one of
    these."""
    if not suffix:
        return []
    first = text_of(suffix)[:1]
    if needs_comma and first not in ',;:.':
        return [*words(', '), *(suffix[1:] if suffix[0] == SPACE else suffix)]
    return suffix if not first.isalnum() and first not in '([{\u201c\u2018' else [SPACE, *suffix]
