"""Citations of pages of Markdown: what a page says of them, and what is written in their place."""
from __future__ import annotations

import re
from dataclasses import dataclass, field
from typing import Callable, Dict, List, Mapping, Optional, Sequence, Set, Tuple, Union

from . import csl
from ._cited_style import PageCitation
from ._page_writers import PageWriter
from ._pandoc_inlines import CLOSING_QUOTES
from ._pandoc_marks import (Part, closing, first_cite, opening, parts_of, shown_in,
                            text_of_pieces, unformatted_part, without_empty)
from ._pandoc_names import names_in
from ._writing import Piece
from .answer import Tree
from .citation_text import TextCitation

Run = Union[str, List[Piece]]
"""A part of a citation: words of the page, or what the style writes."""


@dataclass
class Words:
    """Words of a page around a cite, with the citations in them, each at its place."""

    text: str
    citations: List[Tuple[int, int, 'CitationOfPage']] = field(default_factory=list)

    def __bool__(self) -> bool:
        return bool(self.text)


@dataclass
class Cited:
    """A cite of a citation, with the words of the page around it."""

    cite: csl.Cite
    prefix: Words
    suffix: Words


@dataclass
class CitationOfPage(PageCitation):
    """A citation of a page: its cites whose entries are there, the keys of the others, and where it
    stands, from `start` to before `end`."""

    start: int
    end: int
    cited: List[Cited] = field(default_factory=list)
    missing: List[str] = field(default_factory=list)
    is_in_text: bool = False
    note: Optional[int] = None
    is_in_note: bool = False
    keeps_names: bool = False
    _asked: Dict[Tuple[bool, Optional[int]], csl.Citation] = field(
        default_factory=dict, init=False, repr=False, compare=False)

    @property
    def keys(self) -> List[str]:
        return [cited.cite.id for cited in self.cited]

    @property
    def names_author(self) -> bool:
        return self.is_in_text and bool(self.cited) and not self.keeps_names

    def cites(self, keeps_authors: bool = False) -> List[csl.Cite]:
        return [self._cite(place, cited, keeps_authors) for place, cited in enumerate(self.cited)]

    def asked(self, keeps_authors: bool = False) -> csl.Citation:
        """The citation of a style, which is made once for each number of its note."""
        key = keeps_authors and self.names_author, self.note
        if key not in self._asked:
            self._asked[key] = super().asked(keeps_authors)
        return self._asked[key]

    def has_words(self, place: int) -> bool:
        """Whether words of the page stand around a cite."""
        return bool(self.cited[place].prefix or self.cited[place].suffix)

    def _cite(self, place: int, cited: Cited, keeps_authors: bool) -> csl.Cite:
        """A cite between marks, where the words of the page are put. Punctuation that they begin
        with may move into quotation marks before it."""
        is_named = place == 0 and self.names_author
        is_marked = bool(cited.prefix or cited.suffix) or is_named
        cite = cited.cite
        if not is_marked and self.note is None:
            return cite
        suffix = _punctuation(cited.suffix.text) + closing(place) if cited.suffix else ''
        return csl.Cite(cite.id, cite.locator, cite.label, opening(place) if is_marked else '',
                        suffix, cite.suppress_author or is_named and not keeps_authors,
                        note=self.note)


def citation_of(found: TextCitation, known: Set[str]) -> CitationOfPage:
    """A citation that was found on a page. Entries that aren't known stand as such beside their
    neighbours."""
    made = CitationOfPage(found.start, found.end, is_in_text=found.author_in_text)
    waiting = ''
    for place, cite in enumerate(found.cites):
        if cite.id not in known:
            made.missing.append(cite.id)
            if place == 0:
                made.is_in_text = False
            if made.cited:
                made.cited[-1].suffix.text += f'; {_unknown(cite.id)}'
            else:
                waiting += f'{_unknown(cite.id)}; '
            continue
        prefix = waiting + cite.prefix if cite.prefix else waiting.rstrip()
        made.cited.append(Cited(cite, Words(prefix), Words(cite.suffix)))
        waiting = ''
    return made


def unknown(citation: CitationOfPage) -> str:
    """What stands for a citation without any entry."""
    return f'({"; ".join(_unknown(key) for key in citation.missing)})'


def _unknown(key: str) -> str:
    return '**' + re.sub(r'([_*`])', r'\\\1', key) + '?**'


@dataclass
class Written:
    """A citation as it is put on its page: the author's names where they stand in the text, the
    rest, and whether that begins with words of the page; and what of it shows nothing."""

    names: List[Run]
    rest: List[Run]
    begins_with_words: bool = False
    lost: List[str] = field(default_factory=list)


class CitationWriter:
    """Puts what a style writes of citations together with the words of their pages. `targets` are
    the addresses of the items to which cites link."""

    def __init__(self, writer: PageWriter, targets: Mapping[str, str]) -> None:
        self.writer, self.targets = writer, targets
        self.texts: Dict[int, str] = {}

    def written(self, citation: CitationOfPage, tree: Tree,
                with_authors: Optional[Tree]) -> Written:
        """A citation, whose tree this is; and where its author stands in the text, the tree with
        it."""
        if with_authors is None and citation.note is None:
            usual = self._usual(citation, tree)
            if usual is not None:
                return Written([], [usual])
        made = Written([], [])
        parts = parts_of(tree)
        shown = shown_in(parts)
        for part in without_empty(parts, shown, citation.has_words):
            made.rest += self._between(made.rest, part) if part.place is None \
                else self._cite(citation, part)
        if with_authors is not None:
            first = [first_cite(parts_of(one)) for one in (with_authors, tree)]
            made.names = [names_in(*first)]
        places = [part.place for part in parts if part.place is not None]
        for place, cited in enumerate(citation.cited):
            if cited.cite.suppress_author and place not in shown and (places or not parts):
                made.lost.append(f'the style writes nothing of {cited.cite.id} but its author')
        made.begins_with_words = bool(places and citation.cited[places[0]].prefix)
        return made

    def _usual(self, citation: CitationOfPage, tree: Tree) -> Optional[str]:
        """The text of a citation as most are: without formatting, with each of its cites once. None
        of another."""
        written: List[Optional[str]] = []
        shown: List[int] = []
        for node in tree:
            place, letters = unformatted_part(node)
            if letters is None or place is None and letters[:1] == '.':
                return None
            if place is None:
                written.append(self.writer.unformatted(letters))
            elif place < len(citation.cited):
                shown.append(place)
                written.append(self._usual_cite(citation.cited[place], place, letters))
        texts = [text for text in written if text is not None]
        is_whole = len(texts) == len(tree) and sorted(shown) == [*range(len(citation.cited))]
        return ''.join(texts) if is_whole else None

    def _usual_cite(self, cited: Cited, place: int, letters: str) -> Optional[str]:
        """A cite of which the style writes these letters, with the words of the page around it.
        None where they have no mark at their ends, or the words have citations."""
        prefix, suffix = cited.prefix, cited.suffix
        if prefix or suffix:
            before, behind = opening(place), ''
            if suffix:
                behind = _punctuation(suffix.text) + closing(place)
            if prefix.citations or suffix.citations or not letters.startswith(before) \
                    or not letters.endswith(behind):
                return None
            letters = letters[len(before):len(letters) - len(behind)]
        target = self.targets.get(cited.cite.id)
        text = self.writer.unformatted(letters, target) if letters.strip() else None
        if text is None or not (prefix or suffix):
            return text
        return f'{prefix.text}{" " if prefix else ""}{text}{_behind(suffix.text, False)}'

    def text(self, runs: Sequence[Run]) -> str:
        """The text of runs, as it stands on the page."""
        return ''.join([run if isinstance(run, str) else self.writer.inline(run) for run in runs])

    def words(self, words: Words) -> str:
        """Words of a page, whose citations are written."""
        text, at = '', 0
        if not words.citations:
            return words.text
        for start, end, citation in words.citations:
            text += words.text[at:start] + self.texts.get(id(citation), words.text[start:end])
            at = end
        return text + words.text[at:]

    def _between(self, before: Sequence[Run], part: Part) -> List[Run]:
        """What stands between cites or behind them, without a full stop behind another one."""
        begins = text_of_pieces(part.pieces).startswith('.')
        if begins and text_of_runs(before[-1:]).endswith('.'):
            return [_changed(part.pieces, 0, lambda text: text[1:])]
        return [part.pieces]

    def _cite(self, citation: CitationOfPage, part: Part) -> List[Run]:
        """A cite, with the words of the page around it."""
        place = part.place or 0
        cited = citation.cited[place]
        prefix, suffix = self.words(cited.prefix), self.words(cited.suffix)
        pieces, suffix = _settled(part.pieces, suffix)
        needs_comma = place == 0 and citation.names_author and cited.cite.locator is None
        target = self.targets.get(cited.cite.id)
        has_link = any('url' in piece.node for piece in pieces)
        content = linked(pieces, target) if target and not has_link and pieces else pieces
        return [*([f'{prefix} '] if prefix else []), content, _behind(suffix, needs_comma)]


def linked(pieces: Sequence[Piece], target: str) -> List[Piece]:
    """Pieces of a cite as a link."""
    return [Piece('open', {}, target), *pieces, Piece('close', {}, target)]


def text_of_runs(runs: Sequence[Run]) -> str:
    """The letters of runs."""
    return ''.join(run if isinstance(run, str) else text_of_pieces(run) for run in runs)


def without_full_stop(runs: Sequence[Run]) -> List[Run]:
    """Runs without the full stop of a style of notes, which may have moved into quotation marks
    that end there."""
    last = next((at for at in range(len(runs) - 1, -1, -1) if text_of_runs([runs[at]])), None)
    if last is None:
        return list(runs)
    run = runs[last]
    if isinstance(run, str):
        return list(runs)
    cut = _changed(run, -1, lambda text: re.sub(rf'[.](?=[{CLOSING_QUOTES}]*$)', '', text))
    return [*runs[:last], cut, *runs[last + 1:]]


def capitalized(text: str) -> str:
    """Words with a capital for their first letter."""
    return re.sub(r'[^\W_]', lambda match: match.group().upper(), text, count=1)


def _punctuation(suffix: str) -> str:
    """The comma or the full stop with which a suffix begins."""
    return suffix[:1] if suffix[:1] in (',', '.') else ''


def _settled(pieces: List[Piece], suffix: str) -> Tuple[List[Piece], str]:
    """A cite that the style wrote with the punctuation of the suffix, and the suffix: it stands in
    the cite where the style moved it into quotation marks, and else in the suffix."""
    mark = _punctuation(suffix)
    if not mark:
        return pieces, suffix
    text = text_of_pieces(pieces)
    if text.endswith(mark):
        return _changed(pieces, -1, lambda last: last[:-1]), suffix
    if re.search(f'{re.escape(mark)}[{CLOSING_QUOTES}]+$', text):
        return pieces, suffix[1:]
    return pieces, suffix


def _changed(pieces: Sequence[Piece], which: int, change: Callable[[str], str]) -> List[Piece]:
    """Pieces whose first or last text is changed."""
    places = [place for place, piece in enumerate(pieces)
              if piece.kind in ('text', 'markup') and piece.node[piece.kind]]
    if not places:
        return list(pieces)
    at = places[which]
    piece = pieces[at]
    made = piece._replace(node={**piece.node, piece.kind: change(piece.node[piece.kind])})
    return [*pieces[:at], made, *pieces[at + 1:]]


def _behind(suffix: str, needs_comma: bool) -> str:
    """A suffix, set off from the cite by the space or the punctuation that it has, or by one of
    these."""
    first = suffix[:1]
    if first and needs_comma and first not in ',;:.':
        return f', {suffix.lstrip()}'
    return suffix if not first.isalnum() and first not in '([{\u201c\u2018' or not first \
        else f' {suffix}'
