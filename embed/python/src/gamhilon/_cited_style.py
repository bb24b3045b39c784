"""The style in which citations of pages are written: those of pandoc's pages and of Markdown."""
from __future__ import annotations

from dataclasses import dataclass
from functools import cached_property
from typing import (Any, Dict, Iterable, List, Mapping, NamedTuple, Optional, Sequence, Set,
                    Tuple)

from . import csl
from ._locators import words_of
from ._pandoc_marks import without_marks
from .answer import Bibliography, Citation, Tree
from .csl.abbreviations import abbreviations_of
from .csl.cites import CitationPart, CitationParts, CitationReader, is_settled, part_number
from .csl.kept import Kept
from .csl.rendering import Renderer, read_entries
from .csl.style import load

Item = Dict[str, Any]


class PageCitation:
    """What the style asks of a citation of a page."""

    note: Optional[int] = None

    @property
    def keys(self) -> List[str]:
        """The keys of its cites."""
        raise NotImplementedError

    @property
    def names_author(self) -> bool:
        """Whether the author of the first cite stands in the text, before the citation."""
        raise NotImplementedError

    def cites(self, keeps_authors: bool = False) -> List[csl.Cite]:
        """The cites of a style: without the author that stands in the text, unless it is kept."""
        raise NotImplementedError

    def asked(self, keeps_authors: bool) -> csl.Citation:
        """The citation of a style that has these cites."""
        return csl.Citation(tuple(self.cites(keeps_authors)))


@dataclass(frozen=True)
class Answered:
    """What a style writes: each citation; where its author stands in the text, the tree that has it
    too; and the reference list."""

    citations: List[Citation]
    with_authors: List[Optional[Tree]]
    bibliography: Optional[Bibliography]
    warnings: List[csl.Warned]

    @property
    def trees(self) -> List[Tree]:
        """The trees of the citations."""
        return [citation.content for citation in self.citations]


class AskedPart(NamedTuple):
    """What a style is asked for of citations that are asked for together, and the places that these
    have in it."""

    part: CitationPart
    places: Sequence[int]


class Asking:
    """Citations that are asked for together, as those of a page that is read. What the style is
    asked for of them is made anew only where it depends on the notes before them. Those of a page
    that is read anew take over the `number` of that page."""

    def __init__(self, citations: Sequence[PageCitation], number: Optional[int] = None) -> None:
        self.citations = citations
        self.number = part_number() if number is None else number
        self._made: Dict[bool, Tuple[Any, Optional[AskedPart]]] = {}

    @cached_property
    def are_named(self) -> List[bool]:
        """Of each of them whether its author stands in the text."""
        return [citation.names_author for citation in self.citations]

    def part(self, keeps_authors: bool, follows: Optional[_NoteBefore] = None
             ) -> Optional[AskedPart]:
        """What the style is asked for, in one of notes behind the note that these follow; None
        where something is odd in that."""
        keeps_authors = keeps_authors and True in self.are_named
        state = None if follows is None else follows.state(self.citations)
        if keeps_authors not in self._made or self._made[keeps_authors][0] != state:
            asked, places = _asked_of(self.citations, keeps_authors, follows)
            are_settled = all([is_settled(cite) for citation in asked for cite in citation.cites])
            self._made[keeps_authors] = state, AskedPart(
                CitationPart(asked, self.number), places) if are_settled else None
        return self._made[keeps_authors][1]


class CitedStyle:
    """A style, by its name, the path of its file or its text, with the references of pages and
    abbreviations. Raises StyleMissing, StyleRefused and AbbreviationsRefused."""

    def __init__(self, name: str, locale: Optional[str] = None,
                 locales: Optional[csl.Locales] = None,
                 abbreviations: Optional[csl.AbbreviationsLike] = None) -> None:
        self.name, self.locale, self.locales = name, locale, locales
        self._abbreviations = abbreviations_of(abbreviations)
        self.about = csl.about(name)
        self.is_note = self.about.is_note
        self.items: Dict[str, Item] = {}
        self.keys: Set[str] = set()
        self._listed_number = part_number()
        self._renderer: Optional[Renderer] = None

    @cached_property
    def words(self) -> Mapping[str, str]:
        """The words of locators in its language."""
        return words_of(self.locale, self.locales)

    def take(self, items: Iterable[Item]) -> None:
        """Takes references. The first of a key counts."""
        for item in items:
            self.items.setdefault(str(item['id']), without_marks(item))
        self.keys = set(self.items)
        self._renderer = None

    def answer(self, citations: Sequence[PageCitation], nocite: Sequence[str]) -> Answered:
        """Writes citations, and the list of what they cite and of what is listed without being
        cited."""
        reader, listed, follows = CitationReader(), _listed(nocite), self._before()
        asked, places = _asked_of(citations, False, follows)
        rendered = self._rendering().render(reader.citations([*asked, *listed]),
                                            warnings=reader.warnings)
        are_named = [citation.names_author for citation in citations]
        whole: Sequence[Citation] = ()
        if True in are_named:
            again, _ = _asked_of(citations, True, follows)
            whole = self._rendering().citations(CitationReader().citations([*again, *listed]))
        return _answered(rendered, whole, are_named, places)

    def answer_pages(self, pages: Sequence[Asking], nocite: Sequence[str]) -> Answered:
        """The same of the citations of pages. Those that have changed since are asked anew."""
        are_named = [is_named for page in pages for is_named in page.are_named]
        asked = self._parts(pages, False)
        again = self._parts(pages, True) if True in are_named else asked
        listed = CitationPart(_listed(nocite), self._listed_number)
        if asked is None or again is None \
                or not all(citation.is_settled for citation in listed.citations):
            return self.answer([citation for page in pages for citation in page.citations], nocite)
        rendered = self._rendering().render(
            CitationParts([*(one.part for one in asked), listed]))
        whole: Sequence[Citation] = ()
        if True in are_named:
            whole = self._rendering().citations(
                CitationParts([*(one.part for one in again), listed]))
        return _answered(rendered, whole, are_named, _all_places(asked))

    def _parts(self, pages: Sequence[Asking], keeps_authors: bool) -> Optional[List[AskedPart]]:
        """What the style is asked for of pages; None where something is odd in that."""
        parts: List[AskedPart] = []
        follows = self._before()
        for page in pages:
            made = page.part(keeps_authors, follows)
            if made is None:
                return None
            parts.append(made)
            if follows is not None and page.citations:
                follows = _NoteBefore(page.citations[-1])
        return parts

    def _before(self) -> Optional[_NoteBefore]:
        """What the first citation follows in a style of notes."""
        return _NoteBefore(None) if self.is_note else None

    def _rendering(self) -> Renderer:
        """The style with its references, which are read once."""
        if self._renderer is None:
            self._renderer = Renderer(load(self.name), read_entries(list(self.items.values())),
                                      self.locale, self.locales, self._abbreviations, kept=Kept())
        return self._renderer


class _NoteBefore(NamedTuple):
    """The citation that citations follow in a style of notes, if there is one."""

    citation: Optional[PageCitation]

    def between(self, citation: PageCitation) -> Optional[csl.Citation]:
        """What stands between it and a citation that follows. Where the author of that stands in
        the text, and it is of the same work, the style would write `Ibid.` in place of both: two
        cites of the work that aren't shown, in the note before, keep it from that."""
        before = self.citation
        if before is None or not citation.names_author or before.keys != citation.keys[:1]:
            return None
        hidden = csl.Cite(before.keys[0], hidden=True, note=before.note)
        return csl.Citation((hidden, hidden))

    def state(self, citations: Sequence[PageCitation]) -> Tuple[Any, ...]:
        """What decides of what is asked for of citations that follow it: the number of their first
        note, and what stands between."""
        return (citations[0].note, self.between(citations[0])) if citations else ()


def _asked_of(citations: Sequence[PageCitation], keeps_authors: bool,
              follows: Optional[_NoteBefore]) -> Tuple[List[csl.Citation], Sequence[int]]:
    """What a style is asked for, and the places of citations in it: in a style of notes behind the
    note that they follow."""
    if follows is None:
        return [citation.asked(keeps_authors) for citation in citations], range(len(citations))
    asked: List[csl.Citation] = []
    places: List[int] = []
    for citation in citations:
        between = follows.between(citation)
        if between is not None:
            asked.append(between)
        places.append(len(asked))
        asked.append(citation.asked(keeps_authors))
        follows = _NoteBefore(citation)
    return asked, places


def _listed(nocite: Sequence[str]) -> List[csl.Citation]:
    """What lists works that no citation is of: one that isn't shown, if there are any."""
    cites = tuple([csl.Cite(key, hidden=True) for key in nocite])
    return [csl.Citation(cites)] if cites else []


def _all_places(parts: Sequence[AskedPart]) -> Sequence[int]:
    """The places of citations in parts that follow each other."""
    if all(isinstance(own, range) for _, own in parts):
        return range(sum(len(own) for _, own in parts))
    places: List[int] = []
    begin = 0
    for part, own in parts:
        places += [begin + place for place in own]
        begin += len(part.citations)
    return places


def _answered(rendered: csl.Rendered, whole: Sequence[Citation], are_named: Sequence[bool],
              places: Sequence[int]) -> Answered:
    """What is written of citations at these places: `whole` are those that have their authors."""
    written = rendered.answer.citations
    with_authors: List[Optional[Tree]] = [None] * len(are_named)
    if whole:
        with_authors = [whole[place].content if is_named else None
                        for place, is_named in zip(places, are_named)]
    numbers = {place: number for number, place in enumerate(places)} \
        if rendered.warnings else {}
    warnings = [_of_page(warned, numbers) for warned in rendered.warnings
                if warned.citation is None or warned.citation in numbers]
    own = written[:len(places)] if isinstance(places, range) \
        else [written[place] for place in places]
    return Answered(own, with_authors, rendered.answer.bibliography, warnings)


def _of_page(warned: csl.Warned, numbers: Dict[int, int]) -> csl.Warned:
    """A warning of a citation, by its number among those of the page."""
    if warned.citation is None:
        return warned
    number = numbers[warned.citation]
    return csl.Warned(warned.place, warned.message, citation=number, entry=warned.entry)
