"""Pages of Markdown whose citations are written in a style, with their reference lists.

    from gamhilon import markdown_pages, references

    library = references.load('library.bib')
    page = markdown_pages.cite_page(open('page.md').read(), 'apa', library)
    print(page.text)

Citations stand in pages as pandoc has them (`gamhilon.citation_text`). The list stands in the
`div` of the id `refs` (`::: {#refs}`, `<div id="refs">`), in place of a mark, below the heading
`# References`, or at the end. In a style of notes citations are footnotes, `[^1]`. Code, math,
links, addresses, raw HTML and templates of site generators are left alone.
"""
from __future__ import annotations

import re
from bisect import bisect_right
from dataclasses import dataclass, field, replace
from functools import cached_property
from typing import (Callable, Dict, Iterable, List, Mapping, NamedTuple, Optional, Sequence, Tuple,
                    Union)

from . import csl
from ._cited_style import Asking, CitedStyle
from ._markdown_blocks import Blocks, Paragraph, blocks_of
from ._nearest import meant
from ._page_cites import (CitationOfPage, CitationWriter, Written, capitalized, citation_of,
                          text_of_runs, unknown, without_full_stop)
from ._page_writers import HtmlInMarkdown, PageWriter, heading
from ._writing import anchor
from .answer import Bibliography, Citation, Tree
from .citation_text import CitationReader, NoteMark, TextCitation
from .csl.handed_in import read_of

__all__ = ['CitedPage', 'PageWarning', 'PreparedStyle', 'Site', 'cite_page']

TITLE = 'References'
"""The heading below which a reference list stands, where no other is named."""


_NO_TARGETS: Dict[str, str] = {}


@dataclass(frozen=True)
class PageWarning:
    """Something that is odd on a page: the name of the page, the line and the column (from 1; None
    where it is in no place of the page), and what is odd."""

    page: str
    line: Optional[int]
    column: Optional[int]
    message: str

    def __str__(self) -> str:
        place = '' if self.line is None else f':{self.line}:{self.column}'
        return f'{self.page}{place}: {self.message}'


@dataclass(frozen=True)
class CitedPage:
    """A page with its citations written: its Markdown, and what is odd on it."""

    text: str
    warnings: List[PageWarning]

    def __str__(self) -> str:
        return self.text


class _Edit(NamedTuple):
    """A part of a page, and what stands in its place."""

    start: int
    end: int
    text: str


@dataclass
class _Answered:
    """What comes of the citations of a page for which the style is asked: what it writes of each,
    and with its author where that stands in the text; and `said` is what is odd in one of them, by
    its place among them. These, the addresses to which the cites lead and the list of the page are
    all of which the page is drawn beside its own text."""

    citations: List[Citation] = field(default_factory=list)
    with_authors: List[Optional[Tree]] = field(default_factory=list)
    said: List[Tuple[int, str]] = field(default_factory=list)
    targets: Dict[str, Optional[str]] = field(default_factory=dict)
    listed: Optional[Bibliography] = None


@dataclass
class _Page:
    """A page, its blocks and its citations, in the order in which they are read. The `number` is
    that of the page in whose place it stands, as `Asking` has it. `own_notes` has
    the numbers of the notes that it defines itself, each with the place of that; `warnings` what is
    odd in its text. `shown` is the page as it is drawn of what was `answered`: by `edits`, with the
    citations that are `written`; and `lost` is what is odd in these."""

    name: str
    text: str
    blocks: Blocks
    has_crlf: bool
    notes_before: int
    number: Optional[int] = None
    own_notes: Dict[int, int] = field(default_factory=dict)
    citations: List[CitationOfPage] = field(default_factory=list)
    nested: List[CitationOfPage] = field(default_factory=list)
    warnings: List[PageWarning] = field(default_factory=list)
    notes_after: int = 0
    answered: _Answered = field(default_factory=_Answered)
    is_drawn: bool = False
    edits: List[_Edit] = field(default_factory=list)
    lost: List[PageWarning] = field(default_factory=list)
    written: Dict[int, Written] = field(default_factory=dict)
    shown: Optional[CitedPage] = None
    _targets: Optional[Tuple[Dict[str, str], Dict[str, Optional[str]]]] = field(
        default=None, init=False, repr=False, compare=False)

    @cached_property
    def asked(self) -> List[CitationOfPage]:
        """The citations that the style is asked for, once the page is read."""
        return [citation for citation in self.citations if citation.cited]

    @cached_property
    def asking(self) -> Asking:
        """What the style is asked for, once the page is read."""
        return Asking(self.asked, self.number)

    @cached_property
    def keys(self) -> Dict[str, None]:
        """The keys that it cites, once it is read."""
        return {key: None for citation in self.citations for key in citation.keys}

    def targets_among(self, targets: Dict[str, str]) -> Dict[str, Optional[str]]:
        """The addresses to which its cites lead, among those of all items."""
        if self._targets is None or self._targets[0] is not targets:
            self._targets = targets, {key: targets.get(key) for key in self.keys}
        return self._targets[1]

    def warning(self, at: int, message: str) -> PageWarning:
        """Something that is odd at a place of the text."""
        column = at - (self.text.rfind('\n', 0, at) + 1) + 1
        return PageWarning(self.name, self.text.count('\n', 0, at) + 1, column, message)

    def draw(self) -> None:
        """Puts its edits into its text. These aren't kept, since a site has many."""
        parts, at = [], 0
        for edit in sorted(self.edits, key=lambda edit: (edit.start, edit.end)):
            parts += [self.text[at:edit.start], edit.text]
            at = edit.end
        text = ''.join([*parts, self.text[at:]])
        warnings = sorted([*self.warnings, *self.lost],
                          key=lambda one: (one.line or 0, one.column or 0))
        self.shown = CitedPage(text.replace('\n', '\r\n') if self.has_crlf else text, warnings)
        self.edits, self.written, self.is_drawn = [], {}, True

    def move_notes(self, by: int) -> None:
        """Gives its notes later numbers, or earlier ones."""
        self.notes_before += by
        self.notes_after += by
        self.own_notes = {number + by: place for number, place in self.own_notes.items()}
        for citation in self.citations:
            if citation.note is not None:
                citation.note += by


class PreparedStyle(CitedStyle):
    """A style with references, which are read once for any number of pages: as `style` of
    `cite_page` and of `Site` it stands for `style`, `references`, `locale`, `locales` and
    `abbreviations`, which are those of `csl.render`. Raises what that raises of them."""

    def __init__(self, style: csl.StyleLike, references: csl.ReferencesLike,
                 locale: Optional[str] = None, locales: Optional[csl.Locales] = None,
                 abbreviations: Optional[csl.AbbreviationsLike] = None) -> None:
        super().__init__(csl.style_of(style), locale, locales, abbreviations)
        items, self.warnings = read_of(references)
        self.take(items)


def cite_page(text: str, style: Union[csl.StyleLike, PreparedStyle],
              references: csl.ReferencesLike = (), *, locale: Optional[str] = None,
              locales: Optional[csl.Locales] = None,
              abbreviations: Optional[csl.AbbreviationsLike] = None, nocite: Iterable[str] = (),
              links: bool = True, html: bool = False, mark: Optional[str] = None,
              title: Optional[str] = None, name: str = 'the page') -> CitedPage:
    """A page of Markdown with its citations written, and its reference list.

    `style`, `references`, `locale`, `locales` and `abbreviations` are those of `csl.render`; for
    many pages a `PreparedStyle` in place of them takes less time. `nocite` are keys that are listed
    without being cited, `*` for all. With `links` cites lead to the list. With `html` what is
    written is HTML that any kind of Markdown leaves as it is; without, it is Markdown. `mark` is a
    line in whose place the list stands, `title` its heading, which is added where the page has
    none. `name` is how warnings name the page. Raises what `csl.render` raises.

        >>> works = [{'id': 'doe99', 'type': 'book', 'title': 'On Order',
        ...           'author': [{'family': 'Doe'}], 'issued': {'date-parts': [[1999]]}}]
        >>> page = cite_page('As @doe99 [p. 4] says, and @nobody.', 'author-date', works)
        >>> print(page.text.splitlines()[0])
        As Doe ([1999, p. 4](#ref-doe99)) says, and @nobody.
        >>> print(page.warnings[0])
        the page:1:28: no entry has the key nobody
    """
    site = Site(style, references, locale=locale, locales=locales, abbreviations=abbreviations,
                links=links, html=html, mark=mark, title=title)
    site.add(name, text)
    site.write(nocite)
    return site.page(name)


class Site:
    """Pages that share one numbering: `add` each, in their order, `write` all of them by one call
    of the library, and take each `page`; where texts of pages have changed since, `revise` these.
    Each page has the list of what is cited on it, or `list_page` has the whole list; `address` then
    gives the address of that page from another one."""

    def __init__(self, style: Union[csl.StyleLike, PreparedStyle],
                 references: csl.ReferencesLike = (), *, locale: Optional[str] = None,
                 locales: Optional[csl.Locales] = None,
                 abbreviations: Optional[csl.AbbreviationsLike] = None, links: bool = True,
                 html: bool = False, mark: Optional[str] = None, title: Optional[str] = None,
                 list_page: Optional[str] = None,
                 address: Callable[[str], str] = lambda page: '') -> None:
        self.style = style if isinstance(style, PreparedStyle) \
            else PreparedStyle(style, references, locale, locales, abbreviations)
        self.words = self.style.words
        self.writer = HtmlInMarkdown() if html else PageWriter()
        self.links, self.mark, self.title = links, mark, title
        self.list_page, self.address = list_page, address
        self.pages: Dict[str, _Page] = {}
        self.warnings: List[PageWarning] = []
        self.bibliography: Optional[Bibliography] = None
        self._notes = 0
        self._nocite: Tuple[str, ...] = ()
        self._listed: List[str] = []
        self._addresses: Dict[str, str] = {}
        self._targets_at: Dict[str, Dict[str, str]] = {}
        self._places: Dict[str, int] = {}

    def add(self, name: str, text: str) -> None:
        """Adds a page."""
        self.pages[name] = self._read(name, text)

    def _read(self, name: str, text: str) -> _Page:
        has_crlf = '\r\n' in text
        text = text.replace('\r\n', '\n')
        page = _Page(name, text, blocks_of(text), has_crlf, self._notes)
        _Collector(self, page).collect()
        page.notes_after = self._notes
        return page

    def revise(self, texts: Mapping[str, str]) -> List[str]:
        """Takes pages, by their names, whose texts have changed since all were written, and gives
        the names of the pages that are drawn anew: these, and those of whose citations, numbers or
        lists something else is written now. The library is called only where other citations are
        asked for than before."""
        asks_anew = [self._replace(name, text) for name, text in texts.items()]
        if any(asks_anew):
            self._ask()
        drawn = [page for page in self.pages.values() if not page.is_drawn]
        for page in drawn:
            self._draw(page)
        return [page.name for page in drawn]

    def _replace(self, name: str, text: str) -> bool:
        """Takes the text of a page that has changed. Whether other citations are asked for now."""
        before, notes = self.pages[name], self._notes
        self._notes = before.notes_before
        page = self._read(name, text)
        moved = page.notes_after - before.notes_after
        self.pages[name], self._notes = page, notes + moved
        if moved:
            names = list(self.pages)
            for later in names[names.index(name) + 1:]:
                self.pages[later].move_notes(moved)
        page.answered, page.number = before.answered, before.asking.number
        return bool(moved) and self.style.is_note or not _asks_alike(before, page)

    def next_note(self) -> int:
        """The number of the next note."""
        self._notes += 1
        return self._notes

    def write(self, nocite: Iterable[str] = ()) -> None:
        """Writes the citations of all pages."""
        self._nocite = tuple(nocite)
        self._ask()
        for page in self.pages.values():
            self._draw(page)

    def _ask(self) -> None:
        """Asks the style for the citations of all pages. Those of which it writes something else
        than before are to be drawn."""
        self.warnings = [PageWarning(warned.place, None, None, warned.message)
                         for warned in self.style.warnings]
        answer = self.style.answer_pages([page.asking for page in self.pages.values()],
                                         self._listed_anyway())
        self.bibliography = answer.bibliography
        listed = [item.key for item in answer.bibliography.items] if answer.bibliography else []
        if listed != self._listed:
            self._listed, self._targets_at, self._places = listed, {}, {}
        answered, begin = {}, 0
        for page in self.pages.values():
            end = begin + len(page.asked)
            answered[page.name] = _Answered(answer.citations[begin:end],
                                            answer.with_authors[begin:end])
            begin = end
        self._warn(answer.warnings, answered)
        for page in self.pages.values():
            made, targets = answered[page.name], self._targets(page.name)
            made.targets = page.targets_among(targets)
            made.listed = self.listed(page.name)
            page.is_drawn = page.is_drawn and page.answered == made
            page.answered = made

    def _draw(self, page: _Page) -> None:
        """Puts into a page what is written of its citations, and its list."""
        writer = CitationWriter(self.writer, self._targets(page.name))
        asked, nested = page.asked, {id(citation) for citation in page.nested}
        page.lost = []
        # (those in the words of another one follow it)
        answered = page.answered
        for citation, made, whole in reversed(list(zip(asked, answered.citations,
                                                       answered.with_authors))):
            written = writer.written(citation, made.content, whole)
            page.written[id(citation)] = written
            if id(citation) in nested:
                writer.texts[id(citation)] = _in_line(writer, citation, written, True)
            page.lost += [page.warning(citation.start, lost) for lost in written.lost]
        page.lost += [page.warning(asked[place].start, message)
                      for place, message in page.answered.said]
        _Placer(self, page, writer).place()
        page.draw()

    def page(self, name: str) -> CitedPage:
        """A page that is written."""
        page = self.pages[name]
        shown = page.shown or CitedPage(page.text, page.warnings)
        if len(self.pages) > 1 or not self.warnings:
            return shown
        return replace(shown, warnings=[*shown.warnings, *self.warnings])

    def listed(self, page: str) -> Optional[Bibliography]:
        """The reference list of a page: of what is cited on it, or of all pages; None where it has
        none."""
        if self.bibliography is None or self.list_page not in (None, page):
            return None
        items = self.bibliography.items
        if self.list_page is None and len(self.pages) > 1:
            if not self._places:
                self._places = {item.key: place for place, item in enumerate(items)}
            items = [items[place] for place in sorted(
                self._places[key] for key in self.pages[page].keys if key in self._places)]
        return replace(self.bibliography, items=items) if items else None

    def _targets(self, page: str) -> Dict[str, str]:
        if not self.links or self.bibliography is None:
            return _NO_TARGETS
        address = self._address(page)
        if address not in self._targets_at:
            self._targets_at[address] = {item.key: f'{address}#{anchor(item.key)}'
                                         for item in self.bibliography.items}
        return self._targets_at[address]

    def _address(self, page: str) -> str:
        """The address of the list from a page."""
        if page not in self._addresses:
            self._addresses[page] = '' if self.list_page in (None, page) else self.address(page)
        return self._addresses[page]

    def _listed_anyway(self) -> List[str]:
        """The keys that are listed without being cited."""
        asked = list(dict.fromkeys(key.lstrip('@') for key in self._nocite))
        if '*' in asked:
            return list(self.style.items)
        for key in asked:
            if key not in self.style.keys:
                self.warnings.append(PageWarning('nocite', None, None, self.no_entry(key)))
        return [key for key in asked if key in self.style.keys]

    def no_entry(self, key: str) -> str:
        """What is said of a key that no entry has."""
        return f'no entry has the key {key}{meant(key, self.style.keys)}'

    def _warn(self, warnings: Sequence[csl.Warned], answered: Mapping[str, _Answered]) -> None:
        asked = [(page, place) for page in self.pages.values() for place in range(len(page.asked))
                 ] if warnings else []
        for warned in warnings:
            if warned.citation is None:
                self.warnings.append(PageWarning(warned.place, None, None, warned.message))
                continue
            page, place = asked[warned.citation]
            citation = page.asked[place]
            is_whole = not citation.names_author and not any(
                cited.cite.suppress_author for cited in citation.cited)
            if is_whole:
                answered[page.name].said.append((place, warned.message))


def _asks_alike(one: _Page, other: _Page) -> bool:
    """Whether two pages ask the style for the same citations, in the same order."""
    asked, others = one.asked, other.asked
    return len(asked) == len(others) and all(
        (before.asked(), before.names_author) == (after.asked(), after.names_author)
        for before, after in zip(asked, others))


class _Collector:
    """Collects the citations of a page as it is read: those of a note where its mark stands."""

    def __init__(self, site: Site, page: _Page) -> None:
        self.site, self.page = site, page
        self.labels = page.blocks.labels
        self.left: Dict[str, List[Paragraph]] = {}
        for paragraph in page.blocks.paragraphs:
            if paragraph.note is not None:
                self.left.setdefault(paragraph.note, []).append(paragraph)

    def collect(self) -> None:
        for paragraph in self.page.blocks.paragraphs:
            if paragraph.note is None:
                self._paragraph(paragraph, None)
        for label in list(self.left):
            self._note(label)

    def _note(self, label: str) -> None:
        """The definition of a note, at its first mark."""
        paragraphs = self.left.pop(label, None)
        if paragraphs is not None:
            number = self.site.next_note()
            self.page.own_notes[number] = self.page.blocks.notes[label]
            for paragraph in paragraphs:
                self._paragraph(paragraph, number)

    def _paragraph(self, paragraph: Paragraph, note: Optional[int]) -> None:
        text = self.page.text[paragraph.start:paragraph.end]
        if '@' not in text and '[^' not in text and '^[' not in text:
            return
        inline, inline_end = note, -1
        for part in CitationReader(text, self.site.words, self.labels).parts(0, len(text)):
            if part.start >= inline_end:
                inline = note
            if isinstance(part, NoteMark):
                if part.label:
                    self._note(part.label)
                else:
                    inline, inline_end = note or self.site.next_note(), part.end
            else:
                self._citation(part, paragraph.start, inline)

    def _citation(self, found: TextCitation, offset: int, note: Optional[int]) -> None:
        made = citation_of(found, self.site.style.keys)
        made.start, made.end = found.start + offset, found.end + offset
        for key in made.missing:
            self.page.warnings.append(self.page.warning(made.start, self.site.no_entry(key)))
        self._add(made, note)
        self.page.citations.append(made)
        self._nested(made)

    def _add(self, made: CitationOfPage, note: Optional[int]) -> None:
        made.is_in_note = note is not None
        if self.site.style.is_note and made.cited:
            made.note = note or self.site.next_note()
            made.keeps_names = made.is_in_note

    def _nested(self, outer: CitationOfPage) -> None:
        """The citations in the words around cites: of `[see @a and @b]` pandoc makes one cite, with
        `@b` in the words behind it."""
        for cited in outer.cited:
            for words in (cited.prefix, cited.suffix):
                if '@' not in words.text:
                    continue
                reader = CitationReader(words.text, self.site.words)
                for found in reader.citations(0, len(words.text)):
                    inner = citation_of(found, self.site.style.keys)
                    if not inner.cited:
                        continue
                    said = (f'@{inner.keys[0]} stands in the words around @{cited.cite.id}, so '
                            'that it is no cite beside it: a semicolon between them makes it one')
                    self.page.warnings.append(self.page.warning(outer.start, said))
                    self._add(inner, outer.note)
                    inner.is_in_note = inner.keeps_names = outer.note is not None
                    words.citations.append((found.start, found.end, inner))
                    self.page.nested.append(inner)
                    inner.start, inner.end = outer.start, outer.start
                    self.page.citations.append(inner)


class _Placer:
    """Puts what is written of a page in its place."""

    def __init__(self, site: Site, page: _Page, writer: CitationWriter) -> None:
        self.site, self.page, self.writer = site, page, writer
        self.labels = set(page.blocks.notes)
        self.starts = [paragraph.start for paragraph in page.blocks.paragraphs]
        self.notes: List[str] = []

    def place(self) -> None:
        nested = {id(citation) for citation in self.page.nested}
        for citation in self.page.citations:
            if id(citation) not in nested:
                self._citation(citation)
        self._list()

    def _citation(self, citation: CitationOfPage) -> None:
        written = self.page.written.get(id(citation))
        if written is None:
            # (what stands in the text may be a name of something else)
            if self.page.text[citation.start] == '[':
                self._edit(citation.start, citation.end, unknown(citation))
        elif citation.note is None or citation.is_in_note:
            text = _in_line(self.writer, citation, written,
                            citation.note is not None and self._has_more(citation))
            self._edit(citation.start, citation.end, text)
        else:
            self._put_note(citation, written)

    def _has_more(self, citation: CitationOfPage) -> bool:
        """Whether more of its paragraph follows a citation."""
        behind = self.page.text[citation.end:self._paragraph(citation.start).end]
        return bool(behind.strip(' \t\n]'))

    def _paragraph(self, at: int) -> Paragraph:
        """The paragraph of a place."""
        return self.page.blocks.paragraphs[bisect_right(self.starts, at) - 1]

    def _put_note(self, citation: CitationOfPage, written: Written) -> None:
        """A citation in a note of its own, with no space before, and behind the punctuation that
        follows it."""
        start, end, text = citation.start, citation.end, self.page.text
        names = self.writer.text(written.names)
        if not text_of_runs(written.names):
            before = text[self._paragraph(start).start:start]
            spaces = re.search(r'[ \t]*(?:\n[ \t]*(?:>[ \t]?)*)?$', before)
            start -= len(before) - spaces.start() if spaces and spaces.start() else 0
        behind = re.compile(r'[.,;:!?]+').match(text, end)
        marks = behind.group() if behind else ''
        label = self._label(citation)
        content = self.writer.text(written.rest)
        if not content:
            self._edit(start, end, names)
            return
        if written.begins_with_words:
            content = capitalized(content)
        self._edit(start, end + len(marks), f'{names}{marks}[^{label}]')
        self._define(citation.note or 0, f'[^{label}]: {self.site.writer.begun(content)}\n')

    def _define(self, number: int, definition: str) -> None:
        """Defines a note: before the next one of the page's own, since some kinds of Markdown
        number notes as they are defined, or else at the end."""
        later = [own for own in self.page.own_notes if own > number]
        if later:
            at = self.page.own_notes[min(later)]
            self._edit(at, at, f'{definition}\n')
        else:
            self.notes.append(definition)

    def _label(self, citation: CitationOfPage) -> str:
        """The label of a note: its number on the page, or one that the page doesn't have."""
        label = str((citation.note or 1) - self.page.notes_before)
        while label in self.labels:
            label = f'cite-{label}'
        self.labels.add(label)
        return label

    # The reference list

    def _list(self) -> None:
        bibliography = self.page.answered.listed
        text = self.page.text
        written = self.site.writer.reference_list(bibliography) if bibliography else ''
        place = self._place()
        notes = ''.join(f'\n{note}' for note in self.notes)
        if place is not None and (written or self._is_marked(place)):
            start, end = place
            self._edit(start, end, _set_off(text, start, end, written))
            written = ''
        elif written and self.site.title is not None:
            written = heading(self.site.title) + written
        ends = (f'\n{notes}' if notes else '') + (f'\n\n{written}' if written else '')
        if ends:
            at = len(text.rstrip('\n'))
            self._edit(at, len(text), ends.rstrip('\n') + '\n')

    def _is_marked(self, place: Tuple[int, int]) -> bool:
        return place[0] != place[1] and self.site.list_page is None

    def _place(self) -> Optional[Tuple[int, int]]:
        """Where the list stands: in place of the mark or of the `div` refs, or at the end of the
        section of its heading; None where there is neither."""
        if self.site.mark is not None and self.site.mark in self.page.text:
            line = re.compile(rf'^[ \t]*{re.escape(self.site.mark)}[ \t]*$', re.MULTILINE)
            for found in line.finditer(self.page.text):
                if any(paragraph.start <= found.end() and found.start() <= paragraph.end
                       for paragraph in self.page.blocks.paragraphs):
                    return found.span()
        if self.page.blocks.references is not None:
            return self.page.blocks.references
        return self._below_heading()

    def _below_heading(self) -> Optional[Tuple[int, int]]:
        title = (self.site.title or TITLE).casefold()
        headings = self.page.blocks.headings
        for at in range(len(headings) - 1, -1, -1):
            if headings[at].text.casefold() == title:
                ends = [later.start for later in headings[at + 1:]
                        if later.level <= headings[at].level]
                place = ends[0] if ends else headings[at].end
                return (place, place) if ends or self._is_last(place) else None
        return None

    def _is_last(self, at: int) -> bool:
        """Whether nothing but white space and notes follows."""
        return not any(paragraph.start >= at and paragraph.note is None
                       for paragraph in self.page.blocks.paragraphs)

    def _edit(self, start: int, end: int, text: str) -> None:
        self.page.edits.append(_Edit(start, end, text))


def _set_off(text: str, start: int, end: int, written: str) -> str:
    """A list in place of a part of a page, between blank lines."""
    before, after = text[:start], text[end:]
    above = 0 if not before else 2 - (len(before) - len(before.rstrip('\n')))
    below = 1 if not after.strip('\n') else 2
    lines = min(len(after) - len(after.lstrip('\n')), below)
    return '\n' * max(above, 0) + written.rstrip('\n') + '\n' * (below - lines)


def _in_line(writer: CitationWriter, citation: CitationOfPage, written: Written,
             has_more: bool) -> str:
    """A citation in the line. In a note, the style's full stop is left out where more follows."""
    rest = without_full_stop(written.rest) if citation.note is not None and has_more \
        else written.rest
    parts = [writer.text(written.names), writer.text(rest)]
    return ' '.join(part for part in parts if part)
