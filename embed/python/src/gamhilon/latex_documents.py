"""LaTeX documents whose citations are written in a style: of the .aux file that `gamhilon.sty`
leaves this makes the .bbl file that it reads.

    from gamhilon import latex_documents

    for warning in latex_documents.write_bbl('paper.aux'):
        print(warning)
"""
from __future__ import annotations

import os
from dataclasses import dataclass, replace
from typing import Any, Dict, Iterator, List, Optional, Sequence, Tuple

from . import _addresses, csl, references
from ._cited_style import CitedStyle
from ._latex_aux import Aux, CitationAsked, read_aux
from ._latex_cites import Asking, DocumentWriter, Shown, StyleOfDocument, asking_of
from ._latex_languages import tag_of
from ._locators import words_of
from ._nearest import meant
from ._references_of_files import items_of_files
from ._style_parts import is_author_date, names_style
from ._writing import anchor, pieces
from .answer import Bibliography, Item, Tree, plain
from .errors import GamhilonError
from .latex_writer import inline_latex

__all__ = ['DocumentWarning', 'NoCitations', 'bbl_of', 'folder', 'write_bbl']

_WITH_LABELS = ('flush', 'margin')


class NoCitations(GamhilonError, ValueError):
    """An .aux file that isn't of a document with gamhilon.sty."""


@dataclass(frozen=True)
class DocumentWarning:
    """Something that is odd in a document: its file and line, where it is in a place of it, and
    what is odd."""

    file: str
    line: Optional[int]
    message: str

    def __str__(self) -> str:
        place = '' if self.line is None else f':{self.line}'
        return f'{self.file}{place}: {self.message}'


def folder() -> str:
    """The folder that has gamhilon.sty."""
    return os.path.join(os.path.dirname(os.path.abspath(__file__)), 'tex')


def write_bbl(path: references.PathLike, *,
              locales: Optional[csl.Locales] = None) -> List[DocumentWarning]:
    """Writes the .bbl file beside the .aux file of a document, and gives what is odd in it.

    Style, language and references are those that the document names. Raises OSError where a file
    can't be read or written, NoCitations where it isn't of a document with gamhilon.sty, and what
    `csl.render` and `references.load` raise.
    """
    path = os.fspath(path)
    stem = path[:-len('.aux')] if path.endswith('.aux') else path
    text, warnings = bbl_of(f'{stem}.aux', locales=locales)
    with open(f'{stem}.bbl', 'w', encoding='utf-8', errors='surrogateescape') as file:
        file.write(text)
    return warnings


def bbl_of(path: references.PathLike, *, locales: Optional[csl.Locales] = None
           ) -> Tuple[str, List[DocumentWarning]]:
    """The .bbl file for an .aux file, and what is odd. Raises as `write_bbl` does."""
    path = os.fspath(path)
    aux = read_aux(path)
    if not aux.is_of_package:
        raise NoCitations(f'{path}: it is not of a document that loads gamhilon.sty, or LaTeX '
                          'ended before the document began')
    return _Document(path, aux, locales).bbl()


class _Document:
    """The work on a document."""

    def __init__(self, path: str, aux: Aux, locales: Optional[csl.Locales]) -> None:
        self.path, self.aux, self.locales = path, aux, locales
        self.name = os.path.basename(path)[:-len('.aux')] + '.tex'
        self.locale = aux.locale or tag_of(aux.language)
        self.warnings: List[DocumentWarning] = []
        self.style = CitedStyle(self._found(aux.style), self.locale, locales)
        files = [self._found(library) for library in aux.library_list]
        loaded = items_of_files(files, self.locale, self._warn_of_file)
        self.style.take(loaded)
        self.about = StyleOfDocument(self.style.is_note, is_author_date(self.style.name),
                                     self.style.keys, words_of(self.locale, locales))
        self._trees: Dict[str, Dict[str, Tree]] = {}

    def _found(self, name: str) -> str:
        """A file that the document names: from the working folder, or beside the .aux file."""
        beside = os.path.join(os.path.dirname(self.path), name)
        return next((place for place in (name, beside) if os.path.isfile(place)), name)

    def _warn(self, asked: Optional[CitationAsked], message: str) -> None:
        file = self.name if asked is None or not asked.file else asked.file
        self.warnings.append(DocumentWarning(file, None if asked is None else asked.line, message))

    def _warn_of_file(self, name: str, problem: str) -> None:
        self.warnings.append(DocumentWarning(name, None, problem))

    def bbl(self) -> Tuple[str, List[DocumentWarning]]:
        """The .bbl file, and what is odd."""
        askings = list(self._askings())
        parts = [part for asking in askings for part in asking.parts]
        named = [key for asking in askings if not asking.parts for key in asking.named]
        answer = self.style.answer(parts, list(dict.fromkeys([*self._listed(), *named])))
        owners = [asking.asked for asking in askings for _ in asking.parts]
        for warned in answer.warnings:
            owner = None if warned.citation is None else owners[warned.citation]
            self._warn(owner, str(warned) if owner is None else warned.message)
        items = answer.bibliography.items if answer.bibliography else []
        writer = DocumentWriter(self.about, {item.key: anchor(item.key) for item in items},
                                self._names)
        shown: Dict[int, Shown] = {}
        at = 0
        for asking in askings:
            end = at + len(asking.parts)
            shown[asking.asked.number] = writer.shown(asking, answer.trees[at:end],
                                                      answer.with_authors[at:end])
            for lost in writer.lost.get(asking.asked.number, []):
                self._warn(asking.asked, lost)
            at = end
        return self._written(shown, answer.bibliography), self.warnings

    def _askings(self) -> Iterator[Asking]:
        """What citations ask for. One that a caption typesets twice is asked for once."""
        numbers = _note_numbers(self.aux.citations, self.about.is_note)
        before: Optional[CitationAsked] = None
        for asked in self.aux.citations:
            if not _is_again(before, asked):
                asking = asking_of(asked, self.about, numbers.get(asked.number))
                for key in asked.key_list:
                    if key not in self.about.known:
                        self._warn(asked, self._no_entry(key))
                yield asking
            before = asked

    def _no_entry(self, key: str) -> str:
        return f'no entry has the key {key}{meant(key, self.about.known)}'

    def _listed(self) -> List[str]:
        if '*' in self.aux.listed:
            return list(self.style.items)
        for key in self.aux.listed:
            if key not in self.about.known:
                self._warn(None, f'nocite: {self._no_entry(key)}')
        return [key for key in self.aux.listed if key in self.about.known]

    def _names(self, kind: str, key: str) -> Tree:
        """The tree of a kind (`names_style`) for a work."""
        if kind not in self._trees:
            keys = list(dict.fromkeys(key for asked in self.aux.citations
                                      for key in asked.key_list if key in self.about.known))
            made = csl.render(names_style(kind), [self.style.items[key] for key in keys],
                              [[csl.Cite(key)] for key in keys], locale=self.locale,
                              locales=self.locales)
            self._trees[kind] = {key: citation.content for key, citation
                                 in zip(keys, made.answer.citations)}
        return self._trees[kind].get(key, [])

    def _written(self, shown: Dict[int, Shown], bibliography: Optional[Bibliography]) -> str:
        aux = self.aux
        lines = ['% Made from the .aux file, each time anew, by python3 -m gamhilon latex.',
                 rf'\gamhilon@written{{{{{aux.style}}}{{{aux.locale}}}{{{aux.language}}}'
                 rf'{{{aux.libraries}}}{{{aux.checksum}}}}}']
        lines += [rf'\gamhilon@missing{{{key}}}' for key in aux.listed
                  if key != '*' and key not in self.about.known]
        last = Shown('')
        for asked in aux.citations:
            last = shown.get(asked.number, last)
            lines.append(rf'\gamhilon@citation{{{asked.number}}}{{{asked.command}}}{{{asked.keys}}}'
                         rf'{{{asked.prenote}}}{{{asked.postnote}}}%')
            lines.append(f'  {{{last.inline}}}{{{last.note}}}')
        if bibliography is not None and bibliography.items:
            lines += _list(bibliography)
        return '\n'.join([*lines, r'\endinput', ''])


def _is_again(before: Optional[CitationAsked], asked: CitationAsked) -> bool:
    """Whether a citation is the one before it, in a caption that is typeset twice."""
    return before is not None and asked.place == 'float' \
        and replace(before, number=asked.number) == asked


def _note_numbers(citations: Sequence[CitationAsked], is_note: bool) -> Dict[int, int]:
    """The numbers of the notes of citations, as they are once each has its own: in the first run of
    LaTeX they aren't there yet."""
    found: Dict[int, int] = {}
    more = 0
    for asked in citations if is_note else []:
        is_new = asked.place == 'text' and asked.command != 'citeauthor'
        more += is_new
        found[asked.number] = asked.last_note + more + (asked.place == 'made')
    return found


def _list(bibliography: Bibliography) -> List[str]:
    """The reference list."""
    labels = [plain(item.first_field).strip() for item in bibliography.items if item.first_field]
    align = bibliography.second_field_align if labels else None
    layout = 'hanging' if bibliography.hanging_indent else 'plain'
    layout = align if align in _WITH_LABELS else layout
    widest = max((item.first_field for item in bibliography.items if item.first_field),
                 key=lambda field: len(plain(field)), default=None)
    head = rf'\gamhilon@bibliography{{{layout}}}{{{_field(widest)}}}' \
        rf'{{{bibliography.line_spacing}}}{{{bibliography.entry_spacing}}}{{%'
    return [head, *(_item(item, layout) for item in bibliography.items), '}']


def _item(item: Item, layout: str) -> str:
    content = inline_latex(_addresses.with_links(pieces(item.content))).strip()
    label = _field(item.first_field)
    if label and layout not in _WITH_LABELS:
        content, label = f'{label} {content}', ''
    return rf'\gamhilon@item{{{anchor(item.key)}}}{{{label}}}{content}'


def _field(node: Any) -> str:
    """What stands before an item."""
    return '' if node is None else inline_latex(_addresses.with_links(pieces(node))).strip()
