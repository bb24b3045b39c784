"""Citations of LaTeX documents: what they ask a style for, and what is written in their place."""
from __future__ import annotations

import re
from dataclasses import dataclass, field, replace
from typing import Callable, Dict, List, Mapping, NamedTuple, Optional, Sequence, Set, Tuple

from . import csl
from ._latex_aux import CitationAsked
from ._locators import split
from ._page_cites import (CitationOfPage, CitationWriter, Cited, Run, Words, capitalized,
                          text_of_runs, without_full_stop)
from ._page_writers import PageWriter
from ._style_parts import bare
from ._writing import Piece, pieces
from .answer import Tree
from .latex_writer import inline_latex

_UNDEFINED = r'\gamhilonundefined'
_BEGINS_WITH_WORD = re.compile(r'[^\W_]')
_FROM_TEX = ((re.compile(r'\\S(?![A-Za-z])\s*'), '§ '), (re.compile(r'---'), '\u2014'),
             (re.compile(r'--'), '\u2013'), (re.compile(r'(?<!\\)~'), '\u00a0'),
             (re.compile(r'\\pp?no\s*~?\s*'), 'p. '))
_TO_TEX = (('§ ', r'\S{} '), ('\u2014', '---'), ('\u2013', '--'), ('\u00a0', '~'))


class LatexInLine(PageWriter):
    """Writes LaTeX."""

    def inline(self, pieces: Sequence[Piece]) -> str:
        return inline_latex(pieces)


@dataclass
class LatexCitation(CitationOfPage):
    """A citation of a document, or one of the works of it. Of the author alone where `is_author`
    holds."""

    is_author: bool = False

    def cites(self, keeps_authors: bool = False) -> List[csl.Cite]:
        if not self.is_author:
            return super().cites(keeps_authors)
        return [replace(cited.cite, author_only=True, locator=None, note=self.note)
                for cited in self.cited]


@dataclass
class Asking:
    """A citation of a document, with what it asks the style for; the keys of the works whose
    authors stand in the sentence, beside a style that doesn't write them there; and the keys that
    no entry has, as LaTeX shows them, where nothing is asked for."""

    asked: CitationAsked
    parts: List[LatexCitation] = field(default_factory=list)
    named: List[str] = field(default_factory=list)
    undefined: str = ''


class Shown(NamedTuple):
    """What is written of a citation: in the line, and in a note of its own."""

    inline: str
    note: str = ''


class StyleOfDocument(NamedTuple):
    """What has to be known of the style of a document."""

    is_note: bool
    is_author_date: bool
    known: Set[str]
    words: Mapping[str, str]


def asking_of(asked: CitationAsked, style: StyleOfDocument, note: Optional[int]) -> Asking:
    """What a citation asks for. `note` is the number of its note, in a style of notes."""
    made, missing = _cited(asked, style)
    if not made:
        return Asking(asked, undefined='; '.join(missing))
    keys = [cited.cite.id for cited in made]
    command, is_in_note = asked.command.rstrip('*'), asked.place in ('note', 'float')
    if command == 'citeauthor' and style.is_note:
        return Asking(asked, named=keys)
    whole = LatexCitation(0, 0, made, is_in_text=command == 'textcite', note=note,
                          is_in_note=is_in_note, is_author=command == 'citeauthor')
    whole.keeps_names = style.is_note and is_in_note
    if command != 'textcite' or len(made) == 1 or whole.keeps_names:
        return Asking(asked, [whole])
    if style.is_note:
        return Asking(asked, [replace(whole, is_in_text=False)], keys)
    return Asking(asked, [replace(whole, cited=[cited]) for cited in made])


def _cited(asked: CitationAsked, style: StyleOfDocument) -> Tuple[List[Cited], List[str]]:
    """The cites of a citation, with the words around them, and its keys that no entry has, as they
    are shown. Beside cites these stand in the words around them."""
    found: List[Cited] = []
    waiting: List[str] = []
    for key in asked.key_list:
        if key in style.known:
            cite = csl.Cite(key, suppress_author=asked.command.endswith('*'))
            found.append(Cited(cite, Words(' '.join(f'{words};' for words in waiting)), Words('')))
            waiting = []
        elif found:
            found[-1].suffix.text += f'; {undefined(key)}'
        else:
            waiting.append(undefined(key))
    if not found:
        return [], waiting
    if asked.prenote.strip():
        before = found[0].prefix.text
        found[0].prefix.text = f'{asked.prenote.strip()} {before}'.rstrip()
    _put_postnote(found[-1], asked.postnote.strip(), style.words)
    return found, []


def _put_postnote(cited: Cited, postnote: str, words: Mapping[str, str]) -> None:
    """Puts the words behind a citation at its last cite: as the locator with which they begin, and
    else behind a comma."""
    if not postnote:
        return
    if cited.suffix:
        cited.suffix.text += f', {postnote}'
        return
    read = postnote
    for pattern, text in _FROM_TEX:
        read = pattern.sub(text, read)
    locator, rest = split(read, words)
    if locator is None or re.search(r'[\\{}$^~#%&]', locator.text):
        cited.suffix.text = f', {postnote}'
        return
    cited.cite = replace(cited.cite, locator=locator.text, label=locator.kind)
    for text, tex in _TO_TEX:
        rest = rest.replace(text, tex)
    cited.suffix.text = rest


def undefined(key: str) -> str:
    """What stands for a key that no entry has."""
    return f'{_UNDEFINED}{{{key}}}'


NamesOf = Callable[[str, str], Tree]
"""The tree of a kind (`short` for the authors, `and` for that word) for the key of a work."""


class DocumentWriter:
    """Writes the citations of a document, of the trees that a style gives. `targets` are the ids of
    the items to which cites link."""

    def __init__(self, style: StyleOfDocument, targets: Mapping[str, str],
                 names: NamesOf) -> None:
        self.style, self.names = style, names
        self.writer = CitationWriter(LatexInLine(), targets)
        self.lost: Dict[int, List[str]] = {}

    def shown(self, asking: Asking, trees: Sequence[Tree],
              with_authors: Sequence[Optional[Tree]]) -> Shown:
        """What is written of a citation, of whose parts these are the trees."""
        if not asking.parts:
            named = [self._names(asking.named)] if asking.named else [asking.undefined]
            return self._placed(asking, [], named)
        each = [self._part(asking, part, tree, whole)
                for part, tree, whole in zip(asking.parts, trees, with_authors)]
        if len(each) == 1:
            return self._placed(asking, *each[0])
        texts = [_joined(self._text(names), self._text(rest)) for names, rest in each]
        key = asking.parts[0].keys[0]
        return self._placed(asking, [], [self._listed(texts, key)])

    def _part(self, asking: Asking, part: LatexCitation, tree: Tree,
              whole: Optional[Tree]) -> Tuple[List[Run], List[Run]]:
        """The names of a citation in the sentence, and the rest of it."""
        command = asking.asked.command.rstrip('*')
        is_bare = self.style.is_author_date and command in ('cite', 'footcite')
        written = self.writer.written(part, bare(tree) if is_bare else tree, whole)
        self.lost.setdefault(asking.asked.number, []).extend(written.lost)
        names, rest = written.names, written.rest
        if asking.named:
            names = [self._names(asking.named)]
        if part.is_author and not (self.style.is_author_date and text_of_runs(rest).strip()):
            rest = [self._names(part.keys)]
        if part.is_in_text and not part.keeps_names and not text_of_runs(names).strip():
            names = [self._names(part.keys)]
        return names, rest

    def _names(self, keys: Sequence[str]) -> str:
        """The authors of works, of a style that doesn't write them."""
        return self._listed([self._text_of(self.names('short', key)) for key in keys], keys[0])

    def _text_of(self, tree: Tree) -> str:
        return self.writer.writer.inline(pieces(tree))

    def _listed(self, texts: Sequence[str], key: str) -> str:
        """Texts with commas, and the word for *and* before the last one."""
        if len(texts) == 1:
            return texts[0]
        word = self._text_of(self.names('and', key))
        comma = ',' if len(texts) > 2 else ''
        return f'{", ".join(texts[:-1])}{comma} {word} {texts[-1]}'

    def _text(self, runs: Sequence[Run]) -> str:
        return self.writer.text(runs)

    def _placed(self, asking: Asking, names: Sequence[Run], rest: Sequence[Run]) -> Shown:
        """A citation in the line, or in a note of its own."""
        asked = asking.asked
        is_foot = asked.command == 'footcite'
        is_author = asked.command == 'citeauthor'
        if asked.place in ('note', 'float') or not (is_foot or self.style.is_note) or is_author:
            if self.style.is_note:
                rest = without_full_stop(rest)
            text = _joined(self._text(names), self._text(rest), _is_raised(rest))
            return Shown((r'\unskip' if _is_raised(rest) and not names else '') + text)
        return Shown(self._text(names), _as_note(self._text(rest), text_of_runs(rest)))


def _joined(names: str, rest: str, is_raised: bool = False) -> str:
    """The author in the sentence and the rest, with a space between but before raised numbers."""
    return f'{names}{"" if is_raised else " "}{rest}' if names and rest else names or rest


def _is_raised(rest: Sequence[Run]) -> bool:
    """Whether a citation begins with a raised number."""
    for run in rest:
        for piece in [] if isinstance(run, str) else run:
            if piece.kind == 'text' and piece.node['text'].strip():
                return piece.node.get('vertical_align') == 'sup'
        if isinstance(run, str) and run:
            return False
    return False


def _as_note(latex: str, text: str) -> str:
    """The content of a note: with a capital, and a full stop where nothing ends it."""
    if _BEGINS_WITH_WORD.match(latex):
        latex = capitalized(latex)
    has_end = re.search(r'[.!?]["\u201d\u2019\u00bb\u203a)]*$', text.rstrip())
    return latex if has_end or not latex else f'{latex}.'
