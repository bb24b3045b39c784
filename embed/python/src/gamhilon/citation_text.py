"""Citations in texts, in pandoc's notation: `[see @doe99, p. 3; -@roe]`, `@doe99 [p. 3]`.

    >>> from gamhilon import parse_citations
    >>> doe, roe = parse_citations('see @doe99, p. 3; -@roe')
    >>> doe.prefix, doe.id, doe.label, doe.locator
    ('see', 'doe99', 'page', '3')
    >>> roe.suppress_author
    True
"""
from __future__ import annotations

import re
from dataclasses import dataclass, replace
from typing import (Collection, Iterator, List, Mapping, NamedTuple, Optional, Sequence, Tuple,
                    Union)

from . import _locators
from ._markdown_blocks import blocks_of, label_of
from ._markdown_inlines import MARKS, SPACES, WORD, InlineReader
from .csl.cites import Cite, CiteSequence
from .csl.locales import Locales
from .errors import GamhilonError

__all__ = ['CitationTextRefused', 'TextCitation', 'find_citations', 'parse_citations']

_A_KEY = r'[\w*](?:\w|[:.#$%&+?<>~/-](?=\w)|[:/](?=/))*'
_KEY = re.compile(_A_KEY)
# (a cite alone in brackets, with nothing that is read otherwise than as text around its key)
_USUAL = re.compile(rf'\[((?:[^\W_]+[,.]? )*)(-?)@({_A_KEY})'
                    r'([, ][^\\`<{$!\[\]^*"\'@_;\u201c\u2018~\n]*)?\]')


class CitationTextRefused(GamhilonError, ValueError):
    """A text is no citation.

    `at` is the place of the fault in the text, from 0, and `fault` what is wrong there. The message
    says both, with a column from 1.
    """

    def __init__(self, text: str, at: int, fault: str) -> None:
        super().__init__(text, at, fault)
        self.text, self.at, self.fault = text, at, fault

    def __str__(self) -> str:
        return f'{self.text!r}, column {self.at + 1}: {self.fault}'


@dataclass(frozen=True)
class TextCitation(CiteSequence):
    """A citation of a text: its cites, which it is a sequence of.

    `author_in_text` is whether the author of the first cite stands in the text, as in
    `@doe99 [p. 3]`, which reads `Doe (1999, p. 3)`. The citation stands in the text from `start` to
    before `end`, from 0.
    """

    cites: Tuple[Cite, ...]
    author_in_text: bool
    start: int
    end: int


def parse_citations(text: str, *, language: Optional[str] = None,
                    locales: Optional[Locales] = None) -> TextCitation:
    """The cites of a text that is a citation in pandoc's notation, with its brackets or without
    them, or one with the author in the text, `@doe99 [p. 3]`.

    A key follows `@`, or stands in braces, `@{a key}`, and `-@` leaves the author out. The words
    before a key are a prefix; those behind it a locator, which the language's words introduce, or
    which stands in braces; and a suffix. Both are Markdown, as they stand in the text. `language`
    is a tag (English where there is none), and `locales` are its files, as for `csl.render`.
    Raises CitationTextRefused where the text is no citation.

        >>> [cite.id for cite in parse_citations('[e.g. @doe99; @{10.1/roe}, {§ 3}, passim]')]
        ['doe99', '10.1/roe']
        >>> parse_citations('@doe99 [p. 3]').author_in_text
        True
        >>> parse_citations('see @doe99; Roe')
        Traceback (most recent call last):
            ...
        gamhilon.citation_text.CitationTextRefused: 'see @doe99; Roe', column 12: a cite has no key
    """
    return CitationReader(text, _locators.words_of(language, locales)).whole()


def find_citations(text: str, *, language: Optional[str] = None,
                   locales: Optional[Locales] = None) -> List[TextCitation]:
    """The citations in a paragraph of Markdown, in their order. What stands in code, math, links,
    tags, addresses and words such as `doe@example.org` is none.

        >>> for found in find_citations('As @doe99 [p. 3] says [see @roe; @poe], by `@code`.'):
        ...     print(found.author_in_text, [cite.id for cite in found], found.start, found.end)
        True ['doe99'] 3 16
        False ['roe', 'poe'] 22 38
    """
    words = _locators.words_of(language, locales)
    labels = blocks_of(text).labels if ']:' in text else ()
    return list(CitationReader(text, words, labels).citations(0, len(text)))


class NoteMark(NamedTuple):
    """A mark of a note, by its label, or a note in the line, which has none; and where it
    stands."""

    label: str
    start: int
    end: int


class _Key(NamedTuple):
    """A key, whether its author is left out, and where it ends."""

    key: str
    leaves_out: bool
    end: int


class CitationReader(InlineReader):
    """Reads the citations of a text. `labels` are those to which links refer."""

    def __init__(self, text: str, words: Mapping[str, str],
                 labels: Collection[str] = ()) -> None:
        super().__init__(text)
        self.words, self.labels = words, labels

    # A text that is one citation

    def whole(self) -> TextCitation:
        start, end = 0, len(self.text)
        while start < end and self.text[start].isspace():
            start += 1
        while end > start and self.text[end - 1].isspace():
            end -= 1
        named = self.in_text(start, end)
        if named is not None and named.end == end and self.text[end - 1] == ']':
            return named
        inside = start, end
        if self.text.startswith('[', start) and self.closing_bracket(start, end) == end - 1:
            inside = start + 1, end - 1
        cites, fault = self._cites(*inside)
        if fault is not None:
            raise CitationTextRefused(self.text, *fault)
        return TextCitation(tuple(cites), False, start, end)

    # The citations of a paragraph

    def citations(self, start: int, end: int) -> Iterator[TextCitation]:
        """The citations between two places of the text."""
        return (part for part in self.parts(start, end) if isinstance(part, TextCitation))

    def parts(self, start: int, end: int) -> Iterator[Union[TextCitation, NoteMark]]:
        """The citations and the marks of notes between two places of the text."""
        at, last_word = start, -1
        while at < end:
            plain = self.plain.match(self.text, at, end)
            if plain is not None:
                at = plain.end()
                last_word = self._last_word(at)
                continue
            found = None
            if self.text[at] == '[' and not self.text.startswith('[^', at):
                found = self.in_brackets(at, end)
            elif self.text[at] == '@' and last_word != at:
                found = self.in_text(at, end)
            if found is not None:
                yield found
                at = found.end
                continue
            mark = self._note_mark(at, end)
            if mark is not None:
                yield mark
            at = self._past(at, end)
            last_word = self._last_word(at)

    def _last_word(self, at: int) -> int:
        """A place behind a word, where no `@` begins a citation; -1 where no word ends there."""
        return at if self.text[at - 1].isalnum() or self.text[at - 1] == '.' else -1

    def _note_mark(self, at: int, end: int) -> Optional[NoteMark]:
        """The mark of a note, or a note in the line, that begins at a place."""
        if not self.text.startswith(('[^', '^['), at):
            return None
        opening = self.text.index('[', at)
        closing = self.closing_bracket(opening, end)
        if closing is None:
            return None
        label = self.text[opening + 2:closing] if opening == at else ''
        return NoteMark(label, at, closing + 1)

    def _past(self, at: int, end: int) -> int:
        """The place behind what is no citation. Citations may stand in emphasis, in quotes and in
        brackets."""
        letter = self.text[at]
        if letter in MARKS:
            return at + 1
        if self.text.startswith('^[', at):
            return at + 2
        if letter in '![' and self.end_of_opaque(at, end) is None:
            if letter == '!' and not self.text.startswith('![', at):
                return at + 1
            opening = self.text.index('[', at)
            closing = self.closing_bracket(opening, end)
            if closing is None:
                return opening + 1
            if self._is_referred(opening, closing):
                return closing + 1
            return self._past_target(closing + 1, end) or opening + 1
        if letter == '.':
            word = WORD.match(self.text, at, end)
            return word.end() if word else at + 1
        return self.end_of_inline(at, end)

    def _past_target(self, at: int, end: int) -> Optional[int]:
        """Where that ends which makes brackets before it a link."""
        target = self.end_of_target(at, end)
        if target is None or self.text[at] == '(':
            return target
        if self.text[at] == '{':
            return None
        is_link = target == at + 2 or self._is_referred(at, target - 1)
        return target if is_link else None

    def _is_referred(self, opening: int, closing: int) -> bool:
        """Whether brackets are a link by a label, or a mark of a footnote."""
        inside = self.text[opening + 1:closing]
        return inside.startswith('^') or bool(self.labels) and label_of(inside) in self.labels

    def in_brackets(self, at: int, end: int) -> Optional[TextCitation]:
        """A citation in brackets that begins at a place."""
        if self.is_all_text and not self.labels:
            usual = _USUAL.match(self.text, at, end)
            if usual is not None and not self.text.startswith(('(', '[', '{'), usual.end()):
                return self._usual(usual)
        closing = self.closing_bracket(at, end)
        if closing is None or self.end_of_target(closing + 1, end) is not None \
                or self._is_referred(at, closing) or self.end_of_opaque(at, end):
            return None
        cites, fault = self._cites(at + 1, closing)
        if fault is not None or not cites:
            return None
        return TextCitation(tuple(cites), False, at, closing + 1)

    def _usual(self, found: 're.Match[str]') -> TextCitation:
        """A citation as most are, which is read in one step."""
        prefix, minus, key, suffix = found.groups('')
        cite = self._cite(_Key(key, bool(minus), found.end(3)), prefix, suffix)
        return TextCitation((cite,), False, found.start(), found.end())

    def in_text(self, at: int, end: int) -> Optional[TextCitation]:
        """A citation with the author in the text that begins at a place."""
        key = self._key(at, end)
        if key is None or key.leaves_out:
            return None
        alone = TextCitation((Cite(key.key),), True, at, key.end)
        spaces = SPACES.match(self.text, key.end, end)
        opening = spaces.end() if spaces else key.end
        if not self.text.startswith('[', opening) or self.text.startswith('[^', opening) \
                or opening >= end:
            return alone
        closing = self.closing_bracket(opening, end)
        if closing is None or self._is_referred(opening, closing):
            return alone
        behind = self.in_brackets(opening, end)
        if behind is not None:
            return replace(behind, cites=(alone.cites[0], *behind.cites), author_in_text=True,
                           start=at)
        return self._with_locator(key, at, opening, closing) or alone

    def _with_locator(self, key: _Key, at: int, opening: int,
                      closing: int) -> Optional[TextCitation]:
        """A citation with the author in the text, and a locator or a suffix in brackets, and maybe
        more cites."""
        if self.text[closing + 1:closing + 2] in ('(', '['):
            return None
        suffix = self._end_of_suffix(opening + 1, closing)
        first = self._cite(key, '', self.text[opening + 1:suffix].lstrip())
        if suffix == closing:
            return TextCitation((first,), True, at, closing + 1)
        cites, fault = self._cites(suffix + 1, closing)
        if fault is not None:
            return None
        return TextCitation((first, *cites), True, at, closing + 1)

    # Cites

    def _cites(self, start: int, end: int) -> Tuple[List[Cite], Optional[Tuple[int, str]]]:
        """The cites between two places, or what is wrong with them, and where."""
        found: List[Cite] = []
        at = start
        while True:
            begin = at
            at, key = self._next_key(at, end)
            if key is None:
                return found, (min(begin, end), 'a cite has no key')
            stop = self._end_of_suffix(key.end, end)
            found.append(self._cite(key, self.text[begin:at], self.text[key.end:stop]))
            if stop >= end:
                return found, None
            at = stop + 1

    def _end_of_suffix(self, at: int, end: int) -> int:
        """The semicolon that ends a suffix, or the end."""
        key: Optional[_Key] = None
        while True:
            at, key = self._next_key(at, end, key is not None)
            if key is None:
                return min(at, end)
            at = key.end

    def _next_key(self, at: int, end: int, follows_key: bool = False) -> Tuple[int, Optional[_Key]]:
        """The place of the next key of a cite, and the key; or that of the semicolon or the end
        that comes before."""
        last_word = self._last_word(at) if follows_key else -1
        while at < end:
            plain = self.plain_in_cite.match(self.text, at, end)
            if plain is not None:
                at = plain.end()
                last_word = self._last_word(at)
                continue
            if self.text[at] == ';':
                break
            key = self._key(at, end) if at != last_word else None
            if key is not None:
                return at, key
            at = self.end_of_inline(at, end)
            last_word = self._last_word(at)
        return at, None

    def _cite(self, key: _Key, prefix: str, suffix: str) -> Cite:
        locator, rest = _locators.split(_in_line(suffix), self.words)
        rest = rest.rstrip() if rest.strip() else ''
        kind, numbers = locator or ('page', None)
        return Cite(key.key, numbers, kind, _in_line(prefix).strip(), rest,
                    suppress_author=key.leaves_out)

    def _key(self, at: int, end: int) -> Optional[_Key]:
        """The key that begins at a place, by `@` or by `-@`."""
        leaves_out = self.text.startswith('-@', at)
        at += leaves_out
        if at >= end or self.text[at] != '@':
            return None
        simple = _KEY.match(self.text, at + 1, end)
        if simple:
            return _Key(simple.group(), leaves_out, simple.end())
        return self._braced_key(at + 1, end, leaves_out)

    def _braced_key(self, at: int, end: int, leaves_out: bool) -> Optional[_Key]:
        """A key in braces, which has no space, and braces only in pairs."""
        depth = 0
        for place in range(at, end):
            letter = self.text[place]
            depth += {'{': 1, '}': -1}.get(letter, 0)
            if depth == 0 or letter.isspace():
                is_closed = letter == '}' and place > at + 1
                return _Key(self.text[at + 1:place], leaves_out, place + 1) if is_closed else None
        return None


def _in_line(text: str) -> str:
    """A text whose line feeds, with what follows them in a block quote, are spaces."""
    if '\n' not in text:
        return text
    return re.sub(r'[ \t]*\n[ \t]*(?:>[ \t]?)*', ' ', text)
