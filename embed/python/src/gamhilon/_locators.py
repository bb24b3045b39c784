"""Locators in the suffixes of pandoc's citations, by the words of a language."""
from __future__ import annotations

import re
import unicodedata
from functools import lru_cache
from typing import Callable, Dict, List, Mapping, NamedTuple, Optional, Tuple
from xml.etree import ElementTree

from .csl.cites import LABELS
from .csl.locales import Locales, files_for

_ENGLISH = {
    'book': 'book books bk. bks.', 'chapter': 'chapter chapters chap. chaps. ch.',
    'column': 'column columns col. cols.', 'figure': 'figure figures fig. figs.',
    'folio': 'folio folios fol. fols.', 'issue': 'number numbers no. nos.',
    'line': 'line lines l. ll.', 'note': 'note notes n. nn.', 'opus': 'opus opera op. opp.',
    'page': 'page pages p. pp.', 'paragraph': 'paragraph paragraphs para. paras. ¶¶ ¶',
    'part': 'part parts pt. pts.', 'section': 'section sections sec. secs. §§ §',
    'sub-verbo': 's.v. s.vv.', 'supplement': 'supplement supplements supp. supps.',
    'verse': 'verse verses v. vv.', 'volume': 'volume volumes vol. vols.',
}
ENGLISH: Mapping[str, str] = {word: kind for kind, words in _ENGLISH.items()
                              for word in words.split(' ')}
"""The words of locators in English, each with its kind as CSL names it."""

_CSL = '{http://purl.org/net/xbiblio/csl}'
_BRACKETS = {'(': ')', '[': ']', '{': '}'}
_MOST_KEPT = 10000
_DASHES = '-\u2013\u2014'
_ROMAN = re.compile('(?=.)m*(cm|cd|d?c{0,3})(xc|xl|l?x{0,3})(ix|iv|v?i{0,3})$', re.IGNORECASE)


class Locator(NamedTuple):
    """A locator: its kind, as CSL names it, and its text."""

    kind: str
    text: str


class LocatorWords(Dict[str, str]):
    """The words of locators in a language, each with its kind; and suffixes that were split by
    them, which come again and again on the pages of a site."""

    def __init__(self, words: Mapping[str, str]) -> None:
        super().__init__(words)
        self.longest = max(map(len, words), default=0)
        self.split: Dict[str, Tuple[Optional[Locator], str]] = {}


def words_of(language: Optional[str], locales: Optional[Locales] = None) -> Mapping[str, str]:
    """The words of locators in a language, each with its kind: those of its locale files, and the
    English ones that these have not."""
    found = dict(ENGLISH)
    for file in reversed(files_for(language or 'en-US', locales)):
        found.update(_words_in(file.text))
    return LocatorWords(found)


@lru_cache(maxsize=8)
def _words_in(text: str) -> Dict[str, str]:
    """The words of locators in the text of a locale file."""
    try:
        root = ElementTree.fromstring(text.encode('utf-8', 'surrogateescape'))
    except (ElementTree.ParseError, ValueError):
        return {}
    found: Dict[str, str] = {}
    for term in root.iter(f'{_CSL}term'):
        kind = term.get('name', '').replace('sub verbo', 'sub-verbo')
        if kind in LABELS and term.get('form') not in ('verb', 'verb-short'):
            numbers = [term, *term.findall(f'{_CSL}single'), *term.findall(f'{_CSL}multiple')]
            words = [(number.text or '').strip().casefold() for number in numbers]
            found.update({word: kind for word in words if word})
    return found


def split(suffix: str, words: Mapping[str, str] = ENGLISH) -> Tuple[Optional[Locator], str]:
    """The locator at the beginning of a suffix, and the rest, as pandoc reads them. Numbers without
    a word are pages."""
    if not isinstance(words, LocatorWords):
        return _Suffix(suffix, words).split()
    found = words.split.get(suffix)
    if found is None:
        if len(words.split) >= _MOST_KEPT:
            words.split.clear()
        found = words.split[suffix] = _Suffix(suffix, words).split()
    return found


class _Suffix:
    """The tokens of a suffix: runs of white space, marks of punctuation, and words between them."""

    def __init__(self, suffix: str, words: Mapping[str, str]) -> None:
        self.tokens = _tokens(suffix)
        self.words = words
        self.longest = words.longest if isinstance(words, LocatorWords) \
            else max(map(len, words), default=0)

    def split(self) -> Tuple[Optional[Locator], str]:
        at = self._past_space(self._past(0, ','))
        found = self._braced(at) or self._plain(at)
        if found is None:
            return None, ''.join(self.tokens)
        kind, text, end = found
        if not text.strip():
            return None, ''.join(self.tokens[end:])
        numbers = re.sub(rf'(?<=[\w)])\s*[{_DASHES}]+\s*(?=[\w(])', '\u2013', text.strip())
        return Locator(kind, numbers), ''.join(self.tokens[end:])

    def _token(self, at: int) -> str:
        return self.tokens[at] if at < len(self.tokens) else ''

    def _past(self, at: int, mark: str) -> int:
        return at + (self._token(at) == mark)

    def _past_space(self, at: int) -> int:
        return at + self._token(at).isspace()

    def _braced(self, at: int) -> Optional[Tuple[str, str, int]]:
        """A locator in braces: its kind, its text, and where it ends. It is empty where the braces
        say that there is none, whatever follows."""
        if self._token(at) != '{':
            return None
        closing = self._closing(at)
        if closing is None:
            return None
        end: int = closing
        at = self._past_space(at + 1)
        kind, start = self._word(at, lambda place: place < end) or ('page', at)
        text = ''.join(self.tokens[start:end])
        return kind, text, end + 1

    def _closing(self, at: int) -> Optional[int]:
        """Where the brace that opens here closes."""
        depth = 0
        for place in range(at, len(self.tokens)):
            depth += {'{': 1, '}': -1}.get(self.tokens[place], 0)
            if depth == 0:
                return place
        return None

    def _plain(self, at: int) -> Optional[Tuple[str, str, int]]:
        """A locator without braces: a word of the language with numbers, or digits alone."""
        told = self._word(at, lambda place: self._number(place, True, True) is not None)
        kind, start = told or ('page', at)
        end = self._number(start, True, told is not None)
        while end is not None:
            last, end = end, self._number(end, False, told is not None)
            if end is None:
                return kind, ''.join(self.tokens[start:last]), last
        return None

    def _word(self, at: int, may_end: Callable[[int], bool]) -> Optional[Tuple[str, int]]:
        """The kind of the longest word of a locator here, and where it ends. It ends where a
        number may begin."""
        found: Optional[Tuple[str, int]] = None
        text = ''
        for place in range(at, len(self.tokens)):
            text += self.tokens[place]
            if len(text.strip()) > self.longest:
                break
            kind = self.words.get(text.strip().casefold())
            if kind is not None and may_end(place + 1):
                found = kind, place + 1
        return found

    def _number(self, at: int, is_first: bool, takes_romans: bool) -> Optional[int]:
        """Where a number ends that begins here, behind a separator if it isn't the first."""
        if not is_first and self._token(at) in (',', ';', '&'):
            at += 1
        at = self._past_space(at)
        start, is_number = at, False
        while True:
            read = self._bracketed(at) or self._pages(at)
            if read is None:
                break
            at, is_digit = read
            is_number = is_number or is_digit
        if not takes_romans or not is_first:
            is_number = any(letter.isdigit() for token in self.tokens[start:at]
                            for letter in token) or is_number and takes_romans
        return at if is_number and at > start else None

    def _bracketed(self, at: int) -> Optional[Tuple[int, bool]]:
        """Where numbers in brackets end, and whether there are any."""
        closing = _BRACKETS.get(self._token(at))
        if closing is None:
            return None
        end, is_number = self._pages(at + 1) or (at + 1, False)
        return (end + 1, is_number) if self._token(end) == closing else None

    def _pages(self, at: int) -> Optional[Tuple[int, bool]]:
        """Where numbers with full stops between them end, and whether one is a number."""
        read = self._unit(self._past(at, '.'))
        if read is None:
            return None
        end, is_number = read
        while self._token(end) == '.':
            more = self._unit(end + 1)
            if more is None:
                break
            end, is_number = more[0], is_number or more[1]
        return end, is_number

    def _unit(self, at: int) -> Optional[Tuple[int, bool]]:
        """Where a word with no punctuation but dashes and colons ends, and whether it is a
        number."""
        end = at
        while self._token(end) and not self._token(end).isspace() \
                and not _is_separate(self._token(end)):
            end += 1
        text = ''.join(self.tokens[at:end])
        parts = [part for part in re.split(f'[{_DASHES}]+', text) if part]
        is_number = any(letter.isdigit() for letter in text) \
            or bool(parts) and all(_ROMAN.match(part) for part in parts)
        return (end, is_number) if end > at else None


def _tokens(suffix: str) -> List[str]:
    """The tokens of a suffix."""
    found: List[str] = []
    last = ''
    for letter in suffix:
        kind = 'space' if letter.isspace() else 'mark' if _is_mark(letter) else 'word'
        if kind == last != 'mark':
            found[-1] += letter
        else:
            found.append(letter)
        last = kind
    return found


def _is_mark(letter: str) -> bool:
    """Whether a letter is punctuation. (Of volumes and pages with a colon between them pandoc makes
    one word.)"""
    return letter != ':' and unicodedata.category(letter)[0] == 'P'


def _is_separate(token: str) -> bool:
    """Whether a token is punctuation that stands between numbers or around them."""
    return token not in _DASHES and _is_mark(token[0])
