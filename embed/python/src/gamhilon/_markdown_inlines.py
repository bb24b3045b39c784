"""Where the inline elements of a text of Markdown end, as far as citations have to know."""
from __future__ import annotations

import re
from typing import Dict, List, NamedTuple, Optional, Pattern, Tuple

MARKS = '*_"\''
"""What emphasis and quotes stand between."""

_CLOSING_MARKS = {'\u201c': '\u201d', '\u2018': '\u2019'}

SPACES = re.compile(r'[ \t\u00a0]*(?:\n(?!\s*\n)[ \t]*(?:>[ \t]?)*)?[ \t\u00a0]*')
"""White space within a paragraph: at most one line feed, with the marks of a block quote."""

WORD = re.compile(r'(?:[^\W_]|\.(?!\.))+')
"""A word, as pandoc reads one: behind it no `@` begins a citation."""

_BEGINS_ADDRESS = r'(?:https?://|mailto:|www\.)'
_OPENS_OPAQUE = re.compile(r'[\\`<${]')
_MARK_OF_EMPHASIS = re.compile(r'[*_\\`<$]')
_MARK_OF_PAIRS = re.compile(r'[\[\]\\`<${]')
_MARK_OR_ADDRESS = re.compile(rf'[\[\]\\`<${{]|(?<![^\W_]){_BEGINS_ADDRESS}')


def _plain(others: str, more: str = '') -> Tuple[Pattern[str], Pattern[str]]:
    """Words, and what stands between them but for some letters: in a text without addresses, which
    is read by far faster, and in one that has some."""
    without = re.compile(rf'(?:[^_{others}]+{more}|(?<=[^\W_])\.(?!\.))+')
    beside = re.compile(rf'(?:(?!{_BEGINS_ADDRESS})[^\W_](?:[^\W_]|\.(?!\.))*{more}'
                        rf'|[^\w{others}])+')
    return without, beside


_OTHERS = r'\\`<{$!\[^*"\'.@'
_PLAIN = _plain(_OTHERS)
_PLAIN_IN_CITE = _plain(_OTHERS + ';\u201c\u2018~-', '|-(?!@)')

_TAG = re.compile(
    r'<!--.*?-->|<\?.*?\?>|<![A-Z][^>]*>|<!\[CDATA\[.*?\]\]>'
    r'|</[A-Za-z][\w-]*\s*>'
    r'|<[A-Za-z][\w-]*(?:\s+[A-Za-z_:][\w.:-]*(?:\s*=\s*(?:"[^"]*"|\'[^\']*\'|[^\s"\'=<>`]+))?)*'
    r'\s*/?>', re.DOTALL)
_AUTOLINK = re.compile(r'<[A-Za-z][A-Za-z0-9+.-]{1,31}:[^\s<>]*>'
                       r'|<[\w.!#$%&\'*+/=?^`{|}~-]+@[\w.-]+>')
_RAW = re.compile(r'<(pre|script|style|textarea|code)\b.*?</\1\s*>', re.DOTALL | re.IGNORECASE)
_ADDRESS = re.compile(_BEGINS_ADDRESS + r'[^\s<>\[\]]*[^\s<>\[\].,;:!?\'")]')
_TEMPLATE = re.compile(r'\{\{.*?\}\}|\{%.*?%\}|\{#.*?#\}', re.DOTALL)
_DISPLAYED = re.compile(r'\$\$.+?\$\$', re.DOTALL)
_MATH = re.compile(r'\$(?=[^\s$])(?:\\.|[^\\$])*?(?<=[^\s\\])\$(?!\d)', re.DOTALL)
_WIKI = re.compile(r'!?\[\[[^\[\]\n]*\]\]')
_DESTINATION = re.compile(
    r'\([ \t\n]*(?:<[^<>\n]*>|(?:\\.|[^\s()\\]|\((?:\\.|[^\s()\\])*\))*)'
    r'(?:[ \t\n]+(?:"(?:\\.|[^"\\])*"|\'(?:\\.|[^\'\\])*\'|\((?:\\.|[^()\\])*\)))?[ \t\n]*\)')
_ATTRIBUTES = re.compile(r'\{[ \t]*(?:[#.][\w:.-]+|[\w-]+=(?:"[^"]*"|[^\s{}]+)|-)'
                         r'(?:[ \t]+(?:[#.][\w:.-]+|[\w-]+=(?:"[^"]*"|[^\s{}]+)))*[ \t]*\}')
_OPAQUE: Dict[str, Tuple[Pattern[str], ...]] = {
    '<': (_RAW, _TAG, _AUTOLINK), '{': (_TEMPLATE,), '$': (_DISPLAYED, _MATH),
    'h': (_ADDRESS,), 'm': (_ADDRESS,), 'w': (_ADDRESS,), '!': (_WIKI,), '[': (_WIKI,),
}
_TARGETS = {'(': _DESTINATION, '{': _ATTRIBUTES}


class _Opened(NamedTuple):
    """Marks of an emphasis that is open: where they are, and how many."""

    start: int
    length: int


class InlineReader:
    """Where the inline elements of a paragraph end."""

    def __init__(self, text: str) -> None:
        self.text = text
        has_address = '://' in text or 'mailto:' in text or 'www.' in text
        self.plain, self.plain_in_cite = _PLAIN[has_address], _PLAIN_IN_CITE[has_address]
        self._mark = _MARK_OR_ADDRESS if has_address else _MARK_OF_PAIRS
        self.is_all_text = not has_address and _OPENS_OPAQUE.search(text) is None
        self._closing: Optional[Dict[int, int]] = None
        self._emphases: Optional[Dict[int, int]] = None

    def end_of_inline(self, at: int, end: int) -> int:
        """Where the element that begins at a place ends: an escaped letter, code, math, a link, a
        tag, an address, a template, brackets, emphasis, quotes, a word, or a letter."""
        letter = self.text[at]
        if letter == '\\':
            return min(at + 2, end)
        if letter == '`':
            return self._code(at, end)
        opaque = self.end_of_opaque(at, end)
        if opaque is not None:
            return opaque
        if self.text.startswith(('[', '![', '^['), at):
            return self._bracketed(at, end)
        if letter in MARKS:
            return self._emphasized(at, end) if letter in '*_' else self._quoted(at, end)
        if letter in _CLOSING_MARKS or self.text.startswith('~~', at):
            return self._quoted(at, end)
        word = WORD.match(self.text, at, end)
        return word.end() if word else at + 1

    def end_of_opaque(self, at: int, end: int) -> Optional[int]:
        """Where what Markdown doesn't read as text ends: an address, a tag, math, a template of a
        site generator, a link of a wiki. None where nothing of this kind begins."""
        letter = self.text[at]
        patterns = _OPAQUE.get(letter)
        if patterns is None or letter in 'hmw' and at and self.text[at - 1].isalnum():
            return None
        for pattern in patterns:
            match = pattern.match(self.text, at, end)
            if match:
                return match.end()
        return None

    def closing_bracket(self, at: int, end: int) -> Optional[int]:
        """Where the bracket that opens at a place closes."""
        if self._closing is None:
            self._closing = self._pairs()
        closing = self._closing.get(at, end)
        return closing if closing < end else None

    def end_of_target(self, at: int, end: int) -> Optional[int]:
        """Where that ends which makes brackets before it a link, or a span with attributes; None
        where nothing does."""
        letter = self.text[at] if at < end else ''
        if letter in _TARGETS:
            match = _TARGETS[letter].match(self.text, at, end)
            return match.end() if match else None
        if letter == '[' and not self.text.startswith('[^', at):
            closing = self.closing_bracket(at, end)
            return None if closing is None else closing + 1
        return None

    def _pairs(self) -> Dict[int, int]:
        """The brackets of the text: where each one that opens closes."""
        found: Dict[int, int] = {}
        opened: List[int] = []
        end = len(self.text)
        mark = self._mark.search(self.text)
        while mark is not None:
            at = mark.start()
            letter = self.text[at]
            if letter == '[':
                opened.append(at)
            elif letter == ']' and opened:
                found[opened.pop()] = at
            if letter in '\\`':
                at = min(at + 2, end) if letter == '\\' else self._code(at, end)
            else:
                opaque = self.end_of_opaque(at, end) if letter in '<${hmw' else None
                at = opaque or at + 1
            mark = self._mark.search(self.text, at)
        return found

    def _bracketed(self, at: int, end: int) -> int:
        opening = self.text.index('[', at)
        closing = self.closing_bracket(opening, end)
        if closing is None:
            return at + 1
        return self.end_of_target(closing + 1, end) or closing + 1

    def _code(self, at: int, end: int) -> int:
        """Where a span of code ends; where none closes, its marks do."""
        run = self._run(at, end)
        closing = re.compile(f'(?<!`)`{{{run - at}}}(?!`)').search(self.text, run, end)
        return closing.end() if closing else run

    def _run(self, at: int, end: int) -> int:
        """Where a run of one letter ends."""
        letter = self.text[at]
        while at < end and self.text[at] == letter:
            at += 1
        return at

    def _emphasized(self, at: int, end: int) -> int:
        """Where emphasis ends; where none closes, its marks do."""
        if self._emphases is None:
            self._emphases = self._all_emphases()
        closing = self._emphases.get(at, end + 1)
        return closing if closing <= end else self._run(at, end)

    def _all_emphases(self) -> Dict[int, int]:
        """The emphases of the text: where each one that begins ends."""
        found: Dict[int, int] = {}
        opened: Dict[str, List[_Opened]] = {'*': [], '_': []}
        end = len(self.text)
        mark = _MARK_OF_EMPHASIS.search(self.text)
        while mark is not None:
            at = mark.start()
            letter = self.text[at]
            if letter in '*_':
                after = self._run(at, end)
                self._take_run(opened[letter], found, at, after)
            elif letter in '\\`':
                after = min(at + 2, end) if letter == '\\' else self._code(at, end)
            else:
                after = self.end_of_opaque(at, end) or at + 1
            mark = _MARK_OF_EMPHASIS.search(self.text, after)
        return found

    def _take_run(self, opened: List[_Opened], found: Dict[int, int], at: int, after: int) -> None:
        """A run of marks, which ends emphases that are open, or opens one."""
        letter = self.text[at]
        before, behind = self.text[at - 1:at] or ' ', self.text[after:after + 1] or ' '
        start = at
        if not before.isspace() and (letter == '*' or not behind.isalnum()):
            while at < after and opened and (after - at >= opened[-1].length
                                             or opened[-1].length == 3):
                last = opened.pop()
                taken = min(after - at, last.length)
                at += taken
                if taken == last.length:
                    found[last.start] = at
                else:
                    opened.append(_Opened(last.start, last.length - taken))
        if at == start and not behind.isspace() and (letter == '*' or not before.isalnum()):
            opened.append(_Opened(at, after - at))

    def _quoted(self, at: int, end: int) -> int:
        """Where a quote ends, or a text that is struck out; where none closes, its mark does."""
        text = self.text
        opening = '~~' if text.startswith('~~', at) else text[at]
        mark, inside = _CLOSING_MARKS.get(opening, opening), at + len(opening)
        if inside >= end or text[inside].isspace() or at and text[at - 1].isalnum():
            return inside
        place = text.find(mark, inside, end)
        while place >= 0:
            after = place + len(mark)
            is_closing = not text[place - 1].isspace() and text[place - 1] != '\\'
            if is_closing and (after >= end or not text[after].isalnum()):
                return after
            place = text.find(mark, after, end)
        return inside
