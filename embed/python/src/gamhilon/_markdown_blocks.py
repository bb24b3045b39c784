"""The blocks of a page of Markdown, as far as citations have to know: where text is that may have
citations, and where a reference list may stand."""
from __future__ import annotations

import re
from dataclasses import dataclass, field
from typing import Dict, List, NamedTuple, Optional, Set, Tuple

__all__ = ['Blocks', 'Heading', 'Paragraph', 'blocks_of', 'front_matter_in', 'label_of']

_FRONT_MATTER = re.compile(
    r'\ufeff?(?:---[ \t]*\n.*?^(?:---|\.\.\.)[ \t]*$|\+\+\+[ \t]*\n.*?^\+\+\+[ \t]*$)',
    re.DOTALL | re.MULTILINE)
_QUOTE = re.compile(r'(?:[ \t]{0,3}>[ \t]?)+')
_FENCE = re.compile(r'(`{3,})(?!.*`)|(~{3,})')
_LIST = re.compile(r'(?:[-+*]|\(?(?:\d{1,9}|[A-Za-z#])[.)]|\(@[\w-]*\)|:)(?=[ \t])')
_NOTE = re.compile(r'\[\^([^\]\s]+)\]:[ \t]*')
_LINK = re.compile(
    r'\[(?!\^)(?P<label>(?:\\.|[^\[\]\\])+)\]:[ \t]*(?:\n[ \t]*(?:>[ \t]?)*)?'
    r'(?P<target><[^<>\n]*>|[^\s<]\S*)'
    r'(?:(?:[ \t]+|[ \t]*\n[ \t]*(?:>[ \t]?)*)(?:"[^"\n]*"|\'[^\'\n]*\'|\([^()\n]*\)))?'
    r'(?:[ \t]*\{[^{}\n]*\})?[ \t]*$', re.MULTILINE)
_ADDRESS = re.compile(r'[</#.]|[A-Za-z][A-Za-z0-9+.-]*:')
_CONTAINER = re.compile(r'(?:!!!|\?\?\?\+?|===[+!]?)[ \t]+\S')
_DIV = re.compile(r'(:{3,})[ \t]*(.*?)[ \t:]*$')
_HEADING = re.compile(r'(#{1,6})(?:[ \t]+(.*?))?[ \t]*#*[ \t]*$')
_UNDERLINE = re.compile(r'(=+|-+)[ \t]*$')
_RULE = re.compile(r'(?:[-*_][ \t]*){3,}$')
# (lines that begin with two letters, up to a blank line, and the line feeds behind them)
_USUAL = re.compile(r'((?:[^\W\d_]{2}[^\n]*\n)+)(?:\n+|\Z)')
_ATTRIBUTES = re.compile(r'[ \t]*\{[^{}]*\}$')
_END_OF_COMMENT = '-->'
_RAW_STARTS = (
    (re.compile(r'<(script|pre|style|textarea)\b', re.IGNORECASE), None),
    (re.compile('<!--'), _END_OF_COMMENT), (re.compile(r'<\?'), '?>'),
    (re.compile(r'<!\[CDATA\['), ']]>'), (re.compile('<![A-Z]'), '>'),
)
_BLOCK_TAG = re.compile(
    r'</?(?:address|article|aside|base|blockquote|body|caption|center|col|colgroup|dd|details'
    r'|dialog|dir|div|dl|dt|fieldset|figcaption|figure|footer|form|frame|frameset|h[1-6]|head'
    r'|header|hr|html|iframe|legend|li|link|main|menu|menuitem|nav|noframes|ol|optgroup|option|p'
    r'|param|section|source|summary|table|tbody|td|tfoot|th|thead|title|tr|track|ul)(?=[\s>/]|$)',
    re.IGNORECASE)
_ANY_TAG = re.compile(r'(?:<[A-Za-z][\w-]*(?:\s+[^<>]*)?/?>|</[A-Za-z][\w-]*\s*>)[ \t]*$')
_HAS_MARKDOWN = re.compile(r'\bmarkdown\b(?!-)')
_REFERENCES = re.compile(r'<div\b[^>]*\bid=["\']?refs["\'\s>]')


class Paragraph(NamedTuple):
    """A text that may have citations: where it stands, and the label of the note in whose
    definition it is."""

    start: int
    end: int
    note: Optional[str]


class Heading(NamedTuple):
    """A heading: its level, its text without attributes, and where its lines stand."""

    level: int
    text: str
    start: int
    end: int


@dataclass
class Blocks:
    """The blocks of a page: its paragraphs, its headings, the `div` of the id `refs` with its
    fences or tags, the labels of the notes that it defines, each with the place of that, and the
    labels to which links refer."""

    paragraphs: List[Paragraph] = field(default_factory=list)
    headings: List[Heading] = field(default_factory=list)
    references: Optional[Tuple[int, int]] = None
    notes: Dict[str, int] = field(default_factory=dict)
    labels: Set[str] = field(default_factory=set)


class _Line(NamedTuple):
    """A line: where it begins, where what it says begins, and where it ends."""

    start: int
    at: int
    end: int
    indent: int
    is_quoted: bool


class _Container(NamedTuple):
    """A list item, the definition of a note and the like: how far what is in it is indented, and
    whether it is of a block quote."""

    indent: int
    note: Optional[str]
    is_quoted: bool


def front_matter_in(text: str) -> str:
    """The YAML at the beginning of a page, behind as many line feeds as lines are before it; empty
    where there is none."""
    front = _FRONT_MATTER.match(text.replace('\r\n', '\n'))
    lines = front.group().lstrip('\ufeff').split('\n') if front else []
    return '\n'.join(['', *lines[1:-1], '']) if lines and lines[0].startswith('-') else ''


def label_of(text: str) -> str:
    """A label of links as it is compared: without regard to case and white space."""
    return ' '.join(text.split()).casefold()


def blocks_of(text: str) -> Blocks:
    """The blocks of a page."""
    return _Reader(text).read()


class _Reader:
    """Reads the blocks of a page, line by line."""

    def __init__(self, text: str) -> None:
        self.text = text
        self.found = Blocks()
        self.containers: List[_Container] = []
        self.open: Optional[Tuple[int, int]] = None
        self.fence: Optional[Tuple[str, bool]] = None
        self.raw_until: Optional[str] = None
        self.divs: List[Tuple[str, int]] = []

    def read(self) -> Blocks:
        front = _FRONT_MATTER.match(self.text)
        at, end = front.end() if front else 0, len(self.text)
        while at < end:
            at = self._past_usual(at) or self._past_line(at)
        self._close()
        return self.found

    def _past_usual(self, at: int) -> Optional[int]:
        """Where the next block begins, if a paragraph begins here that is as most are: outside of
        all others, of text alone, up to a blank line."""
        if self.open is not None or self.fence is not None or self.raw_until is not None:
            return None
        usual = _USUAL.match(self.text, at)
        if usual is None:
            return None
        self.containers = []
        self.found.paragraphs.append(Paragraph(at, usual.end(1) - 1, None))
        return usual.end()

    def _past_line(self, at: int) -> int:
        """Where the next line begins, once the line here is read."""
        end = self.text.find('\n', at)
        line = self._line(at, len(self.text) if end < 0 else end)
        if self.fence is not None and self._in_fence(line):
            pass
        elif self.raw_until is not None:
            self._in_raw(line)
        elif line.at == line.end:
            self._close()
        else:
            self._begin(line)
        return line.end + 1

    def _line(self, start: int, end: int) -> _Line:
        if self.text[start].isalpha():
            return _Line(start, start, end, 0, False)
        quote = _QUOTE.match(self.text, start, end)
        inside = quote.end() if quote else start
        at = inside
        while at < end and self.text[at] in ' \t\r':
            at += 1
        return _Line(start, at, end, _width(self.text[inside:at]), quote is not None)

    # Code and raw HTML

    def _in_fence(self, line: _Line) -> bool:
        """Whether a line is of the code in a fence. (A fence of a block quote ends with that.)"""
        marks, is_quoted = self.fence or ('', False)
        if is_quoted and not line.is_quoted:
            self.fence = None
            return False
        said = self.text[line.at:line.end].rstrip()
        if said.startswith(marks) and not said.strip(marks[0]):
            self.fence = None
        return True

    def _in_raw(self, line: _Line) -> None:
        said = self.text[line.start:line.end]
        if self.raw_until == '' and not said.strip() or self.raw_until and \
                self.raw_until in said.lower():
            is_comment = self.raw_until == _END_OF_COMMENT
            self.raw_until = None
            if is_comment:
                self._begin_behind(line)

    def _has_text(self, said: str) -> bool:
        """Whether a line that begins with a comment is text: it ends the comment, and more follows
        it or a paragraph is open."""
        _, closing, rest = said.partition(_END_OF_COMMENT)
        return bool(closing) and bool(self.open or rest.strip())

    def _begin_behind(self, line: _Line) -> None:
        """Begins what stands on the line of the end of a comment."""
        at = self.text.index(_END_OF_COMMENT, line.start) + len(_END_OF_COMMENT)
        while at < line.end and self.text[at] in ' \t\r':
            at += 1
        if at < line.end:
            self._begin(line._replace(at=at))

    def _begins_raw(self, line: _Line) -> bool:
        """Whether a line begins raw HTML, as CommonMark has it; what follows is raw up to its end.
        What a tag has that says `markdown` is Markdown."""
        said = self.text[line.at:line.end]
        for pattern, end in _RAW_STARTS:
            match = pattern.match(said)
            if match:
                until = end or f'</{match.group(1).lower()}'
                if until == _END_OF_COMMENT and self._has_text(said):
                    return False
                self.raw_until = None if until in said[match.end():].lower() else until
                return True
        if _REFERENCES.match(said):
            self._place_tags(line)
        if not _BLOCK_TAG.match(said) and (self.open is not None or not _ANY_TAG.match(said)):
            return False
        self.raw_until = None if _HAS_MARKDOWN.search(said.split('>')[0]) else ''
        return True

    def _place_tags(self, line: _Line) -> None:
        """Notes the place of `<div id="refs"></div>`."""
        closing = self.text.find('</div>', line.at)
        if closing >= 0 and self.found.references is None:
            self.found.references = line.start, closing + len('</div>')

    # Blocks of text

    def _begin(self, line: _Line) -> None:
        """A line that isn't blank, outside of code and raw HTML."""
        while self.containers and not self._is_inside(line, self.containers[-1]):
            if self.open is not None and not self._begins_block(line):
                break
            self._close()
            self.containers.pop()
        inner = self.containers[-1].indent if self.containers else 0
        if self.open is None and line.indent - inner >= 4:
            return
        said = self.text[line.at:line.end]
        # (a line that begins with two letters is text)
        if not said[:2].isalpha():
            if self._takes_underline(line, said) or self._takes_block(line, said) \
                    or self._takes_item(line, said) or self.open is None and _RULE.match(said):
                return
        begin = self.open[0] if self.open else line.at
        self.open = begin, line.end

    def _is_inside(self, line: _Line, container: _Container) -> bool:
        return line.indent >= container.indent and line.is_quoted == container.is_quoted

    def _takes_item(self, line: _Line, said: str) -> bool:
        """Whether a line begins an item of a list."""
        marker = _LIST.match(said)
        if not marker or not self._begins_item(said) or _RULE.match(said):
            return False
        self._close()
        at = line.at + marker.end()
        spaces = len(self.text[at:line.end]) - len(self.text[at:line.end].lstrip(' \t'))
        width = marker.end() + (spaces if spaces <= 4 else 1)
        width = 4 if said[0] == ':' else width
        self._enter(line, at + spaces, line.indent + width)
        return True

    def _begins_block(self, line: _Line) -> bool:
        said = self.text[line.at:line.end]
        patterns = (_NOTE, _FENCE, _HEADING, _DIV, _CONTAINER)
        return any(pattern.match(said) for pattern in patterns) or self._begins_item(said)

    def _begins_item(self, said: str) -> bool:
        """Whether a line begins an item of a list: a paragraph that is open goes on with a letter
        and a full stop, or outside of lists with a number."""
        if not _LIST.match(said):
            return False
        return self.open is None or said[0] in '-+*:' or bool(self.containers) \
            and said.lstrip('(')[0].isdigit()

    def _enter(self, line: _Line, at: int, indent: int, note: Optional[str] = None) -> None:
        """What stands on the line of a list's mark, and is indented by as much on the next ones."""
        label = note or (self.containers[-1].note if self.containers else None)
        self.containers.append(_Container(indent, label, line.is_quoted))
        if at < line.end:
            self._begin(_Line(line.start, at, line.end, indent, line.is_quoted))

    def _takes_underline(self, line: _Line, said: str) -> bool:
        """Whether a line makes the paragraph before it a heading."""
        if self.open is None or not _UNDERLINE.match(said):
            return False
        start, end = self.open
        self._close()
        self._add_heading(1 if said[0] == '=' else 2, self.text[start:end], start, line.end)
        return True

    def _takes_block(self, line: _Line, said: str) -> bool:
        """Whether a line is a fence, a heading, a definition, a tag or the like."""
        fence, heading, note = _FENCE.match(said), _HEADING.match(said), _NOTE.match(said)
        div = _DIV.match(said)
        if fence:
            self._close()
            self.fence = fence.group(), line.is_quoted
        elif heading:
            self._close()
            self.open = line.at + max(heading.start(2), heading.end(1)), line.end
            self._close()
            self._add_heading(len(heading.group(1)), heading.group(2) or '', line.start, line.end)
        elif note:
            self._close()
            self.found.notes.setdefault(note.group(1), line.start)
            self.containers = []
            self._enter(line, line.at + note.end(), line.indent + 4, note.group(1))
        elif div:
            self._close()
            self._takes_div(line, div.group(1), div.group(2))
        elif _CONTAINER.match(said):
            self._close()
            self.containers.append(_Container(line.indent + 4, None, line.is_quoted))
        elif self.open is None and self._defines_link(line):
            pass
        elif said[0] == '<' and self._begins_raw(line):
            self._close()
        else:
            return False
        return True

    def _defines_link(self, line: _Line) -> bool:
        """Whether a line says where the links of a label lead. (Those of one that looks like a
        citation lead to an address, and not to a word behind a colon.)"""
        found = _LINK.match(self.text, line.at)
        if found is None or '@' in found['label'] and not _ADDRESS.match(found['target']):
            return False
        self.found.labels.add(label_of(found['label']))
        return True

    def _takes_div(self, line: _Line, fence: str, name: str) -> None:
        """A fence of a `div`, as pandoc has them: one with a name or attributes opens one."""
        if name:
            self.divs.append((name, line.start))
        elif self.divs:
            name, start = self.divs.pop()
            if re.search(r'#refs(?![\w-])', name) and self.found.references is None:
                self.found.references = start, line.end

    def _add_heading(self, level: int, text: str, start: int, end: int) -> None:
        self.found.headings.append(Heading(level, _ATTRIBUTES.sub('', text).strip(), start, end))

    def _close(self) -> None:
        """Ends the paragraph that is open."""
        if self.open is not None:
            note = self.containers[-1].note if self.containers else None
            self.found.paragraphs.append(Paragraph(*self.open, note))
        self.open = None


def _width(space: str) -> int:
    """How wide white space is, with tabs of four columns."""
    return len(space.replace('\r', '').expandtabs(4))
