"""How pages of Markdown have what a style writes: as Markdown, or as HTML that stands in it."""
from __future__ import annotations

import html
import re
from functools import lru_cache
from typing import Dict, Optional, Sequence, Tuple

from ._writing import Piece
from .answer import Bibliography, Item
from .html_writer import escaped, inline_html, item_to_html, list_tag, list_to_html
from .markdown_writer import begun, bibliography_to_markdown, inline_markdown

_SPECIAL = re.compile(r'[\\`*_{}\[\]+!~^=|:$@]|(?<!&)#')
_MARK = re.compile(r'(\(?(?:\d+|[A-Za-z]))([.)])(?=\s)|([-+*])(?=\s)')
_TAG = re.compile(r'(<[^<>]*>)')


class PageWriter:
    """Writes Markdown, as CommonMark, pandoc and kramdown read it."""

    def inline(self, pieces: Sequence[Piece]) -> str:
        """What stands in a line."""
        return inline_markdown(pieces)

    def unformatted(self, letters: str, target: Optional[str] = None) -> Optional[str]:
        """What stands in a line for letters without formatting, which lead to an address where one
        is given; None where that depends on what stands around them."""
        return None

    def begun(self, text: str) -> str:
        """What begins a block, so that it is no list."""
        return begun(text)

    def reference_list(self, bibliography: Optional[Bibliography]) -> str:
        """The reference list, between blank lines. Its items have no columns, whatever the style
        says of these."""
        items = bibliography_to_markdown(bibliography)
        if bibliography is None or not items:
            return ''
        layout = ['hanging-indent'] if bibliography.hanging_indent else []
        return f'{list_tag(bibliography, layout)}\n\n{items}\n</div>\n'


class HtmlInMarkdown(PageWriter):
    """Writes HTML, in which nothing is left that any kind of Markdown reads as its own. An item
    that stands in many lists is written once."""

    def __init__(self) -> None:
        self._items: Dict[str, Tuple[Item, str]] = {}

    def inline(self, pieces: Sequence[Piece]) -> str:
        return in_markdown(inline_html(pieces))

    def unformatted(self, letters: str, target: Optional[str] = None) -> Optional[str]:
        if not letters.isprintable():
            return None
        text = in_markdown(escaped(letters))
        return text if target is None else f'<a href="{escaped(target)}">{text}</a>'

    def begun(self, text: str) -> str:
        mark = _MARK.match(text)
        if mark is None:
            return text
        at = mark.start(2) if mark.group(2) else mark.start(3)
        return f'{text[:at]}&#{ord(text[at])};{text[at + 1:]}'

    def reference_list(self, bibliography: Optional[Bibliography]) -> str:
        if bibliography is None:
            return ''
        return list_to_html(bibliography, list(map(self._item, bibliography.items)))

    def _item(self, item: Item) -> str:
        known = self._items.get(item.key)
        if known is None or known[0] is not item:
            known = self._items[item.key] = item, item_to_html(item)
        return known[1]


@lru_cache(maxsize=8192)
def in_markdown(text: str) -> str:
    """HTML with numbers in place of the letters that Markdown reads as its own, but for tags."""
    if '<' not in text:
        return _SPECIAL.sub(_number, text)
    return ''.join(part if at % 2 else _SPECIAL.sub(_number, part)
                   for at, part in enumerate(_TAG.split(text)))


def _number(match: 're.Match[str]') -> str:
    return f'&#{ord(match.group())};'


def heading(title: str) -> str:
    """The heading of a reference list that a page has none for."""
    return f'## {html.escape(title, quote=False)}\n\n'
