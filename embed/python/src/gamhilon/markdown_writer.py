"""Trees as Markdown, as CommonMark and pandoc read it."""
from __future__ import annotations

import re
from typing import List, Optional, Sequence, Union

from . import _addresses
from ._writing import Escape, LineEnd, Piece, anchor, formats, pieces, safe_url, single_spaced
from .answer import Bibliography, Citation, Item, Node, Tree, tree_of

__all__ = ['bibliography_to_markdown', 'to_markdown']

_SPECIAL = re.compile(r'[\\`*_{}\[\]<>#|~^$@&!"\']|(?<=-)-|(?<=\.)\.|:(?=[\w+-]+:|//)|(?<=www)\.')
_LIST_MARK = re.compile(
    r'( ?\(?(?:\d+|[a-z]|[ivxlcdm]{2,}|[IVXLCDM]{2,}))([.)])(?=\s|$)'
    r'|( ?\(?[A-Z])(\)|\.(?=\s\s))|( ?)([-+=:%])')
_OPENING = ' \u00a0([{\u2018\u201c\u00ab\u2013\u2014/'
_MARKS = {'italic': '*', 'bold': '**'}
_TAGS = {
    'bold': ('<strong>', '</strong>'), 'italic': ('<em>', '</em>'), 'underline': ('<u>', '</u>'),
    'sup': ('<sup>', '</sup>'), 'sub': ('<sub>', '</sub>'),
    'small-caps': ('<span style="font-variant:small-caps;">', '</span>'),
}


def to_markdown(part: Union[Citation, Node, Tree], keys: Sequence[str] = (),
                markup: Escape = lambda text: escaped(text)) -> str:
    """The Markdown of a citation, of a tree or of a node, which may begin a paragraph.

    Where `keys` has the entries of the citation's request, in their order, each cite links to the
    item of its entry. Links lead to http, https, mailto and doi alone; a text with another address
    stands without one. Where the marks `*` and `**` would not be read as such, beside letters, the
    tags `em` and `strong` stand in their place; small capitals, underlines, superscripts and
    subscripts are tags of HTML, too. Elements with a display stand in the line, with a space beside
    them. `markup` makes Markdown of a text in markup of its own, such as a formula, and shows its
    letters where it isn't given.

        >>> to_markdown({'text': 'On *Order*', 'font_style': 'italic', 'font_weight': 'normal'})
        '*On \\\\*Order\\\\**'
    """
    return _markdown(pieces(tree_of(part), keys), markup)


def inline_markdown(parts: Sequence[Piece]) -> str:
    """The Markdown of parts of a tree, to stand in a line behind other words."""
    return _joined(parts, escaped)


def _markdown(parts: Sequence[Piece], markup: Escape) -> str:
    return begun(_joined(parts, markup))


def _joined(parts: Sequence[Piece], markup: Escape) -> str:
    out: List[str] = []
    before, end = '', LineEnd()
    for place, piece in enumerate(parts):
        text = ''
        if piece.node.get('display'):
            end.set_off()
        if piece.kind == 'text':
            space = end.space_before(single_spaced(piece.node['text']))
            before = space or before
            text = space + _text(piece.node, before, _letter_after(parts, place))
        elif piece.kind == 'markup':
            text = markup(piece.node['markup'])
        elif piece.link:
            text = '[' if piece.kind == 'open' else f']({_target(piece.link)})'
        out.append(text)
        before = text[-1:] or before
    return ''.join(out)


def _target(link: str) -> str:
    """The address of an item: an id of this page, or an address with that."""
    return link if '#' in link else f'#{link}'


def bibliography_to_markdown(bibliography: Optional[Bibliography],
                             markup: Escape = lambda text: escaped(text)) -> str:
    """The Markdown of a bibliography: a paragraph for each item, in a `div` of class `csl-entry`
    with the id to which its cites link; nothing where there is none. URLs and DOIs are links."""
    if bibliography is None:
        return ''
    items = [f'<div id="{anchor(item.key)}" class="csl-entry">\n\n{_item(item, markup)}\n\n</div>\n'
             for item in bibliography.items]
    return '\n'.join(items)


def escaped(text: str) -> str:
    """A text with nothing in it that Markdown reads as anything but its letters, inside a
    paragraph."""
    return _SPECIAL.sub(lambda match: _escape(match.group()), single_spaced(text))


def _escape(mark: str) -> str:
    """A mark of Markdown as a letter. An ampersand is an entity, since not every Markdown reads
    `\\&` as one."""
    return '&amp;' if mark == '&' else '\\' + mark


def begun(text: str) -> str:
    """The text with no mark of a list, a block of code and the like at its beginning."""
    text = re.sub('^ +', ' ', text)
    mark = _LIST_MARK.match(text)
    if mark:
        at = next(mark.start(depth) for depth in (2, 4, 6) if mark.group(depth))
        text = text[:at] + '\\' + text[at:]
    return text


def _item(item: Item, markup: Escape) -> str:
    content = _markdown(_addresses.with_links(pieces(item.content)), markup)
    if item.first_field is None:
        return content
    return f'{_markdown(_addresses.with_links(pieces(item.first_field)), markup)} {content}'


def _letter_after(parts: Sequence[Piece], place: int) -> str:
    """The first letter of what is written behind this part."""
    for at in range(place + 1, len(parts)):
        kind, node, link = parts[at]
        if kind == 'markup':
            return str(node['markup'])[:1]
        if link or (kind == 'text' and (formats(node) or 'url' in node)):
            return ']'
        if node.get('display'):
            return ' '
        if kind == 'text' and node['text']:
            return single_spaced(node['text'])[:1]
    return ''


def _text(node: Node, before: str, after: str) -> str:
    text = single_spaced(node['text'])
    inner = text.strip()
    head, tail = text[:len(text) - len(text.lstrip())], text[len(text.rstrip()):] if inner else ''
    written = escaped(inner)
    if not head and before in ('-', '.') and inner.startswith(before):
        written = '\\' + written
    if inner:
        written = _marked(written, formats(node), head[:1] or before, tail[:1] or after)
    url = safe_url(node['url']) if 'url' in node else None
    if url:
        written = f'[{written}](<{url}>)'
    return head + written + tail


def _marked(written: str, names: Sequence[str], before: str, after: str) -> str:
    """The text with its formatting: by marks where both of their sides let them be read as such,
    and else by tags."""
    is_closed = not after or not (after.isalnum() or after in '*_\\')
    stands_free = (not before or before in _OPENING) and is_closed
    takes_marks = stands_free and all(name in _MARKS for name in names)
    for name in reversed(names):
        opening, closing = (_MARKS[name], _MARKS[name]) if takes_marks else _TAGS[name]
        written = opening + written + closing
    return written
