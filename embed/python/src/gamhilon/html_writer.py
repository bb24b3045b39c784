"""Trees as HTML."""
from __future__ import annotations

import html
import os
from functools import lru_cache
from typing import List, Optional, Sequence, Union

from . import _addresses
from ._writing import (Escape, Piece, anchor, formats, is_unformatted, pieces, safe_url,
                       single_spaced)
from .answer import Bibliography, Citation, Item, Node, Tree, tree_of

__all__ = ['bibliography_to_html', 'style_sheet', 'to_html']

_TAGS = {
    'bold': ('<b>', '</b>'), 'italic': ('<i>', '</i>'), 'underline': ('<u>', '</u>'),
    'sup': ('<sup>', '</sup>'), 'sub': ('<sub>', '</sub>'),
    'small-caps': ('<span style="font-variant:small-caps;">', '</span>'),
}
_STYLE_SHEET = os.path.join(os.path.dirname(os.path.abspath(__file__)), 'gamhilon.css')


def to_html(part: Union[Citation, Node, Tree], keys: Sequence[str] = (),
            markup: Escape = html.escape) -> str:
    """The HTML of a citation, of a tree or of a node, to stand in a paragraph.

    Where `keys` has the entries of the citation's request, in their order, each cite links to the
    item of its entry. Links lead to http, https, mailto and doi alone; a text with another address
    stands without one. An element with a display is a `span` of class `csl-block`, `csl-indent`,
    `csl-left-margin` or `csl-right-inline`. `markup` makes HTML of a text in markup of its own,
    such as a formula, and shows its letters where it isn't given.

        >>> to_html({'text': 'Doe & Roe', 'font_style': 'italic', 'font_weight': 'normal'})
        '<i>Doe &amp; Roe</i>'
        >>> to_html([{'meta': {'entry': 0}, 'children': [{'text': 'Doe 1999'}]}], ['doe99'])
        '<a href="#ref-doe99">Doe 1999</a>'
    """
    return _html(pieces(tree_of(part), keys), markup, 'span')


def bibliography_to_html(bibliography: Optional[Bibliography], markup: Escape = html.escape) -> str:
    """The HTML of a bibliography: a `div` of class `csl-entry` for each item, with the id to which
    its cites link; nothing where there is none. URLs and DOIs are links. What the style tells of
    indents, columns and spacing is there for `style_sheet`."""
    if bibliography is None:
        return ''
    return list_to_html(bibliography, [item_to_html(item, markup) for item in bibliography.items])


def item_to_html(item: Item, markup: Escape = html.escape) -> str:
    """The HTML of an item of a bibliography, in the list."""
    return f'<div id="{anchor(item.key)}" class="csl-entry">{_item(item, markup)}</div>\n'


def list_to_html(bibliography: Bibliography, items: Sequence[str]) -> str:
    """The HTML of a bibliography of whose items this is the HTML."""
    return f'{list_tag(bibliography, layout_classes(bibliography))}\n{"".join(items)}</div>\n'


def list_tag(bibliography: Bibliography, layout: Sequence[str]) -> str:
    """The tag that begins a bibliography, with these classes of its layout."""
    classes = ' '.join(['references', 'csl-bib-body', *layout])
    return f'<div id="refs" class="{classes}" style="{spacing(bibliography)}">'


def style_sheet() -> str:
    """The style sheet of reference lists, by these classes (and by those that pandoc writes)."""
    with open(_STYLE_SHEET, encoding='utf-8') as file:
        return file.read()


def layout_classes(bibliography: Bibliography) -> List[str]:
    """The classes that tell how the items of a bibliography are laid out."""
    hanging = ['hanging-indent'] if bibliography.hanging_indent else []
    align = bibliography.second_field_align
    return [*hanging, f'second-field-align-{align}'] if align else hanging


def spacing(bibliography: Bibliography) -> str:
    """The properties of CSS that tell how far lines and items are apart."""
    return (f'--csl-line-spacing: {bibliography.line_spacing}; '
            f'--csl-entry-spacing: {bibliography.entry_spacing}')


def _item(item: Item, markup: Escape) -> str:
    content = _html(_addresses.with_links(pieces(item.content)), markup, 'div')
    if item.first_field is None:
        return content
    first = _html(_addresses.with_links(pieces(item.first_field)), markup, 'div')
    left = f'<div class="csl-left-margin">{first}</div>'
    return f'{left}<div class="csl-right-inline">{content}</div>' if content else left


def inline_html(parts: Sequence[Piece], markup: Escape = html.escape) -> str:
    """The HTML of parts of a tree, to stand in a paragraph."""
    return _html(parts, markup, 'span')


def _html(parts: Sequence[Piece], markup: Escape, block: str) -> str:
    out: List[str] = []
    for kind, node, link in parts:
        if kind == 'text':
            out.append(_text(node))
        elif kind == 'markup':
            out.append(markup(node['markup']))
        elif kind == 'open':
            display = node.get('display')
            out.append(f'<{block} class="csl-{html.escape(display)}">' if display else '')
            out.append(f'<a href="{html.escape(_target(link))}">' if link else '')
        else:
            out.append('</a>' if link else '')
            out.append(f'</{block}>' if node.get('display') else '')
    return ''.join(out)


def _target(link: str) -> str:
    """The address of an item: an id of this page, or an address with that."""
    return link if '#' in link else f'#{link}'


@lru_cache(maxsize=8192)
def escaped(text: str) -> str:
    """The letters of a text, of which the same ones come again and again."""
    return html.escape(single_spaced(text))


def _text(node: Node) -> str:
    text = escaped(node['text'])
    if is_unformatted(node):
        return text
    for name in reversed(formats(node)):
        opening, closing = _TAGS[name]
        text = opening + text + closing
    url = safe_url(node['url']) if 'url' in node else None
    return f'<a href="{html.escape(url)}">{text}</a>' if url and text else text
