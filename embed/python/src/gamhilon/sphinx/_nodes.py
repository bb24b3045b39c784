"""The nodes of the extension, and trees as nodes of docutils."""
from __future__ import annotations

from typing import Callable, Dict, List, Optional, Sequence

from docutils import nodes

from .._writing import Piece, formats, safe_url, single_spaced

__all__ = ['Link', 'citation_group', 'nodes_of', 'reference_list']

Link = Callable[[str], Optional[nodes.reference]]
"""Makes the reference to the item that has an id, where there is one."""

_LATEX = {'small-caps': r'\textsc{', 'underline': r'\underline{'}
_NODES: Dict[str, Callable[[], nodes.Element]] = {
    'bold': nodes.strong, 'italic': nodes.emphasis, 'sup': nodes.superscript,
    'sub': nodes.subscript,
    'small-caps': lambda: nodes.inline(classes=['csl-small-caps']),
    'underline': lambda: nodes.inline(classes=['csl-underline']),
}


class citation_group(nodes.inline):
    """What a role cites, until it is known how that is written. It has the name of its page as
    `docname`, its place there as `number`, its role as `form`, and `cites`."""


class reference_list(nodes.General, nodes.Element):
    """A reference list, until it is known what it has: the name of its page as `docname`, and its
    place there as `number`."""


def nodes_of(parts: Sequence[Piece], link: Link, is_latex: bool) -> List[nodes.Node]:
    """The nodes of the parts of a tree, to stand in a paragraph."""
    found = nodes.inline()
    open_nodes: List[nodes.Element] = [found]
    for piece in parts:
        if piece.kind == 'open':
            open_nodes.append(_opened(piece, link, open_nodes[-1], is_latex))
        elif piece.kind == 'close':
            open_nodes.pop()
        elif piece.kind == 'text':
            open_nodes[-1] += _text(piece, is_latex)
        else:
            open_nodes[-1] += nodes.Text(piece.node['markup'])
    return list(found.children)


def _opened(piece: Piece, link: Link, parent: nodes.Element, is_latex: bool) -> nodes.Element:
    """The node that what stands in an element is put into: a new one below its parent where the
    element is a link, or is set off, and else the parent."""
    display = piece.node.get('display')
    if display:
        if is_latex and display in ('block', 'indent'):
            parent += nodes.raw('', r'\par ', format='latex')
        elif parent.astext().strip() and not parent.astext().endswith(' '):
            parent += nodes.Text(' ')
        made: nodes.Element = nodes.inline(classes=[f'csl-{display}'])
        parent += made
        return made
    reference = link(piece.link) if piece.link else None
    if reference is None:
        return parent
    parent += reference
    return reference


def _text(piece: Piece, is_latex: bool) -> List[nodes.Node]:
    made: List[nodes.Node] = [nodes.Text(single_spaced(piece.node['text']))]
    for name in reversed(formats(piece.node)):
        if is_latex and name in _LATEX:
            made = [nodes.raw('', _LATEX[name], format='latex'), *made,
                    nodes.raw('', '}', format='latex')]
        else:
            outer = _NODES[name]()
            outer += made
            made = [outer]
    url = safe_url(piece.node['url']) if 'url' in piece.node else None
    return [nodes.reference('', '', *made, refuri=url, internal=False)] if url else made
