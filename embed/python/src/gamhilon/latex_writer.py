"""Trees as LaTeX, for a document that loads hyperref."""
from __future__ import annotations

import re
from typing import List, Optional, Sequence, Union

from . import _addresses
from ._writing import Escape, LineEnd, Piece, anchor, formats, pieces, safe_url, single_spaced
from .answer import Bibliography, Citation, Item, Node, Tree, tree_of

__all__ = ['bibliography_to_latex', 'to_latex']

_COMMANDS = {
    'bold': r'\textbf', 'italic': r'\textit', 'small-caps': r'\textsc', 'underline': r'\underline',
    'sup': r'\textsuperscript', 'sub': r'\textsubscript',
}
_ESCAPES = {
    '\\': r'\textbackslash{}', '{': r'\{', '}': r'\}', '$': r'\$', '&': r'\&', '#': r'\#',
    '%': r'\%', '_': r'\_', '^': r'\textasciicircum{}', '~': r'\textasciitilde{}',
    '<': r'\textless{}', '>': r'\textgreater{}', '|': r'\textbar{}', '"': '"{}',
    '`': r'\textasciigrave{}', '[': '{[}', ']': '{]}', '\u00a0': '~',
    # (letters that LaTeX has no glyphs for, unless its engine is one of Unicode)
    '\u2002': r'\enspace{}', '\u2003': r'\quad{}', '\u2009': r'\,', '\u200a': r'\,',
    '\u200b': r'\hspace{0pt}', '\u202f': r'\,', '\u2032': r'\ensuremath{\prime}',
    '\u2033': r'\ensuremath{\prime\prime}', '\u2060': '', '\u2212': r'\ensuremath{-}',
    '\ufeff': '',
}
_ADDRESS = re.compile(r'(?:https?://|10\.\d)\S+$', re.IGNORECASE)
_BREAKS = re.compile(r'([/.?=&:-]+|\\_)(?=[^/.?=&:{}-])')
_LIGATURES = re.compile(r"(?<=([-',]))(?=\1)")


def to_latex(part: Union[Citation, Node, Tree], keys: Sequence[str] = (),
             markup: Escape = lambda text: escaped(text)) -> str:
    """The LaTeX of a citation, of a tree or of a node.

    Where `keys` has the entries of the citation's request, in their order, each cite links to the
    item of its entry. Links lead to http, https, mailto and doi alone; a text with another address
    stands without one. `markup` makes LaTeX of a text in markup of its own, such as a formula, and
    shows its letters where it isn't given.
    """
    return _latex(pieces(tree_of(part), keys), markup)


def bibliography_to_latex(bibliography: Optional[Bibliography],
                          markup: Escape = lambda text: escaped(text)) -> str:
    """The LaTeX of a bibliography: a paragraph for each item, with the target to which its cites
    link; nothing where there is none. URLs and DOIs are links."""
    if bibliography is None:
        return ''
    indent = r'\hangindent=1.5em ' if bibliography.hanging_indent else ''
    paragraphs = [rf'\noindent {indent}\hypertarget{{{anchor(item.key)}}}{{}}{_item(item, markup)}'
                  for item in bibliography.items]
    return ''.join(paragraph + '\\par\n\n' for paragraph in paragraphs)


def escaped(text: str) -> str:
    """A text with nothing in it that LaTeX reads as anything but its letters."""
    text = _LIGATURES.sub('\0', single_spaced(text))
    return ''.join(_ESCAPES.get(letter, letter) for letter in text).replace('\0', '{}')


def _item(item: Item, markup: Escape) -> str:
    content = _latex(_addresses.with_links(pieces(item.content)), markup)
    if item.first_field is None:
        return content
    return rf'{_latex(_addresses.with_links(pieces(item.first_field)), markup)}\quad {content}'


def inline_latex(parts: Sequence[Piece]) -> str:
    """The LaTeX of parts of a tree."""
    return _latex(parts, escaped)


def _latex(parts: Sequence[Piece], markup: Escape) -> str:
    out: List[str] = []
    before, end = '', LineEnd()
    for piece in parts:
        display = piece.node.get('display')
        if display in ('left-margin', 'right-inline'):
            end.set_off()
        if piece.kind == 'text':
            out.append(end.space_before(single_spaced(piece.node['text'])))
            text = _text(piece.node)
            out.append('{}' if text and text[0] == before and before in "-'," else '')
            out.append(text)
            before = text[-1:] or before
        elif piece.kind == 'markup':
            out.append(markup(piece.node['markup']))
        elif piece.kind == 'open':
            out.append(r'\par ' if display in ('block', 'indent') else '')
            out.append(rf'\hyperlink{{{piece.link}}}{{' if piece.link else '')
        else:
            out.append('}' if piece.link else '')
            out.append(r'\par ' if display in ('block', 'indent') else '')
    return ''.join(out)


def _text(node: Node) -> str:
    text = escaped(node['text'])
    for name in reversed(formats(node)):
        text = f'{_COMMANDS[name]}{{{text}}}'
    url = safe_url(node['url']) if 'url' in node else None
    if url and _ADDRESS.match(node['text']):
        text = _BREAKS.sub(r'\1\\allowbreak{}', text)
    return rf'\href{{{_address(url)}}}{{{text}}}' if url else text


def _address(url: str) -> str:
    return re.sub(r'[%#&]', r'\\\g<0>', url.replace('~', '%7E'))
