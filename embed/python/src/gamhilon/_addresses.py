"""Addresses in the texts of a reference list: URLs and DOIs as links."""
from __future__ import annotations

import re
from typing import Iterator, List, Optional, Sequence

from ._writing import Piece, formats

_ADDRESS = re.compile(
    r'https?://[^\s<>"\u00a0\u201c\u201d\u00ab\u00bb]+'
    r'|(?<![\w./])10\.\d{4,9}/[^\s<>"\u00a0\u201c\u201d\u00ab\u00bb]+', re.IGNORECASE)
_CLOSING = {')': '(', ']': '[', '}': '{'}
_PUNCTUATION = '.,;:!?\'\u2019'


def with_links(parts: Sequence[Piece]) -> List[Piece]:
    """The parts of a tree, in which each URL and each DOI of a text is a text of its own that leads
    there. What has an address stays, and so do the links of cites."""
    found: List[Piece] = []
    merged, links = _merge_texts(parts), 0
    for place, piece in enumerate(merged):
        links += (piece.link is not None) * ((piece.kind == 'open') - (piece.kind == 'close'))
        if piece.kind != 'text' or 'url' in piece.node or links:
            found.append(piece)
        else:
            after = merged[place + 1] if place + 1 < len(merged) else None
            found += _split(piece, after)
    return found


def without_links(parts: Sequence[Piece]) -> List[Piece]:
    """The parts of a tree with no addresses."""
    return [part._replace(node={key: value for key, value in part.node.items() if key != 'url'})
            if 'url' in part.node else part for part in parts]


def _merge_texts(parts: Sequence[Piece]) -> List[Piece]:
    """The parts, in which neighbouring texts of one format are one text."""
    found: List[Piece] = []
    for piece in parts:
        last = found[-1] if found else None
        is_alike = last is not None and _is_plain(last) and _is_plain(piece)
        if last and is_alike and formats(last.node) == formats(piece.node):
            shown = last if last.node['text'].strip() else piece
            text = last.node['text'] + piece.node['text']
            found[-1] = shown._replace(node={**shown.node, 'text': text})
        else:
            found.append(piece)
    return found


def _is_plain(piece: Piece) -> bool:
    return piece.kind == 'text' and 'url' not in piece.node


def _split(piece: Piece, after: Optional[Piece]) -> Iterator[Piece]:
    """A text, in which what is an address is a text of its own. What goes on in the next text is
    none."""
    text, at = piece.node['text'], 0
    for match in _ADDRESS.finditer(text):
        address = _without_punctuation(match.group())
        end = match.start() + len(address)
        goes_on = end == len(text) and after is not None and after.kind == 'text'
        if goes_on and after is not None and after.node['text'][:1].isalnum():
            continue
        url = address if ':' in address[:6] else f'https://doi.org/{address}'
        yield piece._replace(node={**piece.node, 'text': text[at:match.start()]})
        yield piece._replace(node={**piece.node, 'text': address, 'url': url})
        at = end
    yield piece._replace(node={**piece.node, 'text': text[at:]})


def _without_punctuation(address: str) -> str:
    """An address without the punctuation of its sentence, and without brackets that close none of
    its own."""
    end = len(address)
    excess = {closing: address.count(closing) - address.count(opening)
              for closing, opening in _CLOSING.items()}
    while end and (address[end - 1] in _PUNCTUATION or excess.get(address[end - 1], 0) > 0):
        end -= 1
        if address[end] in excess:
            excess[address[end]] -= 1
    return address[:end]
