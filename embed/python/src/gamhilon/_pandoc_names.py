"""The author that stands in the text, as in `@doe says`: what a cite has more than the same cite
without its author."""
from __future__ import annotations

import os
from typing import List, Sequence

from ._pandoc_marks import text_of_pieces
from ._writing import Piece

_DELIMITERS = ' ,;:\u00a0'


def names_in(cite: Sequence[Piece], rest: Sequence[Piece]) -> List[Piece]:
    """The names of a cite, of which `rest` is written without its author; none where the style
    writes none."""
    whole, without = text_of_pieces(list(cite)), text_of_pieces(list(rest))
    if whole == without:
        return []
    end = len(whole) - len(os.path.commonprefix([whole[::-1], without[::-1]]))
    behind = len(whole) - end
    start = len(os.path.commonprefix([whole[:end], without[:len(without) - behind]]))
    names = whole[start:end]
    start += len(names) - len(names.lstrip(_DELIMITERS))
    end -= len(names) - len(names.rstrip(_DELIMITERS))
    return _cut(cite, start, end)


def _cut(cite: Sequence[Piece], start: int, end: int) -> List[Piece]:
    """The letters of a cite between two places."""
    found: List[Piece] = []
    at = 0
    for piece in cite:
        if piece.kind not in ('text', 'markup'):
            continue
        key = piece.kind
        text = piece.node[key]
        own = text[max(start - at, 0):max(end - at, 0)]
        if own:
            found.append(piece._replace(node={**piece.node, key: own}))
        at += len(text)
    return found
