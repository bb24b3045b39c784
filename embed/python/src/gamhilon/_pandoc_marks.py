"""Marks in the affixes of cites: a style writes a cite between them, and the filter puts the words
of the page, which may be whatever pandoc has, in their place.

A mark is a character of Unicode's private use that stands for the place of its cite, so that it is
no letter, and no style changes it.
"""
from __future__ import annotations

import re
from typing import Any, Callable, List, NamedTuple, Optional, Sequence, Set, Tuple

from ._writing import Piece, is_unformatted, pieces
from .answer import Node, Tree

_FIRST = 0xF0000
_MARK = re.compile('([\U000F0000-\U000FFFFD])')


class Part(NamedTuple):
    """A part of a citation: a cite by its place, without the words around it, or what stands
    between cites."""

    place: Optional[int]
    pieces: List[Piece]


def opening(place: int) -> str:
    """What stands before a cite."""
    return chr(_FIRST + 2 * place)


def closing(place: int) -> str:
    """What stands behind a cite. Where there is none, it ends as the tree tells."""
    return chr(_FIRST + 2 * place + 1)


def without_marks(value: Any) -> Any:
    """A value of JSON whose texts have no marks."""
    if isinstance(value, str):
        return _MARK.sub('', value)
    if isinstance(value, list):
        return [without_marks(member) for member in value]
    if isinstance(value, dict):
        return {key: without_marks(member) for key, member in value.items()}
    return value


def parts_of(tree: Tree) -> List[Part]:
    """The parts of a citation, of which this is the tree: what is of a cite by its mark or by the
    tree, and what is of none."""
    usual = _usual_parts(tree)
    if usual is not None:
        return usual
    found: List[Part] = []
    outer: List[Optional[int]] = []
    inner: Optional[int] = None
    marked: Optional[int] = None
    for piece in pieces(tree):
        kind, node, _ = piece
        if kind == 'text':
            marked = _add_text(found, inner, marked, piece)
            continue
        entry = _entry_of(node) if kind != 'markup' else None
        if kind == 'open':
            outer.append(inner)
            inner = inner if entry is None else entry
        elif kind == 'close':
            inner = outer.pop()
            marked = None if entry == marked else marked
        if entry is None:
            _add(found, inner if marked is None else marked, piece)
    return found


def _usual_parts(tree: Tree) -> Optional[List[Part]]:
    """The parts of a citation whose cites are elements of texts alone, and whose other nodes are
    texts; None of another."""
    found: List[Part] = []
    marked: Optional[int] = None
    for node in tree:
        entry = _entry_of(node) if 'children' in node else None
        texts = [node] if entry is None else node['children']
        for text in texts:
            if 'text' not in text or 'children' in text:
                return None
            marked = _add_text(found, entry, marked, Piece('text', text))
        marked = None if marked == entry else marked
    return found


def _add_text(found: List[Part], inner: Optional[int], marked: Optional[int],
              piece: Piece) -> Optional[int]:
    """Adds a text. Gives the cite whose mark is open behind it."""
    text = piece.node['text']
    if not text.isascii():
        return _split(found, inner, marked, piece)
    if text:
        _add(found, inner if marked is None else marked, piece)
    return marked


def _split(found: List[Part], inner: Optional[int], marked: Optional[int],
           piece: Piece) -> Optional[int]:
    """Adds a text, which may have marks. Gives the cite whose mark is open behind it."""
    for place, run in enumerate(_MARK.split(piece.node['text'])):
        if place % 2 == 0:
            if run:
                _add(found, inner if marked is None else marked,
                     piece._replace(node={**piece.node, 'text': run}))
            continue
        number, is_closing = divmod(ord(run) - _FIRST, 2)
        marked = None if is_closing else number
        if not is_closing:
            found.append(Part(number, []))
    return marked


def _add(found: List[Part], place: Optional[int], piece: Piece) -> None:
    if not found or found[-1].place != place:
        found.append(Part(place, []))
    found[-1].pieces.append(piece)


def unformatted_part(node: Node) -> Tuple[Optional[int], Optional[str]]:
    """A node of a citation: the place of its cite, if it is of one, and its letters with their
    marks; None in place of these where something in it is formatted or set off."""
    if 'children' not in node:
        return None, node.get('text') if is_unformatted(node) else None
    place = _entry_of(node)
    if place is None or 'display' in node:
        return place, None
    found: List[str] = []
    left = node['children'][::-1]
    while left:
        part = left.pop()
        if 'children' in part and 'display' not in part and _entry_of(part) is None:
            left += part['children'][::-1]
        elif 'text' in part and is_unformatted(part):
            found.append(part['text'])
        else:
            return place, None
    return place, ''.join(found)


def _entry_of(node: Node) -> Optional[int]:
    meta = node.get('meta')
    place = meta.get('entry') if isinstance(meta, dict) else None
    return place if isinstance(place, int) else None


def text_of_pieces(parts: List[Piece]) -> str:
    """The text of parts of a tree."""
    return ''.join([node[kind] for kind, node, _ in parts if kind in ('text', 'markup')])


def first_cite(parts: Sequence[Part]) -> List[Piece]:
    """What is written of the first cite of a citation."""
    return [piece for part in parts if part.place == 0 for piece in part.pieces]


def shown_in(parts: Sequence[Part]) -> Set[int]:
    """The places of the cites of which something is written."""
    return {place for place, content in parts
            if place is not None and text_of_pieces(content).strip()}


def without_empty(parts: List[Part], shown: Set[int],
                  has_words: Callable[[int], bool]) -> List[Part]:
    """The parts without cites that aren't shown and have no words of the page around them, by their
    places; nothing where no others are left."""
    if all(place is None or place in shown for place, _ in parts):
        return parts
    cites = [at for at, part in enumerate(parts) if part.place is not None]
    kept = [at for at in cites if parts[at].place in shown or has_words(parts[at].place or 0)]
    if len(kept) == len(cites):
        return parts
    if not kept:
        return []
    found = parts[:cites[0]]
    for at in kept:
        before = max((cite for cite in cites if cite < at), default=at)
        found += [*(parts[before + 1:at] if at != kept[0] else []), parts[at]]
    return [*found, *parts[cites[-1] + 1:]]
