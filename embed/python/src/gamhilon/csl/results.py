"""What comes of rendering in a style: texts that know how they are written in HTML and Markdown."""
from __future__ import annotations

import re
from dataclasses import dataclass, field
from typing import Dict, List, Optional, Sequence, Tuple, Union

from .._writing import Piece, pieces, single_spaced
from ..answer import Answer, Bibliography, Citation, Item, Node, Tree, plain
from ..html_writer import bibliography_to_html, inline_html
from ..latex_writer import bibliography_to_latex, inline_latex
from ..markdown_writer import begun, bibliography_to_markdown, inline_markdown
from .cites import Cite
from .warned import Warned

__all__ = ['Rendered', 'RenderedBibliography', 'RenderedCitation']

_MARKUP = re.compile(r'<[^<>]*>')


class RenderedCitation(str):
    """A citation: a text, which `to_html`, `to_markdown` and `to_latex` write with its formatting.
    `content` is its tree, `note_number` the number of its note, if it stands in one, and `cites`
    are those that it was asked for."""

    content: Tree
    note_number: Optional[int]
    cites: Tuple[Cite, ...]

    def __new__(cls, citation: Citation, cites: Sequence[Cite]) -> RenderedCitation:
        made = super().__new__(cls, _line(citation.content))
        made.content, made.note_number = citation.content, citation.note_number
        made.cites = tuple(cites)
        return made

    def __reduce__(self) -> Tuple[type, Tuple[Citation, Tuple[Cite, ...]]]:
        return type(self), (Citation(self.content, self.note_number), self.cites)

    def to_html(self, *, links: bool = False) -> str:
        """Its HTML. With `links` each cite leads to its item of the bibliography, without the
        words of its prefix and its suffix."""
        return inline_html(self._pieces(links))

    def to_markdown(self, *, links: bool = False) -> str:
        """Its Markdown, with links as `to_html` has them."""
        return begun(inline_markdown(self._pieces(links)))

    def to_latex(self, *, links: bool = False) -> str:
        """Its LaTeX, with links as `to_html` has them."""
        return inline_latex(self._pieces(links))

    def _repr_html_(self) -> str:
        return self.to_html()

    def _pieces(self, links: bool) -> List[Piece]:
        keys = [cite.id for cite in self.cites] if links else []
        return _without_affixes(pieces(self.content, keys), self.cites)


class RenderedBibliography(Dict[str, str]):
    """A bibliography: the text of each item, by the id of its entry, in their order. It is empty
    where the style has none. `tree` has the trees of the items and how they are laid out."""

    def __init__(self, tree: Optional[Bibliography]) -> None:
        super().__init__({item.key: item_text(item) for item in tree.items} if tree else {})
        self.tree = tree

    def __reduce__(self) -> Tuple[type, Tuple[Optional[Bibliography]]]:
        return type(self), (self.tree,)

    def __str__(self) -> str:
        items = self.tree.items if self.tree else []
        firsts = [_line(item.first_field).rstrip() + ' ' if item.first_field else ''
                  for item in items]
        return '\n'.join(first + _line(item.content) for first, item in zip(firsts, items))

    def to_html(self) -> str:
        """Its HTML, as `bibliography_to_html` gives it, with the ids to which cites lead."""
        return bibliography_to_html(self.tree)

    def to_markdown(self) -> str:
        """Its Markdown, as `bibliography_to_markdown` gives it."""
        return bibliography_to_markdown(self.tree)

    def to_latex(self) -> str:
        """Its LaTeX, as `bibliography_to_latex` gives it."""
        return bibliography_to_latex(self.tree)

    def _repr_html_(self) -> str:
        return self.to_html()


@dataclass(frozen=True)
class Rendered:
    """Citations and the bibliography in a style: as texts (`citations`, `bibliography`), as trees
    (`answer`), and as pages (`to_html`, `to_markdown`, `to_latex`). `warnings` has what was odd in
    the style, the references and the citations, each with its place."""

    answer: Answer
    warnings: List[Warned]
    cites: Sequence[Sequence[Cite]] = field(default=(), repr=False)

    @property
    def citations(self) -> List[RenderedCitation]:
        """Each citation that was handed in, in that order."""
        cites = [*self.cites, *[()] * len(self.answer.citations)]
        return [RenderedCitation(citation, own)
                for citation, own in zip(self.answer.citations, cites)]

    @property
    def bibliography(self) -> RenderedBibliography:
        """The bibliography; empty where the style has none."""
        return RenderedBibliography(self.answer.bibliography)

    def to_html(self, *, links: bool = False) -> str:
        """The HTML of all: a paragraph for each citation, and the bibliography."""
        citations = [f'<p class="citation">{citation.to_html(links=links)}</p>\n'
                     for citation in self.citations]
        return ''.join([*citations, self.bibliography.to_html()])

    def to_markdown(self, *, links: bool = False) -> str:
        """The Markdown of all: a paragraph for each citation, and the bibliography."""
        citations = [f'{citation.to_markdown(links=links)}\n\n' for citation in self.citations]
        return ''.join([*citations, self.bibliography.to_markdown()])

    def to_latex(self, *, links: bool = False) -> str:
        """The LaTeX of all: a paragraph for each citation, and the bibliography."""
        citations = [f'{citation.to_latex(links=links)}\n\n' for citation in self.citations]
        return ''.join([*citations, self.bibliography.to_latex()])

    def __str__(self) -> str:
        parts = ['\n'.join(self.citations), str(self.bibliography)]
        return '\n\n'.join(part for part in parts if part)

    def _repr_html_(self) -> str:
        return self.to_html()


def item_text(item: Item) -> str:
    """The text of an item, its first field in front."""
    first = _line(item.first_field) if item.first_field else ''
    return first + _line(item.content)


def _line(tree: Union[Node, Tree]) -> str:
    """The text of a tree or of a node, on a line."""
    return single_spaced(plain(tree))


# Links without affixes

def _without_affixes(parts: Sequence[Piece], cites: Sequence[Cite]) -> List[Piece]:
    """The parts of a citation, whose links are around what the style writes of a cite, and not
    around its prefix and its suffix."""
    found: List[Piece] = []
    at = 0
    while at < len(parts):
        end = _closing(parts, at) if parts[at].link else None
        if end is None:
            found.append(parts[at])
            at += 1
            continue
        place = parts[at].node['meta']['entry']
        found += _narrowed(parts[at:end + 1], cites[place])
        at = end + 1
    return found


def _closing(parts: Sequence[Piece], at: int) -> Optional[int]:
    """Where the element that opens at a place closes."""
    depth = 0
    for place in range(at, len(parts)):
        depth += {'open': 1, 'close': -1}.get(parts[place].kind, 0)
        if depth == 0:
            return place
    return None


def _narrowed(parts: Sequence[Piece], cite: Cite) -> List[Piece]:
    """A cite whose link doesn't have its affixes in it."""
    inner = parts[1:-1]
    if any('display' in part.node for part in inner):
        return list(parts)
    text = ''.join(_letters(part) for part in inner)
    start = _length_of_prefix(text, _plain(cite.prefix))
    end = len(text) - _length_of_suffix(text[start:], _plain(cite.suffix))
    if start >= end:
        return list(parts)
    before, linked, after = (_cut(inner, *span) for span in
                             ((0, start), (start, end), (end, len(text))))
    return [*before, parts[0], *linked, parts[-1], *after]


def _length_of_prefix(text: str, prefix: str) -> int:
    """How many letters at the beginning of a cite are its prefix, with the space behind it."""
    if not prefix.strip() or text[:len(prefix)].casefold() != prefix.casefold():
        return 0
    rest = text[len(prefix):]
    return len(text) - len(rest.lstrip(' '))


def _length_of_suffix(text: str, suffix: str) -> int:
    """How many letters at the end of a cite are its suffix, with the space before it. Punctuation
    with which it begins may have moved into quotation marks."""
    for words in (suffix, suffix[1:]):
        if words.strip() and text.endswith(words):
            return len(text) - len(text[:len(text) - len(words)].rstrip(' '))
    return 0


def _plain(affix: str) -> str:
    """The letters of an affix."""
    return _MARKUP.sub('', affix)


def _letters(piece: Piece) -> str:
    return str(piece.node.get(piece.kind, '')) if piece.kind in ('text', 'markup') else ''


def _cut(parts: Sequence[Piece], start: int, end: int) -> List[Piece]:
    """The texts of parts between two letters."""
    found: List[Piece] = []
    at = 0
    for part in parts:
        text = _letters(part)
        own = text[max(start - at, 0):max(end - at, 0)]
        if own:
            found.append(part._replace(node={**part.node, part.kind: own}))
        at += len(text)
    return found
