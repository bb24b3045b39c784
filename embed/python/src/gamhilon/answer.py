"""The answer to a document, as values."""
from __future__ import annotations

from dataclasses import dataclass, field, fields
from functools import cached_property
from typing import Any, Dict, List, Optional, Sequence, Union

from . import _deep_json
from .texts import TextWarning

__all__ = ['Answer', 'Bibliography', 'Citation', 'Item', 'Node', 'Tree', 'plain']

Node = Dict[str, Any]
"""A node of a tree: one of the objects that docs/ANSWER.md tells of."""

Tree = List[Node]
"""A tree: its nodes, in their order."""


@dataclass(frozen=True)
class Citation:
    """A citation: its tree, and the number of its note, if it stands in one."""

    content: Tree
    note_number: Optional[int] = None

    @cached_property
    def shows_nothing(self) -> bool:
        """Whether it has no text but white space."""
        return shows_nothing(self.content)


@dataclass(frozen=True)
class Item:
    """An item of the bibliography: the key of its entry, its tree, and the field that stands apart
    before it, if one does."""

    key: str
    content: Tree
    first_field: Optional[Node] = None

    @cached_property
    def shows_nothing(self) -> bool:
        """Whether it has no text but white space."""
        return shows_nothing(self.content) and (
            self.first_field is None or shows_nothing([self.first_field]))


@dataclass(frozen=True)
class Bibliography:
    """The bibliography's items and settings."""

    items: List[Item]
    hanging_indent: bool
    line_spacing: int
    entry_spacing: int
    second_field_align: Optional[str] = None


@dataclass(frozen=True)
class Answer:
    """A citation for each request, in the order of the requests, and the bibliography, if the style
    has one. Of `gamhilon.cite` also what it reads otherwise than it stands in its texts."""

    citations: List[Citation]
    bibliography: Optional[Bibliography] = None
    warnings: List[TextWarning] = field(default_factory=list)


def answer_of(text: str, warnings: Sequence[TextWarning] = ()) -> Answer:
    """The answer of which this is the JSON (docs/ANSWER.md)."""
    return answer_of_value(_deep_json.loads(text), warnings)


def answer_of_value(said: Dict[str, Any], warnings: Sequence[TextWarning] = ()) -> Answer:
    """The answer that a value says, as JSON reads it."""
    citations = [Citation(**citation) for citation in said['citations']]
    if 'bibliography' not in said:
        return Answer(citations, None, list(warnings))
    settings: Dict[str, Any] = dict(said['bibliography'])
    settings['items'] = [Item(**item) for item in settings['items']]
    return Answer(citations, Bibliography(**settings), list(warnings))


def data_of(answer: Answer) -> Dict[str, Any]:
    """The value of which `answer_of_value` makes this answer."""
    said: Dict[str, Any] = {'citations': [_told(citation) for citation in answer.citations]}
    if answer.bibliography is not None:
        said['bibliography'] = _told(answer.bibliography)
        said['bibliography']['items'] = [_told(item) for item in answer.bibliography.items]
    return said


def _told(part: Union[Bibliography, Citation, Item]) -> Dict[str, Any]:
    told = {one.name: getattr(part, one.name) for one in fields(part)}
    return {key: value for key, value in told.items() if value is not None}


def tree_of(part: Union[Citation, Node, Tree]) -> Tree:
    """The tree of a citation, or the tree or node itself, as a tree."""
    if isinstance(part, Citation):
        return part.content
    return part if isinstance(part, list) else [part]


def shows_nothing(tree: Tree) -> bool:
    """Whether a tree has no text but white space."""
    left: List[Any] = [tree]
    while left:
        node = left.pop()
        if isinstance(node, list):
            left.extend(node)
        elif 'children' in node:
            left.append(node['children'])
        elif node.get('text', node.get('markup', '')).strip():
            return False
    return True


def plain(part: Union[Citation, Node, Tree]) -> str:
    """The text of a citation, of a tree or of a node, without its formatting.

        >>> plain([{'text': 'Doe '}, {'children': [{'text': '1999', 'font_weight': 'bold'}]}])
        'Doe 1999'
    """
    written: List[str] = []
    left: List[Any] = [tree_of(part)]
    while left:
        node = left.pop()
        if isinstance(node, list):
            left.extend(reversed(node))
        elif 'children' in node:
            left.append(node['children'])
        else:
            written.append(node.get('text', node.get('markup', '')))
    return ''.join(written)
