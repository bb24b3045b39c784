"""Citations in a style of notes: each becomes a footnote of its page."""
from __future__ import annotations

import re
from typing import Dict, List, Optional, cast

from docutils import nodes
from sphinx.locale import _
from sphinx.transforms import SphinxTransform

from ._domain import CiteDomain
from ._foot import take_notes
from ._forms import AUTHORS_OF_TEXTS, FORMS
from ._nodes import citation_group

__all__ = ['NotesTransform']

_OWN = ('gamhilon-note-', 'footcite-')
"""How the names of footnotes of citations begin."""

_PUNCTUATION = re.compile(r'[.,;:!?]+["\u201d\u2019]?')


class NotesTransform(SphinxTransform):
    """Puts each citation of a page into a footnote, unless it stands in one; the author of one that
    is a part of its sentence stays there. The notes stand at the end of the page, below its own,
    and all are numbered in the order of the text."""

    default_priority = 610
    """Before docutils numbers footnotes (620)."""

    def apply(self, **kwargs: object) -> None:
        domain = cast(CiteDomain, self.env.get_domain(CiteDomain.name))
        made = take_notes(self.env)
        if domain.style().is_note:
            made += [self._note(node) for node in list(self.document.findall(citation_group))
                     if _goes_into_note(node)]
        if made:
            self._append(made)
        if any(name.startswith(_OWN) for note in self.document.autofootnotes
               for name in note['names']):
            self.document.autofootnotes.sort(key=self._order().__getitem__)

    def _note(self, node: citation_group) -> nodes.footnote:
        """The footnote of a citation, in whose place stands the mark."""
        name = f'gamhilon-note-{len(self.document.autofootnotes) + 1}'
        mark = nodes.footnote_reference('', '', auto=1, refname=name)
        self.document.note_autofootnote_ref(mark)
        self.document.note_footnote_ref(mark)
        if FORMS[node['form']].kind == 'text':
            kept = node.deepcopy()
            kept['form'] = AUTHORS_OF_TEXTS[node['form']]
            kept.line = node.line
            node.parent.insert(node.parent.index(node), kept)
            node['form'] = 'p'
        node['begins_note'] = True
        _put_behind_punctuation(node, mark)
        note = nodes.footnote('', nodes.paragraph('', '', node), auto=1, names=[name])
        self.document.note_autofootnote(note)
        self.document.note_explicit_target(note, note)
        return note

    def _append(self, notes: List[nodes.footnote]) -> None:
        """Puts the notes below the heading of footnotes, where the page has one, or below a new
        one at its end."""
        title = _('Footnotes')
        for rubric in self.document.findall(nodes.rubric):
            if rubric.astext() in ('Footnotes', title):
                rubric.parent += notes
                return
        last = self.document.children[-1] if self.document.children else None
        place = last if isinstance(last, nodes.section) else self.document
        place += [nodes.rubric('', title), *notes]

    def _order(self) -> Dict[nodes.footnote, int]:
        """The places of automatic footnotes in the order of their marks."""
        marks = [mark for mark in self.document.findall(nodes.footnote_reference)
                 if mark.get('auto')]
        by_name: Dict[str, int] = {}
        without_name: List[int] = []
        for place, mark in enumerate(marks):
            if 'refname' in mark:
                by_name.setdefault(mark['refname'], place)
            else:
                without_name.append(place)
        order: Dict[nodes.footnote, int] = {}
        left = iter(without_name)
        for note in self.document.autofootnotes:
            places = [by_name[name] for name in note['names'] if name in by_name]
            order[note] = places[0] if places else len(marks)
            if not note['names']:
                order[note] = next(left, len(marks))
        return order


def _goes_into_note(node: citation_group) -> bool:
    if FORMS[node['form']].kind not in ('whole', 'bare', 'text'):
        return False
    parent: Optional[nodes.Node] = node.parent
    while parent is not None:
        if isinstance(parent, (nodes.footnote, nodes.title)):
            return False
        parent = parent.parent
    return True


def _put_behind_punctuation(node: citation_group, mark: nodes.footnote_reference) -> None:
    """Puts a mark in the place of a citation: behind the punctuation that follows it, and without a
    space before it."""
    # (texts are equal where their letters are, so that only places name them)
    parent = node.parent
    at = parent.index(node)
    after = parent[at + 1] if at + 1 < len(parent) else None
    match = _PUNCTUATION.match(str(after)) if isinstance(after, nodes.Text) else None
    if match:
        rest = str(after)[match.end():]
        parent[at + 1] = nodes.Text(rest)
        parent[at:at + 1] = [nodes.Text(match.group()), mark]
    else:
        parent[at] = mark
    if at and isinstance(parent[at - 1], nodes.Text):
        parent[at - 1] = nodes.Text(str(parent[at - 1]).rstrip())
