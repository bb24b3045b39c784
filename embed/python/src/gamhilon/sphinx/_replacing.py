"""What citations and reference lists become on a page."""
from __future__ import annotations

from typing import Dict, List, Optional, cast

from docutils import nodes
from sphinx.errors import NoUri
from sphinx.transforms.post_transforms import SphinxPostTransform

from .. import _addresses
from .._writing import anchor, pieces
from ..answer import Item
from ..html_writer import layout_classes
from ._domain import CiteDomain
from ._nodes import Link, citation_group, nodes_of, reference_list
from ._parts import without_stop
from ._rendering import Listing, Target

__all__ = ['ReplacingTransform']


class ReplacingTransform(SphinxPostTransform):
    """Puts what is written of them in the place of citations and of lists."""

    default_priority = 5
    """Before Sphinx resolves references (10)."""

    def run(self, **kwargs: object) -> None:
        self.domain = cast(CiteDomain, self.env.get_domain(CiteDomain.name))
        self.format = self.app.builder.format
        for node in list(self.document.findall(citation_group)):
            self._replace_citation(node)
        for listed in list(self.document.findall(reference_list)):
            self._replace_list(listed)

    def _replace_citation(self, node: citation_group) -> None:
        found = self.domain.answers.citations.get((node['docname'], node.get('number', -1)))
        if found is None:
            node.replace_self(nodes.literal(node.rawsource, node.astext()))
            return
        parts, targets = found
        if self.domain.style().is_note and _goes_on(node):
            parts = without_stop(parts)
        made = nodes.inline(classes=['citation'])
        for part in parts:
            link = self._link_of({anchor(key): targets[key] for key in part.keys
                                  if key in targets}, node['docname'])
            made += nodes_of(pieces(part.tree, part.keys), link, self.format == 'latex')
        node.replace_self(made)

    def _link_of(self, targets: Dict[str, Target], docname: str) -> Link:
        def link(name: str) -> Optional[nodes.reference]:
            target = targets.get(name)
            if target is None:
                return None
            made = nodes.reference('', '', internal=True)
            if target.text:
                made['reftitle'] = target.text
            if target.docname == docname:
                made['refid'] = target.id
                return made
            try:
                uri = self.app.builder.get_relative_uri(docname, target.docname)
            except NoUri:
                return None
            made['refuri'] = f'{uri}#{target.id}'
            return made
        return link

    # Lists

    def _replace_list(self, node: reference_list) -> None:
        listing = self.domain.answers.lists.get((node['docname'], node['number']))
        if listing is None or not listing.bibliography.items:
            node.parent.remove(node)
            return
        header = list(node.children)
        node.replace_self([*header, *self._list(listing)])

    def _list(self, listing: Listing) -> List[nodes.Node]:
        listed, items = listing.listed, listing.bibliography.items
        template: str = self.config.bibtex_bibliography_id
        ids = [nodes.make_id(template.format(bibliography_count=listed.number + 1))]
        if listed.list_type == 'citation':
            classes = ['references', 'csl-bib-body', *layout_classes(listing.bibliography)]
            entries = [self._entry(item, listing) for item in items]
            return [nodes.container('', *entries, classes=classes, ids=ids if template else [])]
        made: nodes.Element = nodes.bullet_list()
        if listed.list_type == 'enumerated':
            made = nodes.enumerated_list('', enumtype=listed.enumtype, prefix='', suffix='.',
                                         start=self._start(listing))
        for item in items:
            content = self._inlines(item, with_first_field=False)
            paragraph = nodes.paragraph('', '', *self._target(item, listing), *content)
            entry = nodes.list_item('', paragraph)
            if self.format == 'html':
                entry['ids'] = [listing.ids[item.key]]
            made += entry
        return [nodes.container('', made, ids=ids)] if template else [made]

    def _start(self, listing: Listing) -> int:
        """The first number of a list: behind those of the lists before it, where it goes on."""
        start, at = listing.listed.start, 1
        if start:
            return start
        for number in range(listing.listed.number):
            before = self.domain.answers.lists.get((listing.listed.docname, number))
            if before is not None and before.listed.list_type == 'enumerated':
                at = (before.listed.start or at) + len(before.bibliography.items)
        return at

    def _entry(self, item: Item, listing: Listing) -> nodes.Element:
        """An item, which in HTML has what the style sheet lays out."""
        if self.format != 'html':
            indent = []
            if self.format == 'latex':
                hangs = listing.bibliography.hanging_indent
                indent = [nodes.raw('', r'\noindent ' + (r'\hangindent=1.5em ' if hangs else ''),
                                    format='latex')]
            return nodes.paragraph('', '', *indent, *self._target(item, listing),
                                   *self._inlines(item, with_first_field=True))
        entry = nodes.container(classes=['csl-entry'], ids=[listing.ids[item.key]])
        content = nodes.paragraph('', '', *self._inlines(item, with_first_field=False))
        if item.first_field is None:
            entry += content
            return entry
        first = nodes.paragraph('', '', *self._first_field(item))
        entry += nodes.container('', first, classes=['csl-left-margin'])
        if content.astext().strip():
            entry += nodes.container('', content, classes=['csl-right-inline'])
        return entry

    def _target(self, item: Item, listing: Listing) -> List[nodes.Node]:
        """What cites lead to, where it isn't the item itself."""
        if self.format == 'html':
            return []
        return [nodes.target('', '', ids=[listing.ids[item.key]])]

    def _inlines(self, item: Item, with_first_field: bool) -> List[nodes.Node]:
        content = self._nodes_of_tree(item.content)
        if item.first_field is None or not with_first_field:
            return content
        first = self._first_field(item)
        ends = ''.join(node.astext() for node in first).endswith(' ')
        return [*first, *([] if ends else [nodes.Text(' ')]), *content]

    def _first_field(self, item: Item) -> List[nodes.Node]:
        return self._nodes_of_tree(item.first_field)

    def _nodes_of_tree(self, tree: object) -> List[nodes.Node]:
        parts = _addresses.with_links(pieces(tree))  # type: ignore[arg-type]
        return nodes_of(parts, lambda name: None, self.format == 'latex')


def _goes_on(node: nodes.Element) -> bool:
    """Whether something stands behind a citation, in its note."""
    at = node.parent.index(node)
    return any(part.astext().strip() for part in node.parent[at + 1:])
