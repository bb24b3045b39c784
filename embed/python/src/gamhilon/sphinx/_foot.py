"""Citations that are footnotes in any style: each has the item of its work."""
from __future__ import annotations

from typing import Any, Dict, List, Tuple, cast

from docutils import nodes
from sphinx.domains import Domain
from sphinx.util.docutils import SphinxDirective, SphinxRole

from ..csl import Cite
from ._directive import header
from ._domain import CiteDomain
from ._forms import AUTHORS_OF_TEXTS
from ._log import warn
from ._nodes import citation_group
from ._roles import cites_of

__all__ = ['FootBibliographyDirective', 'FootCiteDomain', 'FootCiteRole', 'take_notes']

_NAMES, _NOTES = 'gamhilon_foot_names', 'gamhilon_foot_notes'


class FootCiteRole(SphinxRole):
    """A role that refers to footnotes, one for each work of a page; the author stands before them
    where the role shows one."""

    def run(self) -> Tuple[List[nodes.Node], List[nodes.system_message]]:
        domain = cast(CiteDomain, self.env.get_domain(CiteDomain.name))
        place = (self.env.docname, self.get_source_info()[1])
        try:
            cites = cites_of(self.text)
        except ValueError as error:
            warn(str(error), place, 'cite')
            return [nodes.literal(self.rawtext, self.text)], []
        form = AUTHORS_OF_TEXTS.get(self.name.rpartition(':')[2])
        found: List[nodes.Node] = []
        for cite in cites:
            if not domain.has(cite.id):
                warn(f'there is no entry {cite.id!r}{domain.meant(cite.id)}', place, 'key')
                found.append(nodes.literal(self.rawtext, cite.id))
                continue
            if form is not None:
                found += [*([nodes.Text(', ')] if found else []), self._group(cite.id, form)]
            found.append(self._mark(cite.id))
        return found, []

    def _group(self, key: str, form: str) -> citation_group:
        node = citation_group(self.rawtext, key, docname=self.env.docname, form=form,
                              cites=[Cite(key)], is_foot=True)
        self.set_source_info(node)
        return node

    def _mark(self, key: str) -> nodes.footnote_reference:
        """The mark of the footnote of a work, which is a new one where the page has none."""
        document = self.inliner.document
        names: Dict[str, str] = self.env.temp_data.setdefault(_NAMES, {})
        if key not in names:
            names[key] = f'footcite-{len(names) + 1}'
            note = nodes.footnote('', nodes.paragraph('', '', self._group(key, 'item')), auto=1,
                                  names=[names[key]])
            document.note_autofootnote(note)
            document.note_explicit_target(note, note)
            self.env.temp_data.setdefault(_NOTES, []).append(note)
        mark = nodes.footnote_reference('', '', auto=1, refname=names[key])
        document.note_autofootnote_ref(mark)
        document.note_footnote_ref(mark)
        return mark


class FootCiteDomain(Domain):
    """The roles of footnotes, by the names that those of citations have."""

    name = 'footcite'
    label = 'Citations in footnotes'
    roles = {name: FootCiteRole() for name in ('p', 'ps', *AUTHORS_OF_TEXTS)}

    def merge_domaindata(self, docnames: List[str], otherdata: Dict[str, Any]) -> None:
        """There is nothing to merge: pages have it all."""


class FootBibliographyDirective(SphinxDirective):
    """Where the footnotes of works stand that the page has cited before it."""

    def run(self) -> List[nodes.Node]:
        notes = take_notes(self.env)
        text = self.config.bibtex_footbibliography_header
        return [*(header(text, self.state.document) if text and notes else []), *notes]


def take_notes(env: Any) -> List[nodes.footnote]:
    """The footnotes of a page that don't stand anywhere yet."""
    notes: List[nodes.footnote] = env.temp_data.pop(_NOTES, [])
    return notes
