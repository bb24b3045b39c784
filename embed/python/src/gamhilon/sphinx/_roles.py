"""The roles, and what stands in them."""
from __future__ import annotations

import re
from typing import List, Tuple

from docutils import nodes
from sphinx.util.docutils import SphinxRole

from .. import _locators
from ..csl import Cite
from ._log import warn
from ._nodes import citation_group

__all__ = ['CiteRole', 'cites_of']

_CITE = re.compile(r'\s*(?:\{(?P<prefix>[^{}]*)\})?\s*(?P<key>[^\s{},]+)\s*'
                   r'(?:\{(?P<suffix>[^{}]*)\})?\s*(?:,|$)')


class CiteRole(SphinxRole):
    """A role that cites works: their keys, with commas between, each maybe with braces before and
    behind it: ``{see}doe99{p. 4}``."""

    def run(self) -> Tuple[List[nodes.Node], List[nodes.system_message]]:
        form = self.name.rpartition(':')[2]
        node = citation_group(self.rawtext, self.text, docname=self.env.docname,
                        form='p' if form == 'cite' else form)
        self.set_source_info(node)
        try:
            node['cites'] = cites_of(self.text)
        except ValueError as error:
            warn(str(error), (self.env.docname, node.line), 'cite')
            return [nodes.literal(self.rawtext, self.text)], []
        return [node], []


def cites_of(text: str) -> List[Cite]:
    """The cites that stand in a role. Raises ValueError where these are none."""
    found: List[Cite] = []
    at = 0
    while at < len(text):
        match = _CITE.match(text, at)
        if match is None:
            raise ValueError(f'no keys with commas between: {text!r}')
        found.append(_cite(match['key'], match['prefix'] or '', match['suffix'] or ''))
        at = match.end()
    if not found:
        raise ValueError('no key')
    return found


def _cite(key: str, prefix: str, suffix: str) -> Cite:
    locator, rest = _locators.split(suffix)
    if locator is None:
        return Cite(key, prefix=prefix, suffix=suffix)
    return Cite(key, locator.text, locator.kind, prefix, rest)
