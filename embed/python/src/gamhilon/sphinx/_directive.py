"""The directive of reference lists."""
from __future__ import annotations

from typing import Any, Dict, List, Optional, cast

from docutils import nodes
from docutils.parsers.rst import Parser, directives
from docutils.utils import new_document
from sphinx.util.docutils import SphinxDirective

from ..csl import StyleMissing, StyleRefused
from ._domain import CiteDomain
from ._filters import ALL, CITED, NOT_CITED, Filter, FilterFault
from ._listed import LIST_TYPES, Listed
from ._log import warn
from ._nodes import reference_list

__all__ = ['BibliographyDirective', 'header']

_FLAGS = {'all': ALL, 'notcited': NOT_CITED, 'cited': CITED}


def _start(value: str) -> int:
    """Where a list that is counted begins; 0 where it goes on."""
    return 0 if value == 'continue' else int(directives.positive_int(value))


class BibliographyDirective(SphinxDirective):
    """A reference list: of all works that are cited, or as its options say. Its lines are keys that
    it has in any case."""

    optional_arguments = 1
    final_argument_whitespace = True
    has_content = True
    option_spec = {
        'cited': directives.flag, 'notcited': directives.flag, 'all': directives.flag,
        'filter': directives.unchanged, 'style': directives.unchanged,
        'list': directives.unchanged, 'enumtype': directives.unchanged, 'start': _start,
        'labelprefix': directives.unchanged, 'keyprefix': directives.unchanged,
    }

    def run(self) -> List[nodes.Node]:
        domain = cast(CiteDomain, self.env.get_domain(CiteDomain.name))
        files = self._files(domain)
        options: Dict[str, Any] = self.options
        number = len(domain.lists_of(self.env.docname))
        node = reference_list('', docname=self.env.docname, number=number)
        self.set_source_info(node)
        listed = Listed(
            self.env.docname, number, self.lineno, files, self._style(domain),
            self._expression(), self._keys(domain, files), options.get('keyprefix', ''),
            options.get('labelprefix', ''), self._list_type(), options.get('enumtype', 'arabic'),
            options.get('start', 1))
        domain.lists_of(self.env.docname).append(listed)
        if self.config.bibtex_bibliography_header:
            node += header(self.config.bibtex_bibliography_header, self.state.document)
        return [node]

    def _warn(self, message: str, subtype: str) -> None:
        warn(message, (self.env.docname, self.lineno), subtype)

    def _files(self, domain: CiteDomain) -> Optional[List[str]]:
        """The paths of the files of the list; None for all."""
        if not self.arguments:
            return None
        found: List[str] = []
        for name in self.arguments[0].split():
            path = self.env.relfn2path(name)[1]
            if path in domain.files:
                found.append(path)
            else:
                self._warn(f'{name} is no file of bibtex_bibfiles', 'file')
        return found

    def _style(self, domain: CiteDomain) -> Optional[str]:
        name: Optional[str] = self.options.get('style') or None
        try:
            domain.style(name)
        except (StyleMissing, StyleRefused) as error:
            self._warn(f':style: {error}', 'style')
            return None
        return name

    def _expression(self) -> str:
        flags = [flag for flag in _FLAGS if flag in self.options]
        if 'filter' in self.options:
            for flag in flags:
                self._warn(f':{flag}: is ignored beside :filter:', 'filter')
            try:
                Filter(self.options['filter'])
                return str(self.options['filter'])
            except FilterFault as fault:
                self._warn(f':filter: {fault}', 'filter')
                return CITED
        return _FLAGS[flags[0]] if flags else CITED

    def _keys(self, domain: CiteDomain, files: Optional[List[str]]) -> List[str]:
        found: List[str] = []
        for key in (line.strip() for line in self.content if line.strip()):
            if domain.has(key, files):
                found.append(key)
            else:
                self._warn(f'there is no entry {key!r}{domain.meant(key)}', 'key')
        return found

    def _list_type(self) -> str:
        told: str = self.options.get('list', LIST_TYPES[0])
        if told in LIST_TYPES:
            return told
        self._warn(f'there is no list {told!r}: they are {", ".join(LIST_TYPES)}', 'list')
        return LIST_TYPES[0]


def header(text: str, document: nodes.document) -> List[nodes.Node]:
    """What conf.py puts before each list, which is reStructuredText on any page."""
    made = new_document('bibtex_bibliography_header', document.settings)
    Parser().parse(text, made)
    return list(made.children)
