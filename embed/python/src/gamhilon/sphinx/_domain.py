"""The domain: what pages cite and list, through all builds."""
from __future__ import annotations

import hashlib
import json
import os
from typing import Any, Dict, Iterator, List, Optional, Set, Tuple

from docutils import nodes
from sphinx.domains import Domain
from sphinx.errors import ConfigError

from .._nearest import meant
from ..csl import StyleMissing, StyleRefused
from ..references import ReaderMissing, ReferencesError
from . import _files
from ._files import File
from ._forms import FORMS
from ._listed import Cited, Listed
from ._log import say, warn
from ._nodes import citation_group
from ._rendering import Answers, Project, rendered
from ._roles import CiteRole
from ._styles import Chosen, chosen, default_of

__all__ = ['CiteDomain']


class CiteDomain(Domain):
    """What the pages of a project cite and list, and how that is written. Pages that are read anew
    or are gone lose what they had (`clear_doc`), and those that another process reads bring theirs
    along (`merge_domaindata`)."""

    name = 'cite'
    label = 'Citations'
    roles = {name: CiteRole() for name in FORMS if name != 'item'}
    initial_data: Dict[str, Any] = {
        'citations': {}, 'lists': {}, 'files': {}, 'checksum': '', 'answers': None, 'shown': {},
    }

    def __init__(self, env: Any) -> None:
        super().__init__(env)
        self._styles: Dict[Optional[str], Chosen] = {}
        self._read_now: Set[str] = set()

    @property
    def files(self) -> Dict[str, File]:
        """The files of references, by their paths."""
        files: Dict[str, File] = self.data['files']
        return files

    @property
    def answers(self) -> Answers:
        """How citations and lists are written."""
        answers: Optional[Answers] = self.data['answers']
        return answers or Answers({}, {})

    def lists_of(self, docname: str) -> List[Listed]:
        """The lists of a page, to which more may be added."""
        lists: List[Listed] = self.data['lists'].setdefault(docname, [])
        return lists

    def clear_doc(self, docname: str) -> None:
        self.data['citations'].pop(docname, None)
        self.data['lists'].pop(docname, None)

    def merge_domaindata(self, docnames: List[str], otherdata: Dict[str, Any]) -> None:
        for part in ('citations', 'lists'):
            self.data[part].update((docname, found) for docname, found in otherdata[part].items()
                                   if docname in docnames)

    def get_objects(self) -> Iterator[Tuple[str, str, str, str, str, int]]:
        yield from ()

    # Styles and files

    def style(self, name: Optional[str] = None) -> Chosen:
        """A style by its name, or that of conf.py. Raises ConfigError where conf.py names none that
        is there, and StyleMissing or StyleRefused for a name."""
        if name not in self._styles:
            config, folder = self.env.config, self.env.app.confdir
            try:
                made = default_of(config, folder) if name is None else chosen(name, folder)
            except (StyleMissing, StyleRefused) as error:
                if name is not None:
                    raise
                raise ConfigError(f'gamhilon.sphinx: {error}') from error
            self._styles[name] = made
        return self._styles[name]

    def read_files(self, docnames: List[str]) -> None:
        """Reads the files of references that have changed, before these pages are read."""
        self._read_now = set(docnames)
        found: Dict[str, File] = {}
        for name in self.env.config.bibtex_bibfiles or []:
            path = os.path.normpath(os.path.join(self.env.srcdir, name))
            file = self._read(name, path)
            if file is not None:
                found[path] = file
        self.data['files'] = found

    def _read(self, name: str, path: str) -> Optional[File]:
        encoding = self.env.config.bibtex_encoding
        try:
            with open(path, 'rb') as opened:
                data = opened.read()
            made = _files.read(path, data, encoding)
        except (OSError, ReferencesError, ReaderMissing, LookupError) as error:
            warn(f'bibtex_bibfiles: {getattr(error, "strerror", None) or error}', name, 'file')
            return None
        for problem in made.problems:
            warn(problem, name, 'entry')
        for loss in made.losses:
            say(f'{name}: {loss}')
        return made

    def has(self, key: str, files: Optional[List[str]] = None) -> bool:
        """Whether one of the files, or of all, has an entry."""
        return any(key in self.files[path].items
                   for path in (self.files if files is None else files))

    def meant(self, key: str) -> str:
        """Which key is meant in place of one that isn't there."""
        return meant(key, [known for file in self.files.values() for known in file.items])

    # Pages

    def take(self, doctree: nodes.document) -> None:
        """Takes what a page cites, and has it read anew where a file of references or the style
        changes."""
        docname = self.env.docname
        is_note = self.style().is_note
        found: List[Cited] = []
        for node in _in_order(doctree):
            node['number'], node['docname'] = len(found), docname
            note = _note_of(node) if is_note else None
            found.append(Cited(docname, len(found), node.line, node['form'], node['cites'], note,
                               node.get('begins_note', False), node.get('is_foot', False)))
        if found:
            self.data['citations'][docname] = found
        lists = self.data['lists'].get(docname, [])
        if not found and not lists:
            return
        for name in self.env.config.bibtex_bibfiles or []:
            self.env.note_dependency(os.path.normpath(os.path.join(self.env.srcdir, name)))
        for style in {None, *(listed.style for listed in lists)}:
            file = self.style(style).file
            if file is not None:
                self.env.note_dependency(file)

    def render(self) -> List[str]:
        """Writes all citations and lists, where something has changed, and gives the pages that the
        builder has to write anew."""
        pages = list(self._pages())
        project = Project(pages, self.data['citations'], self.data['lists'], self.files,
                          self.env.config, self.style, self._read_now)
        checksum = project.checksum()
        if checksum != self.data['checksum']:
            self.data['answers'] = rendered(project)
            self.data['checksum'] = checksum
        shown = {docname: self._shown(docname) for docname in pages}
        before = self.data['shown'].get(self.env.app.builder.name, {})
        self.data['shown'][self.env.app.builder.name] = shown
        changed = {docname for docname in pages if shown[docname] != before.get(docname)}
        return sorted(changed | self._pages_of_titles())

    def _pages_of_titles(self) -> Set[str]:
        """Puts what is written of citations into titles, which other pages show, and gives those
        pages where that changes something."""
        found: Set[str] = set()
        for docname in self.data['citations']:
            for titles in (self.env.titles, self.env.longtitles, self.env.tocs):
                for node in titles[docname].findall(citation_group):
                    text = self.answers.text_of(docname, node['number'])
                    if text and node.astext() != text:
                        node.clear()
                        node += nodes.Text(text)
                        found |= self.env.files_to_rebuild.get(docname, set())
        return found & set(self.env.all_docs)

    def _pages(self) -> Iterator[str]:
        """The pages in the order of the toctree, and then those that no toctree has."""
        left, seen = [self.env.config.root_doc], set()
        while left:
            docname = left.pop()
            if docname not in seen and docname in self.env.all_docs:
                seen.add(docname)
                yield docname
                left += reversed(self.env.toctree_includes.get(docname, []))
        yield from sorted(set(self.env.all_docs) - seen)

    def _shown(self, docname: str) -> str:
        """A checksum of what a page shows of citations; empty where it has none."""
        told = self.answers.of_page(docname)
        if not told:
            return ''
        text = json.dumps(told, sort_keys=True, default=vars)
        return hashlib.sha256(text.encode('utf-8', 'surrogatepass')).hexdigest()


def _in_order(doctree: nodes.document) -> Iterator[citation_group]:
    """The citations of a page in the order of its text, in which those of a note stand where the
    note is referred to."""
    notes = {name: note for note in doctree.findall(nodes.footnote) for name in note['ids']}
    seen: Set[int] = set()

    def once(node: nodes.Node) -> Iterator[citation_group]:
        for part in node.findall(citation_group):
            if id(part) not in seen:
                seen.add(id(part))
                yield part

    for node in doctree.findall():
        if isinstance(node, citation_group) and _footnote_of(node) is None:
            yield from once(node)
        elif isinstance(node, nodes.footnote_reference) and node.get('refid') in notes:
            yield from once(notes[node['refid']])
    yield from once(doctree)


def _footnote_of(node: nodes.Node) -> Optional[nodes.footnote]:
    while node is not None and not isinstance(node, nodes.footnote):
        node = node.parent
    return node


def _note_of(node: nodes.Node) -> Optional[int]:
    """The number of the note in which a citation stands."""
    footnote = _footnote_of(node)
    label = footnote[0].astext() if footnote is not None and len(footnote) else ''
    return int(label) if label.isdigit() else None
