"""How the citations and the lists of all pages are written."""
from __future__ import annotations

import hashlib
import json
from dataclasses import dataclass, field, replace
from typing import (Any, Callable, Dict, Iterator, List, Mapping, NamedTuple, Optional, Sequence,
                    Set, Tuple)

from docutils import nodes
from sphinx.errors import ExtensionError

from .. import __version__, csl
from .._nearest import meant
from .._style_parts import names_style
from .._writing import anchor
from ..answer import Bibliography, Item, Tree, plain
from ..csl import Cite
from ..errors import Refused
from ._files import File
from ._filters import CITED, Filter, FilterFault
from ._forms import FORMS
from ._listed import LIST_TYPES, Cited, Listed
from ._log import Place, warn
from ._parts import Part, asked_of
from ._styles import Chosen, with_label_prefix

__all__ = ['Answers', 'Listing', 'Project', 'Target', 'rendered']

Key = str
"""The key of a work, as pages cite it."""


class Target(NamedTuple):
    """The item to which a cite leads: its page, its id there, and its text."""

    docname: str
    id: str
    text: str


@dataclass(frozen=True)
class Listing:
    """What a reference list has; the id of each item by its key; and how it is listed."""

    bibliography: Bibliography
    ids: Dict[Key, str]
    listed: Listed


@dataclass(frozen=True)
class Answers:
    """What is written of each citation, as trees with the keys of their cites and the targets of
    these; and of each list. Both are named by their page and their place there."""

    citations: Dict[Tuple[str, int], Tuple[List[Part], Dict[Key, Target]]]
    lists: Dict[Tuple[str, int], Listing]

    def text_of(self, docname: str, number: int) -> str:
        """The text of a citation; empty where there is none."""
        found = self.citations.get((docname, number))
        return ''.join(plain(part.tree) for part in found[0]) if found is not None else ''

    def of_page(self, docname: str) -> List[Any]:
        """What a page shows."""
        found = [*self.citations.items(), *self.lists.items()]
        return [[place, told] for place, told in found if place[0] == docname]


@dataclass(frozen=True)
class Project:
    """What is written: the pages in their order, what they cite and list, the files of references,
    and the styles. Pages that are read just now are warned of."""

    pages: Sequence[str]
    citations: Mapping[str, List[Cited]]
    lists: Mapping[str, List[Listed]]
    files: Mapping[str, File]
    config: Any
    style: Callable[[Optional[str]], Chosen]
    read_now: Set[str]

    def all_citations(self) -> Iterator[Cited]:
        """The citations of all pages."""
        for page in self.pages:
            yield from self.citations.get(page, [])

    def all_lists(self) -> Iterator[Listed]:
        """The lists of all pages."""
        for page in self.pages:
            yield from self.lists.get(page, [])

    def locale(self) -> Optional[str]:
        """The language of citations: that of the project, unless it is English, in which styles
        may be of a dialect."""
        told: str = self.config.gamhilon_locale or self.config.language or ''
        is_english = told.replace('_', '-').split('-')[0] == 'en'
        return None if not told or is_english and not self.config.gamhilon_locale else told

    def checksum(self) -> str:
        """A checksum of all that is written."""
        styles = sorted({str(listed.style) for listed in self.all_lists()} | {'None'})
        told = [[self.style(None if name == 'None' else name).style for name in styles],
                [_text_of(self.style(None if name == 'None' else name)) for name in styles],
                self.locale(), self.config.gamhilon_locales, self.config.bibtex_tooltips,
                self.config.bibtex_cite_id, __version__,
                [[path, file.checksum] for path, file in self.files.items()],
                list(self.all_citations()), list(self.all_lists())]
        return hashlib.sha256(json.dumps(told, default=vars).encode()).hexdigest()


def _text_of(style: Chosen) -> str:
    if style.file is None:
        return style.style
    with open(style.file, 'rb') as file:
        return hashlib.sha256(file.read()).hexdigest()


def rendered(project: Project) -> Answers:
    """What is written of a project. Raises ExtensionError where the library has no answer."""
    return _Rendering(project).answers()


class _Kind(NamedTuple):
    """What lists have in common whose items are written together."""

    style: Optional[str]
    key_prefix: str = ''
    label_prefix: str = ''
    has_labels: bool = True
    is_foot: bool = False


@dataclass
class _Group:
    """Citations and lists that are written together, and what is cited and listed of them."""

    citations: List[Cited] = field(default_factory=list)
    lists: List[Listed] = field(default_factory=list)


class _Rendering:
    """The work on a project."""

    def __init__(self, project: Project) -> None:
        self.project = project
        self.lists = list(project.all_lists())
        self.prefixes = ['', *{listed.key_prefix: None for listed in self.lists}]
        self.citations = [known for cited in project.all_citations()
                          for known in self._known(cited)]
        self.cited_on: Dict[Key, Set[str]] = {}
        for cited in self.citations:
            for cite in () if cited.is_foot else cited.cites:
                self.cited_on.setdefault(cite.id, set()).add(cited.docname)
        self.keys = {(listed.docname, listed.number): self._keys_of(listed)
                     for listed in self.lists}
        self.found = Answers({}, {})

    def answers(self) -> Answers:
        groups: Dict[_Kind, _Group] = {}
        for listed in self.lists:
            groups.setdefault(_kind_of(listed), _Group()).lists.append(listed)
        for cited in self.citations:
            home = self._home(cited.cites[0].id, cited.docname)
            kind = _Kind(None) if home is None else _kind_of(home)
            if cited.is_foot:
                kind = _Kind(None, is_foot=True)
            groups.setdefault(kind, _Group()).citations.append(cited)
        trees: Dict[Tuple[str, int], List[Part]] = {}
        for kind, group in groups.items():
            trees.update(self._write(kind, group))
        for cited in self.citations:
            place = (cited.docname, cited.number)
            self.found.citations[place] = (trees[place], self._targets(cited))
        return self.found

    # What is cited and listed

    def _known(self, cited: Cited) -> Iterator[Cited]:
        """The citation without cites of works that aren't there, of which it warns."""
        known = [cite for cite in cited.cites if self._item(cite.id) is not None]
        if cited.docname in self.project.read_now:
            for cite in cited.cites:
                if cite not in known:
                    near = meant(cite.id, [key for file in self.project.files.values()
                                           for key in file.items])
                    warn(f'there is no entry {cite.id!r}{near}', (cited.docname, cited.line), 'key')
        if known:
            yield replace(cited, cites=known)

    def _item(self, key: Key) -> Optional[Dict[str, Any]]:
        """The item of a key, whose prefix a list may tell."""
        for prefix in self.prefixes:
            for file in self.project.files.values():
                if key.startswith(prefix) and key[len(prefix):] in file.items:
                    return {**file.items[key[len(prefix):]], 'id': key}
        return None

    def _keys_of(self, listed: Listed) -> List[Key]:
        """The keys of the works that a list has, in the order of its files."""
        names = self.project.files if listed.files is None else listed.files
        files = [self.project.files[name] for name in names if name in self.project.files]
        found: Dict[Key, None] = {}
        for file in files:
            for key in file.items:
                if key in listed.keys or self._is_listed(listed, key, file.facts.get(key, {})):
                    found.setdefault(listed.key_prefix + key)
        return list(found)

    def _is_listed(self, listed: Listed, key: str, facts: Dict[str, str]) -> bool:
        pages = self.cited_on.get(listed.key_prefix + key, set())
        values: Dict[str, Any] = {**facts, 'key': key.lower(), 'cited': bool(pages),
                                  'docname': listed.docname, 'docnames': frozenset(pages)}
        try:
            return Filter(listed.expression).holds(lambda name: values.get(name, ''))
        except FilterFault as fault:
            if listed.docname in self.project.read_now:
                warn(f':filter: {fault}', (listed.docname, listed.line), 'filter')
            return bool(pages) if listed.expression != CITED else False

    def _home(self, key: Key, docname: str) -> Optional[Listed]:
        """The list to which cites of a work lead: the first one that has it, on the same page where
        there is one there. Lists with bullets or numbers of their own show no labels, and come
        last."""
        having = [listed for listed in self.lists
                  if key in self.keys[listed.docname, listed.number]]
        having.sort(key=lambda listed: (listed.list_type != LIST_TYPES[0],
                                        listed.docname != docname))
        return having[0] if having else None

    def _targets(self, cited: Cited) -> Dict[Key, Target]:
        found: Dict[Key, Target] = {}
        for key in {cite.id: None for cite in cited.cites}:
            home = self._home(key, cited.docname)
            listing = None if home is None else self.found.lists.get((home.docname, home.number))
            if home is None or listing is None or key not in listing.ids:
                continue
            item = next(item for item in listing.bibliography.items if item.key == key)
            text = plain(item.content) if self.project.config.bibtex_tooltips else ''
            found[key] = Target(home.docname, listing.ids[key], text)
        return found

    # What is written

    def _write(self, kind: _Kind, group: _Group) -> Dict[Tuple[str, int], List[Part]]:
        """Writes a group: its lists into the answers, and its citations as trees."""
        style = self.project.style(kind.style)
        if kind.label_prefix:
            style = with_label_prefix(style, kind.label_prefix)
        listed_keys = self._as_cited({key: None for listed in group.lists
                                      for key in self.keys[listed.docname, listed.number]})
        if style.is_note:
            trees = {}
            for page in {cited.docname: None for cited in group.citations}:
                own = [cited for cited in group.citations if cited.docname == page]
                trees.update(self._written(style, own, self._others(group, own, listed_keys))[0])
            _, bibliography = self._written(style, [], self._others(group, [], listed_keys))
        else:
            trees, bibliography = self._written(style, group.citations, listed_keys)
        for listed in group.lists:
            self._list(listed, bibliography)
        return trees

    def _as_cited(self, keys: Dict[Key, None]) -> List[Key]:
        """The works of lists in the order in which pages cite them, and then the others. (Citations
        that lead to another list of the same works are written with that.)"""
        cited = [key for key in self.cited_on if key in keys]
        return list(dict.fromkeys([*cited, *keys]))

    def _others(self, group: _Group, own: Sequence[Cited], listed: Sequence[Key]) -> List[Key]:
        """The works that pages cite beside these citations: notes are those of a page, and names
        are disambiguated over all pages."""
        cited = [cite.id for other in group.citations if other not in own for cite in other.cites]
        return [*cited, *listed]

    def _written(self, style: Chosen, citations: Sequence[Cited], more: Sequence[Key]
                 ) -> Tuple[Dict[Tuple[str, int], List[Part]], Optional[Bibliography]]:
        """Citations in a style, and the list of what they and more cite."""
        keys = list(dict.fromkeys([*(cite.id for cited in citations for cite in cited.cites),
                                   *more]))
        items = [item for item in map(self._item, keys) if item is not None]
        if not items:
            return {}, None
        asked, makers, owners = asked_of(citations, style)
        shown = {cite.id for cites in asked for cite in cites}
        hidden = [Cite(key, hidden=True) for key in keys if key not in shown]
        made = self._render(style.style, items, [*asked, hidden] if hidden else asked)
        for warned in made.warnings:
            self._warn(style, warned, owners)
        names = _Names(self, items, made.answer.bibliography)
        trees = {(cited.docname, cited.number): make(made.answer.citations, names)
                 for cited, make in zip(citations, makers)}
        return trees, made.answer.bibliography

    def _render(self, style: str, items: List[Dict[str, Any]],
                citations: List[List[Cite]]) -> csl.Rendered:
        locales = self.project.config.gamhilon_locales or None
        try:
            return csl.render(style, items, citations, locale=self.project.locale(),
                              locales=locales)
        except (Refused, ValueError, OSError) as error:
            raise ExtensionError(f'gamhilon.sphinx: {error}') from error

    def _warn(self, style: Chosen, warned: csl.Warned, owners: Sequence[Cited]) -> None:
        place: Place = style.file or style.name
        if warned.citation is not None:
            if warned.citation >= len(owners):
                return
            owner = owners[warned.citation]
            if owner.docname not in self.project.read_now or FORMS[owner.form].kind != 'whole':
                return
            place = (owner.docname, owner.line)
        elif warned.entry is not None:
            place = next((name for name, file in self.project.files.items()
                          if warned.entry in file.items), place)
        warn(str(warned), place, 'style' if warned.entry is None else 'entry')

    def _list(self, listed: Listed, bibliography: Optional[Bibliography]) -> None:
        """Puts a list into the answers: of all items those that it has, in their order."""
        place = (listed.docname, listed.number)
        keys = set(self.keys[place])
        if bibliography is None:
            if keys and listed.docname in self.project.read_now:
                warn('the style has no bibliography', (listed.docname, listed.line), 'style')
            return
        items: List[Item] = [item for item in bibliography.items if item.key in keys]
        ids = {item.key: self._id_of(listed, item.key) for item in items}
        self.found.lists[place] = Listing(replace(bibliography, items=items), ids, listed)

    def _id_of(self, listed: Listed, key: Key) -> str:
        """The id of an item: by the template of conf.py, or else another in each list of a page."""
        template: str = self.project.config.bibtex_cite_id
        if template:
            told = template.format(bibliography_count=listed.number + 1, key=key)
            return str(nodes.make_id(told))
        return (f'list-{listed.number + 1}-' if listed.number else '') + anchor(key)


class _Names:
    """Authors and years beside a style that writes none, the word for *and*, and items."""

    def __init__(self, rendering: _Rendering, items: List[Dict[str, Any]],
                 bibliography: Optional[Bibliography]) -> None:
        self._rendering, self._items = rendering, items
        listed = bibliography.items if bibliography is not None else []
        self._trees: Dict[str, Dict[Key, Tree]] = {
            'item': {item.key: item.content for item in listed}}

    def __call__(self, kind: str, key: Key) -> Tree:
        """The tree of a kind (`names_style`, or `item`) for a work."""
        if kind not in self._trees:
            keys = [str(item['id']) for item in self._items]
            made = self._rendering._render(names_style(kind), self._items,
                                           [[Cite(key)] for key in keys])
            self._trees[kind] = {key: citation.content
                                 for key, citation in zip(keys, made.answer.citations)}
        return self._trees[kind].get(key, [])


def _kind_of(listed: Listed) -> _Kind:
    return _Kind(listed.style, listed.key_prefix, listed.label_prefix,
                 listed.list_type == LIST_TYPES[0])
