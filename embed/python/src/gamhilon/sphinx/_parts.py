"""What a citation asks a style for, and what becomes of the answer."""
from __future__ import annotations

from dataclasses import replace
from typing import Callable, List, NamedTuple, Sequence, Tuple

from .._style_parts import bare
from .._writing import pieces
from ..answer import Citation, Node, Tree, plain
from ..csl import Cite
from ._forms import FORMS, Form
from ._listed import Cited
from ._styles import Chosen

__all__ = ['Part', 'asked_of', 'without_stop']


class Part(NamedTuple):
    """A part of what is written of a citation: its tree, and the keys of its cites, by their
    places."""

    tree: Tree
    keys: List[str]


Names = Callable[[str, str], Tree]
"""The tree of a kind, such as `short` for the authors, for the key of a work."""

Maker = Callable[[Sequence[Citation], Names], List[Part]]
"""Makes the parts of a citation of what the style answers."""


def asked_of(citations: Sequence[Cited], style: Chosen
             ) -> Tuple[List[List[Cite]], List[Maker], List[Cited]]:
    """What a style is asked for, so that these citations can be written; what makes them of the
    answer, for each; and for each that is asked for, of which citation it is."""
    asking = _Asking(style)
    makers = [asking.maker(cited) for cited in citations]
    return asking.asked, makers, asking.owners


class _Asking:
    """Collects what a style is asked for."""

    def __init__(self, style: Chosen) -> None:
        self.is_note, self.is_author_date = style.is_note, style.is_author_date
        self.asked: List[List[Cite]] = []
        self.owners: List[Cited] = []

    def maker(self, cited: Cited) -> Maker:
        form = FORMS[cited.form]
        cites = [replace(cite, note=cited.note) for cite in cited.cites]
        if cited.is_note:
            prefix = cites[0].prefix
            cites[0] = replace(cites[0], prefix=prefix[:1].upper() + prefix[1:])
        if form.kind == 'nothing':
            self.hide(cites, cited)
            return lambda answers, names: []
        if form.kind in ('whole', 'bare'):
            place = self.ask(cites, cited)
            keys = [cite.id for cite in cites]
            is_bare = form.kind == 'bare'
            return lambda answers, names: [Part(
                bare(answers[place].content) if is_bare else answers[place].content, keys)]
        if form.kind == 'item':
            return lambda answers, names: [Part(names('item', cite.id), []) for cite in cites]
        each = {'author': self.author, 'year': self.year, 'text': self.text}[form.kind]
        makers = [each(cite, form, cited) for cite in cites]
        return lambda answers, names: _finished(
            form, [make(answers, names) for make in makers], names, cites[0].id)

    def ask(self, cites: List[Cite], cited: Cited) -> int:
        self.asked.append(cites)
        self.owners.append(cited)
        return len(self.asked) - 1

    def hide(self, cites: List[Cite], cited: Cited) -> None:
        """Has works counted as cited here, though nothing is shown of them. (In notes the next cite
        would be `Ibid.`)"""
        if not self.is_note:
            self.ask([replace(cite, hidden=True) for cite in cites], cited)

    def author(self, cite: Cite, form: Form, cited: Cited) -> Maker:
        """The author alone: as the style writes it, where it writes authors, and all of them aren't
        asked for."""
        kind = 'all' if form.all_names else 'short'
        if self.is_author_date and not form.all_names:
            place = self.ask([Cite(cite.id, author_only=True)], cited)
            return lambda answers, names: [
                Part(answers[place].content, [cite.id]) if plain(answers[place]).strip()
                else _own(names(kind, cite.id), cite.id)]
        self.hide([cite], cited)
        return lambda answers, names: [_own(names(kind, cite.id), cite.id)]

    def year(self, cite: Cite, form: Form, cited: Cited) -> Maker:
        """The year alone, with the suffix that the style gives it."""
        if not self.is_author_date:
            self.hide([cite], cited)
            return lambda answers, names: [_own(names('year', cite.id), cite.id)]
        place = self.ask([replace(cite, suppress_author=True)], cited)
        return lambda answers, names: [
            Part(bare(answers[place].content), [cite.id]) if plain(answers[place]).strip()
            else _own(names('year', cite.id), cite.id)]

    def text(self, cite: Cite, form: Form, cited: Cited) -> Maker:
        """The author in the sentence, and behind it the rest of the cite, which leaves the author
        out where the style writes authors in its cites."""
        author = self.author(cite, form, cited)
        has_authors = self.is_author_date or self.is_note
        place = self.ask([replace(cite, prefix='', suppress_author=has_authors)], cited)
        before = [Part(_words(f'{cite.prefix.rstrip()} '), [])] if cite.prefix else []
        return lambda answers, names: [
            *before, *(Part(part.tree, []) for part in author(answers, names)),
            *_behind_author(Part(answers[place].content, [cite.id]))]


def _behind_author(rest: Part) -> List[Part]:
    """The rest of a cite behind its author: with a space between, but for raised numbers."""
    if not plain(rest.tree).strip():
        return []
    first = next(piece.node for piece in pieces(rest.tree) if piece.kind == 'text')
    return [rest] if first.get('vertical_align') == 'sup' else [Part(_words(' '), []), rest]


def _finished(form: Form, each: List[List[Part]], names: Names, key: str) -> List[Part]:
    """The parts of several cites, with what stands between and around them."""
    found: List[Part] = []
    for place, parts in enumerate(each):
        if place:
            is_last = place == len(each) - 1
            comma = ', ' if not is_last or len(each) > 2 else ' '
            found.append(Part(_words(comma), []))
            if is_last:
                found += [Part(names('and', key), []), Part(_words(' '), [])]
        found += parts
    if form.capital:
        found = _capital(found)
    if form.brackets:
        return [Part(_words('('), []), *found, Part(_words(')'), [])]
    return found


def _own(tree: Tree, key: str) -> Part:
    """A tree that leads to a work as a whole."""
    return Part([{'meta': {'entry': 0}, 'children': _without_meta(tree)}], [key])


def _without_meta(tree: Tree) -> Tree:
    return [{**{name: value for name, value in node.items() if name != 'meta'},
             **({'children': _without_meta(node['children'])} if 'children' in node else {})}
            for node in tree]


def _words(text: str) -> Tree:
    return [{'text': text, 'font_style': 'normal', 'font_weight': 'normal'}]


def _capital(parts: List[Part]) -> List[Part]:
    """The parts, whose first letter is a capital."""
    for place, part in enumerate(parts):
        if plain(part.tree).strip():
            return [*parts[:place], Part(_with_capital(part.tree), part.keys), *parts[place + 1:]]
    return parts


def _with_capital(tree: Tree) -> Tree:
    for place, node in enumerate(tree):
        if not plain(node).strip():
            continue
        if 'children' in node:
            made: Node = {**node, 'children': _with_capital(node['children'])}
        else:
            text = node['text']
            at = len(text) - len(text.lstrip())
            made = {**node, 'text': text[:at] + text[at:at + 1].upper() + text[at + 1:]}
        return [*tree[:place], made, *tree[place + 1:]]
    return tree


def without_stop(parts: List[Part]) -> List[Part]:
    """The parts without the full stop at their end, behind which a sentence goes on."""
    for place in reversed(range(len(parts))):
        tree = parts[place].tree
        if plain(tree):
            last = tree[-1]
            if last.get('text', '').endswith('.'):
                cut = Part([*tree[:-1], {**last, 'text': last['text'][:-1]}], parts[place].keys)
                return [*parts[:place], cut, *parts[place + 1:]]
            return parts
    return parts
