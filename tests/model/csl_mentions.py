"""Mentions in the mode `csl`: what is compared of a document. Each cited entry has two, one as its
first cite reads, and one as a cite that names it again. Where a cite repeats the one before it, its
mention is written once more, as it reads in this position.
"""
from dataclasses import dataclass, field, replace
from typing import Optional

from pieces import Properties
from states import Means
from trees import first_names, plain, with_meta


def shown_names(tree):
    """The text of the first names, and the persons of the names in them; none without names."""
    names = first_names(tree)
    if names is None:
        return None
    blocks = {}
    for persons, variable in names.meta[1]:
        blocks.setdefault(variable, persons)
    metas = [name.meta for name in with_meta(names.children, 'name')]
    return plain(names.children), tuple(blocks[variable][place] for _, variable, place in metas)


@dataclass(eq=False)
class Mention:
    """In the style of the first request that cites the entry, which is its home."""
    entry: dict
    style: dict
    locale: Optional[str]
    properties: Properties
    # Whether some cite is of this kind.
    occurs: bool = True
    # Of the first writing, for ever.
    persons: tuple = ()
    own: tuple = ()
    tested: bool = False
    # Its state.
    names: Optional[tuple] = None
    chosen: bool = False
    # Of the latest writing.
    tree: list = field(default_factory=list)
    text: str = ''

    @property
    def key(self):
        return self.entry['key']

    @property
    def citation(self):
        return self.style['citation']

    @property
    def shown_names(self):
        return shown_names(self.tree)

    @property
    def shows_date(self):
        return bool(with_meta(self.tree, 'date'))

    @property
    def shows_number(self):
        return bool(with_meta(self.tree, 'citation-number'))

    def told(self):
        """The properties in its state."""
        return replace(self.properties, means=Means(self.names, self.chosen))

    def repeated(self, position):
        """The mention once more, in its state, as a cite reads that repeats the one before it so;
        nothing of it is written yet."""
        there = replace(self.properties, position=position)
        return replace(self, properties=there, tree=[], text='')

    def note_first(self, picker):
        """What its first writing tells, once and for all."""
        names = first_names(self.tree)
        persons = () if names is None else names.meta[1][0][0]
        forms = picker.first_name or ()
        count = min(len(persons), len(forms))
        self.persons, self.own = persons[:count], forms[:count]
        self.tested = picker.checked
        self.properties = replace(self.properties, usage=frozenset(picker.usage))

    def show(self, tree):
        self.tree, self.text = tree, plain(tree)


def groups_of(mentions):
    """Those with one text that isn't empty, of several entries."""
    classes = {}
    for mention in mentions:
        if mention.text:
            classes.setdefault(mention.text, []).append(mention)
    return [group for group in classes.values() if len({mention.key for mention in group}) > 1]


def occurring(mentions):
    """Those that some cite reads as. What no cite shows asks nothing."""
    return [mention for mention in mentions if mention.occurs]


def asked(groups):
    """The groups in which mentions of several entries occur."""
    return [group for group in groups if groups_of(occurring(group))]
