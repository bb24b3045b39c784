"""The mode `csl` of a document: works told apart as CSL 1.0.2 does.

`CslMode(document)` takes a `Document` of the model and gives the parts of its answer, and its
account. Three tables stand one after another: nothing; names; the condition. Then suffixes are
given, and nothing is compared any more.
"""
from collections import Counter
from dataclasses import dataclass, replace
from typing import Optional

from bibliography import first_field
from cites import OfItem, note_of
from csl_authors import substitute_repeated
from csl_mentions import Mention, asked, groups_of, occurring
from csl_names import told_by_names
from csl_places import Shown, has_blocks, in_blocks, is_looked_at, note_facts
from csl_places import settle_parts, settle_repeats, shrink
from pieces import DIFFERENT, Properties
from states import Means
from trees import has_content, simplified

NEAR_NOTE_DISTANCE = 5
REPEATED_TOGETHER = 'complete-all'
FORM_WORDS = ('counted', 'family', 'initials', 'given')


@dataclass(eq=False)
class CslCite(OfItem):
    """A cite in its place."""
    request: int
    place: int
    item: dict
    citation: dict
    note: Optional[int]
    is_first: bool = False
    first_note: Optional[int] = None
    is_near: bool = False
    # What it is told by, and what its entry has.
    mention: Optional[Mention] = None
    suffix: Optional[int] = None
    suffix_class: Optional[int] = None
    # The names by which it is brought together with others.
    names: Optional[object] = None
    # Of the final order.
    block: Optional[list] = None
    position: str = DIFFERENT
    shown: Optional[Shown] = None
    part: Optional[list] = None
    number: int = 0
    override: Optional[str] = None
    verdict: Optional[str] = None
    collapsed: bool = False


class CslMode:
    def __init__(self, document):
        self.document = document
        self.events = document.events
        self.requests = document.requests
        wanted = document.styles[document.wanted['style']]
        self.bibliography_style = wanted if 'bibliography' in wanted else None
        self.is_ordered = 'order' in document.wanted and self.bibliography_style is not None
        self.offset = document.document.get('offset', 0)
        self.listed = self.entries_listed()
        self.numbers = {key: self.offset + place for place, key in enumerate(self.listed)}
        self.renders = self.rounds = 0
        self.rows = self.cites()
        self.firsts = [self.mention(key, False) for key in self.listed]
        self.laters = [self.mention(key, True) for key in self.listed]
        # In the order of the bibliography, the first one of an entry before the later one.
        self.mentions = [mention for pair in zip(self.firsts, self.laters) for mention in pair]
        self.suffix_classes, self.suffixes, self.names_of_mentions = {}, {}, set()

    def entries_listed(self):
        cited = self.document.cited()
        order = self.document.wanted['order'] if self.is_ordered else []
        return list(dict.fromkeys([key for key in order if key in cited] + cited))

    def cites(self):
        """The cites as they are handed in, each with what those before it say of its notes."""
        rows, before = [], []
        for at, request in enumerate(self.requests):
            citation = self.document.styles[request['style']]['citation']
            note = note_of(self.document.document, request)
            rows.append([])
            for place, item in enumerate(request['items']):
                cite = CslCite(at, place, item, citation, note)
                distance = citation.get('near_note_distance', NEAR_NOTE_DISTANCE)
                cite.is_first, cite.first_note, cite.is_near = note_facts(cite, before, distance)
                before.append(cite)
                rows[-1].append(cite)
        return rows

    def home(self, key):
        """The first cite of an entry, while the cites stand as they were handed in."""
        return next(cite for row in self.rows for cite in row if cite.key == key)

    def mention(self, key, is_later):
        home = self.home(key)
        request = self.requests[home.request]
        style = self.document.styles[request['style']]
        is_near = is_later and style.get('class') == 'note'
        properties = Properties(self.numbers[key], None, home.first_note, is_near, not is_later)
        occurs = not is_later or sum(cite.key == key for row in self.rows for cite in row) > 1
        return Mention(self.document.entries[key], style, request.get('locale'), properties, occurs)

    # The three tables

    def tell_apart(self):
        for mention in self.mentions:
            mention.note_first(self.write(mention))
        self.tell_by_names()
        self.tell_by_condition()
        self.tell_by_suffixes()

    def write(self, mention):
        """Writes a mention in its state."""
        renderer = self.document.renderer(mention.style, mention.locale, mention.entry,
                                          mention.told(), Counter())
        mention.show(renderer.cite(None))
        self.renders += 1
        return renderer.picker

    def round(self, kind, changed):
        """Those that changed are written again."""
        for mention in changed:
            self.write(mention)
        self.rounds += bool(changed)
        self.events['documents told by ' + kind] += bool(changed)
        self.events['mentions told by ' + kind] += len(changed)

    def tell_by_names(self):
        groups = groups_of(self.mentions)
        self.events['ambiguous groups'] += len(groups)
        names = told_by_names(self.mentions, groups)
        changed = [mention for mention in self.mentions if names[mention] is not None]
        for mention in changed:
            mention.names = names[mention]
        self.round('names', changed)

    def tell_by_condition(self):
        """All that test it, where mentions of two entries occur that still read alike."""
        alike = {mention for group in asked(groups_of(self.mentions)) for mention in group}
        changed = [mention for mention in self.mentions if mention in alike and mention.tested]
        for mention in changed:
            mention.chosen = True
        self.round('the condition', changed)

    def tell_by_suffixes(self):
        """Entries whose later mentions read alike, and that also read alike in cites, if the style
        of one of them adds suffixes."""
        for number, group in enumerate(groups_of(self.laters)):
            members = self.asked_of(group)
            if any(mention.citation.get('add_year_suffix') for mention in members):
                for suffix, mention in enumerate(members):
                    self.suffixes[mention.key] = suffix
                    self.suffix_classes[mention.key] = number
        self.rounds += bool(self.suffixes)
        self.events['documents told by suffixes'] += bool(self.suffixes)
        self.events['entries with suffixes'] += len(self.suffixes)
        self.events['documents of %d rounds' % self.rounds] += 1

    def asked_of(self, laters):
        """Those of a class whose entries some cites show like another of it."""
        keys = {mention.key for mention in laters}
        alike = groups_of([mention for mention in occurring(self.mentions) if mention.key in keys])
        shown = {mention.key for group in alike for mention in group}
        return [mention for mention in laters if mention.key in shown]

    # The cites in their places

    def tell_cites(self):
        """What each cite is told by, and what it would show if it repeated none."""
        firsts = {mention.key: mention for mention in self.firsts}
        laters = {mention.key: mention for mention in self.laters}
        self.names_of_mentions = {mention.shown_names for mention in self.mentions}
        for row in self.rows:
            for cite in row:
                cite.mention = (firsts if cite.is_first else laters)[cite.key]
                cite.suffix = self.suffixes.get(cite.key)
                cite.suffix_class = self.suffix_classes.get(cite.key)
                cite.shown = self.shown_alone(cite.mention)
                cite.names = cite.shown.names

    def shown_alone(self, mention):
        return Shown(mention.shown_names, mention.text, mention.shows_number, mention.shows_date)

    def shown_repeated(self, cite):
        """What a cite shows that repeats the one before it, by its mention as it is written so. Its
        text counts where it is the mention's own. Names that no mention shows are those of no other
        cite."""
        repeated = cite.mention.repeated(cite.position)
        self.write(repeated)
        self.events['repetition'] += 1
        self.events['repetition that reads otherwise'] += repeated.text != cite.mention.text
        shown = self.shown_alone(repeated)
        if shown.names is not None and shown.names not in self.names_of_mentions:
            self.events['names of a repetition alone'] += 1
            shown = replace(shown, names=cite)
        return shown if shown.text == cite.mention.text else replace(shown, text='')

    def look_at_firsts(self):
        """The first cite of a request is brought together with others by the names that it shows
        itself, since it repeats the same cite in any order of its request."""
        settle_repeats(self.rows)
        for row in filter(is_looked_at, self.rows):
            if row[0].position != DIFFERENT:
                row[0].names = self.shown_repeated(row[0]).names

    def look_at_all(self):
        """What cites show in their final order."""
        settle_repeats(self.rows)
        for row in filter(is_looked_at, self.rows):
            for cite in row:
                if cite.position != DIFFERENT:
                    cite.shown = self.shown_repeated(cite)

    def bring_together(self):
        for row in self.rows:
            for cite in row:
                cite.block = [cite]
        self.rows = [in_blocks(row, self.events) if row and has_blocks(row[0].citation) else row
                     for row in self.rows]

    def place_cites(self):
        """The requests' cites in their final order, with all that the last writing is told."""
        self.tell_cites()
        self.look_at_firsts()
        self.bring_together()
        self.look_at_all()
        for row in self.rows:
            settle_parts(row, self.events)
        flat = [cite for row in self.rows for cite in row]
        if not self.is_ordered:
            in_order = dict.fromkeys(cite.key for cite in flat)
            self.numbers = {key: self.offset + place for place, key in enumerate(in_order)}
        for cite in flat:
            cite.number = self.numbers[cite.key]
        for row in self.rows:
            if row:
                shrink(row, row[0].citation, self.events)

    def last_properties(self, cite):
        mention = cite.mention
        means = Means(mention.names, mention.chosen, cite.suffix)
        return Properties(
            cite.number, cite.item.get('locator'), cite.first_note, cite.is_near, cite.is_first,
            cite.position, usage=mention.properties.usage, means=means)

    def last_tree(self, cite):
        request, properties = self.requests[cite.request], self.last_properties(cite)
        style, entry = self.document.styles[request['style']], self.document.entries[cite.key]
        renderer = self.document.renderer(style, request.get('locale'), entry, properties)
        self.renders += 1
        if cite.item.get('purpose') == 'year':
            return renderer.date_text()
        return renderer.cite(cite.item.get('purpose'), cite.verdict)

    def citation(self, request, row):
        """The cites that are shown: not hidden, nor inside a range, nor without content."""
        written = [(cite, self.last_tree(cite)) for cite in row]
        wanted = [(cite, tree) for cite, tree in written if not (cite.is_hidden or cite.collapsed)]
        shown = [(cite, tree) for cite, tree in wanted if any(map(has_content, tree))]
        self.events['cites without content'] += len(wanted) - len(shown)
        return self.document.assembled(request, shown)

    # The bibliography

    def first_in_the_end(self, key):
        """The first cite of an entry in the final order."""
        return next(cite for row in self.rows for cite in row if cite.key == key)

    def item_properties(self, key):
        """With the number and the first note of the first cite of its entry in the final order, as
        a later cite that repeats none and is near none; no names are added."""
        cite, later = self.first_in_the_end(key), self.laters[self.listed.index(key)]
        means = Means(None, later.chosen, self.suffixes.get(key))
        return Properties(cite.number, None, cite.first_note, False, False,
                          usage=cite.mention.properties.usage, means=means)

    def item(self, key):
        properties = self.item_properties(key)
        locale, entry = self.document.wanted.get('locale'), self.document.entries[key]
        renderer = self.document.renderer(self.bibliography_style, locale, entry, properties)
        self.renders += 1
        return renderer.bibliography_item()

    def items(self):
        """Of each listed entry its key, the first field if any, and the rest."""
        if self.bibliography_style is None:
            return None
        layout = self.bibliography_style['bibliography']
        items = [simplified(self.item(key)) for key in self.listed]
        substitute = layout.get('substitute')
        if substitute is not None:
            rule = layout.get('substitute_rule', REPEATED_TOGETHER)
            substitute_repeated(items, substitute, rule, self.events)
        fields = [first_field(item) if 'second_field_align' in layout else None for item in items]
        return list(zip(self.listed, fields, items))

    # The answer

    def parts(self):
        """The tree of each citation, and the items of the bibliography."""
        self.tell_apart()
        self.place_cites()
        items = self.items()
        return [self.citation(*both) for both in zip(self.requests, self.rows)], items

    def account(self):
        """Of the parts that were given: how much was written, how many rounds told something, and
        by what each entry is told."""
        entries = [{'key': first.key, 'number': self.numbers[first.key],
                    'first': (first.names, first.chosen), 'later': (later.names, later.chosen),
                    'suffix': self.suffixes.get(first.key)}
                   for first, later in zip(self.firsts, self.laters)]
        return {'renders': self.renders, 'rounds': self.rounds, 'entries': entries}


def state_text(names, chosen):
    words = [] if names is None else ['names'] + [FORM_WORDS[form] for form in names]
    return ' '.join(words + ['choose'] * chosen) or 'nothing'


def account_text(account):
    """An account in words: a line for what was written and the rounds, and one for each entry."""
    lines = ['renders %d, rounds %d' % (account['renders'], account['rounds'])]
    for entry in account['entries']:
        suffix = '' if entry['suffix'] is None else ', suffix %d' % entry['suffix']
        said = (entry['key'], entry['number'], state_text(*entry['first']),
                state_text(*entry['later']), suffix)
        lines.append('%s: %d, first %s, later %s%s' % said)
    return ''.join(line + '\n' for line in lines)
