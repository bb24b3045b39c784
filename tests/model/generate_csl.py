"""Random documents of the mode `csl`: those of `generate_cites`, of each of its kinds, with more
ways to tell works apart, cites that read otherwise where they come again, and words of a caller's
around cites.
"""
import copy
import random

from generate_cites import (COLLAPSES, FAMILIES, GIVEN, RULES, TITLES, YEARS, CiteGenerator, group,
                            number, text, variable)

KINDS = ('ambiguous', 'ambiguous', 'ambiguous', 'grouped', 'grouped', 'numeric', 'notes', 'notes',
         'bibliography')
# What the styles of a document do for the most part.
HABITS = ('all', 'all', 'names', 'given names', 'names and given names', 'suffixes',
          'runs of suffixes', 'condition', 'names and suffixes')
WAYS = {'add_names': 'names', 'add_givenname': 'given', 'add_year_suffix': 'suffixes'}


class CslGenerator(CiteGenerator):
    def __init__(self, seed):
        r = random.Random('csl %d' % seed)
        habit = r.choice(HABITS)
        super().__init__(seed, 'grouped' if 'runs' in habit else r.choice(KINDS))
        self.r = r
        self.habit = habit
        self.of_names = 'names' in self.habit or r.random() < 0.5
        self.families = r.sample(FAMILIES, r.choice([1, 2, 2, 3]))
        self.given = r.sample(GIVEN, r.choice([2, 3, 4, 6]))
        self.years = r.sample(YEARS, 1 if r.random() < 0.7 else 3)
        self.titles = r.sample(TITLES, r.choice([1, 2, 3]))
        self.most_persons = r.choice([2, 3, 4, 5] if self.of_names else [1, 1, 2, 3])
        self.p_blank = r.choice([0, 0, 0, 0, 0, 0.1])
        self.p_copy = r.choice([0.6, 0.9, 1])
        self.p_hidden = r.choice([0, 0, 0, 0.1, 0.3])
        self.p_purpose = r.choice([0, 0, 0, 0.1, 0.4])
        self.p_apart = r.choice([0, 0, 0, 0.1, 0.4])
        self.p_later = r.choice([0, 0.2, 0.6])
        self.p_repeated = r.choice([0, 0, 0.3, 0.8])
        self.p_ibid = r.choice([0, 0.5, 0.9]) if self.p_repeated else 0
        if 'runs' in habit:
            self.p_locator, self.p_hidden, self.p_later = (r.choice([0, 0, 0.1]) for _ in range(3))

    # Entries

    def like(self, key, other):
        if self.chance(0.7 if 'runs' in self.habit else 0.1):
            return {**copy.deepcopy(other), 'key': key}
        return super().like(key, other)

    # Styles

    def ways(self, c):
        likely = {'all': 0.7}.get(self.habit, 0.1)
        for key, word in WAYS.items():
            if self.chance(0.9 if word in self.habit.split() else likely):
                c[key] = True
        if self.chance(0.75):
            c['givenname_rule'] = self.pick(RULES)
        if self.habit == 'condition' or self.habit == 'all' and self.chance(0.3):
            c['elements'] = c['elements'] + [self.asks()]

    def together(self, c):
        super().together(c)
        if self.kind == 'grouped' and self.chance(0.5):
            c['collapse'] = self.pick(COLLAPSES[2:] if 'runs' in self.habit else COLLAPSES[1:])

    def later_elements(self):
        """First cites that say more than later ones: given names, more names, or a title."""
        first, later = self.names(), self.names()
        for e, form, least in ((first, 'long', 4), (later, 'short', 2)):
            e['variables'] = ['author']
            e['options'] = {'name_form': form, 'et_al_min': self.pick([least, least, 3])}
            e['options'].update({'initialize_with': '.'} if self.chance(0.3) else {})
        whole = [first, self.date()]
        short = [later] + ([self.date()] if self.chance(0.6) else [])
        for said, p in ((whole, 0.3), (short, 0.2)):
            if self.chance(p):
                said.append(variable('title', prefix=', '))
        branches = [{'if': ['first'], 'children': whole}]
        if self.chance(0.4):
            position = self.pick(['ibid', 'ibid-with-locator'])
            branches.insert(0, {'if': [position], 'children': [text('Ibid.')]})
        if self.chance(0.3):
            positions = [self.pick(['near-note', 'subsequent']), 'near-note']
            branches.insert(0, {'if': positions, 'children': short[:1]})
        parts = [{'kind': 'choose', 'branches': branches, 'else': short}]
        parts += [number('locator', prefix=', ')] if self.chance(0.4) else []
        return [group(parts)] if self.chance(0.5) else parts

    def ibid_elements(self, elements):
        """Elements for cites that don't repeat the one before, and others for those that do: a
        word, nothing but a locator, or names in another form than elsewhere."""
        names = self.names()
        names['options'] = {'name_form': self.pick(['long', 'short'])}
        said = self.pick([[text('Ibid.')], [], [names, text(' ibid.')], [names, self.date()]])
        position = self.pick(['ibid', 'ibid', 'ibid-with-locator'])
        said = said + [number('locator', prefix=', ')]
        return [{'kind': 'choose', 'branches': [{'if': [position], 'children': said}],
                 'else': elements}]

    def elements(self):
        return self.later_elements() if self.chance(self.p_later) else super().elements()

    def citation(self):
        c = super().citation()
        if self.chance(self.p_ibid):
            c['elements'] = self.ibid_elements(c['elements'])
        return c

    # Requests

    def item(self, keys):
        i = super().item(keys)
        if self.chance(self.p_apart):
            i['apart'] = self.pick(['before', 'both'])
        return i

    def again(self, item):
        """The same entry once more, perhaps with another locator."""
        more = {'locator': ['page', self.pick('35')]} if self.chance(0.3) else {}
        return {'entry': item['entry'], **more}

    def requests(self, styles, keys):
        """Some have a cite twice, or a request before them that has their first cite alone."""
        answer = []
        for request in super().requests(styles, keys):
            items = request['items']
            if items and self.chance(self.p_repeated):
                answer.append({**request, 'items': [self.again(items[0])]})
            if items and self.chance(self.p_repeated):
                items.insert(self.r.randrange(len(items)) + 1, self.again(self.pick(items)))
            answer.append(request)
        return answer

    def document(self):
        d = super().document()
        if self.chance(0.15):
            d['styles']['u'] = self.varied(d['styles']['s'])
            for request in d['requests']:
                request['style'] = self.pick(list(d['styles']))
        if self.chance(0.2):
            keys = [e['key'] for e in d['entries']]
            d['bibliography']['order'] = self.r.sample(keys, len(keys))
        d['rounds'] = 'csl'
        return d


def document(seed):
    return CslGenerator(seed).document()
