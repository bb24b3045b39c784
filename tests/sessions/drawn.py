"""Documents that are edited at random, drawn by a seed."""
import copy
import random

FAMILIES = ['Doe', 'Roe', 'Smith', 'Lopez']
GIVEN = ['Ann', 'Bob', 'Ann B.', 'Cy']
TYPES = ['book', 'article-journal', 'webpage', 'report']
TITLES = ['On Order', 'A Reply', '', 'Beta', 'Rivers: A <i>Study</i>']
LOCATORS = ['7', '12-14', '3']


class Document:
    """Items by their ids, and citations by their keys, in their order."""

    def __init__(self, draw, styles):
        self.draw, self.styles = draw, styles
        self.style = draw.choice(styles)
        self.items = {'i%d' % n: self.item('i%d' % n) for n in range(draw.randint(3, 8))}
        self.citations = []
        self.next_key = 0
        for _ in range(draw.randint(0, 6)):
            self.citations.append(self.citation())

    def state(self):
        """A copy of all that the document is."""
        return copy.deepcopy({'style': self.style, 'items': self.items, 'citations': self.citations})

    def item(self, key):
        draw = self.draw
        item = {'id': key, 'type': draw.choice(TYPES), 'title': draw.choice(TITLES)}
        if draw.random() < 0.9:
            item['author'] = [{'family': draw.choice(FAMILIES), 'given': draw.choice(GIVEN)}
                              for _ in range(draw.choice((1, 1, 1, 2, 4)))]
        if draw.random() < 0.9:
            item['issued'] = {'date-parts': [[draw.choice((1999, 2001))]]}
        return item

    def cite(self):
        draw = self.draw
        cite = {'id': draw.choice(sorted(self.items))}
        if draw.random() < 0.2:
            cite.update(locator=draw.choice(LOCATORS), label='page')
        for name, text in (('prefix', 'see '), ('suffix', ', and so on')):
            if draw.random() < 0.1:
                cite[name] = text
        if draw.random() < 0.1:
            cite['suppress-author'] = True
        return cite

    def citation(self):
        self.next_key += 1
        cites = [self.cite() for _ in range(self.draw.choice((1, 1, 1, 2, 3)))]
        return {'citationID': 'c%d' % self.next_key, 'citationItems': cites}

    def edit(self):
        """Changes the document, and gives what a session is told: words and values."""
        draw = self.draw
        kinds = [self.change_item, self.add_item, self.remove_item, self.add_citation, self.remove_citation,
                 self.move_citation, self.change_citation, self.number_notes, self.switch_style]
        return draw.choice(kinds)()

    def change_item(self):
        key = self.draw.choice(sorted(self.items))
        self.items[key] = self.item(key)
        return [('items', [self.items[key]])]

    def add_item(self):
        key = 'i%d' % self.draw.randint(0, 20)
        self.items[key] = self.item(key)
        return [('items', [self.items[key]])]

    def remove_item(self):
        cited = {cite['id'] for citation in self.citations for cite in citation['citationItems']}
        free = sorted(set(self.items) - cited)
        if not free or len(self.items) == 1:
            return []
        key = self.draw.choice(free)
        del self.items[key]
        return [('remove', [key])]

    def set_citations(self):
        return [('citations', copy.deepcopy(self.citations))]

    def add_citation(self):
        self.citations.insert(self.draw.randint(0, len(self.citations)), self.citation())
        return self.set_citations()

    def remove_citation(self):
        if self.citations:
            self.citations.pop(self.draw.randrange(len(self.citations)))
        return self.set_citations()

    def move_citation(self):
        if self.citations:
            moved = self.citations.pop(self.draw.randrange(len(self.citations)))
            self.citations.insert(self.draw.randint(0, len(self.citations)), moved)
        return self.set_citations()

    def change_citation(self):
        if self.citations:
            cites = self.draw.choice(self.citations)['citationItems']
            cites[self.draw.randrange(len(cites))] = self.cite()
        return self.set_citations()

    def number_notes(self):
        first = self.draw.randint(1, 5)
        for number, citation in enumerate(self.citations):
            citation['properties'] = {'noteIndex': first + number}
        return self.set_citations()

    def switch_style(self):
        self.style = self.draw.choice(self.styles)
        return [('style', self.style)]


def sequences(styles, count, edits, seed):
    """So many documents, each with its edits: the document after each, and what was told."""
    draw = random.Random(seed)
    for _ in range(count):
        document = Document(random.Random(draw.random()), styles)
        begun = [('style', document.style), ('items', list(document.items.values()))]
        states = [(begun + document.set_citations(), document.state())]
        for _ in range(edits):
            told = document.edit()
            states.append((told, document.state()))
        yield states
