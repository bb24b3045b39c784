"""What cases ask of a built test_readers: documents in BibTeX, BibLaTeX and RIS, read in one run."""
import json
import re

import runs
from runs import Failed, sized

SECONDS = 600
LETTERS = {'bibtex': b't', 'biblatex': b'b', 'ris': b'i'}


class Pending(Exception):
    """What is asked has no answer yet."""


class Loss:
    """What an item doesn't have of its entry."""

    def __init__(self, line):
        self.key, self.field, self.reason = line.split(': ', 2)


class Read:
    """The items of a document, what was lost, and the faults: line, column and reason."""

    def __init__(self, text):
        found, lines = json.JSONDecoder().raw_decode(text)
        self.items, self.losses, self.faults = found, [], []
        for line in text[lines:].strip('\n').split('\n'):
            word, _, rest = line.partition(' ')
            if word == 'lost':
                self.losses.append(Loss(rest))
            elif word == 'fault':
                place = re.match(r'line (\d+), column (\d+): (.*)', rest)
                self.faults.append((int(place[1]), int(place[2]), place[3]))
            elif line != 'references %d' % len(self.items):
                raise Failed('the items are no CSL-JSON: %s' % line)


class Asked:
    """Documents that are read in one run, and what the program says of them."""

    def __init__(self):
        self.program, self.waiting, self.said = None, [], {}

    def read(self, document):
        if document not in self.said:
            if document not in self.waiting:
                self.waiting.append(document)
            raise Pending
        return Read(self.said[document])

    def run(self):
        given = b''.join(sized(LETTERS[form], [text.encode()]) for form, text in self.waiting)
        status, out, error = runs.ended([self.program], given, SECONDS)
        if status != 0 or error:
            raise Failed('status %d, %r' % (status, error[:200]))
        said = out.decode().split('\n\n')
        if len(said) != len(self.waiting) + 1:
            raise Failed('%d answers for %d documents' % (len(said) - 1, len(self.waiting)))
        self.said.update(zip(self.waiting, said))
        self.waiting = []


ASKED = Asked()


def loads(text, form='biblatex', lang='en-US'):
    """The items of a document, what was lost, and the faults."""
    return ASKED.read((form, text if lang == 'en-US' else 'lang %s\n%s' % (lang, text)))


def item(kind='book', more='', form='biblatex', lang='en-US', **fields):
    """The item of an entry of this type with these fields, and what isn't kept."""
    told = ', '.join(f'{name} = {{{value}}}' for name, value in fields.items())
    found = loads(f'@{kind}{{k, {told}}}\n{more}', form=form, lang=lang)
    assert found.faults == []
    first = dict(found.items[0])
    assert first.pop('id') == 'k'
    return first, [(loss.field, loss.reason) for loss in found.losses if loss.key == 'k']


def names_of(source):
    made, lost = item(author=source)
    return made.get('author', []), [reason for _, reason in lost]


def date_of(text):
    made, lost = item(date=text)
    return made.get('issued'), [reason for _, reason in lost]


def text_of(source):
    """A text of LaTeX as that of a field."""
    made, lost = item(note=source)
    return made.get('note', ''), [reason for _, reason in lost]


def title_of(source):
    return item(title=source)[0].get('title', '')


def url_of(source):
    return item(url=source)[0]['URL']


def cases(names, values):
    """The cases of a test."""
    def told(test):
        test.cases = [name.strip() for name in names.split(',')], values
        return test
    return told
