"""Which element of a style wrote each text: cases whose lines and columns are counted in their
styles by hand."""
import json
import os
import tempfile
from html.parser import HTMLParser

import pandoc
from runs import Failed

HERE = os.path.dirname(os.path.abspath(__file__))
ROOT = os.path.dirname(os.path.dirname(HERE))
BENCH = ROOT + '/bench/styles/'
# Where Debian has the styles of CSL's repository.
INSTALLED = '/usr/share/citation-style-language/styles/'

INFO = '<info><title>T</title><id>t</id><updated>2020-01-01T00:00:00Z</updated></info>'


def book(name, title, year=2001, **more):
    more.setdefault('author', [{'family': name, 'given': 'A'}])
    return {'id': title, 'type': 'book', 'title': title, 'issued': {'date-parts': [[year]]}, **more}


# The element and the macros around it, the outermost first: each is its name, line and column, and
# those of the element that calls it.
def at(name, line, column, *macros):
    return {'name': name, 'line': line, 'column': column,
            'macros': [{'name': name, 'line': line, 'column': column, 'call': {'line': call[0], 'column': call[1]}}
                       for name, line, column, call in macros]}


AUTHOR_DATE = '''<style xmlns="http://purl.org/net/xbiblio/csl" class="in-text" version="1.0">
  ''' + INFO + '''
  <macro name="who">
    <names variable="author"><name form="short"/></names>
  </macro>
  <macro name="when">
    <date variable="issued"><date-part name="year"/></date>
  </macro>
  <macro name="both">
    <group delimiter=" ">
      <text macro="who"/>
      <text macro="when" prefix="c. "/>
    </group>
  </macro>
  <citation>
    <layout prefix="(" suffix=")" delimiter="; ">
      <group delimiter=", ">
        <text macro="both"/><group><label variable="locator" form="short" suffix=" "/><number variable="locator"/></group>
      </group>
    </layout>
  </citation>
  <bibliography subsequent-author-substitute="—">
    <layout suffix=".">
      <names variable="author" suffix=": "><name/><substitute><text variable="publisher"/></substitute></names>
      <choose>
        <if variable="volume"><text variable="title" text-case="uppercase"/></if>
        <else><text variable="title" quotes="true"/></else>
      </choose>
    </layout>
  </bibliography>
</style>
'''
BOTH = 'both', 9, 3, (18, 9)
LAYOUT = at('layout', 16, 5)
WHO = at('names', 4, 5, BOTH, ('who', 3, 3, (11, 7)))
WHEN = at('date', 7, 5, BOTH, ('when', 6, 3, (12, 7)))
BETWEEN = at('group', 10, 5, BOTH)
CALL = at('text', 12, 7, BOTH)
LISTED = at('layout', 23, 5)
NAMES = at('names', 24, 7)
TITLE = at('text', 27, 15)

ALIGNED = '''<?xml version="1.0" encoding="utf-8"?>
<style xmlns="http://purl.org/net/xbiblio/csl" class="in-text" version="1.0">
''' + INFO + '''
<citation><layout><text variable="citation-number"/></layout></citation>
<bibliography second-field-align="flush">
<layout>
<text variable="citation-number" suffix=". "/>
<text term="in"
      suffix=" é "/><text value="a &lt; b"/>
</layout>
</bibliography>
</style>
'''

# Of each case the style, the references, the citations, and the texts of citations and items, each
# with its element.
CASES = {
    'an author and a date in macros': (
        AUTHOR_DATE, [book('Doe', 'One'), book('Roe', 'Two', 2002)],
        [[{'id': 'One'}, {'id': 'Two', 'prefix': 'see', 'locator': '7', 'suffix': 'etc.'}]],
        [[('(', LAYOUT), ('Doe', WHO), (' ', BETWEEN), ('c. ', CALL), ('2001', WHEN), ('; ', LAYOUT),
          ('see ', None), ('Roe', WHO), (' ', BETWEEN), ('c. ', CALL), ('2002', WHEN), (', ', at('group', 17, 7)),
          ('p. ', at('label', 18, 36)), ('7', at('number', 18, 87)), (' etc.', None), (')', LAYOUT)]],
        # English quotes take the period in.
        [[('A Doe: ', NAMES), ('“One.”', TITLE)], [('A Roe: ', NAMES), ('“Two.”', TITLE)]]),
    'names that repeat, and what stands in for them': (
        AUTHOR_DATE, [book('Doe', 'One'), book('Doe', 'Two', volume='1'), book('', 'Three', author=[], publisher='P')],
        [[{'id': 'One', 'author-only': True}], [{'id': 'Two', 'suppress-author': True}], [{'id': 'Three'}]],
        [[('Doe', WHO)],
         [('(', LAYOUT), ('c. ', CALL), ('2001', WHEN), (')', LAYOUT)],
         [('(', LAYOUT), ('c. ', CALL), ('2001', WHEN), (')', LAYOUT)]],
        [[('A Doe: ', NAMES), ('“One.”', TITLE)],
         [('—: ', NAMES), ('TWO', at('text', 26, 31)), ('.', LISTED)],
         [('P', at('text', 24, 63)), (': ', NAMES), ('“Three.”', TITLE)]]),
    'a first field, a tag of two lines, and a letter of two bytes': (
        ALIGNED, [book('Doe', 'One')], [[{'id': 'One'}]],
        [[('1', at('text', 4, 19))]],
        [[('1.', at('text', 7, 1)), (' ', at('layout', 6, 1)), ('in é ', at('text', 8, 1)),
          ('a < b', at('text', 9, 21))]]),
}


def parts(texts):
    return [(it['text'], it['element']) for it in texts]


def joined(texts):
    return ''.join(it['text'] for it in texts)


def written(folder, files):
    for name, text in files.items():
        with open(os.path.join(folder, name), 'w') as file:
            file.write(text)


def ran(ended, program, *words, **how):
    status, out, error = ended(program, *words, **how)
    if status:
        raise Failed('%s: status %d, %s' % (' '.join(words), status, error.strip()))
    return out


def try_case(program, ended, name):
    """Each text stands beside the element that wrote it."""
    style, references, citations, cited, listed = CASES[name]
    with tempfile.TemporaryDirectory(prefix='explained-') as folder:
        written(folder, {'s.csl': style, 'r.json': json.dumps(references), 'c.json': json.dumps(citations)})
        answer = json.loads(ran(ended, program, 'explain', 's.csl', 'r.json', 'c.json', cwd=folder))
    came = [parts(it) for it in answer['citations']], [parts(it['texts']) for it in answer['bibliography']]
    if came != (cited, listed):
        raise Failed('\n    wanted %r\n    came   %r' % ((cited, listed), came))
    if [it['id'] for it in answer['bibliography']] != [it['id'] for it in references]:
        raise Failed('ids %r' % answer['bibliography'])


def styles():
    """The styles of examples and, where they are installed, those of bench/styles."""
    with open(BENCH + 'styles.json') as file:
        names = json.load(file)
    return pandoc.STYLES + [INSTALLED + it + '.csl' for it in names if os.path.exists(INSTALLED + it + '.csl')]


def try_texts(program, ended, style):
    """Together the texts are those that the program writes otherwise."""
    with open(BENCH + 'citations.json') as file:
        citations = [it['cites'] for it in json.load(file)]
    with tempfile.TemporaryDirectory(prefix='explained-') as folder:
        written(folder, {'c.json': json.dumps(citations)})
        files = [BENCH + 'references.json', folder + '/c.json']
        both = ran(ended, program, 'cite', '--with-bibliography', '--style', style, *files)
        answer = json.loads(ran(ended, program, 'explain', style, *files))
    came = [joined(it) for it in answer['citations']]
    if 'bibliography' in answer:
        came += [''] + [joined(it['texts']) for it in answer['bibliography']]
    if came != both.splitlines():
        raise Failed('\n    wanted %r\n    came   %r' % (both.splitlines(), came))


class Page(HTMLParser):
    """The texts and the start tags of a page that belong together."""

    def __init__(self, page):
        super().__init__()
        self.open, self.texts, self.tags, self.lines, self.other = [], [], {}, '', []
        self.feed(page)

    def handle_starttag(self, tag, attributes):
        attributes = dict(attributes)
        self.open.append((tag, attributes))
        if attributes.get('class') == 'text':
            self.texts.append([attributes['data-by'], attributes['data-in'].split(), ''])
        if 'src' in attributes or 'href' in attributes:
            self.other.append(attributes)
        if tag == 'meta':
            self.open.pop()

    def handle_endtag(self, tag):
        last, _ = self.open.pop()
        if last != tag:
            raise Failed('%s ends %s' % (tag, last))

    def handle_data(self, data):
        classes = [it.get('class') for _, it in self.open]
        if 'text' in classes:
            self.texts[-1][2] += data
        if 'lines' in classes:
            self.lines += data
        if 'tag' in classes:
            at = self.open[-1][1]['data-at']
            self.tags[at] = self.tags.get(at, '') + data


def try_page(program, ended):
    """A page has the whole style, and each text leads to the start tags of its element and of the
    macros around it."""
    style, references, citations, cited, _ = CASES['an author and a date in macros']
    references = references + [book('<b>&"', 'Three')]
    with tempfile.TemporaryDirectory(prefix='explained-') as folder:
        written(folder, {'s.csl': style, 'r.json': json.dumps(references), 'c.json': json.dumps(citations + [[{'id': 'Three'}]])})
        page = Page(ran(ended, program, 'explain', '--to', 'html', 's.csl', 'r.json', 'c.json', cwd=folder))
    if page.lines != style or page.open or page.other:
        raise Failed('%r, %r, %r' % (page.lines, page.open, page.other))
    wanted = [(text, element) for text, element in cited[0] if element]
    came = [(text, page.tags[by], [page.tags[it] for it in around]) for by, around, text in page.texts[:len(wanted)]]
    lines = style.splitlines()
    for (text, element), (came_text, tag, around) in zip(wanted, came):
        tags = ['<macro name="%s">' % it['name'] for it in element['macros']]
        line = lines[element['line'] - 1][element['column'] - 1:]
        if came_text != text or not line.startswith(tag) or around[1::2] != tags:
            raise Failed('%r: %r, %r, %r' % (text, came_text, tag, around))
    if '<b>&"' not in [text for _, _, text in page.texts]:
        raise Failed('no name with signs of HTML in %r' % page.texts)


def try_built_in(program, ended):
    """Without files the works of examples/styles are cited; without citations each reference."""
    folder = ROOT + '/examples/styles/'
    files = [folder + 'references.json', folder + 'citations.json']
    if ran(ended, program, 'explain', 'notes') != ran(ended, program, 'explain', 'notes', *files):
        raise Failed('other works')
    with open(files[0]) as file:
        ids = [it['id'] for it in json.load(file)]
    with tempfile.TemporaryDirectory(prefix='explained-') as temporary:
        written(temporary, {'c.json': json.dumps([[{'id': it}] for it in ids])})
        each = ran(ended, program, 'explain', 'numeric', files[0], temporary + '/c.json')
    if ran(ended, program, 'explain', 'numeric', files[0]) != each:
        raise Failed('other citations')


def tests(ended):
    """The tests, by what `ended` gives of a run."""
    tests = [('explained: ' + name, try_case, ended, name) for name in CASES]
    tests += [('explained texts: ' + os.path.basename(path), try_texts, ended, path) for path in styles()]
    tests += [('explained page', try_page, ended), ('explained works', try_built_in, ended)]
    return tests
