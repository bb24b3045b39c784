"""The documents of documents/ in the styles of examples/styles, as pandoc's processor writes them:
recorded in pandoc.json."""
import glob
import json
import os
import subprocess
import tempfile

HERE = os.path.dirname(os.path.abspath(__file__))
ROOT = os.path.dirname(os.path.dirname(HERE))
STYLES = sorted(glob.glob(ROOT + '/examples/styles/*.csl'))
RECORDED = HERE + '/pandoc.json'
# How pandoc reads the kinds of locators.
LABELS = {'page': 'p. ', 'chapter': 'chap. ', 'section': 'sec. ', 'figure': 'fig. '}


def documents():
    """References and citations, by names."""
    found = {}
    for path in sorted(glob.glob(HERE + '/documents/*.json')):
        with open(path) as file:
            found[os.path.basename(path)[:-len('.json')]] = json.load(file)
    return found


def recorded():
    with open(RECORDED) as file:
        return json.load(file)


def words(text):
    """A text as pandoc has it."""
    made = []
    for number, word in enumerate(text.split(' ')):
        if number:
            made.append({'t': 'Space'})
        if word:
            made.append({'t': 'Str', 'c': word})
    return made


def cite_of(cite):
    locator = ''
    if 'locator' in cite:
        locator = ', ' + LABELS[cite.get('label', 'page')] + cite['locator']
    return {'citationId': cite['id'], 'citationPrefix': words(cite.get('prefix', '')),
            'citationSuffix': words(locator + cite.get('suffix', '')),
            'citationMode': {'t': 'SuppressAuthor' if cite.get('suppress-author') else 'NormalCitation'}, 'citationNoteNum': 0,
            'citationHash': 0}


def text_of(node):
    """The text of what pandoc has."""
    if isinstance(node, list):
        return ''.join(map(text_of, node))
    kind, content = node['t'], node.get('c')
    if kind == 'Str':
        return content
    if kind in ('Space', 'SoftBreak', 'LineBreak'):
        return ' '
    if kind == 'Quoted':
        left, right = '“”' if content[0]['t'] == 'DoubleQuote' else '‘’'
        return left + text_of(content[1]) + right
    if kind in ('Emph', 'Strong', 'Superscript', 'Subscript', 'SmallCaps', 'Underline', 'Note', 'Para', 'Plain'):
        return text_of(content)
    if kind in ('Span', 'Link', 'Div', 'Cite'):
        return text_of(content[1])
    raise ValueError(kind)


def rendered(style, document):
    """The citations and the bibliography of a document, as pandoc writes them."""
    blocks = [{'t': 'Para', 'c': [{'t': 'Cite', 'c': [[cite_of(cite) for cite in cites], []]}]} for cites in document['citations']]
    with tempfile.NamedTemporaryFile('w', suffix='.json') as references:
        json.dump(document['references'], references)
        references.flush()
        given = {'pandoc-api-version': [1, 22, 2], 'meta': {}, 'blocks': blocks}
        done = subprocess.run(['pandoc', '--citeproc', '--csl', style, '--bibliography', references.name, '-f', 'json', '-t', 'json'],
                              input=json.dumps(given), stdout=subprocess.PIPE, text=True, check=True)
    made = json.loads(done.stdout)['blocks']
    cites = [text_of(it['c']) for it in made if it['t'] == 'Para']
    items = [' '.join(map(text_of, entry['c'][1])) for it in made if it['t'] == 'Div' for entry in it['c'][1]]
    return {'cite': cites, 'bibliography': items}


def record():
    """Writes what the pandoc that is installed makes of each document in each style."""
    made = {name: {os.path.basename(style): rendered(style, document) for style in STYLES} for name, document in documents().items()}
    with open(RECORDED, 'w') as file:
        json.dump(made, file, indent=1, ensure_ascii=False)
        file.write('\n')
