"""A page of 25 citations of 15 works, as reference managers export these, by the filter and by
pandoc's own --citeproc: which of its parts read otherwise, and why.

    python known_page.py gamhilon-pandoc        # each part that differs, with both texts

page/differences.json has the causes by hand: by style and form of the references, how many parts
there are, and the causes of each that differs, by the names of page/causes.json, with ` and `
between them.
"""
import html.parser
import json
import os
import subprocess
import sys

HERE = os.path.dirname(os.path.abspath(__file__))
FOLDER = f'{HERE}/page'
PUBLISHED = '/usr/share/citation-style-language/styles'
STYLES = ('apa', 'ieee', 'chicago-fullnote-bibliography')
FORMS = {'CSL-JSON': 'works.json', 'BibLaTeX': 'works.bib', 'YAML': 'works.yml'}
"""The forms of the references. (pandoc reads no YAML of hayagriva, so that its page of CSL-JSON is
the measure of that.)"""

CITATIONS = 25
_FORMATS = {'em': 'i', 'i': 'i', 'strong': 'b', 'b': 'b', 'sup': 'sup', 'sub': 'sub', 'u': 'u'}


def read(name):
    """What a file of the page has."""
    with open(f'{FOLDER}/{name}', encoding='utf-8') as file:
        return json.load(file)


class Parts(html.parser.HTMLParser):
    """The parts of a page in HTML by their names: its paragraphs, the items of its list and its
    notes, as texts in which tags of formatting stay."""

    def __init__(self, page):
        super().__init__()
        self.parts, self.name, self.depth, self.open = {}, None, 0, []
        self.counts = {'citation': 0, 'note': 0}
        self.is_in_notes = self.is_left_out = False
        self.feed(page)
        self.close()
        self.parts = {name: ' '.join(''.join(text).split()) for name, text in self.parts.items()}

    def handle_starttag(self, tag, attributes):
        told = dict(attributes)
        classes = (told.get('class') or '').split()
        if tag in ('section', 'aside') and 'footnotes' in classes:
            self.is_in_notes = True
        if self.name is None and 'csl-entry' in classes:
            self.begin(told['id'].replace('ref-', 'work ', 1))
        elif self.name is None and tag == 'p':
            kind = 'note' if self.is_in_notes else 'citation'
            self.counts[kind] += 1
            self.begin(f'{kind} {self.counts[kind]}')
        elif self.name and tag in ('p', 'div'):
            self.depth += 1
            self.write(' ')
        if self.name:
            self.begin_format(tag, classes, told.get('style') or '')
        self.is_left_out = self.is_left_out or 'footnote-back' in classes

    def begin(self, name):
        self.name, self.depth, self.open = name, 0, []
        self.parts[name] = []

    def begin_format(self, tag, classes, style):
        name = _FORMATS.get(tag)
        if tag == 'span' and ('smallcaps' in classes or 'small-caps' in style):
            name = 'sc'
        if tag in (*_FORMATS, 'span', 'a'):
            self.open.append((tag, name))
            self.write(f'<{name}>' if name else '')

    def handle_endtag(self, tag):
        if self.name and tag in ('p', 'div'):
            self.depth -= 1
            self.name = None if self.depth < 0 else self.name
        elif self.name and self.open and self.open[-1][0] == tag:
            name = self.open.pop()[1]
            self.write(f'</{name}>' if name else '')
        self.is_left_out = self.is_left_out and tag != 'a'

    def handle_data(self, data):
        if self.name and not self.is_left_out:
            self.write(data)

    def write(self, text):
        self.parts[self.name].append(text)


def page_by(style, file, *way, **how):
    """The parts of the page that pandoc writes by a way."""
    words = ['pandoc', '-f', 'markdown', '-t', 'html', '--wrap=none', '--metadata',
             f'bibliography={FOLDER}/{file}', '--metadata', 'lang=en-US', *way, f'{FOLDER}/page.md']
    done = subprocess.run(words, capture_output=True, text=True, timeout=600, **how)
    if done.returncode:
        raise RuntimeError(f'{style}, {file}: status {done.returncode}: {done.stderr}')
    return Parts(done.stdout).parts


def by_pandoc(style, form):
    """The parts of the page by --citeproc."""
    file = FORMS['CSL-JSON' if form == 'YAML' else form]
    return page_by(style, file, '--citeproc', '--csl', f'{PUBLISHED}/{style}.csl')


def by_filter(style, form, command, **how):
    """The parts of the page by the filter."""
    return page_by(style, FORMS[form], '--metadata', f'csl={style}', '--filter', command, **how)


def differing(style, form, command, **how):
    """How many parts pandoc's page has, and those that read otherwise, by their names: as pandoc
    writes them and as the filter does."""
    theirs, ours = by_pandoc(style, form), by_filter(style, form, command, **how)
    names = [*theirs, *(name for name in ours if name not in theirs)]
    return len(theirs), {name: (theirs.get(name), ours.get(name)) for name in names
                         if theirs.get(name) != ours.get(name)}


def told(style, form):
    """How many parts there are, and the cause of each that differs, as differences.json has it."""
    said = read('differences.json')[style][form]
    return said['parts'], said['causes']


def lines():
    """What docs/GUIDES/PANDOC.md says of the page: the rows of its table, and the causes."""
    rows = []
    for style in STYLES:
        for form in FORMS:
            parts, causes = told(style, form)
            by_cause = {}
            for name, cause in causes.items():
                by_cause.setdefault(cause, []).append(name)
            cell = '; '.join(f'{cause}: {", ".join(names)}' for cause, names in by_cause.items())
            rows.append(f'| {style} | {form} | {parts - len(causes)} of {parts} | {cell} |')
    return [*rows, *(f'- **{name}**: {cause}' for name, cause in read('causes.json').items())]


def main(command):
    """Prints each part that differs."""
    for style in STYLES:
        for form in FORMS:
            parts, found = differing(style, form, command)
            print(f'{style}, {form}: {len(found)} of {parts} differ')
            for name, (theirs, ours) in found.items():
                print(f'  {name}\n    pandoc    {theirs}\n    Gamhilon  {ours}')


if __name__ == '__main__':
    main(sys.argv[1])
