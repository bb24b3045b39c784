"""A page of 25 citations of 15 works, as reference managers export these, beside pandoc's own: in
three published styles, and from references of three forms."""
import json
import os
import shutil
import subprocess
import sys

import known_page
import pytest
from conftest import FILTER, ROOT, SOURCE

from gamhilon import references

PANDOC = pytest.mark.skipif(not shutil.which('pandoc'), reason='there is no pandoc')


def cites_in(value):
    """The keys of each citation in a part of pandoc's document."""
    found, left = [], [value]
    while left:
        part = left.pop()
        if isinstance(part, dict) and part.get('t') == 'Cite':
            found.append([cite['citationId'] for cite in part['c'][0]])
        left.extend(part.values() if isinstance(part, dict) else
                    part if isinstance(part, list) else [])
    return found


@pytest.fixture
def reader(request):
    """Has a test be skipped where nothing reads references of a form."""
    def has(form):
        if form in ('BibLaTeX', 'YAML'):
            request.getfixturevalue('reads' if form == 'BibLaTeX' else 'yaml')
    return has


@PANDOC
def test_there_are_25_citations_of_15_works():
    done = subprocess.run(['pandoc', '-t', 'json', f'{known_page.FOLDER}/page.md'], check=True,
                          capture_output=True)
    cites = cites_in(json.loads(done.stdout)['blocks'])
    works = {item['id'] for item in known_page.read('works.json')}
    assert len(cites) == known_page.CITATIONS == 25
    assert {key for keys in cites for key in keys} == works and len(works) == 15


@pytest.mark.parametrize('form', known_page.FORMS)
def test_each_form_has_the_same_works(reader, form):
    reader(form)
    read = references.load(f'{known_page.FOLDER}/{known_page.FORMS[form]}')
    assert [item['id'] for item in read.items] == [
        item['id'] for item in known_page.read('works.json')]
    assert read.problems == []


@PANDOC
@pytest.mark.parametrize('form', known_page.FORMS)
@pytest.mark.parametrize('style', known_page.STYLES)
def test_the_page_reads_as_pandoc_writes_it(style, form, reader, cites, published, known, tmp_path):
    """But for the causes that docs/GUIDES/PANDOC.md tells."""
    reader(form)
    script = tmp_path / 'filter.py'
    script.write_text(FILTER.format(python=sys.executable))
    script.chmod(0o755)
    parts, causes = known_page.told(style, form)
    found = known_page.differing(style, form, str(script),
                                 env={**os.environ, 'PYTHONPATH': SOURCE})
    assert found[0] == parts > known_page.CITATIONS + 15
    assert {name: texts for name, texts in found[1].items() if name not in causes} == {}
    assert list(found[1]) == list(causes)


def test_the_documentation_tells_what_differs():
    with open(f'{ROOT}/docs/GUIDES/PANDOC.md', encoding='utf-8') as file:
        documented = ' '.join(file.read().split())
    assert [line for line in known_page.lines()
            if ' '.join(line.split()) not in documented] == []
    causes = {cause for style in known_page.STYLES for form in known_page.FORMS
              for told in known_page.told(style, form)[1].values() for cause in told.split(' and ')}
    assert causes == set(known_page.read('causes.json'))


def test_the_parts_of_a_page_are_told_apart():
    """Without pandoc's help: what is compared has the formatting."""
    page = ('<p>A <span class="citation"><a href="#ref-a">B <em>c</em></a></span>.<a href="#fn1" '
            'class="footnote-ref"><sup>1</sup></a></p>\n<div id="refs" class="references">\n'
            '<div id="ref-a" class="csl-entry">\n<div class="csl-left-margin">[1]</div><div '
            'class="csl-right-inline">D, <span class="smallcaps">e</span>.</div>\n</div>\n</div>\n'
            '<section class="footnotes"><ol><li><p>F.<a href="#x" class="footnote-back">back</a>'
            '</p></li></ol></section>')
    assert known_page.Parts(page).parts == {
        'citation 1': 'A B <i>c</i>.<sup>1</sup>', 'work a': '[1] D, <sc>e</sc>.', 'note 1': 'F.'}
