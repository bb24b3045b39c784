"""The Python of the documentation, as it stands there."""
import contextlib
import io
import json
import re

import pytest
from conftest import ROOT

import gamhilon


def block(name, first_words):
    """The block of Python in a file that has these words."""
    with open(f'{ROOT}/{name}', encoding='utf-8') as file:
        blocks = re.findall(r'```python\n(.*?)```', file.read(), re.DOTALL)
    found = [block for block in blocks if first_words in block]
    assert len(found) == 1, f'{name}: {len(found)} blocks have {first_words!r}'
    return found[0]


def printed(code, **known):
    out = io.StringIO()
    with contextlib.redirect_stdout(out):
        exec(code, {'__name__': 'documented', **known})
    return out.getvalue()


def test_the_loop_of_the_driven_document(driver):
    """docs/DRIVEN.md: a document, and what is missing at first, and then."""
    with open(f'{ROOT}/docs/DRIVEN.md', encoding='utf-8') as file:
        section = file.read().split('## The loop')[1].split('\n## ')[0]
    document, *asked = map(json.loads, re.findall(r'(?:^    .*\n)+', section, re.MULTILINE))
    texts, seen = ['Doe 1999', 'Doe 1999, 4'], []

    def write(task):
        seen.append({'missing': [task.data()]})
        return gamhilon.Written([{'text': texts[len(seen) - 1], 'font_style': 'normal',
                                  'font_weight': 'normal'}])

    answer = gamhilon.render_document(document, write=write)
    assert seen == asked
    assert [gamhilon.plain(citation.content) for citation in answer.citations] == ['(Doe 1999, 4)']


def test_the_host_of_thirty_lines(driver):
    code = block('docs/DRIVEN.md', 'gamhilon.render_document(document, write=write)')
    assert len(code.strip().splitlines()) <= 30
    assert printed(code) == '(Doe 1999a, b, 4; Roe 2003)\n(John Doe 1999)\n'


def test_published_styles_of_the_documentation(published, cites):
    assert printed(block('docs/STYLES.md',
                         'csl.render')) == '(A. Smith, 2010, p. 4)\n(see B. Smith, 2010)\n'


@pytest.mark.parametrize('page, locator', [('README.md', '84'), ('embed/README.md', 'p. 84'),
                                           ('embed/python/README.md', 'p. 84'),
                                           ('docs/GUIDES/PYTHON.md', 'p. 84')])
def test_the_style_of_the_readme(page, locator, published, cites, monkeypatch):
    monkeypatch.chdir(f'{ROOT}/embed/python/example')
    first, *items = printed(block(page, 'gamhilon.csl.render')).splitlines()
    assert first == f'(<a href="#ref-darwin">Darwin 1859, {locator}</a>)'
    assert '<div id="ref-darwin" class="csl-entry">' in ''.join(items)


def test_the_error_of_the_guide():
    assert printed(block('docs/GUIDES/PYTHON.md', 'GamhilonError')) == 'StyleMissing\n'


def test_the_calls_of_the_guide_are_there():
    with open(f'{ROOT}/docs/GUIDES/PYTHON.md', encoding='utf-8') as file:
        calls = re.findall(r'`([a-z_]+(?:\.[A-Za-z_]+)?)\(', file.read().split('## Results')[0])
    assert len(calls) >= 12
    for call in calls:
        found = gamhilon
        for name in call.split('.'):
            assert name in dir(found)
            found = getattr(found, name)
