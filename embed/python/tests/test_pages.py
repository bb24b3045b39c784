"""Pages that look right: addresses as links, the style sheet, and what a browser makes of it."""
import json
import re
import shutil
import subprocess
import time

import pytest
from conftest import SOURCE

import gamhilon
from gamhilon import __main__ as command_line
from gamhilon import _library, pages
from stand_ins import ModelOfTheLibrary

LONG = ' and a title that goes on for so long that it takes several lines in a narrow column'


def node(text, **more):
    return {'text': text, 'font_style': 'normal', 'font_weight': 'normal', **more}


def bibliography(*trees, first=(), hanging=False, lines=1, entries=1, align=None):
    """A bibliography of these trees, which may have first fields."""
    fields = [node(line) for line in first] or [None] * len(trees)
    items = [gamhilon.Item(f'k{place}', tree, field)
             for place, (tree, field) in enumerate(zip(trees, fields))]
    return gamhilon.Bibliography(items, hanging, lines, entries, align)


WRITERS = (gamhilon.bibliography_to_html, gamhilon.bibliography_to_markdown,
           gamhilon.bibliography_to_latex)


# What the writers take

def test_a_citation_a_tree_and_a_node_are_written_alike():
    citation = gamhilon.Citation([node('Doe & Roe', font_style='italic')])
    for write in (gamhilon.to_html, gamhilon.to_markdown, gamhilon.to_latex, gamhilon.plain):
        assert write(citation) == write(citation.content) == write(citation.content[0]) != ''
    cite = gamhilon.Citation([{'meta': {'entry': 0}, 'children': [node('Doe')]}])
    assert gamhilon.to_html(cite, ['doe']) == '<a href="#ref-doe">Doe</a>'


def test_no_bibliography_is_nothing():
    assert [write(gamhilon.Answer([]).bibliography) for write in WRITERS] == ['', '', '']


# Addresses

@pytest.mark.parametrize('text, links', [
    ('See https://example.org/a_b?c=1&d, and so on.', [('https://example.org/a_b?c=1&amp;d',) * 2]),
    ('HTTP://example.org/.', [('HTTP://example.org/',) * 2]),
    ('(https://example.org/a_(b))', [('https://example.org/a_(b)',) * 2]),
    ('“https://example.org/a”', [('https://example.org/a',) * 2]),
    ('doi:10.1000/x(y)z.', [('https://doi.org/10.1000/x(y)z', '10.1000/x(y)z')]),
    ('10.1000/182; 10.12345/a.b',
     [('https://doi.org/10.1000/182', '10.1000/182'),
      ('https://doi.org/10.12345/a.b', '10.12345/a.b')]),
    ('https://doi.org/10.1000/182', [('https://doi.org/10.1000/182',) * 2]),
    ('pp. 10.1/2, 10.10 and 110.1000/182, ftp://x.y javascript:z', []), ('', []), ('https://', []),
])
def test_urls_and_dois_in_a_list_are_links(text, links):
    written = gamhilon.bibliography_to_html(bibliography([node(text)]))
    assert re.findall(r'<a href="([^"]*)">([^<]*)</a>', written) == links
    assert gamhilon.to_html([node(text)]).count('<a') == 0
    bare = re.sub('<[^>]*>', '', written).strip()
    assert bare == re.sub('<[^>]*>', '', gamhilon.to_html([node(text)])).strip()


def test_links_in_the_other_forms():
    listed = bibliography([node('doi:10.1000/a_b')])
    markdown, latex = (write(listed) for write in WRITERS[1:])
    assert '10.1000/a\\_b](<https://doi.org/10.1000/a_b>)' in markdown
    shown = latex.replace(r'\allowbreak{}', '')
    assert r'\href{https://doi.org/10.1000/a_b}{10.1000/a\_b}' in shown


def test_an_address_may_go_on_in_the_next_text_and_links_stay():
    tree = [node('https://doi.org/'), node('10.1000/182'), node('. '),
            node('shown', url='https://example.org/x')]
    written = gamhilon.bibliography_to_html(bibliography(tree))
    assert re.findall(r'<a href="([^"]*)">([^<]*)</a>', written) == [
        ('https://doi.org/10.1000/182',) * 2, ('https://example.org/x', 'shown')]
    tree = [node('https://example.org/'), node('x', font_style='italic')]
    assert '<a' not in gamhilon.bibliography_to_html(bibliography(tree))
    tree = [node('https://doi.org/'), node('10.1000/182', url='https://doi.org/10.1000/182')]
    written = gamhilon.bibliography_to_html(bibliography(tree))
    assert re.findall(r'<a href="([^"]*)">', written) == ['https://doi.org/10.1000/182']


def test_a_long_text_of_addresses_does_not_take_long():
    texts = ['https://' * 20000, '10.1000/' * 20000, 'https://x' + ')' * 50000,
             '(' * 50000 + 'https://x' + ')' * 50000, 'https://x ' * 5000]
    began = time.process_time()
    for text in texts:
        assert gamhilon.bibliography_to_html(bibliography([node(text)]))
    assert time.process_time() - began < 20


# The style sheet

def test_a_list_tells_its_layout():
    written = gamhilon.bibliography_to_html(bibliography([node('x')], hanging=True, lines=2,
                                                         entries=0))
    assert written.startswith('<div id="refs" class="references csl-bib-body hanging-indent" '
                              'style="--csl-line-spacing: 2; --csl-entry-spacing: 0">\n')
    written = gamhilon.bibliography_to_html(bibliography([node('x')], first=['1'], align='flush'))
    assert 'class="references csl-bib-body second-field-align-flush"' in written


def test_the_style_sheet_has_rules_for_what_is_written():
    sheet = gamhilon.style_sheet()
    with open(f'{SOURCE}/gamhilon/gamhilon.css', encoding='utf-8') as file:
        assert sheet == file.read()
    for name in ('csl-bib-body', 'csl-entry', 'hanging-indent', 'csl-left-margin',
                 'csl-right-inline', 'csl-block', 'csl-indent',
                 'second-field-align-flush', 'second-field-align-margin', 'citation'):
        assert f'.{name}' in sheet
    assert sheet.count('{') == sheet.count('}')
    assert all(f'var({name}, 1)' in sheet for name in ('--csl-line-spacing', '--csl-entry-spacing'))


def test_the_commands_write_the_style_sheet(monkeypatch, tmp_path, capfd, document):
    monkeypatch.setattr(_library, '_library', _library.Library(ModelOfTheLibrary()))
    monkeypatch.setattr(_library.Library, 'check_limits', lambda *_: None)
    assert command_line.main(['css']) == 0 and capfd.readouterr().out == gamhilon.style_sheet()
    entries = [{'key': 'doe', 'author': [['Doe']], 'title': 'T', 'issued': 1999}]
    requests = [{'style': 'author-date', 'items': [{'entry': 'doe'}]}]
    path = tmp_path / 'a.json'
    path.write_text(json.dumps({**document('author_date'), 'entries': entries,
                                'requests': requests}))
    words = ['render', '--to', 'html', '--standalone', str(path)]
    assert command_line.main([*words, '--link-citations']) == 0
    page = capfd.readouterr().out
    assert page.startswith('<!DOCTYPE html>\n<html lang="en">\n') and gamhilon.style_sheet() in page
    assert '<p class="citation">(<a href="#ref-doe">Doe 1999</a>)</p>\n<div id="refs"' in page
    assert command_line.main(words) == 0
    plain = capfd.readouterr().out
    assert '<p class="citation">(Doe 1999)</p>\n<div id="refs"' in plain
    assert command_line.main(['render', '--standalone', str(path)]) == 0
    assert capfd.readouterr().out == plain
    with pytest.raises(SystemExit) as ended:
        command_line.main(['render', '--standalone', '--to', 'text', str(path)])
    assert ended.value.code == 64


# In a browser

MEASURE = '''<script>
const lines = it => {
  const range = document.createRange();
  range.selectNodeContents(it);
  return [...new Set([...range.getClientRects()].map(r => Math.round(r.left)))];
};
const box = it => {
  const r = it.getBoundingClientRect();
  return [r.left, r.right, r.top, r.bottom].map(Math.round);
};
const all = (list, name) => [...list.querySelectorAll(name)];
document.title = JSON.stringify([...document.querySelectorAll('.csl-bib-body')].map(list => ({
  list: box(list), size: parseFloat(getComputedStyle(list).fontSize),
  lineHeight: parseFloat(getComputedStyle(list).lineHeight),
  lines: all(list, '.csl-entry').map(lines), entries: all(list, '.csl-entry').map(box),
  first: all(list, '.csl-left-margin').map(box), rest: all(list, '.csl-right-inline').map(box)})));
</script>'''


@pytest.fixture
def measured(tmp_path):
    """What chromium makes of lists in a column of 400 pixels."""
    if not shutil.which('chromium'):
        pytest.skip('there is no chromium')

    def measure(*lists, before=''):
        content = ''.join(map(gamhilon.bibliography_to_html, lists))
        column = f'<div style="width: 400px; margin-left: 100px">{content}</div>{MEASURE}'
        page = tmp_path / 'page.html'
        page.write_text(pages.standalone(column).replace('<style>', before + '<style>', 1),
                        encoding='utf-8')
        done = subprocess.run(['chromium', '--headless', '--no-sandbox', '--disable-gpu',
                               '--dump-dom', f'file://{page}'],
                              capture_output=True, timeout=120)
        title = re.search('<title>(.*?)</title>', done.stdout.decode(), re.DOTALL).group(1)
        return json.loads(title.replace('&quot;', '"'))
    return measure


def trees(count=3):
    return [[node(f'Doe {place}.{LONG}.')] for place in range(count)]


PANDOC_STYLES = ('<style>div.hanging-indent { margin-left: 1.5em; text-indent: -1.5em; } '
                 'div.csl-entry { margin-bottom: 1em; }</style>')


@pytest.mark.parametrize('before', ['', PANDOC_STYLES], ids=['alone', 'beside those of pandoc'])
def test_hanging_indents_and_spacing_in_a_browser(measured, before):
    wide, narrow = measured(bibliography(*trees(), hanging=True, lines=2, entries=0),
                            bibliography(*trees(), entries=2), before=before)
    em = wide['size']
    left = wide['list'][0]
    assert all(line[0] == left and set(line[1:]) == {left + 2 * em} for line in wide['lines'])
    assert all(set(line) == {left} for line in narrow['lines'])
    assert wide['lineHeight'] == pytest.approx(2 * narrow['lineHeight'], abs=1)
    gaps = [[after[2] - before[3] for before, after in zip(page['entries'], page['entries'][1:])]
            for page in (wide, narrow)]
    assert gaps == [[0, 0], [2 * em] * 2]


def test_first_fields_in_columns_in_a_browser(measured):
    first = ['[1]', '[2]', '[100]']
    flush, margin = measured(*[bibliography(*trees(), first=first, align=align)
                               for align in ('flush', 'margin')])
    # (all that stands right begins where the widest number ends)
    assert len({place[0] for place in flush['rest']}) == 1
    assert {place[0] for place in flush['first']} == {flush['list'][0]}
    assert all(number[1] <= rest[0] and number[2] == rest[2]
               for number, rest in zip(flush['first'], flush['rest']))
    assert all(number[1] <= margin['list'][0] for number in margin['first'])
    assert {place[0] for place in margin['rest']} == {margin['list'][0]}
