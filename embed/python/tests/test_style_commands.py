"""The commands for those who write styles: sample, diff and test. What is expected is what CSL
1.0.2 says of the small styles of this file."""
import json

import pytest

from gamhilon import __main__ as command_line
from gamhilon import _library, csl
from gamhilon._fixtures import FixtureFault, fixture_of, lines_of
from gamhilon._sample_works import CASES, WORKS
from stand_ins import MadeUpStyle

STYLE = """<style xmlns="http://purl.org/net/xbiblio/csl" class="in-text" version="1.0">
<info><title>Own</title><id>own</id><updated>2026-11-29T00:00:00+00:00</updated></info>
<citation {options}><layout delimiter="; " prefix="(" suffix=")">{layout}</layout></citation>
{bibliography}</style>"""
NAMES = ('<names variable="author"><name form="short"/><substitute><names variable="editor"/>'
         '<text variable="title"/></substitute></names>')
TITLE = '<text variable="title"/>'
FIXTURE = """Made by hand, from the rule for et-al-min and et-al-use-first.

>>===== MODE =====>>
{mode}
<<===== MODE =====<<

>>===== RESULT =====>>
{result}
<<===== RESULT =====<<

{more}
>>===== CSL =====>>
{style}
<<===== CSL =====<<

>>===== INPUT =====>>
[{{"id": "one", "type": "book", "title": "First",
   "author": [{{"family": "Doe"}}, {{"family": "Roe"}}, {{"family": "Poe"}}]}},
 {{"id": "two", "type": "book", "title": "Second & last",
   "author": [{{"family": "Lee"}}, {{"family": "Fox"}}]}}]
<<===== INPUT =====<<
"""
NOTHING = 'gamhilon: warning: without its author: the style writes nothing of it\n'
"""What is said of a style whose cites are authors alone."""

ET_AL = 'et-al-min="3" et-al-use-first="1"'


def style(layout=NAMES, options='', bibliography=''):
    return STYLE.format(layout=layout, options=options, bibliography=bibliography)


def fixture(result, mode='citation', more='', **how):
    return FIXTURE.format(mode=mode, result=result, more=more, style=style(**how))


def section(name, value):
    return f'>>===== {name} =====>>\n{json.dumps(value)}\n<<===== {name} =====<<\n'


@pytest.fixture
def run(capfd):
    """Runs a command, and gives its status, what it writes and what it says."""
    def ran(*words):
        status = command_line.main(list(map(str, words)))
        return (status, *capfd.readouterr())
    return ran


@pytest.fixture
def written(tmp_path):
    """Writes files into a folder, and gives their paths."""
    def write(**texts):
        paths = {name: tmp_path / name.replace('_', '.') for name in texts}
        for name, text in texts.items():
            paths[name].write_text(text)
        return list(paths.values())
    return write


@pytest.fixture
def stands_in(monkeypatch):
    """A library that is made up: each cite is the first author's family name and the title."""
    monkeypatch.setattr(_library, '_library', _library.Library(MadeUpStyle()))


# The sample

def test_each_work_of_the_sample_is_cited_and_each_cite_is_of_one():
    keys = {work['id'] for work in WORKS}
    assert {cite['id'] for case in CASES for cite in case.cites} == keys
    assert len({case.name for case in CASES}) == len(CASES) and len(keys) == len(WORKS)


def test_the_works_of_the_sample_are_csl_json(cites):
    assert csl.check_entries(WORKS) == []


def test_a_sample_has_a_line_for_each_citation_and_item(run, stands_in):
    status, out, error = run('sample', 'author-date')
    lines = out.splitlines()
    assert (status, error) == (0, '') and lines[:3] == ['Gamhilon author-date', '', 'Citations']
    assert lines[3] == '  one author                (Adler, The shape of rivers)'
    assert lines.index('Bibliography') == 3 + len(CASES) + 1
    assert len(lines) == 3 + len(CASES) + 2 + len(WORKS)


@pytest.mark.parametrize('form, begins', [
    ('html', '<!DOCTYPE html>'), ('markdown', '# Own'), ('latex', r'\begin{description}'),
])
def test_a_sample_in_other_forms(run, stands_in, written, form, begins):
    status, out, _ = run('sample', *written(own_csl=style()), '--to', form)
    assert status == 0 and out.startswith(begins)
    assert out.count('The shape of rivers') >= 5


def test_a_sample_of_a_style(run, cites, written):
    status, out, error = run('sample', *written(own_csl=style(options=ET_AL)))
    assert (status, error) == (0, NOTHING)
    told = [line.strip().partition('  ') for line in out.splitlines()]
    names = ('one author', 'two authors', 'five authors')
    shown = {name: text.strip() for name, _, text in told if name in names}
    assert shown == {'one author': '(Adler)', 'two authors': '(Bauer, Chen)',
                     'five authors': '(Dahl et al.)'}


@pytest.mark.parametrize('words, status, said', [
    (['sample', 'no-such-style'], 1, "there is no style 'no-such-style'"),
    (['diff', 'author-date', 'none.csl'], 1, "there is no style 'none.csl'"),
    (['sample'], 64, ''), (['diff', 'author-date'], 64, ''), (['diff', '-', '-'], 64, ''),
    (['test'], 64, ''), (['sample', 'notes', '--to', 'json'], 64, ''),
])
def test_what_is_wrong_has_a_status(run, stands_in, words, status, said):
    try:
        found, out, error = run(*words)
        assert (found, out) == (status, '') and said in error
    except SystemExit as ended:
        assert ended.code == status


# What differs

def test_a_style_does_not_differ_from_itself(run, stands_in):
    status, out, error = run('diff', 'notes', 'notes')
    assert (status, error) == (0, '') and out == (
        f'citations: 0 of {len(CASES)} differ\nbibliography: 0 of {len(WORKS)} differ\n')


def test_texts_that_differ_are_told_by_what_they_show(run, cites, written):
    """`et al.` from three authors: two citations of the sample have a work of five."""
    paths = written(old_csl=style(), new_csl=style(options=ET_AL))
    status, out, error = run('diff', *paths)
    assert (status, error) == (11, 2 * NOTHING)
    assert out == (
        f'citations: 2 of {len(CASES)} differ\n  five authors\n'
        '    - (Dahl, Evans, Fontaine, Greco, Hall)\n    + (Dahl et al.)\n  four works\n'
        '    - (Singh; Adler; Lang, Moor; Dahl, Evans, Fontaine, Greco, Hall)\n'
        '    + (Singh; Adler; Lang, Moor; Dahl et al.)\nbibliography: 0 of 0 differ\n')


def test_formats_and_the_order_of_the_list_differ(run, cites, written):
    """Where a text has only another format, it is shown as HTML."""
    listed = '<bibliography>{}<layout>' + TITLE + '</layout></bibliography>'
    cited = f'<group delimiter=" ">{NAMES}{{}}</group>'
    paths = written(
        old_csl=style(cited.format(TITLE), bibliography=listed.format('')),
        new_csl=style(cited.format('<text variable="title" font-weight="bold"/>'),
                      bibliography=listed.format(
                          '<sort><key variable="title" sort="descending"/></sort>')))
    status, out, _ = run('diff', *paths)
    lines = out.splitlines()
    # (all but an author alone, and a title that stands for one, as CSL suppresses it behind that)
    assert status == 11 and lines[0] == f'citations: {len(CASES) - 2} of {len(CASES)} differ'
    assert lines[1:4] == ['  one author', '    - (Adler The shape of rivers)',
                          '    + (Adler <b>The shape of rivers</b>)']
    assert f'bibliography: 0 of {len(WORKS)} differ' in lines and '  in another order' in lines


# Fixtures

CITED = [[{'id': 'one'}], [{'id': 'two', 'locator': '4'}]]
FIXTURES = [
    (fixture('(Doe et al.; Lee, Fox)', options=ET_AL), 'equal'),
    (fixture('(Doe, Roe, Poe; Lee, Fox)', options=ET_AL), 'differ'),
    (fixture('(Doe et al.)\n(Lee, Fox)', options=ET_AL,
             more=section('CITATION-ITEMS', CITED)), 'equal'),
    (fixture('(<b>First</b>; <b>Second &#38; last</b>)',
             layout='<text variable="title" font-weight="bold"/>'), 'equal'),
    (fixture('(First; Second &#38; last)', layout='<text variable="title" font-weight="bold"/>'),
     'differ'),
    (fixture('<div class="csl-bib-body">\n  <div class="csl-entry">First</div>\n'
             '  <div class="csl-entry">Second &#38; last</div>\n</div>', mode='bibliography',
             bibliography=f'<bibliography><layout>{TITLE}</layout></bibliography>'), 'equal'),
    (fixture('', mode='bibliography-header'), 'not run'),
    (fixture('x', more=section('ABBREVIATIONS', {'default': {}})), 'not run'),
]


@pytest.mark.parametrize('text, outcome', FIXTURES)
def test_fixtures_are_run(run, cites, written, text, outcome):
    path, = written(own_txt=text)
    status, out, _ = run('test', path)
    assert out.splitlines()[-1] == f'1 fixture: 1 {outcome}'
    assert status == (11 if outcome == 'differ' else 0)


def test_what_differs_is_shown_line_by_line(run, cites, written):
    path, = written(own_txt=fixture('(Doe)\n(Lee, Fox)', options=ET_AL,
                                    more=section('CITATION-ITEMS', CITED)))
    assert run('test', path) == (11, f'{path}:\n  - (Doe)\n  + (Doe et al.)\n'
                                     '1 fixture: 1 differ\n', '')


def test_formats_may_be_left_out_of_account(run, cites, written):
    path, = written(own_txt=fixture('(First; Second & last)',
                                    layout='<text variable="title" font-style="italic"/>'))
    assert [run('test', path)[0], run('test', '--text', path)[0]] == [11, 0]


def test_a_style_may_stand_in_the_place_of_that_of_fixtures(run, cites, written):
    path, other = written(own_txt=fixture('(First; Second &#38; last)'), other_csl=style(TITLE))
    assert [run('test', path)[0], run('test', path, '--style', other)[0]] == [11, 0]


def test_folders_and_files_that_are_no_fixtures(run, stands_in, written, tmp_path):
    texts = {'a_txt': 'no section', 'b_txt': fixture('x').replace('<<===== CSL =====<<', ''),
             'c_md': 'not looked at'}
    written(**texts)
    status, out, error = run('test', tmp_path)
    assert (status, out) == (2, '0 fixtures\n')
    assert error == (f'gamhilon: {tmp_path}/a.txt: no section MODE\n'
                     f'gamhilon: {tmp_path}/b.txt: the section CSL has no end\n')
    assert run('test', tmp_path / 'none.txt')[0] == 1


def steps(*given):
    """Steps of a text, each a key, its cites, its note, and the keys and notes around it."""
    return [[{'citationID': key, 'citationItems': [{'id': work}],
              'properties': {'noteIndex': note}}, before, behind] for key, work, note, before, behind in given]


@pytest.mark.parametrize('given, cites', [
    (steps(('a', 'one', 0, [], []), ('b', 'two', 0, [['a', 0]], [])),
     [[{'id': 'one'}], [{'id': 'two'}]]),
    (steps(('a', 'one', 1, [], []), ('b', 'two', 1, [], [['a', 2]])),
     [[{'id': 'two', 'note': 1}], [{'id': 'one', 'note': 2}]]),
    (steps(('a', 'one', 0, [], []), ('a', 'two', 0, [], [])), [[{'id': 'two'}]]),
])
def test_the_last_step_says_what_a_text_cites(given, cites):
    told = fixture_of(fixture('..[0] (x)\n>>[1] (y)', more=section('CITATIONS', given)))
    assert told.citations == cites and told.wanted == '(x)\n(y)'


@pytest.mark.parametrize('text, said', [
    (fixture('x', more=section('CITATION-ITEMS', 3)), 'the citations are none'),
    (fixture('x', more=section('CITATIONS', steps(('a', 'one', 0, [['b', 0]], [])))),
     'the citations are none'),
    (fixture('x').replace('[{', '[{,'), 'the section INPUT is no JSON'),
])
def test_a_fixture_that_is_wrong_is_told(text, said):
    with pytest.raises(FixtureFault, match=said):
        fixture_of(text)


@pytest.mark.parametrize('text, with_formats, lines', [
    ('<div class="csl-bib-body">\n <div class="csl-entry">A  b</div>\n</div>', True, ['A b']),
    ('<i>a</i> &amp; b', True, ['<i>a</i> & b']), ('<i>a</i> &lt; b', False, ['a < b']),
    ('<div class="csl-block">a</div><div class="csl-left-margin">1</div>b', True, ['a1b']),
])
def test_lines_of_results(text, with_formats, lines):
    assert lines_of(text, with_formats) == lines
