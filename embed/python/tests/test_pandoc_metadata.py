"""What the metadata of a page says to the filter for pandoc: files, references, styles, lists. What
published styles write is held to pandoc's own --citeproc."""
import json
import re
import shutil
import subprocess
from random import Random

import made_up_pages
import pytest
from conftest import REFERENCES

from gamhilon import _library, _pandoc_command, _pandoc_metadata, pandoc_filter
from gamhilon.csl.style import FOLDER
from stand_ins import MadeUpStyle

pytestmark = pytest.mark.skipif(not shutil.which('pandoc'), reason='there is no pandoc')

BOOK = {'id': 'book', 'type': 'book', 'title': 'A Book',
        'author': [{'family': 'Poe', 'given': 'Edgar'}],
        'issued': {'date-parts': [[1845]]}, 'DOI': '10.1000/xyz', 'URL': 'https://example.org/a_b'}


TITLES = ('<style xmlns="http://purl.org/net/xbiblio/csl" version="1.0" class="in-text">'
          '<info><title>Own</title><id>own</id><updated>2026-11-27T00:00:00+00:00</updated></info>'
          '<citation><layout delimiter=" "><text variable="title"/></layout></citation></style>')


def page(metadata, text='[@doe99]'):
    """A page with metadata in YAML."""
    return f'---\n{metadata}\n---\n\n{text}\n'


def told(said):
    return [line.replace('gamhilon-pandoc: ', '') for line in said.splitlines()]


# Files of references

@pytest.fixture
def of_file(pandoc, tmp_path):
    """Runs pandoc over a file in a folder, and gives what it writes and what it says."""
    def run(metadata, text, *words, name='page.md', to='plain'):
        path = tmp_path / name
        path.parent.mkdir(exist_ok=True)
        path.write_text(page(metadata, text))
        return pandoc(None, name, *words, to=to)
    return run


def test_references_of_several_forms(of_file, tmp_path, reads, yaml):
    knuth = '@book{knuth, author={Knuth, Donald}, title={The Art}, date={1968}}'
    rowling = 'harry: {type: Book, title: H, author: "Rowling, J. K.", date: 2003}'
    (tmp_path / 'a.bib').write_text(knuth)
    (tmp_path / 'b.yml').write_text(rowling)
    metadata = 'bibliography: [a.bib, b.yml, refs.json]\nsuppress-bibliography: true'
    out, said, status = of_file(metadata,
                                '[@knuth; @harry; @doe99]')
    assert (out, said, status) == ('(Doe 1999; Knuth 1968; Rowling 2003)\n', '', 0)


def test_files_are_looked_for_beside_the_page_and_in_the_resource_path(of_file, tmp_path):
    for folder, title in (('docs', 'Beside'), ('shared', 'Shared'), ('more', 'More')):
        (tmp_path / folder).mkdir(exist_ok=True)
        (tmp_path / folder / f'{folder}.json').write_text(json.dumps([{'id': folder,
                                                                       'title': title}]))
    (tmp_path / 'shared' / 'own.csl').write_text(TITLES)
    metadata = 'bibliography: [docs.json, shared.json]\nresource-path: shared\ncsl: own.csl'
    out = of_file(metadata, '[@docs] [@shared]', name='docs/page.md')
    assert out == ('Beside Shared\n', '', 0)
    metadata = ('bibliography: [docs.json, shared.json, more.json]\n'
                'resource-path: [shared, more]\ncsl: own.csl')
    assert of_file(metadata, '[@docs] [@more]', name='docs/page.md')[0] == 'Beside More\n'
    metadata = 'bibliography: [docs.json, shared.json]\ncsl: shared/own.csl'
    out = of_file(metadata, '[@shared]', '--resource-path', '.:shared', name='docs/page.md')
    assert out == ('Shared\n', '', 0)
    out, said, status = of_file('bibliography: none.json\nresource-path: shared', '[@x]',
                                name='docs/page.md')
    assert out == '' and status != 0
    assert told(said)[0] == 'bibliography: there is no file none.json: looked in docs, shared, .'


@pytest.mark.parametrize('words, folders', [
    ('a/p.md -o b/out.html --filter x', ['a']), ('p.md', ['']), ('a/p.md p.md a/q.md', ['a', '']),
    ('-t html a/p.md --resource-path b:c', ['a', 'b', 'c']),
    ('--resource-path=b a/p.md', ['a', 'b']),
    ('--bibliography b/r.json -M x=a/p.md a/p.md', ['a']),
    ('--bibliography=b/r.json a/q.md', ['a']), ('-', []), ('', []),
    ('--standalone a/p.md', ['a']), ('nofile.md', []), ('-s a/p.md -V', ['a']),
])
def test_the_command_line_of_pandoc(tmp_path, monkeypatch, words, folders):
    for name in ('a/p.md', 'a/q.md', 'p.md', 'b/out.html', 'b/r.json'):
        (tmp_path / name).parent.mkdir(exist_ok=True)
        (tmp_path / name).write_text('')
    monkeypatch.chdir(tmp_path)
    assert _pandoc_command.folders_of(words.split()) == folders
    assert _pandoc_command.folders() == []


def test_what_is_not_kept_of_files_is_told_where_the_style_would_have_shown_it(of_file, tmp_path,
                                                                               reads):
    """Of what is cited or listed. What CSL has no place for no style would have shown."""
    entries = ['@book{a, title={A}, editorc={X}, editorctype={founder}, usera={x}, '
               'date={1999-13-01}, origdate={around then}}',
               '@book{b, title={B}, year={1999}}', '@book{c, title={C']
    (tmp_path / 'a.bib').write_text('\n'.join(entries))
    (tmp_path / 'own.csl').write_text(TITLES)
    broken = ('a.bib: line 3, column 16: a value without an end: the rest of the entry is left '
              'out')

    def not_kept(fields):
        return f'a.bib: not kept: {fields} (python3 -m gamhilon check a.bib tells more)'

    out, said, status = of_file('bibliography: a.bib', '[@b]')
    assert status == 0 and out.startswith('(B 1999)') and told(said) == [broken]
    for text in ('[@a]', '---\nnocite: "@a"\n---\n'):
        assert told(of_file('bibliography: a.bib', text)[1]) == [broken, not_kept('date')]
    assert told(of_file('bibliography: a.bib\ncsl: own.csl', '[@a; @b]')[1]) == [broken]


def test_the_language_of_the_page_is_that_of_its_entries(of_file, tmp_path, reads):
    (tmp_path / 'a.bib').write_text('@book{a, title={Die Welt}, author={Doe, J.}, date={1999}}')
    assert '1999. Die Welt.' in of_file('bibliography: a.bib\nlang: de-DE', '[@a]')[0]
    assert '1999. Die welt.' in of_file('bibliography: a.bib', '[@a]')[0]


# References of the page

INLINE = '''references:
- id: x
  title: "On *Homo* sapiens, x^2^ and \\"order\\""
  type: book
  author:
  - family: Doe
    given: [J, K]
  - The Foo
  issued:
    date-parts:
    - - 1999
      - 5
- id: "y"
  title: B
  issued: 2001-03-05/2001-04
  volume: 3
- id: z
  issued:
    year: 1999
    month: 5
- id: w
  issued:
  - year: 1999
  - year: 2001
    circa: true
'''


def test_references_of_the_page_are_items_as_pandoc_reads_them():
    """What pandoc makes of them (`pandoc --citeproc -t csljson`), but that the place of a name is
    kept."""
    done = subprocess.run(['pandoc', '-t', 'json'], input=page(INLINE).encode(),
                          capture_output=True, check=True)
    said = []
    items = _pandoc_metadata.items_of_page(json.loads(done.stdout)['meta']['references'],
                                           said.append)
    assert items == [
        {'id': 'x', 'title': 'On <i>Homo</i> sapiens, x<sup>2</sup> and “order”', 'type': 'book',
         'author': [{'family': 'Doe', 'given': 'J K'}, {'literal': 'The Foo'}],
         'issued': {'date-parts': [['1999', '5']]}},
        {'id': 'y', 'title': 'B', 'volume': '3',
         'issued': {'date-parts': [[2001, 3, 5], [2001, 4]]}},
        {'id': 'z', 'issued': {'date-parts': [[1999, 5]]}},
        {'id': 'w', 'issued': {'date-parts': [[1999], [2001]], 'circa': True}},
    ]
    assert said == []


def test_references_of_the_page_count_before_those_of_files(of_file):
    inline = ('bibliography: refs.json\nreferences:\n- id: doe99\n  author: [family: Own]\n'
              '  issued: 2020')
    out, said, status = of_file(f'{inline}\nnocite: "@*"', '[@doe99; @roe00]')
    assert out.startswith('(Own 2020; Roe 2000)\n') and (said, status) == ('', 0)


def test_an_id_that_is_none_is_told(of_file):
    """YAML reads `y` as true."""
    inline = ('references:\n- id: y\n  title: A\n- title: B\n- id: c\n  issued: 1999\n'
              '- id: {a: b}\n- id: [a]')
    out, said, status = of_file(f'{inline}\nnocite: "@*"', '[@c]')
    assert out.startswith('(1999)') and status == 0
    assert told(said) == ['references: item 1: its id reads as true: put it in quotes',
                          *(f'references: item {place}: it has no id' for place in (2, 4, 5))]


# Styles

def test_a_style_that_is_not_there_is_an_error(pandoc, tmp_path):
    for name in ('no-such-style', 'none.csl', 'folder/none'):
        out, said, status = pandoc('[@doe99]', csl=name)
        assert out == '' and status != 0
        assert told(said)[0].startswith(f"csl: there is no style '{name}'")


CITATIONS = [
    '[@doe99]', '[see @doe99, pp. 3-5, emph; @roe00]', '@doe99 says [-@roe00].',
    '[*see* @doe99, p. 3, **bold**]', 'More @roe00 [p. 5].', '[@doe99; @doe01]',
    'X^[See [@doe99, chap. 3].]', '[@doe99, col. 3; @roe00, no. 4]',
]


@pytest.mark.parametrize('style',
                         ['apa', 'chicago-author-date', 'ieee',
                          'american-sociological-association'])
def test_published_styles_as_pandoc_writes_them(pandoc, known, published, style):
    text = '\n\n'.join(f'{citation}\n\n-- {place} --' for place, citation in enumerate(CITATIONS))
    path = f'{FOLDER}/{style}.csl'
    wanted = pandoc(text, own=False, csl=path, suppress_bibliography='true')[0]
    for name in (style, path):
        out, said, status = pandoc(text, csl=name, suppress_bibliography='true')
        assert out.split('\n\n') == wanted.split('\n\n') and status == 0 and 'gamhilon' not in said


def test_published_styles_of_notes(pandoc, published):
    text = 'A [@doe99, p. 3]. B @roe00 [p. 5], C^[Own [@doe99, p. 4].] D [@doe99].'
    out, said, status = pandoc(text, csl='chicago-fullnote-bibliography',
                               suppress_bibliography='true')
    assert out.strip().split('\n\n') == [
        'A.[1] B Richard Roe,[2] C[3] D.[4]', '[1] Jane Doe, “On Order,” 1999, 3.',
        '[2] “A Reply,” 2000, 5.', '[3] Own Doe, “On Order,” 4.', '[4] Doe, “On Order.”']
    assert (said, status) == ('', 0)


@pytest.mark.parametrize('text', [
    'A [@doe99, and more].', 'A [@doe99. And more].', 'A [@doe99, *and* more; @roe00, p. 3, x].',
    'A [@doe99]. B [@doe99, in part].', 'A^[See @doe99, p. 3, and more.]', 'A^[As @doe99 says.]',
    'A [see @doe99 (and more)].',
])
def test_punctuation_of_the_page_and_quotation_marks_of_a_style(pandoc, published, known, text):
    wanted = pandoc(text, own=False, csl=f'{FOLDER}/chicago-fullnote-bibliography.csl',
                    suppress_bibliography='true')[0]
    out, said, status = pandoc(text, csl='chicago-fullnote-bibliography',
                               suppress_bibliography='true')
    assert (out, said, status) == (wanted, '', 0)


def test_published_styles_link_to_their_lists_and_list_what_is_not_cited(pandoc, published,
                                                                         tmp_path):
    (tmp_path / 'more.json').write_text(json.dumps([BOOK]))
    out = pandoc('[see @doe99, p. 3, emph; @roe00]', csl='apa', to='html', nocite='@doe01')[0]
    assert re.findall(r'id="ref-(\w+)"', out) == ['doe99', 'doe01', 'roe00']
    assert re.findall(r'<a href="#ref-(\w+)">([^<]*)</a>', out) == [('doe99', 'Doe, 1999, p. 3'),
                                                                    ('roe00', 'Roe, 2000')]


def test_the_language_of_the_page_is_that_of_its_published_style(pandoc, published):
    for lang in ('de', 'de-DE'):
        out = pandoc('[@doe99, pp. 3-5]', csl='apa', lang=lang, suppress_bibliography='true')[0]
        assert out == '(Doe, 1999, S. 3–5)\n'


def test_a_style_of_a_file_beside_the_page(of_file, tmp_path):
    """It goes before one of the same name elsewhere."""
    (tmp_path / 'docs').mkdir()
    for name in ('own', 'notes'):
        (tmp_path / 'docs' / f'{name}.csl').write_text(TITLES)
    for name in ('own.csl', 'own', 'docs/own.csl', 'notes'):
        out, said, status = of_file(f'bibliography: refs.json\ncsl: {name}', '[@doe99]',
                                    name='docs/page.md')
        assert (out, said, status) == ('On Order\n', '', 0)


def test_a_style_may_be_an_option_of_pandoc(pandoc, tmp_path):
    (tmp_path / 'own.csl').write_text(TITLES)
    assert pandoc('[@doe99]', '--csl', 'own.csl') == ('On Order\n', '', 0)


def test_a_language_without_a_locale_file_is_told(pandoc):
    out, said, status = pandoc('[@doe99, p. 3]', lang='xx', suppress_bibliography='true')
    assert (out, status) == ('(Doe 1999, p. 3)\n', 0)
    assert told(said) == ['locales: no locale of `xx`, its words are those of American English']


def test_what_is_odd_in_references_is_told_and_costs_nothing(pandoc, tmp_path):
    odd = [{**REFERENCES[0], 'titel': 'x'}, {**REFERENCES[1], 'volume': {}}]
    (tmp_path / 'odd.json').write_text(json.dumps(odd))
    out, said, status = pandoc('[@doe99; @roe00]', bibliography='odd.json',
                               suppress_bibliography='true')
    assert (out, status) == ('(Doe 1999; Roe 2000)\n', 0)
    assert [line.split(': ')[0] for line in told(said)] == ['entry roe00, volume',
                                                            'entry doe99, titel']


# Authors

def test_the_author_stands_in_the_text_where_the_style_writes_it(pandoc, published, known,
                                                                 tmp_path):
    (tmp_path / 'more.json').write_text(json.dumps([*REFERENCES, {
        'id': 'anon', 'type': 'book', 'title': 'Nameless', 'issued': {'date-parts': [[1950]]}}]))
    text = 'A @doe99 says. B @anon [p. 3] says. C @doe99 [p. 4; @roe00]. D [-@doe99, p. 5].'
    for style in ('chicago-author-date', 'apa', 'modern-language-association', 'ieee'):
        how = {'bibliography': 'more.json', 'suppress_bibliography': 'true',
               'csl': f'{FOLDER}/{style}.csl'}
        wanted, own = (pandoc(text, own=way, **how)[0] for way in (False, True))
        assert own == wanted, style


def test_an_author_in_the_text_of_a_style_of_notes_is_never_ibid(pandoc):
    out = pandoc('A @doe99 says. B @doe99 too. C [@doe99].', csl='notes',
                 suppress_bibliography='true')[0].strip().split('\n\n')
    assert out[0] == 'A Jane Doe[1] says. B Doe[2] too. C.[3]'
    assert out[2] == '[2] On Order.' and out[3] == '[3] Ibid.'


def test_a_cite_of_which_nothing_but_its_author_is_written_is_told(pandoc, published):
    out, said, status = pandoc('A [-@doe99]. B @roe00 says. C [-@doe99; @roe00].',
                               csl='modern-language-association', suppress_bibliography='true')
    assert (out, status) == ('A . B Roe says. C (Roe).\n', 0)
    assert told(said) == [
        'citation 1, [-@doe99]: the style writes nothing of doe99 but its author',
        'citation 3, [-@doe99; @roe00]: the style writes nothing of doe99 but its author']


# Citations in the words around cites

def test_a_cite_in_the_words_behind_another_is_told_and_written(pandoc):
    """pandoc reads one cite, with `@roe00` in its suffix."""
    out, said, status = pandoc('A [see @doe99, p. 3 and *also @roe00*, p. 4].',
                               suppress_bibliography='true')
    assert (out, status) == ('A (see Doe 1999, p. 3 and also Roe (2000), p.\u00a04).\n', 0)
    assert told(said) == [
        'citation 1, [see @doe99, p. 3 and *also @roe00*, p. 4]: @roe00 stands in the words around '
        '@doe99, so that it is no cite beside it: a semicolon between them makes it one']
    out, said, _ = pandoc('[@doe99, see [@nobody]]', suppress_bibliography='true')
    assert out == '(Doe 1999, see (nobody?))\n'
    assert told(said)[1] == 'citation 2, [@nobody]: no entry has the key nobody'


def test_a_cite_in_the_words_of_a_note_stands_in_that_note(pandoc):
    out = pandoc('A [see @doe99 and @roe00]. B [@doe99].', csl='notes',
                 suppress_bibliography='true')[0]
    assert out.strip().split('\n\n') == [
        'A.[1] B.[2]',
        '[1] See Jane Doe, On Order (1999) and Richard Roe, A Reply (2000).',
        '[2] Doe, On Order.']


def test_a_key_that_is_nearly_one_is_told(pandoc):
    assert told(pandoc('[@doe98; @nobody]', suppress_bibliography='true')[1]) == [
        'citation 1, [@doe98; @nobody]: no entry has the key doe98: is \'doe99\' meant?',
        'citation 1, [@doe98; @nobody]: no entry has the key nobody']


def test_notes_may_stay_before_punctuation(pandoc):
    how = {'csl': 'notes', 'suppress_bibliography': 'true'}
    assert pandoc('A [@doe99].', **how)[0].startswith('A.[1]\n')
    assert pandoc('A [@doe99].', notes_after_punctuation='false', **how)[0].startswith('A[1].\n')


# Reference lists

LISTS = 'bibliography:\n  primary: [a.json, b.json]\n  secondary: c.json'


@pytest.fixture
def lists(of_file, tmp_path):
    """Runs pandoc over a text whose references are of three files, and gives the keys in each
    div."""
    for name in 'abcd':
        (tmp_path / f'{name}.json').write_text(json.dumps([{**BOOK, 'id': name, 'title': name}]))

    def run(text, metadata=LISTS):
        out, said, status = of_file(metadata, text, to='html')
        assert (said, status) == ('', 0)
        found, div = {}, None
        for identifier in re.findall(r'id="(refs[\w-]*|ref-\w+|bibliography)"', out):
            div = div if identifier.startswith('ref-') else identifier
            found.setdefault(div, [])
            found[div] += [identifier[4:]] if identifier.startswith('ref-') else []
        return found
    return run


def test_lists_by_name(lists):
    text = ('[@a; @b; @c]\n\n# One\n\n::: {#refs-primary}\n:::\n\n# Two\n\n'
            '::: {#refs-secondary}\n:::\n')
    assert lists(text) == {'refs-primary': ['a', 'b'], 'refs-secondary': ['c']}


def test_what_no_list_by_name_has_stands_in_the_other(lists):
    text = '[@a; @c]\n\n::: {#refs-secondary}\n:::\n'
    assert lists(text) == {'refs-secondary': ['c'], 'refs': ['a']}
    text = '::: {#refs}\n:::\n\n[@a; @c]\n\n::: {#refs-primary}\n:::'
    assert lists(text) == {'refs': ['c'], 'refs-primary': ['a']}
    assert lists('[@a; @c]') == {'refs': ['a', 'c']}
    metadata = f'{LISTS}\nreference-section-title: Refs'
    assert lists('[@a; @c]\n\n::: {#refs-primary}\n:::', metadata) == {'refs-primary': ['a'],
                                                                       'bibliography': [],
                                                                       'refs': ['c']}


def test_the_heading_of_the_list_may_cite(of_file):
    out, said, status = of_file('bibliography: refs.json\nreference-section-title: '
                                '"Works, after [@doe99]"', 'A [@roe00].')
    assert '\nWorks, after (Doe 1999)\n' in out and (said, status) == ('', 0)


def test_addresses_in_the_list_are_links(pandoc, tmp_path):
    (tmp_path / 'own.csl').write_text(TITLES.replace(
        '</style>', '<bibliography><layout><text variable="title"/><text variable="note" '
        'prefix=" "/></layout></bibliography></style>'))
    note = 'doi:10.1000/x(y)z, https://example.org/a_b; (see https://example.org/c).'
    (tmp_path / 'more.json').write_text(json.dumps([{**BOOK, 'note': note}]))
    how = {'bibliography': 'more.json', 'csl': 'own.csl', 'to': 'html'}
    out = pandoc('[@book]', **how)[0]
    assert re.findall(r'<a[^>]* href="([^"#]+)"[^>]*>([^<]+)</a>', out.replace('\n', ' ')) == [
        ('https://doi.org/10.1000/x(y)z', '10.1000/x(y)z'),
        ('https://example.org/a_b', 'https://example.org/a_b'),
        ('https://example.org/c', 'https://example.org/c')]
    assert 'href="http' not in pandoc('[@book]', link_bibliography='false', **how)[0]


def cites_in(value):
    if isinstance(value, list):
        return sum(map(cites_in, value))
    if isinstance(value, dict):
        return (value.get('t') == 'Cite') + sum(map(cites_in, value.values()))
    return 0


def test_whatever_a_page_says_ends_in_a_page_or_in_an_error_of_ours(monkeypatch, tmp_path):
    monkeypatch.setattr(_library, '_library', _library.Library(MadeUpStyle()))
    monkeypatch.chdir(tmp_path)
    (tmp_path / 'refs.json').write_text(json.dumps(REFERENCES))
    random, answered = Random(5), 0
    for _ in range(250):
        page = made_up_pages.page(random)
        try:
            made = pandoc_filter.filtered(json.loads(json.dumps(page)), str)
        except _pandoc_metadata.FilterError:
            continue
        answered += 1
        left = {**made['meta'], 'nocite': None, 'references': None}
        assert cites_in(made['blocks']) == cites_in(left) == 0, page
    assert answered > 150
