"""The filter for pandoc, with Debian's pandoc. What citations read like is held to pandoc's own, of
--citeproc, in the same style."""
import json
import re
import shutil
import subprocess
from random import Random

import pytest
from conftest import PROJECT, REFERENCES, ROOT

from gamhilon import _locators, _pandoc_marks, _pandoc_names
from gamhilon._writing import Piece
from gamhilon.csl.style import FOLDER

CHICAGO = f'{FOLDER}/chicago-author-date.csl'
pytestmark = pytest.mark.skipif(not shutil.which('pandoc'), reason='there is no pandoc')

LIKE_CITEPROC = [
    '[@doe99]', '[@doe99; @roe00]', '[see @doe99]', '[see @doe99, pp. 33-35]', '[@doe99, 33]',
    '[@doe99 33]', '[@doe99, chap. 3]', '[@doe99, p. 3, emph]', '[@doe99, p. 3 and *passim*]',
    '[@doe99, pp. 33-35, 38-39 and *passim*]',
    '[@doe99, {pp. iv, vi, (xv)-(xvii)} with suffix here]', '[@doe99{ii, A, D-Z}, with a suffix]',
    '[@doe99, {pp. iv} x]', '[-@doe99]', '[-@doe99, p. 3]', 'Doe says [-@doe99; @roe00]', '@doe99',
    '@doe99 [p. 4]', '@doe99 [foo]', '@doe99 [p. 4, foo]', '@doe99 [see @roe00]',
    '@doe99 [; @roe00]', '@doe99 [p. 4; @roe00, vol. 2]', '[@doe99; @doe01]',
    '[see @doe99; also @doe01]', '[@doe99; @roe00; @doe01]', '[e.g., @doe99]',
    '[@doe99 and others]', '[@doe99, and others]', '[@doe99: x]', '[@doe99, sec. 3.2]',
    '[@doe99, fig. 4a]', '[@doe99, l. 5]', '[@doe99, vol. 2, p. 3]', '[@doe99, p. iv]',
    '[@doe99, iv]', '[@doe99, p.4]', '[*see* @doe99, p. 4, **bold** "quoted"]', '[@doe99, col. 3]',
    '[@doe99, no. 3]', '[@doe99, 2nd ed.]', '[@doe99, in press]', '[@doe99, page 3]',
    '[@doe99, pages 3 & 5]', 'x^[@doe99]', 'x^[See [@doe99, p. 3].]', 'x^[See @doe99.]',
    '- a [@doe99]\n- b [@roe00]', '> *emph [@doe99]*', '# Head [@doe99]',
    '| a | b |\n|---|---|\n| x [@doe99] | @roe00 |', '[@doe99 (really)]',
    '[link [@doe99]](http://x)',
]

LOCATORS = ['p. 3', 'pp. 3-5', 'chap. 2', '3', 'vol. 2', 'sec. 1.2', 'l. 4', 'fig. 3', 'iv',
            'pp. iv-vi', 'p. 3, 5', '12a', 'bk. 2',
            'pt. 4', 'col. 3', 'n. 3']


def test_citations_read_as_pandoc_writes_them(pandoc, published, known):
    # (each between lines of its own, since the notes stand at the end)
    text = '\n\n'.join(f'{text}\n\n-- {place} --' for place, text in enumerate(LIKE_CITEPROC))
    wanted, said, _ = pandoc(text, own=False, csl=CHICAGO, suppress_bibliography='true')
    assert said == ''
    out, said, status = pandoc(text, csl=CHICAGO, suppress_bibliography='true')
    assert out.split('\n\n') == wanted.split('\n\n') and (said, status) == ('', 0)


def random_citation(random):
    """A citation of up to three entries of different authors, with words around them."""
    parts = []
    for key in random.sample(range(5), random.choice([1, 1, 2, 3])):
        prefix = random.choice(['', '', 'see ', 'e.g., ', '*cf.* ',
                                '“q” ']) + random.choice(['', '', '', '-'])
        locator = random.choice(['', '', ', ' + random.choice(LOCATORS)])
        suffix = random.choice(['', '', ' and *so* on', ', emph', ' (really)', ' “quote”', '. Dot',
                                ', see Smith'])
        parts.append(f'{prefix}@k{key}{locator}{suffix}')
    if random.random() < 0.7:
        return f'T [{"; ".join(parts)}] end.'
    inner = '; '.join([random.choice(['', *LOCATORS]), *parts[1:]])
    return f'T {parts[0][parts[0].index("@"):][:3]}' + (f' [{inner}]' if inner else '') + ' end.'


def test_random_citations_read_as_pandoc_writes_them(pandoc, published, known, tmp_path):
    authors = ['Doe', 'Roe', 'Äbc', 'van Dyke', 'Li']
    (tmp_path / 'random.json').write_text(json.dumps([
        {'id': f'k{place}', 'title': f'T{place}', 'author': [{'family': author, 'given': 'A.'}],
         'issued': {'date-parts': [[1990 + place]]}}
        for place, author in enumerate(authors)]))
    random = Random(7)
    texts = [random_citation(random) for _ in range(150)]
    how = {'bibliography': 'random.json', 'csl': CHICAGO, 'suppress_bibliography': 'true'}
    wanted, own = (pandoc('\n\n'.join(texts), own=way, **how) for way in (False, True))
    assert own[1:] == ('', 0)
    for text, one, other in zip(texts, wanted[0].split('\n\n'), own[0].split('\n\n')):
        assert other.replace('\u00a0', ' ') == one.replace('\u00a0', ' '), text


def test_the_reference_list_is_made_as_pandoc_makes_it(pandoc):
    text = 'A [@roe00; @doe99].\n'
    own, theirs = (pandoc(text, to='html', own=way, reference_section_title='Refs')[0]
                   for way in (True, False))
    for pattern in (r'<h1[^>]*>Refs</h1>', r'<div id="refs"',
                    r'<div id="ref-\w+" class="csl-entry"',
                    r'data-cites="roe00 doe99"'):
        assert re.findall(pattern, own) == re.findall(pattern, theirs) != []
    assert re.findall(r'href="#([^"]+)"', own) == ['ref-doe99', 'ref-roe00']
    placed = pandoc('A [@doe99].\n\n::: {#refs}\n:::\n\nEnd.\n', to='html')[0]
    assert placed.index('csl-entry') < placed.index('End.') and placed.count('id="refs"') == 1


def test_links_and_the_list_can_be_left_out(pandoc):
    text = '[@doe99]'
    assert '<a ' not in pandoc(text, to='html', link_citations='false')[0]
    assert pandoc('[link [@doe99]](http://x)', to='html')[0].count('<a ') == 1
    assert 'csl-entry' not in pandoc(text, to='html', suppress_bibliography='true')[0]


def test_entries_are_listed_without_being_cited(pandoc):
    text = '---\nnocite: |\n  @roe00, @nobody\n---\n[@doe99]'
    out, said, status = pandoc(text, to='html')
    assert re.findall(r'id="ref-(\w+)"', out) == ['doe99', 'roe00'] and status == 0
    assert said == 'gamhilon-pandoc: nocite: no entry has the key nobody\n'
    everything = pandoc('---\nnocite: "@*"\n---\n', to='html')[0]
    assert re.findall(r'id="ref-(\w+)"', everything) == ['__e4_h__20_b', 'doe99', 'doe01', 'roe00']


def test_ids_are_of_keys_that_have_spaces(pandoc, tmp_path):
    cite = {'citationId': 'äh b', 'citationPrefix': [], 'citationSuffix': [],
            'citationMode': {'t': 'NormalCitation'},
            'citationNoteNum': 1,
            'citationHash': 0}
    text = {'pandoc-api-version': [1, 22],
            'meta': {'bibliography': {'t': 'MetaString', 'c': 'refs.json'}},
            'blocks': [{'t': 'Para',
                        'c': [{'t': 'Cite', 'c': [[cite], [{'t': 'Str', 'c': '@x'}]]}]}]}
    out = pandoc(json.dumps(text), '-f', 'json', to='html')[0]
    assert 'href="#ref-__e4_h__20_b"' in out and 'id="ref-__e4_h__20_b"' in out


def test_keys_that_are_not_there_are_told_with_their_place(pandoc):
    out, said, status = pandoc('A [@doe99].\n\nB [see @doe98, p. 3; @roe00] and [@no1; @no2].',
                               suppress_bibliography='true')
    assert out == 'A (Doe 1999).\n\nB (doe98?; Roe 2000) and (no1?; no2?).\n' and status == 0
    assert said.splitlines() == [
        'gamhilon-pandoc: citation 2, [see @doe98, p. 3; @roe00]: no entry has the key doe98: is '
        "'doe99' meant?",
        'gamhilon-pandoc: citation 3, [@no1; @no2]: no entry has the key no1',
        'gamhilon-pandoc: citation 3, [@no1; @no2]: no entry has the key no2',
    ]


def test_numbers(pandoc):
    text = 'A [@roe00]. B [@roe00; @doe99; @doe01]. C [see @doe99, p. 3; @roe00]. @doe01 says.'
    out = pandoc(text, csl='numeric')[0].split('\n')
    assert out[0] == 'A [1]. B [1–3]. C [1, see 2 (p. 3)]. [3] says.'
    assert [line for line in out if line.startswith('[')] == [
        '[1] Roe R. A Reply. 2000.', '[2] Doe J. On Order. 1999.', '[3] Doe J. More. 2001.']


def test_labels(pandoc):
    out = pandoc('A [@roe00; @doe99, p. 3].', csl='labels')[0].split('\n')
    assert out[0] == 'A [Doe99, p. 3; Roe00].'
    assert [line for line in out[1:] if line] == [
        '[Doe99] Doe, Jane. On Order. 1999.', '[Roe00] Roe, Richard. A Reply. 2000.']


def test_notes(pandoc):
    text = ('A [see @doe99, p. 3]. B [@doe99, p. 4], and @roe00 [p. 5; @doe01]. '
            'C^[Own note with [@roe00, p. 6] and more.] '
            'D [@roe00].\n\nE [-@doe99, etc.]. F [@nobody].')
    out, said, _ = pandoc(text, csl='notes', suppress_bibliography='true')
    assert out.strip().split('\n\n') == [
        'A.[1] B,[2] and Richard Roe.[3] C[4] D.[5]', 'E.[6] F (nobody?).',
        '[1] See Jane Doe, On Order (1999), 3.', '[2] Ibid., 4.',
        '[3] A Reply (2000), 5; Jane Doe, More (2001).',
        '[4] Own note with Roe, A Reply, 6 and more.', '[5] Roe, A Reply.', '[6] On Order, etc.',
    ]
    assert said == 'gamhilon-pandoc: citation 7, [@nobody]: no entry has the key nobody\n'


@pytest.mark.parametrize('metadata, word', [
    ({'bibliography': 'nowhere.json'}, 'bibliography: there is no file nowhere.json: looked in .'),
    ({'bibliography': 'wrong.json'}, 'bibliography: wrong.json: no JSON'),
    ({'gamhilon_style': 'note'}, 'gamhilon-style: styles are named by csl:'),
    ({'csl': 'own.csl'}, 'csl: own.csl:2:1: '),
    ({'csl': 'https://example.org/apa.csl'},
     'csl: https://example.org/apa.csl: styles are not fetched'),
])
def test_what_can_not_be_read_is_told(pandoc, tmp_path, metadata, word):
    (tmp_path / 'wrong.json').write_text('[')
    (tmp_path / 'own.csl').write_text('<style>\n</stile>')
    out, said, status = pandoc('[@doe99]', **metadata)
    assert out == '' and status != 0 and word in said and 'Traceback' not in said


def test_the_example_page(pandoc, tmp_path):
    for name in ('page.md', 'references.json'):
        shutil.copy(f'{PROJECT}/example/{name}', tmp_path)
    with open(f'{PROJECT}/example/page.md', encoding='utf-8') as file:
        out, said, status = pandoc(file.read(), to='html', bibliography='references.json')
    shown = [re.sub('<[^>]*>', '', text)
             for text in re.findall(r'<span class="citation"[^>]*>(.*?)</span>', out)]
    assert shown == [
        '(Darwin 1859, p. 84)', '(Einstein 1905a, 1905b)', 'Watson and Crick (1953, p. 737)',
        '(see also Darwin 1859, chap. 4, on inheritance)', '(1859, p. 129)', '(van Gogh 1914)',
        '(Alvarez et al. 1980; Einstein 1905b, sec. 3; Watson and Crick 1953)',
        '(compare Alvarez et al. 1980, pp. 1095–1108)',
    ]
    assert (status, said) == (0, '')


def test_nothing_else_of_a_text_changes(pandoc):
    with open(f'{ROOT}/README.md', encoding='utf-8') as file:
        text = file.read().replace('@', '')
    own = pandoc(text, '--strip-comments', to='json', bibliography='refs.json')[0]
    plain = subprocess.run(['pandoc', '-f', 'markdown', '-t', 'json',
                            '--metadata=bibliography=refs.json',
                            '--strip-comments'],
                           input=text.encode(), capture_output=True).stdout
    blocks = json.loads(own)['blocks']
    assert blocks[:-1] == json.loads(plain)['blocks'] and blocks[-1]['c'][0][0] == 'refs'


def test_no_citation_is_left_for_others(pandoc):
    pandocfilters = pytest.importorskip('pandocfilters', reason='there is no pandocfilters')
    out = json.loads(pandoc('\n\n'.join(LIKE_CITEPROC), to='json')[0])
    found = []
    pandocfilters.walk(out, lambda key, value, form, meta: found.append(key), 'json', {})
    assert 'Cite' not in found and found.count('Span') >= len(LIKE_CITEPROC)


def test_texts_that_nest_deeply(pandoc):
    text = ''.join('> ' for _ in range(150)) + '[@doe99]'
    out, said, status = pandoc(text, to='html')
    assert status == 0 and said == '' and '1999' in out


@pytest.mark.parametrize('suffix, locator, rest', [
    (', p. 4', ('page', '4'), ''), (', pp.\u00a033--35, and', ('page', '33–35'), ', and'),
    (', § 3', ('section', '3'), ''),
    (', ¶¶ 3-4', ('paragraph', '3–4'), ''), (', col. 3', ('column', '3'), ''),
    (', no. 3', ('issue', '3'), ''), (', s.v. 3', ('sub-verbo', '3'), ''),
    (', {} x', None, ' x'), ('{}, 99 x', None, ', 99 x'),
    (', bookish', None, ', bookish'),
    (', pseudo 3', None, ', pseudo 3'), (', vol. 2, p. 3', ('volume', '2'), ', p. 3'),
    ('', None, ''),
    (', n. 12', ('note', '12'), ''),
    (', supp. 2', ('supplement', '2'), ''), (', {a-b, chap. 3}', ('page', 'a–b, chap. 3'), ''),
    (', i think', None, ', i think'),
])
def test_locators(suffix, locator, rest):
    assert _locators.split(suffix) == (locator, rest)


NORMAL = {'font_style': 'normal', 'font_weight': 'normal'}


def test_parts_of_a_citation():
    """By marks, by the tree, or by both; what stands between is of no cite."""
    def text(words, **more):
        return {**NORMAL, **more, 'text': words}

    one, two = _pandoc_marks.opening(0), _pandoc_marks.closing(0)
    for tree in ([text(f'({one}Doe '), text('T', font_style='italic'), text(f'{two}; Roe)')],
                 [text('('), {'meta': {'entry': 0}, 'children': [
                     text(f'{one}Doe '), text('T', font_style='italic'), text(two)]},
                  text('; Roe)')],
                 [text('('), {'meta': {'entry': 0}, 'children': [
                     text(f'{one}Doe '), text('T', font_style='italic')]}, text('; Roe)')],
                 [text('('), {'meta': {'entry': 0}, 'children': [
                     text('Doe '), text('T', font_style='italic')]}, text('; Roe)')]):
        parts = _pandoc_marks.parts_of(tree)
        assert [(part.place, _pandoc_marks.text_of_pieces(part.pieces)) for part in parts] == [
            (None, '('), (0, 'Doe T'), (None, '; Roe)')]
    assert _pandoc_marks.without_marks({'a': [f'x{one}y', 3]}) == {'a': ['xy', 3]}


@pytest.mark.parametrize('whole, rest, names', [
    ('Doe 1999', '1999', 'Doe'), ('Doe et al. 1999, p. 4', '1999, p. 4', 'Doe et al.'),
    ('Smith, ed., A 19', 'A 19', 'Smith, ed.'), ('3', '3', ''), ('Doe', '', 'Doe'),
    ('On order, Doe, 1999', 'On order, 1999', 'Doe'), ('', '', ''),
])
def test_names_are_what_a_cite_has_more_with_its_author(whole, rest, names):
    def pieces(words):
        return [Piece('text', {**NORMAL, 'text': run}) for run in re.split(r'(?<= )', words)]

    found = _pandoc_names.names_in(pieces(whole), pieces(rest))
    assert _pandoc_marks.text_of_pieces(found) == names
