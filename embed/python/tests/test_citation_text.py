"""Citations in texts, held to what Debian's pandoc reads in them."""
import doctest
import json
import re
import shutil
import subprocess
from random import Random

import pytest

import gamhilon
from gamhilon import _locators, citation_text, csl
from gamhilon._pandoc_inlines import text_of
from gamhilon.csl import locales

# What pandoc 2.17 reads as locators in English: `kind: text | rest`.
LOCATORS = '''
, p. 4 = page: 4 |
, pages 3 & 5 = page: 3 | & 5
, 3, 5 = page: 3, 5 |
, p. 3 5 = page: 3 5 |
, 3a-b = page: 3a–b |
, iv = none | , iv
, p. iv-vi = page: iv–vi |
, p. x y = page: x | y
, pp. 3, v, x = page: 3, v, x |
, 3, v = page: 3 |, v
, A3 = page: A3 |
, p. A = none | , p. A
, chap. 3 and = chapter: 3 | and
, vol. 2 p. 3 = volume: 2 | p. 3
, (3) = page: (3) |
, p. (a) = none | , p. (a)
, p. 3(a) = page: 3(a) |
, [3] = page: [3] |
, 3.2 = page: 3.2 |
, 3.a = page: 3.a |
, p.3 = page: 3 |
, p3 = page: p3 |
, §3 = section: 3 |
, § 3.2(1) = section: 3.2(1) |
, CHAP. 3 = chapter: 3 |
, books = none | , books
, 3:4-5 = page: 3:4–5 |
, 3 - 4 = page: 3 | - 4
, {a b} = page: a b |
, {p. a b} x = page: a b | x
, {{x}} = page: {x} |
, s.v. x = sub-verbo: x |
, 2nd ed. = page: 2nd | ed.
, p. 3 ff. = page: 3 | ff.
, p. 3, see 4 = page: 3 |, see 4
, p. 3/4 = page: 3 | /4
, part II, 3 = part: II, 3 |
, I 3 = none | , I 3
, p. mix = page: mix |
, p. civic = none | , p. civic
, p. a-3 = page: a–3 |
, p. a-b = none | , p. a-b
, p. iv--v, 3 = page: iv–v, 3 |
'''
# The same in German, with the locale file of Debian.
GERMAN = '''
, S. 3 = page: 3 |
, Kap. 2 = chapter: 2 |
, Kapitel 2 = chapter: 2 |
, Bd. 3 = volume: 3 |
, Abschn. 3 = section: 3 |
, Z. 5 = line: 5 |
, Abs. 3 = paragraph: 3 |
, Abbildung 4 = figure: 4 |
, Nr. 3 = issue: 3 |
, S. iv = page: iv |
, H. 3 = none | , H. 3
'''
needs_pandoc = pytest.mark.skipif(not shutil.which('pandoc'), reason='there is no pandoc')


def rows(table):
    return [line.split(' = ') for line in table.strip().splitlines()]


def told(suffix, words):
    locator, rest = _locators.split(suffix, words)
    return f'{locator.kind}: {locator.text}' if locator else 'none', rest.strip()


@pytest.mark.parametrize('suffix, wanted', rows(LOCATORS))
def test_locators_in_english(suffix, wanted):
    assert told(suffix, _locators.ENGLISH) == tuple(part.strip() for part in wanted.split('|'))


@pytest.mark.parametrize('suffix, wanted', rows(GERMAN))
def test_locators_by_the_words_of_a_language(suffix, wanted, published):
    assert told(suffix, _locators.words_of('de')) == tuple(
        part.strip() for part in wanted.split('|'))


def test_the_words_of_a_locale_that_is_handed_in():
    locale = ('<locale xmlns="http://purl.org/net/xbiblio/csl" xml:lang="xx"><terms>'
              '<term name="page"><single>blad</single><multiple>bladen</multiple></term>'
              '<term name="editor"><single>red</single></term></terms></locale>')
    one, two, three = gamhilon.parse_citations('@a, blad 3; @b, p. 4; @c, red 5', language='xx',
                                               locales=[locale])
    assert [cite.locator for cite in (one, two, three)] == ['3', '4', None]
    assert three.suffix == ', red 5'


def test_a_text_that_is_one_citation():
    first, second, third = gamhilon.parse_citations(
        'see also @doe99, chap. 2, end; -@{10.1/x;y} ; e.g. @roe')
    assert first == csl.Cite('doe99', '2', 'chapter', 'see also', ', end')
    assert second == csl.Cite('10.1/x;y', suppress_author=True)
    assert third == csl.Cite('roe', prefix='e.g.')
    for text in ('[@a; @b]', ' [@a; @b] ', '@a; @b'):
        told = gamhilon.parse_citations(text)
        assert [cite.id for cite in told] == ['a', 'b'] and not told.author_in_text
        assert text[told.start:told.end] == text.strip()


def test_the_author_in_the_text():
    told = gamhilon.parse_citations('@doe99 [p. 3, passim; see @roe]')
    assert told.author_in_text and told.cites == (
        csl.Cite('doe99', '3', suffix=', passim'), csl.Cite('roe', prefix='see'))
    assert not gamhilon.parse_citations('@doe99').author_in_text


@pytest.mark.parametrize('text, at', [
    ('', 0), ('see', 0), ('[see]', 1), ('@a;', 3), ('; @a', 0), ('@a; b', 3), ('@{a b}', 0),
    ('[@a; see b@c]', 4), ('see @a; `@b`', 7), ('@a; \\@b', 3),
])
def test_faults_have_their_place(text, at):
    with pytest.raises(gamhilon.CitationTextRefused) as caught:
        gamhilon.parse_citations(text)
    assert caught.value.at == at and caught.value.text == text
    assert f'column {at + 1}: a cite has no key' in str(caught.value)
    assert isinstance(caught.value, (ValueError, gamhilon.GamhilonError))


def test_what_is_no_citation():
    text = ('`@a` me@x.org <me@x.org> <http://x/@a> https://x.org/@a/b [@a](http://x) [text][@a] '
            '<b title="@a"> \\@a $x@a$ {{ @a }} {% @a %} [[@a]] ![@a](x.png) [^@a]')
    assert gamhilon.find_citations(text + '\n\n[@a]: http://x\n') == []
    found = gamhilon.find_citations('**Bold @a**, "@b", (@c) and [see *this* @d]')
    assert [[cite.id for cite in citation] for citation in found] == [['a'], ['b'], ['c'], ['d']]
    assert [citation.author_in_text for citation in found] == [True, True, True, False]


def test_texts_of_many_marks_take_little_time():
    for part in ('[', '*a', '`a', '[@a ', '@a [p ', '<a ', '$a', '"a ', '[x](', '@{a', '[@a; '):
        text = part * 3000
        assert all(0 <= one.start < one.end <= len(text) for one in gamhilon.find_citations(text))


PARTS = [
    '@a', '@b1', '@{x/y}', '[@a]', '[@a; @b]', '[see @a, p. 3]', '@a [p. 4]', '@b [see @a; @c]',
    '[-@c, {iv}; *e.g.* @a and *so*]', '[@a, vol. 2, end; see -@{d.e}]', '[@a; b]', '[see]',
    '[link @a](http://x)', '[@b]{.x}', '(@a)', '“@a”', '**x @a**', '`@code`', '<b>@b</b>',
    'me@x.org', '<http://x/@a>', '$x$', '\\@a', '\\[@a]', '^[note @a]', 'word', "@a's", '[x @a',
    '@a:', '@a.', '@a-b', '@a [^1]', '[@a,\np. 4]', '@a\n[p. 4]', '[see [x] @a]', '[@a `;`; @b]',
    '@', '-', '*', '1', 'é', '[@a; @b; @c]', '-- @a', '[-- @a]',
]


def made_up(random):
    return 'x ' + ' '.join(random.choice(PARTS) for _ in range(random.randint(1, 6)))


def in_pandoc(texts):
    """The citations that pandoc reads in texts, without those in links and affixes."""
    page = '\n\nQQQ\n\n'.join([*texts, '[^1]: x'])
    read = subprocess.run(['pandoc', '-f', 'markdown-smart', '-t', 'json'], input=page.encode(),
                          capture_output=True, check=True).stdout
    found = [[]]
    for block in json.loads(read)['blocks']:
        if block.get('c') == [{'t': 'Str', 'c': 'QQQ'}]:
            found.append([])
        else:
            found[-1] += cites_in(block)
    return [[[cite_of_pandoc(part) for part in cite] for cite in one] for one in found]


def cites_in(value):
    if isinstance(value, list):
        return [cite for member in value for cite in cites_in(member)]
    if not isinstance(value, dict) or value.get('t') == 'Link':
        return []
    if value.get('t') == 'Cite':
        return [value['c'][0]]
    return [cite for member in value.values() for cite in cites_in(member)]


def cite_of_pandoc(part):
    locator, rest = _locators.split(text_of(part['citationSuffix']))
    mode = {'AuthorInText': 'text', 'SuppressAuthor': 'without'}.get(part['citationMode']['t'], '')
    return part['citationId'], mode, letters(text_of(part['citationPrefix'])), \
        locator and tuple(locator), letters(rest)


def letters(text):
    """A text without marks of Markdown."""
    return re.sub(r'[*`\\]', '', text.replace('\u00a0', ' ')).strip()


def cites_of(text):
    return [[(cite.id,
              'text' if citation.author_in_text and place == 0 else
              'without' if cite.suppress_author else '', letters(cite.prefix),
              (cite.label, cite.locator) if cite.locator else None, letters(cite.suffix))
             for place, cite in enumerate(citation)] for citation in gamhilon.find_citations(text)]


@needs_pandoc
def test_citations_are_those_that_pandoc_reads():
    random = Random(5)
    texts = [made_up(random) for _ in range(240)]
    compared = 0
    for start in range(0, len(texts), 12):
        chunk = texts[start:start + 12]
        read = in_pandoc(chunk)
        # (some unclosed bracket makes pandoc read no further)
        if len(read) == len(chunk) + 1:
            assert [cites_of(text) for text in chunk] == read[:-1], chunk
            compared += len(chunk)
    assert compared > 120


def test_the_examples_of_the_documentation_hold():
    failures, tried = doctest.testmod(citation_text)
    assert tried >= 6 and failures == 0


def test_locales_name_the_kinds_of_csl(published):
    words = _locators.words_of('fr-FR')
    assert words['chapitre'] == 'chapter' and words['p.'] == 'page'
    assert set(words.values()) <= set(csl.LABELS) and locales.FOLDER


USUAL = ['', 'see ', 'e.g. ', 'See, chap. one ', 'a.b ', 'x', 'a..b ', '\u00e9 ', '(see) ', '-',
         ' ']
BEHIND = ['', ', p. 3', ' p. 3-4, passim', ', {p. 3}', '; @roe', ' -@roe', ', 3\u20135.', ',, ,',
          ': x', '. ', ', "x', ', *x', ' x_y', '\n3', ', a\u201c;\u201d', ' ~x', ', http://a.b',
          '*']
AROUND = ['', ' x', '(y)', '[y]', '{y}', '(', ':']


def test_usual_citations_are_read_as_others_are(monkeypatch):
    """In one step, and in several."""
    texts = [f'Words{space}[{words}{mark}{key}{suffix}]{around} and more'
             for space in (' ', '') for words in USUAL for mark in ('@', '-@')
             for key in ('doe99', 'a:b', 'x.', '*') for suffix in BEHIND for around in AROUND]
    texts = Random(4).sample(texts, 2000)
    found = [gamhilon.find_citations(text) for text in texts]
    monkeypatch.setattr(citation_text, '_USUAL', re.compile('(?!)'))
    assert found == [gamhilon.find_citations(text) for text in texts]
    assert sum(map(bool, found)) > len(texts) / 3


def test_a_bracket_that_never_closes_is_read_at_once():
    text = '[@doe' + ', ' * 20000
    assert [one.cites[0].id for one in gamhilon.find_citations(text)] == ['doe']
