"""HTML, Markdown and LaTeX of trees, with texts that try to be more than texts. HTML is read by
html.parser, the others by pandoc, where it is installed."""
import html.parser
import itertools
import json
import re
import shutil
import subprocess
import unicodedata

import pytest

import gamhilon
from conftest import ROOT
from gamhilon._writing import SCHEMES, anchor, safe_url

HOSTILE = [
    '<script>alert(1)</script>', '& &amp; &#60;', '"quoted" \'single\'', '</p><div id="x">',
    '*stars* **two** _under_ __two__', '`code` ``code``', '[a](javascript:x) ![b](c)',
    r'\textbf{x} \input{/etc/passwd} {x} \\', '$x^2$ 100% #1 ~a~ ^b^ a_b', '# not a heading',
    '- not a list', '+ not a list', '1. not a list', '(1) not a list', 'a) not a list',
    'iv. no list', '(@) no list', '> not a quote', '    not code', '| not | a table |', '---',
    '===', ': not a definition', '% not a title', '@doe99 [@roe]', '``` not code', '~~~ not code',
    '<!-- no comment -->', 'a -- b --- c ... d', "''a'' ,,b,, <<c>> ?`d !`e", 'a\tb\nc\r\nd',
    'O’Brien & “Sons” – 50 €', '\\', '~', '^', 'a\\', ':smile: a:b', 'http://example.org/a_b*c',
    '[^1]: no note', '[x]: y', '', ' ', 'e.g. x', 'C. Darwin', 'II. x', '\\begin{document}',
    '\u2028\u2029\x00\x1b[0m', 'A.  b', '10% 5 * 6 * 7', '{#id .class}', '<a@b.c> <http://x.y>',
    '\u00a0x',
]
FORMATS = [('normal', 'normal'), ('italic', 'normal'), ('normal', 'bold'), ('italic', 'bold')]
# Commands of LaTeX's kernel that Debian's pandoc doesn't read, and what it reads as the same.
UNKNOWN_TO_PANDOC = [(r'\textasciigrave{}', r'\`{}'), (r'\textbar{}', '|')]
PANDOC = pytest.mark.skipif(not shutil.which('pandoc'), reason='there is no pandoc')


def node(text, style='normal', weight='normal', **more):
    return {'text': text, 'font_style': style, 'font_weight': weight, **more}


def spaced(text):
    """A text as it is compared: with single spaces, and no characters that show nothing."""
    shown = ''.join(' '
                    if unicodedata.category(letter) in ('Cc', 'Zl', 'Zp')
                    and letter in '\t\n\v\f\r\x85\u2028\u2029' else letter
                    for letter in text
                    if unicodedata.category(letter) != 'Cc' or letter in '\t\n\v\f\r\x85')
    return ' '.join(shown.split())


class Reader(html.parser.HTMLParser):
    """The text and the tags of HTML."""

    def __init__(self, text):
        super().__init__()
        self.text, self.tags, self.open = '', [], []
        self.feed(text)
        self.close()

    def handle_starttag(self, tag, attributes):
        self.tags.append((tag, dict(attributes)))
        self.open.append(tag)

    def handle_endtag(self, tag):
        assert self.open.pop() == tag

    def handle_data(self, data):
        self.text += data


@pytest.mark.parametrize('text', HOSTILE)
@pytest.mark.parametrize('style, weight', FORMATS)
def test_html_has_the_letters_and_no_tags_but_its_own(text, style, weight):
    read = Reader(gamhilon.to_html([node(text, style, weight)]))
    assert spaced(read.text) == spaced(text)
    formats = {'i': 'Emph', 'b': 'Strong'}
    assert {formats[tag] for tag, _ in read.tags} == wanted_formats(text, style,
                                                                    weight) and not read.open


@pytest.mark.parametrize('url', [
    'javascript:alert(1)', 'JavaScript:alert(1)', ' javascript:alert(1)', 'java\nscript:alert(1)',
    '\x01javascript:x', 'data:text/html,x', 'vbscript:x', 'file:///etc/passwd', '//example.org',
    'example.org', '', 'https', 'ftp://x', 'doi:http://example.org/',
])
def test_only_safe_addresses_are_links(url):
    tree = [node('shown', url=url)]
    assert safe_url(url) is None
    for write in (gamhilon.to_html, gamhilon.to_markdown, gamhilon.to_latex):
        assert write(tree) == 'shown'


@pytest.mark.parametrize('url, wanted', [
    ('https://example.org/a?b="c"&d=<e>', 'https://example.org/a?b=%22c%22&d=%3Ce%3E'),
    ('HTTP://example.org/', 'HTTP://example.org/'), ('mailto:a@b.example', 'mailto:a@b.example'),
    ('doi:10.1000/182', 'https://doi.org/10.1000/182'),
    ('https://example.org/é %41', 'https://example.org/%C3%A9%20%41'),
    ('ht\ttps://x', 'https://x'), ('https://x\x00y', 'https://xy'),
])
def test_safe_addresses_are_written_as_addresses(url, wanted):
    tree = [node('shown', url=url)]
    assert Reader(gamhilon.to_html(tree)).tags == [('a', {'href': wanted})]
    assert gamhilon.to_markdown(tree) == f'[shown](<{wanted}>)'


def rows_of_addresses():
    with open(ROOT + '/tests/texts/addresses.tsv', encoding='utf-8') as file:
        rows = [line.split('\t') for line in file.read().split('\n')]
    return [row[2:] for row in rows if row[:2] == ['address', 'url']]


@pytest.mark.parametrize('url, wanted', rows_of_addresses())
def test_links_lead_where_those_of_the_writer_of_styles_do(url, wanted):
    assert safe_url(url) == (None if wanted == 'none' else wanted)


def test_the_schemes_of_links_are_those_of_the_writer_of_styles():
    with open(ROOT + '/crates/cite_texts/src/addresses.rt', encoding='utf-8') as file:
        listed = re.search(r'pub const SCHEMES: [^=]*= &\[(.*?)\];', file.read()).group(1)
    assert re.findall('"(.*?)"', listed) == list(SCHEMES)


def inlines_by_pandoc(text, form):
    done = subprocess.run(['pandoc', '-f', form, '-t', 'json'], input=text.encode(),
                          capture_output=True, check=True)
    blocks = json.loads(done.stdout)['blocks']
    assert [block['t'] for block in blocks] in ([], ['Para']), text
    return blocks[0]['c'] if blocks else []


def letters(inlines):
    """The letters of pandoc's inlines, and the formats in them; anything else than texts and
    formats fails."""
    text, formats = '', set()
    for inline in inlines:
        if inline['t'] == 'Str':
            text += inline['c']
        elif inline['t'] in ('Space', 'SoftBreak'):
            text += ' '
        elif (inline['t'] == 'RawInline'
                and inline['c'][1] in ('<em>', '</em>', '<strong>', '</strong>')):
            formats.add({'em': 'Emph', 'strong': 'Strong'}[inline['c'][1].strip('</>')])
        elif inline['t'] == 'Span' and inline['c'][0] == ['', [], []]:
            inside, more = letters(inline['c'][1])
            text, formats = text + inside, formats | more
        elif inline['t'] == 'Quoted':
            inside, more = letters(inline['c'][1])
            marks = '\u201c\u201d' if inline['c'][0]['t'] == 'DoubleQuote' else '\u2018\u2019'
            text, formats = text + marks[0] + inside + marks[1], formats | more
        else:
            assert inline['t'] in ('Emph', 'Strong'), inline
            inside, more = letters(inline['c'])
            text, formats = text + inside, formats | more | {inline['t']}
    return text, formats


def wanted_formats(text, style, weight):
    """The formats that a text is to have where it shows something."""
    return {kind for kind, has in (('Emph', style == 'italic'), ('Strong', weight == 'bold')) if has
            and spaced(text)}


LETTERS = [
    ('font_variant', 'small-caps', '<span style="font-variant:small-caps;">', '</span>', r'\textsc',
     'SmallCaps'),
    ('text_decoration', 'underline', '<u>', '</u>', r'\underline', 'Underline'),
    ('vertical_align', 'sup', '<sup>', '</sup>', r'\textsuperscript', 'Superscript'),
    ('vertical_align', 'sub', '<sub>', '</sub>', r'\textsubscript', 'Subscript'),
]


@pytest.mark.parametrize('key, value, opening, closing, command, kind', LETTERS)
def test_letters_of_each_form_are_written(key, value, opening, closing, command, kind):
    tree = [node('x', **{key: value})]
    assert gamhilon.to_html(tree) == gamhilon.to_markdown(tree) == f'{opening}x{closing}'
    assert gamhilon.to_latex(tree) == command + '{x}'
    bold = [node('x', 'italic', 'bold', **{key: value})]
    assert gamhilon.to_html(bold) == f'<b><i>{opening}x{closing}</i></b>'
    assert gamhilon.to_markdown(bold) == f'<strong><em>{opening}x{closing}</em></strong>'
    assert gamhilon.to_latex(bold) == rf'\textbf{{\textit{{{command}{{x}}}}}}'


@pytest.mark.parametrize('key, value', [
    ('font_variant', 'normal'), ('text_decoration', 'none'), ('vertical_align', 'none'),
    ('vertical_align', 'baseline'),
])
def test_usual_letters_have_no_marks(key, value):
    tree = [node('x', **{key: value})]
    for write in (gamhilon.to_html, gamhilon.to_markdown, gamhilon.to_latex):
        assert write(tree) == 'x'


@PANDOC
@pytest.mark.parametrize('key, value, opening, closing, command, kind', LETTERS)
def test_letters_of_each_form_are_read_by_pandoc(key, value, opening, closing, command, kind):
    tree = [node('x', **{key: value})]
    read = [{'t': kind, 'c': [{'t': 'Str', 'c': 'x'}]}]
    assert inlines_by_pandoc(f'<p>{gamhilon.to_html(tree)}</p>', 'html') == read
    assert inlines_by_pandoc(gamhilon.to_latex(tree), 'latex') == read


@PANDOC
@pytest.mark.parametrize('form', ['markdown-raw_tex', 'commonmark', 'gfm'])
@pytest.mark.parametrize('style, weight', FORMATS)
def test_markdown_is_read_as_its_letters(form, style, weight):
    for text in HOSTILE:
        written = gamhilon.to_markdown([node(text, style, weight)])
        if not written.strip():
            assert not spaced(text)
            continue
        read, formats = letters(inlines_by_pandoc(written, form))
        assert spaced(read.replace('\u00a0', ' ')) == spaced(text.replace('\u00a0', ' ')), written
        assert formats == wanted_formats(text, style, weight), written


@PANDOC
@pytest.mark.parametrize('form', ['markdown', 'commonmark'])
def test_markdown_keeps_formats_beside_letters(form):
    cases = list(itertools.product(('a', 'a ', 'a(', '“', 'a*', '-', '1.'),
                                   ('b', ' b ', '“b”', '*b*', '-'),
                                   ('c', ' c', '”', '.', '*', '-'), FORMATS[1:]))
    written = []
    for first, middle, last, (style, weight) in cases:
        tree = [node(first), node(middle, style, weight), node(last, 'normal', 'bold'), node('d')]
        written.append(gamhilon.to_markdown(tree))
    done = subprocess.run(['pandoc', '-f', form, '-t', 'json'], input='\n\n'.join(written).encode(),
                          capture_output=True, check=True)
    blocks = json.loads(done.stdout)['blocks']
    assert len(blocks) == len(cases)
    for block, text, (first, middle, last, (style, _)) in zip(blocks, written, cases):
        read, formats = letters(block['c'])
        assert block['t'] == 'Para' and spaced(read) == spaced(first + middle + last + 'd'), text
        assert formats == {'Strong'} | ({'Emph'} if style == 'italic' else set()), text


@PANDOC
@pytest.mark.parametrize('style, weight', FORMATS)
def test_latex_is_read_as_its_letters(style, weight):
    for text in HOSTILE:
        written = gamhilon.to_latex([node(text, style, weight)])
        for command, same in UNKNOWN_TO_PANDOC:
            written = written.replace(command, same)
        # (an apostrophe is read as a quotation mark)
        read, formats = letters(inlines_by_pandoc(written, 'latex'))
        plain = text.replace('\u00a0', ' ').replace("'", '’')
        assert spaced(read.replace('\u00a0', ' ').replace("'", '’')) == spaced(plain), written
        assert formats == wanted_formats(text, style, weight), written


def test_latex_writes_no_ligatures():
    assert gamhilon.to_latex([node('a--b---c')]) == 'a-{}-b-{}-{}-c'
    assert gamhilon.to_latex([node('a-'), node('-b')]) == 'a-{}-b'
    assert gamhilon.to_latex([node("''")]) == "'{}'"


def test_an_item_may_begin_with_an_address():
    item = gamhilon.Item('k', [node('http://example.org/a')])
    written = gamhilon.bibliography_to_latex(gamhilon.Bibliography([item], False, 1, 1))
    assert written == (r'\noindent \hypertarget{ref-k}{}\href{http://example.org/a}{http://\allowbreak{}'
                       'example.\\allowbreak{}org/\\allowbreak{}a}\\par\n\n')


def test_letters_behind_formatted_white_space_are_not_formatted():
    item = gamhilon.Item('k', [node(' ', 'italic'), node('a')])
    bibliography = gamhilon.Bibliography([item], False, 1, 1)
    assert '<i>' not in gamhilon.bibliography_to_html(bibliography)


def test_latex_escapes_addresses():
    tree = [node('a_b', url='https://example.org/a_b?c=1&d=%20#e~f')]
    assert gamhilon.to_latex(tree) == r'\href{https://example.org/a_b?c=1\&d=\%20\#e\%7Ef}{a\_b}'


CITE = [node('('), {'meta': {'entry': 0}, 'children': [node('Doe 1999')]}, node('; '),
        {'meta': {'entry': 1}, 'children': [node('Roe', url='https://example.org')]}, node(')')]


def test_cites_link_to_their_items():
    keys = ['doe 99', 'roe']
    bibliography = gamhilon.Bibliography([gamhilon.Item(key, [node('x')]) for key in keys], True, 1,
                                         1)
    links = [key for key in Reader(gamhilon.to_html(CITE, keys)).tags if key[0] == 'a']
    entries = [tag for tag in Reader(gamhilon.bibliography_to_html(bibliography)).tags
               if tag[1].get('class') == 'csl-entry']
    assert links == [('a', {'href': '#' + entries[0][1]['id']}),
                     ('a', {'href': 'https://example.org'})]
    assert len(entries) == 2 and not any(letter.isspace() for letter in entries[0][1]['id'])
    first = anchor(keys[0])
    written = f'([Doe 1999](#{first}); [Roe](<https://example.org>))'
    assert gamhilon.to_markdown(CITE, keys) == written
    assert rf'\hyperlink{{{anchor(keys[0])}}}{{Doe 1999}}' in gamhilon.to_latex(CITE, keys)
    assert rf'\hypertarget{{{anchor(keys[0])}}}' in gamhilon.bibliography_to_latex(bibliography)
    written = gamhilon.bibliography_to_markdown(bibliography)
    assert f'<div id="{first}" class="csl-entry">' in written


def test_ids_are_of_safe_characters_and_differ():
    keys = ['doe99', 'doe 99', 'doe_99', 'doe__20_99', 'doe__99', 'doe_', 'doe__', 'a"b', '<x>',
            'é', '', 'doe/99', '_',
            '__5f_', 'a#b', 'a%20b']
    ids = [anchor(key) for key in keys]
    assert len(set(ids)) == len(keys) and all(name.replace('-', 'a').replace('_', 'a').isascii()
                                              for name in ids)
    assert all(not set(name) & set(' "\'<>#%&/') for name in ids)
    assert anchor('doe_99') == 'ref-doe_99'


def test_displays_stand_where_html_lets_them():
    tree = [{'display': 'block', 'children': [node('a')]},
            {'display': 'left-margin', 'children': [node('b')]}]
    wanted = '<span class="csl-block">a</span><span class="csl-left-margin">b</span>'
    assert gamhilon.to_html(tree) == wanted
    item = gamhilon.Item('k', tree, {'children': [node('1')]})
    written = gamhilon.bibliography_to_html(gamhilon.Bibliography([item], False, 1, 1))
    assert ('<div class="csl-left-margin">1</div>'
            '<div class="csl-right-inline"><div class="csl-block">a</div>') in written


def test_a_space_stands_beside_what_is_set_off_in_a_line():
    tree = [{'display': 'left-margin', 'children': [node('[1]')]},
            {'display': 'right-inline', 'children': [node('A', font_style='italic')]},
            {'display': 'block', 'children': [node(' b')]}, node('c')]
    assert gamhilon.to_markdown(tree) == '\\[1\\] *A* b c'
    assert gamhilon.to_latex(tree) == r'{[}1{]} \textit{A}\par  b\par c'


def test_nothing_stands_beside_a_first_field_with_nothing_behind_it():
    item = gamhilon.Item('k', [], {'children': [node('A.')]})
    written = gamhilon.bibliography_to_html(gamhilon.Bibliography([item], False, 1, 1))
    assert '<div class="csl-left-margin">A.</div>' in written and 'right-inline' not in written


def test_markup_shows_its_letters_unless_the_caller_writes_it():
    tree = [{'markup': '<b>x</b>'}]
    assert gamhilon.to_html(tree) == '&lt;b&gt;x&lt;/b&gt;'
    assert gamhilon.to_html(tree, markup=lambda text: text) == '<b>x</b>'
    assert gamhilon.to_latex([{'markup': '$x$'}]) == r'\$x\$'
    assert gamhilon.to_markdown([{'markup': '$x$'}]) == r'\$x\$'
    assert gamhilon.plain(tree) == '<b>x</b>'
