"""Pages of Markdown: which citations are replaced, and by what. Debian's pandoc reads back."""
import json
import re
import shutil
import subprocess
from random import Random

import pytest
from conftest import REFERENCES
from stand_ins import MadeUpStyle
from test_citation_text import cites_in

from gamhilon import _library, __main__ as command, markdown_pages
from gamhilon.csl.style import FOLDER

needs_pandoc = pytest.mark.skipif(not shutil.which('pandoc'), reason='there is no pandoc')


@pytest.fixture
def made_up_style(monkeypatch):
    """A made-up style writes each cite as its author's family name, its title and its locator."""
    monkeypatch.setattr(_library, '_library', _library.Library(MadeUpStyle()))


def page_of(text, style='author-date', **more):
    return markdown_pages.cite_page(text, style, REFERENCES, name='page.md', **more)


def text_of(text, style='author-date', **more):
    """A page with its citations, without its list."""
    return page_of(text, style, **{'links': False, **more}).text.split('\n\n<div')[0].rstrip('\n')


def test_citations_are_written(made_up_style):
    assert text_of('A [see @doe99, p. 3, *end*; -@roe00] b.') == \
        'A (see Doe, On Order, 3, *end*; A Reply) b.'
    assert text_of('[@doe99]', links=True) == '([Doe, On Order](#ref-doe99))'
    assert text_of('@doe99 [p. 4]') == 'Doe (On Order, 4)'


def test_the_style_sheet_of_the_page_is_html_where_it_is_asked_for(made_up_style):
    made = page_of('[@doe99]', html=True).text
    assert made.startswith('(<a href="#ref-doe99">Doe, On Order</a>)\n\n<div id="refs"')
    assert '<div id="ref-doe99" class="csl-entry">' in made


@pytest.mark.parametrize('text', [
    '---\ntitle: "[@doe99]"\n---', '+++\ntitle = "@doe99"\n+++', '    [@doe99]', '\t@doe99',
    '```\n@doe99\n```', '~~~ py\n[@doe99]\n\n[@doe99]\n~~~', '- a\n\n  ```\n  @doe99\n  ```',
    '> ```\n> @doe99\n> ```', '1. a\n\n        @doe99', '<pre>\n@doe99\n\n@doe99\n</pre>',
    '<div class="@doe99">\n@doe99\n</div>', '<!-- [@doe99]\n\n[@doe99] -->', '`[@doe99]`',
    '``[@doe99] ` ``', '[link @doe99](http://x)', '[@doe99](http://x "[@doe99]")', 'a@doe99',
    '<a@doe99>', '<http://x/@doe99>', 'https://x.org/@doe99/a', '![@doe99](x.png)', '\\@doe99',
    '\\[\\@doe99\\]', '$@doe99$', '$$\n@doe99\n$$', '{{< cite "@doe99" >}}', '{% cite @doe99 %}',
    '[[@doe99]]', '![[@doe99.png]]', '> [!note]\n> [[@doe99|Doe]]',
    '<span title="@doe99">x</span>', '[x]: http://x/@doe99',
    '<script>\nlet a = "[@doe99]"\n</script>', '<code>@doe99</code>', 'x[^@doe99]',
])
def test_what_is_left_alone(text, made_up_style):
    page = page_of(text)
    assert page.text == text and page.warnings == []


@pytest.mark.parametrize('text', [
    '# Head {}', 'Head {}\n===', '- a {}\n  - b {}', '> a {}', '| a | b |\n|---|---|\n| {} | x |',
    '**a {}**', '[^1]\n\n[^1]: note {}\n\n    more {}', 'a\n    {}', '- a\n\n    {}',
    '!!! note\n    {}', '<div markdown="1">\n{}\n</div>', 'Term\n:   {}', '1. a\n2. {}',
    '::: {{.x}}\n{}\n:::', 'a <b>{}</b>', '({})', '“{}”', '---\na: b\n---\n\n{}', '^[{}]',
])
def test_where_citations_stand(text, made_up_style):
    page = text.format(*['[@doe99]'] * 3)
    assert '@doe99' not in page_of(page).text and 'On Order' in page_of(page).text


def test_a_citation_may_be_broken(made_up_style):
    assert text_of('a [see\n@doe99,\np. 4] b') == 'a (see Doe, On Order, 4) b'
    assert text_of('> a [@doe99,\n> p. 4] b') == '> a (Doe, On Order, 4) b'
    assert text_of('> [!note] As @doe99\n> [p. 4] b') == '> [!note] As Doe (On Order, 4) b'
    assert text_of('a @doe99\n[p. 4] b') == 'a Doe (On Order, 4) b'
    assert page_of('a [@doe99]\r\nb\r\n', links=False).text.startswith(
        'a (Doe, On Order)\r\nb\r\n\r\n<div id="refs"')


def test_keys_that_are_not_there(made_up_style):
    page = page_of('One [see @doe98; @doe99].\n\nTwo [@no_1; @no2], @user.', links=False)
    assert page.text.split('\n\n<div')[0] == \
        'One (**doe98?**; Doe, On Order).\n\nTwo (**no\\_1?**; **no2?**), @user.'
    assert [str(warning) for warning in page.warnings] == [
        "page.md:1:5: no entry has the key doe98: is 'doe99' meant?",
        'page.md:3:5: no entry has the key no_1', 'page.md:3:5: no entry has the key no2',
        'page.md:3:20: no entry has the key user']


def test_a_citation_in_the_words_around_another(made_up_style):
    page = page_of('[@doe99 and @roe00]', links=False)
    assert page.text.startswith('(Doe, On Order and Roe (A Reply))')
    assert [warning.message for warning in page.warnings] == [
        '@roe00 stands in the words around @doe99, so that it is no cite beside it: a semicolon '
        'between them makes it one']


def list_in(text, **more):
    """A page with `LIST` in the place of its list."""
    made = page_of(text, links=False, **more).text
    return re.sub(r'<div id="refs".*</div>(?=\n*$|\n+[^<\n])', 'LIST', made, flags=re.DOTALL)


def test_the_place_of_the_list(made_up_style):
    cited = '(Doe, On Order)'
    assert list_in('[@doe99]') == f'{cited}\n\nLIST\n'
    assert list_in('[@doe99]\n\n# References\n') == f'{cited}\n\n# References\n\nLIST\n'
    assert list_in('# References\n\n# End\n\n[@doe99]\n') == \
        f'# References\n\nLIST\n\n# End\n\n{cited}\n'
    assert list_in('# References {#r}\n\nIntro\n\n## Sub\n\n# End\n[@doe99]') == \
        f'# References {{#r}}\n\nIntro\n\n## Sub\n\nLIST\n\n# End\n{cited}'
    for place in ('::: {#refs}\n:::', '<div id="refs"></div>', "<div class='x' id='refs'>\n</div>"):
        assert list_in(f'[@doe99]\n\n{place}\n\nEnd') == f'{cited}\n\nLIST\n\nEnd'
    assert list_in('[@doe99]\n\n[BOOKS]\n\nEnd', mark='[BOOKS]') == f'{cited}\n\nLIST\n\nEnd'
    assert list_in('[@doe99]\n\n# Literature\n', title='Literature') == \
        f'{cited}\n\n# Literature\n\nLIST\n'
    assert list_in('[@doe99]', title='Works & days') == f'{cited}\n\n## Works &amp; days\n\nLIST\n'
    assert list_in('No cites\n\n# References\n') == 'No cites\n\n# References\n'
    assert list_in('x', nocite=['@roe00', 'nobody']) == 'x\n\nLIST\n'


def test_notes_of_a_page_and_of_its_citations(made_up_style):
    made = page_of('A [see @doe99].[^1] B @roe00. C[^own] D [@doe01]\n\n[^1]: Own.\n\n'
                   '[^own]: As [@doe99, p. 3] says.\n', 'notes', links=False).text
    text, notes = made.split('\n\n[^')[0], re.findall(r'^\[\^[\w-]+\]: .*', made, re.MULTILINE)
    assert text == 'A.[^cite-1][^1] B Roe.[^3] C[^own] D[^5]'
    assert notes == ['[^cite-1]: (See Doe, On Order)', '[^1]: Own.', '[^3]: (A Reply)',
                     '[^own]: As (Doe, On Order, 3) says.', '[^5]: (Doe, More)']
    assert made.index('[^5]:') < made.index('id="refs"')
    assert page_of('# [@doe99]\n\n<b> [@doe99]', 'notes').text.startswith('# [^1]\n\n<b>[^2]\n')


def test_pages_share_one_numbering(made_up_style):
    site = markdown_pages.Site('author-date', REFERENCES, list_page='b', html=True,
                               address=lambda page: '../b/')
    for name, text in (('a', 'A [@doe99]'), ('b', '# List\n\n[@roe00]'), ('c', '[@doe99]')):
        site.add(name, text)
    site.write()
    pages = {name: site.page(name).text for name in 'abc'}
    assert pages['a'] == 'A (<a href="../b/#ref-doe99">Doe, On Order</a>)'
    assert pages['b'].startswith('# List\n\n(<a href="#ref-roe00">Roe, A Reply</a>)\n\n<div id="r')
    assert re.findall('id="ref-(.*?)"', pages['b']) == ['doe99', 'roe00']
    assert 'csl-entry' not in pages['a'] + pages['c']


PARTS = [
    '[@doe99]', '[see @doe99, p. 3; -@roe00]', '@doe01', '@roe00 [p. 4]', '`@doe99`', 'word',
    '[link @doe99](http://x)', 'x@y.org', '<http://x/@doe99>', '\\@doe99', '**b @doe99**', '$x$',
    '(see @roe00)', '“@doe01”', '[see *also* @roe00,\nchap. 2, end]', '<b>', '[@doe99; @doe01]',
    'dot.', '^[note @doe99]', '[x]', 'x [@roe00]{.x}', '[@doe99, {iv}; see @doe01]',
]
BLOCKS = [
    '# {}', '{}', '{}', '> {}', '- {}\n- {}', '1. {}\n\n   {}', '    @doe99 {}', '```\n{}\n```',
    '| a | b |\n|---|---|\n| [@doe99] | [@roe00] |', 'Text[^1] {}', '* * *',
    '~~~\n@roe00\n\n{}\n~~~',
    '{}\n---', '<!-- {} -->', '- a\n\n      code @doe99', '::: {{.x}}\n{}\n:::',
]


def made_up_page(random, parts=PARTS):
    def line():
        return ' '.join(random.choice(parts) for _ in range(random.randint(1, 4)))
    blocks = []
    for _ in range(random.randint(1, 8)):
        block, lines = random.choice(BLOCKS), [line(), line()]
        if '[^1]' in ''.join(blocks):
            block = block.replace('[^1]', '')
        # (in headings, lists and the like there are no line feeds)
        one = [text.replace('\n', ' ') for text in lines]
        blocks.append(block.format(*(lines if block in ('{}', '> {}') else one)))
    own = ['[^1]: Own [@roe00, p. 5].'] if any('[^1]' in block for block in blocks) else []
    return '\n\n'.join([*blocks, *own]) + '\n'


def read_by_pandoc(text):
    return json.loads(subprocess.run(['pandoc', '-f', 'markdown', '-t', 'json'],
                                     input=text.encode(), capture_output=True,
                                     check=True).stdout)['blocks']


@needs_pandoc
def test_the_citations_are_those_that_pandoc_reads(made_up_style):
    random = Random(11)
    compared = 0
    for _ in range(120):
        text = made_up_page(random)
        site = markdown_pages.Site('author-date', REFERENCES)
        site.add('page', text)
        read = [[(part['citationId'], part['citationMode']['t']) for part in cite]
                for cite in cites_in(read_by_pandoc(text))]
        own = [[(cited.cite.id, 'AuthorInText' if place == 0 and citation.is_in_text else
                 'SuppressAuthor' if cited.cite.suppress_author else 'NormalCitation')
                for place, cited in enumerate(citation.cited)]
               for citation in site.pages['page'].citations]
        assert own == read, text
        compared += len(own)
    assert compared > 300


@needs_pandoc
@pytest.mark.parametrize('style', ['chicago-author-date', 'ieee', 'chicago-fullnote-bibliography'])
def test_pages_read_as_pandoc_writes_them(style, published, known, cites, tmp_path):
    """But for white space: pandoc leaves a space between two notes. It also writes citations in the
    words of links, and makes an empty note of an author in the text that is cited before."""
    random = Random(2)
    parts = [part for part in PARTS if not part.startswith('[link')]
    if 'note' in style:
        parts = [part for part in parts if part.startswith('[') or '@' not in part]
    (tmp_path / 'refs.json').write_text(json.dumps(REFERENCES))
    for _ in range(8):
        text = made_up_page(random, parts)
        how = {'capture_output': True, 'cwd': tmp_path}
        words = ['pandoc', '-f', 'markdown', '-t', 'plain', '--wrap=none']
        wanted = subprocess.run(
            [*words, '--citeproc', '--bibliography=refs.json', f'--csl={FOLDER}/{style}.csl',
             '--metadata=suppress-bibliography=true'], input=text.encode(), **how).stdout.decode()
        page = page_of(text, style).text
        own = subprocess.run(words, input=re.sub(r'\n\n<div id="refs".*', '\n', page,
                                                 flags=re.DOTALL).encode(), **how).stdout.decode()
        assert plain(own) == plain(wanted), text


def plain(text):
    return ''.join(text.split())


def run(arguments, capsys):
    status = command.main(arguments)
    said = capsys.readouterr()
    return status, said.out, said.err


def test_the_command(made_up_style, tmp_path, monkeypatch, capsys):
    monkeypatch.chdir(tmp_path)
    (tmp_path / 'refs.json').write_text(json.dumps(REFERENCES))
    (tmp_path / 'page.md').write_text('A [@doe99] [@nobody]')
    words = ['markdown', '--bibliography', 'refs.json', '--no-links']
    status, out, err = run([*words, 'page.md'], capsys)
    assert (status, out.split('\n')[0]) == (0, 'A (Doe, On Order) (**nobody?**)')
    assert err == 'gamhilon: page.md:1:12: warning: no entry has the key nobody\n'
    assert run([*words, 'page.md', '--strict', '--output', 'a/b.md'], capsys)[:2] == (2, '')
    assert (tmp_path / 'a' / 'b.md').read_text() == out
    (tmp_path / 'site' / 'sub').mkdir(parents=True)
    for name in ('site/one.md', 'site/sub/two.md', 'site/not.txt'):
        (tmp_path / name).write_text('[@roe00]')
    assert run([*words, 'site', '--output', 'out'], capsys) == (0, '', '')
    made = sorted(str(path.relative_to(tmp_path / 'out'))
                  for path in (tmp_path / 'out').rglob('*.*'))
    assert made == ['one.md', 'sub/two.md']
    assert (tmp_path / 'out' / 'one.md').read_text().startswith('(Roe, A Reply)')


def test_folders_of_pages(made_up_style, tmp_path, monkeypatch, capsys):
    monkeypatch.chdir(tmp_path)
    (tmp_path / 'refs.json').write_text(json.dumps(REFERENCES))
    for name in ('one.md', 'pages/two.md', 'pages/picture.png', '.trash/old.md', '.hidden.md'):
        (tmp_path / 'site' / name).parent.mkdir(parents=True, exist_ok=True)
        (tmp_path / 'site' / name).write_text('[@doe99]')
    words = ['markdown', '--bibliography', 'refs.json', 'site', '--output', 'site/cited']

    def written(*more):
        assert run([*words, *more], capsys) == (0, '', '')
        folder = tmp_path / 'site' / 'cited'
        return {str(path.relative_to(folder)): path.read_text() for path in folder.rglob('*.*')}

    made = written()
    assert sorted(made) == ['one.md', 'pages/two.md'] and '@' not in made['one.md']
    made = written('--copy-files')
    assert sorted(made) == ['one.md', 'pages/picture.png', 'pages/two.md']
    assert made['pages/picture.png'] == '[@doe99]'
    in_place = ['markdown', '--bibliography', 'refs.json', 'site', '--output', 'site']
    assert run([*in_place, '--copy-files'], capsys) == (0, '', '')
    assert '@' not in (tmp_path / 'site' / 'one.md').read_text()


def test_a_prepared_style_stands_for_a_style_and_its_references(made_up_style):
    style = markdown_pages.PreparedStyle('author-date', REFERENCES, 'de')
    for text in ('[@doe99, S. 3]', '[@roe00] and [@doe01]'):
        assert markdown_pages.cite_page(text, style) == \
            markdown_pages.cite_page(text, 'author-date', REFERENCES, locale='de')


@pytest.mark.parametrize('more, status, said', [
    (['none.md'], 1, 'none.md: No such file'), (['page.md', '--style', 'no'], 1, 'no style'),
    (['page.md', 'page.md'], 64, 'by --output'),
    (['page.md', '--bibliography', 'page.md'], 2, 'page.md: '),
    (['latin.md'], 2, 'latin.md: no UTF-8 from byte 0'),
])
def test_what_the_command_refuses(more, status, said, made_up_style, tmp_path, monkeypatch, capsys,
                                  yaml):
    monkeypatch.chdir(tmp_path)
    (tmp_path / 'refs.json').write_text(json.dumps(REFERENCES))
    (tmp_path / 'page.md').write_text('a: [')
    (tmp_path / 'latin.md').write_bytes(b'\xe4')
    told = run(['markdown', '--bibliography', 'refs.json', *more], capsys)
    assert told[:2] == (status, '') and said in told[2]
