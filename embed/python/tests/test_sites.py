"""The extension of Python-Markdown and the plugin of MkDocs, with Debian's packages."""
import logging
import json
import re
import sys

import pytest
from conftest import PROJECT, REFERENCES
from stand_ins import MadeUpStyle

from gamhilon import _library, markdown_pages, styles

markdown = pytest.importorskip('markdown', reason='there is no Python-Markdown '
                                                  '(Debian: python3-markdown)')
sys.path.insert(0, PROJECT)
import gamhilon_wheel  # noqa: E402

from gamhilon.python_markdown import CitationExtension  # noqa: E402


@pytest.fixture
def place(tmp_path, monkeypatch):
    """A folder with references, and entry points as the wheel has them."""
    monkeypatch.setattr(_library, '_library', _library.Library(MadeUpStyle()))
    (tmp_path / 'refs.json').write_text(json.dumps(REFERENCES))
    info = tmp_path / 'site' / 'gamhilon-0.3.0.dist-info'
    info.mkdir(parents=True)
    (info / 'METADATA').write_text('Metadata-Version: 2.1\nName: gamhilon\nVersion: 0.3.0\n')
    (info / 'entry_points.txt').write_bytes(gamhilon_wheel.entry_points())
    monkeypatch.syspath_prepend(str(tmp_path / 'site'))
    monkeypatch.chdir(tmp_path)
    return tmp_path


def html_of(text, extensions=(), **options):
    extension = CitationExtension(bibliography='refs.json', **options)
    return markdown.markdown(text, extensions=[*extensions, extension])


def test_a_page_of_python_markdown(place):
    html = html_of('# Head [@doe99]\n\nSee [*e.g.* @roe00, p. 3].\n\n    @doe99\n\nEnd')
    assert '<h1>Head (<a href="#ref-doe99">Doe, On Order</a>)</h1>' in html
    assert '(<em>e.g.</em> <a href="#ref-roe00">Roe, A Reply, 3</a>).' in html
    assert '<code>@doe99' in html and html.count('class="csl-entry"') == 2
    assert html.index('End') < html.index('<div id="refs"')


def test_its_list_stands_in_place_of_the_mark(place):
    html = html_of('[@doe99]\n\n[REFERENCES]\n\nEnd', links=False)
    assert html.index('csl-entry') < html.index('End') and '[REFERENCES]' not in html
    assert '<a ' not in html
    other = html_of('[@doe99]\n\n[BOOKS]\n\nEnd', mark='[BOOKS]')
    assert other.index('csl-entry') < other.index('End')


def test_its_texts_are_those_of_the_references(place):
    title = 'A *b* _c_ `d` [e](f) <g> &amp; \\* x^2 ~h~ "i" 1. $j$ #k !l | :m:'
    (place / 'refs.json').write_text(json.dumps([{'id': 'doe99', 'title': title}]))
    html = html_of('[@doe99]', extensions=['tables', 'smarty', 'attr_list', 'extra'])
    import html as entities
    paragraph = re.search('<p>(.*?)</p>', html).group(1)
    assert entities.unescape(re.sub('</?a[^>]*>', '', paragraph)) == f'({title})'


def test_ampersands_of_a_page_are_read_by_any_markdown(place):
    """By Python-Markdown too, which doesn't know `\\&`."""
    works = [{'id': 'doe99', 'title': 'A & B &amp; \\& C'}]
    page = markdown_pages.cite_page('[@doe99]\n', 'author-date', works).text
    assert 'A &amp; B' in page and '\\&' not in page.replace('\\\\', '')
    import html as entities
    shown = entities.unescape(re.sub('<[^>]*>', '', markdown.markdown(page)))
    assert '(A & B &amp; \\& C)' in shown


def test_its_notes_are_numbered_as_they_are_read(place):
    html = html_of('A [@doe99]. B[^own] C [see @roe00].\n\n[^own]: Own [@doe01].\n', style='notes')
    notes = re.findall(r'<li id="fn:.*?">\n<p>(.*?)&#160;', html)
    assert [re.sub('<[^>]*>', '', note) for note in notes] == [
        '(Doe, On Order)', 'Own (Doe, More).', '(See Roe, A Reply)']
    assert re.findall(r'footnote-ref" href="#fn:[\w-]+">(\d)', html) == ['1', '2', '3']


def test_it_is_found_by_its_name(place, caplog):
    html = markdown.markdown('[@doe99; @nobody]', extensions=['gamhilon'], extension_configs={
        'gamhilon': {'bibliography': ['refs.json']}})
    assert 'Doe, On Order</a>; <strong>nobody?</strong>)' in html
    assert caplog.messages == ['the page:1:1: no entry has the key nobody']


def test_references_are_read_once_for_all_pages(place, monkeypatch, caplog):
    from gamhilon import references
    read = []
    real = references.load
    monkeypatch.setattr(references, 'load',
                        lambda path, **how: read.append(path) or real(path, **how))
    (place / 'refs.json').write_text(json.dumps([*REFERENCES, 7]))
    for _ in range(3):
        assert 'Doe, On Order' in html_of('[@doe99]')
    assert read == ['refs.json'] and caplog.messages == ['refs.json: item 4 is not an object']
    (place / 'refs.json').write_text(json.dumps([{**REFERENCES[0], 'title': 'Another'}]))
    assert 'Doe, Another' in html_of('[@doe99]') and len(read) == 2
    (place / 'own.csl').write_text(styles.text('notes'))
    assert 'class="footnote' in html_of('[@doe99]', style='own.csl')
    (place / 'own.csl').write_text(styles.text('numeric'))
    assert 'class="footnote' not in html_of('[@doe99]', style='own.csl')


SITE = {
    'index.md': '---\ntitle: Home\n---\n# First\n\n[@roe00] and [see @doe99, p. 3].\n',
    'sub/two.md': '# Two\n\n[@doe01]\n\n```\n@doe01\n```\n',
    'works.md': '# Works\n\n[REFERENCES]\n\nEnd\n',
}


@pytest.fixture
def built(place):
    """Builds a site with MkDocs, and gives the HTML of its pages."""
    pytest.importorskip('mkdocs', reason='there is no MkDocs (Debian: mkdocs)')
    from mkdocs.commands.build import build
    from mkdocs.config import load_config

    def run(pages, **options):
        for name, text in pages.items():
            (place / 'docs' / name).parent.mkdir(parents=True, exist_ok=True)
            (place / 'docs' / name).write_text(text)
        plugin = {'gamhilon': {'bibliography': 'refs.json', **options}}
        (place / 'mkdocs.yml').write_text(json.dumps({
            'site_name': 'Site', 'plugins': [plugin], 'nav': list(pages)}))
        build(load_config(str(place / 'mkdocs.yml')))
        return {name:
                (place / 'site' / _page(name)).read_text() for name in pages}
    return run


def _page(name):
    stem = name[:-len('.md')]
    return 'index.html' if stem == 'index' else f'{stem}/index.html'


def test_a_site_of_mkdocs_with_one_list(built, monkeypatch):
    calls = []
    real = MadeUpStyle.gamhilon_cite
    monkeypatch.setattr(MadeUpStyle, 'gamhilon_cite',
                        lambda self, *given: calls.append(1) or real(self, *given))
    pages = built(SITE, list_page='works.md')
    assert len(calls) == 1
    assert '(<a href="works/#ref-roe00">Roe, A Reply</a>)' in pages['index.md']
    assert '(<a href="../../works/#ref-doe01">Doe, More</a>)' in pages['sub/two.md']
    assert re.findall('id="ref-(.*?)"', pages['works.md']) == ['doe99', 'roe00', 'doe01']
    assert pages['works.md'].index('csl-entry') < pages['works.md'].index('End')
    assert 'csl-entry' not in pages['index.md'] + pages['sub/two.md']
    assert '@doe01' in pages['sub/two.md'] and 'css/gamhilon.css' in pages['index.md']


def test_a_site_of_mkdocs_with_a_list_on_each_page(built):
    pages = built(SITE)
    assert re.findall('id="ref-(.*?)"', pages['index.md']) == ['doe99', 'roe00']
    assert '(<a href="#ref-roe00">Roe, A Reply</a>)' in pages['index.md']
    assert re.findall('id="ref-(.*?)"', pages['sub/two.md']) == ['doe01']


def test_what_mkdocs_says_of_a_page(built, caplog):
    with caplog.at_level(logging.WARNING):
        built({'index.md': '# A\n\n[@nobody]\n'})
    assert 'index.md:3:1: no entry has the key nobody' in caplog.messages


def test_what_mkdocs_says_of_references_it_says_again(built, place, caplog):
    (place / 'odd.json').write_text(json.dumps([REFERENCES[0], 7]))
    for text in ('# A\n\n[@doe99]\n', '# A\n\nB [@doe99]\n'):
        caplog.clear()
        with caplog.at_level(logging.WARNING):
            built({'index.md': text}, bibliography='odd.json')
        assert f'{place}/odd.json: item 1 is not an object' in caplog.messages


def test_what_mkdocs_refuses(built, caplog):
    from mkdocs.exceptions import Abort
    for options, said in (({'style': 'none'}, 'no style'), ({'list_page': 'x.md'}, 'no page x.md'),
                          ({'bibliography': 'none.json'}, 'none.json')):
        with pytest.raises(Abort):
            built({'index.md': '# A\n'}, **options)
        assert said in caplog.messages[-1]


def test_a_page_that_is_edited_is_written_alone(built, place, monkeypatch):
    calls = []
    real = MadeUpStyle.gamhilon_cite
    monkeypatch.setattr(MadeUpStyle, 'gamhilon_cite',
                        lambda self, *given: calls.append(1) or real(self, *given))
    built(SITE, list_page='works.md')
    edited = {**SITE, 'sub/two.md': '# Three\n\nNew words [@doe01]\n'}
    pages = built(edited, list_page='works.md')
    assert len(calls) == 1
    assert 'New words (<a href="../../works/#ref-doe01">Doe, More</a>)' in pages['sub/two.md']
    again = built(edited, list_page='works.md')
    assert len(calls) == 1
    assert all(again[name].split('<!--')[0] == pages[name].split('<!--')[0] for name in pages)
    pages = built({**edited, 'sub/two.md': '# Three\n\nNew words [@roe00]\n'}, list_page='works.md')
    assert len(calls) == 2 and 'A Reply</a>)' in pages['sub/two.md']
    assert re.findall('id="ref-(.*?)"', pages['works.md']) == ['doe99', 'roe00']
    (place / 'refs.json').write_text(json.dumps([{**REFERENCES[1], 'title': 'Another Reply'}]))
    pages = built({**edited, 'sub/two.md': '# Three\n\nNew words [@roe00]\n'}, list_page='works.md')
    assert len(calls) == 3 and 'Another Reply</a>)' in pages['sub/two.md']
    built(SITE)
    assert len(calls) == 4


def test_what_mkdocs_says_of_a_page_it_says_again(built, caplog):
    for text in ('# A\n\n[@nobody]\n', '# A\n\nB\n\n[@nobody]\n'):
        caplog.clear()
        with caplog.at_level(logging.WARNING):
            built({'index.md': text})
        line = text[:text.index('[')].count('\n') + 1
        assert f'index.md:{line}:1: no entry has the key nobody' in caplog.messages
