"""Sites of Markdown some of whose pages have changed since they were written."""
import json
from random import Random

import pytest
from conftest import REFERENCES
from stand_ins import MadeUpSessions, MadeUpStyle, NumberedStyle
from test_markdown_pages import PARTS, made_up_page

from gamhilon import _library, markdown_pages
from gamhilon._page_writers import HtmlInMarkdown

PAGES = {
    'one': 'A [@doe99].\n\nB @roe00, c[^n].\n\n[^n]: In [@doe01].\n',
    'two': 'D [@roe00].\n',
    'three': 'E [@doe01].\n\nF[^m].\n\n[^m]: See [@doe99].\n',
}


class Library:
    """What stands in for the library, and how often it was called."""

    def __init__(self, kind, monkeypatch):
        self.calls = 0
        functions = kind()
        for name in ('gamhilon_cite', 'gamhilon_find_cite_fault', 'gamhilon_session_set_citations'):
            if not hasattr(functions, name):
                continue
            setattr(functions, name, self._counted(getattr(functions, name)))
        monkeypatch.setattr(_library, '_library', _library.Library(functions))

    def _counted(self, function):
        def called(*given):
            self.calls += 1
            return function(*given)
        return called


@pytest.fixture(params=[MadeUpStyle, NumberedStyle, MadeUpSessions])
def library(request, monkeypatch):
    return Library(request.param, monkeypatch)


def site_of(texts, style='author-date', **more):
    site = markdown_pages.Site(style, REFERENCES, **more)
    for name, text in texts.items():
        site.add(name, text)
    site.write(['roe00'])
    return site


def shown(site):
    return {name: site.page(name) for name in site.pages}


def test_nothing_is_asked_for_where_nothing_has_changed(library):
    site = site_of(PAGES)
    before, calls = shown(site), library.calls
    assert site.revise({}) == [] and site.revise({'two': PAGES['two']}) == ['two']
    assert shown(site) == before and library.calls == calls


@pytest.mark.parametrize('style', ['author-date', 'notes'])
def test_nothing_is_asked_for_where_words_have_changed(style, library):
    site = site_of(PAGES, style)
    calls = library.calls
    edited = 'New [@doe99], and [@nobody].\n\nMore\n\n@roe00 c[^n].\n\n[^n]: As in [@doe01].\n'
    assert site.revise({'one': edited}) == ['one']
    assert library.calls == calls
    assert shown(site) == shown(site_of({**PAGES, 'one': edited}, style))
    assert [str(warning) for warning in site.page('one').warnings] == [
        'one:1:19: no entry has the key nobody']


@pytest.mark.parametrize('style', ['author-date', 'notes'])
@pytest.mark.parametrize('list_page', [None, 'three'])
@pytest.mark.parametrize('name, text', [
    ('one', 'A [@roe00].\n'), ('two', 'D[^o] [@roe00; @doe01] [@doe99].\n\n[^o]: Own.\n'),
    ('two', 'D[^o] [@roe00].\n\n[^o]: Own.\n'), ('three', ''), ('two', '[@nobody]\n'),
])
def test_all_pages_are_right_where_citations_have_changed(name, text, style, list_page, library):
    site = site_of(PAGES, style, list_page=list_page)
    fresh = shown(site_of({**PAGES, name: text}, style, list_page=list_page))
    before = shown(site)
    drawn = site.revise({name: text})
    assert shown(site) == fresh and name in drawn
    assert {other for other in PAGES if fresh[other] != before[other]} <= {*drawn}


def test_other_pages_are_not_drawn_where_the_same_is_written_of_them(monkeypatch):
    Library(MadeUpStyle, monkeypatch)
    site = site_of(PAGES, list_page='three')
    assert site.revise({'two': 'D [@doe99].\n'}) == ['two']
    assert site.page('two').text == 'D ([Doe, On Order](#ref-doe99)).\n'


@pytest.mark.parametrize('style', ['author-date', 'notes'])
def test_other_citations_keep_their_keys(style, monkeypatch):
    """So that a session answers those alone that have changed."""
    asked, functions = [], MadeUpSessions()
    put = functions.gamhilon_session_set_citations

    def recorded(session, citations):
        asked.append(json.loads(citations.bytes))
        return put(session, citations)

    functions.gamhilon_session_set_citations = recorded
    monkeypatch.setattr(_library, '_library', _library.Library(functions))
    site = site_of(PAGES, style)
    first = asked[0]
    asked.clear()
    site.revise({'two': 'D [@doe01].\n'})
    assert [one['citationID'] for one in first] == [one['citationID'] for one in asked[0]]
    assert [place for place, pair in enumerate(zip(first, asked[0])) if pair[0] != pair[1]] == [3]


@pytest.mark.parametrize('kind', [MadeUpStyle, NumberedStyle])
def test_usual_citations_are_written_as_all_others(kind, monkeypatch):
    Library(kind, monkeypatch)
    random = Random(7)
    texts = {f'page{number}': made_up_page(random, PARTS) for number in range(300)}
    found = []

    def unformatted(*given):
        found.append(usual(*given))
        return found[-1]

    usual = HtmlInMarkdown.unformatted
    monkeypatch.setattr(HtmlInMarkdown, 'unformatted', unformatted)
    written = shown(site_of(texts, html=True))
    assert len([text for text in found if text]) > 300
    monkeypatch.setattr(HtmlInMarkdown, 'unformatted', lambda *given: None)
    assert written == shown(site_of(texts, html=True))


@pytest.mark.parametrize('style', ['author-date', 'notes'])
def test_pages_that_change_again_and_again(style, library):
    random = Random(4)
    parts = [part for part in PARTS if part != '^[note @doe99]']
    texts = {name: made_up_page(random, parts) for name in 'abcd'}
    for list_page in (None, 'c'):
        site = site_of(texts, style, html=True, list_page=list_page)
        for _ in range(25):
            changed = {name: made_up_page(random, parts)
                       for name in random.sample('abcd', random.randint(1, 2))}
            texts = {**texts, **changed}
            site.revise(changed)
            assert shown(site) == shown(site_of(texts, style, html=True, list_page=list_page))
            assert [str(one) for one in site.warnings] == []
