"""What comes of `csl.render`, what it is handed in, and the names that the package shows."""
import doctest
import json
import os
import pickle
import warnings
from pathlib import Path

import pytest
from conftest import REFERENCES
from stand_ins import MadeUpStyle

import gamhilon
from gamhilon import _library, csl
from gamhilon.csl import rendering

CITES = [[{'id': 'doe99', 'prefix': 'see ', 'locator': '3', 'suffix': ', end'}, {'id': 'roe00'}],
         [{'id': 'doe01', 'prefix': '<i>cf.</i> ', 'suffix': ' and so'}]]


@pytest.fixture
def made_up_style(monkeypatch):
    monkeypatch.setattr(_library, '_library', _library.Library(MadeUpStyle()))


def test_texts_and_pages(made_up_style):
    rendered = csl.render('author-date', REFERENCES, CITES[:1])
    one = rendered.citations[0]
    assert one == str(one) == '(see Doe, On Order, 3, end; Roe, A Reply)'
    assert one.to_html() == one._repr_html_() == one and one.to_markdown() == one
    assert one.to_html(links=True) == ('(see <a href="#ref-doe99">Doe, On Order, 3</a>, end; '
                                       '<a href="#ref-roe00">Roe, A Reply</a>)')
    assert one.to_markdown(links=True) == ('(see [Doe, On Order, 3](#ref-doe99), end; '
                                           '[Roe, A Reply](#ref-roe00))')
    assert r'\hyperlink{ref-roe00}{Roe, A Reply}' in one.to_latex(links=True)
    assert str(rendered.bibliography) == 'doe99\nroe00'
    assert str(rendered) == f'{one}\n\ndoe99\nroe00'
    page = rendered.to_html(links=True)
    assert page.startswith('<p class="citation">(see <a') and '<div id="ref-roe00"' in page
    assert rendered.to_markdown().startswith(f'{one}\n\n<div id="ref-doe99"')
    assert rendered._repr_html_() == rendered.to_html()
    assert rendered.bibliography.to_html() in page


def test_texts_are_on_a_line():
    item = gamhilon.Item('a', [{'text': 'On\nOrder\0s'}], {'text': '1.\t'})
    listed = csl.results.RenderedBibliography(gamhilon.Bibliography([item], False, 1, 1))
    assert str(listed) == '1. On Orders' and listed['a'] == '1. On Orders'


def test_results_travel(made_up_style):
    rendered = csl.render('author-date', REFERENCES, CITES[:1])
    for part in (rendered, rendered.citations[0], rendered.bibliography):
        other = pickle.loads(pickle.dumps(part))
        assert other == part and other.to_html() == part.to_html()


def test_links_are_around_what_the_style_writes(cites):
    one, two = csl.render('author-date', REFERENCES, CITES).citations
    assert one.to_html(links=True) == ('(see <a href="#ref-doe99">Doe 1999, p. 3</a>, end; '
                                       '<a href="#ref-roe00">Roe 2000</a>)')
    assert two.to_html(links=True) == \
        '(<i>cf.</i> <a href="#ref-doe01">Doe 2001</a> and so)'


def test_references_in_all_forms(made_up_style, tmp_path, monkeypatch):
    path = tmp_path / 'refs.json'
    path.write_text(json.dumps(REFERENCES))
    wanted = csl.render('author-date', REFERENCES, CITES[:1])
    for given in (path, str(path), gamhilon.references.load(path), tuple(REFERENCES),
                  iter(REFERENCES)):
        assert csl.render('author-date', given, CITES[:1]) == wanted
    style = tmp_path / 'own.csl'
    style.write_text(gamhilon.styles.text('author-date'))
    assert csl.render(style, path, CITES[:1], locales=Path(tmp_path)).citations == wanted.citations
    assert csl.about(style).title == csl.about('author-date').title
    assert csl.render('author-date', path, iter(CITES[:1])).citations == wanted.citations
    entries = gamhilon.csl_json.entries(REFERENCES)
    assert gamhilon.csl_json.entries(gamhilon.references.load(path)) == entries
    assert gamhilon.csl_json.load(path) == REFERENCES
    with pytest.raises(OSError):
        csl.render('author-date', tmp_path / 'none.json')


def test_what_is_listed(made_up_style):
    everything = [item['id'] for item in REFERENCES]
    assert list(csl.render('author-date', REFERENCES).bibliography) == everything
    assert list(csl.render('author-date', REFERENCES, []).bibliography) == []
    one = [[{'id': 'roe00'}]]
    assert list(csl.render('author-date', REFERENCES, one).bibliography) == ['roe00']
    told = csl.render('author-date', REFERENCES, one, nocite=['doe99'])
    assert list(told.bibliography) == ['doe99', 'roe00'] and len(told.citations) == 1
    assert list(csl.render('author-date', REFERENCES, one, nocite='*').bibliography) == everything
    with pytest.raises(csl.CitationRefused, match="no entry 'doe98': is 'doe99' meant"):
        csl.render('author-date', REFERENCES, one, nocite='doe98')


def test_citations_of_a_text_are_rendered(made_up_style):
    told = csl.render('author-date', REFERENCES, [gamhilon.parse_citations('see @doe99, p. 4')])
    assert told.citations == ['(seeDoe, On Order, 4)']


def test_older_names_stay_for_a_version(made_up_style, made_up):
    with pytest.warns(DeprecationWarning, match='references'):
        told = csl.render('author-date', entries=REFERENCES, citations=CITES[:1])
    assert len(told.citations) == 1
    with pytest.warns(DeprecationWarning, match='check_references'):
        csl.check_entries([])
    made_up(text=b'{"citations":[]}')
    with pytest.warns(DeprecationWarning, match='render_document') as caught:
        assert gamhilon.render({}).citations == []
    assert os.path.samefile(caught[0].filename, __file__)
    with pytest.raises(TypeError):
        csl.render('author-date')


def test_all_errors_are_of_one_family():
    family = [gamhilon.Refused, gamhilon.LibraryMissing, gamhilon.CitationTextRefused,
              csl.StyleMissing, csl.StyleRefused, csl.CitationRefused, csl.EntriesRefused,
              gamhilon.csl_json.CslJsonError, gamhilon.references.ReferencesError,
              gamhilon.references.ReaderMissing]
    assert all(issubclass(error, gamhilon.GamhilonError) for error in family)
    with pytest.raises(gamhilon.GamhilonError):
        csl.find('no such style')


def test_what_is_public_is_shown():
    for module in (gamhilon, csl):
        assert dir(module) == sorted(module.__all__)
        for name in module.__all__:
            shown = getattr(module, name)
            documented = callable(shown) and getattr(shown, '__module__', '').startswith('gamhilon')
            assert not documented or (shown.__doc__ or '').strip(), name


def test_the_examples_of_render_hold(cites):
    with warnings.catch_warnings():
        warnings.simplefilter('error')
        failures, tried = doctest.testmod(rendering)
    assert tried >= 4 and failures == 0


def test_the_example_of_documents_holds(library):
    failures, tried = doctest.testmod(gamhilon)
    assert tried >= 2 and failures == 0
