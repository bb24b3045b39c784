"""What the package promises of all its calls: one family of errors, warnings in one place, paths of
either kind."""
import importlib
import json
import logging
import os
import pkgutil

import pytest
from conftest import REFERENCES
from stand_ins import MadeUpStyle

import gamhilon
from gamhilon import _library, csl, csl_json, markdown_pages, references

FOREIGN = {'gamhilon.mkdocs_plugin', 'gamhilon.python_markdown'}
INNER = {'_Failed', 'OutputFailed', 'SessionFault', '_Unknown'}
# (which no call of the package raises)


def modules():
    """The modules of the package, but for those that need another program."""
    for found in pkgutil.walk_packages(gamhilon.__path__, 'gamhilon.'):
        if found.name not in FOREIGN and not found.name.startswith('gamhilon.sphinx') \
                and not found.name.endswith('__main__'):
            yield importlib.import_module(found.name)


@pytest.fixture
def made_up_style(monkeypatch):
    """A made-up style writes each cite as its author's family name and its title."""
    monkeypatch.setattr(_library, '_library', _library.Library(MadeUpStyle()))


def test_errors_are_of_one_family():
    own = {value for module in modules() for value in vars(module).values()
           if isinstance(value, type) and issubclass(value, Exception)
           and value.__module__.startswith('gamhilon') and value.__name__ not in INNER}
    assert len(own) > 20
    assert [error for error in own if not issubclass(error, gamhilon.GamhilonError)] == []


@pytest.mark.parametrize('call, kind', [
    (lambda: gamhilon.styles.path('none'), csl.StyleMissing),
    (lambda: references.loads('[]', form='none'), references.ReferencesError),
    (lambda: gamhilon.Limits(depth=-1, elements=1), gamhilon.LimitsRefused),
    (lambda: csl.find('none'), csl.StyleMissing),
    (lambda: csl_json.entries({}), csl_json.CslJsonError),
    (lambda: gamhilon.parse_citations('none'), gamhilon.CitationTextRefused),
])
def test_faults_of_callers_are_of_the_family(call, kind):
    with pytest.raises(kind) as caught:
        call()
    assert isinstance(caught.value, (gamhilon.GamhilonError, ValueError))


@pytest.fixture
def odd(tmp_path):
    """A file of references in which a value is no item."""
    path = tmp_path / 'odd.json'
    path.write_text(json.dumps([REFERENCES[0], 7]))
    return path


def test_what_is_odd_in_references_is_in_the_warnings(odd, made_up_style):
    said = 'item 1 is not an object'
    assert references.load(odd).warnings == [said]
    rendered = csl.render('author-date', odd, [[{'id': 'doe99'}]])
    assert [str(warning) for warning in rendered.warnings] == [f'{odd}: {said}']
    loaded = csl.render('author-date', references.load(odd))
    assert [str(warning) for warning in loaded.warnings] == [f'the references: {said}']
    assert [str(warning) for warning in csl.check_references(odd)] == [f'{odd}: {said}']
    page = markdown_pages.cite_page('[@doe99]', 'author-date', odd)
    assert [str(warning) for warning in page.warnings] == [f'{odd}: {said}']
    assert rendered.answer.warnings == []


def test_the_extension_warns_of_references(odd, made_up_style, caplog):
    markdown = pytest.importorskip('markdown')
    from gamhilon.python_markdown import CitationExtension
    with caplog.at_level(logging.WARNING):
        html = markdown.markdown('[@doe99]', extensions=[CitationExtension(bibliography=odd)])
    assert caplog.messages == [f'{odd}: item 1 is not an object'] and 'On Order' in html


def test_paths_are_texts_or_paths(tmp_path, made_up_style):
    works, style = tmp_path / 'works.json', tmp_path / 'own.csl'
    works.write_text(json.dumps(REFERENCES))
    style.write_text(gamhilon.styles.text('numeric'))
    for made in (os.fspath, lambda path: path):
        file, own = made(works), made(style)
        rendered = csl.render(own, file, [[{'id': 'doe99'}]], locales=made(tmp_path))
        assert rendered.citations == ['(Doe, On Order)']
        assert csl.about(own).title == 'Gamhilon numeric' and csl.find(own) == str(style)
        assert csl.check_style(own) == [] and 'title' in csl.variables_of(own)
        assert len(references.load(file).items) == len(csl_json.load(file)) == 4
        page = markdown_pages.cite_page('[@doe99]', own, file, locales=made(tmp_path))
        assert page.warnings == []
        with pytest.raises(FileNotFoundError):
            gamhilon.latex_documents.write_bbl(made(tmp_path / 'none.aux'))
    loaded = references.load(works)
    assert csl_json.entries(works) == csl_json.entries(loaded)
    answer = gamhilon.cite(style.read_text(), loaded, [[{'id': 'doe99'}]])
    assert gamhilon.plain(answer.citations[0].content) == '(Doe, On Order)'


def test_results_write_themselves(made_up_style):
    rendered = csl.render('author-date', REFERENCES, [[{'id': 'doe99'}]])
    assert str(rendered).startswith('(Doe, On Order)\n\n')
    assert '<a href="#ref-doe99">Doe, On Order</a>' in rendered.to_html(links=True)
    assert '[Doe, On Order](#ref-doe99)' in rendered.to_markdown(links=True)
    assert r'\hyperlink{ref-doe99}' in rendered.to_latex(links=True)
    assert rendered._repr_html_() == rendered.to_html()
    assert rendered.to_latex().startswith('(Doe, On Order)\n\n')


class Listening(MadeUpStyle):
    """A made-up style that keeps the options of each call."""

    def __init__(self):
        super().__init__()
        self.options = []

    def gamhilon_cite(self, *given):
        self.options.append(json.loads(given[4].bytes))
        return super().gamhilon_cite(*given)


def test_each_call_hands_abbreviations_on(tmp_path, monkeypatch):
    heard, path = Listening(), tmp_path / 'abbreviations.json'
    monkeypatch.setattr(_library, '_library', _library.Library(heard))
    value = {'default': {'title': {'On Order': 'Order'}}}
    path.write_text(json.dumps(value))
    style = markdown_pages.PreparedStyle('author-date', REFERENCES, abbreviations=path)
    path.unlink()
    calls = [
        lambda: csl.render('author-date', REFERENCES, [[{'id': 'doe99'}]], abbreviations=value),
        lambda: gamhilon.cite('', REFERENCES, [[{'id': 'doe99'}]], abbreviations=value),
        lambda: markdown_pages.cite_page('[@doe99], @doe99', style),
        lambda: markdown_pages.cite_page('@doe99', 'author-date', REFERENCES, abbreviations=value),
    ]
    for call in calls:
        heard.options.clear()
        call()
        assert heard.options and all(it['abbreviations'] == value for it in heard.options)
    markdown_pages.cite_page('@doe99', 'author-date', REFERENCES)
    assert 'abbreviations' not in heard.options[-1]


def test_abbreviations_of_pages_are_refused(tmp_path):
    path = tmp_path / 'abbreviations.json'
    path.write_text('{')
    with pytest.raises(csl.AbbreviationsRefused, match='abbreviations.json:1:2: no JSON: '):
        markdown_pages.PreparedStyle('author-date', REFERENCES, abbreviations=path)
