"""Citations by a style file: the texts of the call, what it gives, and what it raises."""
import json
import pickle

import pytest
from conftest import ROOT
from stand_ins import MadeUpLibrary
from test_documented_code import block, printed

import gamhilon
from gamhilon import _library

STYLE = '''<style xmlns="http://purl.org/net/xbiblio/csl" class="in-text" version="1.0">
<info><title>T</title><id>T</id><updated>2026-01-01T00:00:00+00:00</updated></info>
<citation><layout prefix="(" suffix=")">
<text variable="title"/><text variable="locator" prefix=", "/></layout></citation>
<bibliography hanging-indent="true">
<layout><text variable="title" font-style="italic"/></layout></bibliography>
</style>'''
ITEMS = [{'id': 'a', 'type': 'book', 'title': 'Ärmel'}, {'id': 'b', 'type': 'book', 'title': 'B'}]
ODD = {'file': 'items', 'pointer': '/0/titel', 'message': 'unknown key, left out'}


class MadeUpTexts(MadeUpLibrary):
    """Stands in for a library that has the call on texts."""

    def __init__(self, findings, **how):
        super().__init__(**how)
        self.findings, self.texts = json.dumps(findings).encode(), []

    def gamhilon_cite(self, *given):
        *texts, buffer, buffer_length, length = given
        self.texts.append([text.bytes for text in texts])
        assert [len(text.bytes) for text in texts] == [text.length for text in texts]
        return self._put(self.text, self.status, b'', 0, buffer, buffer_length, length)

    def gamhilon_find_cite_fault(self, *given):
        return self._put(self.findings, 0, b'', 0, *given[-3:])

    def gamhilon_read_references(self, references, options, *buffer):
        self.texts.append([references.bytes, options.bytes])
        return self._put(self.text, self.status, b'', 0, *buffer)


@pytest.fixture
def made_up_texts(monkeypatch):
    """Puts a made-up library in the place of the shared one."""
    def put(findings, **how):
        functions = MadeUpTexts(findings, **how)
        monkeypatch.setattr(_library, '_library', _library.Library(functions))
        return functions
    return put


@pytest.fixture
def cites(built):
    """For tests of the call on texts of the shared library."""
    if not hasattr(_library._loaded(), _library.CITE):
        pytest.skip('the library is older than the call on texts (embed/build.py)')


def test_texts_are_handed_on_as_they_are(made_up_texts):
    library = made_up_texts({'warnings': [ODD]},
                            text=b'{"citations":[{"content":[],"note_number":3}]}')
    answer = gamhilon.cite('ä', [{'id': 'ö'}], '[ ]', locales=['<l/>'], locale='de', nocite=True)
    style, locales, items, citations, options = library.texts[0]
    assert style == 'ä'.encode() and citations == b'[ ]'
    assert json.loads(locales) == ['<l/>'] and json.loads(items) == [{'id': 'ö'}]
    assert json.loads(options) == {'locale': 'de', 'nocite': True}
    assert answer.citations == [gamhilon.Citation([], 3)] and answer.bibliography is None
    assert answer.warnings == [gamhilon.TextWarning('items', ODD['message'], pointer='/0/titel')]
    assert str(answer.warnings[0]) == 'items: /0/titel: unknown key, left out'


def test_abbreviations_are_an_option(made_up_texts):
    library = made_up_texts({'warnings': []}, text=b'{"citations":[]}')
    gamhilon.cite('ä', [], [], abbreviations={'default': {}})
    assert json.loads(library.texts[0][4]) == {'abbreviations': {'default': {}}}


@pytest.mark.parametrize('given, limits', [
    ({'most_steps': 7}, {'steps': 7}), ({'most_bytes': 0}, {'bytes': 0}),
    ({'most_steps': 1, 'most_bytes': 2 ** 64 - 1}, {'steps': 1, 'bytes': 2 ** 64 - 1}),
])
def test_limits_of_a_style_are_an_option(made_up_texts, given, limits):
    library = made_up_texts({'warnings': []}, text=b'{"citations":[]}')
    gamhilon.cite('ä', [], [], **given)
    assert json.loads(library.texts[0][4]) == {'limits': limits}


@pytest.mark.parametrize('given', [{'most_steps': -1}, {'most_bytes': 2 ** 64}])
def test_limits_of_a_style_are_numbers_of_64_bits(made_up_texts, given):
    made_up_texts({'warnings': []}, text=b'{"citations":[]}')
    with pytest.raises(gamhilon.LimitsRefused):
        gamhilon.cite('ä', [], [], **given)


def test_a_style_that_takes_too_much_has_its_place(made_up_texts):
    fault = {'file': 'style', 'line': 3, 'column': 7, 'message': 'more than 10000 steps'}
    made_up_texts({'fault': fault, 'warnings': []}, status=10)
    with pytest.raises(gamhilon.StyleLimitExceeded,
                       match='^style:3:7: more than 10000 steps$') as refusal:
        gamhilon.cite(STYLE, ITEMS, [])
    error = pickle.loads(pickle.dumps(refusal.value))
    assert error.fault == gamhilon.TextFault(**fault) and error.status == 10
    assert isinstance(error, (gamhilon.LimitExceeded, ValueError))


def test_a_style_that_takes_too_much_through_items_has_no_place(made_up_texts):
    made_up_texts({'warnings': []}, status=10)
    with pytest.raises(gamhilon.StyleLimitExceeded, match='^the style takes more steps or') as it:
        gamhilon.cite(STYLE, ITEMS, [])
    assert it.value.fault is None


def test_a_style_that_takes_too_much_is_told_by_its_file(made_up_texts, tmp_path):
    fault = {'file': 'style', 'line': 3, 'column': 7, 'message': 'more than 10000 steps'}
    made_up_texts({'fault': fault, 'warnings': []}, status=10)
    path = tmp_path / 'mine.csl'
    path.write_text(STYLE)
    told = 'mine.csl:3:7: more than 10000 steps$'
    with pytest.raises(gamhilon.StyleLimitExceeded, match=told):
        gamhilon.csl.render(str(path), ITEMS)
    with pytest.raises(gamhilon.StyleLimitExceeded, match=told):
        gamhilon.csl.check_style(str(path))


def test_without_options_there_are_none(made_up_texts):
    library = made_up_texts({'warnings': []}, text=b'{"citations":[]}')
    assert gamhilon.cite(b'\xff', b'[]', []).warnings == []
    assert library.texts == [[b'\xff', b'[]', b'[]', b'[]', b'{}']]


def test_a_text_that_is_wrong_has_its_place(made_up_texts):
    fault = {'file': 'style', 'line': 3, 'column': 7, 'message': 'a\nb'}
    made_up_texts({'fault': fault, 'warnings': [ODD]}, status=2)
    with pytest.raises(gamhilon.TextRefused, match=r'^style:3:7: a\\x0ab$') as refusal:
        gamhilon.cite(STYLE, ITEMS, [])
    error = pickle.loads(pickle.dumps(refusal.value))
    assert error.fault == gamhilon.TextFault(**fault) and len(error.warnings) == 1
    assert error.status == 2 and isinstance(error, (gamhilon.Refused, ValueError))


@pytest.mark.parametrize('status, kind', [
    (2, gamhilon.OutOfMemory), (4, gamhilon.NumberOverflow), (5, gamhilon.OutOfMemory),
    (9, RuntimeError), (17, RuntimeError),
])
def test_each_status_has_its_error(made_up_texts, status, kind):
    made_up_texts({'warnings': []}, status=status)
    with pytest.raises(kind):
        gamhilon.cite(STYLE, ITEMS, [])


def test_a_library_that_is_older_than_the_call_is_told(made_up):
    functions = made_up()
    with pytest.raises(gamhilon.LibraryMissing, match='gamhilon_cite'):
        gamhilon.cite(STYLE, ITEMS, [])
    functions.gamhilon_cite = functions.gamhilon_render_text
    with pytest.raises(gamhilon.LibraryMissing, match='gamhilon_read_references'):
        gamhilon.cite(STYLE, ITEMS, [])


def test_references_are_handed_to_the_library_with_their_form_and_language(made_up_texts):
    said = {'items': [{'id': 'a', 'title': 'Ä'}],
            'warnings': [{'file': 'items', 'message': 'no entry', 'line': 2, 'column': 3},
                         {'file': 'items', 'message': 'no place', 'entry': 'a', 'field': 'x'}]}
    functions = made_up_texts({}, text=json.dumps(said).encode())
    read = gamhilon.references.loads('@book{ä', form='bibtex', lang='de')
    assert functions.texts[0][0] == '@book{ä'.encode()
    assert json.loads(functions.texts[0][1]) == {'from': 'bibtex', 'locale': 'de'}
    assert read.items == said['items'] and read.problems == ['line 2, column 3: no entry']
    assert list(map(str, read.losses)) == ['a: x: no place']


@pytest.mark.parametrize('place, message', [
    ({}, 'it is wrong'), ({'line': 1, 'column': 2}, 'line 1, column 2: it is wrong')])
def test_references_that_the_library_refuses(made_up_texts, place, message):
    fault = {'file': 'items', 'message': 'it is wrong', **place}
    made_up_texts({}, text=json.dumps({'fault': fault, 'warnings': []}).encode())
    with pytest.raises(gamhilon.references.ReferencesError) as told:
        gamhilon.references.loads('@book{a}')
    assert str(told.value) == message


def test_items_that_nest_deeper_than_python_writes_are_refused(made_up_texts):
    made_up_texts({'warnings': []})
    items = []
    for _ in range(100000):
        items = [items]
    with pytest.raises(gamhilon.TextRefused, match='^items: a value that nests deeper'):
        gamhilon.cite(STYLE, items, [])


def test_items_of_bibtex(cites):
    items = '@book{a, title = {An {Order}}, volumi = {x}}'
    answer = gamhilon.cite(STYLE, items, [[{'id': 'a'}]])
    assert gamhilon.plain(answer.citations[0].content) == '(An Order)'
    assert list(map(str, answer.warnings)) == ['items: a: volumi: CSL has no place for it']
    assert (answer.warnings[0].entry, answer.warnings[0].field) == ('a', 'volumi')


def test_citations_and_items(cites):
    answer = gamhilon.cite(STYLE, ITEMS, [[{'id': 'a', 'locator': '4', 'size': 1}]], nocite=True)
    assert [gamhilon.plain(citation.content) for citation in answer.citations] == ['(Ärmel, 4)']
    assert [(item.key, gamhilon.plain(item.content)) for item in answer.bibliography.items] == [
        ('a', 'Ärmel'), ('b', 'B')]
    assert answer.bibliography.hanging_indent and answer.citations[0].note_number is None
    assert list(map(str, answer.warnings)) == ['citations: /0/0/size: unknown key, left out']


def test_limits_of_a_style(cites):
    macro = '<macro name="m"><text variable="title" prefix="%s"/></macro>\n' % ('x' * 200001)
    layout = STYLE.replace('<text variable="title"/>', '<text macro="m"/>')
    long = layout.replace('<citation>', macro + '<citation>')
    with pytest.raises(gamhilon.StyleLimitExceeded, match='^style:3:1: the style writes more than'):
        gamhilon.cite(long, ITEMS, [[{'id': 'a'}]])
    with pytest.raises(gamhilon.StyleLimitExceeded, match='^style:3:1: .* more than 0 steps$'):
        gamhilon.cite(STYLE, ITEMS, [[{'id': 'a'}]], most_steps=0)
    answer = gamhilon.cite(long, ITEMS, [[{'id': 'b'}]], most_bytes=101000)
    assert gamhilon.plain(answer.citations[0].content) == '(%sB)' % ('x' * 200001)


def test_a_language_and_its_locale(cites):
    german = ('<locale xmlns="http://purl.org/net/xbiblio/csl" version="1.0" xml:lang="de-DE">'
              '<terms><term name="page">Seite</term></terms></locale>')
    style = STYLE.replace('<text variable="title"/>', '<text term="page"/>')
    for more, text, warnings in (({}, '(page)', 0), ({'locale': 'de'}, '(page)', 1),
                                 ({'locale': 'de', 'locales': [german]}, '(Seite)', 0)):
        answer = gamhilon.cite(style, ITEMS, [[{'id': 'a'}]], **more)
        assert gamhilon.plain(answer.citations[0].content) == text
        assert len(answer.warnings) == warnings


def test_all_faults_of_a_style(cites):
    style = STYLE.replace('<text variable="title"/><text', '<text variable="issued"/><txt/><text')
    style = style.replace('hanging-indent="true"', 'hanging-indent="yes"')
    texts = _library.CiteTexts(style.encode(), b'', b'[]', b'[]', b'')
    found = json.loads(_library.library().find_cite_fault(texts))
    assert [(it['line'], it['column'], it['message']) for it in found['faults']] == [
        (4, 7, 'found `issued`, wanted a text or number variable'),
        (4, 26, 'found `txt`, wanted an element that `layout` may contain, perhaps `text`'),
        (5, 15, 'found `yes`, wanted a value of `hanging-indent`')]
    assert found['fault'] == found['faults'][0]
    texts = _library.CiteTexts(STYLE.encode(), b'', b'{', b'[]', b'')
    assert 'faults' not in json.loads(_library.library().find_cite_fault(texts))


def test_a_dependent_style_tells_its_parent(cites):
    style = ('<style xmlns="http://purl.org/net/xbiblio/csl" version="1.0" default-locale="fr-FR">'
             '<info><title>T</title><id>T</id>'
             '<link href="https://example.org/parent" rel="independent-parent"/>'
             '<updated>2026-01-01T00:00:00+00:00</updated></info></style>')
    with pytest.raises(gamhilon.TextRefused) as refusal:
        gamhilon.cite(style, ITEMS, [])
    fault = refusal.value.fault
    assert (fault.parent, fault.parent_locale) == ('https://example.org/parent', 'fr-FR')


def test_the_style_of_the_readme(cites, monkeypatch):
    monkeypatch.chdir(ROOT)
    assert printed(block('embed/README.md', 'gamhilon.cite(')) == '(Doe 1999, p. 4)\n'
