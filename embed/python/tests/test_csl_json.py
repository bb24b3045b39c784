"""Entries from CSL-JSON. What is expected follows the CSL-JSON schema and the CSL specification."""
import json

from random import Random

import pytest
from conftest import ROOT

from gamhilon import csl_json

# The variables of the CSL-JSON schema (csl-data.json, CSL 1.0.2).
NAME_VARIABLES = [
    'author', 'chair', 'collection-editor', 'compiler', 'composer', 'container-author',
    'contributor', 'curator', 'director', 'editor', 'editorial-director', 'executive-producer',
    'guest', 'host', 'illustrator', 'interviewer', 'narrator', 'organizer', 'original-author',
    'performer', 'producer', 'recipient', 'reviewed-author', 'script-writer', 'series-creator',
    'translator',
]
DATE_VARIABLES = ['accessed', 'available-date', 'event-date', 'issued', 'original-date',
                  'submitted']
TEXT_VARIABLES = [
    'type', 'citation-key', 'categories', 'language', 'journalAbbreviation', 'shortTitle',
    'abstract', 'annote', 'archive', 'archive_collection', 'archive_location', 'archive-place',
    'authority', 'call-number', 'chapter-number', 'citation-number', 'citation-label',
    'collection-number', 'collection-title', 'container-title', 'container-title-short',
    'dimensions', 'division', 'DOI', 'edition', 'event', 'event-title', 'event-place',
    'first-reference-note-number', 'genre', 'ISBN', 'ISSN', 'issue', 'jurisdiction', 'keyword',
    'locator', 'medium', 'note', 'number', 'number-of-pages', 'number-of-volumes',
    'original-publisher', 'original-publisher-place', 'original-title', 'page', 'page-first',
    'part', 'part-title', 'PMCID', 'PMID', 'printing', 'publisher', 'publisher-place', 'references',
    'reviewed-genre', 'reviewed-title', 'scale', 'section', 'source', 'status', 'supplement',
    'title', 'title-short', 'URL', 'version', 'volume', 'volume-title', 'year-suffix', 'custom',
]


def entry_of(**item):
    converted = csl_json.entries([{'id': 'k', **item}])
    return converted.entries[0], converted.losses


def person(**name):
    entry, losses = entry_of(author=[name])
    return entry.get('author', [None])[0], [loss.reason for loss in losses]


def test_what_entries_hold_is_kept():
    item = {'title': 'T', 'container-title': 'C', 'publisher': 'P', 'publisher-place': 'L',
            'note': 'N', 'URL': 'https://u', 'DOI': '10.1/x', 'volume': '1', 'issue': 2,
            'number': 'n3', 'edition': 4, 'citation-label': 'Lab'}
    entry, losses = entry_of(**item)
    assert entry == {'key': 'k', 'title': 'T', 'container-title': 'C', 'publisher': 'P',
                     'publisher-place': 'L', 'note': 'N', 'url': 'https://u', 'doi': '10.1/x',
                     'volume': '1', 'issue': '2', 'number': 'n3', 'edition': '4', 'label': 'Lab'}
    assert losses == []


@pytest.mark.parametrize('variable', NAME_VARIABLES + DATE_VARIABLES + TEXT_VARIABLES)
def test_each_variable_of_the_schema_is_kept_or_listed(variable):
    value = ([{'family': 'Doe'}] if variable in NAME_VARIABLES else {'date-parts': [[1999]]}
             if variable in DATE_VARIABLES else 'x')
    entry, losses = entry_of(**{variable: value})
    is_kept = bool(set(entry) - {'key'})
    assert is_kept != (variable in [loss.field for loss in losses])
    assert all(loss.key == 'k' and loss.value == value for loss in losses)


@pytest.mark.parametrize('name, wanted', [
    ({'family': 'Doe', 'given': 'Jane'}, ['Doe', 'Jane']), ({'family': 'Doe'}, ['Doe']),
    ({'given': 'Plato'}, ['Plato']), ({'literal': 'The Foo Group'}, ['The Foo Group']),
    ({'family': 'Gogh', 'given': 'Vincent', 'non-dropping-particle': 'van'},
     ['van Gogh', 'Vincent']),
    ({'family': 'Arc', 'given': 'Jeanne', 'non-dropping-particle': "d'"}, ["d'Arc", 'Jeanne']),
    ({'family': ' Doe ', 'given': 'Jane\nQ.'}, ['Doe', 'Jane Q.']),
])
def test_names_that_are_kept_whole(name, wanted):
    assert person(**name) == (wanted, [])


@pytest.mark.parametrize('name, wanted, word', [
    ({'family': 'Humboldt', 'given': 'Alexander', 'dropping-particle': 'von'},
     ['Humboldt', 'Alexander von'], 'dropping particle'),
    ({'family': 'Alembert', 'given': 'Jean', 'dropping-particle': "d'"}, ["d'Alembert", 'Jean'],
     'dropping particle'),
    ({'family': 'King', 'given': 'Martin Luther', 'suffix': 'Jr.'}, ['King Jr.', 'Martin Luther'],
     'suffix'),
    ({'family': 'King', 'given': 'Martin Luther', 'suffix': 'Jr.', 'comma-suffix': True},
     ['King, Jr.', 'Martin Luther'], 'suffix'),
    ({'family': 'Mao', 'given': 'Zedong', 'static-ordering': True}, ['Mao', 'Zedong'],
     'static-ordering'), ({'family': 'Doe', 'literal': 'J. Doe'}, ['Doe'], 'literal'),
    ({}, None, 'without a family'), ({'family': 'Doe', 'orcid': '1'}, ['Doe'], 'orcid'),
])
def test_names_of_which_something_is_listed(name, wanted, word):
    found, reasons = person(**name)
    assert found == wanted and len(reasons) == 1 and word in reasons[0]


@pytest.mark.parametrize('date, year', [
    ({'date-parts': [[1999]]}, 1999), ({'date-parts': [['1999']]}, 1999),
    ({'date-parts': [[-44]]}, -43), ({'date-parts': [[-1]]}, 0), ({'raw': '1999'}, 1999),
    ({'literal': '1999'}, 1999), ({'raw': '-0043'}, -43),
    ({'date-parts': [[1999]], 'circa': False}, 1999),
])
def test_years_that_are_kept_whole(date, year):
    assert entry_of(issued=date) == ({'key': 'k', 'issued': year}, [])


@pytest.mark.parametrize('date, year', [
    ({'date-parts': [[1999, 5]]}, 1999), ({'date-parts': [['1999', '5', '1']]}, 1999),
    ({'date-parts': [[1999], [2001]]}, 1999), ({'date-parts': [[1999]], 'circa': True}, 1999),
    ({'date-parts': [[1999]], 'season': 2}, 1999), ({'raw': '1999-05-01'}, 1999),
    ({'raw': 'May 2020'}, 2020), ({'literal': 'circa 1850'}, 1850),
    ({'literal': 'forthcoming'}, None), ({'date-parts': [[]]}, None),
    ({'date-parts': [['']]}, None), ({'date-parts': [[0]]}, None),
    ({'date-parts': [[99999999999]]}, None), ({}, None), ('1999', None),
    ({'date-parts': None}, None), ({'date-parts': [[None]]}, None),
])
def test_dates_of_which_something_is_listed(date, year):
    entry, losses = entry_of(issued=date)
    assert entry.get('issued') == year and {loss.field for loss in losses} == {'issued'}


@pytest.mark.parametrize('field, value', [
    ('title', None), ('title', ['a']), ('title', True), ('volume', {}), ('author', 'Doe'),
    ('author', ['Doe']), ('author', [None]),
])
def test_values_that_are_not_of_their_type_are_listed(field, value):
    entry, losses = entry_of(**{field: value})
    assert entry == {'key': 'k'} and field in {loss.field for loss in losses}


def test_formatting_in_texts_is_listed_and_taken_out():
    entry, losses = entry_of(title='On <i>Homo</i> <span class="nocase">sapiens</span> a < b',
                             note='line\none')
    assert entry['title'] == 'On Homo sapiens a < b' and entry['note'] == 'line one'
    assert [loss.field for loss in losses] == ['title']


def test_items_of_one_id_or_without_one_are_listed():
    converted = csl_json.entries([{'id': 1, 'title': 'a'}, {'id': '1', 'title': 'b'},
                                  {'title': 'c'}])
    assert converted.entries == [{'key': '1', 'title': 'a'}]
    assert [loss.field for loss in converted.losses] == ['id', 'id']


@pytest.mark.parametrize('items', [None, 'x', {}, 3, [1], [[]]])
def test_what_is_no_list_of_items_is_an_error(items):
    with pytest.raises(csl_json.CslJsonError):
        csl_json.entries(items)


def test_files_are_read_with_a_byte_order_mark_and_errors_name_them(tmp_path):
    good, bad = tmp_path / 'good.json', tmp_path / 'bad.json'
    good.write_bytes('\ufeff[{"id": "é"}]'.encode())
    bad.write_text('[{"id"')
    assert csl_json.load(str(good)) == [{'id': 'é'}]
    with pytest.raises(csl_json.CslJsonError, match='bad.json'):
        csl_json.load(str(bad))
    with pytest.raises(FileNotFoundError):
        csl_json.load(str(tmp_path / 'none.json'))


def test_a_summary_has_a_line_for_each_field_and_reason():
    losses = csl_json.entries([{'id': f'k{place}', 'page': '1-2'} for place in range(9)]).losses
    wanted = ['page: entries have no such field (9: k0, k1, k2, k3, k4, ..)']
    assert csl_json.summary(losses) == wanted
    assert str(losses[0]) == 'k0: page: entries have no such field ("1-2")'


@pytest.mark.parametrize('entry, wanted', [
    # as examples/alphanumeric.json has them
    ({'key': 'k', 'author': [['Dijkstra', 'Edsger']], 'issued': 1968}, 'Dij68'),
    ({'key': 'k', 'author': [['Liskov', 'B.'], ['Zilles', 'S.']], 'issued': 1974}, 'LZ74'),
    ({'key': 'k', 'author': [['Dahl', 'O.'], ['Dijkstra', 'E.'], ['Hoare', 'C.']],
      'issued': 1972}, 'DDH72'),
    ({'key': 'k', 'title': 'Beowulf', 'issued': 1000}, 'Beo00'),
])
def test_labels(entry, wanted):
    assert csl_json.label(entry) == wanted


def test_whatever_stands_in_items_their_entries_are_of_the_form_of_entries():
    jsonschema = pytest.importorskip('jsonschema', reason='there is no jsonschema')
    with open(f'{ROOT}/docs/document.schema.json', encoding='utf-8') as file:
        schema = json.load(file)
    of_entries = jsonschema.Draft202012Validator({**schema['properties']['entries'],
                                                  '$defs': schema.get('$defs', {})})
    random = Random(1)
    values = [None, True, 0, -3, 1.5, 10 ** 400, '', 'x', '<i>x</i>', '1999', 'a\nb', [], {}, [[]],
              [None], ['x'], {'family': 'Doe'}, [{'family': 'Doe', 'given': 3}],
              [{'family': ['x'], 'suffix': {}}], [{'literal': 'x', 'given': ''}], [{'given': ' '}],
              {'date-parts': [[1999, None]]}, {'date-parts': [['x']]}, {'date-parts': 'x'},
              {'date-parts': [3]}, {'raw': []}, {'literal': '12345678901'}, {'raw': '2147483648'},
              {'date-parts': [[2147483647]]}, {'date-parts': [[-2147483649]]}]
    for _ in range(3000):
        fields = random.sample(NAME_VARIABLES + DATE_VARIABLES + TEXT_VARIABLES
                               + list(csl_json.TEXTS), 6)
        item = {'id': random.choice([*values, 'k']),
                **{field: random.choice(values) for field in fields}}
        converted = csl_json.entries([item])
        assert not list(of_entries.iter_errors(converted.entries)), item
        listed = {loss.field for loss in converted.losses}
        for field in fields:
            is_empty = field in csl_json.NAMES and item[field] == []
            assert ('id' in listed or field in listed or is_empty
                    or csl_json.TEXTS.get(field, field) in converted.entries[0]), item
        assert all(map(str, converted.losses)) and all(map(csl_json.label, converted.entries))
        assert bool(csl_json.summary(converted.losses)) == bool(converted.losses)


def test_entries_are_entries_of_a_document(built, document):
    import gamhilon
    items = [{'id': 'a', 'type': 'book', 'title': 'T',
              'author': [{'family': 'Doe', 'given': 'Jane', 'suffix': 'Jr.'}],
              'issued': {'date-parts': [[-44, 3, 15]]}, 'volume': 3, 'DOI': '10.1/x',
              'URL': 'https://x', 'citation-label': 'L',
              **{variable: {'date-parts': [[2000]]}
                 for variable in DATE_VARIABLES if variable != 'issued'}}]
    entries = csl_json.entries(json.loads(json.dumps(items))).entries
    requests = [{'style': 'author-date', 'items': [{'entry': 'a'}]}]
    made = {**document('author_date'), 'entries': entries, 'requests': requests}
    assert gamhilon.print_document(made).startswith('(Doe Jr. 44 BC)\n')
