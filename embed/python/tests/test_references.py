"""References as people have them, as CSL-JSON: files, the YAML of hayagriva, and the command.
(test_biblatex.py has .bib files.)

What is expected of YAML is what hayagriva documents.
"""
import json
import os
import re
import subprocess
import sys
import time
from random import Random

import changes
import pytest
from conftest import SOURCE

from gamhilon import csl_json, references

HERE = os.path.dirname(os.path.abspath(__file__))
WORKS, LIBRARY = f'{HERE}/references/works.bib', f'{HERE}/references/library.yml'
DOE = {'family': 'Doe', 'given': 'Jane'}
GOGH = {'family': 'Gogh', 'given': 'Vincent'}


# Files

def test_csl_json_stays_as_it_is(tmp_path):
    items = [{'id': 'a', 'type': 'book', 'title': '<i>Ä</i>'}, {'id': 2}]
    for text in (json.dumps(items), '\ufeff' + json.dumps({'items': items})):
        path = tmp_path / 'refs.json'
        path.write_text(text, encoding='utf-8')
        assert references.load(str(path)) == references.References(items, [], [])


def test_items_of_one_id_or_without_one_are_told():
    text = json.dumps([{'id': 1, 'title': 'a'}, {'id': '1'}, {'title': 'c'}, 3, {'id': ''}])
    read = references.loads(text)
    assert read.items == [{'id': '1'}] and read.problems == ['item 3 is not an object']
    assert [loss.reason for loss in read.losses] == [
        'a second item of this id, in place of the first',
        *['an item without an id, left out'] * 2]


@pytest.mark.parametrize('name, text, form', [
    ('a.json', '[]', 'csl-json'), ('a.bib', '', 'biblatex'), ('a.BIB', '', 'biblatex'),
    ('a.bibtex', '', 'bibtex'), ('a.yml', '', 'hayagriva'), ('a.yaml', '', 'hayagriva'),
    ('a.ris', '', 'ris'), ('a', '\nTY  - BOOK\n@ER  - ', 'ris'),
    ('a.txt', ' [{"id": "a"}]', 'csl-json'), ('a', '% Encoding: UTF-8\n @Book {a,}', 'biblatex'),
    ('a', 'doe:\n    type: Book\n', 'hayagriva'),
])
def test_the_name_of_a_file_or_the_file_tells_its_form(tmp_path, monkeypatch, name, text, form):
    seen = []
    for module in ('by_library', 'hayagriva'):
        def note(text, form='hayagriva', lang=''):
            seen.append(form)
            return [], [], []
        monkeypatch.setattr(getattr(references, module), 'items', note)
    (tmp_path / name).write_text(text)
    references.load(str(tmp_path / name))
    assert (seen or ['csl-json']) == [form]


@pytest.mark.parametrize('name, data, message', [
    ('a.json', b'[{"id"', 'a.json: no JSON: '),
    ('a.json', b'{}', 'a.json: CSL-JSON is a list of items'),
    ('a.json', b'[' * 100000, 'a.json: nested deeper than 127 levels'),
    ('a.bib', b'@book{a,\n title={\xe4}}', 'a.bib: no UTF-8 from byte 17, in line 2'),
    ('a.json', b'3', 'a.json: CSL-JSON is a list'),
])
def test_files_that_are_not_of_their_form_are_told_by_name(tmp_path, name, data, message):
    (tmp_path / name).write_bytes(data)
    with pytest.raises(references.ReferencesError, match=re.escape(message)):
        references.load(str(tmp_path / name))


@pytest.mark.parametrize('text, message', [
    ('a: [1', 'line [12], column '), ('a:\n  - x\n b: 3', 'line 3, column 2: '),
    ('a: &a [*a]', 'values that nest deeper than 50'),
])
def test_what_is_no_yaml_is_told_with_its_place(yaml, text, message):
    with pytest.raises(references.ReferencesError, match=message):
        references.loads(text, form='hayagriva')


def test_aliases_are_not_made_into_much(yaml):
    lines = ['a0: &a0 {title: x}'] + [f'a{n}: &a{n} [*a{n - 1}, *a{n - 1}]' for n in range(1, 40)]
    with pytest.raises(references.ReferencesError, match='more than 1000000 values'):
        references.loads('\n'.join(lines), form='hayagriva')


@pytest.mark.parametrize('text', ['', '\n', '# nothing\n'])
def test_an_empty_file_has_no_items(yaml, reads, text):
    for form in ('biblatex', 'bibtex', 'hayagriva'):
        assert references.loads(text, form=form) == references.References([], [], [])


def test_an_unknown_form_is_an_error():
    with pytest.raises(ValueError, match='csl-json, biblatex, bibtex, ris, hayagriva'):
        references.loads('', form='endnote')


@pytest.mark.parametrize('form, name', [
    ('biblatex', 'nofile.so'), ('ris', 'nofile.so'), ('hayagriva', 'python3-yaml')])
def test_what_reads_a_form_may_be_missing(form, name):
    words = ('import sys\nsys.modules["yaml"] = None\nfrom gamhilon import references\n'
             f'try: references.loads("a", form="{form}")\n'
             'except references.ReaderMissing as error: print(error)')
    environment = {**os.environ, 'PYTHONPATH': SOURCE, 'GAMHILON_LIBRARY': 'nofile.so'}
    done = subprocess.run([sys.executable, '-c', words], env=environment, capture_output=True,
                          text=True)
    assert name in done.stdout, done.stderr


def test_a_file_that_is_not_there_is_an_error(tmp_path):
    with pytest.raises(FileNotFoundError):
        references.load(str(tmp_path / 'none.bib'))


# Whatever stands in a file

@pytest.mark.parametrize('path, form',
                         [(WORKS, 'biblatex'), (WORKS, 'bibtex'), (LIBRARY, 'hayagriva')])
def test_whatever_stands_in_a_file_ends_in_items_or_in_an_error_of_ours(reads, yaml, path, form):
    with open(path, encoding='utf-8') as file:
        whole = file.read()
    random = Random(3)
    for _ in range(300):
        begin = random.randrange(len(whole))
        text = changes.of_text(random, whole[begin:begin + 2500])
        began = time.process_time()
        try:
            read = references.loads(text, form=form)
        except references.ReferencesError:
            continue
        finally:
            assert time.process_time() - began < 10
        assert all(isinstance(item['id'], str) and item['type'] for item in read.items)
        assert all(map(str, read.losses)) and all(read.problems)
        csl_json.entries(read.items)


# The YAML of hayagriva

@pytest.fixture
def library(yaml):
    """The items of references/library.yml, and what isn't kept of them."""
    read = references.load(LIBRARY)
    assert read.problems == []
    return {item['id']: {key: value for key, value in item.items() if key != 'id'}
            for item in read.items}, read.losses


def test_books_and_articles_of_hayagriva(library):
    items, _ = library
    assert items['harry'] == {
        'type': 'book', 'title': 'Harry Potter and the Order of the Phoenix',
        'author': [{'family': 'Rowling', 'given': 'J. K.'}],
        'volume': '5', 'number-of-pages': '768', 'issued': {'date-parts': [[2003, 6, 21]]}}
    assert items['dependence'] == {
        'type': 'article-journal',
        'title': 'The program dependence graph and its use in optimization',
        'author': [{'family': 'Ferrante', 'given': 'Jeanne'},
                   {'family': 'Ottenstein', 'given': 'Karl J.'},
                   {'family': 'Warren', 'given': 'Joe D.'}],
        'issued': {'date-parts': [[1987, 7]]}, 'page': '319-349', 'DOI': '10.1145/24039.24041',
        'volume': '9', 'issue': '3',
        'container-title': 'ACM Transactions on Programming Languages and Systems',
        'ISSN': '0164-0925'}
    # (a parent without a type is what an entry of its type mostly has)
    vortex = items['vortex']
    assert (vortex['type'], vortex['DOI']) == ('article-journal', '10.1007/BF02731494')
    assert vortex['container-title'] == 'Il Nuovo Cimento'


def test_parents_of_hayagriva(library):
    items, _ = library
    assert items['chapter'] == {
        'type': 'chapter', 'title': 'On Order', 'author': [DOE], 'page': '1-4',
        'chapter-number': '2', 'container-title': 'Collected Things',
        'editor': [{'family': 'Ed', 'given': 'Itor'}], 'publisher': 'Press',
        'publisher-place': 'Paris', 'issued': {'date-parts': [[1999]]}, 'ISBN': '978-3-16-148410-0',
        'collection-title': 'A Series', 'collection-number': '7'}
    talk = items['talk']
    assert talk['type'] == 'paper-conference' and 'container-title' not in talk
    assert talk['event-title'] == talk['event'] == 'World Wide Developer Conference 2020'
    assert talk['event-place'] == 'Mountain View, CA' and talk['publisher'] == 'Apple Inc.'
    assert talk['issued'] == {'date-parts': [[2020, 6, 26]]}
    assert talk['event-date'] == {'date-parts': [[2020, 6, 22], [2020, 6, 26]]}
    assert talk['URL'] == 'https://developer.apple.com/videos/play/wwdc2020/10111/'


def test_originals_and_series_of_hayagriva(library):
    items, _ = library
    reprint = items['reprint']
    assert {key: value for key, value in reprint.items() if key.startswith('original')} == {
        'original-title': 'Il Principe', 'original-date': {'date-parts': [[1532]]},
        'original-publisher': 'Blado',
        'original-publisher-place': 'Rome'}
    assert (reprint['publisher'], reprint['language'], reprint['note']) == ('Dover', 'en-US',
                                                                            'A reprint')
    names = items['names']
    assert (names['collection-title'], names['collection-number']) == ('Universal-Bibliothek', '3')
    assert names['collection-editor'] == [{'family': 'Reclam', 'given': 'Philipp'}]
    assert (names['publisher'], names['publisher-place'], names['edition']) == ('Reclam', 'Leipzig',
                                                                                '2')


def test_names_and_texts_of_hayagriva(library):
    items, losses = library
    names = items['names']
    assert names['author'] == [
        {'family': 'Fontaine', 'given': 'Jean', 'non-dropping-particle': 'de la'},
        {'family': 'Luther King', 'given': 'Martin', 'suffix': 'Jr.'},
        {'family': 'Watkins', 'given': 'Gloria Jean'},
        {'literal': 'UNICEF'}, {**GOGH, 'non-dropping-particle': 'van'}]
    assert names['translator'] == [{'family': 'Doe',
                                    'given': 'J.'}] and names['title-short'] == 'On iPhones'
    assert names['title'] == ('On iPhones and <span class="nocase">de novo</span> '
                              '<span class="nocase"><i>x</i><sup>2</sup></span>')
    assert names['issued'] == {'date-parts': [[1890]], 'circa': True}
    assert [(loss.key, loss.field, loss.reason) for loss in losses] == [
        ('talk', 'parent.runtime', 'CSL has no place for it'),
        ('names', 'author', 'CSL has no place for an alias'),
        ('names', 'affiliated', 'CSL has no place for the role cinematography')]


def test_other_works_of_hayagriva(library):
    items, _ = library
    assert items['electronic'] == {
        'type': 'webpage', 'title': "Ishkur's Guide to Electronic Music",
        'author': [{'literal': 'Ishkur'}],
        'URL': 'http://www.techno.org/electronic-music-guide/',
        'accessed': {'date-parts': [[2020, 11, 2]]}}
    assert items['preprint']['URL'] == 'https://arxiv.org/abs/1810.04805'
    assert items['preprint']['type'] == 'article'
    assert (items['thesis']['genre'], items['thesis']['publisher']) == ('Doctoral dissertation',
                                                                        'University of Somewhere')
    assert (items['case']['authority'], items['case']['number']) == ('Supreme Court', '12-34')
    assert (items['post']['type'], items['post']['container-title']) == ('post', 'A thread')


@pytest.mark.parametrize('text, item, lost', [
    ('k: {type: Novel, title: T}', {'type': 'document', 'title': 'T'},
     ('type', 'no type of hayagriva, read as misc')),
    ('k: {title: T}', {'type': 'document', 'title': 'T'}, ('type', 'no type, read as misc')),
    ('k: {type: Book, colour: red}', {'type': 'book'}, ('colour', 'CSL has no place for it')),
    ('k: {type: Book, time-range: 1-2}', {'type': 'book'},
     ('time-range', 'CSL has no place for it')),
    ('k: {type: Book, title: [a]}', {'type': 'book'}, ('title', 'not a text')),
    ('k: {type: Book, author: [[a]]}', {'type': 'book'}, ('author', 'no name')),
    ('k: {type: Book, date: {a: b}}', {'type': 'book'}, ('date', 'not a date')),
    ('k: {type: Book, parent: x}', {'type': 'book'}, ('parent', 'no map of fields')),
    ('k: {type: Book, serial-number: [1]}', {'type': 'book'},
     ('serial-number', 'not a number or a map of numbers')),
    ('k: {type: Book, serial-number: {ean: 1}}', {'type': 'book'},
     ('serial-number.ean', 'CSL has no place for it')),
    ('k: {type: Article, parent: [{type: Newspaper, title: N}, {type: Blog, title: B}]}',
     {'type': 'article-newspaper', 'container-title': 'N'},
     ('parent', 'a second container (blog), left out')),
])
def test_what_is_not_kept_of_hayagriva_is_told(yaml, text, item, lost):
    read = references.loads(text, form='hayagriva')
    assert read.items == [{'id': 'k', **item}] and [(loss.field, loss.reason)
                                                    for loss in read.losses] == [lost]


@pytest.mark.parametrize('text, problem', [
    ('k: 3', 'k: no entry, which is a map of fields'), ('- a', 'no map from keys to entries'),
    ('k: {type: Book}\nk: {type: Web}', 'line 2: a second k, left out'),
])
def test_what_is_no_entry_is_told(yaml, text, problem):
    assert references.loads(text, form='hayagriva').problems == [problem]


# The command

def run(*words, given=None):
    environment = {**os.environ, 'PYTHONPATH': SOURCE}
    done = subprocess.run([sys.executable, '-m', 'gamhilon', 'entries', *words], input=given,
                          env=environment,
                          capture_output=True, timeout=120)
    return done.returncode, done.stdout.decode(), done.stderr.decode()


def test_entries_of_several_files(tmp_path, reads):
    text = '@book{doe, title = {A Title}, editorc = {X, Y}, editorctype = {founder}}'
    (tmp_path / 'a.bib').write_text(text)
    (tmp_path / 'b.json').write_text('[{"id": "doe"}, {"id": "roe", "title": "Ä"}]')
    status, out, error = run(str(tmp_path / 'b.json'), str(tmp_path / 'a.bib'))
    assert status == 0 and json.loads(out) == [{'id': 'doe', 'type': 'book', 'title': 'A title'},
                                               {'id': 'roe', 'title': 'Ä'}]
    assert error.splitlines() == [
        f'gamhilon: {tmp_path}/a.bib: `doe` replaces the item of a file before',
        f'gamhilon: {tmp_path}/a.bib: doe: editorc: CSL has no place for more names of the kind '
        'founder']


def test_entries_of_standard_input(reads, yaml):
    assert json.loads(run('-', given=b'[{"id": "a"}]')[1]) == [{'id': 'a'}]
    read = json.loads(run('-', given=b'@book{a, title = {T}}')[1])
    assert read == [{'id': 'a', 'type': 'book', 'title': 'T'}]
    read = json.loads(run('--from', 'hayagriva', '-', given=b'a: {type: Web}')[1])
    assert read == [{'id': 'a', 'type': 'webpage'}]
    status, out, error = run('-', given=b'[')
    assert (status, out) == (2, '') and error.startswith('gamhilon: standard input: no JSON: ')


def test_entries_of_a_document(tmp_path):
    (tmp_path / 'a.json').write_text('[{"id": "doe", "type": "book", "title": "T", "page": "1"}]')
    status, out, error = run('--to', 'document', str(tmp_path / 'a.json'))
    assert status == 0 and json.loads(out) == [{'key': 'doe', 'title': 'T'}]
    assert error.splitlines() == ['gamhilon: type: entries have no such field (1: doe)',
                                  'gamhilon: page: entries have no such field (1: doe)']


def test_a_file_in_which_something_is_no_entry_has_a_status(tmp_path, reads):
    (tmp_path / 'a.bib').write_text('@book{a, title = {A}}\n@book{b, title = {B')
    status, out, error = run(str(tmp_path / 'a.bib'))
    assert status == 2 and [item['id'] for item in json.loads(out)] == ['a', 'b']
    assert error == (f'gamhilon: {tmp_path}/a.bib: line 2, column 18: a value without an end: the '
                     'rest of the entry is left out\n')


def test_the_language_of_entries(tmp_path, reads):
    (tmp_path / 'a.bib').write_text('@book{a, title = {Die Welt}}')
    assert json.loads(run('--lang', 'de', str(tmp_path / 'a.bib'))[1])[0]['title'] == 'Die Welt'


# What a style would have shown

@pytest.mark.parametrize('field, reason, variables, is_shown', [
    ('date', 'no date', {'issued'}, True), ('date', 'no date', {'title'}, False),
    ('month', 'no month', {'title', 'issued'}, True), ('urldate', 'no date', {'accessed'}, True),
    ('booksubtitle', 'the command', {'container-title'}, True),
    ('parent.title', 'not a text', {'collection-title'}, True),
    ('bookauthor', 'an empty name', {'author'}, False), ('illustrator', 'x', {'illustrator'}, True),
    ('serial-number.doi', 'not a text', {'DOI'}, True),
    ('usera', 'CSL has no place for it', {'a'}, False),
    ('editorc', 'CSL has no place for more names of the kind founder', {'editor'}, False),
    ('type', 'no such type, read as a document', set(), True), ('crossref', 'a ring', set(), True),
])
def test_whether_a_style_would_have_shown_what_is_not_kept(field, reason, variables, is_shown):
    loss = csl_json.Loss('k', field, 'x', reason)
    assert references.is_shown(loss, variables) == is_shown


def test_each_field_that_is_known_is_that_of_a_variable(reads):
    """Of those that become a variable of their own: what isn't kept of them is told where a style
    writes that."""
    with open(WORKS, encoding='utf-8') as file:
        read = references.loads(file.read())
    assert {loss.field for loss in read.losses
            if references.is_shown(loss, frozenset())} <= {'entrysubtype', 'crossref', 'type'}
