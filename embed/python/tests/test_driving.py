"""The driven call and its loop: with a host of three lines, whose answers are worked out by
hand."""
import json

import pytest
from conftest import ROOT

import gamhilon
from gamhilon import _library
from stand_ins import MadeUpLibrary

NORMAL = {'font_style': 'normal', 'font_weight': 'normal'}
STYLE = {'citation': {'prefix': '(', 'suffix': ')', 'delimiter': '; ', 'add_names': True,
                      'add_givenname': True, 'add_year_suffix': True, 'collapse': 'year-suffix',
                      'cite_group_delimiter': ', ', 'year_suffix_delimiter': ', '},
         'bibliography': {'substitute': '———'}}
PERSONS = {'one': ['Doe', 'Jane'], 'two': ['Doe', 'Jane'], 'three': ['Doe', 'John'],
           'four': ['Roe']}


def text(words):
    return {**NORMAL, 'text': words}


def element(meta, *children):
    return {'children': list(children), 'meta': meta}


def names_of(task):
    """The family name, and the given name in an item and where the state asks for it."""
    person = PERSONS[task.entry]
    is_full = task.kind == 'item' or (task.name_forms or [''])[0] in ('initials', 'full')
    written = ' '.join([*person[:0:-1], person[0]] if is_full else person[:1])
    name = element({'name': {'variable': 'author', 'place': 0}}, text(written))
    return element({'names': [{'variable': 'author', 'persons': [person]}]}, name)


def write(task):
    """Writes `Doe 1999a`, and `a` alone where a collapsed cite is cut to its suffix."""
    year = '' if task.verdict == 'suffix' else '1999'
    date = element('date', text(year + task.year_suffix))
    locator = [text(', ' + task.locator[1])] if task.locator else []
    if task.verdict or task.kind == 'date':
        return gamhilon.Written([date, *locator])
    return gamhilon.Written([names_of(task), text(' '), date, *locator], first_name=('short',))


def document(*requests, **more):
    asked = [{'style': 's', 'items': list(items)} for items in requests]
    return {'styles': {'s': STYLE}, 'entries': [{'key': key, 'issued': 1999} for key in PERSONS],
            'requests': asked, 'bibliography': {'style': 's'}, **more}


def texts(answer):
    return [gamhilon.plain(citation.content) for citation in answer.citations]


def test_ambiguous_cites_get_suffixes_and_given_names_and_collapse(driver):
    """Round 1 tells John by his given name; round 2 tells the works of Jane by suffixes, in the
    order of the cites."""
    asked = document([{'entry': 'two'}, {'entry': 'four'},
                      {'entry': 'one', 'locator': ['page', '4']}], [{'entry': 'three'}],
                     rounds='full')
    asked['bibliography']['order'] = ['one', 'two', 'four', 'three']
    answer = gamhilon.render_document(asked, write=write)
    assert texts(answer) == ['(Doe 1999a, b, 4; Roe 1999)', '(John Doe 1999)']
    assert [(item.key, gamhilon.plain(item.content)) for item in answer.bibliography.items] == [
        ('one', 'Jane Doe 1999b'), ('two', '——— 1999a'), ('four', 'Roe 1999'),
        ('three', 'John Doe 1999')]


def test_where_rounds_is_csl_names_and_suffixes_are_told_together(driver):
    """Jane and John are told by their given names, and the works of Jane by suffixes beside them,
    in the order of the bibliography. A cite with a locator keeps its year."""
    told = []

    def noting(task):
        told.append((task.state, task.names, task.suffix))
        return write(task)

    asked = document([{'entry': 'two'}, {'entry': 'four'},
                      {'entry': 'one', 'locator': ['page', '4']}], [{'entry': 'three'}],
                     rounds='csl')
    asked['bibliography']['order'] = ['one', 'two', 'four', 'three']
    answer = gamhilon.render_document(asked, write=noting)
    assert texts(answer) == ['(Jane Doe 1999b, 1999a, 4; Roe 1999)', '(John Doe 1999)']
    assert [(item.key, gamhilon.plain(item.content)) for item in answer.bibliography.items] == [
        ('one', 'Jane Doe 1999a'), ('two', '——— 1999b'), ('four', 'Roe 1999'),
        ('three', 'John Doe 1999')]
    assert (None, ('full',), 1) in told and all(state is None for state, _, _ in told)


def test_each_task_is_written_once(driver):
    seen = []

    def noting(task):
        seen.append(task)
        return write(task)

    gamhilon.render_document(document([{'entry': 'one'}, {'entry': 'two'}],
                                  [{'entry': 'one'}, {'entry': 'one'}]), write=noting)
    assert len(set(seen)) == len(seen)
    # Both cites of One that repeat it read alike when they are compared, and are one task.
    assert sum(task.entry == 'one' and task.state is None and not task.is_final
               for task in seen) == 3


@pytest.fixture
def handed_in(driver, monkeypatch):
    """The driven documents of all calls."""
    documents, drive = [], _library.Library.drive

    def noting(library, document):
        documents.append(json.loads(document))
        return drive(library, document)

    monkeypatch.setattr(_library.Library, 'drive', noting)
    return documents


@pytest.mark.parametrize('cited, rounds', [
    ([], 0), (['four'], 0), (['one', 'two'], 1), (['one', 'three'], 1),
    (['one', 'two', 'three'], 2),
])
def test_a_document_is_handed_in_three_times_more_than_rounds_mark(handed_in, cited, rounds):
    """Two works of Jane are told by suffixes, in one round; Jane and John by given names, in one
    round before that. Without cites there is nothing to write."""
    gamhilon.render_document(document(*[[{'entry': key}] for key in cited], rounds='full'),
                             write=write)
    assert len(handed_in) == (rounds + 3 if cited else 1)
    assert handed_in[0]['written'] == []
    for before, after in zip(handed_in, handed_in[1:]):
        assert before['written'] == after['written'][:len(before['written'])] != after['written']


def test_the_locale_in_use_is_told(driver):
    """It is the request's, else that of the style, else en-US."""
    asked = document([{'entry': 'one'}], [{'entry': 'four'}])
    asked['requests'][1]['locale'] = 'fr-FR'
    assert [task.locale for task in gamhilon.drive_once(asked).tasks] == ['en-US', 'fr-FR']
    asked['styles']['s'] = {**STYLE, 'default_locale': 'de-DE'}
    assert [task.locale for task in gamhilon.drive_once(asked).tasks] == ['de-DE', 'fr-FR']


def test_what_is_missing_at_first_are_the_first_renderings(driver):
    missing = gamhilon.drive_once(document([{'entry': 'one', 'locator': ['page', '4']},
                                            {'entry': 'one'}], [{'entry': 'four'}]))
    assert missing == gamhilon.Missing([
        gamhilon.Task('cite', 's', 'en-US', 'one', first=True, number=0),
        gamhilon.Task('cite', 's', 'en-US', 'one', number=0),
        gamhilon.Task('cite', 's', 'en-US', 'four', first=True, number=1)])
    assert [task.position for task in missing.tasks] == ['first', 'subsequent', 'first']
    assert not any(task.is_final for task in missing.tasks)


def test_a_cite_of_the_year_is_a_date_at_last(driver):
    asked = document([{'entry': 'one', 'purpose': 'year'}])
    seen = []
    answer = gamhilon.render_document(asked, write=lambda task: seen.append(task) or write(task))
    assert texts(answer) == ['1999']
    assert [(task.kind, task.purpose, task.place) for task in seen] == [
        ('cite', 'year', None), ('item', None, None), ('date', None, (0, 0))]


def test_what_is_written_already_is_not_asked_for(driver):
    asked = document([{'entry': 'four'}])
    seen = []
    answer = gamhilon.render_document(asked, write=lambda task: seen.append(task) or write(task))
    written = [write(task).data(task) for task in seen]
    assert len(written) == 3 and gamhilon.drive_once({**asked, 'written': written}) == answer

    def refuse(task):
        raise AssertionError(f'{task} is written')

    assert gamhilon.render_document({**asked, 'written': written}, write=refuse) == answer


def test_notes_and_positions(driver):
    requests = [{'style': 'n', 'note': note, 'items': [{'entry': entry}]}
                for note, entry in ((1, 'one'), (2, 'one'), (3, 'four'), (4, 'one'))]
    asked = {'styles': {'n': {'class': 'note', 'citation': {'near_note_distance': 1}}},
             'requests': requests, 'entries': [{'key': 'one'}, {'key': 'four'}],
             'bibliography': {'style': 'n'}}
    final = []
    answer = gamhilon.render_document(asked,
                                  write=lambda task: (final.append(task) if task.is_final else None)
                                  or write(task))
    assert [(task.position, task.note, task.first_note, task.near_note) for task in final] == [
        ('first', 1, 1, False), ('ibid', 2, 1, True), ('first', 3, 3, False),
        ('subsequent', 4, 1, False)]
    assert [citation.note_number for citation in answer.citations] == [1, 2, 3, 4]
    assert answer.bibliography is None


@pytest.mark.parametrize('data', [
    {'kind': 'date', 'style': 's', 'locale': 'de-DE', 'entry': 'e', 'place': [0, 1]},
    {'kind': 'item', 'style': 's', 'locale': 'en-US', 'entry': 'e', 'number': 0, 'note': 0,
     'first_note': 0, 'near_note': True, 'first': True, 'state': 'choose', 'usage': 'both'},
    {'kind': 'cite', 'style': 's', 'locale': 'en-US', 'entry': 'e', 'number': 3, 'place': [2, 0],
     'locator': ['page', '4'], 'repeats': 'ibid-with-locator', 'state': {'suffix': 0},
     'purpose': 'prose', 'verdict': 'date'},
    {'kind': 'cite', 'style': 's', 'locale': 'en-US', 'entry': 'e', 'number': 3,
     'state': {'names': ['short', 'count']}},
    {'kind': 'cite', 'style': 's', 'locale': 'en-US', 'entry': 'e', 'number': 3, 'place': [0, 0],
     'names': ['initials', 'count'], 'choose': True, 'suffix': 0},
    {'kind': 'date', 'style': 's', 'locale': 'en-US', 'entry': 'e', 'place': [0, 1], 'suffix': 2},
])
def test_a_task_is_the_value_that_the_driver_asked_for(data):
    task = gamhilon.Task.of(data)
    assert task.data() == data
    assert hash(task) == hash(gamhilon.Task.of(json.loads(json.dumps(data))))


@pytest.mark.parametrize('place, letters',
                         [(0, 'a'), (25, 'z'), (26, 'aa'), (51, 'az'), (52, 'ba'), (701, 'zz'),
                          (702, 'aaa')])
def test_letters_of_suffixes(place, letters):
    assert gamhilon.Task('cite', 's', 'en-US', 'e',
                         state=gamhilon.State(suffix=place)).year_suffix == letters


def test_a_state_is_told_by_the_properties_of_a_task():
    plain = gamhilon.Task('cite', 's', 'en-US', 'e')
    chosen = gamhilon.Task('cite', 's', 'en-US', 'e', state=gamhilon.State(choose=True))
    named = gamhilon.Task('cite', 's', 'en-US', 'e', state=gamhilon.State(names=('full',)))
    assert [(task.disambiguates, task.name_forms, task.year_suffix)
            for task in (plain, chosen, named)] == [
                (False, None, ''), (True, None, ''), (False, ('full',), '')]


def test_means_are_told_by_the_properties_of_a_task():
    alone = gamhilon.Task('date', 's', 'en-US', 'e', suffix=1)
    several = gamhilon.Task('cite', 's', 'en-US', 'e', names=('full',), choose=True, suffix=0)
    assert [(task.disambiguates, task.name_forms, task.year_suffix)
            for task in (alone, several)] == [
                (False, None, 'b'), (True, ('full',), 'a')]


@pytest.mark.parametrize('first, repeats, position', [
    (True, None, 'first'), (False, None, 'subsequent'), (False, 'ibid', 'ibid'),
    (False, 'ibid-with-locator', 'ibid-with-locator'),
])
def test_positions_are_those_of_csl(first, repeats, position):
    assert gamhilon.Task('cite', 's', 'en-US', 'e', first=first,
                         repeats=repeats).position == position


def test_what_was_noted_is_told_and_what_was_not_is_left_out():
    task = gamhilon.Task('date', 's', 'en-US', 'e')
    said = {'kind': 'date', 'style': 's', 'locale': 'en-US', 'entry': 'e'}
    assert gamhilon.Written([]).data(task) == {'task': said, 'tree': []}
    assert gamhilon.Written([text('x')], True, ('short', 'count'), 'number').data(task) == {
        'task': said, 'tree': [text('x')], 'disambiguate_tested': True,
        'first_name': ['short', 'count'], 'usage': 'number'}


class MadeUpDriver(MadeUpLibrary):
    """Ends each driven call with a status, or with a text; and has one fault."""

    gamhilon_drive = MadeUpLibrary.gamhilon_render_text

    def gamhilon_find_driven_fault(self, *given):
        return self.gamhilon_find_fault(*given)


@pytest.fixture
def made_up_driver(monkeypatch):
    def put(**how):
        functions = MadeUpDriver(**how)
        monkeypatch.setattr(_library, '_library', _library.Library(functions))
        return functions
    return put


def test_a_driver_that_asks_again_ends_the_loop(made_up_driver):
    task = json.dumps({'kind': 'date', 'style': 's', 'locale': 'en-US', 'entry': 'e'})
    functions = made_up_driver(text=f'{{"missing":[{task}]}}'.encode())
    with pytest.raises(RuntimeError, match='asked again'):
        gamhilon.render_document({}, write=write)
    assert len(functions.calls) == 2
    made_up_driver(text=b'{"missing":[]}')
    with pytest.raises(RuntimeError, match='asked again'):
        gamhilon.render_document({}, write=write)


def test_a_library_without_the_call_is_told(made_up):
    made_up()
    with pytest.raises(gamhilon.LibraryMissing, match='gamhilon_drive'):
        gamhilon.drive_once({})


@pytest.mark.parametrize('status, kind',
                         [(4, gamhilon.NumberOverflow), (5, gamhilon.OutOfMemory),
                          (17, RuntimeError)])
def test_each_status_has_its_error(made_up_driver, status, kind):
    made_up_driver(status=status)
    with pytest.raises(kind):
        gamhilon.drive_once({})


def test_a_refused_document_has_the_place_that_the_library_tells(made_up_driver):
    made_up_driver(status=2,
                   fault={'pointer': '/styles', 'found': 'a number', 'wanted': 'an object'})
    with pytest.raises(gamhilon.DocumentRefused) as refusal:
        gamhilon.drive_once({'styles': 5})
    assert refusal.value.pointer == '/styles'
    assert str(refusal.value) == '/styles: a number, 5; wanted is an object'


def test_memory_that_is_refused_while_the_place_is_looked_for_is_told(made_up_driver):
    made_up_driver(status=2, fault_status=5)
    with pytest.raises(gamhilon.OutOfMemory):
        gamhilon.drive_once({'styles': 5})


def test_a_buffer_that_is_too_small_grows(made_up_driver):
    told = json.dumps({'answer': {'citations': [{'content': [text('x' * 100000)]}]}})
    functions = made_up_driver(text=told.encode())
    assert texts(gamhilon.drive_once({})) == ['x' * 100000] and len(functions.calls) == 2


def with_written(*tree, **task):
    """A document in which this task is written as this tree."""
    asked = {'kind': 'date', 'style': 's', 'locale': 'en-US', 'entry': 'one', **task}
    return document(written=[{'task': {key: value for key, value in asked.items()
                                       if value is not None}, 'tree': list(tree)}])


OF_NO_FORM = [
    (document(locales=[]), ''),
    ({**document(), 'styles': {'s': {'citation': {'elements': []}}}}, '/styles/s/citation'),
    (with_written(locale=None), '/written/0/task'),
    (with_written(kind='letter'), '/written/0/task/kind'),
    (with_written(kind='item', number=0, place=[0, 0]), '/written/0/task'),
    (with_written(kind='cite', number=0, state={'suffix': 'a'}), '/written/0/task/state/suffix'),
    (with_written({'children': [], 'meta': 'title'}), '/written/0/tree/0/meta'),
]
WITHOUT_SENSE = [
    ({**document(), 'bibliography': {'style': 'none'}}, '/bibliography/style'),
    (document([{'entry': 'none'}]), '/requests/0/items/0/entry'),
    (with_written(entry='none'), '/written/0/task/entry'),
    (with_written(style='none'), '/written/0/task/style'),
    (document(written=with_written()['written'] + with_written(text('x'))['written']),
     '/written/1'),
]


@pytest.mark.parametrize('refused, pointer', OF_NO_FORM + WITHOUT_SENSE)
def test_a_driven_document_is_refused_by_its_place(drives, refused, pointer):
    """docs/DRIVEN.md: what isn't of the form is refused, and so is a task of what the document
    doesn't have."""
    with pytest.raises(gamhilon.DocumentRefused) as refusal:
        gamhilon.drive_once(refused)
    assert refusal.value.pointer == pointer


def schema_of(name):
    with open(f'{ROOT}/docs/{name}.schema.json', encoding='utf-8') as file:
        return json.load(file)


@pytest.fixture
def schema():
    """Tells whether docs/driven.schema.json takes a document."""
    jsonschema = pytest.importorskip('jsonschema',
                                     reason='there is no jsonschema (Debian: python3-jsonschema)')
    return jsonschema.Draft202012Validator(schema_of('driven')).is_valid


def test_the_schema_takes_what_a_host_hands_in(schema, handed_in):
    """Suffixes, given names, locators, cuts of collapsed cites, cites of the year, and notes."""
    asked = document([{'entry': 'one'}, {'entry': 'two', 'locator': ['page', '4']}],
                     [{'entry': 'three'}], [{'entry': 'four', 'purpose': 'year'}], offset=3,
                     rounds='full')
    asked['styles']['n'] = {'class': 'note'}
    asked['requests'] += [{'style': 'n', 'note': note, 'items': [{'entry': 'one'}]}
                          for note in (1, 2)]
    gamhilon.render_document(asked, write=write)
    assert len(handed_in) > 3 and all(map(schema, handed_in))


@pytest.mark.parametrize('refused, pointer', OF_NO_FORM)
def test_the_schema_refuses_what_is_of_no_form(schema, refused, pointer):
    assert not schema(refused)


@pytest.mark.parametrize('refused, pointer', WITHOUT_SENSE)
def test_the_schema_takes_what_makes_no_sense_alone(schema, refused, pointer):
    """What docs/DRIVEN.md says that a schema can't say."""
    assert schema(refused)


@pytest.mark.parametrize('other, common', [
    ('document',
     ['count', 'short', 'locatorKind', 'persons', 'entry', 'request', 'item',
      'bibliographyRequest']),
    ('answer',
     ['tree', 'node', 'text', 'element', 'markup', 'cite', 'meta', 'names', 'name', 'variable',
      'person']),
])
def test_the_schema_has_the_parts_of_the_others(other, common):
    parts, others = schema_of('driven')['$defs'], schema_of(other)['$defs']
    assert {part: parts[part] for part in common} == {part: others[part] for part in common}


def test_what_is_written_and_not_asked_for_is_no_fault(driver):
    """docs/DRIVEN.md: a host may hand in more than is asked for, and the same thing twice."""
    more = with_written()['written']
    seen = []
    answer = gamhilon.render_document(document([{'entry': 'four'}], written=more * 2),
                                  write=lambda task: seen.append(task) or write(task))
    assert answer == gamhilon.render_document(document([{'entry': 'four'}]), write=write)
    assert len(seen) == 3
