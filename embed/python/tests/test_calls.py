"""The calls, what they raise, and how these errors travel."""
import json
import os
import pickle
import subprocess
import sys
from concurrent.futures import ProcessPoolExecutor

import pytest
from conftest import PROJECT, SOURCE

import gamhilon
from gamhilon import _library

RING = {'styles': {'s': {'citation': {'elements': []}, 'macros': [
    {'name': 'a', 'children': []}, {'name': 'b', 'children': [{'kind': 'text', 'macro': 'b'}]}]}},
    'entries': [], 'requests': [], 'bibliography': {'style': 's'}}
EMPTY = {'styles': {'s': {'citation': {'elements': []}}}, 'entries': [], 'requests': [],
         'bibliography': {'style': 's'}}
NESTED = {**EMPTY,
          'styles': {'s': {'citation': {'elements': [{'kind': 'text', 'macro': 'm'},
                                                     {'kind': 'text', 'macro': 'm'}]},
                           'macros': [{'name': 'm',
                                       'children': [{'kind': 'text', 'value': 'x'}]}]}}}
CALLS = (gamhilon.render_document, gamhilon.print_json, gamhilon.print_document, gamhilon.check)


def test_an_answer_of_five_times_its_document_is_computed_once(made_up):
    document = json.dumps(EMPTY) + ' ' * 100000
    answer = json.dumps({'citations': [{'content': [{'text': 'x' * 5 * len(document)}]}]}).encode()
    library = made_up(text=answer)
    assert len(gamhilon.render_document(document).citations) == 1
    assert len(library.calls) == 1


def test_a_buffer_that_is_too_small_grows_to_what_is_told(made_up):
    library = made_up(text=b'x' * 100000)
    assert gamhilon.print_document('{}') == 'x' * 100000
    assert [buffer for _, buffer in library.calls][1] == 100000 and len(library.calls) == 2


@pytest.mark.parametrize('status, kind, base', [
    (2, gamhilon.DocumentRefused, ValueError), (3, gamhilon.MacroRing, ValueError),
    (4, gamhilon.NumberOverflow, OverflowError), (5, gamhilon.OutOfMemory, MemoryError),
])
def test_each_status_has_its_error(made_up, status, kind, base):
    made_up(status=status)
    for call in CALLS:
        with pytest.raises(kind) as refusal:
            call(EMPTY)
        assert refusal.value.status == status
        assert isinstance(refusal.value, base) and isinstance(refusal.value, gamhilon.Refused)


@pytest.mark.parametrize('status, kind, base, message', [
    (2, gamhilon.DocumentRefused, ValueError, 'the document: an object'),
    (5, gamhilon.OutOfMemory, MemoryError, 'memory'),
    (7, gamhilon.TooDeep, gamhilon.LimitExceeded,
     '^the elements of a layout nest deeper than 100$'),
    (8, gamhilon.TooManyElements, gamhilon.LimitExceeded, '^a layout has more elements than 5000$'),
])
def test_what_is_not_within_limits_is_refused_before_anything_else(made_up, status, kind, base,
                                                                   message):
    for call in CALLS:
        library = made_up(limits_status=status)
        with pytest.raises(kind, match=message) as refusal:
            call(b'{}', limits=gamhilon.Limits(depth=100, elements=5000))
        assert refusal.value.status == status
        assert isinstance(refusal.value, base) and isinstance(refusal.value, gamhilon.Refused)
        assert library.limits_calls == [(b'{}', 100, 5000)]
        assert library.calls == ([(b'{}', _library.FAULT_BUFFER)] if status == 2 else [])


def test_what_is_within_limits_is_answered(made_up):
    for call in CALLS:
        library = made_up(text=b'{"citations":[]}')
        call(b'{}', limits=gamhilon.Limits(0, 2 ** 64 - 1))
        assert library.limits_calls == [(b'{}', 0, 2 ** 64 - 1)] and len(library.calls) == 1


def test_without_limits_none_are_checked(made_up):
    for call in CALLS:
        library = made_up(text=b'{"citations":[]}', limits_status=7)
        call(b'{}')
        assert library.limits_calls == [] and len(library.calls) == 1


@pytest.mark.parametrize('depth, elements, name',
                         [(-1, 0, 'depth'), (0, -1, 'elements'), (2 ** 64, 0, 'depth'),
                          (0, 2 ** 64, 'elements')])
def test_limits_are_numbers_of_64_bits(depth, elements, name):
    with pytest.raises(ValueError, match=name):
        gamhilon.Limits(depth, elements)


def test_limits_of_a_document(built):
    for call in CALLS:
        call(NESTED, limits=gamhilon.Limits(depth=2, elements=4))
        with pytest.raises(gamhilon.TooDeep):
            call(NESTED, limits=gamhilon.Limits(depth=1, elements=4))
        with pytest.raises(gamhilon.TooManyElements):
            call(NESTED, limits=gamhilon.Limits(depth=2, elements=3))
        with pytest.raises(gamhilon.MacroRing):
            call(RING, limits=gamhilon.Limits(0, 0))
        with pytest.raises(gamhilon.DocumentRefused) as refusal:
            call({**EMPTY, 'styles': {'s': 5}}, limits=gamhilon.Limits(100, 100000))
        assert refusal.value.pointer == '/styles/s'


def test_a_status_of_a_later_library_is_told(made_up):
    made_up(status=17)
    with pytest.raises(RuntimeError, match='17'):
        gamhilon.render_document(EMPTY)
    made_up(limits_status=17)
    with pytest.raises(RuntimeError, match='17'):
        gamhilon.render_document(EMPTY, limits=gamhilon.Limits(1, 1))


@pytest.mark.parametrize('document, pointer, found, wanted, message', [
    ({**EMPTY, 'rounds': 'all'}, '/rounds', 'a text', 'one of three, full, csl',
     '/rounds: a text, "all"; wanted is one of three, full, csl'),
    ({**EMPTY, 'entries': {}}, '/entries', 'an object', 'a list',
     '/entries: an object; wanted is a list'),
    ({**EMPTY, 'offset': -1}, '/offset', 'a number',
     'a whole number from 0 to 18446744073709551615',
     '/offset: a number, -1; wanted is a whole number from 0 to 18446744073709551615'),
    ({**EMPTY, 'requests': [{'style': 's'}]}, '/requests/0', 'missing key items', 'this key',
     '/requests/0: missing key items'),
    ({**EMPTY, 'bibliography': {'style': 's', 'a/b': 1}}, '/bibliography', 'unknown key a/b',
     'one of the keys style, locale, order',
     '/bibliography: unknown key a/b; wanted is one of the keys style, locale, order'),
    ({**EMPTY, 'styles': {'~/é': 'x' * 100}}, '/styles/~0~1é', 'a text', 'an object',
     '/styles/~0~1é: a text, "' + 'x' * 59 + ' ..; wanted is an object'),
    ([], '', 'a list', 'an object', 'the document: a list; wanted is an object'),
    ('{"styles":\n 5,]', '', 'no JSON from line 2, column 4', 'JSON',
     'no JSON from line 2, column 4'),
    (b'"\xff"', '', 'no UTF-8 from byte 1', 'UTF-8', 'no UTF-8 from byte 1'),
])
def test_a_fault_has_its_place(built, document, pointer, found, wanted, message):
    for call in (gamhilon.render_document, gamhilon.print_document, gamhilon.check):
        with pytest.raises(gamhilon.DocumentRefused) as refusal:
            call(document)
        said = refusal.value
        assert (said.pointer, said.found, said.wanted) == (pointer, found, wanted)
        assert str(said) == message


def test_a_fault_that_finds_no_memory_is_out_of_memory(made_up):
    made_up(status=2, fault_status=5)
    with pytest.raises(gamhilon.OutOfMemory):
        gamhilon.render_document(EMPTY)


@pytest.mark.parametrize('error', [
    gamhilon.MacroRing('m', None, 3), gamhilon.MacroRing('m', 2, 0), gamhilon.NumberOverflow('m'),
    gamhilon.OutOfMemory('m'), gamhilon.TooDeep('m'), gamhilon.TooManyElements('m'),
    gamhilon.DocumentRefused('m', '/a', 'b', 'c'), gamhilon.LibraryMissing('m'),
])
def test_errors_are_pickled_whole(error):
    again = pickle.loads(pickle.dumps(error))
    assert type(again) is type(error) and str(again) == str(error) == 'm'
    assert vars(again) == vars(error)


def test_a_document_that_is_a_value_is_its_json(made_up):
    library = made_up(text=b'{"citations":[]}')
    gamhilon.render_document({'a': 'é'})
    assert json.loads(library.calls[0][0]) == {'a': 'é'}


def test_half_of_a_surrogate_pair_is_refused_in_a_text_and_in_a_value(built):
    value = {**EMPTY, 'entries': [{'key': 'a\ud800'}]}
    for document in (value, json.dumps(value), json.dumps(value, ensure_ascii=False)):
        with pytest.raises(gamhilon.DocumentRefused):
            gamhilon.render_document(document)


def test_a_value_that_nests_too_deep_is_refused(built):
    value = []
    for _ in range(100000):
        value = [value]
    with pytest.raises(gamhilon.DocumentRefused, match='127') as refusal:
        gamhilon.render_document({'styles': value})
    assert refusal.value.pointer == '' and refusal.value.wanted == 'at most 127 levels'


def test_a_ring_comes_out_of_a_process_pool(built):
    with ProcessPoolExecutor(2) as pool:
        waiting = [pool.submit(gamhilon.render_document, document)
                   for document in (RING, EMPTY, b'{')]
        with pytest.raises(gamhilon.MacroRing) as refusal:
            waiting[0].result(timeout=60)
        assert (refusal.value.request, refusal.value.macro_index) == (None, 1)
        assert waiting[1].result(timeout=60) == gamhilon.Answer([])
        with pytest.raises(gamhilon.DocumentRefused):
            waiting[2].result(timeout=60)


def test_an_answer_is_pickled_whole(built, example):
    answer = gamhilon.render_document(example('first.json'))
    assert pickle.loads(pickle.dumps(answer)) == answer


def test_macros_that_nest_deeply_are_rendered(made_up):
    depth = 5000
    tree = ('{"children":[' * depth
            + '{"font_style":"normal","font_weight":"normal","text":"a\\"]"}' + ']}' * depth)
    made_up(text=f'{{"citations":[{{"content":[{tree}]}}]}}'.encode())
    content = gamhilon.render_document(EMPTY).citations[0].content
    assert gamhilon.plain(content) == 'a"]'
    assert gamhilon.to_html(content) == 'a&quot;]' and gamhilon.to_latex(content) == r'a"{}{]}'
    assert gamhilon.to_markdown(content) == r'a\"\]'


def test_a_missing_library_is_told_at_the_first_call():
    words = ('import gamhilon\nprint(len(gamhilon.styles.names()))\n'
             'try: gamhilon.render_document({})\n'
             'except gamhilon.LibraryMissing as error: print(error)')
    environment = {**os.environ, 'PYTHONPATH': SOURCE,
                   'GAMHILON_LIBRARY': '/nowhere/libgamhilon.so'}
    done = subprocess.run([sys.executable, '-c', words], env=environment, capture_output=True,
                          text=True)
    assert done.returncode == 0, done.stderr
    first, message = done.stdout.splitlines()[:2]
    assert first == '4' and '/nowhere/libgamhilon.so' in message and 'GAMHILON_LIBRARY' in message


def test_the_version_is_told():
    assert str(gamhilon.version()).startswith(f'gamhilon {gamhilon.__version__} (commit ')
    with open(f'{PROJECT}/../gamhilon.h', encoding='utf-8') as header:
        assert f'#define GAMHILON_VERSION "{gamhilon.__version__}"' in header.read()
