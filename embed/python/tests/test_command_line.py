"""python3 -m gamhilon, as a process."""
import json
import os
import pty
import re
import signal
import subprocess
import sys
import time

import pytest
from conftest import ROOT, SOURCE, MadeUpLibrary, heed_interrupts

import gamhilon
from gamhilon import __main__ as command_line
from gamhilon import _library


def run(*words, given=None, **how):
    environment = {**os.environ, 'PYTHONPATH': SOURCE, 'PYTHONIOENCODING': 'ascii'}
    done = subprocess.run([sys.executable, '-m', 'gamhilon', *words], input=given, env=environment,
                          timeout=120,
                          **{'stdout': subprocess.PIPE, 'stderr': subprocess.PIPE, **how})
    return done.returncode, (done.stdout or b'').decode(), done.stderr.decode()


def test_no_words_is_not_a_command_line():
    status, out, error = run()
    assert status == 64 and out == '' and 'exit status' in error
    assert 'usage: python3 -m gamhilon ' in error


@pytest.mark.parametrize('words', [
    ['rendre'], ['render'], ['render', 'a', '--to', 'pdf'], ['styles', 'apa'], ['check'],
    ['render', 'a', '--depth'], ['render', 'a', '--depth', '-1'], ['check', 'a', '--elements', 'x'],
    ['check', 'a', '--elements', '18446744073709551616'], ['entries', 'a', '--depth', '1'],
    ['entries'], ['entries', 'a', '--from', 'endnote'], ['cite', 'a', 'b'],
    ['cite', '--style', 'notes', 'a'], ['bibliography', '--style', 'notes'],
    ['cite', '--style', 'notes', 'a', 'b', '--standalone', '--to', 'text'],
    ['cite', '--style', '-', '-', 'b'], ['bibliography', '--style', 'notes', '-', '-'],
    ['check', '-', '-'], ['entries', '-', 'a', '-'],
])
def test_wrong_words_are_not_a_command_line(words):
    status, out, error = run(*words)
    assert status == 64 and out == ''
    assert error.startswith(('usage', 'gamhilon: there is no style', 'gamhilon: --standalone'))


def test_the_version():
    assert run('--version')[:2] == (0, f'{gamhilon.version()}\n')


def test_render_in_each_form(built, example):
    path = f'{ROOT}/examples/first.json'
    assert run('render', path) == (0, example('first.txt'), '')
    assert run('render', '-', given=example('first.json').encode()) == (0, example('first.txt'), '')
    outputs = {form: run('render', path, '--to', form, '--link-citations')
               for form in ('html', 'markdown', 'latex', 'json')}
    assert '<a href="#ref' not in run('render', path, '--to', 'html')[1]
    assert all(status == 0 and error == '' for status, _, error in outputs.values())
    assert '<i>On the Origin of Species</i>' in outputs['html'][1]
    assert '<div id="ref-darwin" class="csl-entry">' in outputs['html'][1]
    assert '<a href="#ref-darwin">Darwin 1859, p. 84</a>' in outputs['html'][1]
    assert '*On the Origin of Species*' in outputs['markdown'][1]
    assert r'\textit{On the Origin of Species}' in outputs['latex'][1]
    assert len(json.loads(outputs['json'][1])['citations']) == 4


@pytest.mark.parametrize('document, status', [
    ('{', 2), ('{}', 2),
    ('{"styles": {"s": {"citation": {"elements": []}, "macros": [{"name": "b", "children": '
     '[{"kind": "text", "macro": "b"}]}]}}, "entries": [], "requests": [], '
     '"bibliography": {"style": "s"}}', 3),
    ('{"styles": {"s": {"citation": {"elements": []}}}, "entries": [{"key": "a"}], "requests": '
     '[{"style": "s", "items": [{"entry": "a"}]}], "bibliography": {"style": "s"}, '
     '"offset": 18446744073709551615}', 4),
])
def test_what_is_refused_has_the_status_of_the_program(built, document, status):
    for words in (['render', '-'], ['render', '-', '--to', 'html'], ['check', '-']):
        got, out, error = run(*words, given=document.encode())
        assert got == status and out == '' and error.startswith('gamhilon: standard input: ')
        assert error.count('\n') == 1


@pytest.mark.parametrize('words, limits', [
    ([], (100, 100000)), (['--depth', '1000', '--elements', '5000'], (1000, 5000)),
    (['--depth', '0'], (0, 100000)),
    (['--elements', '18446744073709551615', '--depth', '7'], (7, 2 ** 64 - 1)),
    (['--elements', '9'], (100, 9)),
])
def test_limits_of_the_command_line(monkeypatch, tmp_path, capfd, words, limits):
    """There are limits where none are told."""
    path = tmp_path / 'a.json'
    path.write_text('{"styles": {}, "entries": [], "requests": []}')
    for command in (['render'], ['render', '--to', 'json'], ['check']):
        library = MadeUpLibrary(text=b'{"citations":[]}')
        monkeypatch.setattr(_library, '_library', _library.Library(library))
        assert command_line.main([*command, str(path), *words]) == 0
        assert [call[1:] for call in library.limits_calls] == [limits] and len(library.calls) == 1
        assert capfd.readouterr().err == ''


@pytest.mark.parametrize('status, said', [
    (7, 'the elements of a layout nest deeper than 100 (--depth raises the limit)'),
    (8, 'a layout has more elements than 5000 (--elements raises the limit)'),
])
def test_what_is_not_within_limits_has_the_status_of_the_library(monkeypatch, tmp_path, capfd,
                                                                 status, said):
    path = tmp_path / 'a.json'
    path.write_text('{}')
    for command in (['render'], ['render', '--to', 'html'], ['check']):
        monkeypatch.setattr(_library, '_library',
                            _library.Library(MadeUpLibrary(limits_status=status)))
        assert command_line.main([*command, str(path), '--depth', '100', '--elements',
                                  '5000']) == status
        assert capfd.readouterr() == ('', f'gamhilon: {path}: {said}\n')


def test_limits_of_documents(built, example):
    style = {'citation': {'elements': [{'kind': 'group',
                                        'children': [{'kind': 'text', 'value': 'x'}]}]}}
    document = json.dumps({'styles': {'s': style}, 'entries': [], 'requests': [],
                           'bibliography': {'style': 's'}}).encode()
    for words in (['render', '-'], ['render', '-', '--to', 'html'], ['check', '-']):
        assert run(*words, '--depth', '2', '--elements', '2', given=document)[::2] == (0, '')
        for limits, status in ((['--depth', '1'], 7), (['--elements', '1'], 8)):
            got, out, error = run(*words, *limits, given=document)
            assert got == status and out == '' and error.startswith('gamhilon: ')
        assert error.count('\n') == 1
    words = ['render', f'{ROOT}/examples/first.json', '--depth', '100', '--elements', '100000']
    assert run(*words) == (0, example('first.txt'), '')


def test_check_tells_what_a_document_holds_and_what_it_can_hardly_mean(built):
    style = {'citation': {'elements': [{'kind': 'group',
                                        'children': [{'kind': 'text', 'macro': 'nowhere'}]}]},
             'macros': [{'name': 'm', 'children': [{'kind': 'choose',
                                                    'branches': [{'if': [],
                                                                  'children': [{'kind': 'text',
                                                                                'macro': 'x'}]}],
                                                    'else': [{'kind': 'text', 'macro': 'm/~'}]}]}]}
    document = {'styles': {'a/b': style},
                'entries': [{'key': 'k', 'title': 'two\nlines'}, {'key': 'k'}],
                'requests': [{'style': 'a/b', 'items': [{'entry': 'k'}]}],
                'bibliography': {'style': 'a/b'}}
    status, out, error = run('check', '-', given=json.dumps(document).encode())
    assert (status, out.splitlines()) == (0, [
        'standard input: document', '  style a/b: in-text, without a bibliography',
        '  entries: 2, of which 1 are cited', '  requests: 1, of 1 cites'])
    told = [re.fullmatch('gamhilon: standard input: warning: ([^ ]*): .*', line)
            for line in error.splitlines()]
    assert [match.group(1) for match in told] == [
        '/styles/a~1b/macros/0/children/0/branches/0/children/0/macro',
        '/styles/a~1b/macros/0/children/0/else/0/macro',
        '/styles/a~1b/citation/elements/0/children/0/macro', '/entries/0/title', '/entries/1']


def test_entries_of_csl_json(tmp_path):
    path = tmp_path / 'refs.json'
    items = [{'id': 'a', 'title': 'Ärger', 'page': '1-2'}]
    path.write_text(json.dumps(items))
    status, out, error = run('entries', str(path))
    assert (status, json.loads(out), error) == (0, items, '')
    path.write_text('{"id": "a"}')
    assert run('entries', str(path))[0] == 2


def test_styles():
    assert run('styles') == (0, 'author-date\nlabels\nnotes\nnumeric\n', '')
    assert run('styles', 'notes') == (0, gamhilon.styles.text('notes'), '')
    assert {'author-date', 'notes'} < set(run('styles', '--all')[1].split('\n'))


def test_files_that_are_not_there_or_are_folders_are_status_1():
    for words in (['render', '/nowhere.json'], ['check', '/'], ['entries', '/nowhere.json']):
        status, out, error = run(*words)
        reason = 'Is a directory' if words[1] == '/' else 'No such file or directory'
        assert (status, out, error) == (1, '', f'gamhilon: {words[1]}: {reason}\n')


def test_output_that_cannot_be_written_is_status_1():
    with open('/dev/full', 'wb') as full:
        status, _, error = run('styles', 'notes', stdout=full)
    assert (status, error) == (1, 'gamhilon: standard output: No space left on device\n')
    reader, writer = os.pipe()
    os.close(reader)
    try:
        status, _, error = run('styles', 'notes', stdout=writer)
    finally:
        os.close(writer)
    assert status == 1 and error.count('\n') == 1


@pytest.mark.parametrize('module, words', [
    ('gamhilon', ['--help']), ('gamhilon', ['cite', '--help']), ('gamhilon', ['css']),
    ('gamhilon.pandoc_filter', ['--help']), ('gamhilon.pandoc_filter', ['--version'])])
def test_a_reader_that_has_read_enough_sees_no_traceback(module, words):
    reader, writer = os.pipe()
    os.close(reader)
    try:
        done = subprocess.run([sys.executable, '-m', module, *words], stdout=writer,
                              stderr=subprocess.PIPE, env={**os.environ, 'PYTHONPATH': SOURCE})
    finally:
        os.close(writer)
    assert done.returncode in (0, 1) and done.stderr.count(b'\n') <= 1
    assert b'Traceback' not in done.stderr


@pytest.mark.parametrize('command', ['cite', 'bibliography', 'markdown', 'latex', 'org', 'render',
                                     'check',
                                     'entries', 'styles', 'sample', 'diff', 'test', 'css'])
def test_the_help_of_each_command_begins_with_what_it_is(command):
    status, out, error = run(command, '--help')
    assert (status, error) == (0, '')
    assert out.startswith(f'usage: python3 -m gamhilon {command} ')
    described = out.partition('\n\n')[2].split('\n\n')[0]
    assert described[:1].isupper() and described.endswith('.')
    assert command in run('--help')[1]


def test_the_filter_tells_what_it_is():
    done = subprocess.run([sys.executable, '-m', 'gamhilon.pandoc_filter', '--help'],
                          capture_output=True, env={**os.environ, 'PYTHONPATH': SOURCE})
    assert done.returncode == 0 and b'bibliography  ' in done.stdout and done.stderr == b''


def test_closed_streams_are_status_1(tmp_path):
    environment = {**os.environ, 'PYTHONPATH': SOURCE}
    for words in ('styles >&-', 'render - <&-', 'styles >&- 2>&-'):
        done = subprocess.run(['sh', '-c', f'exec "$0" -m gamhilon {words}', sys.executable],
                              env=environment, capture_output=True)
        assert done.returncode == 1 and done.stdout == b'' and b'Traceback' not in done.stderr


def test_a_missing_library_has_a_status_of_its_own(tmp_path):
    path = tmp_path / 'a.json'
    path.write_text('{}')
    environment = {**os.environ, 'PYTHONPATH': SOURCE, 'GAMHILON_LIBRARY': '/nowhere.so'}
    done = subprocess.run([sys.executable, '-m', 'gamhilon', 'render', str(path)], env=environment,
                          capture_output=True)
    assert done.returncode == 69 and b'GAMHILON_LIBRARY' in done.stderr
    assert done.stderr.count(b'\n') == 1


SLOW = """
import ctypes, sys
from gamhilon import __main__ as command_line, _library
from stand_ins import MadeUpLibrary

class SlowLibrary(MadeUpLibrary):
    def gamhilon_render_text(self, *given):
        print('called', flush=True)
        ctypes.CDLL(None).{}
        return super().gamhilon_render_text(*given)

_library._library = _library.Library(SlowLibrary(text=b'(Doe)'))
sys.exit(command_line.main(sys.argv[1:]))
"""


def slow(words, call, **how):
    """The command over a library that takes its time in a call of C, as a process."""
    environment = {**os.environ, 'PYTHONPATH': f'{SOURCE}{os.pathsep}{os.path.dirname(__file__)}'}
    return subprocess.Popen([sys.executable, '-c', SLOW.format(call), *words], env=environment,
                            stdout=subprocess.PIPE, preexec_fn=heed_interrupts, **how)


def told_to_a_terminal(words, call):
    """What a command writes, and what it tells a terminal."""
    terminal, theirs = pty.openpty()
    process = slow(words, call, stderr=theirs)
    out, _ = process.communicate(timeout=60)
    os.close(theirs)
    told = b''
    try:
        while True:
            told += os.read(terminal, 4096)
    except OSError:
        os.close(terminal)
    return process.returncode, out.decode(), told.decode()


def test_what_takes_longer_than_a_second_tells_so_to_a_terminal(tmp_path):
    path = tmp_path / 'a.json'
    path.write_text('{}')
    status, out, told = told_to_a_terminal(['render', str(path)], 'usleep(1300000)')
    assert (status, out) == (0, 'called\n(Doe)')
    lines = [line for line in told.split('\r') if line.strip()]
    assert lines and told.endswith(f'\r{" " * len(lines[-1])}\r')
    assert all(re.fullmatch(f'gamhilon: answering {re.escape(str(path))}, [1-9][0-9]* s', line)
               for line in lines)
    # A machine that does much else may take a second for a call that waits for none.
    told = [told_to_a_terminal(['render', str(path)], 'usleep(1000)') for _ in range(3)]
    assert (0, 'called\n(Doe)', '') in told
    process = slow(['render', str(path)], 'usleep(1300000)', stderr=subprocess.PIPE)
    assert process.communicate(timeout=60) == (b'called\n(Doe)', b'')


def test_an_interrupt_ends_a_call_of_the_library_at_once(tmp_path):
    path = tmp_path / 'a.json'
    path.write_text('{}')
    process = slow(['render', str(path)], 'sleep(60)', stderr=subprocess.PIPE)
    assert process.stdout.readline() == b'called\n'
    began = time.monotonic()
    process.send_signal(signal.SIGINT)
    assert process.communicate(timeout=30) == (b'', b'')
    assert process.returncode == 130 and time.monotonic() - began < 10


def test_an_error_that_is_not_ours_is_not_hidden(monkeypatch, tmp_path):
    monkeypatch.setattr(_library, '_library', _library.Library(MadeUpLibrary(status=17)))
    path = tmp_path / 'a.json'
    path.write_text('{}')
    with pytest.raises(RuntimeError, match='17'):
        command_line.main(['render', str(path)])


DEEP = '{"styles": ' + '[' * 127 + ']' * 127 + '}'


@pytest.mark.parametrize('data, said', [
    (b'\xef\xbb\xbf{}', 'begins with a byte order mark'),
    (DEEP.encode(), 'nested deeper than 127 levels from line 1, column 2'),
    (b'[' * 200000, 'nested deeper than 127 levels from line 1, column 2'),
    # (brackets in texts open nothing, and what is wrong before counts)
    (b'{"a": "' + b'[' * 200 + b'",}', 'no JSON from line 1, column 2'),
    (b'{"a": x' + b'[' * 200, 'no JSON from line 1, column 2'),
    (b'{"a": "' + b'\\"' * 20000, 'no JSON from line 1, column 2'),
    (DEEP[11:-1].encode()[1:-1] + b',]', 'no JSON from line 1, column 2'),
])
def test_why_there_is_no_json(monkeypatch, tmp_path, capfd, data, said):
    path = tmp_path / 'a.json'
    path.write_bytes(data)
    fault = {'pointer': '', 'found': 'no JSON from line 1, column 2', 'wanted': 'JSON'}
    library = _library.Library(MadeUpLibrary(status=2, fault=fault))
    monkeypatch.setattr(_library, '_library', library)
    assert command_line.main(['render', str(path)]) == 2
    assert capfd.readouterr() == ('', f'gamhilon: {path}: {said}\n')


def test_several_files_are_checked_and_named(monkeypatch, tmp_path, capfd):
    monkeypatch.setattr(_library, '_library', _library.Library(MadeUpLibrary()))
    (tmp_path / 'a.json').write_text('{"styles": {}, "entries": [], "requests": []}')
    books = [{'id': 'a', 'type': 'book'}, {'id': 'b', 'type': 'book'}, {}]
    (tmp_path / 'b.json').write_text(json.dumps(books))
    paths = [str(tmp_path / name) for name in ('a.json', 'b.json', 'c.json')]
    assert command_line.main(['check', *paths]) == 1
    out, error = capfd.readouterr()
    assert out.splitlines() == [
        f'{paths[0]}: document', '  entries: 0, of which 0 are cited',
        '  requests: 0, of 0 cites', f'{paths[1]}: 2 references', '  book: 2']
    assert error.splitlines() == [
        f'gamhilon: {paths[1]}: warning: item 2: id: an item without an id, left out ({{}})',
        f'gamhilon: {paths[2]}: No such file or directory']


def test_the_status_of_check_is_that_of_the_file_that_is_worst_off(monkeypatch, tmp_path, capfd):
    library = MadeUpLibrary(status=3)
    monkeypatch.setattr(_library, '_library', _library.Library(library))
    for name, text in (('ring.json', '{"styles": {}}'), ('w.json', '[')):
        (tmp_path / name).write_text(text)
    names = ['ring.json', 'w.json', 'none.json']
    for count, status in ((1, 3), (2, 3), (3, 1)):
        words = [str(tmp_path / name) for name in names[:count]]
        assert command_line.main(['check', *words]) == status
        assert capfd.readouterr().err.count('\n') == count
    assert command_line.main(['check', str(tmp_path / 'w.json')]) == 2


def test_references_are_checked(tmp_path, reads, capfd):
    path = tmp_path / 'a.bib'
    path.write_text('@book{a, title = {A}, editorc = {X}, editorctype = {founder}}\n'
                    '@misc{b, title = {B')
    assert command_line.main(['check', str(path)]) == 2
    out, error = capfd.readouterr()
    assert out.splitlines() == [f'{path}: 2 references', '  book: 1', '  document: 1']
    assert error.splitlines() == [
        f'gamhilon: {path}: warning: a: editorc: CSL has no place for more names of the kind '
        'founder',
        f'gamhilon: {path}: line 2, column 18: a value without an end: the rest of the entry is '
        'left out']


def test_unknown_fields_of_references_are_told_and_wrong_ones_refused(cites, tmp_path, capfd):
    path = tmp_path / 'a.json'
    path.write_text('[{"id": "a", "type": "book", "titel": "A"}]')
    assert command_line.main(['check', str(path)]) == 0
    out, error = capfd.readouterr()
    assert out == f'{path}: 1 reference\n  book: 1\n'
    assert error.startswith(f'gamhilon: {path}: warning: entry a, titel: ') and 'title' in error
    path.write_text('[{"id": "a", "type": "book", "title": {}}]')
    assert command_line.main(['check', str(path)]) == 2
    out, error = capfd.readouterr()
    assert out == '' and error.startswith(f'gamhilon: {path}: entry a, title: ')


WORKS = [{'id': 'one', 'type': 'book', 'title': 'On order', 'issued': {'date-parts': [[1999]]},
          'author': [{'family': 'Doe', 'given': 'Jane'}]},
         {'id': 'two', 'type': 'book', 'title': 'On time', 'issued': {'date-parts': [[2001]]},
          'author': [{'family': 'Roe', 'given': 'Al'}]}]


@pytest.fixture
def files(tmp_path):
    """A file of references, one of citations, and one with what is odd."""
    (tmp_path / 'works.json').write_text(json.dumps(WORKS))
    (tmp_path / 'cites.json').write_text('[[{"id": "one", "locator": "4"}], [{"id": "one"}]]')
    (tmp_path / 'odd.json').write_text('[[{"id": "one", "locater": "4"}]]')
    return tmp_path


def test_cite_and_bibliography(cites, files):
    works, cited = str(files / 'works.json'), str(files / 'cites.json')
    assert run('cite', '--style', 'author-date', works, cited) == (0, '(Doe 1999, p. 4)\n'
                                                                      '(Doe 1999)\n', '')
    words = ['bibliography', '--style', 'author-date', works]
    assert run(*words)[:2] == (0, 'Doe, J. 1999. On order.\nRoe, A. 2001. On time.\n')
    assert run(*words, cited)[:2] == (0, 'Doe, J. 1999. On order.\n')
    assert run(*words, cited, '--nocite')[1] == run(*words)[1]
    for form, mark in (('html', '<i>On order</i>'), ('markdown', '*On order*'),
                       ('latex', r'\textit{On order}')):
        assert mark in run(*words, '--to', form)[1]
    for command in ('cite', 'bibliography'):
        told = json.loads(run(command, '--style', 'author-date', works, cited, '--to', 'json')[1])
        assert [gamhilon.plain(citation['content']) for citation in told['citations']] == [
            '(Doe 1999, p. 4)', '(Doe 1999)']
        assert [item['key'] for item in told['bibliography']['items']] == ['one']
    page = run(*words, '--standalone')[1]
    assert page == run(*words, '--to', 'html', '--standalone')[1]
    assert page.startswith('<!DOCTYPE html>') and gamhilon.style_sheet() in page


def test_a_style_may_be_standard_input_or_of_a_folder(cites, files):
    (files / 'dependent').mkdir()
    text = gamhilon.styles.text('labels')
    (files / 'house.csl').write_text(text)
    (files / 'dependent' / 'child.csl').write_text(
        '<style xmlns="http://purl.org/net/xbiblio/csl" version="1.0"><info><title>C</title>'
        '<id>c</id><link href="https://example.org/house" rel="independent-parent"/>'
        '<updated>2026-11-27T00:00:00+00:00</updated></info></style>')
    words = [str(files / 'works.json'), str(files / 'cites.json')]
    wanted = (0, '[Doe99, p. 4]\n[Doe99]\n', '')
    assert run('cite', '--style', '-', *words, given=text.encode()) == wanted
    for name in ('house', 'child'):
        assert run('cite', '--style', name, '--styles', str(files), *words) == wanted
    assert run('cite', '--style', 'labels', '--styles', str(files), *words) == wanted
    status, out, error = run('cite', '--style', 'apa', '--styles', str(files), *words)
    assert (status, out) == (1, '') and f'looked for {files}/apa.csl' in error


def test_of_references_of_one_id_the_last_counts(cites, files):
    """As the program of that name has it."""
    (files / 'more.json').write_text(json.dumps([{**WORKS[0], 'title': 'On more'}]))
    words = ['bibliography', '--style', 'author-date', str(files / 'works.json'), '--references',
             str(files / 'more.json')]
    assert run(*words) == (
        0, 'Doe, J. 1999. On more.\nRoe, A. 2001. On time.\n',
        f'gamhilon: {files}/more.json: warning: `one` replaces the item of a file before\n')


def test_cite_takes_references_of_several_files_and_forms(cites, files, reads):
    (files / 'b.bib').write_text('@book{three, title={C}, author={Poe, E.}, year={1845}}')
    (files / 'three.json').write_text('[[{"id": "three"}], [{"id": "two"}]]')
    given = (files / 'three.json').read_bytes()
    words = ['cite', '--style', 'author-date', str(files / 'works.json'), '--references',
             str(files / 'b.bib')]
    for last, how in ((str(files / 'three.json'), {}), ('-', {'given': given})):
        assert run(*words, last, **how) == (0, '(Poe 1845)\n(Roe 2001)\n', '')


def test_what_is_odd_is_told_and_costs_nothing(cites, files):
    words = ['cite', '--style', 'author-date', str(files / 'works.json')]
    assert run(*words, str(files / 'odd.json')) == (
        0, '(Doe 1999)\n',
        f'gamhilon: {files}/odd.json: warning: citation 0, cite 0, locater: cites have no such '
        "key, left out: is 'locator' meant?\n")
    own = files / 'own.csl'
    text = gamhilon.styles.text('author-date').split('<bibliography')[0] + '</style>'
    own.write_text(text.replace('<citation ', '<citation colour="red" '))
    (files / 'titel.json').write_text(json.dumps([{**WORKS[0], 'titel': 'x'}]))
    status, out, error = run('bibliography', '--style', str(own), str(files / 'titel.json'))
    assert (status, out) == (0, '')
    assert [line.split(': warning: ')[0] for line in error.splitlines()] == [
        error.split(': warning: ')[0], f'gamhilon: {files}/titel.json', f'gamhilon: {own}']
    assert re.match(f'gamhilon: {own}:[0-9]+:[0-9]+: warning: .*colour', error)


@pytest.mark.parametrize('style, cited, status, said', [
    ('no-such-style', 'cites.json', 1, "gamhilon: there is no style 'no-such-style': looked for "),
    ('own.csl', 'cites.json', 2, 'own.csl:1:1: '), ('notes', 'none.json', 1, 'none.json: No such'),
    ('notes', 'own.csl', 2, 'own.csl: no JSON: Expecting value'),
    ('notes', 'deep.json', 2, 'deep.json: nested deeper than 127 levels\n'),
    ('notes', 'bytes.json', 2, 'bytes.json: no UTF-8 from byte 2\n'),
    ('notes', 'works.json', 2, 'works.json: citation 0: no citation, which is a list of cites or an '
                               'object with citationItems'),
    ('notes', 'else.json', 2, "else.json: citation 0, cite 0, id: there is no entry 'else'"),
])
def test_what_can_not_be_cited_is_told_with_its_place(cites, files, style, cited, status, said):
    (files / 'own.csl').write_text('x')
    (files / 'else.json').write_text('[[{"id": "else"}]]')
    (files / 'deep.json').write_text('[' * 200000)
    (files / 'bytes.json').write_bytes(b'[["\xff"]]'[1:])
    told = run('cite', '--style', style, 'works.json', cited, cwd=files)
    assert told[:2] == (status, '') and said in told[2] and told[2].count('\n') == 1


def test_styles_and_locales_are_checked(cites, tmp_path, capfd):
    good, odd, wrong = (tmp_path / name for name in ('good.csl', 'odd.csl', 'wrong.csl'))
    text = gamhilon.styles.text('notes')
    good.write_text(text)
    odd.write_text(text.replace('<citation ', '<citation colour="red" '))
    wrong.write_text(text.replace('et-al-min="4"', 'et-al-min="four"'))
    locale = tmp_path / 'locale.xml'
    locale.write_text('<locale xmlns="http://purl.org/net/xbiblio/csl" version="1.0" '
                      'xml:lang="de-DE"><terms/></locale>')
    child = tmp_path / 'child.csl'
    child.write_text('<style xmlns="http://purl.org/net/xbiblio/csl" version="1.0"><info>'
                     '<title>C</title><id>c</id><updated>2026-11-27T00:00:00+00:00</updated>'
                     '<link href="https://example.org/none" rel="independent-parent"/></info>'
                     '</style>')
    assert command_line.main(['check', str(good), str(locale), str(child)]) == 0
    out, error = capfd.readouterr()
    key = re.search('<id>(.*?)</id>', text).group(1)
    assert (out.splitlines(), error) == ([
        f'{good}: independent style Gamhilon notes ({key})', f'{locale}: locale de-DE',
        f'{child}: dependent style of https://example.org/none'], '')
    assert command_line.main(['check', str(odd)]) == 0
    out, error = capfd.readouterr()
    assert re.fullmatch(f'gamhilon: {odd}:[0-9]+:[0-9]+: warning: .*colour.*\n', error)
    assert command_line.main(['check', str(wrong)]) == 2
    out, error = capfd.readouterr()
    assert out == '' and error.startswith(f'gamhilon: {wrong}:') and 'four' in error
