"""The commands of `python3 -m gamhilon` beside those of the program `gamhilon` (docs/WRITER.md),
where that is built: what both write is the same, and so are their exit statuses."""
import json
import os
import re
import subprocess
import sys

import pytest
from conftest import ROOT, SOURCE

PROGRAM = os.environ.get('GAMHILON_PROGRAM', f'{ROOT}/crates/gamhilon/out/gamhilon')
STYLES = f'{ROOT}/examples/styles'
WORKS = [f'{STYLES}/references.json', f'{STYLES}/citations.json']


@pytest.fixture
def each(cites, tmp_path):
    """Runs the program and the command, and gives what came of each."""
    if not os.access(PROGRAM, os.X_OK):
        pytest.skip('the program is not built (rt ci gamhilon)')

    def run(*words, given=b''):
        environment = {**os.environ, 'PYTHONPATH': SOURCE}
        return [subprocess.run([*program, *words], input=given, capture_output=True, cwd=tmp_path,
                               env=environment, timeout=120)
                for program in ([PROGRAM], [sys.executable, '-m', 'gamhilon'])]
    return run


@pytest.fixture
def both(each):
    """Runs the program and the command, and gives the status and the output of each."""
    def run(*words, given=b''):
        return [(told.returncode, told.stdout.decode()) for told in each(*words, given=given)]
    return run


@pytest.fixture
def has(both):
    """Has a test be skipped where the program lacks a command."""
    def command(name):
        done = subprocess.run([PROGRAM, '--help'], capture_output=True, text=True)
        if not re.search(rf'^ +{name} ', done.stdout, re.MULTILINE):
            pytest.skip(f'the program has no command {name}')
    return command


@pytest.mark.parametrize('style', ['author-date', 'labels', 'notes', 'numeric'])
@pytest.mark.parametrize('words', [
    ['cite', *WORKS], ['bibliography', WORKS[0]], ['bibliography', *WORKS],
    ['bibliography', *WORKS, '--nocite'], ['cite', *WORKS, '--locale', 'de-DE'],
])
def test_citations_and_lists_are_the_same(both, style, words):
    program, command = both(*words, '--style', f'{STYLES}/{style}.csl')
    assert program == command and program[0] == 0 and program[1]


@pytest.mark.parametrize('style', ['apa', 'ieee', 'chicago-fullnote-bibliography', 'nature'])
def test_published_styles_are_the_same(both, published, style):
    for command in ('cite', 'bibliography'):
        program, own = both(command, '--style', style, *WORKS)
        assert program == own and program[0] == 0


@pytest.mark.parametrize('command', ['cite', 'bibliography'])
def test_answers_as_json_are_the_same(both, command):
    told = both(command, '--style', f'{STYLES}/notes.csl', *WORKS, '--to', 'json')
    assert [status for status, _ in told] == [0, 0]
    one, other = (json.loads(out) for _, out in told)
    assert one == other


@pytest.mark.parametrize('form', ['markdown', 'latex'])
@pytest.mark.parametrize('words', [[], ['--link-citations']])
def test_citations_with_links_are_the_same(both, form, words):
    """Without that option no cite is a link."""
    program, command = both('cite', '--style', f'{STYLES}/author-date.csl', *WORKS, '--to', form,
                            *words)
    assert program == command and program[0] == 0 and ('ref-' in program[1]) == bool(words)


@pytest.mark.parametrize('command', ['cite', 'bibliography'])
def test_pages_have_the_same_text(both, command):
    """Their tags differ: those of this package have the classes of its style sheet, and ids."""
    told = both(command, '--style', f'{STYLES}/numeric.csl', *WORKS, '--to', 'html')
    one, other = (' '.join(re.sub('<[^>]*>', ' ', out).split()) for _, out in told)
    assert one == other and told[0][0] == told[1][0] == 0


@pytest.mark.parametrize('words, status', [
    (['cite', '--style', 'none.csl', *WORKS], 1), (['cite', '--style', 'no-such-style', *WORKS], 1),
    (['cite', '--style', WORKS[0], *WORKS], 2), (['cite', WORKS[0], WORKS[1]], 64),
    (['cite', '--style', f'{STYLES}/notes.csl', 'none.json', WORKS[1]], 1),
    (['cite', '--style', f'{STYLES}/notes.csl', WORKS[1], WORKS[0]], 2),
    (['cite', '--style', f'{STYLES}/notes.csl', WORKS[0], 'else.json'], 2),
    (['cite', '--style', f'{STYLES}/notes.csl', WORKS[0], 'text.json'], 2),
    (['cite', '--style', f'{STYLES}/notes.csl', '-', '-'], 64), (['rendre'], 64), ([], 64),
    (['bibliography', '--style', f'{STYLES}/notes.csl', WORKS[0], '--standalone', '--to', 'text'],
     64), (['check', WORKS[0], 'none.json', 'text.json'], 1), (['check', 'text.json'], 2),
])
def test_exit_statuses_are_the_same(both, tmp_path, words, status):
    (tmp_path / 'else.json').write_text('[[{"id": "else"}]]')
    (tmp_path / 'text.json').write_text('[')
    assert [told[0] for told in both(*words)] == [status, status]


@pytest.mark.parametrize('document, why', [
    (b'{"styles": ' + b'[' * 127 + b']' * 127 + b'}',
     'nested deeper than 127 levels from line 1, column 139'),
    (b'{"styles":\n' + b'[' * 127, 'nested deeper than 127 levels from line 2, column 127'),
    (b'\xef\xbb\xbf{}', 'begins with a byte order mark'),
])
@pytest.mark.parametrize('command', ['check', 'render'])
def test_why_a_document_is_no_json_is_told_the_same(each, has, tmp_path, command, document, why):
    has('render')
    (tmp_path / 'd.json').write_bytes(document)
    program, own = each(command, 'd.json')
    assert program.returncode == own.returncode == 2 and program.stdout == own.stdout == b''
    assert program.stderr.decode() == f'd.json: error: {why}\n'
    assert own.stderr.decode() == f'gamhilon: d.json: {why}\n'


@pytest.mark.parametrize('words', [
    ['bibliography', '--style', f'{STYLES}/notes.csl', 'deep.json'],
    ['cite', '--style', f'{STYLES}/notes.csl', WORKS[0], 'deep.json'], ['check', 'deep.json'],
])
def test_references_and_citations_that_nest_too_deep_are_told_the_same(each, tmp_path, words):
    """This package tells no place of them, and reads some that nest deeper than the program
    reads."""
    (tmp_path / 'deep.json').write_text('[' * 100000)
    program, own = each(*words)
    why = 'nested deeper than 127 levels'
    assert program.returncode == own.returncode == 2 and program.stdout == own.stdout == b''
    assert program.stderr.decode() == f'deep.json: error: {why} from line 1, column 129\n'
    assert own.stderr.decode() == f'gamhilon: deep.json: {why}\n'


def test_files_are_the_same_things(both, tmp_path):
    """This package tells more of what documents and references hold, in lines that begin with
    spaces."""
    (tmp_path / 'de.xml').write_text('<locale xmlns="http://purl.org/net/xbiblio/csl" '
                                     'version="1.0" xml:lang="de-DE"><terms/></locale>')
    (tmp_path / 'one.json').write_text('[{"id": "a", "type": "book", "titel": "x"}]')
    files = [f'{STYLES}/{name}.csl' for name in ('author-date', 'notes')]
    files += ['de.xml', 'one.json', WORKS[0], f'{ROOT}/examples/first.json']
    (status, out), (own_status, own) = both('check', *files)
    lines = [line for line in own.splitlines() if not line.startswith(' ')]
    assert out.splitlines() == lines and len(lines) == 6 and status == own_status == 0


def test_styles_are_the_same(both, has):
    has('styles')
    for words in (['styles'], ['styles', 'notes'], ['styles', 'no-such-style']):
        program, command = both(*words)
        assert program == command, words


@pytest.mark.parametrize('name', ['first', 'author_date', 'note', 'numeric', 'alphanumeric'])
def test_documents_are_rendered_the_same(both, has, name):
    has('render')
    program, command = both('render', f'{ROOT}/examples/{name}.json')
    assert program == command and program[0] == 0


@pytest.mark.parametrize('name', ['first', 'author_date', 'note', 'numeric', 'alphanumeric'])
@pytest.mark.parametrize('words', [
    ['--to', 'markdown'], ['--to', 'markdown', '--link-citations'],
    ['--to', 'latex'], ['--to', 'latex', '--link-citations'],
])
def test_documents_are_rendered_the_same_in_languages_of_markup(both, name, words):
    program, command = both('render', *words, f'{ROOT}/examples/{name}.json')
    assert program == command and program[0] == 0


@pytest.mark.parametrize('words, status', [
    (['deep.json'], 7), (['deep.json', '--depth', '1000'], 0), (['many.json'], 8),
    (['none.json'], 1), (['wrong.json'], 2), (['ring.json'], 3),
    (['--depth', 'x', 'deep.json'], 64),
])
def test_documents_are_refused_the_same(both, has, tmp_path, words, status):
    """With limits where none are told."""
    has('render')

    def written(name, elements, macros=()):
        style = {'citation': {'elements': elements}, 'macros': list(macros)}
        (tmp_path / name).write_text(json.dumps({
            'styles': {'s': style}, 'entries': [], 'requests': [], 'bibliography': {'style': 's'}}))

    def chain(length, calls):
        """Macros each of which calls the next one."""
        made = [{'name': f'm{place}',
                 'children': calls * [{'kind': 'text', 'macro': f'm{place + 1}'}]}
                for place in range(length)]
        return [*made, {'name': f'm{length}', 'children': [{'kind': 'text', 'value': 'x'}]}]

    first = [{'kind': 'text', 'macro': 'm0'}]
    written('deep.json', first, chain(150, 1))
    written('many.json', first, chain(24, 2))
    written('ring.json', [], [{'name': 'm', 'children': [{'kind': 'text', 'macro': 'm'}]}])
    (tmp_path / 'wrong.json').write_text('{"styles": 3}')
    assert [told[0] for told in both('render', *words)] == [status, status]
