"""Folders of documents, answered by processes and by Dask, over a library of a few lines of C."""
import json
import os
import pty
import shutil
import signal
import subprocess
import sys
import time

import pytest
from conftest import PROJECT, SOURCE, heed_interrupts

pytestmark = pytest.mark.skipif(not shutil.which('cc'), reason='there is no C compiler')

# What it does with a document is told by its first letter.
LIBRARY = '''
#include <fcntl.h>
#include <stdint.h>
#include <stdlib.h>
#include <string.h>
#include <sys/stat.h>
#include <unistd.h>
#include <time.h>

/* Whether another process is in a call at the same time, within half a minute. */
static int meets(void) {
    struct timespec pause = {0, 10000000};
    struct stat met = {0};
    int file = open(getenv("MEETING"), O_CREAT | O_WRONLY | O_APPEND, 0600);
    if (write(file, "x", 1) != 1) return 0;
    for (int tries = 0; tries < 3000 && met.st_size < 2; tries++) {
        nanosleep(&pause, NULL);
        fstat(file, &met);
    }
    close(file);
    return met.st_size >= 2;
}

static uint32_t put(const char *text, uint8_t *buffer, size_t buffer_length, size_t *length) {
    *length = strlen(text);
    if (*length > buffer_length) return 6;
    memcpy(buffer, text, *length);
    return 0;
}

static uint32_t begin(const uint8_t *document, size_t *length) {
    struct timespec pause = {0, 300000000};
    *length = 0;
    if (document[0] == '!') abort();
    if (document[0] == 'z') sleep(60);
    if (document[0] == 's') nanosleep(&pause, NULL);
    if (document[0] == 'm' && !meets()) return 5;
    return document[0] == 'x' ? 2 : 0;
}

uint32_t gamhilon_render_text(const uint8_t *document, size_t document_length, uint8_t *buffer,
                        size_t buffer_length, size_t *length) {
    uint32_t status = begin(document, length);
    return status ? status : put("(Doe 1999)\\n", buffer, buffer_length, length);
}

uint32_t gamhilon_render_json(const uint8_t *document, size_t document_length, uint8_t *buffer,
                             size_t buffer_length, size_t *length) {
    uint32_t status = begin(document, length);
    const char *answer = "{\\"citations\\":[{\\"content\\":[{\\"text\\":\\"Doe\\"}]}]}";
    return status ? status : put(answer, buffer, buffer_length, length);
}

uint32_t gamhilon_find_fault(const uint8_t *document, size_t document_length, uint8_t *buffer,
                        size_t buffer_length, size_t *length) {
    const char *fault = "{\\"pointer\\":\\"\\",\\"found\\":\\"no JSON\\",\\"wanted\\":\\"JSON\\"}";
    return put(fault, buffer, buffer_length, length);
}

uint32_t gamhilon_find_ring(const uint8_t *document, size_t document_length, void *ring) {
    return 0;
}

uint32_t gamhilon_check_limits(const uint8_t *document, size_t document_length, size_t depth,
                         size_t elements) {
    return document[0] == 'd' ? 7 : 0;
}
'''


@pytest.fixture(scope='module')
def environment(tmp_path_factory):
    """What has the package load that library."""
    buffer = tmp_path_factory.mktemp('library')
    (buffer / 'a.c').write_text(LIBRARY)
    subprocess.run(['cc', '-shared', '-fPIC', '-o', str(buffer / 'a.so'), str(buffer / 'a.c')],
                   check=True)
    return {**os.environ, 'PYTHONPATH': SOURCE, 'GAMHILON_LIBRARY': str(buffer / 'a.so'),
            'MEETING': str(buffer / 'meeting')}


@pytest.fixture
def folder(tmp_path):
    """Makes a folder of documents, by their names and texts."""
    def make(**documents):
        path = tmp_path / 'documents'
        path.mkdir()
        (path / 'notes.txt').write_text('no document')
        for name, text in documents.items():
            (path / f'{name}.json').write_text(text)
        return path
    return make


@pytest.fixture
def render(environment):
    """Runs `python3 -m gamhilon render`."""
    def run(*words):
        done = subprocess.run([sys.executable, '-m', 'gamhilon', 'render', *map(str, words)],
                              env=environment,
                              capture_output=True, text=True, timeout=120)
        return done.returncode, done.stdout, done.stderr
    return run


@pytest.mark.parametrize('jobs', [1, 3])
def test_each_document_has_a_page(folder, render, jobs):
    path = folder(**{f'n{number}': '{}' for number in range(20)})
    assert render('--jobs', jobs, path) == (0, '', '')
    pages = {page.name: page.read_text() for page in (path / 'pages').iterdir()}
    assert pages == {f'n{number}.txt': '(Doe 1999)\n' for number in range(20)}
    assert {file.name
            for file in path.iterdir()} == {'notes.txt', 'pages',
                                            *[f'n{number}.json' for number in range(20)]}


@pytest.mark.parametrize('form, suffix, text', [
    ('text', 'txt', '(Doe 1999)'), ('json', 'json', '{"citations":'),
    ('html', 'html', '<p class="citation">Doe</p>'),
    ('markdown', 'md', 'Doe'), ('latex', 'tex', 'Doe'),
])
def test_pages_of_each_form(folder, render, tmp_path, form, suffix, text):
    document = {'styles': {'s': {}}, 'requests': [{'items': []}], 'bibliography': {'style': 's'}}
    path, output = folder(a=json.dumps(document)), tmp_path / 'new' / 'pages'
    assert render('--jobs', 2, '--to', form, '--output', output, path) == (0, '', '')
    assert text in (output / f'a.{suffix}').read_text() and not (path / 'pages').exists()


@pytest.mark.parametrize('jobs', [1, 3])
def test_what_is_refused_costs_no_other(folder, render, jobs):
    path = folder(a='{}', b='deep', c='x', d='{}')
    status, out, error = render('--jobs', jobs, path)
    assert (status, out) == (7, '') and sorted(error.splitlines()) == [
        f'gamhilon: {path}/b.json: the elements of a layout nest deeper than 100 '
        '(--depth raises the limit)',
        f'gamhilon: {path}/c.json: no JSON']
    assert sorted(page.name for page in (path / 'pages').iterdir()) == ['a.txt', 'd.txt']


def test_a_process_that_ends_costs_no_other_document(folder, render):
    path = folder(a='{}', b='!', c='slow', d='{}', e='slow')
    status, out, error = render('--jobs', 2, path)
    assert (status, out) == (1, '')
    assert error == f'gamhilon: {path}/b.json: the process that answered it ended\n'
    assert sorted(page.name
                  for page in (path / 'pages').iterdir()) == ['a.txt', 'c.txt', 'd.txt', 'e.txt']


def test_processes_work_at_once(folder, render):
    """Two documents, each of which is answered once the other is worked on, too."""
    path = folder(a='meets', b='meets')
    assert render('--jobs', 2, path) == (0, '', '')
    assert sorted(page.name for page in (path / 'pages').iterdir()) == ['a.txt', 'b.txt']


def test_a_folder_without_documents_has_no_pages(folder, render):
    path = folder()
    assert render('--jobs', 2, path) == (0, '', '') and list((path / 'pages').iterdir()) == []


def test_pages_that_can_not_be_written_are_told(folder, render):
    path = folder(a='{}')
    assert render('--output', '/dev/null', path) == (1, '', f'gamhilon: {path}: File exists\n')
    (path / 'pages' / 'a.txt').mkdir(parents=True)
    assert render(path) == (1, '', f'gamhilon: {path}/a.json: Is a directory\n')


@pytest.mark.parametrize('words',
                         [['--jobs', '2'], ['--output', 'x'], ['--jobs', '0'], ['--jobs', 'x']])
def test_words_that_are_for_folders(folder, render, words):
    path = folder(a='{}')
    status, out, error = render(*words, path / 'a.json')
    assert (status, out) == (64, '') and ('--jobs' in error or '--output' in error)


def test_a_missing_library_is_told_once(folder):
    path = folder(a='{}', b='{}')
    environment = {**os.environ, 'PYTHONPATH': SOURCE, 'GAMHILON_LIBRARY': '/nowhere.so'}
    done = subprocess.run([sys.executable, '-m', 'gamhilon', 'render', '--jobs', '2', str(path)],
                          env=environment,
                          capture_output=True, timeout=60)
    assert done.returncode == 69 and done.stderr.count(b'\n') == 1 and not (path / 'pages').exists()


def is_there(number):
    try:
        with open(f'/proc/{number}/stat', encoding='utf-8') as file:
            return file.read().rpartition(')')[2].split()[0] != 'Z'
    except OSError:
        return False


@pytest.mark.skipif(not os.path.exists('/proc/self/task'), reason='there is no /proc')
@pytest.mark.parametrize('number, status', [(signal.SIGINT, 130), (signal.SIGKILL, -9)])
def test_processes_end_with_the_command(folder, environment, number, status):
    path = folder(**{f'n{number}': 'z' for number in range(4)})
    process = subprocess.Popen([sys.executable, '-m', 'gamhilon', 'render', '--jobs', '2',
                                str(path)], env=environment,
                               stdout=subprocess.PIPE, stderr=subprocess.PIPE,
                               start_new_session=True, preexec_fn=heed_interrupts)
    deadline = time.monotonic() + 60
    found = []
    while len(found) < 3:
        found = all_below(process)
        assert process.poll() is None and time.monotonic() < deadline
        time.sleep(0.1)
    time.sleep(1)
    if number == signal.SIGINT:
        os.killpg(process.pid, number)
    else:
        process.send_signal(number)
    out, error = process.communicate(timeout=60)
    assert (process.returncode, out, error) == (status, b'', b'')
    while any(map(is_there, found)):
        assert time.monotonic() < deadline
        time.sleep(0.1)


def all_below(process):
    """The processes of all threads below one."""
    found = []
    for thread in os.listdir(f'/proc/{process.pid}/task'):
        try:
            with open(f'/proc/{process.pid}/task/{thread}/children', encoding='utf-8') as file:
                found += [int(process) for process in file.read().split()]
        except OSError:
            continue
    return found


def test_progress_of_a_folder(folder, environment):
    path = folder(**{f'n{number}': 'slow' for number in range(8)})
    terminal, theirs = pty.openpty()
    process = subprocess.Popen([sys.executable, '-m', 'gamhilon', 'render', str(path)],
                               env=environment, stderr=theirs)
    assert process.wait(60) == 0
    os.close(theirs)
    told = os.read(terminal, 4096).decode()
    os.close(terminal)
    assert ' of 8 documents answered, 1 s' in told


def test_the_example_on_dask(folder, environment, tmp_path):
    pytest.importorskip('distributed', reason='there is no Dask (Debian: python3-distributed)')
    path, pages = folder(**{f'n{number}': 'slow' for number in range(6)},
                         wrong='x'), tmp_path / 'pages'
    done = subprocess.run([sys.executable, f'{PROJECT}/example/dask_folder.py', str(path),
                           str(pages), '--workers', '2'],
                          env=environment, capture_output=True, text=True, timeout=180)
    assert done.stdout == '6 of 7 documents answered\n', done.stderr
    assert done.returncode == 1 and f'{path}/wrong.json: no JSON' in done.stderr
    assert {page.name: page.read_text() for page in pages.iterdir()} == {
        f'n{number}.html': '<p class="citation">Doe</p>\n' for number in range(6)}
