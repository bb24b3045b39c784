"""The page of a style that follows its file: `python3 -m gamhilon preview`."""
import http.client
import os
import re
import subprocess
import sys
import threading
import time
import urllib.error
import urllib.request

import pytest
from conftest import SOURCE, heed_interrupts

from gamhilon import __main__ as command_line
from gamhilon import _library, _preview_command
from gamhilon._preview_command import HOST, Preview, server_of
from gamhilon._preview_page import Previewed
from stand_ins import FaultyStyle
from test_style_commands import style

MARK = '<!-- wrong here -->'
"""What the stand-in of the library takes for a fault."""

TITLE = '<text variable="title"/>'


@pytest.fixture
def stands_in(monkeypatch):
    """A library that is made up, and refuses a style at the mark of a fault."""
    monkeypatch.setattr(_library, '_library', _library.Library(FaultyStyle(MARK)))


@pytest.fixture
def file(tmp_path):
    path = tmp_path / 'own.csl'
    path.write_text(style())
    return path


@pytest.fixture
def address():
    """Serves a preview, and gives the address of its page."""
    servers = []

    def serve(preview, longest=5.0):
        servers.append(server_of(preview, 0, longest))
        threading.Thread(target=servers[-1].serve_forever, daemon=True).start()
        return f'http://{HOST}:{servers[-1].server_port}'
    yield serve
    for server in servers:
        server.shutdown()
        server.server_close()


def read(address):
    with urllib.request.urlopen(address, timeout=30) as answer:
        return answer.read().decode()


def version_in(page):
    return re.search(r'data-version="([0-9a-f]{16})"', page).group(1)


def test_the_page_is_the_sample_with_what_follows_the_file(stands_in, file, address):
    at = address(Preview(Previewed(str(file))))
    page = read(f'{at}/')
    assert page.startswith('<!DOCTYPE html>') and '<title>Own</title>' in page
    assert '<th>one author</th><td>(Adler, The shape of rivers)</td>' in page
    source, = re.findall(r'<script src="([^"]+)"', page)
    assert "fetch('/version?'" in read(at + source)


def test_a_change_of_the_file_is_answered_at_once(stands_in, file, address):
    preview = Preview(Previewed(str(file)))
    at = address(preview)
    known, found = version_in(read(f'{at}/')), []
    asks = threading.Thread(target=lambda: found.append(read(f'{at}/version?{known}')))
    asks.start()
    assert not preview.refresh()
    file.write_text(style().replace('Own', 'Renamed'))
    assert preview.refresh()
    asks.join(30)
    page = read(f'{at}/')
    assert '<title>Renamed</title>' in page and found == [version_in(page)] != [known]


def test_without_a_change_the_version_is_the_same_after_a_while(stands_in, file, address):
    preview = Preview(Previewed(str(file)))
    at = address(preview, longest=0.1)
    known = version_in(read(f'{at}/'))
    assert read(f'{at}/version?{known}') == known
    file.write_text(style())
    os.utime(file, (1, 1))
    assert preview.refresh() and read(f'{at}/version?{known}') == known
    assert read(f'{at}/version?') == known


def test_a_fault_is_shown_with_its_lines(stands_in, file, address):
    preview = Preview(Previewed(str(file)))
    at = address(preview)
    file.write_text(f'one\n<two> & {MARK}\nthree\nfour\nfive\n')
    assert preview.refresh()
    page = read(f'{at}/')
    assert f'<p class="csl-fault" role="alert">{file}:2:9: it is wrong</p>' in page
    excerpt = re.search(r'<pre class="csl-excerpt">(.*?)</pre>', page, re.DOTALL).group(1)
    assert excerpt.split('\n') == [
        '1  one', '<mark>2  &lt;two&gt; &amp; &lt;!-- wrong here --&gt;</mark>', '3  three',
        '4  four']
    file.write_text(style())
    assert preview.refresh() and 'csl-fault" ' not in read(f'{at}/')


def test_what_is_odd_is_shown_above_the_sample(stands_in, file, address):
    file.write_text(style().replace('<info>', '<!-- odd here -->\n<info>'))
    page = read(address(Preview(Previewed(str(file)))) + '/')
    said, rest = page.split('<ul class="csl-fault">\n')[1].split('</ul>')
    assert said.startswith(f'<li>{file}:2:6: it is odd\n<pre class="csl-excerpt">1  &lt;style')
    assert '<mark>2  &lt;!-- odd here --&gt;</mark>' in said
    assert '<th>one author</th>' in rest


def test_a_file_that_is_saved_under_its_name_anew_is_followed(stands_in, file):
    preview = Preview(Previewed(str(file)))
    file.unlink()
    assert preview.refresh() and 'there is no style' in preview.page()
    other = file.with_name('other')
    other.write_text(style().replace('Own', 'Saved'))
    other.rename(file)
    assert preview.refresh() and '<title>Saved</title>' in preview.page()


def test_the_style_on_which_one_depends_is_followed(stands_in, file):
    child = file.with_name('child.csl')
    child.write_text('<style xmlns="http://purl.org/net/xbiblio/csl" version="1.0"><info><title>'
                     'Child</title><link href="https://example.org/own" rel="independent-parent"/>'
                     '</info></style>')
    preview = Preview(Previewed(str(child)))
    file.write_text(style().replace('Own', 'Changed parent'))
    assert preview.refresh() and '<title>Changed parent</title>' in preview.page()
    locales = file.parent / 'locales'
    locales.mkdir()
    preview = Preview(Previewed(str(child), locale='de-DE', locales=str(locales)))
    assert not preview.refresh()
    (locales / 'locales-de-DE.xml').write_text('<locale/>')
    assert preview.refresh() and not preview.refresh()


@pytest.mark.parametrize('path, host, status', [
    ('/', HOST, 200), ('/', 'localhost', 200), ('/', 'example.org', 403), ('/none', HOST, 404),
    ('/../own.csl', HOST, 404),
])
def test_the_page_is_of_this_machine_alone(stands_in, file, address, path, host, status):
    at = address(Preview(Previewed(str(file)))).rpartition('/')[2]
    asked = http.client.HTTPConnection(at, timeout=30)
    asked.putrequest('HEAD', path, skip_host=True)
    asked.putheader('Host', host + ':' + at.split(':')[1])
    asked.endheaders()
    answer = asked.getresponse()
    assert answer.status == status and answer.read() == b''
    assert answer.getheader('Cache-Control') == 'no-store'
    assert "default-src 'none'" in answer.getheader('Content-Security-Policy')
    asked.close()


# The page of the program

@pytest.fixture
def says(monkeypatch, tmp_path):
    """Puts a script in place of the program: one that ends so, having printed its last word."""
    def script(*lines):
        path = tmp_path / 'gamhilon'
        path.write_text('\n'.join(['#!/bin/sh', *lines]) + '\n')
        path.chmod(0o755)
        monkeypatch.setattr(_preview_command, 'program', lambda: str(path))
    return script


def test_the_page_of_the_program_follows_the_file(stands_in, says, file, address):
    says('echo "<!DOCTYPE html>"', 'echo "<html lang=en><head></head><body>$*</body></html>"')
    preview = Preview(Previewed(str(file), locale='de-DE'))
    at = address(preview)
    assert '<a href="/explained">' in read(f'{at}/')
    page = read(f'{at}/explained')
    assert f'<body>explain --to html --locale de-DE {file}</body>' in page
    assert '<script src="/follow.js" defer></script>' in page
    known = version_in(page)
    file.write_text(style() + '<!-- more -->')
    assert preview.refresh() and version_in(read(f'{at}/explained')) != known


def test_what_the_program_refuses_is_shown_with_its_lines(stands_in, says, file, address):
    says(f"echo '{file}:1:1: error: <none>' >&2", 'exit 2')
    page = read(address(Preview(Previewed(str(file)))) + '/explained')
    assert 'error: &lt;none&gt;' in page and '<mark>1 ' in page


def test_without_the_program_there_is_no_such_page(stands_in, monkeypatch, file, address):
    monkeypatch.setattr(_preview_command, 'program', lambda: None)
    at = address(Preview(Previewed(str(file))))
    assert 'explained' not in read(f'{at}/')
    with pytest.raises(urllib.error.HTTPError, match='404'):
        read(f'{at}/explained')


# The command line

def test_a_style_that_is_not_there_ends_the_command(stands_in, capfd):
    assert command_line.main(['preview', 'no-such-style']) == 1
    out, said = capfd.readouterr()
    assert out == '' and said.startswith("gamhilon: there is no style 'no-such-style'")


def test_a_port_that_is_taken_ends_the_command(stands_in, file, address, capfd):
    port = address(Preview(Previewed(str(file)))).rpartition(':')[2]
    assert command_line.main(['preview', str(file), '--port', port]) == 1
    said = capfd.readouterr().err
    assert said == f'gamhilon: port {port}: Address already in use; --port names another one\n'


@pytest.mark.parametrize('words', [['-'], [], ['notes', '--port', '65536'],
                                   ['notes', '--port', 'x']])
def test_what_is_no_command_line(words):
    with pytest.raises(SystemExit) as ended:
        command_line.main(['preview', *words])
    assert ended.value.code == 64


def test_without_the_library_nothing_is_shown(monkeypatch, file, capfd):
    monkeypatch.setattr(_library, '_library', None)
    monkeypatch.setenv('GAMHILON_LIBRARY', str(file))
    assert command_line.main(['preview', str(file)]) == 69
    assert capfd.readouterr().err.startswith('gamhilon: ')


def test_a_style_is_followed_until_the_command_is_ended(cites, file):
    file.write_text(style(TITLE))
    environment = {**os.environ, 'PYTHONPATH': SOURCE, 'PYTHONUNBUFFERED': '1'}
    command = [sys.executable, '-m', 'gamhilon', 'preview', str(file), '--port', '0']
    with subprocess.Popen(command, stderr=subprocess.PIPE, text=True, env=environment,
                          preexec_fn=heed_interrupts) as shows:
        try:
            at = re.search(r'http://\S+', shows.stderr.readline()).group()
            known = version_in(read(at))
            file.write_text(style(TITLE).replace('prefix="("', 'prefix="{"'))
            began = time.monotonic()
            assert read(f'{at}version?{known}') != known and time.monotonic() - began < 10
            page = read(at)
            assert '{The shape of rivers)' in page
            file.write_text(style(TITLE).replace('variable="title"', 'variable="title'))
            assert read(f'{at}version?{version_in(page)}') != version_in(page)
            assert re.search(rf'{re.escape(str(file))}:\d+:\d+: ', read(at))
            shows.send_signal(2)
            assert shows.wait(30) == 130
        finally:
            shows.kill()
