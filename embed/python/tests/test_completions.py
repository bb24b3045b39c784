"""The completions of the program, in bash, zsh and fish, beside a program that stands in for it."""
import os
import pty
import re
import select
import shutil
import subprocess

import pytest
from conftest import PROJECT

COMPLETIONS = os.path.normpath(f'{PROJECT}/../completions')
STYLES = ['author-date', 'labels', 'notes', 'numeric']
COMMANDS = ['cite', 'bibliography', 'explain', 'session', 'render', 'check', 'entries', 'styles', 'css', 'help']
PROGRAM = '''#!/bin/sh
if [ "$*" = styles ]; then
    printf '%s\\n' {}
else
    printf GOT
    printf '<%s>' "$@"
    echo
fi
'''.format(' '.join(STYLES))
BASH = '''. "$1"
shift
COMP_WORDS=("$@")
COMP_CWORD=$(($# - 1))
_gamhilon gamhilon "${@: -1}" "${COMP_WORDS[COMP_CWORD - 1]}"
printf '%s\\n' "${COMPREPLY[@]}"
'''


@pytest.fixture
def place(tmp_path, monkeypatch):
    """A folder with a program, a file, a style and a folder."""
    (tmp_path / 'bin').mkdir()
    (tmp_path / 'bin' / 'gamhilon').write_text(PROGRAM)
    (tmp_path / 'bin' / 'gamhilon').chmod(0o755)
    (tmp_path / 'here' / 'folder').mkdir(parents=True)
    for name in ('library.json', 'mine.csl'):
        (tmp_path / 'here' / name).touch()
    monkeypatch.setenv('PATH', f'{tmp_path / "bin"}{os.pathsep}{os.environ["PATH"]}')
    monkeypatch.setenv('HOME', str(tmp_path))
    monkeypatch.chdir(tmp_path / 'here')
    return tmp_path / 'here'


def needs(shell):
    if not shutil.which(shell):
        pytest.skip(f'there is no {shell}')


def test_in_bash(place):
    needs('bash')

    def offered(*words):
        done = subprocess.run(['bash', '-c', BASH, 'bash', f'{COMPLETIONS}/gamhilon.bash', *words],
                              capture_output=True, text=True, timeout=60)
        assert done.returncode == 0 and done.stderr == ''
        return sorted(done.stdout.split())

    assert offered('gamhilon', '') == sorted(COMMANDS)
    assert offered('gamhilon', 'help', 'c') == ['check', 'cite', 'css']
    assert offered('gamhilon', '--v') == ['--version']
    assert offered('gamhilon', 'render', '--') == [
        '--depth', '--elements', '--help', '--link-citations', '--standalone', '--to']
    assert offered('gamhilon', 'cite', '--w') == ['--with-bibliography']
    assert offered('gamhilon', 'bibliography', '--w') == []
    forms = ['html', 'json', 'latex', 'markdown', 'text']
    assert offered('gamhilon', 'cite', '--to', '') == forms
    assert offered('gamhilon', 'render', '--to', '=', '') == forms
    assert offered('gamhilon', 'explain', '--to', '=') == ['html', 'json']
    assert offered('gamhilon', 'render', '--to', '=', 'j') == ['json']
    files = ['folder', 'library.json', 'mine.csl']
    assert offered('gamhilon', 'cite', '--style', '') == sorted([*STYLES, *files])
    assert 'labels' in offered('gamhilon', 'cite', '--style', 'la')
    assert offered('gamhilon', 'cite', '--style', './m') == ['./mine.csl']
    assert offered('gamhilon', 'styles', 'n') == ['notes', 'numeric']
    assert offered('gamhilon', 'cite', '--locales', '') == ['folder']
    assert offered('gamhilon', 'cite', '--style', 'apa', 'l') == ['library.json']
    assert offered('gamhilon', 'check', 'a.csl', '') == files
    assert offered('gamhilon', 'cite', '--locale', '') == offered('gamhilon', 'css', '') == []


def test_names_of_files_are_no_words_of_bash(place):
    needs('bash')
    text = open(f'{COMPLETIONS}/gamhilon.bash', encoding='utf-8').read()
    folder, = set(re.findall(r'in (/\S+/styles)/"', text))
    (place / 'folder' / 'a$(touch broken).csl').touch()
    (place / 'of_folder.bash').write_text(text.replace(folder, str(place / 'folder')))
    done = subprocess.run(['bash', '-c', BASH, 'bash', 'of_folder.bash', 'gamhilon', 'cite',
                           '--style', 'a'], capture_output=True, text=True, timeout=60)
    assert done.stdout.splitlines() == ['author-date', 'a$(touch broken)']
    assert not (place / 'broken').exists()


def test_in_fish(place):
    needs('fish')

    def offered(line):
        words = f"source {COMPLETIONS}/gamhilon.fish; complete -C '{line}'"
        done = subprocess.run(['fish', '-c', words], capture_output=True, text=True, timeout=60)
        assert done.returncode == 0 and done.stderr == ''
        return sorted(row.split('\t')[0] for row in done.stdout.splitlines())

    assert offered('gamhilon ') == sorted(COMMANDS)
    assert offered('gamhilon help c') == ['check', 'cite', 'css']
    assert offered('gamhilon --v') == ['--version']
    assert offered('gamhilon render --d') == ['--depth']
    assert offered('gamhilon cite --w') == ['--with-bibliography']
    assert offered('gamhilon bibliography --w') == []
    assert offered('gamhilon cite --to ') == ['html', 'json', 'text']
    assert offered('gamhilon explain --to=') == ['--to=html', '--to=json']
    assert set(offered('gamhilon cite --style ')) >= {*STYLES, 'mine.csl'}
    assert 'labels' in offered('gamhilon cite --style la')
    assert offered('gamhilon styles n') == ['notes', 'numeric']
    assert offered('gamhilon cite --locales ') == ['folder/']
    assert offered('gamhilon cite --style apa l') == ['library.json']
    assert offered('gamhilon cite --locale ') == offered('gamhilon css ') == []


class Terminal:
    """A shell in a terminal, in which lines are typed."""

    def __init__(self, *words):
        self.process, self.file = pty.fork()
        if self.process == 0:
            os.execvp(words[0], words)
        self.read = b''

    def got(self, line):
        """What the program's words are once a line is typed."""
        os.write(self.file, line.encode() + b'\n')
        while True:
            found = re.search(rb'GOT(.*)\r\n', self.read)
            if found:
                self.read = self.read[found.end():]
                return found.group(1).decode()
            assert select.select([self.file], [], [], 60)[0], f'{line!r} prints {self.read!r}'
            self.read += os.read(self.file, 4096)

    def end(self):
        """Closes the terminal, by which the shell ends."""
        os.close(self.file)
        os.waitpid(self.process, 0)


def test_in_zsh(place, monkeypatch):
    needs('zsh')
    monkeypatch.setenv('TERM', 'dumb')
    terminal = Terminal('zsh', '-f', '-i')
    try:
        assert terminal.got(f'fpath=({COMPLETIONS} $fpath); autoload -Uz compinit; compinit -D -u; '
                            "gamhilon be''gun") == '<begun>'
        for typed, words in (
                ('bibl\t', '<bibliography>'), ('help cs\t', '<help><css>'),
                ('--ver\t', '<--version>'), ('render --dep\t', '<render><--depth>'),
                ('cite --w\t', '<cite><--with-bibliography>'),
                ('bibliography --w\t', '<bibliography><--w>'),
                ('cite --to ht\t', '<cite><--to><html>'),
                ('render --to=js\t', '<render><--to=json>'),
                ('cite --style ./mi\tlib\t', '<cite><--style><./mine.csl><library.json>'),
                ('cite --style labe\t', '<cite><--style><labels>'),
                ('styles num\t', '<styles><numeric>'),
                ('cite --locales fo\t', '<cite><--locales><folder>'),
                ('check li\tmi\t', '<check><library.json><mine.csl>'),
                ('css li\t', '<css><li>')):
            assert terminal.got(f'gamhilon {typed}') == words
    finally:
        terminal.end()
