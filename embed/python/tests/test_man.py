"""embed/man.py: the man page and the completions that it makes of a program's help."""
import os
import re
import shutil
import subprocess
import sys

import pytest
from conftest import PROJECT

EMBED = os.path.normpath(f'{PROJECT}/..')
sys.path.append(EMBED)

import help_texts  # noqa: E402
import man  # noqa: E402
import shell_completions  # noqa: E402

TOOL = '''#!/bin/sh
case "$*" in
--version) echo 'tool 1.5' ;;
--help) cat <<'END'
Sorts what is there

Usage: tool <COMMAND>

Commands:
  sort  Sorts files
  name  Says how a file is called
  help  Print this message or the help of the given subcommand(s)

Options:
  -h, --help     Print help
  -V, --version  Print version

The exit status is 0 where all is sorted, 3 where a file
isn't there, and 64 where the words are wrong.

Example: in this folder,

  tool sort --by 'size' .
END
;;
'sort --help') cat <<'END'
Sorts files

Usage: tool sort [OPTIONS] --by <FORMAT> <FILE>...

Arguments:
  <FILE>...  A file, or `.`

Options:
      --by <FORMAT>
          By what [possible values: size, name]
      --into <FOLDER>
          The user's folder: where
          they go
      --keep
          What is sorted stays, see --into
  -h, --help
          Print help

.hidden files are left out.

Example: by name,

  tool sort --by name a\\b
  .b
END
;;
'name --help') cat <<'END'
Says how a file is called

Usage: tool name [NAME]

Arguments:
  [NAME]  A name

Options:
  -h, --help  Print help
END
;;
*) exit 64 ;;
esac
'''
PAGE = r'''.SH NAME
tool \- sorts what is there
.SH SYNOPSIS
\fBtool\fR \fBsort\fR [\fIOPTIONS\fR] \fB\-\-by\fR \fIFORMAT\fR \fIFILE\fR...
.br
\fBtool\fR \fBname\fR [\fINAME\fR]
.br
\fBtool\fR \fB\-\-help\fR | \fB\-\-version\fR
'''
COMMANDS = r'''.SH COMMANDS
.TP
\fBsort\fR
Sorts files.
.RS
.TP
\fIFILE\fR...
A file, or \fB.\fR.
.RE
.IP
\&.hidden files are left out.
.TP
\fBname\fR
Says how a file is called.
.RS
.TP
[\fINAME\fR]
A name.
.RE
.SH OPTIONS
.SS Of sort
.TP
\fB\-\-by\fR \fIFORMAT\fR
By what. One of \fBsize\fR, \fBname\fR.
.TP
\fB\-\-into\fR \fIFOLDER\fR
The user's folder: where they go.
.TP
\fB\-\-keep\fR
What is sorted stays, see \fB\-\-into\fR.
.SS Of all commands
.TP
\fB\-h\fR, \fB\-\-help\fR
Print help.
.SS Without a command
.TP
\fB\-V\fR, \fB\-\-version\fR
Print version.
.SH FILES
'''
ENDS = r'''.SH EXIT STATUS
.TP
\fB0\fR
Where all is sorted.
.TP
\fB3\fR
Where a file isn't there.
.TP
\fB64\fR
Where the words are wrong.
.SH EXAMPLES
In this folder:
.PP
.RS 4
.nf
tool sort \-\-by \(aqsize\(aq .
.fi
.RE
.PP
By name:
.PP
.RS 4
.nf
tool sort \-\-by name a\eb
\&.b
.fi
.RE
.SH SEE ALSO
'''


@pytest.fixture
def tool(tmp_path):
    """A program that only prints help."""
    path = tmp_path / 'tool'
    path.write_text(TOOL)
    path.chmod(0o755)
    return str(path)


def test_help_is_read_in_both_layouts(tool):
    program = help_texts.read_program(tool)
    assert (program.name, program.version, list(program.commands)) == ('tool', '1.5',
                                                                       ['sort', 'name'])
    assert [entry.spec for entry in program.help.commands] == ['sort', 'name', 'help']
    assert [entry.flags for entry in program.help.options] == [['-h', '--help'],
                                                               ['-V', '--version']]
    by, into, keep, _ = program.commands['sort'].options
    assert (by.flags, by.value, by.help, by.values) == (['--by'], 'FORMAT', 'By what',
                                                        ('size', 'name'))
    assert (into.value, into.help) == ('FOLDER', "The user's folder: where they go")
    assert keep.value is None and not keep.is_repeated
    file, = program.commands['sort'].arguments
    assert (file.value, file.is_required, file.is_repeated) == ('FILE', True, True)
    name, = program.commands['name'].arguments
    assert (name.value, name.is_required, name.is_repeated) == ('NAME', False, False)
    assert program.commands['sort'].notes[:2] == ['.hidden files are left out.',
                                                  'Example: by name,']


@pytest.mark.parametrize('text', ['Nothing\n', 'A\n\nUsage: tool\n',
                                  'A\n\nUsage: tool\n\nOptions:\n no entry\n'])
def test_what_is_no_help_is_told(text):
    with pytest.raises(help_texts.HelpFault):
        help_texts.parsed(text)


def test_the_page_says_what_help_does(tool):
    page = man.page(help_texts.read_program(tool))
    about, rest = page.split('\n.SH NAME\n')
    assert re.fullmatch(r'\.\\" .*\n\.TH GAMHILON 1 \d{4}-\d\d-\d\d "tool 1\.5" "User Commands"',
                        about)
    assert ('.SH NAME\n' + rest).startswith(PAGE)
    assert COMMANDS in page and ENDS in page
    assert re.findall(r'^\.SH (.*)$', page, re.MULTILINE) == [
        'NAME', 'SYNOPSIS', 'DESCRIPTION', 'COMMANDS', 'OPTIONS', 'FILES', 'EXIT STATUS',
        'EXAMPLES', 'SEE ALSO']


def test_pages_are_made_anew_where_they_differ(tool, tmp_path, monkeypatch, capfd):
    monkeypatch.setattr(man, 'HERE', str(tmp_path))
    assert man.main(['--check', tool]) == 1
    assert '--write makes them anew' in capfd.readouterr().out
    assert man.main(['--write', tool]) == 0
    paths = ['man/gamhilon.1', 'completions/gamhilon.bash', 'completions/_gamhilon',
             'completions/gamhilon.fish']
    assert capfd.readouterr().out.splitlines() == [f'man.py: wrote embed/{path}' for path in paths]
    assert man.main(['--check', tool]) == 0 and man.main(['--write', tool]) == 0
    assert capfd.readouterr().out == ''
    for path in paths:
        text = (tmp_path / path).read_text()
        (tmp_path / path).write_text(text + 'more\n')
        assert man.main(['--check', tool]) == 1
        assert f'--- embed/{path}\n' in capfd.readouterr().out
        (tmp_path / path).write_text(text)


def test_a_program_that_fails_and_words_that_are_none_are_told(tmp_path, capfd):
    assert man.main(['--check', str(tmp_path / 'nowhere')]) == 2
    assert 'nowhere' in capfd.readouterr().err
    assert man.main(['--check', shutil.which('false')]) == 2
    assert 'status 1' in capfd.readouterr().err
    assert man.main(['--check']) == man.main(['--chekc', 'tool']) == 64


def test_an_option_with_a_value_before_the_command_is_refused(tool):
    program = help_texts.read_program(tool)
    options = [help_texts.Entry('--into <FOLDER>', 'Where', ())]
    with pytest.raises(help_texts.HelpFault):
        shell_completions.made(program._replace(help=program.help._replace(options=options)), '/')


@pytest.mark.parametrize('words', [['mandoc', '-T', 'lint'], ['groff', '-ww', '-man', '-z'],
                                   ['man', '--warnings', '-l']])
def test_the_page_of_the_program_has_no_fault(words):
    if not shutil.which(words[0]):
        pytest.skip(f'there is no {words[0]}')
    done = subprocess.run([*words, f'{EMBED}/man/gamhilon.1'], capture_output=True, text=True,
                          env={**os.environ, 'MANPAGER': 'cat', 'MANWIDTH': '80'}, timeout=60)
    assert done.returncode == 0 and done.stderr == ''
    if words[0] == 'man':
        assert 'gamhilon styles' in done.stdout
    else:
        assert done.stdout == ''
