#!/usr/bin/env python3
"""man.py: makes the man page of the program `gamhilon` and its completions for bash, zsh and fish
of what `gamhilon --help` says.

    man.py --write PROGRAM   writes them into man/ and completions/, of this built program
    man.py --check PROGRAM   says whether they are what this program says, by the exit status too
"""
from __future__ import annotations

import difflib
import os
import re
import sys
import textwrap
import time
from typing import Dict, Iterable, List, Sequence, Tuple

import help_texts
import release
import shell_completions
from help_texts import Entry, HelpFault, Program

HERE = os.path.dirname(os.path.abspath(__file__))
SOURCE = f'{release.ROOT}/crates/program_files/src'
PAGE = 'man/gamhilon.1'
WIDTH = 78
HEADER = '''.\\" Made by embed/man.py of what gamhilon --help says.
.TH GAMHILON 1 {date} "{name} {version}" "User Commands"
'''
DESCRIPTION = '''\
`gamhilon` writes citations and the bibliography that belongs to them, by a style file of the
Citation Style Language, from references in CSL-JSON. What disambiguates works that read alike,
which cites are grouped and collapsed, and which number each work has is decided for the whole
document, so that citations and bibliography always agree.

A style is given as the path of its file, or as a name: that of a style that is built in, which
`gamhilon styles` prints, or that of one in the folder of styles. A style that is built in goes
before one of its name in that folder, unless `--styles` names the folder.

The name `-` stands for the standard input, once at most.

What is odd in a file that is read gets a line on standard error, as
`FILE:LINE:COLUMN: warning: ..` or `FILE: warning: ..`, and the answer is written all the same.
Where there is no answer, a line says why, as `FILE:LINE:COLUMN: error: ..` or `FILE: error: ..`,
and the exit status says it too.'''
FILES = (
    ('{STYLES}', 'The folder of styles, unless `--styles` names another one.'),
    ('{STYLES}/dependent', 'Styles that stand for another one.'),
    ('{LOCALES}', 'The folder of locale files, unless `--locales` names another one. '
                  'The words of American English are built in.'))
SEE_ALSO = '''\
`pandoc`(1)

The Citation Style Language: https://docs.citationstyles.org/en/stable/specification.html'''


def folders() -> Dict[str, str]:
    """The folders in which the program looks, as its source has them."""
    found = {}
    for name, file in (('STYLES', 'styles.rt'), ('LOCALES', 'locales.rt')):
        with open(f'{SOURCE}/{file}', encoding='utf-8') as source:
            told = re.search(rf'^const {name}: &str = "(.+)";$', source.read(), re.MULTILINE)
        if told is None:
            raise HelpFault(f'{SOURCE}/{file} has no {name}')
        found[name] = told.group(1)
    return found


def escaped(text: str) -> str:
    """A text as it is, for roff."""
    for character, escape in (('\\', '\\e'), ('-', '\\-'), ("'", '\\(aq'), ('`', '\\(ga'),
                              ('^', '\\(ha'), ('~', '\\(ti'), ('"', '\\(dq')):
        text = text.replace(character, escape)
    return text


def bold(text: str) -> str:
    return f'\\fB{escaped(text)}\\fR'


def italic(text: str) -> str:
    return f'\\fI{escaped(text)}\\fR'


def prose(text: str) -> str:
    """The lines of a paragraph in which code stands in backquotes, and options as they are."""
    parts = []
    for at, part in enumerate(re.split(r'`([^`]+)`', ' '.join(text.split()))):
        options = re.split(r'(?<![\w-])(--[a-z]+(?:-[a-z]+)*)', part)
        parts += [bold(part)] if at % 2 else [
            bold(word) if place % 2 else escaped(word).replace('\\(aq', "'")
            for place, word in enumerate(options)]
    lines = textwrap.wrap(''.join(parts), WIDTH, break_long_words=False, break_on_hyphens=False)
    return ''.join(f'\\&{line}\n' if line[0] in ".'" else f'{line}\n' for line in lines)


def paragraphs(text: str) -> str:
    """Paragraphs with empty lines between them."""
    return '.PP\n'.join(map(prose, text.split('\n\n')))


def spec(text: str) -> str:
    """A command line, or a part of it, in bold, with what stands for something else in italics."""
    parts = [italic(part[1:-1]) if part[0] == '<' else f'[{italic(part[1:-1])}]' if part[0] == '['
             else part if part == '...' else bold(part)
             for part in re.findall(r'<[^>]+>|\[[^\]]+\]|\.\.\.|[^\s<\[]+', text)]
    return ' '.join(parts).replace(' ...', '...')


def listed(rows: Iterable[Tuple[str, str]]) -> str:
    """A list of what stands out, each with the lines that say what it is."""
    return ''.join(f'.TP\n{head}\n{lines}' for head, lines in rows)


def said_of(entry: Entry) -> str:
    """What help says of an argument or an option."""
    values = ', '.join(f'`{value}`' for value in entry.values)
    return prose(f'{entry.help}.' + (f' One of {values}.' if values else ''))


def head_of(entry: Entry) -> str:
    """An option with the name of its value."""
    flags = ', '.join(map(bold, entry.flags))
    return f'{flags} {italic(entry.value)}' if entry.value else flags


def is_example(note: str) -> bool:
    return note.startswith('Example:')


def synopsis(program: Program) -> str:
    """How each command is called."""
    usages = [spec(command.usage) for command in program.commands.values()]
    flags = ' | '.join(bold(max(entry.flags, key=len)) for entry in program.help.options)
    return '\n.br\n'.join([*usages, f'{bold(program.name)} {flags}']) + '\n'


def commands(program: Program) -> str:
    """What each command does, with its arguments. What is said of several stands once."""
    rows, before = [], set(program.help.notes)
    for name, command in program.commands.items():
        text = prose(f'{command.about}.')
        if command.arguments:
            rows_of_arguments = [(spec(entry.spec), said_of(entry)) for entry in command.arguments]
            text += f'.RS\n{listed(rows_of_arguments)}.RE\n'
        for note in command.notes:
            if note not in before and not (is_example(note) or note.startswith(' ')):
                text += f'.IP\n{prose(note)}'
        before.update(command.notes)
        rows.append((bold(name), text))
    return listed(rows)


def options(program: Program) -> str:
    """The options, under the commands that have them in common."""
    owners: Dict[Entry, List[str]] = {}
    for name, one in [('', program.help), *program.commands.items()]:
        for entry in one.options:
            owners.setdefault(entry, []).append(name)
    groups: Dict[Tuple[str, ...], List[Entry]] = {}
    for entry, names in owners.items():
        groups.setdefault(tuple(names), []).append(entry)
    text = ''
    for group, entries in sorted(groups.items(), key=lambda item: '' in item[0]):
        rows = [(head_of(entry), said_of(entry)) for entry in entries]
        text += f'.SS {title_of(group, len(program.commands) + 1)}\n{listed(rows)}'
    return text


def title_of(group: Sequence[str], all_of_them: int) -> str:
    """The title over the options of some commands; '' is the program without one."""
    if len(group) == all_of_them:
        return 'Of all commands'
    if group == ('',):
        return 'Without a command'
    names = [name or 'no command' for name in group]
    return 'Of ' + ' and '.join([', '.join(names[:-1])] * (len(names) > 1) + names[-1:])


def exit_statuses(program: Program) -> str:
    """The exit statuses, all in one sentence of the program's own help."""
    for note in program.help.notes:
        told = re.split(r'(?:,(?: and)?|^The exit status is) (\d+) where ', ' '.join(note.split()))
        if told[0] == '' and len(told) > 2:
            rows = zip(told[1::2], told[2::2])
            return listed((bold(status), prose(f'Where {when.rstrip(".")}.'))
                          for status, when in rows)
    raise HelpFault('help has no exit statuses')


def examples(program: Program) -> str:
    """The examples of all texts of help, each once."""
    found: Dict[str, str] = {}
    for one in [program.help, *program.commands.values()]:
        for what, shown in zip(one.notes, one.notes[1:]):
            if is_example(what) and shown.startswith(' '):
                found.setdefault(shown, what)
    texts = []
    for shown, what in found.items():
        began = what.partition(':')[2].strip().rstrip(',')
        lines = re.sub(r'^(?=\.)', r'\\&', escaped(textwrap.dedent(shown)), flags=re.MULTILINE)
        texts.append(f'{prose(began[0].upper() + began[1:] + ":")}.PP\n.RS 4\n.nf\n{lines}\n.fi\n'
                     '.RE\n')
    return '.PP\n'.join(texts)


def page(program: Program) -> str:
    """The man page."""
    about = program.help.about
    date = time.strftime('%Y-%m-%d', time.gmtime(release.TIME))
    files = listed((italic(path.format(**folders())), prose(what)) for path, what in FILES)
    sections = (
        ('NAME', f'{program.name} \\- {escaped(about[0].lower() + about[1:])}\n'),
        ('SYNOPSIS', synopsis(program)), ('DESCRIPTION', paragraphs(DESCRIPTION)),
        ('COMMANDS', commands(program)), ('OPTIONS', options(program)), ('FILES', files),
        ('EXIT STATUS', exit_statuses(program)), ('EXAMPLES', examples(program)),
        ('SEE ALSO', paragraphs(SEE_ALSO)))
    head = HEADER.format(date=date, name=program.name, version=program.version)
    return head + ''.join(f'.SH {title}\n{text}' for title, text in sections)


def made(program: Program) -> Dict[str, str]:
    """The files that are made, by their paths below this folder."""
    return {PAGE: page(program), **shell_completions.made(program, folders()['STYLES'])}


def stored(path: str) -> str:
    """A file as it stands below this folder, empty where it isn't there."""
    try:
        with open(f'{HERE}/{path}', encoding='utf-8') as file:
            return file.read()
    except FileNotFoundError:
        return ''


def check(files: Dict[str, str]) -> int:
    """Tells where the files aren't as they are made, and gives the exit status."""
    status = 0
    for path, text in files.items():
        if stored(path) != text:
            lines = difflib.unified_diff(stored(path).splitlines(), text.splitlines(),
                                         f'embed/{path}', 'what the program says', lineterm='')
            print('\n'.join(lines))
            status = 1
    if status:
        print('man.py: the pages differ: --write makes them anew')
    return status


def write(files: Dict[str, str]) -> int:
    """Writes the files that aren't as they are made, and gives the exit status."""
    for path, text in files.items():
        if stored(path) != text:
            os.makedirs(os.path.dirname(f'{HERE}/{path}'), exist_ok=True)
            with open(f'{HERE}/{path}', 'w', encoding='utf-8') as file:
                file.write(text)
            print(f'man.py: wrote embed/{path}')
    return 0


def main(words: List[str]) -> int:
    if len(words) != 2 or words[0] not in ('--check', '--write'):
        print(__doc__, file=sys.stderr)
        return 64
    try:
        files = made(help_texts.read_program(os.path.abspath(words[1])))
    except (HelpFault, OSError) as error:
        print(f'man.py: {error}', file=sys.stderr)
        return 2
    return check(files) if words[0] == '--check' else write(files)


if __name__ == '__main__':
    sys.exit(main(sys.argv[1:]))
