"""help_texts.py: what the help of a built program says: its commands, arguments and options. The
texts have the form that the crate clap gives them."""
from __future__ import annotations

import re
import subprocess
from typing import Dict, List, NamedTuple, Optional, Tuple

SECONDS = 60
HEADINGS = ('Commands:', 'Arguments:', 'Options:')
ENTRY = re.compile(r' {2}(?: {4})?(\S+(?: \S+)*)(?: {2,}(\S.*))?')
VALUES = re.compile(r' ?\[possible values: ([^\]]*)\]$')


class HelpFault(Exception):
    """A program that can't be run, or whose help has another form."""


class Entry(NamedTuple):
    """A line of help: a command, an argument or an option."""

    # The command, as `cite`; the argument, as `<FILE>...`; the option, as `-h, --help`.
    spec: str
    help: str
    # The values that it may have, where help has them all.
    values: Tuple[str, ...]

    @property
    def flags(self) -> List[str]:
        """The names of an option."""
        return re.findall(r'(?<!\S)--?[A-Za-z][\w-]*', self.spec)

    @property
    def value(self) -> Optional[str]:
        """The name of the value, or None where an option has none."""
        found = re.search(r'[<\[]([^>\]]+)[>\]]', self.spec)
        return found.group(1) if found else None

    @property
    def is_required(self) -> bool:
        """Whether an argument must be there."""
        return self.spec.startswith('<')

    @property
    def is_repeated(self) -> bool:
        """Whether it may stand more than once. For options only the words of their help say so."""
        return self.spec.endswith('...') or 'several times' in self.help


class Help(NamedTuple):
    """The help of a program or of a command."""

    about: str
    usage: str
    commands: List[Entry]
    arguments: List[Entry]
    options: List[Entry]
    # The paragraphs behind the options; those that begin with a space are to be shown as they are.
    notes: List[str]


class Program(NamedTuple):
    """A program with the help of each of its commands, by their names."""

    name: str
    version: str
    help: Help
    commands: Dict[str, Help]


def read_program(path: str) -> Program:
    """What a built program says of itself. Raises HelpFault."""
    words = printed(path, '--version').split()
    if len(words) != 2:
        raise HelpFault(f'{path} --version gives no name and version')
    whole = parsed(printed(path, '--help'))
    commands = {entry.spec: parsed(printed(path, entry.spec, '--help'))
                for entry in whole.commands if entry.spec != 'help'}
    return Program(words[0], words[1], whole, commands)


def printed(path: str, *words: str) -> str:
    """What a program prints. Raises HelpFault where it can't be run or fails."""
    try:
        done = subprocess.run([path, *words], stdin=subprocess.DEVNULL, capture_output=True,
                              encoding='utf-8', timeout=SECONDS)
    except (OSError, subprocess.TimeoutExpired, UnicodeDecodeError) as error:
        raise HelpFault(f'{path} {" ".join(words)}: {error}') from error
    if done.returncode or done.stderr:
        raise HelpFault(f'{path} {" ".join(words)}: status {done.returncode}, {done.stderr}')
    return done.stdout


def parsed(text: str) -> Help:
    """What a text of help says. Raises HelpFault where it has another form."""
    head, found, tail = text.partition('\n\nUsage: ')
    if not found:
        raise HelpFault(f'there is no usage in {text!r}')
    usage, *blocks = tail.rstrip('\n').split('\n\n')
    entries: Dict[str, List[Entry]] = {heading: [] for heading in HEADINGS}
    while blocks and blocks[0].split('\n')[0] in HEADINGS:
        heading, *lines = blocks.pop(0).split('\n')
        entries[heading] = entries_of(lines)
    if not entries['Options:']:
        raise HelpFault(f'there are no options in {text!r}')
    commands, arguments, options = entries.values()
    return Help(head, usage, commands, arguments, options, blocks)


def entries_of(lines: List[str]) -> List[Entry]:
    """The entries below a heading, whose help may stand beside them or below."""
    found: List[Tuple[str, List[str]]] = []
    for line in lines:
        entry = ENTRY.fullmatch(line.rstrip())
        if entry:
            found.append((entry.group(1), [entry.group(2) or '']))
        elif found and line.strip():
            found[-1][1].append(line.strip())
        else:
            raise HelpFault(f'{line!r} is no entry of help')
    return [entry_of(spec, ' '.join(filter(None, texts))) for spec, texts in found]


def entry_of(spec: str, text: str) -> Entry:
    """An entry of this help, from which the values are taken out that it may have."""
    values = VALUES.search(text)
    if values is None:
        return Entry(spec, text, ())
    return Entry(spec, text[:values.start()], tuple(values.group(1).split(', ')))
