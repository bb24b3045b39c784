"""The commands for those who write styles: `sample`, `preview`, `diff` and `test`."""
from __future__ import annotations

import argparse
from typing import Any

from ._preview_command import PORT, preview_command
from ._sample_command import SAMPLE_FORMS, diff_command, sample_command
from ._test_command import test_command

__all__ = ['COMMANDS', 'add_style_commands', 'run_style_command']

COMMANDS = ('sample', 'preview', 'diff', 'test')


def add_style_commands(commands: Any) -> None:
    """Adds the commands to a command line."""
    style = 'a style: its name, or a file; - for standard input'
    sample = commands.add_parser('sample', help='what a style writes of made-up works')
    sample.add_argument('files', nargs=1, metavar='STYLE', help=style)
    sample.add_argument('--to', choices=SAMPLE_FORMS, default='text',
                        help='the form of what is written (text)')
    preview = commands.add_parser('preview', help='a page that shows what a style writes of '
                                                  'made-up works, and follows its file')
    preview.add_argument('files', nargs=1, metavar='STYLE', help='a style: its name, or a file')
    preview.add_argument('--port', type=_port, metavar='N', default=PORT,
                         help=f'the port of this machine, 0 for one that is free ({PORT})')
    diff = commands.add_parser('diff', help='what two styles write otherwise of made-up works')
    diff.add_argument('files', nargs=2, metavar='STYLE', help=style)
    for command in (sample, preview, diff):
        command.add_argument('--locale', metavar='TAG',
                             help="the language, in place of the style's")
    test = commands.add_parser('test', help='whether styles write what fixtures want, in the form '
                                            'of the CSL processor suite')
    test.add_argument('files', nargs='+', metavar='FILE',
                      help='a fixture, or a folder of fixtures; - for standard input')
    test.add_argument('--style', help="a style in the place of the fixtures' own")
    test.add_argument('--text', action='store_true', help='formats are left out of account')
    for command in (sample, preview, diff, test):
        command.add_argument('--locales', metavar='FOLDER', help='where locale files are')


def _port(word: str) -> int:
    """A port that the command line gives. Raises ValueError where it is none."""
    port = int(word)
    if not 0 <= port <= 65535:
        raise ValueError
    return port


def run_style_command(words: argparse.Namespace) -> int:
    """Does what a command line of one of these commands says, and gives the exit status."""
    if words.command == 'sample':
        return sample_command(words.files[0], words.to, words.locale, words.locales)
    if words.command == 'preview':
        return preview_command(words.files[0], words.port, words.locale, words.locales)
    if words.command == 'diff':
        old, new = words.files
        return diff_command(old, new, words.locale, words.locales)
    return test_command(words.files, words.style, not words.text, words.locales)
