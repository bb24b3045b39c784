"""python3 -m gamhilon: citations and reference lists in styles, documents answered, files checked,
and references read."""
from __future__ import annotations

import argparse
import os
import sys
from functools import partial
from typing import Any, Dict, List, NoReturn, Optional, Sequence

from . import (Limits, _console, _faults, csl, csl_json, pages, references, style_sheet, styles,
               version)
from ._check_command import check_command, refusal
from ._cite_command import Asked, bibliography_command, cite_command
from ._console import (COMMAND, INPUT_OR_OUTPUT_FAILED, NOT_OF_ITS_FORM, json_text, name_of,
                       progress, read, say, write)
from ._latex_command import add_latex, latex_command
from ._limits import DEFAULT_DEPTH, DEFAULT_ELEMENTS, UNLIMITED
from ._markdown_command import add_markdown, markdown_command
from ._org_command import add_org, org_command
from ._render_folder import Job, page_of, render_folder
from ._style_commands import COMMANDS, add_style_commands, run_style_command
from .errors import LibraryMissing, Refused

BAD_COMMAND_LINE, NO_LIBRARY = 64, 69
ENDINGS = """\
examples:
  python3 -m gamhilon bibliography --style apa library.bib
      what a file of references lists
  python3 -m gamhilon markdown page.md --bibliography library.bib
      a page with its citations written
  python3 -m gamhilon latex paper      paper.bbl, of paper.aux
  python3 -m gamhilon styles --all     the names of styles
  python3 -m gamhilon COMMAND --help   what a command takes

exit status: 0 done; 1 reading or writing failed; 2 document refused, or a file
that isn't of its form; 3 its macros call each other in a ring; 4 its citation
numbers don't fit; 5 out of memory; 7 a layout nests deeper than --depth; 8 a
layout has more elements than --elements; 10 a style exceeds --most-steps or
--most-bytes; 11 texts differ (of diff and test); 64 not a command line; 69 the
library is missing, or what reads files of a form; 130 ended by Ctrl-C"""
CITATIONS = """\
example, with [[{"id": "doe99", "locator": "4"}]] in citations.json:
  python3 -m gamhilon %s --style apa library.bib citations.json"""


class Parser(argparse.ArgumentParser):
    """A parser whose errors have a status of their own, which no document has."""

    def error(self, message: str) -> NoReturn:
        self.print_usage(sys.stderr)
        self.exit(BAD_COMMAND_LINE, f'{self.prog}: {message} (see --help)\n')

    def _print_message(self, message: str, file: Any = None) -> None:
        """Prints help. A reader such as `head` may take a part of it."""
        try:
            super()._print_message(message, file)
            if file is not None:
                file.flush()
        except BrokenPipeError:
            _console.close_output()


class Commands:
    """Adds commands, whose own help begins with what they are."""

    def __init__(self, made: argparse.ArgumentParser) -> None:
        self._commands = made.add_subparsers(dest='command', metavar='COMMAND')

    def add_parser(self, name: str, *, help: str, epilog: Optional[str] = None) -> Any:
        """Adds a command. `help` is what it is, and `epilog` follows its options, line by
        line."""
        return self._commands.add_parser(
            name, help=help, description=f'{help[:1].upper()}{help[1:]}.', epilog=epilog,
            formatter_class=argparse.RawDescriptionHelpFormatter if epilog and '\n  ' in epilog
            else argparse.HelpFormatter)


def parser() -> argparse.ArgumentParser:
    """What the command line may say."""
    made = Parser(prog=COMMAND, epilog=ENDINGS,
                  description='Citations and bibliographies in any style of CSL.',
                  formatter_class=argparse.RawDescriptionHelpFormatter)
    made.add_argument('--version', action='store_true',
                      help='the version, and what the library was built of')
    commands = Commands(made)
    _add_cite(commands)
    add_markdown(commands)
    add_latex(commands)
    add_org(commands)
    _add_render(commands)
    checked = commands.add_parser('check', help='what is wrong in styles, locales, documents and '
                                                'references, or what they hold')
    checked.add_argument('files', nargs='+', metavar='FILE',
                         help='a style or a locale, a document, or references; - for standard '
                              'input')
    _add_limits(checked)
    _add_entries(commands)
    named = commands.add_parser('styles', help='the names of the styles that come with this '
                                               'package, or the file of one')
    named.add_argument('name', nargs='?', metavar='STYLE',
                       help='a style of this package, whose file is written')
    named.add_argument('--all', action='store_true', help="Debian's published styles too")
    add_style_commands(commands)
    commands.add_parser('css', help='the style sheet of reference lists in HTML')
    return made


def _add_cite(commands: Any) -> None:
    for name, what, count in (('cite', 'citations in a style', None),
                              ('bibliography', 'the items that are cited, or all where there are '
                                               'no citations', '?')):
        made = commands.add_parser(name, help=what, epilog=CITATIONS % name)
        made.add_argument('references', metavar='REFERENCES',
                          help="CSL-JSON, BibLaTeX, BibTeX or hayagriva's YAML; - for standard "
                               'input')
        made.add_argument('citations', nargs=count, metavar='CITATIONS',
                          help='a JSON list of citations, which are lists of cites with an id; - '
                               'for standard input')
        made.add_argument('--style', required=True,
                          help=f'a style: its name ({COMMAND} styles --all), or a file; - for '
                               'standard input')
        made.add_argument('--references', dest='more', action='append', default=[], metavar='FILE',
                          help='more references; it may stand several times')
        made.add_argument('--styles', metavar='FOLDER',
                          help="where styles are, in place of Debian's; they go before those of "
                               'this package')
        made.add_argument('--locale', metavar='TAG', help="the language, in place of the style's")
        made.add_argument('--locales', metavar='FOLDER', help='where locale files are')
        made.add_argument('--abbreviations', metavar='FILE',
                          help='short forms, as of the titles of journals, in JSON')
        made.add_argument('--nocite', action='store_true',
                          help='references are listed that no cite is of')
        made.add_argument('--draft', action='store_true',
                          help="cites of references that aren't there stand as their ids, with a "
                               'question mark')
        _add_style_limits(made)
        _add_forms(made)
        if name == 'cite':
            _add_links(made)


def _add_style_limits(command: argparse.ArgumentParser) -> None:
    """What a style may take for each cite and each item."""
    command.add_argument('--most-steps', type=_limit, metavar='N',
                         help='how many steps the style may take for each cite and each item '
                              '(5000)')
    command.add_argument('--most-bytes', type=_limit, metavar='N',
                         help='how many bytes the style may write for each cite and each item '
                              '(100000)')


def _add_forms(command: argparse.ArgumentParser) -> None:
    """The form of what is written."""
    command.add_argument('--to', choices=pages.FORMS,
                         help='the form of what is written (text)')
    command.add_argument('--standalone', action='store_true',
                         help='a whole page, with the style sheet (of the form html alone)')


def _add_links(command: argparse.ArgumentParser) -> None:
    command.add_argument('--link-citations', dest='links', action='store_true',
                         help='cites lead to their items, in HTML, Markdown and LaTeX')


def _add_render(commands: Any) -> None:
    render = commands.add_parser('render', help='the citations and the bibliography of a document')
    render.add_argument('document', metavar='FILE',
                        help='a document (docs/DOCUMENT.md), - for standard input, or a folder of '
                             'documents')
    _add_forms(render)
    _add_links(render)
    render.add_argument('--jobs', type=_count, metavar='N', default=1,
                        help='how many processes answer the documents of a folder (1)')
    render.add_argument('--output', metavar='FOLDER',
                        help='where the pages of a folder are put (its folder pages)')
    _add_limits(render)


def _add_entries(commands: Any) -> None:
    entries = commands.add_parser('entries', help="references as CSL-JSON, and on standard error "
                                                  "what of them isn't kept")
    entries.add_argument('files', nargs='+', metavar='FILE',
                         help="CSL-JSON, BibLaTeX, BibTeX, RIS or hayagriva's YAML; - for standard "
                              'input')
    entries.add_argument('--from', dest='form', choices=references.FORMS,
                         help='the form of the files, where their names and what they begin with '
                              'tell another')
    entries.add_argument('--lang', default='en-US', metavar='LANG',
                         help='the language of entries of .bib files that tell none (en-US)')
    entries.add_argument('--to', choices=('csl-json', 'document'), default='csl-json',
                         help='CSL-JSON (where this is absent), or the entries of a document')


def _add_limits(command: argparse.ArgumentParser) -> None:
    """What the layouts of a document may hold, where the command line doesn't tell otherwise."""
    command.add_argument('--depth', type=_limit, metavar='N', default=DEFAULT_DEPTH,
                         help=f'how deep the elements of a layout may nest ({DEFAULT_DEPTH})')
    command.add_argument('--elements', type=_limit, metavar='N', default=DEFAULT_ELEMENTS,
                         help=f'how many elements a layout may have ({DEFAULT_ELEMENTS})')


def _limit(word: str) -> int:
    """A limit that the command line gives. Raises ValueError where it is none."""
    return Limits(int(word), UNLIMITED).depth


def _count(word: str) -> int:
    """A number of processes that the command line gives. Raises ValueError where it is none."""
    count = int(word)
    if count < 1:
        raise ValueError
    return count


def main(arguments: Optional[List[str]] = None) -> int:
    """Runs a command line, and gives its exit status."""
    made = parser()
    words = made.parse_args(arguments)
    if not words.version and not words.command:
        made.print_help(sys.stderr)
        return BAD_COMMAND_LINE
    if getattr(words, 'standalone', False) and words.to not in ('html', None):
        made.error('--standalone makes a page of the form html')
    if 'standalone' in words:
        words.to = words.to or ('html' if words.standalone else 'text')
    if words.command == 'latex' and not (words.paper or words.where or words.install):
        made.error('latex: give a PAPER, --where or --install')
    if words.command == 'preview' and words.files == ['-']:
        made.error('preview: STYLE is a file that can change')
    if _inputs(words) > 1:
        made.error('- stands for several files, and standard input is read once')
    return _console.interruptible(partial(run, words))


def _inputs(words: argparse.Namespace) -> int:
    """How many of the files of a command line are standard input."""
    if words.command in ('cite', 'bibliography'):
        return _asked(words).inputs()
    if words.command == 'markdown':
        return [*words.pages, *words.bibliography].count('-')
    return list(getattr(words, 'files', [])).count('-')


def _asked(words: argparse.Namespace) -> Asked:
    """What a command line of `cite` or `bibliography` asks for."""
    return Asked(words.style, words.styles, words.locale, words.locales, words.abbreviations,
                 words.to, words.standalone, [words.references, *words.more], words.citations,
                 words.nocite, words.most_steps, words.most_bytes, words.draft,
                 getattr(words, 'links', False))


def run(words: argparse.Namespace) -> int:
    """Does what the command line says, and gives the exit status."""
    try:
        if words.version:
            write(f'{version()}\n')
        elif words.command in ('cite', 'bibliography'):
            command = cite_command if words.command == 'cite' else bibliography_command
            return command(_asked(words))
        elif words.command == 'markdown':
            return markdown_command(words)
        elif words.command == 'latex':
            return latex_command(words)
        elif words.command == 'org':
            return org_command(words.style)
        elif words.command == 'render':
            job = Job(words.to, words.standalone, Limits(words.depth, words.elements),
                      words.links)
            return render_command(words.document, words.output, job, words.jobs)
        elif words.command == 'check':
            return check_command(words.files, Limits(words.depth, words.elements))
        elif words.command == 'entries':
            return entries_command(words.files, words.form, words.lang, words.to)
        elif words.command in COMMANDS:
            return run_style_command(words)
        elif words.command == 'css':
            write(style_sheet())
        else:
            return styles_command(words.name, words.all)
        return 0
    except _console.OutputFailed as error:
        say(f'standard output: {error}')
        _console.close_output()
        return INPUT_OR_OUTPUT_FAILED
    except (LibraryMissing, references.ReaderMissing) as error:
        say(str(error))
        return NO_LIBRARY


def render_command(path: str, output: Optional[str], job: Job, processes: int) -> int:
    """Writes the answer to a document, or those to the documents of a folder."""
    try:
        if os.path.isdir(path):
            return render_folder(path, output or os.path.join(path, 'pages'), job, processes)
        if output is not None or processes != 1:
            say(f'{name_of(path)}: --output and --jobs are for folders of documents')
            return BAD_COMMAND_LINE
        document = read(path)
        with progress(f'answering {name_of(path)}'):
            page = page_of(job, document)
    except LibraryMissing:
        raise
    except (Refused, OSError, ValueError) as error:
        return refusal(path, error)
    write(page)
    return 0


def entries_command(paths: Sequence[str], form: Optional[str], lang: str, to: str) -> int:
    """Writes references, and on standard error what isn't kept of their entries, by entry and
    field. The status is that of the first file that is refused, or in which something is no
    entry."""
    found: Dict[str, Any] = {}
    statuses = []
    for path in paths:
        try:
            data = read(path)
            with progress(f'reading {name_of(path)}'):
                told = references.read(path, data, form=form, lang=lang)
        except (OSError, ValueError) as error:
            statuses.append(refusal(path, error))
            continue
        for item in told.items:
            if str(item['id']) in found:
                say(f'{name_of(path)}: `{item["id"]}` replaces the item of a file before')
            found[str(item['id'])] = item
        _say_what_is_lost(path, told)
        statuses += [NOT_OF_ITS_FORM] if told.problems else []
    items = list(found.values())
    converted = csl_json.entries(items if to == 'document' else [])
    if items or not statuses:
        write(json_text(converted.entries if to == 'document' else items))
    for line in csl_json.summary(converted.losses):
        say(line)
    return next(iter(statuses), 0)


def _say_what_is_lost(path: str, told: references.References) -> None:
    for loss in told.losses:
        shown = '' if loss.value is None else f' ({_faults.shown(loss.value)})'
        say(f'{name_of(path)}: {loss.key}: {loss.field}: {loss.reason}{shown}')
    for problem in told.problems:
        say(f'{name_of(path)}: {problem}')


def styles_command(name: Optional[str], tells_all: bool) -> int:
    """Writes the names of the styles, or the file of one."""
    if name and name not in styles.names():
        say(f'there is no style {name!r}: the styles are {", ".join(styles.names())}')
        return BAD_COMMAND_LINE
    names = csl.names() if tells_all else styles.names()
    write(styles.text(name) if name else ''.join(name + '\n' for name in names))
    return 0


if __name__ == '__main__':
    sys.exit(main())
