"""The command `test`: fixtures in the form of the CSL processor suite."""
from __future__ import annotations

import os
from typing import Dict, Iterator, List, Optional, Sequence

from . import _console, csl
from ._console import NOT_OF_ITS_FORM, name_of, reason_and_status, say
from ._fixtures import Fixture, FixtureFault, fixture_of, lines_of
from ._sample_command import DIFFERENT
from .answer import Item, Node, Tree
from .errors import Refused
from .html_writer import to_html

__all__ = ['test_command']

_BREAK = '\ue000'
"""What stands for a line break, and isn't in any text."""

EQUAL, DIFFERS, FAILED, NOT_RUN = 'equal', 'differ', 'failed', 'not run'


def test_command(paths: Sequence[str], style: Optional[str], with_formats: bool,
                 locales: Optional[str]) -> int:
    """Runs fixtures in their own style, or in another one, and writes what differs, and how many
    are equal. The status is that of the first file that is none; else it says whether all are
    equal."""
    counts: Dict[str, int] = dict.fromkeys((EQUAL, DIFFERS, FAILED, NOT_RUN), 0)
    statuses: List[int] = []
    for path in _files(paths):
        try:
            text = _console.read(path).decode('utf-8-sig', 'replace')
            fixture = fixture_of(text)
        except FixtureFault as fault:
            if fault.is_known:
                counts[NOT_RUN] += 1
                say(f'{name_of(path)}: not run: {fault}')
            else:
                say(f'{name_of(path)}: {fault}')
                statuses.append(NOT_OF_ITS_FORM)
            continue
        except OSError as error:
            message, status = reason_and_status(error)
            say(f'{name_of(path)}: {message}')
            statuses.append(status)
            continue
        counts[_run(path, fixture, style, with_formats, locales)] += 1
    count = sum(counts.values())
    told = ', '.join(f'{number} {what}' for what, number in counts.items() if number)
    _console.write(f'{count} fixture{"" if count == 1 else "s"}{": " if told else ""}{told}\n')
    if statuses:
        return statuses[0]
    return DIFFERENT if counts[DIFFERS] or counts[FAILED] else 0


def _files(paths: Sequence[str]) -> Iterator[str]:
    """The files, and of folders those that end with `.txt`."""
    for path in paths:
        if os.path.isdir(path):
            yield from sorted(file.path for file in os.scandir(path)
                              if file.name.endswith('.txt') and file.is_file())
        else:
            yield path


def _run(path: str, fixture: Fixture, style: Optional[str], with_formats: bool,
         locales: Optional[str]) -> str:
    """What becomes of a fixture, of which it writes what differs."""
    try:
        came = _written(fixture, style or fixture.style, locales)
    except (Refused, ValueError, OSError) as error:
        say(f'{name_of(path)}: failed: {error}')
        return FAILED
    wanted, found = lines_of(fixture.wanted, with_formats), lines_of(came, with_formats)
    if wanted == found:
        return EQUAL
    lines = [f'{name_of(path)}:']
    for place in range(max(len(wanted), len(found))):
        pair = [side[place] if place < len(side) else None for side in (wanted, found)]
        if pair[0] != pair[1]:
            lines += [f'  {sign} {line}' for sign, line in zip('-+', pair) if line is not None]
    _console.write(''.join(f'{line}\n' for line in lines))
    return DIFFERS


def _written(fixture: Fixture, style: str, locales: Optional[str]) -> str:
    """What a style writes of a fixture: a line for each citation, or for each item."""
    hidden = [[{'id': key, 'hidden': True} for key in fixture.listed]] if fixture.listed else []
    rendered = csl.render(style, fixture.works, [*fixture.citations, *hidden], locales=locales)
    if fixture.mode == 'citation':
        return '\n'.join(_html(citation.content) for citation
                         in rendered.answer.citations[:len(fixture.citations)])
    bibliography = rendered.answer.bibliography
    items = bibliography.items if bibliography is not None else []
    return '\n'.join(_item(item) for item in items if item.key in fixture.listed)


def _item(item: Item) -> str:
    first = _html([item.first_field]) if item.first_field is not None else ''
    return first + _html(item.content)


def _html(tree: Tree) -> str:
    """The HTML of a tree, with line breaks that a style writes, which are spaces in HTML, and
    around what stands in lines of its own."""
    return to_html(_with_breaks(tree)).replace(_BREAK, '\n')


def _with_breaks(tree: Tree) -> Tree:
    found: Tree = []
    for node in tree:
        made: Node = {key: value for key, value in node.items() if key != 'display'}
        if 'children' in node:
            made['children'] = _with_breaks(node['children'])
        elif 'text' in node:
            made['text'] = node['text'].replace('\n', _BREAK)
        breaks: Tree = [{'text': _BREAK}] if node.get('display') in ('block', 'indent') else []
        found += [*breaks, made, *breaks]
    return found
