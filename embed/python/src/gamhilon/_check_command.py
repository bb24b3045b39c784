"""The command `check`: what files are, and what in them is wrong or odd."""
from __future__ import annotations

import json
from dataclasses import dataclass, field
from typing import List, Sequence

from . import Limits, _faults, _remarks, check, csl, references
from ._console import (INPUT_OR_OUTPUT_FAILED, NOT_OF_ITS_FORM, name_of, progress, read,
                       reason_and_status, say, write)
from .errors import LibraryMissing, Refused, StyleLimitExceeded

_BEFORE = b'\xef\xbb\xbf \t\r\n'
"""What may stand before the first letter that tells what a file is."""


@dataclass
class Checked:
    """What a file is, in a line; more lines of what it holds; what in it is odd, each with its
    place; and what is no entry."""

    line: str
    more: List[str] = field(default_factory=list)
    warnings: List[str] = field(default_factory=list)
    problems: List[str] = field(default_factory=list)


def refusal(path: str, error: Exception) -> int:
    """Tells why nothing comes of a file, with its name, and gives the exit status."""
    message, status = reason_and_status(error)
    # (the place of a fault in a style begins with its file)
    is_placed = isinstance(error, (csl.StyleRefused, StyleLimitExceeded))
    say(message if is_placed else f'{name_of(path)}: {message}')
    return status


def check_command(paths: Sequence[str], limits: Limits) -> int:
    """Writes what files are, and tells on standard error what is wrong and odd in them. The status
    is that of the file that is worst off: 1 goes before all others, of which the first counts."""
    statuses = []
    for path in paths:
        try:
            data = read(path)
            with progress(f'checking {name_of(path)}'):
                checked = _checked(path, data, limits)
        except LibraryMissing:
            raise
        except (Refused, OSError, ValueError) as error:
            statuses.append(refusal(path, error))
            continue
        lines = [f'{name_of(path)}: {checked.line}', *(f'  {line}' for line in checked.more)]
        write(''.join(f'{_faults.in_one_line(line)}\n' for line in lines))
        for line in [*checked.warnings, *(f'{name_of(path)}: {told}' for told in checked.problems)]:
            say(line)
        statuses += [NOT_OF_ITS_FORM] if checked.problems else []
    if INPUT_OR_OUTPUT_FAILED in statuses:
        return INPUT_OR_OUTPUT_FAILED
    return next(iter(statuses), 0)


def _checked(path: str, data: bytes, limits: Limits) -> Checked:
    """What a file is: references by its name or by a bracket, a document by a brace, and else a
    style or a locale."""
    first = data.lstrip(_BEFORE)[:1]
    if references.is_named(path) or first == b'[' or first == b'@':
        return _checked_references(path, data)
    if first == b'{':
        return _checked_document(path, data, limits)
    return _checked_xml(name_of(path), data)


def _checked_xml(file: str, data: bytes) -> Checked:
    """What a style or a locale is. Raises StyleRefused where it is neither."""
    line, warnings = csl.check_file(data.decode('utf-8-sig', 'surrogateescape'), file)
    return Checked(line, warnings=[f'{warned.place}: warning: {warned.message}'
                                   for warned in warnings])


def _checked_references(path: str, data: bytes) -> Checked:
    """What a file of references is. Raises EntriesRefused where an entry isn't of its form."""
    told = references.read(path, data)
    count = len(told.items)
    warnings = [str(loss) for loss in told.losses]
    try:
        warnings += map(str, csl.check_references(told.items))
    except LibraryMissing:
        pass  # (what reads the forms tells what is said without it)
    return Checked(f'{count} reference{"" if count == 1 else "s"}', _remarks.of_references(told),
                   [f'{name_of(path)}: warning: {warned}' for warned in warnings], told.problems)


def _checked_document(path: str, data: bytes, limits: Limits) -> Checked:
    check(data, limits=limits)
    said = json.loads(data)
    return Checked('document', _remarks.holds(said),
                   [f'{name_of(path)}: warning: {remark}' for remark in _remarks.remarks(said)])
