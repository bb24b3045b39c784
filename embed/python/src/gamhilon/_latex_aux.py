"""What gamhilon.sty writes into the .aux files of a document: what is cited in it, and where."""
from __future__ import annotations

import os
import re
from dataclasses import dataclass, field
from typing import Dict, List, Optional, Tuple

__all__ = ['Aux', 'CitationAsked', 'read_aux']

_LINE = re.compile(r'^\\(gamhilon@(?:options|cite|listed|sums)|@input)(?=\{)', re.MULTILINE)
_COUNTS = {'options': 4, 'cite': 9, 'listed': 1, 'sums': 2}


@dataclass(frozen=True)
class CitationAsked:
    """A citation: its number in the document; its place, which is `note`, `float`, `text`, or
    `made` where it becomes a note; the number of the last note; its line and file; and its command
    with the keys and the LaTeX of the words around it."""

    number: int
    place: str
    last_note: int
    line: int
    file: str
    command: str
    keys: str
    prenote: str
    postnote: str

    @property
    def key_list(self) -> List[str]:
        """The keys, without the space around them."""
        return [key.strip() for key in self.keys.split(',') if key.strip()]


@dataclass
class Aux:
    """What a document asks for: its style, its language as options give it and as babel names it,
    the files of references, the citations in their order, and the keys that are listed without
    being cited. `checksum` differs where another run of LaTeX wrote something else."""

    style: str = ''
    locale: str = ''
    language: str = ''
    libraries: str = ''
    checksum: str = ''
    citations: List[CitationAsked] = field(default_factory=list)
    listed: List[str] = field(default_factory=list)
    is_of_package: bool = False

    @property
    def library_list(self) -> List[str]:
        """The files of references."""
        return list(dict.fromkeys(path.strip() for path in self.libraries.split(',')
                                  if path.strip()))


def read_aux(path: str) -> Aux:
    """What the .aux file of a document has, with those that it includes. Raises OSError."""
    made, found = Aux(), {}  # type: Tuple[Aux, Dict[int, CitationAsked]]
    _read(path, os.path.dirname(path), made, found, [])
    made.citations = [found[number] for number in sorted(found)]
    made.listed = list(dict.fromkeys(made.listed))
    return made


def _read(path: str, folder: str, made: Aux, found: Dict[int, CitationAsked],
          seen: List[str]) -> None:
    with open(path, encoding='utf-8', errors='surrogateescape') as file:
        text = file.read()
    for match in _LINE.finditer(text):
        name = match.group(1).rpartition('@')[2]
        told = arguments(text, match.end(), _COUNTS.get(name, 1))
        if told is None:
            continue
        if name == 'input':
            part = os.path.join(folder, told[0])
            if part not in seen and os.path.isfile(part):
                _read(part, folder, made, found, [*seen, path, part])
        elif name == 'options':
            made.style, made.locale, made.language, made.libraries = told
            made.is_of_package = True
        elif name == 'listed':
            made.listed += [key.strip() for key in told[0].split(',') if key.strip()]
        elif name == 'sums':
            made.checksum = told[0]
        else:
            cite = _cite(told)
            if cite is not None:
                # (what is typeset several times, as in tables, is cited once)
                found[cite.number] = cite


def _cite(told: List[str]) -> Optional[CitationAsked]:
    """The citation of a line; None where it isn't one, as where LaTeX broke off."""
    if not all(told[place].isdigit() for place in (0, 2, 3)):
        return None
    return CitationAsked(int(told[0]), told[1], int(told[2]), int(told[3]), *told[4:])


def arguments(text: str, at: int, count: int) -> Optional[List[str]]:
    """The arguments in braces that stand in a text from a place; None where they aren't all there.

        >>> arguments(r'{a{b}}{\\}}{}', 0, 3)
        ['a{b}', '\\\\}', '']
        >>> arguments('{a', 0, 1)
    """
    found: List[str] = []
    while len(found) < count:
        end = _closing(text, at)
        if end is None:
            return None
        found.append(text[at + 1:end])
        at = end + 1
    return found


def _closing(text: str, at: int) -> Optional[int]:
    """Where the brace closes that opens at a place; None where none opens, or none closes it."""
    if text[at:at + 1] != '{':
        return None
    depth, place = 0, at
    while place < len(text):
        letter = text[place]
        if letter == '\\':
            place += 1
        depth += {'{': 1, '}': -1}.get(letter, 0)
        if depth == 0:
            return place
        place += 1
    return None
