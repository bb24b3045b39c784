"""The commands `cite` and `bibliography`: citations and reference lists in a style."""
from __future__ import annotations

import json
import os
from dataclasses import dataclass, field
from typing import Any, Callable, Dict, List, Optional, Sequence, Tuple

from . import _console, _faults, csl, pages, references, styles
from ._console import INPUT_OR_OUTPUT_FAILED, NOT_OF_ITS_FORM, name_of, say
from .answer import Answer
from .errors import Refused

Item = Dict[str, Any]
Keys = List[List[str]]
"""For each citation the ids to whose items its cites lead."""

Writer = Callable[[Answer, Keys], str]
"""Writes an answer in a form."""


@dataclass(frozen=True)
class Asked:
    """What a command line asks for."""

    style: str
    styles: Optional[str]
    locale: Optional[str]
    locales: Optional[str]
    abbreviations: Optional[str]
    form: str
    is_standalone: bool
    references: Sequence[str]
    citations: Optional[str]
    lists_all: bool
    most_steps: Optional[int] = None
    most_bytes: Optional[int] = None
    is_draft: bool = False
    links: bool = False

    def inputs(self) -> int:
        """How many of the files are standard input."""
        return [self.style, *self.references, self.citations].count('-')


@dataclass
class Works:
    """References by their ids, and the file of each."""

    items: Dict[str, Item] = field(default_factory=dict)
    files: Dict[str, str] = field(default_factory=dict)


class _Failed(Exception):
    """Why nothing is written: what is said, and the exit status."""

    def __init__(self, message: str, status: int) -> None:
        super().__init__(message)
        self.status = status


def cite_command(asked: Asked) -> int:
    """Writes each citation."""
    return _written(asked, lambda answer, keys: pages.citations_in(asked.form, answer, keys))


def bibliography_command(asked: Asked) -> int:
    """Writes the items that are cited, or all where there are no citations."""
    return _written(asked, _bibliography_in(asked))


def _bibliography_in(asked: Asked) -> Writer:
    def written(answer: Answer, _keys: Keys) -> str:
        if answer.bibliography is None and asked.form != 'json':
            say(f'{name_of(asked.style)}: warning: the style has no bibliography')
        return pages.bibliography_in(asked.form, answer)
    return written


def _written(asked: Asked, written: Writer) -> int:
    """Writes what comes of a document, and tells on standard error what is odd in it."""
    try:
        works = _works(asked.references)
        rendered, shown = _rendered(asked, works)
    except _Failed as failure:
        say(str(failure))
        return failure.status
    for warned in rendered.warnings:
        say(_warning(asked, works, warned))
    keys = [[cite.id for cite in cites] if asked.links else [] for cites in rendered.cites]
    answer = Answer(rendered.answer.citations[:shown], rendered.answer.bibliography)
    text = written(answer, keys[:shown])
    _console.write(pages.standalone(text) if asked.is_standalone else text)
    return 0


def _warning(asked: Asked, works: Works, warned: csl.Warned) -> str:
    """What is said of something odd, with the name of its file. (Places in a style begin with
    it.)"""
    if warned.citation is not None and asked.citations is not None:
        return f'{name_of(asked.citations)}: warning: {warned}'
    if warned.entry is not None and warned.entry in works.files:
        return f'{name_of(works.files[warned.entry])}: warning: {warned}'
    return f'{warned.place}: warning: {warned.message}'


def _rendered(asked: Asked, works: Works) -> Tuple[csl.Rendered, int]:
    """What comes of a document, and how many citations of it are shown. Raises _Failed."""
    citations = [] if asked.citations is None else _citations(asked.citations)
    shown = len(citations)
    if asked.lists_all or asked.citations is None:
        citations.append([{'id': key, 'hidden': True} for key in works.items])
    try:
        style = _style(asked)
        with _console.progress(f'citing in {asked.style}'):
            rendered = csl.render(style, list(works.items.values()), citations,
                                  locale=asked.locale, locales=asked.locales,
                                  abbreviations=asked.abbreviations,
                                  most_steps=asked.most_steps, most_bytes=asked.most_bytes,
                                  draft=asked.is_draft)
    except csl.CitationRefused as error:
        raise _Failed(f'{name_of(str(asked.citations))}: {error}', NOT_OF_ITS_FORM) from error
    except Refused as error:
        raise _Failed(str(error), error.status) from error
    except (csl.StyleMissing, OSError) as error:
        raise _Failed(str(error), INPUT_OR_OUTPUT_FAILED) from error
    except ValueError as error:
        raise _Failed(str(error), NOT_OF_ITS_FORM) from error
    return rendered, shown


def _style(asked: Asked) -> str:
    """The style: its text where it is standard input, its path where the folder of styles has it,
    or else as it is told. Raises StyleMissing and OSError."""
    if asked.style == '-':
        return _console.read('-').decode('utf-8-sig', 'surrogateescape')
    is_path = asked.style.endswith('.csl') or os.sep in asked.style
    if asked.styles is None or is_path:
        return asked.style
    places = [os.path.join(asked.styles, folder, f'{asked.style}.csl')
              for folder in ('', 'dependent')]
    found = next((place for place in places if os.path.isfile(place)), None)
    if found is None and asked.style not in styles.names():
        raise csl.StyleMissing(f'there is no style {asked.style!r}: looked for '
                               f'{", ".join(places)}')
    return found or asked.style


def _works(paths: Sequence[str]) -> Works:
    """The references of files, of which the last of an id counts. Tells what isn't kept of
    them."""
    works = Works()
    for path in paths:
        try:
            data = _console.read(path)
            with _console.progress(f'reading {name_of(path)}'):
                told = references.read(path, data)
        except (OSError, ValueError) as error:
            raise _failure(path, error) from error
        for item in told.items:
            key = str(item['id'])
            if key in works.items:
                say(f'{name_of(path)}: warning: `{key}` replaces the item of a file before')
            works.items[key], works.files[key] = item, path
        for remark in [*told.losses, *told.problems]:
            say(f'{name_of(path)}: warning: {remark}')
    return works


def _citations(path: str) -> List[Any]:
    """The citations of a file."""
    try:
        said = json.loads(_console.read(path).decode('utf-8-sig'))
    except RecursionError as error:
        raise _Failed(f'{name_of(path)}: {_faults.TOO_DEEP}', NOT_OF_ITS_FORM) from error
    except UnicodeDecodeError as error:
        raise _Failed(f'{name_of(path)}: no UTF-8 from byte {error.start}',
                      NOT_OF_ITS_FORM) from error
    except ValueError as error:
        raise _Failed(f'{name_of(path)}: no JSON: {error}', NOT_OF_ITS_FORM) from error
    except OSError as error:
        raise _failure(path, error) from error
    if not isinstance(said, list):
        raise _Failed(f'{name_of(path)}: the citations are no list of citations', NOT_OF_ITS_FORM)
    return list(said)


def _failure(path: str, error: Exception) -> _Failed:
    message, status = _console.reason_and_status(error)
    return _Failed(f'{name_of(path)}: {message}', status)
