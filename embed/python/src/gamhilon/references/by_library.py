"""BibTeX, BibLaTeX and RIS as CSL-JSON, as the shared library reads them."""
from __future__ import annotations

import json
from typing import Any, Dict, List, Tuple

from .._library import library
from ..csl_json import Loss
from ..errors import LibraryMissing
from ..texts import TextWarning, findings_of
from .errors import ReaderMissing, ReferencesError

__all__ = ['FORMS', 'bib_entries', 'items']

FORMS = ('biblatex', 'bibtex', 'ris')

Item = Dict[str, Any]


def items(text: str, form: str, lang: str) -> Tuple[List[Item], List[Loss], List[str]]:
    """The items of a text in one of FORMS, what isn't kept of their entries, and what is no entry.
    Raises ReferencesError, and ReaderMissing where there is no library that reads them."""
    said, warnings = _read(text, {'from': form, 'locale': lang})
    losses, problems = [], []
    for warning in warnings:
        if warning.entry is not None and warning.field is not None:
            losses.append(Loss(warning.entry, warning.field, None, warning.message))
        else:
            problems.append(_with_place(warning))
    return said['items'], losses, problems


def bib_entries(text: str) -> List[Dict[str, Any]]:
    """The entries of a .bib file as they stand there: `key`, `type` and `fields`. Types and names
    of fields are in small letters. Raises as `items` does."""
    said, _ = _read(text, {'from': 'biblatex', 'entries': True})
    entries: List[Dict[str, Any]] = said['entries']
    return entries


def _read(text: str, options: Dict[str, Any]) -> Tuple[Dict[str, Any], List[TextWarning]]:
    """What the library says of a text, and its warnings."""
    given = text.encode('utf-8', 'surrogatepass')
    try:
        answer = library().read_references(given, json.dumps(options).encode())
    except LibraryMissing as error:
        raise ReaderMissing(str(error)) from error
    said = json.loads(answer)
    fault, warnings = findings_of(said)
    if fault is not None:
        raise ReferencesError(_with_place(fault))
    return said, warnings


def _with_place(warning: TextWarning) -> str:
    if warning.line is None:
        return warning.message
    return f'line {warning.line}, column {warning.column}: {warning.message}'
