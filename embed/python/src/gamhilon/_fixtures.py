"""Fixtures in the form of the CSL processor suite: what a style writes of some works."""
from __future__ import annotations

import html
import json
import re
from dataclasses import dataclass
from typing import Any, Dict, List, Optional

from .errors import GamhilonError

__all__ = ['Fixture', 'FixtureFault', 'fixture_of', 'lines_of']

_BEGIN = re.compile(r'^>>=+ *([A-Z][A-Z -]*?) *=+>>\s*$')
_END = re.compile(r'^<<=+ *([A-Z][A-Z -]*?) *=+<<\s*$')
_CITE_KEYS = {'id', 'locator', 'label', 'prefix', 'suffix', 'suppress-author', 'author-only'}
_MODES = ('citation', 'bibliography')
_NOT_KNOWN = ('BIBSECTION', 'ABBREVIATIONS', 'LANGPARAMS', 'OPTIONS')
"""Sections that ask a processor for more than CSL says."""

_MARK = re.compile(r'^(?:\.\.|>>)\[\d+\] ?')
_TAG_OF_LAYOUT = re.compile(r'</?(?:div|a)\b[^>]*>')
_TAG = re.compile(r'</?[a-zA-Z][^<>]*>')


class FixtureFault(GamhilonError, ValueError):
    """A file is no fixture, or one that asks for what isn't known; `is_known` is whether it is
    one."""

    def __init__(self, message: str, is_known: bool = False) -> None:
        super().__init__(message)
        self.is_known = is_known


@dataclass(frozen=True)
class Fixture:
    """A fixture: its mode, its style, its works, its citations, the keys of works that are listed
    and not cited, and what is wanted."""

    mode: str
    style: str
    works: List[Dict[str, Any]]
    citations: List[List[Dict[str, Any]]]
    listed: List[str]
    wanted: str


def fixture_of(text: str) -> Fixture:
    """The fixture of a text. Raises FixtureFault."""
    sections = _sections(text)
    for name in ('MODE', 'RESULT', 'CSL', 'INPUT'):
        if name not in sections:
            raise FixtureFault(f'no section {name}')
    mode = sections['MODE'].strip()
    if mode not in _MODES:
        raise FixtureFault(f'the mode {mode}', True)
    asked = [name for name in _NOT_KNOWN if sections.get(name, '').strip()]
    if asked:
        raise FixtureFault(f'the section {asked[0]}', True)
    works = _works(_json(sections, 'INPUT'))
    citations = _citations(sections, works, mode)
    listed = _listed(sections, works) if mode == 'bibliography' else []
    return Fixture(mode, sections['CSL'].strip(), works, citations, listed,
                   _without_marks(sections['RESULT']))


def lines_of(text: str, with_formats: bool) -> List[str]:
    """The lines of a result, in which neither white space counts, nor layout, nor links; nor
    formats, where these aren't asked for. Items of a list are lines."""
    text = re.sub(r'\s*<div class="csl-(?:entry|block|indent)">\s*', '\n', text)
    text = _TAG_OF_LAYOUT.sub('', text)
    text = html.unescape(text if with_formats else _TAG.sub('', text))
    lines = (re.sub(r'[ \t]+', ' ', line).strip() for line in text.split('\n'))
    return [line for line in lines if line]


def _sections(text: str) -> Dict[str, str]:
    found: Dict[str, str] = {}
    name: Optional[str] = None
    lines: List[str] = []
    for line in text.lstrip('\ufeff').splitlines():
        begin, end = _BEGIN.match(line), _END.match(line)
        if name is None and begin:
            name, lines = begin[1], []
        elif name is not None and end and end[1] == name:
            found[name] = '\n'.join(lines)
            name = None
        else:
            lines.append(line)
    if name is not None:
        raise FixtureFault(f'the section {name} has no end')
    return found


def _json(sections: Dict[str, str], name: str) -> Any:
    try:
        return json.loads(sections[name])
    except (ValueError, RecursionError) as error:
        raise FixtureFault(f'the section {name} is no JSON: {error}') from error


def _works(value: Any) -> List[Dict[str, Any]]:
    if not isinstance(value, list) or not all(isinstance(work, dict) for work in value):
        raise FixtureFault('the section INPUT is no list of works')
    return [{**work, 'id': str(work.get('id', place))} for place, work in enumerate(value)]


def _citations(sections: Dict[str, str], works: List[Dict[str, Any]],
               mode: str) -> List[List[Dict[str, Any]]]:
    """The citations: those that are given, or one of all works."""
    try:
        if sections.get('CITATIONS', '').strip():
            return _in_the_end(_json(sections, 'CITATIONS'))
        if sections.get('CITATION-ITEMS', '').strip():
            return [[_cite(cite) for cite in cites] for cites in _json(sections, 'CITATION-ITEMS')]
    except (TypeError, KeyError, AttributeError, IndexError, ValueError) as error:
        if isinstance(error, FixtureFault):
            raise
        raise FixtureFault(f'the citations are none: {error!r}') from error
    return [[{'id': work['id']} for work in works]] if mode == 'citation' else []


def _in_the_end(steps: List[List[Any]]) -> List[List[Dict[str, Any]]]:
    """The citations of a text as they stand after the last step. A step puts a citation in, or
    changes one, and says which stand before it and behind it, and in which notes."""
    cites: Dict[Any, List[Any]] = {}
    notes: Dict[Any, int] = {}
    order: List[Any] = []
    for number, (citation, before, behind) in enumerate(steps):
        key = citation.get('citationID', number)
        cites[key] = citation['citationItems']
        own = (citation.get('properties') or {}).get('noteIndex', 0)
        around = {other: note for other, note in [*before, *behind]}
        notes.update({**around, key: own})
        if 'citationID' in citation:
            order = [*(other for other, _ in before), key, *(other for other, _ in behind)]
        else:
            order.append(key)
    return [[{**_cite(cite), **({'note': notes[key]} if notes.get(key) else {})}
             for cite in cites[key]] for key in order]


def _cite(given: Dict[str, Any]) -> Dict[str, Any]:
    """A cite, without what processors keep in one."""
    cite = {key: value for key, value in given.items()
            if key in _CITE_KEYS and value not in (None, '', False)}
    cite['id'] = str(given['id'])
    for flag in ('suppress-author', 'author-only'):
        if flag in cite:
            cite[flag] = True
    if 'locator' not in cite:
        cite.pop('label', None)
    return cite


def _listed(sections: Dict[str, str], works: List[Dict[str, Any]]) -> List[str]:
    """The keys of the works that a list has: of the last of several lists, or all."""
    if not sections.get('BIBENTRIES', '').strip():
        return [work['id'] for work in works]
    steps = _json(sections, 'BIBENTRIES')
    return [str(key) for key in (steps[-1] if steps else [])]


def _without_marks(result: str) -> str:
    """A result without the numbers of citations, and what says whether they have changed."""
    return '\n'.join(_MARK.sub('', line) for line in result.split('\n'))
