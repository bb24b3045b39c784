"""Files of references."""
from __future__ import annotations

import hashlib
from dataclasses import dataclass, field
from typing import Any, Dict, List

from .. import references
from ..csl_json import Loss
from ..references import by_library

__all__ = ['File', 'read']

Item = Dict[str, Any]


@dataclass(frozen=True)
class File:
    """A file of references: the checksum of its bytes, its items by their keys, and of each what
    filters ask for; what isn't kept of its entries, and what in it is no entry."""

    checksum: str
    items: Dict[str, Item]
    facts: Dict[str, Dict[str, str]]
    losses: List[Loss] = field(default_factory=list)
    problems: List[str] = field(default_factory=list)


def read(path: str, data: bytes, encoding: str) -> File:
    """The references in the bytes of a file. Raises ReferencesError, ReaderMissing, or LookupError
    where there is no such encoding."""
    checksum = hashlib.sha256(encoding.encode() + b'\0' + data).hexdigest()
    if encoding.lower().replace('_', '-') not in ('utf-8', 'utf-8-sig', 'utf8'):
        data = data.decode(encoding, 'replace').encode()
    told = references.read(path, data)
    items = {str(item['id']): item for item in told.items}
    facts = {key: _facts(item) for key, item in items.items()}
    if references.is_named(path) and path.lower().endswith(('.bib', '.biblatex', '.bibtex')):
        facts.update(_facts_of_bib(data))
    return File(checksum, items, facts, told.losses, told.problems)


def _facts_of_bib(data: bytes) -> Dict[str, Dict[str, str]]:
    """What the entries of a .bib file say, by their types and fields there."""
    found: Dict[str, Dict[str, str]] = {}
    for entry in by_library.bib_entries(data.decode('utf-8-sig', 'replace')):
        found.setdefault(entry['key'], {**entry['fields'], 'type': entry['type']})
    return found


def _facts(item: Item) -> Dict[str, str]:
    facts = {name: str(value) for name, value in item.items()
             if isinstance(value, (str, int, float))}
    for name in ('author', 'editor'):
        if isinstance(item.get(name), list):
            facts[name] = ' and '.join(_name(person) for person in item[name])
    issued = item.get('issued')
    parts = issued.get('date-parts') if isinstance(issued, dict) else None
    if isinstance(parts, list) and parts and isinstance(parts[0], list) and parts[0]:
        facts['year'] = str(parts[0][0])
    return facts


def _name(person: Any) -> str:
    if not isinstance(person, dict):
        return str(person)
    told = [str(person[part]) for part in ('family', 'given', 'literal') if person.get(part)]
    return ', '.join(told)
