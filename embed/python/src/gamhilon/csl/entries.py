"""Entries, as the library is handed them."""
from __future__ import annotations

import json
from collections import abc
from typing import Any, Dict, Iterable, List, Mapping, Sequence, Tuple

from .errors import EntriesRefused
from .warned import Warned

Entry = Dict[str, Any]
"""An entry: an item of CSL-JSON."""

_DEEPEST = 100


class EntryTexts:
    """The JSON of entries, which is made once for each of them."""

    def __init__(self) -> None:
        self._made: Dict[str, Tuple[Entry, str]] = {}

    def json(self, entries: Sequence[Entry]) -> bytes:
        """The JSON of a list of entries."""
        return f'[{", ".join(map(self._of, entries))}]'.encode('utf-8', 'replace')

    def _of(self, entry: Entry) -> str:
        key = str(entry['id'])
        known = self._made.get(key)
        if known is None or known[0] is not entry:
            known = self._made[key] = entry, json.dumps(entry, ensure_ascii=False)
        return known[1]


class EntryReader:
    """Reads entries, and keeps what is odd in them as `warnings`."""

    def __init__(self) -> None:
        self.warnings: List[Warned] = []

    def entries(self, values: Any) -> Dict[str, Entry]:
        """The last entry of each id, by these. Raises EntriesRefused where they are no list of
        entries."""
        if isinstance(values, (str, bytes, Mapping)) or not isinstance(values, Iterable):
            raise EntriesRefused('the entries are no list of items of CSL-JSON')
        found: Dict[str, Entry] = {}
        for number, value in enumerate(values):
            key = value.get('id') if isinstance(value, Mapping) else None
            if not isinstance(key, (str, int, float)) or isinstance(key, bool) or key == '':
                self.warnings.append(Warned(f'entry {number}', 'no item with an id, left out'))
                continue
            if str(key) in found:
                reason = f'a second item of the id {str(key)!r}, in place of the first'
                self.warnings.append(Warned(f'entry {number}', reason, entry=str(key)))
            found[str(key)] = self._entry(str(key), value)
        return found

    def _entry(self, key: str, value: Mapping[str, Any]) -> Entry:
        entry: Entry = {'type': 'document', **value, 'id': key}
        try:
            reason = 'it nests too deep' if _depth(entry) > _DEEPEST else ''
            json.dumps(entry, allow_nan=False)
        except (TypeError, ValueError, RecursionError) as error:
            reason = f'it is no JSON: {error}'
        if not reason:
            return entry
        self.warnings.append(warned_of_stand_in(key, reason))
        return stand_in(key)


def stand_in(key: str) -> Entry:
    """What stands in the list for an entry that can't be written: its id."""
    return {'id': key, 'type': 'document', 'title': key}


def warned_of_stand_in(key: str, reason: str) -> Warned:
    """Tells that the id of an entry stands for it."""
    return Warned(f'entry {key}', f'{reason}: its id stands in the list', entry=key)


def _depth(value: Any) -> int:
    """How deep lists and objects nest; more than the deepest at once where they hold themselves."""
    depth, level = 0, {id(value): value}
    while level and depth <= _DEEPEST:
        depth += 1
        inner = [part.values() if isinstance(part, abc.Mapping) else part
                 for part in level.values()]
        level = {id(member): member for part in inner for member in part
                 if isinstance(member, (list, tuple, abc.Mapping))}
    return depth
