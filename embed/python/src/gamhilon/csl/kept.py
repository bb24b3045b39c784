"""Answers of a session of the library to documents that are much like the one before: what has the
same text is the same value, and isn't written and read again."""
from __future__ import annotations

import json
from dataclasses import replace
from typing import TYPE_CHECKING, Any, Dict, List, Mapping, Optional, Sequence, Tuple

from .. import _deep_json
from .._library import library
from .._library_session import LibrarySession, SessionFault
from ..answer import Answer, Bibliography, Item
from ..answer import Citation as WrittenCitation
from ..errors import LibraryMissing
from ..texts import TextWarning
from .cites import Citation, CitationPart, CitationParts
from .entries import Entry, EntryTexts

if TYPE_CHECKING:
    from .calling import Document

LAYOUT = ('hanging_indent', 'line_spacing', 'entry_spacing', 'second_field_align')
"""How items are laid out, as an answer has it."""


class KeptAnswers:
    """Answers to documents, one after the other. They are used by one thread at a time."""

    def __init__(self) -> None:
        self._held: Optional[_Held] = None

    def answer(self, document: Document, warns: bool = True) -> Answer:
        """The answer to a document, as `Document.anew` gives it; and so is what is raised."""
        try:
            return self._opened(document).answer(document, warns)
        except (SessionFault, LibraryMissing):
            # (a document that is refused, or a library that is older than sessions)
            self.close()
            return document.anew(warns)

    def close(self) -> None:
        """Frees what is kept. Another answer is written from the beginning."""
        if self._held is not None:
            self._held.close()
        self._held = None

    def _opened(self, document: Document) -> _Held:
        """A session in the style of a document."""
        texts = document.styling('json')
        if self._held is None or self._held.texts != texts:
            self.close()
            self._held = _Held(texts)
        return self._held


class Kept:
    """What is kept of documents with much the same entries: the answers to them, the answers to
    some of their citations alone, and the JSON of entries."""

    def __init__(self) -> None:
        self.answers, self.alone, self.texts = KeptAnswers(), KeptAnswers(), EntryTexts()

    def close(self) -> None:
        """Frees what the library keeps."""
        self.answers.close()
        self.alone.close()


class _Held:
    """A session that is open, and what it has."""

    def __init__(self, texts: Tuple[bytes, bytes, bytes]) -> None:
        self.texts = texts
        self._session: LibrarySession = library().session()
        self._session.edit('open', *texts)
        self._entries: Dict[str, Entry] = {}
        self._entry_warnings: Dict[str, List[TextWarning]] = {}
        self._keys = _CitationKeys()
        self._citations: Dict[str, WrittenCitation] = {}
        self._order: List[str] = []
        self._parts: Dict[int, Tuple[CitationPart, List[WrittenCitation]]] = {}
        self._items: Dict[str, Item] = {}
        self._ids: List[str] = []
        self._layout: Dict[str, Any] = {}

    def close(self) -> None:
        self._session.close()

    def answer(self, document: Document, warns: bool) -> Answer:
        """The answer to a document in this style."""
        self._put(document)
        self._remove(document)
        self._session.edit('set_citations', self._keys.json(document.citations))
        said = _deep_json.loads(self._session.text('answer').decode())
        self._apply_citations(said['citations'])
        listed = said.get('bibliography')
        if listed is not None:
            self._apply_items(listed)
        bibliography = None if listed is None else Bibliography(
            [self._items[key] for key in self._ids], **self._layout)
        warnings = self._warnings(document) if warns else []
        return Answer(self._in_order(document.citations, said['citations']['changed']),
                      bibliography, warnings)

    def _put(self, document: Document) -> None:
        """Puts the entries that are new or changed."""
        known = self._entries
        new = [entry for entry in document.entries
               if known.get(entry['id']) is not entry and not self._has(entry)]
        if not new:
            return
        self._session.edit('put_items', document.entries_json(new))
        for entry in new:
            self._entries[str(entry['id'])] = entry
            self._entry_warnings.pop(str(entry['id']), None)
        for warning in self._said_warnings('items'):
            steps = (warning.pointer or '').split('/')
            if len(steps) > 1 and steps[1].isdigit() and int(steps[1]) < len(new):
                key = str(new[int(steps[1])]['id'])
                rest = replace(warning, pointer='/'.join(['', *steps[2:]]))
                self._entry_warnings.setdefault(key, []).append(rest)

    def _has(self, entry: Entry) -> bool:
        known = self._entries.get(str(entry['id']))
        return known is entry or known == entry

    def _remove(self, document: Document) -> None:
        """Removes the entries that a draft cites, and that aren't there any more."""
        if not document.is_draft:
            return
        there = {str(entry['id']) for entry in document.entries}
        gone = [key for key in self._entries if key not in there]
        if gone:
            self._session.edit('remove_items', json.dumps(gone).encode())
            for key in gone:
                del self._entries[key]
                self._entry_warnings.pop(key, None)

    def _apply_citations(self, said: Mapping[str, Any]) -> None:
        for changed in said['changed']:
            self._citations[changed['key']] = WrittenCitation(**changed['citation'])
        for key in said['gone']:
            del self._citations[key]
        self._order = said.get('keys', self._order)

    def _in_order(self, citations: Sequence[Citation], changed: Sequence[Mapping[str, Any]]
                  ) -> List[WrittenCitation]:
        """The citations that are written, in their order. Of a part without any that has changed
        they stand together as they did."""
        if not isinstance(citations, CitationParts):
            self._parts = {}
            return [self._citations[key] for key in self._order]
        anew = {one['key'].partition('.')[0] for one in changed}
        before, self._parts = self._parts, {}
        found: List[WrittenCitation] = []
        for part in citations.parts:
            known = before.get(part.number)
            if known is None or known[0] is not part or str(part.number) in anew:
                known = part, [self._citations[key] for key in part.keys]
            self._parts[part.number] = known
            found += known[1]
        return found

    def _apply_items(self, said: Mapping[str, Any]) -> None:
        for changed in said['changed']:
            self._items[changed['id']] = Item(**changed['item'])
        for key in said['gone']:
            del self._items[key]
        self._ids = said.get('ids', self._ids)
        self._layout = {name: said[name] for name in LAYOUT if name in said}

    def _warnings(self, document: Document) -> List[TextWarning]:
        """What is odd in a document: in the order of its texts, as the library has it."""
        said = self._said_warnings()
        before = [it for it in said if it.file not in ('items', 'citations')]
        entries = document.entries if self._entry_warnings else ()
        of_entries = [replace(warning, pointer=f'/{index}{warning.pointer}')
                      for index, entry in enumerate(entries)
                      for warning in self._entry_warnings.get(str(entry['id']), [])]
        return [*before, *of_entries, *[it for it in said if it.file == 'citations']]

    def _said_warnings(self, file: str = '') -> List[TextWarning]:
        said = json.loads(self._session.text('warnings'))['warnings']
        return [TextWarning(**it) for it in said if not file or it['file'] == file]


class _CitationKeys:
    """Keys of citations by what they ask for, so that one that moves keeps its key. Those in parts
    have keys of their own."""

    def __init__(self) -> None:
        self._numbers: Dict[str, int] = {}

    def json(self, citations: Sequence[Citation]) -> bytes:
        """The JSON of citations, with their keys."""
        if isinstance(citations, CitationParts):
            return citations.keyed_json()
        if len(self._numbers) > 4 * len(citations) + 1000:
            self._numbers.clear()
        counts: Dict[int, int] = {}
        parts = []
        for citation in citations:
            text = citation.json
            number = self._numbers.setdefault(text, len(self._numbers))
            count = counts[number] = counts.get(number, 0) + 1
            parts.append(citation.keyed_json(f'alone{number}.{count}'))
        return f'[{", ".join(parts)}]'.encode('utf-8', 'replace')
