"""The library's call, from the texts of a document to its answer, its warnings and its faults."""
from __future__ import annotations

import json
from dataclasses import dataclass, replace
from typing import Any, Dict, List, Mapping, Optional, Sequence, Tuple

from .._citing import cite_texts
from .._library import CiteTexts
from ..answer import Answer
from ..errors import StyleLimitExceeded, TextRefused
from ..texts import TextFault, TextWarning
from .abbreviations import Abbreviations
from .cites import Citation, json_of_citations
from .entries import Entry, EntryTexts
from .errors import (AbbreviationsRefused, CitationRefused, EntriesRefused, StyleRefused,
                     place)
from .kept import KeptAnswers
from .locales import LocaleFile
from .style import Style
from .warned import Warned


@dataclass(frozen=True)
class Document:
    """What is rendered: a style, locale files, entries, citations, the language in place of the
    style's, abbreviations, and limits in place of the usual ones. `kept` and `texts` are those of
    documents that are much alike."""

    style: Style
    locales: Sequence[LocaleFile]
    entries: Sequence[Entry]
    citations: Sequence[Citation]
    language: str
    abbreviations: Optional[Abbreviations] = None
    limits: Optional[Mapping[str, int]] = None
    kept: Optional[KeptAnswers] = None
    texts: Optional[EntryTexts] = None
    is_draft: bool = False

    def answer(self, warns: bool = True) -> Answer:
        """The answer, with what is odd unless that isn't asked for. Raises TextRefused where a part
        of the document is wrong; StyleLimitExceeded, NumberOverflow or OutOfMemory; and
        LibraryMissing."""
        return self.anew(warns) if self.kept is None else self.kept.answer(self, warns)

    def anew(self, warns: bool = True) -> Answer:
        """The answer, whatever is kept."""
        style, locales, options = self.styling()
        texts = CiteTexts(style=style, locales=locales, options=options,
                          items=self.entries_json(self.entries),
                          citations=json_of_citations(self.citations))
        try:
            return cite_texts(texts, warns)
        except StyleLimitExceeded as refusal:
            raise self._excess(refusal) from None

    def styling(self, form: Optional[str] = None) -> Tuple[bytes, bytes, bytes]:
        """The texts of the style, of the locale files and of the options, with the form of the
        answer where it isn't the usual one."""
        return (bytes_of(self.style.text), json_of([locale.text for locale in self.locales]),
                json_of(self._options(form)))

    def entries_json(self, entries: Sequence[Entry]) -> bytes:
        """The JSON of some of the entries."""
        return (self.texts or EntryTexts()).json(entries)

    def _options(self, form: Optional[str]) -> Dict[str, Any]:
        options: Dict[str, Any] = {'locale': self.language}
        if form is not None:
            options['form'] = form
        if self.abbreviations is not None:
            options['abbreviations'] = self.abbreviations.value
        if self.limits:
            options['limits'] = dict(self.limits)
        if self.is_draft:
            options['draft'] = True
        return options

    def is_warned(self, remark: TextWarning) -> bool:
        """Whether a remark of the library is of an entry that isn't there: these are warned of
        beside all entries, of which the library gets those that are cited."""
        return self.is_draft and remark.file == 'citations' and steps_of(remark)[2:] == ['id']

    def warned(self, remark: TextWarning) -> Warned:
        """A remark of the library, with its place in the document."""
        steps = steps_of(remark)
        first = _index(steps, 0)
        if remark.file == 'items' and first is not None and first < len(self.entries):
            key = str(self.entries[first]['id'])
            where = ', '.join([f'entry {key}', *steps[1:2]]) + _pointer(steps[2:])
            return Warned(where, remark.message, entry=key)
        if remark.file == 'citations' and first is not None:
            steps = _cite_steps(steps)
            where = place(first, _index(steps, 1), _step(steps, 2))
            return Warned(where, remark.message, citation=first)
        line = '' if remark.line is None else f':{remark.line}:{remark.column}'
        return Warned(f'{self._file(remark.file)}{line}{_pointer(steps)}', remark.message)

    def error(self, refusal: TextRefused) -> Exception:
        """A fault as an error that tells its place in the document."""
        fault = refusal.fault
        if fault.file == 'citations':
            steps = _cite_steps(steps_of(fault))
            return CitationRefused(_index(steps, 0), _index(steps, 1), _step(steps, 2),
                                   fault.message)
        if fault.file == 'items':
            return EntriesRefused(str(self.warned(fault)))
        if fault.file == 'options' and self.abbreviations is not None:
            return AbbreviationsRefused(self.abbreviations.file, None, None, _at_part(fault))
        return StyleRefused(self._file(fault.file), fault.line, fault.column, fault.message)

    def _excess(self, refusal: StyleLimitExceeded) -> StyleLimitExceeded:
        """What the style exceeds, with the name of its file."""
        fault = refusal.fault
        return StyleLimitExceeded(fault and replace(fault, file=self._file(fault.file)))

    def _file(self, file: str) -> str:
        """How messages name a text of the document."""
        if file == 'style':
            return self.style.file
        name, slash, number = file.partition('/')
        return self.locales[int(number)].file if slash and name == 'locales' else file


def _cite_steps(steps: List[str]) -> List[str]:
    """The way to a part of a citation, as if the citation were the list of its cites."""
    return steps[:1] + steps[2:] if steps[1:2] == ['citationItems'] else steps


def steps_of(remark: TextWarning) -> List[str]:
    """The steps of the JSON Pointer (RFC 6901) of a remark."""
    return [step.replace('~1', '/').replace('~0', '~')
            for step in (remark.pointer or '').split('/')[1:]]


def _at_part(fault: TextFault) -> str:
    """What is wrong with a part of an option, with the way to it."""
    pointer = _pointer(steps_of(fault)[1:])
    return f'{pointer}: {fault.message}' if pointer else fault.message


def json_of(value: object) -> bytes:
    """A value as JSON, with a question mark for each half of a surrogate pair."""
    return json.dumps(value, ensure_ascii=False).encode('utf-8', 'replace')


def bytes_of(text: str) -> bytes:
    """The bytes of a text, as they were where it was read of a file."""
    try:
        return text.encode('utf-8', 'surrogateescape')
    except UnicodeEncodeError:
        return text.encode('utf-8', 'replace')


def _pointer(steps: Sequence[str]) -> str:
    return ''.join(f'/{step}' for step in steps)


def _step(steps: Sequence[str], at: int) -> Optional[str]:
    return steps[at] if at < len(steps) else None


def _index(steps: Sequence[str], at: int) -> Optional[int]:
    step = _step(steps, at)
    return int(step) if step is not None and step.isdigit() else None
