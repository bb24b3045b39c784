"""The call for citations by a style file."""
from __future__ import annotations

import json
from typing import Any, Dict, List, Mapping, Optional, Sequence, Tuple, Union

from ._library import CiteTexts, library
from ._limits import style_limits
from .answer import Answer, answer_of
from .errors import DocumentRefused, OutOfMemory, StyleLimitExceeded, TextRefused
from .texts import TextFault, TextWarning, findings_of

__all__ = ['Json', 'cite_texts', 'texts_of']

Json = Union[List[Any], Dict[str, Any], str, bytes]
"""JSON: the value, or its text."""


def texts_of(style: Union[str, bytes], items: Json, citations: Json, locales: Sequence[str],
             locale: Optional[str], nocite: bool,
             abbreviations: Optional[Mapping[str, Any]], most_steps: Optional[int] = None,
             most_bytes: Optional[int] = None, draft: bool = False) -> CiteTexts:
    """The texts of the call. Raises TextRefused where one can't be written as JSON, and
    LimitsRefused."""
    options: Dict[str, Any] = {'nocite': True} if nocite else {}
    if draft:
        options['draft'] = True
    limits = style_limits(most_steps, most_bytes)
    if limits:
        options['limits'] = limits
    if locale is not None:
        options['locale'] = locale
    if abbreviations is not None:
        options['abbreviations'] = dict(abbreviations)
    return CiteTexts(style=_bytes_of(style), locales=_json_of('locales', list(locales)),
                     items=_json_of('items', items), citations=_json_of('citations', citations),
                     options=_json_of('options', options))


def cite_texts(texts: CiteTexts, warns: bool = True) -> Answer:
    """The answer to these texts, with what is odd in them unless that isn't asked for."""
    try:
        text = library().cite(texts)
    except DocumentRefused:
        raise _refusal(texts) from None
    except StyleLimitExceeded:
        raise StyleLimitExceeded(_findings(texts)[0]) from None
    if not warns:
        return answer_of(text.decode())
    return answer_of(text.decode(), _findings(texts)[1])


def _refusal(texts: CiteTexts) -> Exception:
    """What is wrong with these texts."""
    fault, warnings = _findings(texts)
    return OutOfMemory('memory was refused') if fault is None else TextRefused(fault, warnings)


def _findings(texts: CiteTexts) -> Tuple[Optional[TextFault], List[TextWarning]]:
    """What is wrong with these texts, if anything is, and what is odd in them."""
    return findings_of(json.loads(library().find_cite_fault(texts)))


def _bytes_of(text: Union[str, bytes]) -> bytes:
    """The bytes of a text. Half of a surrogate pair becomes what the library refuses."""
    return text if isinstance(text, bytes) else text.encode('utf-8', 'surrogatepass')


def _json_of(file: str, value: Json) -> bytes:
    if isinstance(value, (str, bytes)):
        return _bytes_of(value)
    try:
        return json.dumps(value).encode()
    except RecursionError:
        message = 'a value that nests deeper than 127 levels'
        raise TextRefused(TextFault(file, message), []) from None
