"""What is said of a document that is refused."""
from __future__ import annotations

import json
import re
from typing import Any

SHOWN = 60
TOO_DEEP = 'nested deeper than 127 levels'

_BYTE_ORDER_MARK = b'\xef\xbb\xbf'
_DEEPEST = 127
_BRACKET_OR_TEXT = re.compile(r'"(?:[^"\\]|\\.)*(?:"|$)|[\[{]|[\]}]', re.DOTALL)


def message(document: bytes, pointer: str, found: str, wanted: str) -> str:
    """A line that tells where a document is wrong, and how, for a person who has to put it
    right."""
    if found.startswith('no JSON'):
        return _no_json(document, found)
    if found.startswith('no UTF-8'):
        return found
    place = pointer or 'the document'
    if found.startswith('missing key '):
        return in_one_line(f'{place}: {found}')
    if found in ('a text', 'a number'):
        found = f'{found}, {shown(_pointed_to(document, pointer))}'
    return in_one_line(f'{place}: {found}; wanted is {wanted}')


def in_one_line(text: str) -> str:
    """The text with no line feeds and other control characters, which keys may have."""
    return re.sub('[\\x00-\\x1f\\x7f-\\x9f]', lambda match: f'\\x{ord(match[0]):02x}', text)


def shown(value: Any) -> str:
    """A value as JSON, cut where it is long."""
    try:
        text = json.dumps(value, ensure_ascii=False)
    except RecursionError:
        return '..'
    return text if len(text) <= SHOWN else f'{text[:SHOWN]} ..'


def _no_json(document: bytes, found: str) -> str:
    """Why the library reads no JSON where people may see some."""
    if document.startswith(_BYTE_ORDER_MARK):
        return 'begins with a byte order mark'
    if _nests_too_deep(document.decode('utf-8', 'replace')):
        return found.replace('no JSON', TOO_DEEP, 1)
    return found


def _nests_too_deep(text: str) -> bool:
    """Whether more lists and objects are open at once than the library reads, before anything else
    is wrong."""
    depth = 0
    for match in _BRACKET_OR_TEXT.finditer(text):
        depth += (match.group() in '[{') - (match.group() in ']}')
        if depth > _DEEPEST:
            return _is_json_up_to(text, match.start())
    return False


def _is_json_up_to(text: str, end: int) -> bool:
    try:
        json.loads(text)
    except RecursionError:
        return True
    except ValueError as error:
        return isinstance(error, json.JSONDecodeError) and error.pos >= end
    return True


def _pointed_to(document: bytes, pointer: str) -> Any:
    """The part of a document that a JSON Pointer leads to."""
    value = json.loads(document)
    for step in pointer.split('/')[1:]:
        key = step.replace('~1', '/').replace('~0', '~')
        value = value[int(key)] if isinstance(value, list) else value[key]
    return value
