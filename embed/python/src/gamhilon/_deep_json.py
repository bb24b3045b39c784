"""JSON that nests deeper than `json.loads` reads."""
from __future__ import annotations

import json
import re
from typing import Any, List, Optional, Tuple

_TOKEN = re.compile(r'[ \t\r\n]*([{}\[\],:]|"(?:[^"\\]|\\.)*"|[^\s{}\[\],:"]+)', re.DOTALL)


def loads(text: str) -> Any:
    """The value of a JSON text, however deep. The text has to be JSON where it is deep."""
    try:
        return json.loads(text)
    except RecursionError:
        return _walked(text)


def _walked(text: str) -> Any:
    """The value of a JSON text, read with a list of the objects and lists that are open in place of
    a stack."""
    top: List[Any] = []
    open_parts: List[Tuple[Any, Optional[str]]] = []
    part, key = top, None
    for match in _TOKEN.finditer(text):
        token = match.group(1)
        if token in ',:':
            continue
        if token in '}]':
            part, key = open_parts.pop()
            continue
        value: Any = {} if token == '{' else [] if token == '[' else json.loads(token)
        if isinstance(part, dict) and key is None:
            key = value
            continue
        if isinstance(part, dict):
            part[key] = value
            key = None
        else:
            part.append(value)
        if token in '{[':
            open_parts.append((part, key))
            part, key = value, None
    return top[0]
