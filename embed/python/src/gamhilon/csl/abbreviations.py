"""Files of abbreviations: short forms of texts, as of the titles of journals."""
from __future__ import annotations

import json
import os
from typing import Any, Mapping, NamedTuple, Optional, Union

from .errors import AbbreviationsRefused

__all__ = ['Abbreviations', 'AbbreviationsLike', 'abbreviations_of']

AbbreviationsLike = Union[str, 'os.PathLike[str]', Mapping[str, Any]]
"""Abbreviations: the path of a file in the form of pandoc and Zotero, or what its JSON has."""

THE_VALUE = 'the abbreviations'
"""How messages name abbreviations that were handed in."""


class Abbreviations(NamedTuple):
    """What a file of abbreviations has, and how messages name it."""

    file: str
    value: Any


def abbreviations_of(told: Optional[AbbreviationsLike]) -> Optional[Abbreviations]:
    """Abbreviations as they were handed in. Raises AbbreviationsRefused where a file is no JSON,
    and OSError where it can't be read."""
    if told is None:
        return None
    if isinstance(told, Mapping):
        return Abbreviations(THE_VALUE, dict(told))
    path = os.fspath(told)
    with open(path, 'rb') as file:
        return Abbreviations(path, _value_of(path, file.read()))


def _value_of(path: str, data: bytes) -> Any:
    """What the bytes of a file of JSON have."""
    try:
        return json.loads(data.decode('utf-8-sig'))
    except UnicodeDecodeError as error:
        fault = f'no UTF-8 from byte {error.start}'
        raise AbbreviationsRefused(path, None, None, fault) from error
    except json.JSONDecodeError as error:
        fault = f'no JSON: {error.msg}'
        raise AbbreviationsRefused(path, error.lineno, error.colno, fault) from error
    except RecursionError as error:
        fault = 'a value that nests deeper than 127 levels'
        raise AbbreviationsRefused(path, None, None, fault) from error
