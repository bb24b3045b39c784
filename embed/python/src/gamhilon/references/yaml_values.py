"""YAML as plain values, by PyYAML: all scalars are texts, as they are written."""
from __future__ import annotations

from importlib import import_module
from typing import Any, Dict, List, Tuple

from .errors import ReaderMissing, ReferencesError

_MOST_VALUES = 1_000_000
_DEEPEST = 50


def load_values(text: str) -> Tuple[Any, List[str]]:
    """The value of a YAML document: dicts, lists and texts; and the keys that stand twice in a
    dict, each with its line. Raises ReferencesError where it is no YAML, and ReaderMissing where
    there is no PyYAML."""
    try:
        # (what mypy knows of PyYAML depends on what is installed beside it)
        yaml: Any = import_module('yaml')
    except ImportError as error:
        raise ReaderMissing(f'{error}: YAML is read by PyYAML: install python3-yaml (Debian), '
                            'or pyyaml by pip') from error
    try:
        node = yaml.compose(text, getattr(yaml, 'CSafeLoader', yaml.SafeLoader))
    except yaml.MarkedYAMLError as error:
        mark = error.problem_mark
        place = f'line {mark.line + 1}, column {mark.column + 1}: ' if mark else ''
        raise ReferencesError(f'{place}{error.problem or error}') from error
    except (yaml.YAMLError, RecursionError, UnicodeError) as error:
        raise ReferencesError(str(error)) from error
    reader = _Reader()
    return (None if node is None else reader.value(node, 0)), reader.doubled


class _Reader:
    """Makes values of nodes. Since aliases may stand for much, and for what they stand in, values
    are counted, and so is how deep they are."""

    def __init__(self) -> None:
        self.count = 0
        self.doubled: List[str] = []

    def value(self, node: Any, depth: int) -> Any:
        """The value of a node."""
        self.count += 1
        if self.count > _MOST_VALUES:
            raise ReferencesError(f'more than {_MOST_VALUES} values')
        if depth > _DEEPEST:
            line = node.start_mark.line + 1
            raise ReferencesError(f'line {line}: values that nest deeper than {_DEEPEST}')
        if node.id == 'sequence':
            return [self.value(member, depth + 1) for member in node.value]
        return self.mapping(node, depth) if node.id == 'mapping' else node.value

    def mapping(self, node: Any, depth: int) -> Dict[str, Any]:
        """The value of a node that has keys, of which the first of a name counts."""
        found: Dict[str, Any] = {}
        for key, value in node.value:
            name = key.value if key.id == 'scalar' else ''
            if name in found:
                self.doubled.append(f'line {key.start_mark.line + 1}: a second {name}, left out')
            else:
                found[name] = self.value(value, depth + 1)
        return found
