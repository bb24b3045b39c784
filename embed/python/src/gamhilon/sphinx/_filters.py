"""The expressions of `:filter:`, which say what a reference list has."""
from __future__ import annotations

import ast
import operator
import re
from typing import Any, Callable, Dict, Type

from ..errors import GamhilonError

__all__ = ['ALL', 'CITED', 'NOT_CITED', 'Filter', 'FilterFault']

ALL, CITED, NOT_CITED = 'True', 'cited', 'not cited'
"""The expressions that `:all:`, `:cited:` and `:notcited:` stand for."""

_COMPARISONS: Dict[Type[ast.cmpop], Callable[[Any, Any], bool]] = {
    ast.Eq: operator.eq, ast.NotEq: operator.ne, ast.Lt: operator.lt, ast.LtE: operator.le,
    ast.Gt: operator.gt, ast.GtE: operator.ge,
    ast.In: lambda value, among: value in among, ast.NotIn: lambda value, among: value not in among,
}
_SETS: Dict[Type[ast.operator], Callable[[Any, Any], Any]] = {
    ast.BitAnd: operator.and_, ast.BitOr: operator.or_,
}


class FilterFault(GamhilonError, ValueError):
    """An expression isn't one of a filter."""


class Filter:
    """An expression over the names `key`, `type`, `cited`, `docname`, `docnames`, `author`,
    `editor` and those of fields: `and`, `or`, `not`, comparisons, `in`, sets with `&` and `|`, and
    `text % 'regular expression'`. Raises FilterFault where it is none."""

    def __init__(self, expression: str) -> None:
        try:
            self._tree = ast.parse(expression.strip(), mode='eval').body
        except (SyntaxError, ValueError) as error:
            raise FilterFault(f'{expression!r} is no expression: {error}') from error

    def holds(self, value_of: Callable[[str], Any]) -> bool:
        """Whether the expression holds, by the values of its names. Raises FilterFault where it has
        what filters don't."""
        try:
            return bool(self._value(self._tree, value_of))
        except (TypeError, re.error) as error:
            raise FilterFault(str(error)) from error

    def _value(self, node: ast.expr, value_of: Callable[[str], Any]) -> Any:
        def value(part: ast.expr) -> Any:
            return self._value(part, value_of)

        if isinstance(node, ast.Constant):
            return node.value
        if isinstance(node, ast.Name):
            return value_of(node.id)
        if isinstance(node, ast.Set):
            return frozenset(value(part) for part in node.elts)
        if isinstance(node, ast.UnaryOp) and isinstance(node.op, ast.Not):
            return not value(node.operand)
        if isinstance(node, ast.BoolOp):
            how = all if isinstance(node.op, ast.And) else any
            return how(value(part) for part in node.values)
        if isinstance(node, ast.Compare) and len(node.ops) == 1:
            compare = _COMPARISONS.get(type(node.ops[0]))
            if compare is not None:
                return compare(value(node.left), value(node.comparators[0]))
        if isinstance(node, ast.BinOp) and isinstance(node.op, ast.Mod):
            return re.search(value(node.right), value(node.left), re.IGNORECASE) is not None
        if isinstance(node, ast.BinOp) and type(node.op) in _SETS:
            return _SETS[type(node.op)](value(node.left), value(node.right))
        raise FilterFault(f'filters have no {type(node).__name__}')
