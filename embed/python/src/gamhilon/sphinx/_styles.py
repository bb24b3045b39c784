"""Styles, as conf.py and directives name them."""
from __future__ import annotations

import os
import re
from dataclasses import dataclass, replace
from typing import Any, Callable, Dict, Optional
from xml.sax.saxutils import quoteattr

from .. import csl, styles
from .._style_parts import is_author_date
from ..csl.style import load

__all__ = ['Chosen', 'chosen', 'default_of', 'with_label_prefix']

_SORT = '<sort><key macro="author"/><key variable="issued"/><key variable="title"/></sort>'
_BIBLIOGRAPHY = re.compile(r'<bibliography\b[^>]*>')
_LIST_SORT = re.compile(r'(<bibliography\b[^>]*>\s*)<sort>.*?</sort>', re.DOTALL)
_BRACKETS = re.compile(r'(<citation\b.*?<layout )prefix="\[" suffix="\]"', re.DOTALL)
_LABEL = re.compile(r'<(?:text|number)\b[^>]*\bvariable="citation-(?:number|label)"[^>]*>')
_PREFIX = re.compile(r'(\bprefix=)("[^"]*"|\'[^\']*\')')


@dataclass(frozen=True)
class Chosen:
    """A style: its name in messages, what `csl.render` takes as one, the path of its file where it
    has one, whether it is one of notes, and whether its cites have authors and dates."""

    name: str
    style: str
    file: Optional[str]
    is_note: bool
    is_author_date: bool


def _sorted_numbers(text: str) -> str:
    return _BIBLIOGRAPHY.sub(lambda match: match.group() + _SORT, text, 1)


def _raised_numbers(text: str) -> str:
    return _BRACKETS.sub(r'\1vertical-align="sup"', text, 1)


def _unsorted_labels(text: str) -> str:
    return _LIST_SORT.sub(r'\1', text, 1)


_OF_BIBTEX: Dict[str, Callable[[], str]] = {
    'alpha': lambda: styles.path('labels'),
    'unsrtalpha': lambda: _unsorted_labels(styles.text('labels')),
    'plain': lambda: _sorted_numbers(styles.text('numeric')),
    'unsrt': lambda: styles.path('numeric'),
}
_OF_REFERENCES: Dict[str, Callable[[], str]] = {
    'author_year': lambda: styles.path('author-date'),
    'super': lambda: _raised_numbers(styles.text('numeric')),
}


def default_of(config: Any, folder: str) -> Chosen:
    """The style that conf.py chooses: `gamhilon_style`, or one near to those of
    sphinxcontrib-bibtex. Raises StyleMissing and StyleRefused."""
    if config.gamhilon_style:
        return chosen(config.gamhilon_style, folder)
    if config.bibtex_reference_style in _OF_REFERENCES:
        name = config.bibtex_reference_style
        return _chosen(name, _OF_REFERENCES[name]())
    return chosen(config.bibtex_default_style, folder)


def chosen(name: str, folder: str) -> Chosen:
    """A style by its name, or by the path of its file from the folder of conf.py. Raises
    StyleMissing and StyleRefused."""
    if name in _OF_BIBTEX:
        return _chosen(name, _OF_BIBTEX[name]())
    places = [os.path.join(folder, name), os.path.join(folder, f'{name}.csl')]
    return _chosen(name, next((place for place in places if os.path.isfile(place)), name))


def with_label_prefix(style: Chosen, prefix: str) -> Chosen:
    """The style with a prefix at each number and each label of a work."""
    def prefixed(match: 're.Match[str]') -> str:
        element = match.group()
        if _PREFIX.search(element):
            return _PREFIX.sub(lambda told: told.group()[:-1] + quoteattr(prefix)[1:], element, 1)
        return element.replace(' ', f' prefix={quoteattr(prefix)} ', 1)

    return replace(style, style=_LABEL.sub(prefixed, load(style.style).text))


def _chosen(name: str, style: str) -> Chosen:
    about = csl.about(style)
    found = load(style)
    file = found.file if os.path.isfile(found.file) else None
    return Chosen(name, style, file, about.is_note, is_author_date(style))
