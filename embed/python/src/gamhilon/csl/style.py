"""Styles: where they are, on which others they depend, and what has to be known of one before
anything is written in it."""
from __future__ import annotations

import os
from dataclasses import dataclass
from functools import lru_cache
from typing import FrozenSet, List, Optional
from xml.etree import ElementTree

from .. import styles
from .._nearest import meant
from .errors import StyleMissing
from .files import is_text, text_of
from .handed_in import StyleLike, style_of

__all__ = [
    'FOLDER', 'About', 'Style', 'find', 'is_locale', 'language_of', 'load', 'name_of', 'names',
    'variables_of',
]

FOLDER = '/usr/share/citation-style-language/styles'
"""Where Debian's package citation-style-language-styles has styles."""

THE_TEXT = 'the style'
"""How messages name a style whose text was handed in."""

_CSL = '{http://purl.org/net/xbiblio/csl}'
_XML = '{http://www.w3.org/XML/1998/namespace}'
_WRITE_VARIABLES = ('text', 'number', 'date', 'names', 'label')
_SUFFIX = '.csl'


@dataclass(frozen=True)
class About:
    """What a style is: its title, whether it is one of notes, and whether it has a
    bibliography."""

    title: str
    is_note: bool
    has_bibliography: bool


@dataclass(frozen=True)
class Style:
    """A style that stands for itself: its text, where that was found, the language that it or the
    style which depends on it asks for, and what it is; None where its text is no XML."""

    file: str
    text: str
    language: Optional[str]
    about: Optional[About]


def names() -> List[str]:
    """The names of the styles that are there: those of this package, and Debian's."""
    folders = [FOLDER, os.path.join(FOLDER, 'dependent')]
    files = [name for folder in folders if os.path.isdir(folder) for name in os.listdir(folder)]
    published = {name[:-len(_SUFFIX)] for name in files if name.endswith(_SUFFIX)}
    return sorted(published.union(styles.names()))


def find(style: StyleLike) -> str:
    """The path of a style: a path itself, or the name of one of this package or of Debian's. Raises
    StyleMissing."""
    style = style_of(style)
    if style in styles.names():
        return styles.path(style)
    is_path = style.endswith(_SUFFIX) or os.sep in style
    places = [style] if is_path else [f'{FOLDER}/{style}.csl', f'{FOLDER}/dependent/{style}.csl']
    for place in places:
        if os.path.isfile(place):
            return place
    near = '' if is_path else meant(style, names())
    raise StyleMissing(f'there is no style {style!r}: looked for {", ".join(places)}{near}')


def load(style: str, file: str = THE_TEXT) -> Style:
    """A style by its name, its path or its text, which messages then name `file`; where it depends
    on another, that one. Raises StyleMissing where there is none, or its parent isn't there."""
    if is_text(style):
        return _independent(file, style)
    path = find(style)
    return _independent(path, _read(path))


def is_locale(text: str) -> bool:
    """Whether a text of XML is a locale file, by its root."""
    root = _root_of(text)
    return root is not None and root.tag == f'{_CSL}locale'


def language_of(text: str) -> str:
    """The language of the text of a locale file; empty where it tells none."""
    root = _root_of(text)
    return '' if root is None else root.get(f'{_XML}lang', '')


def name_of(text: str) -> str:
    """The title and the id of the text of a style."""
    root = _root_of(text)
    title, key = ('' if root is None else (root.findtext(f'{_CSL}info/{_CSL}{name}') or '').strip()
                  for name in ('title', 'id'))
    return f'{title} ({key})'


def variables_of(style: StyleLike) -> FrozenSet[str]:
    """The variables of CSL that a style writes, by its name, its path or its text: those of its
    texts, numbers, dates, names and labels. Raises StyleMissing, as `load` does.

        >>> sorted(variables_of('notes') & {'title', 'page', 'PMID'})
        ['page', 'title']
    """
    root = _root_of(load(style_of(style)).text)
    if root is None:
        return frozenset()
    told = [element.get('variable', '') for name in _WRITE_VARIABLES
            for element in root.iter(f'{_CSL}{name}')]
    return frozenset(variable for variables in told for variable in variables.split())


def _read(path: str) -> str:
    try:
        return text_of(path)
    except OSError as error:
        raise StyleMissing(f'{path}: {error.strerror or error}') from error


def _independent(file: str, text: str) -> Style:
    """The style that stands for itself on which another one depends, in one step or in several."""
    language: Optional[str] = None
    seen: List[str] = []
    while True:
        root = _root_of(text)
        if root is None:
            return Style(file, text, language, None)
        language = language or root.get('default-locale')
        parent = _parent_of(root)
        if parent is None:
            return Style(file, text, language, _about(root))
        seen.append(file)
        child, file = file, _beside(file, parent)
        if file in seen:
            raise StyleMissing(f'{child}: the style depends on itself, by {file}')
        text = _read(file)


@lru_cache(maxsize=8)
def _root_of(text: str) -> Optional[ElementTree.Element]:
    """The root of an XML text; None where it is no XML, of which the library tells the place."""
    try:
        return ElementTree.fromstring(text.encode('utf-8', 'surrogateescape'))
    except (ElementTree.ParseError, ValueError):
        return None


def _parent_of(root: ElementTree.Element) -> Optional[str]:
    """The name of the style on which one depends that has no layout of its own."""
    if root.find(f'{_CSL}citation') is not None:
        return None
    links = [link.get('href', '') for link in root.iter(f'{_CSL}link')
             if link.get('rel') == 'independent-parent']
    return links[0].rstrip('/').rsplit('/', 1)[-1] if links else None


def _beside(child: str, parent: str) -> str:
    """The path of a parent: beside the style that depends on it, or by its name."""
    if os.path.isfile(child):
        folder = os.path.dirname(child)
        for place in (folder, os.path.dirname(folder)):
            path = os.path.join(place, parent + _SUFFIX)
            if os.path.isfile(path):
                return path
    try:
        return find(parent)
    except StyleMissing as missing:
        raise StyleMissing(f'{child}: the style that it depends on is missing: {missing}') \
            from missing


def _about(root: ElementTree.Element) -> About:
    title = root.findtext(f'{_CSL}info/{_CSL}title') or ''
    return About(title.strip(), root.get('class') == 'note',
                 root.find(f'{_CSL}bibliography') is not None)
