"""An extension of Python-Markdown that writes citations, and so of what is built on it.

    import markdown

    html = markdown.markdown(text, extensions=['gamhilon'], extension_configs={
        'gamhilon': {'bibliography': 'library.bib', 'style': 'apa'}})

Citations stand in the text as pandoc has them, `[see @doe99, p. 3]`. The reference list stands in
place of the mark `[REFERENCES]`, below the heading `# References`, or at the end. In a style of
notes citations are footnotes, by the extension `footnotes`. What is odd is a warning of the logger
`gamhilon`.
"""
from __future__ import annotations

import importlib
import logging
import os
from typing import Any, Callable, Dict, List, Tuple

from . import csl, references
from ._references_of_files import items_of_files
from .csl.style import load
from .markdown_pages import PreparedStyle, cite_page

__all__ = ['CitationExtension', 'MARK', 'items_in', 'makeExtension']

MARK = '[REFERENCES]'
"""The line in whose place a reference list stands."""

# (behind what puts white space in order, and before what reads metadata, code and HTML)
_PRIORITY = 29

_MOST_KEPT = 8

logger = logging.getLogger('gamhilon')

Extension: Any = importlib.import_module('markdown.extensions').Extension
Preprocessor: Any = importlib.import_module('markdown.preprocessors').Preprocessor


class CitationExtension(Extension):  # type: ignore[misc]
    """The extension `gamhilon`, with its options."""

    def __init__(self, **settings: Any) -> None:
        self.config: Dict[str, List[Any]] = {
            'bibliography': [[], 'Files of references, or one'],
            'style': ['author-date', 'A style: its name, or the path of its file'],
            'locale': ['', "The language, in place of the style's"],
            'locales': ['', 'The folder of locale files'],
            'links': [True, 'Whether cites lead to the list'],
            'nocite': [[], 'Keys that are listed without being cited; * for all'],
            'mark': [MARK, 'The line in whose place the list stands'],
            'title': ['', 'The heading of the list'],
        }
        super().__init__(**settings)

    def extendMarkdown(self, md: Any) -> None:
        """Has a page's citations written before anything else of it is read. Raises what
        `csl.about` and `references.load` raise."""
        config = self.getConfigs()
        style = _prepared(config)
        if style.is_note:
            md.registerExtensions(['footnotes'], {})
        md.preprocessors.register(_Citations(md, config, style), 'gamhilon', _PRIORITY)


class _Citations(Preprocessor):  # type: ignore[misc]
    """Writes the citations of a page."""

    def __init__(self, md: Any, config: Dict[str, Any], style: PreparedStyle) -> None:
        super().__init__(md)
        self.options, self.style = config, style

    def run(self, lines: List[str]) -> List[str]:
        """The lines of a page with its citations written."""
        page = cite_page('\n'.join(lines), self.style, html=True, links=self.options['links'],
                         nocite=listed(self.options['nocite']), mark=self.options['mark'],
                         title=self.options['title'] or None)
        for warning in page.warnings:
            logger.warning('%s', warning)
        return page.text.split('\n')


_kept: Dict[Any, PreparedStyle] = {}
# (Pelican makes the extension anew for each page)


def _prepared(config: Dict[str, Any]) -> PreparedStyle:
    """The style of a configuration with its references, which are read anew where a file has
    changed."""
    paths, style = listed(config['bibliography']), csl.style_of(config['style'])
    locale, locales = config['locale'] or None, config['locales'] or None
    key = load(style), locale, str(locales), tuple((path, stamp(path)) for path in paths)
    found = _kept.get(key)
    if found is None:
        if len(_kept) >= _MOST_KEPT:
            _kept.clear()
        items = items_in(paths, logger.warning)
        found = _kept[key] = PreparedStyle(style, items, locale, locales)
    return found


def stamp(path: str) -> Tuple[int, int]:
    """The time and the size of a file; zeros where it isn't there."""
    try:
        found = os.stat(path)
    except OSError:
        return 0, 0
    return found.st_mtime_ns, found.st_size


def items_in(paths: Any, warn: Callable[[str], None]) -> List[references.Item]:
    """The references of files. The first of a key counts. Warns of what is odd in them. Raises
    ReferencesError and OSError."""
    return items_of_files(listed(paths), None, lambda name, problem: warn(f'{name}: {problem}'))


def listed(value: Any) -> List[str]:
    """An option that is a text or a path, or a list of them, as a list."""
    alone = isinstance(value, (str, os.PathLike))
    return [str(member) for member in ([value] if alone else value or [])]


def makeExtension(**settings: Any) -> CitationExtension:
    """The extension, as Python-Markdown asks for it."""
    return CitationExtension(**settings)
