"""Published styles: citations and bibliographies in style files of CSL 1.0.2.

    from gamhilon import csl

    rendered = csl.render('author-date', 'library.bib', [[{'id': 'doe99', 'locator': '4'}],
                                                         [{'id': 'roe'}, {'id': 'doe99'}]])
    print(*rendered.citations, rendered.bibliography, sep='\\n')
    page = rendered.to_html(links=True)
    for warning in rendered.warnings:
        print(warning)

References are CSL-JSON, what `gamhilon.references.load` gives, or the path of a file. A style is
one of the four of this package (`gamhilon.styles`), one of Debian's citation-style-language-styles
by its name, a file, or the text of one. docs/STYLES.md tells what comes of it.
"""
from __future__ import annotations

from typing import List

from .abbreviations import AbbreviationsLike
from .cites import LABELS, Citation, CitationLike, Cite, CiteLike
from .errors import (AbbreviationsRefused, CitationRefused, EntriesRefused, StyleMissing,
                     StyleRefused)
from .handed_in import ReferencesLike, StyleLike, items_of, style_of
from .locales import Locales
from .rendering import (about, check_entries, check_file, check_locale, check_references,
                        check_style, render)
from .results import Rendered, RenderedBibliography, RenderedCitation
from .session import Changes, KeyChanges, Session
from .style import About, find, is_locale, names, variables_of
from .warned import Warned

__all__ = [
    'AbbreviationsLike', 'AbbreviationsRefused', 'About', 'Changes', 'Citation', 'CitationLike',
    'CitationRefused', 'Cite', 'CiteLike', 'EntriesRefused', 'KeyChanges', 'LABELS', 'Locales',
    'ReferencesLike', 'Rendered', 'RenderedBibliography', 'RenderedCitation', 'Session',
    'StyleLike', 'StyleMissing', 'StyleRefused', 'Warned', 'about', 'check_entries', 'check_file',
    'check_locale', 'check_references', 'check_style', 'find', 'is_locale', 'items_of', 'names',
    'render', 'style_of', 'variables_of',
]


def __dir__() -> List[str]:
    return sorted(__all__)
