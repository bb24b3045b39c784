"""The style in which the filter writes."""
from __future__ import annotations

from typing import Sequence

from . import csl, styles
from ._cited_style import Answered, CitedStyle, PageCitation
from ._pandoc_metadata import FilterError, Metadata, Source

DEFAULT = 'author-date'
"""The style of pages that name none."""

_GONE = 'styles are named by csl:, by a name or the path of a file; those of this package are '


class Style(CitedStyle):
    """A style, by its name or the path of its file, with the references of the page. Raises
    FilterError where there is none: no other is taken in its place."""

    def __init__(self, metadata: Metadata) -> None:
        if 'gamhilon-style' in metadata.fields:
            raise FilterError(f'gamhilon-style: {_GONE}{", ".join(styles.names())}')
        name = metadata.text('csl', 'citation-style') or DEFAULT
        if '://' in name:
            raise FilterError(f'csl: {name}: styles are not fetched: name a file, or a style of '
                              'the package citation-style-language-styles')
        path = metadata.find(name) or metadata.find(f'{name}.csl')
        try:
            super().__init__(path if path and path.endswith('.csl') else name,
                             metadata.text('lang'))
            self.variables = csl.variables_of(self.name)
        except (csl.StyleMissing, csl.StyleRefused) as error:
            raise FilterError(f'csl: {error}') from error

    def take_sources(self, sources: Sequence[Source]) -> None:
        """Takes the references of the page."""
        for source in sources:
            self.take(source.items)

    def answer(self, citations: Sequence[PageCitation], nocite: Sequence[str]) -> Answered:
        try:
            return super().answer(citations, nocite)
        except (csl.StyleMissing, csl.StyleRefused, csl.EntriesRefused) as error:
            raise FilterError(f'csl: {error}') from error
