"""What the front matter of a page of Markdown says of its citations, as pandoc has it."""
from __future__ import annotations

import os
import re
from typing import Any, Dict, List, Optional

from ._markdown_blocks import front_matter_in
from .citation_text import find_citations
from .errors import GamhilonError
from .references.yaml_values import load_values

__all__ = ['FrontMatter', 'FrontMatterRefused', 'front_matter_of']

_STYLES = ('csl', 'citation-style', 'style')
_FIELDS = ('bibliography', *_STYLES, 'lang', 'nocite', 'link-citations')
_HAS_FIELD = re.compile(rf'^["\']?(?:{"|".join(_FIELDS)})["\']?[ \t]*:', re.MULTILINE)


class FrontMatterRefused(GamhilonError, ValueError):
    """A field of the front matter of a page isn't of its form, or names a file that isn't there."""


def front_matter_of(text: str, path: str) -> FrontMatter:
    """The settings in the YAML at the beginning of the page at a path, or `-`. Raises
    ReferencesError where it is no YAML, and ReaderMissing where there is no PyYAML; both only where
    the page has one of the fields."""
    yaml = front_matter_in(text)
    said = load_values(yaml)[0] if _HAS_FIELD.search(yaml) else None
    return FrontMatter(said if isinstance(said, dict) else {},
                       '' if path == '-' else os.path.dirname(path))


class FrontMatter:
    """The settings of a page: empty or None where it says nothing. Files are looked for beside the
    page, in its `folder`, and then in the working folder. Each method raises FrontMatterRefused."""

    def __init__(self, fields: Dict[str, Any], folder: str) -> None:
        self._fields, self._folder = fields, folder

    def bibliography(self) -> List[str]:
        """The paths of its files of references."""
        names = self._texts('bibliography')
        paths = [self._found(name) for name in names]
        if None in paths:
            looked = ', '.join(dict.fromkeys([self._folder or '.', '.']))
            raise FrontMatterRefused('bibliography: there is no file '
                                     f'{names[paths.index(None)]}: looked in {looked}')
        return [path for path in paths if path is not None]

    def style(self) -> Optional[str]:
        """Its style: a name, or the path of a file."""
        field = next((name for name in _STYLES if self._fields.get(name)), _STYLES[0])
        name = self._text(field)
        if name is None:
            return None
        if '://' in name:
            raise FrontMatterRefused(f'{field}: {name}: styles are not fetched: name a style of '
                                     'python3 -m gamhilon styles --all, or a file')
        path = self._found(name) or self._found(f'{name}.csl')
        return path if path and path.endswith('.csl') else name

    def locale(self) -> Optional[str]:
        """Its language."""
        return self._text('lang')

    def nocite(self) -> List[str]:
        """The keys that are listed without being cited."""
        return [cite.id for text in self._texts('nocite')
                for citation in find_citations(text) for cite in citation]

    def links(self) -> bool:
        """Whether cites lead to the list, as they do where the page says nothing."""
        said = self._text('link-citations')
        return said is None or said.lower() in ('true', 'yes')

    def _text(self, name: str) -> Optional[str]:
        """The text of a field; None where it is absent or empty."""
        said = self._fields.get(name)
        if isinstance(said, (dict, list)):
            raise FrontMatterRefused(f'{name}: a text is wanted')
        return said.strip() or None if isinstance(said, str) else None

    def _texts(self, name: str) -> List[str]:
        """The texts of a field that is one text or a list of them."""
        said = self._fields.get(name)
        members = said if isinstance(said, list) else [said]
        if any(isinstance(member, (dict, list)) for member in members):
            raise FrontMatterRefused(f'{name}: a text or a list of texts is wanted')
        return [member.strip() for member in members if isinstance(member, str) and member.strip()]

    def _found(self, name: str) -> Optional[str]:
        """The path of a file that the page names."""
        places = [os.path.join(self._folder, name), name]
        return next((place for place in places if os.path.isfile(place)), None)
