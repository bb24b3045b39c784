"""A plugin of MkDocs that writes the citations of a site, in one numbering.

    plugins:
      - search
      - gamhilon:
          bibliography: library.bib
          style: apa
          list_page: references.md

Citations stand in pages as pandoc has them, `[see @doe99, p. 3]`. All pages of the navigation are
read in its order, and are written by one call of the library. The page `list_page` has the list of
the whole site; without it each page has a list of what is cited on it.
"""
from __future__ import annotations

import gc
import importlib
import logging
import os
from typing import Any, Dict, List, NamedTuple, Optional, Tuple

from . import csl
from .csl.locales import files_for
from .csl.style import load
from .errors import GamhilonError
from .html_writer import style_sheet
from .markdown_pages import CitedPage, Site
from .python_markdown import MARK, items_in, listed, stamp

__all__ = ['CitationPlugin']

STYLE_SHEET = 'css/gamhilon.css'

Seen = Dict[str, Tuple[int, int]]
"""Files, each with its time and its size."""

logger = logging.getLogger('mkdocs.plugins.gamhilon')

BasePlugin: Any = importlib.import_module('mkdocs.plugins').BasePlugin
config_options: Any = importlib.import_module('mkdocs.config.config_options')
PluginError: Any = importlib.import_module('mkdocs.exceptions').PluginError
get_relative_url: Any = importlib.import_module('mkdocs.utils').get_relative_url


class _Shown(NamedTuple):
    """A page as it is given to MkDocs, and what it was made of: the page with its citations, and
    what MkDocs had of it."""

    cited: CitedPage
    before: str
    text: str


class _Kept(NamedTuple):
    """A site as it was written, what it was made of, its files of pages, its pages as they were
    given to MkDocs, and what is odd in its references."""

    made_of: Any
    site: Site
    seen: Seen
    shown: Dict[str, _Shown]
    odd: List[str]


_kept: Dict[str, _Kept] = {}
# (by the path of mkdocs.yml: under `mkdocs serve` a page that is edited is written alone)


class CitationPlugin(BasePlugin):  # type: ignore[misc]
    """The plugin `gamhilon`, with its options."""

    config_scheme = (
        ('bibliography', config_options.Type((str, list), default=[])),
        ('style', config_options.Type(str, default='author-date')),
        ('locale', config_options.Type(str, default='')),
        ('locales', config_options.Type(str, default='')),
        ('links', config_options.Type(bool, default=True)),
        ('nocite', config_options.Type((str, list), default=[])),
        ('mark', config_options.Type(str, default=MARK)),
        ('title', config_options.Type(str, default='')),
        ('list_page', config_options.Type(str, default='')),
        ('style_sheet', config_options.Type(bool, default=True)),
    )

    def __init__(self) -> None:
        self.folder = ''
        self.site: Optional[Site] = None
        self.shown: Dict[str, _Shown] = {}
        self.odd: List[str] = []

    def on_config(self, config: Any) -> Any:
        """Finds the files beside `mkdocs.yml`, and adds what pages need."""
        self.folder = os.path.dirname(config['config_file_path'] or '') or '.'
        try:
            is_note = csl.about(self._style()).is_note
        except GamhilonError as error:
            raise PluginError(f'gamhilon: {error}') from error
        if is_note and 'footnotes' not in config['markdown_extensions']:
            config['markdown_extensions'].append('footnotes')
        if self.config['style_sheet'] and STYLE_SHEET not in config['extra_css']:
            config['extra_css'].append(STYLE_SHEET)
        return config

    def on_nav(self, nav: Any, config: Any, files: Any) -> Any:
        """Writes the citations of all pages, by one call of the library."""
        pages = {page.file.src_uri: page.file for page in nav.pages}
        for file in files.documentation_pages():
            pages.setdefault(file.src_uri, file)
        list_page = self.config['list_page'] or None
        if list_page is not None and list_page not in pages:
            raise PluginError(f'gamhilon: list_page: there is no page {list_page}')
        collects = gc.isenabled()
        try:
            # (a site has many trees, and all stay: a search for what doesn't takes a third of the
            # time)
            gc.disable()
            self.site = self._written(str(config['config_file_path']), pages, list_page)
        except (GamhilonError, OSError, UnicodeDecodeError) as error:
            raise PluginError(f'gamhilon: {error}') from error
        finally:
            if collects:
                gc.enable()
        for warning in [*self.odd, *self.site.warnings]:
            logger.warning('%s', warning)
        return nav

    def on_page_markdown(self, markdown: str, page: Any, config: Any, files: Any) -> str:
        """A page with its citations written."""
        name = page.file.src_uri
        if self.site is None or name not in self.site.pages:
            return markdown
        cited = self.site.page(name)
        for warning in cited.warnings:
            logger.warning('%s', warning)
        shown = self.shown.get(name)
        if shown is None or shown.cited is not cited or shown.before != markdown:
            text = self._shown(name, markdown, cited)
            self.shown[name] = shown = _Shown(cited, markdown, text)
        return shown.text

    def _shown(self, name: str, markdown: str, cited: CitedPage) -> str:
        """A page, without its front matter, with its citations."""
        before = self.site.pages[name].text if self.site else ''
        if not before.rstrip().endswith(markdown.replace('\r\n', '\n').rstrip()):
            raise PluginError(f'gamhilon: {name}: another plugin has changed the page before: '
                              'gamhilon has to be the first of the plugins')
        kept = len(before) - len(before.rstrip()) + len(markdown.replace('\r\n', '\n').rstrip())
        return _without_front(cited.text.replace('\r\n', '\n'), before[:len(before) - kept])

    def on_post_build(self, config: Any) -> None:
        """Puts the style sheet of reference lists into the site."""
        if self.config['style_sheet']:
            path = os.path.join(config['site_dir'], STYLE_SHEET)
            os.makedirs(os.path.dirname(path), exist_ok=True)
            with open(path, 'w', encoding='utf-8') as file:
                file.write(style_sheet())

    def _written(self, name: str, pages: Dict[str, Any], list_page: Optional[str]) -> Site:
        """The site of this configuration: as it was written before but for pages that are edited,
        where nothing else has changed."""
        made_of = self._made_of(pages)
        seen = {page: stamp(file.abs_src_path) for page, file in pages.items()}
        kept = _kept.pop(name, None)
        if kept is not None and kept.made_of == made_of:
            kept.site.revise({page: _text_of(file) for page, file in pages.items()
                              if kept.seen[page] != seen[page]})
            _kept[name] = kept._replace(seen=seen)
            self.shown, self.odd = kept.shown, kept.odd
            return kept.site
        site = self._site(pages, list_page)
        for page, file in pages.items():
            site.add(page, _text_of(file))
        site.write(listed(self.config['nocite']))
        self.shown = {}
        _kept[name] = _Kept(made_of, site, seen, self.shown, self.odd)
        return site

    def _made_of(self, pages: Dict[str, Any]) -> Any:
        """What a site is made of beside the texts of its pages, to be compared."""
        style = load(self._style())
        locales = self.config['locales'] or None
        return (style, files_for(self.config['locale'] or style.language or 'en-US', locales),
                dict(self.config), [(page, file.url) for page, file in pages.items()],
                [(path, stamp(path)) for path in self._paths()])

    def _site(self, pages: Dict[str, Any], list_page: Optional[str]) -> Site:
        urls = {name: file.url for name, file in pages.items()}

        def address(page: str) -> str:
            return str(get_relative_url(urls[list_page or page], urls[page]))

        self.odd = []
        items = items_in(self._paths(), self.odd.append)
        return Site(self._style(), items, locale=self.config['locale'] or None,
                    locales=self.config['locales'] or None, links=self.config['links'], html=True,
                    mark=self.config['mark'], title=self.config['title'] or None,
                    list_page=list_page, address=address)

    def _paths(self) -> List[str]:
        """The files of references."""
        return [os.path.join(self.folder, path) for path in listed(self.config['bibliography'])]

    def _style(self) -> str:
        """The style: the path of its file beside `mkdocs.yml`, or its name."""
        style = str(self.config['style'])
        path = os.path.join(self.folder, style)
        return path if os.path.isfile(path) else style


def _text_of(file: Any) -> str:
    with open(file.abs_src_path, encoding='utf-8-sig', errors='strict') as source:
        return source.read()


def _without_front(text: str, front: str) -> str:
    """A page without its front matter, which stays as it is."""
    return text[len(front):] if text.startswith(front) else text
