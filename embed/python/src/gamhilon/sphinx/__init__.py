"""Citations and reference lists in Sphinx, in any style of CSL.

    extensions = ['gamhilon.sphinx']            # conf.py
    bibtex_bibfiles = ['references.bib']
    gamhilon_style = 'author-date'

It has the roles, the directive and the options of sphinxcontrib-bibtex, in whose place it stands.
docs/GUIDES/SPHINX.md tells how to use it.
"""
from __future__ import annotations

import os
from typing import Any, Dict

from sphinx.application import Sphinx
from sphinx.errors import ExtensionError

from .. import __version__, _library
from ..errors import LibraryMissing
from ._directive import BibliographyDirective
from ._domain import CiteDomain
from ._foot import FootBibliographyDirective, FootCiteDomain, FootCiteRole
from ._nodes import citation_group, reference_list
from ._notes import NotesTransform
from ._replacing import ReplacingTransform
from ._roles import CiteRole

__all__ = ['setup']

_STYLE_SHEETS = os.path.dirname(os.path.dirname(os.path.abspath(__file__)))
_ENVIRONMENT = 1
"""Is raised where what the environment keeps changes its form."""


def setup(app: Sphinx) -> Dict[str, Any]:
    """Sets the extension up. Raises ExtensionError where sphinxcontrib-bibtex is one, too."""
    if 'sphinxcontrib.bibtex' in app.extensions:
        raise ExtensionError('gamhilon.sphinx stands in the place of sphinxcontrib.bibtex: '
                             'take one of the two out of the extensions')
    for name, default in (('bibtex_bibfiles', []), ('bibtex_default_style', 'alpha'),
                          ('bibtex_reference_style', 'label'), ('bibtex_encoding', 'utf-8-sig'),
                          ('bibtex_bibliography_header', ''),
                          ('bibtex_footbibliography_header', ''), ('bibtex_tooltips', True),
                          ('bibtex_cite_id', ''), ('bibtex_bibliography_id', ''),
                          ('gamhilon_style', ''), ('gamhilon_locale', ''),
                          ('gamhilon_locales', '')):
        app.add_config_value(name, default, 'env')
    app.add_domain(CiteDomain)
    app.add_domain(FootCiteDomain)
    app.add_role('cite', CiteRole())
    app.add_role('footcite', FootCiteRole())
    app.add_directive('bibliography', BibliographyDirective)
    app.add_directive('footbibliography', FootBibliographyDirective)
    app.add_node(citation_group)
    app.add_node(reference_list)
    app.add_transform(NotesTransform)
    app.add_post_transform(ReplacingTransform)
    app.connect('builder-inited', _begin)
    app.connect('env-before-read-docs',
                lambda app, env, docnames: _domain(env).read_files(docnames))
    # (before Sphinx copies the titles of pages, at the priority 500)
    app.connect('doctree-read', lambda app, doctree: _domain(app.env).take(doctree), priority=400)
    app.connect('env-updated', lambda app, env: _domain(env).render())
    app.add_css_file('gamhilon.css')
    app.add_css_file('gamhilon_sphinx.css')
    return {'version': __version__, 'env_version': _ENVIRONMENT, 'parallel_read_safe': True,
            'parallel_write_safe': True}


def _domain(env: Any) -> CiteDomain:
    domain = env.get_domain(CiteDomain.name)
    assert isinstance(domain, CiteDomain)
    return domain


def _begin(app: Sphinx) -> None:
    """Looks for the library and the style before anything is read. Raises ExtensionError where
    there is no library, and ConfigError where there is no style."""
    try:
        _library.library()
    except LibraryMissing as error:
        raise ExtensionError(f'gamhilon.sphinx: {error}') from error
    _domain(app.env).style()
    for name in ('gamhilon.css', 'gamhilon_sphinx.css'):
        app.config.html_static_path.append(os.path.join(_STYLE_SHEETS, name))
