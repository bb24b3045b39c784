"""Parts of what styles write: a citation without what stands around its cites, and names alone."""
from __future__ import annotations

from xml.etree import ElementTree

from .answer import Node, Tree
from .csl.style import load

_CSL = '{http://purl.org/net/xbiblio/csl}'

_NAMES = """<style xmlns="http://purl.org/net/xbiblio/csl" class="in-text" version="1.0">
<info><title>Parts</title><id>https://example.org/gamhilon/styles/parts</id>
<updated>2026-11-29T00:00:00+00:00</updated></info>
<citation {options}><layout delimiter=", ">{layout}</layout></citation></style>"""
_AUTHOR = """<names variable="author"><name form="short" and="text"/>
<et-al/><substitute><names variable="editor"/><names variable="translator"/>
<text variable="title" form="short"/></substitute></names>"""
_YEAR = """<choose><if variable="issued">
<date variable="issued"><date-part name="year"/></date></if>
<else><text term="no date" form="short"/></else></choose>"""


def is_author_date(style: str) -> bool:
    """Whether the cites of a style, by its name, its path or its text, have authors, as its
    categories say. Raises StyleMissing."""
    root = ElementTree.fromstring(load(style).text.encode('utf-8', 'surrogateescape'))
    formats = [category.get('citation-format') for category in root.iter(f'{_CSL}category')]
    return 'author-date' in formats or 'author' in formats


def names_style(kind: str) -> str:
    """A style whose cites are the authors alone (`short` or `all`), the year (`year`), or the
    word for *and* (`and`)."""
    if kind == 'year':
        return _NAMES.format(options='', layout=_YEAR)
    if kind == 'and':
        return _NAMES.format(options='', layout='<text term="and"/>')
    options = 'et-al-min="3" et-al-use-first="1"' if kind == 'short' else ''
    return _NAMES.format(options=options, layout=_AUTHOR)


def bare(tree: Tree) -> Tree:
    """A citation without what the style puts around its cites."""
    cites = [place for place, node in enumerate(tree) if _has_cite(node)]
    if len(cites) == 1 and not _is_cite(tree[cites[0]]):
        node = tree[cites[0]]
        return [{**node, 'children': bare(node['children'])}]
    return tree[cites[0]:cites[-1] + 1] if cites else tree


def _is_cite(node: Node) -> bool:
    meta = node.get('meta')
    return isinstance(meta, dict) and 'entry' in meta


def _has_cite(node: Node) -> bool:
    return _is_cite(node) or any(_has_cite(child) for child in node.get('children', []))
