"""What the writers of HTML, Markdown and LaTeX share."""
from __future__ import annotations

import re
from typing import Any, Callable, List, NamedTuple, Optional, Sequence, Union
from urllib.parse import quote

from .answer import Node, Tree

Escape = Callable[[str], str]

# The schemes of links, as in crates/cite_texts/src/addresses.rt.
SCHEMES = ('doi', 'http', 'https', 'mailto')
_SAFE = "/:@!$&'()*+,;=~-._"
_SAFE_IN_URL = _SAFE + '%?#[]'
_FORMATS = {'font_weight': ('bold',), 'font_style': ('italic',), 'font_variant': ('small-caps',),
            'text_decoration': ('underline',), 'vertical_align': ('sup', 'sub')}
_CONTROL = re.compile('[\x00-\x1f\x7f-\x9f\u2028\u2029]')
_BREAKS = re.compile('[\t\n\v\f\r\x85\u2028\u2029]+')
_BLANK = re.compile(r'[\s\x00-\x1f\x7f-\x9f]')
_RESOLVER = re.compile(r'(https?://(dx\.|www\.)?doi\.org/)', re.IGNORECASE)
_OUTSIDE_ID = re.compile(r'[^A-Za-z0-9.:_-]|_(?![A-Za-z0-9.:-])')


class Piece(NamedTuple):
    """A part of a flattened tree.

    `kind` is `text` or `markup`, of which `node` is the node; or `open` or `close`, of an element,
    of which `node` is the node and `link` the id that it leads to, where it is a cite that has one.
    """

    kind: str
    node: Node
    link: Optional[str] = None


def single_spaced(text: str) -> str:
    """The text with a space for each run of line feeds, tabs and the like; no control characters
    stay."""
    if text.isprintable():
        return text
    return _CONTROL.sub('', _BREAKS.sub(' ', text))


class LineEnd:
    """The end of a line that is being written, for the space beside what is set off in it."""

    def __init__(self) -> None:
        self._last = ''
        self._is_beside = False

    def set_off(self) -> None:
        """Something that is set off in the line begins or ends here."""
        self._is_beside = True

    def space_before(self, text: str) -> str:
        """Moves behind a text. Gives the space that has to stand before it, where something is set
        off between two texts and neither has a space there."""
        if not text:
            return ''
        sides = self._last + text[0]
        lacks_space = self._is_beside and len(sides) == 2 and not any(map(str.isspace, sides))
        self._last, self._is_beside = text[-1], False
        return ' ' if lacks_space else ''


def safe_url(url: str) -> Optional[str]:
    """The address that a link may lead to, with escapes; or None. It has one of the schemes, in any
    case. A doi leads to doi.org. White space around it and in its scheme, and control characters,
    don't count."""
    before, colon, rest = url.partition(':')
    scheme, rest = _BLANK.sub('', before), _CONTROL.sub('', rest).strip()
    if not colon or scheme.lower() not in SCHEMES:
        return None
    if scheme.lower() == 'doi':
        return _doi_url(rest)
    return f'{scheme}:{_escaped(rest, _SAFE_IN_URL)}'


def _doi_url(text: str) -> Optional[str]:
    """The address of a DOI, which may stand behind that of a resolver."""
    resolver = _RESOLVER.match(text)
    name = text[resolver.end():] if resolver else text
    registrant, _, rest = name.partition('/')
    if not registrant.startswith('10.') or not rest:
        return None
    return 'https://doi.org/' + _escaped(name, _SAFE + '%' if resolver else _SAFE)


def _escaped(text: str, safe: str) -> str:
    return quote(text.encode('utf-8', 'replace'), safe=safe)


def anchor(key: str) -> str:
    """The id of an item of the bibliography: `ref-` and the key, in which each character that an id
    can't have is written by its number. Different keys have different ids."""
    return 'ref-' + _OUTSIDE_ID.sub(lambda match: f'__{ord(match.group()):x}_', key)


def is_unformatted(node: Node) -> bool:
    """Whether a text says nothing of itself but that it is upright and of the usual weight."""
    return len(node) == 3 and node.get('font_style') == 'normal' == node.get('font_weight')


def formats(node: Node) -> List[str]:
    """What the text of a node has of `bold`, `italic`, `small-caps`, `underline`, and `sup` or
    `sub`, where it shows something."""
    found = [node[key] for key in node if key in _FORMATS and node[key] in _FORMATS[key]]
    if len(found) > 1:
        found = [node[key] for key, names in _FORMATS.items() if node.get(key) in names]
    return found if found and single_spaced(node['text']).strip() else []


def pieces(tree: Union[Node, Tree], keys: Sequence[str] = ()) -> List[Piece]:
    """The parts of a tree, from first to last, with no recursion. A cite leads to the item of its
    entry, the key of which `keys` has at the cite's place, unless a text in it leads elsewhere."""
    found: List[Piece] = []
    left: List[Any] = [tree]
    while left:
        part = left.pop()
        if isinstance(part, list):
            left.extend(reversed(part))
        elif isinstance(part, Piece):
            found.append(part)
        elif 'children' in part:
            link = _link_of(part, keys) if keys else None
            found.append(Piece('open', part, link))
            left.append(Piece('close', part, link))
            left.append(part['children'])
        elif 'text' in part:
            found.append(Piece('text', part))
        elif 'markup' in part:
            found.append(Piece('markup', part))
    return found


def _link_of(element: Node, keys: Sequence[str]) -> Optional[str]:
    meta = element.get('meta')
    place = meta.get('entry') if isinstance(meta, dict) else None
    if not isinstance(place, int) or place >= len(keys) or _has_url(element):
        return None
    return anchor(keys[place])


def _has_url(element: Node) -> bool:
    left: List[Any] = [element]
    while left:
        part = left.pop()
        if isinstance(part, list):
            left.extend(part)
        elif 'children' in part:
            left.append(part['children'])
        elif 'url' in part and safe_url(part['url']):
            return True
    return False
