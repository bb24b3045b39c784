"""Trees as pandoc's inlines, and small things that the filter does with inlines."""
from __future__ import annotations

import re
from typing import Any, Dict, List, Sequence, Tuple

from ._writing import Piece, anchor, formats, safe_url, single_spaced
from .references.latex_math import math_runs
from .references.rich_text import csl_title

Inline = Dict[str, Any]
Inlines = List[Inline]

SPACE: Inline = {'t': 'Space'}
CLOSING_QUOTES = '\u201d\u2019\u00bb\u203a"\''
_KINDS = {
    'bold': 'Strong', 'italic': 'Emph', 'small-caps': 'SmallCaps', 'underline': 'Underline',
    'sup': 'Superscript', 'sub': 'Subscript',
}


def words(text: str) -> Inlines:
    """A text as strings and spaces."""
    parts = re.split(' +', text)
    found: Inlines = []
    for place, part in enumerate(parts):
        if place:
            found.append(SPACE)
        if part:
            found.append({'t': 'Str', 'c': part})
    return found


def strong(text: str) -> Inline:
    return {'t': 'Strong', 'c': words(text)}


def span(classes: Sequence[str], content: Inlines,
         attributes: Sequence[Tuple[str, str]] = ()) -> Inline:
    return {'t': 'Span',
            'c': [['', list(classes), [list(attribute) for attribute in attributes]], content]}


def link(content: Inlines, target: str) -> Inline:
    return {'t': 'Link', 'c': [['', [], []], content, [target, '']]}


def div(identifier: str, classes: Sequence[str], content: List[Any],
        attributes: Sequence[Tuple[str, str]] = ()) -> Dict[str, Any]:
    return {'t': 'Div',
            'c': [[identifier, list(classes), [list(attribute) for attribute in attributes]],
                  content]}


def text_of(inlines: Any) -> str:
    """The letters of inlines, with a space for whatever stands for one."""
    found: List[str] = []
    left: List[Any] = [inlines]
    while left:
        part = left.pop()
        if isinstance(part, list):
            left.extend(reversed(part))
        elif isinstance(part, dict):
            if part.get('t') in ('Space', 'SoftBreak', 'LineBreak'):
                found.append(' ')
            left.append(part.get('c', [])
                        if part.get('t') not in ('Code', 'Math', 'RawInline', 'Link', 'Span',
                                                 'Quoted') else part['c'][1])
        elif isinstance(part, str):
            found.append(part)
    return ''.join(found)


_RICH = {
    'Emph': ('<i>', '</i>'), 'Strong': ('<b>', '</b>'), 'Superscript': ('<sup>', '</sup>'),
    'Subscript': ('<sub>', '</sub>'),
    'SmallCaps': ('<span style="font-variant:small-caps;">', '</span>'),
}
_QUOTES = {'DoubleQuote': ('\u201c', '\u201d'), 'SingleQuote': ('\u2018', '\u2019')}


def rich_text_of(inlines: Inlines) -> str:
    """Inlines as the text of a field of CSL-JSON."""
    found = ''
    for inline in inlines:
        kind: str = inline['t']
        content: Any = inline.get('c')
        if kind in _RICH:
            opening, closing = _RICH[kind]
            found += opening + rich_text_of(content) + closing
        elif kind == 'Quoted':
            opening, closing = _QUOTES[content[0]['t']]
            found += opening + rich_text_of(content[1]) + closing
        elif kind == 'Span' and 'nocase' in content[0][1]:
            found += f'<span class="nocase">{rich_text_of(content[1])}</span>'
        elif kind in ('Span', 'Link', 'Cite'):
            found += rich_text_of(content[1])
        elif kind in ('Strikeout', 'Underline'):
            found += rich_text_of(content)
        elif kind == 'Math':
            runs = math_runs(content[1])
            found += csl_title([run._replace(is_protected=True)
                                for run in runs]) if runs else content[1]
        else:
            found += text_of([inline])
    return found


def leading_text(inlines: Inlines) -> Tuple[str, Inlines]:
    """The text at the beginning of inlines that is only letters and spaces, and the inlines behind
    it."""
    text = ''
    for place, inline in enumerate(inlines):
        if inline['t'] == 'Str':
            text += inline['c']
        elif inline['t'] in ('Space', 'SoftBreak'):
            text += ' '
        else:
            return text, inlines[place:]
    return text, []


def inlines_of_pieces(parts: Sequence[Piece]) -> Inlines:
    """The parts of a tree as inlines. What has a display is a span of class `csl-block` and so
    on."""
    frames: List[Inlines] = [[]]
    for piece in parts:
        if piece.kind == 'text':
            frames[-1] += _text(piece)
        elif piece.kind == 'markup':
            frames[-1] += words(single_spaced(piece.node['markup']))
        elif piece.kind == 'open':
            if 'display' in piece.node:
                frames.append([])
        elif 'display' in piece.node:
            content = frames.pop()
            frames[-1].append(span([f'csl-{piece.node["display"]}'], content))
    return joined(frames[0])


def joined(inlines: Inlines) -> Inlines:
    """The inlines with neighbouring strings made one, and neighbouring spaces too."""
    found: Inlines = []
    for inline in inlines:
        last = found[-1] if found else None
        if last and inline['t'] == last['t'] == 'Str':
            found[-1] = {'t': 'Str', 'c': last['c'] + inline['c']}
        elif not (last and inline['t'] == last['t'] == 'Space'):
            found.append(inline)
    return found


def linked(content: Inlines, key: str) -> Inlines:
    """The inlines as a link to the item of an entry, unless a link is in them."""
    if not content or _has_link(content):
        return content
    return [link(content, '#' + anchor(key))]


def capitalized(inlines: Inlines) -> Inlines:
    """The inlines with a capital for their first letter, where that stands in words."""
    for place, inline in enumerate(inlines):
        kind: str = inline['t']
        content: Any = inline.get('c')
        if kind in ('Space', 'SoftBreak'):
            continue
        if kind == 'Str':
            made: Any = re.sub(r'\w', lambda match: match.group().upper(), content, count=1)
        elif kind in _KINDS.values():
            made = capitalized(content)
        elif kind in ('Quoted', 'Span'):
            made = [content[0], capitalized(content[1])]
        else:
            break
        return [*inlines[:place], {'t': kind, 'c': made}, *inlines[place + 1:]]
    return inlines


def without_quoted_stop(inlines: Inlines) -> Inlines:
    """The inlines without a full stop before quotation marks that end them."""
    if not inlines:
        return inlines
    last = inlines[-1]
    kind: str = last['t']
    content: Any = last.get('c')
    if kind == 'Str':
        made: Any = re.sub(f'[.](?=[{CLOSING_QUOTES}]+$)', '', content)
    elif kind in ('Link', 'Span'):
        made = [content[0], without_quoted_stop(content[1]), *content[2:]]
    else:
        return inlines
    return [*inlines[:-1], {'t': kind, 'c': made}]


def _has_link(inlines: Inlines) -> bool:
    return any(inline['t'] == 'Link' or inline['t'] == 'Span' and _has_link(inline['c'][1])
               for inline in inlines)


def _text(piece: Piece) -> Inlines:
    node = piece.node
    content = words(single_spaced(node['text']))
    for name in reversed(formats(node)):
        content = [{'t': _KINDS[name], 'c': content}] if content else []
    url = safe_url(node['url']) if 'url' in node else None
    return [link(content, url)] if url and content else content
