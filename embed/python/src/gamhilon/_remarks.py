"""What a document that has an answer may still have wrong."""
from __future__ import annotations

from collections import Counter
from typing import Any, Dict, Iterator, List, Tuple

from .references import References

Element = Tuple[str, Dict[str, Any]]


def holds(document: Dict[str, Any]) -> List[str]:
    """What a document holds, a line each."""
    entries, requests = document['entries'], document['requests']
    cited = {item['entry'] for request in requests for item in request['items']}
    lines = [f'style {name}: {_described(style)}' for name, style in document['styles'].items()]
    lines.append(f'entries: {len(entries)}, of which {len(cited)} are cited')
    lines.append(
        f'requests: {len(requests)}, of {sum(len(request["items"]) for request in requests)} cites')
    return lines


def of_references(read: References) -> List[str]:
    """What a file of references holds, a line each."""
    kinds = Counter(str(item.get('type', 'no type')) for item in read.items)
    return [f'{kind}: {count}' for kind, count in sorted(kinds.items())]


def remarks(document: Dict[str, Any]) -> List[str]:
    """What can hardly be meant in a document: each with a JSON Pointer to its place."""
    found: List[str] = []
    for name, style in document['styles'].items():
        macros = {macro['name'] for macro in style.get('macros', [])}
        for pointer, element in elements_of_style(f'/styles/{_escaped(name)}', style):
            if 'macro' in element and element['macro'] not in macros:
                reason = f'the style has no macro {element["macro"]!r}, so nothing is written'
                found.append(f'{pointer}/macro: {reason}')
    seen: Dict[str, int] = {}
    for place, entry in enumerate(document['entries']):
        first = seen.setdefault(entry['key'], place)
        if first != place:
            found.append(f'/entries/{place}: a second entry of the key {entry["key"]!r}; '
                         f'that at /entries/{first} is meant')
        for field, value in entry.items():
            if isinstance(value, str) and any(letter in value for letter in '\n\t'):
                found.append(f'/entries/{place}/{field}: a line feed or a tab, '
                             'which the printed text has too')
    return found


def _described(style: Dict[str, Any]) -> str:
    words = [style.get('class', 'in-text'), *style.get('categories', [])]
    return ', '.join(words) + (', with a bibliography' if 'bibliography' in style
                               else ', without a bibliography')


def elements_of_style(pointer: str, style: Dict[str, Any]) -> Iterator[Element]:
    for place, macro in enumerate(style.get('macros', [])):
        yield from _elements(f'{pointer}/macros/{place}/children', macro['children'])
    for layout in ('citation', 'bibliography'):
        if layout in style:
            yield from _elements(f'{pointer}/{layout}/elements', style[layout]['elements'])


def _elements(pointer: str, elements: List[Dict[str, Any]]) -> Iterator[Element]:
    for place, element in enumerate(elements):
        at = f'{pointer}/{place}'
        yield at, element
        yield from _elements(f'{at}/children', element.get('children', []))
        for number, branch in enumerate(element.get('branches', [])):
            yield from _elements(f'{at}/branches/{number}/children', branch['children'])
        yield from _elements(f'{at}/else', element.get('else', []))


def _escaped(name: str) -> str:
    return name.replace('~', '~0').replace('/', '~1')
