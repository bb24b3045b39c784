"""Whole answers in each form that `python3 -m gamhilon` gives: those of `render`, and those of
`cite` and `bibliography`."""
from __future__ import annotations

import html
import json
from typing import Any, Callable, Dict, List

from .answer import Answer, Item, answer_of, data_of, plain
from .html_writer import bibliography_to_html, style_sheet, to_html
from .latex_writer import bibliography_to_latex, to_latex
from .markdown_writer import bibliography_to_markdown, to_markdown

__all__ = ['FORMS', 'bibliography_in', 'citations_in', 'standalone', 'written']

FORMS = ('text', 'html', 'markdown', 'latex', 'json')

_PAGE = """<!DOCTYPE html>
<html lang="en">
<head>
<meta charset="utf-8">
<meta name="viewport" content="width=device-width, initial-scale=1">
<title>{title}</title>
<style>
{style_sheet}</style>
{head}</head>
<body>
{content}</body>
</html>
"""


def written(form: str, document: bytes, print_document: Callable[[bytes], str],
            print_json: Callable[[bytes], str], links: bool = False) -> str:
    """The answer to a document in a form: its citations, each a paragraph, and its bibliography, to
    whose items cites lead where `links` holds."""
    if form == 'text':
        return print_document(document)
    text = print_json(document)
    if form == 'json':
        return text + '\n'
    return _WRITERS[form](answer_of(text), _keys(json.loads(document), links))


def citations_in(form: str, answer: Answer, keys: List[List[str]]) -> str:
    """The citations of an answer in a form, each on a line, whose cites lead to the items of these
    keys; as JSON the whole answer."""
    if form == 'json':
        return _json(answer)
    if form == 'text':
        return ''.join(f'{plain(citation)}\n' for citation in answer.citations)
    writers: Dict[str, Callable[..., str]] = {
        'html': to_html, 'markdown': to_markdown, 'latex': to_latex}
    return ''.join(f'{writers[form](citation, own)}\n'
                   for citation, own in zip(answer.citations, keys))


def bibliography_in(form: str, answer: Answer) -> str:
    """The bibliography of an answer in a form; nothing where there is none. As JSON the whole
    answer."""
    if form == 'json':
        return _json(answer)
    if form == 'text':
        items = answer.bibliography.items if answer.bibliography else []
        return ''.join(f'{_line(item)}\n' for item in items)
    writers: Dict[str, Callable[..., str]] = {
        'html': bibliography_to_html, 'markdown': bibliography_to_markdown,
        'latex': bibliography_to_latex}
    return writers[form](answer.bibliography)


def _json(answer: Answer) -> str:
    return json.dumps(data_of(answer), ensure_ascii=False) + '\n'


def _line(item: Item) -> str:
    """The text of an item, its first field in front."""
    if item.first_field is None:
        return plain(item.content)
    return f'{plain(item.first_field).rstrip()} {plain(item.content)}'


def standalone(content: str, title: str = 'Citations', head: str = '') -> str:
    """A whole page of HTML, with the style sheet of reference lists, and more that its head has."""
    return _PAGE.format(title=html.escape(title), style_sheet=style_sheet(), head=head,
                        content=content)


def _keys(document: Dict[str, Any], links: bool) -> List[List[str]]:
    """The keys that each request cites, where links are asked for and the bibliography lists them,
    so that cites can lead there."""
    has_list = 'bibliography' in document['styles'][document['bibliography']['style']]
    return [[item['entry'] for item in request['items']] if links and has_list else []
            for request in document['requests']]


def _html(answer: Answer, keys: List[List[str]]) -> str:
    citations = [f'<p class="citation">{to_html(citation, own)}</p>\n'
                 for citation, own in zip(answer.citations, keys)]
    return ''.join([*citations, bibliography_to_html(answer.bibliography)])


def _markdown(answer: Answer, keys: List[List[str]]) -> str:
    citations = [f'{to_markdown(citation, own)}\n\n'
                 for citation, own in zip(answer.citations, keys)]
    return ''.join([*citations, bibliography_to_markdown(answer.bibliography)])


def _latex(answer: Answer, keys: List[List[str]]) -> str:
    citations = [f'{to_latex(citation, own)}\n\n' for citation, own in zip(answer.citations, keys)]
    return ''.join([*citations, bibliography_to_latex(answer.bibliography)])


_WRITERS: Dict[str, Callable[[Answer, List[List[str]]], str]] = {
    'html': _html, 'markdown': _markdown, 'latex': _latex,
}
