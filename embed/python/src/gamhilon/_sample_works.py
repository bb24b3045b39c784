"""Made-up works and citations, by which a style can be read at a glance."""
from __future__ import annotations

from typing import Any, Dict, List, NamedTuple

__all__ = ['CASES', 'Case', 'WORKS']


class Case(NamedTuple):
    """A citation of the sample: what it shows, and its cites."""

    name: str
    cites: List[Dict[str, Any]]


def _persons(*names: str) -> List[Dict[str, str]]:
    """Names, each `Family, Given`."""
    return [dict(zip(('family', 'given'), name.split(', '))) for name in names]


def _on(*date: int) -> Dict[str, Any]:
    return {'date-parts': [list(date)]}


WORKS: List[Dict[str, Any]] = [
    {'id': 'one-author', 'type': 'book', 'title': 'The shape of rivers',
     'author': _persons('Adler, Ruth Maria'), 'issued': _on(1999), 'publisher': 'Meander Press',
     'publisher-place': 'Bristol', 'edition': '2', 'ISBN': '978-0-00-000001-2'},
    {'id': 'two-authors', 'type': 'article-journal', 'title': 'Slow water in fast channels',
     'author': _persons('Bauer, Karl', 'Chen, Li'), 'issued': _on(2004, 5),
     'container-title': 'Journal of Streams', 'container-title-short': 'J Streams', 'volume': '12',
     'issue': '3', 'page': '101-119', 'DOI': '10.1000/streams.12.3'},
    {'id': 'five-authors', 'type': 'article-journal',
     'title': 'Five ways to measure a flood: A comparison',
     'author': _persons('Dahl, Nora', 'Evans, Owen', 'Fontaine, Luc', 'Greco, Ada', 'Hall, Sam'),
     'issued': _on(2011, 11, 2), 'container-title': 'Annals of Hydrology', 'volume': '7',
     'page': '55-81'},
    {'id': 'same-year-1', 'type': 'book', 'title': 'Banks and beds', 'issued': _on(2015),
     'author': _persons('Ito, Kenji'), 'publisher': 'Meander Press',
     'publisher-place': 'Bristol'},
    {'id': 'same-year-2', 'type': 'book', 'title': 'Beds and banks', 'issued': _on(2015),
     'author': _persons('Ito, Kenji'), 'publisher': 'Meander Press',
     'publisher-place': 'Bristol'},
    {'id': 'same-name-1', 'type': 'book', 'title': 'Ferries', 'issued': _on(2008),
     'author': _persons('Jones, Alice'), 'publisher': 'Ferry House'},
    {'id': 'same-name-2', 'type': 'book', 'title': 'Fords', 'issued': _on(2008),
     'author': _persons('Jones, Bernard'), 'publisher': 'Ferry House'},
    {'id': 'no-date', 'type': 'book', 'title': 'Maps of a lost valley',
     'author': _persons('Kovacs, Zita'), 'publisher': 'Valley Press'},
    {'id': 'no-author', 'type': 'book', 'title': 'A handbook of weirs', 'issued': _on(1921),
     'publisher': 'Works Office', 'publisher-place': 'London'},
    {'id': 'institution', 'type': 'report', 'title': 'State of the rivers', 'number': '14',
     'genre': 'Report', 'author': [{'literal': 'Institute of Inland Waters'}],
     'issued': _on(2019, 3), 'publisher': 'Institute of Inland Waters',
     'URL': 'https://example.org/rivers', 'accessed': _on(2020, 1, 15)},
    {'id': 'editors', 'type': 'book', 'title': 'Essays on estuaries', 'issued': _on(1987),
     'editor': _persons('Lang, Mia', 'Moor, Tom'), 'publisher': 'Tide & Sons',
     'publisher-place': 'Hull', 'collection-title': 'Coasts', 'collection-number': '4'},
    {'id': 'chapter', 'type': 'chapter', 'title': 'Where salt meets sweet', 'issued': _on(1987),
     'author': _persons('Novak, Eva'), 'editor': _persons('Lang, Mia', 'Moor, Tom'),
     'container-title': 'Essays on estuaries', 'page': '201-230', 'publisher': 'Tide & Sons',
     'publisher-place': 'Hull'},
    {'id': 'translation', 'type': 'book', 'title': 'The mill', 'issued': _on(1978),
     'original-date': _on(1931), 'author': _persons('Olsen, Finn'),
     'translator': _persons('Park, Jane'), 'publisher': 'Northern Books', 'volume': '2'},
    {'id': 'particle', 'type': 'book', 'title': 'Dikes', 'issued': _on(1964),
     'author': [{'family': 'Berg', 'given': 'Pieter', 'non-dropping-particle': 'van den'}],
     'publisher': 'Polder'},
    {'id': 'thesis', 'type': 'thesis', 'title': 'Eddies', 'issued': _on(2013),
     'genre': 'PhD thesis', 'author': _persons('Quist, Lena'), 'publisher': 'University of Lund'},
    {'id': 'newspaper', 'type': 'article-newspaper', 'title': 'High water expected',
     'author': _persons('Reed, Max'), 'issued': _on(2002, 8, 13), 'page': '3',
     'container-title': 'The Harbour Times'},
    {'id': 'paper', 'type': 'paper-conference', 'title': 'Gauges that repair themselves',
     'author': _persons('Singh, Asha'), 'issued': _on(2017),
     'container-title': 'Proceedings of the third meeting on gauges', 'event-title': 'Gauges 3',
     'event-place': 'Delft', 'page': '9-16'},
    {'id': 'web-page', 'type': 'webpage', 'title': 'Levels today', 'container-title': 'Levels',
     'author': _persons('Toth, Ida'), 'issued': _on(2021, 6, 1),
     'URL': 'https://example.org/levels', 'accessed': _on(2021, 7, 30)},
    {'id': 'markup', 'type': 'article-journal', 'issued': _on(1995), 'page': '1-8',
     'title': 'Why <i>Salmo trutta</i> leaves: “Home” is CO<sub>2</sub>',
     'author': _persons('Ueda, Rin'), 'container-title': 'Journal of Streams', 'volume': '3'},
    {'id': 'language', 'type': 'book', 'title': 'Von den Quellen der Donau', 'language': 'de-DE',
     'author': _persons('Vogel, Heinrich'), 'issued': _on(1903), 'publisher': 'Ufer',
     'publisher-place': 'Ulm'},
]
"""The works, as CSL-JSON."""

CASES: List[Case] = [
    Case('one author', [{'id': 'one-author'}]),
    Case('two authors', [{'id': 'two-authors'}]),
    Case('five authors', [{'id': 'five-authors'}]),
    Case('one author, one year', [{'id': 'same-year-1'}]),
    Case('and the other work', [{'id': 'same-year-2'}]),
    Case('one family name', [{'id': 'same-name-1'}]),
    Case('and the other person', [{'id': 'same-name-2'}]),
    Case('no date', [{'id': 'no-date'}]),
    Case('no author', [{'id': 'no-author'}]),
    Case('an institution', [{'id': 'institution'}]),
    Case('editors', [{'id': 'editors'}]),
    Case('a chapter', [{'id': 'chapter'}]),
    Case('a translation', [{'id': 'translation'}]),
    Case('a name with a particle', [{'id': 'particle'}]),
    Case('a thesis', [{'id': 'thesis'}]),
    Case('a newspaper', [{'id': 'newspaper'}]),
    Case('a paper of a meeting', [{'id': 'paper'}]),
    Case('a web page', [{'id': 'web-page'}]),
    Case('a title with markup', [{'id': 'markup'}]),
    Case('in another language', [{'id': 'language'}]),
    Case('cited again', [{'id': 'one-author'}]),
    Case('the same at once', [{'id': 'one-author'}]),
    Case('the same, on a page', [{'id': 'one-author', 'locator': '12'}]),
    Case('the same page', [{'id': 'one-author', 'locator': '12'}]),
    Case('the same, on other pages', [{'id': 'one-author', 'locator': '12-15, 104-109'}]),
    Case('a chapter of it', [{'id': 'two-authors', 'locator': '3', 'label': 'chapter'}]),
    Case('a section of it', [{'id': 'two-authors', 'locator': '4.2', 'label': 'section'}]),
    Case('words around', [{'id': 'no-date', 'prefix': 'see', 'suffix': ', in part',
                           'locator': '7'}]),
    Case('without its author', [{'id': 'two-authors', 'suppress-author': True}]),
    Case('its author alone', [{'id': 'thesis', 'author-only': True}]),
    Case('two works', [{'id': 'chapter'}, {'id': 'newspaper'}]),
    Case('works of one author', [{'id': 'same-year-1'}, {'id': 'same-year-2'}]),
    Case('four works', [{'id': 'paper'}, {'id': 'one-author', 'locator': '3'}, {'id': 'editors'},
                        {'id': 'five-authors'}]),
]
"""The citations, in the order of a text."""
