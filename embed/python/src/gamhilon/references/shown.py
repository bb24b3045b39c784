"""Whether a style would have shown what isn't kept of an entry, by the variables of CSL that fields
of .bib files and of hayagriva's YAML become."""
from __future__ import annotations

from typing import AbstractSet, Dict, Set

from ..csl_json import Loss

__all__ = ['is_shown']

_NO_PLACE = 'CSL has no place for '
_DATES = ('date', 'year', 'month', 'day', 'endyear', 'endmonth', 'endday')
_TITLES = ('title', 'subtitle', 'titleaddon')

_ROLES = {
    'author': 'author', 'bookauthor': 'container-author', 'translator': 'translator',
    'director': 'director', 'illustrator': 'illustrator', 'composer': 'composer',
    'compiler': 'compiler', 'narrator': 'narrator', 'organizer': 'organizer',
    'producer': 'producer', 'recipient': 'recipient', 'interviewer': 'interviewer',
}
"""The fields that hold names, but for editors, and the variables of CSL."""

_FIELDS = {
    'title': 'issuetitle issuesubtitle issuetitleaddon',
    'title-short': 'shorttitle title.short',
    'container-title': 'journal parent.title',
    'container-title-short': 'shortjournal shorttitle parent.title.short',
    'collection-title': 'series parent.title', 'collection-number': 'number parent.volume',
    'collection-editor': 'parent.editor', 'event': 'parent.title', 'event-title': 'parent.title',
    'event-place': 'venue location parent.location', 'event-date': 'parent.date',
    'original-title': 'parent.title', 'original-date': 'parent.date',
    'original-author': 'parent.author', 'original-publisher': 'origpublisher parent.publisher',
    'original-publisher-place': 'origlocation parent.location',
    'container-author': 'parent.author',
    'editor': 'editor editortype editora editorb editorc parent.editor',
    'accessed': 'lastchecked lastaccessed accessed url.date',
    'volume': 'volume part', 'edition': 'edition', 'issue': 'issue number',
    'number-of-volumes': 'volumes volume-total', 'number-of-pages': 'pagetotal numpages page-total',
    'chapter-number': 'chapter', 'version': 'version serial-number', 'page': 'pages eid page-range',
    'number': 'number serial-number serial-number.serial', 'genre': 'genre', 'status': 'pubstate',
    'publisher': 'school institution organization howpublished publisher',
    'publisher-place': 'address location', 'jurisdiction': 'location', 'authority': 'organization',
    'URL': 'url eprint howpublished', 'DOI': 'doi serial-number.doi', 'PMID': 'pmid pubmedid',
    'ISBN': 'isbn serial-number.isbn parent.serial-number.isbn', 'PMCID': 'pmcid',
    'ISSN': 'issn serial-number.issn parent.serial-number.issn', 'call-number': 'library',
    'citation-label': 'shorthand', 'note': 'note addendum', 'annote': 'annotation annote',
    'abstract': 'abstract', 'keyword': 'keywords keyword', 'archive': 'archive',
    'language': 'langid hyphenation language', 'archive-place': 'archive-location',
    'dimensions': 'runtime',
}
_PREFIXES = {
    'title': ('', 'main'), 'container-title': ('journal', 'book', 'main'), 'event': ('event',),
    'event-title': ('event',), 'original-title': ('orig',), 'volume-title': ('', 'book'),
}
_PREFIXES_OF_DATES = {
    'issued': '', 'accessed': 'url', 'event-date': 'event', 'original-date': 'orig',
}


def _variables_by_field() -> Dict[str, Set[str]]:
    fields = {variable: set(names.split()) for variable, names in _FIELDS.items()}
    for variable, prefixes in _PREFIXES.items():
        fields.setdefault(variable, set()).update(prefix + title for prefix in prefixes
                                                  for title in _TITLES)
    for variable, prefix in _PREFIXES_OF_DATES.items():
        fields.setdefault(variable, set()).update(prefix + part for part in _DATES)
    for name, variable in _ROLES.items():
        fields.setdefault(variable, set()).add(name)
    found: Dict[str, Set[str]] = {}
    for variable, names in fields.items():
        for name in names:
            found.setdefault(name, set()).add(variable)
    return found


_VARIABLES = _variables_by_field()


def is_shown(loss: Loss, variables: AbstractSet[str]) -> bool:
    """Whether a style that writes these variables would have shown what isn't kept. No style shows
    what CSL has no place for; what is no field of its own, as a type or a parent, each one does."""
    if loss.reason.startswith(_NO_PLACE):
        return False
    return loss.field not in _VARIABLES or not variables.isdisjoint(_VARIABLES[loss.field])
