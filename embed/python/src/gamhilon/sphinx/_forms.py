"""What the roles show of works."""
from __future__ import annotations

from typing import Dict, NamedTuple

__all__ = ['AUTHORS_OF_TEXTS', 'FORMS', 'Form']


class Form(NamedTuple):
    """What a role shows. `kind` is `whole` (a citation as the style writes it), `bare` (without
    what stands around it), `text` (the author in the sentence, and then the rest), `author`,
    `year`, `item` (what the reference list has) or `nothing`. `all_names` shows all names of a
    work, `capital` begins with a capital, and `brackets` stand around an author or a year."""

    kind: str
    all_names: bool = False
    capital: bool = False
    brackets: bool = False


FORMS: Dict[str, Form] = {
    'p': Form('whole'), 'ps': Form('whole', all_names=True), 'labelpar': Form('whole'),
    'label': Form('bare'),
    't': Form('text'), 'ts': Form('text', all_names=True),
    'ct': Form('text', capital=True), 'cts': Form('text', all_names=True, capital=True),
    'author': Form('author'), 'authors': Form('author', all_names=True),
    'cauthor': Form('author', capital=True),
    'cauthors': Form('author', all_names=True, capital=True),
    'authorpar': Form('author', brackets=True),
    'authorpars': Form('author', all_names=True, brackets=True),
    'year': Form('year'), 'yearpar': Form('year', brackets=True),
    'empty': Form('nothing'), 'item': Form('item'),
}
"""The roles of the domain, by their names. (`cite` is `cite:p`, and `item` is none of them.)"""

AUTHORS_OF_TEXTS = {'t': 'author', 'ts': 'authors', 'ct': 'cauthor', 'cts': 'cauthors'}
"""The roles that show the author alone, for those that show it in a sentence."""
