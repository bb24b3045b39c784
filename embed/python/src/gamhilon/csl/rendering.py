"""Citations and a bibliography in a style."""
from __future__ import annotations

from dataclasses import replace
from typing import Dict, Iterable, List, Mapping, NamedTuple, Optional, Sequence, Tuple, Union

from .._deprecated import deprecated
from .._limits import style_limits
from .._nearest import meant
from ..answer import Answer, Item, Node, Tree
from ..answer import Citation as WrittenCitation
from ..errors import TextRefused
from .abbreviations import Abbreviations, AbbreviationsLike, abbreviations_of
from .calling import Document, steps_of
from .cites import Citation, CitationLike, CitationReader, Cite, ids_of
from .entries import Entry, EntryReader, EntryTexts, stand_in, warned_of_stand_in
from .errors import CitationRefused, StyleRefused, place
from .handed_in import ReferencesLike, StyleLike, read_of, style_of
from .kept import Kept, KeptAnswers
from .locales import LocaleFile, Locales, files_for, with_dialect
from .results import Rendered
from .style import About, Style, is_locale, language_of, load, name_of
from .warned import Warned

__all__ = [
    'about', 'check_entries', 'check_file', 'check_locale', 'check_references', 'check_style',
    'render',
]

NOTHING = 'the style writes nothing of it'
LANGUAGE = 'en-US'
"""The language where neither the caller nor the style tells one."""


def render(style: StyleLike, references: Optional[ReferencesLike] = None,
           citations: Optional[Iterable[CitationLike]] = None, *,
           nocite: Union[str, Iterable[str]] = (), locale: Optional[str] = None,
           locales: Optional[Locales] = None, abbreviations: Optional[AbbreviationsLike] = None,
           most_steps: Optional[int] = None, most_bytes: Optional[int] = None,
           draft: bool = False, entries: Optional[ReferencesLike] = None) -> Rendered:
    """Citations and the bibliography in a style.

        >>> works = [{'id': 'doe99', 'type': 'book', 'title': 'On Order',
        ...           'author': [{'family': 'Doe'}], 'issued': {'date-parts': [[1999]]}}]
        >>> rendered = render('author-date', works, [[{'id': 'doe99', 'locator': '4'}]])
        >>> print(rendered.citations[0])
        (Doe 1999, p. 4)
        >>> print(rendered.citations[0].to_html(links=True))
        (<a href="#ref-doe99">Doe 1999, p. 4</a>)
        >>> print(render('author-date', works).bibliography)
        Doe. 1999. On Order.

    `style` is a name, a path or the text of a style; `references` are items of CSL-JSON, what
    `references.load` gives, or the path of a file. `citations` are lists of cites, or objects as in
    csl-citation.json, whose cites keep their order where they are `unsorted`; without citations all
    references are listed. `nocite` are keys that are listed without being cited, `'*'` for all.
    `locale` is the language in place of the style's; `locales` a folder of locale files in place of
    Debian's, or the paths or texts of some. `abbreviations` are short forms of texts, as of the
    titles of journals: the path of a file in the form of pandoc and Zotero, or what its JSON has.
    `most_steps` and `most_bytes` are what the style may take for each cite and each entry, in place
    of what no published style comes near (docs/STYLE_FILES.md).
    In a `draft`, a cite of an entry that isn't there is its id in bold letters, with a question
    mark, as pandoc writes it, and a warning. `entries` is the older name of `references`.

    What is odd, in the file of the references too, is in the `warnings` of what is rendered. An
    entry that can't be written as it is loses the field that is wrong, or its id stands for it.
    Raises StyleMissing where there is no such style, StyleRefused where a style or a locale file
    isn't one, CitationRefused where a citation isn't one or cites an entry that isn't there and
    the document is no draft, EntriesRefused where the references are no list, AbbreviationsRefused where abbreviations aren't
    of their form, StyleLimitExceeded where the style takes more than it may, LimitsRefused where a
    limit is none (each of these is a ValueError); NumberOverflow or OutOfMemory, and
    LibraryMissing; what `references.load` raises of a path. All of these but an OSError of a file
    are GamhilonErrors.
    """
    given = _references(references, entries)
    reader = CitationReader()
    found = load(style_of(style))
    cites = reader.citations(() if citations is None else citations)
    renderer = Renderer(found, read_entries(given), locale, locales,
                        abbreviations_of(abbreviations), style_limits(most_steps, most_bytes),
                        is_draft=draft)
    return renderer.render(cites, '*' if citations is None else nocite, reader.warnings)


class ReadEntries(NamedTuple):
    """Entries by their ids, and what is odd in them."""

    entries: Dict[str, Entry]
    warnings: List[Warned]


def read_entries(references: ReferencesLike) -> ReadEntries:
    """References as entries. Raises EntriesRefused where they are no list."""
    reader = EntryReader()
    items, odd = read_of(references)
    entries = reader.entries(items)
    return ReadEntries(entries, [*odd, *reader.warnings])


class Renderer:
    """A style with entries, which write citations as often as they are asked for. Where something is
    `kept`, what was written and read before isn't written and read again. Raises what `render`
    raises of them."""

    def __init__(self, style: Style, read: ReadEntries, locale: Optional[str] = None,
                 locales: Optional[Locales] = None, abbreviations: Optional[Abbreviations] = None,
                 limits: Optional[Mapping[str, int]] = None, kept: Optional[Kept] = None,
                 is_draft: bool = False) -> None:
        self._style, self._locales, self._abbreviations = style, locales, abbreviations
        self._entries, self._warnings = read
        self._limits, self._is_draft = limits, is_draft
        self._language = with_dialect(locale or style.language or LANGUAGE)
        self._files: Optional[List[LocaleFile]] = None
        self._texts = kept.texts if kept else EntryTexts()
        self._answers, self._alone = (kept.answers, kept.alone) if kept else (None, None)

    def render(self, citations: Sequence[Citation], nocite: Union[str, Iterable[str]] = (),
               warnings: Sequence[Warned] = ()) -> Rendered:
        """What `render` gives of citations that are of their form; `warnings` are those of reading
        them."""
        document = self._document(citations, nocite, self._answers)
        warned = [*self._warnings, *warnings]
        if self._is_draft:
            warned += [_warned_of_unknown(*cite) for cite in _unknown(self._entries, citations)]
        return _rendered(document, warned, len(citations))

    def citations(self, citations: Sequence[Citation]) -> List[WrittenCitation]:
        """What is written of citations alone, without what is odd."""
        _, answer = _answered(self._document(citations, (), self._alone), [], warns=False)
        return answer.citations

    def _document(self, citations: Sequence[Citation], nocite: Union[str, Iterable[str]],
                  kept: Optional[KeptAnswers]) -> Document:
        listed = _listed(self._entries, nocite)
        hidden = Citation(tuple(Cite(key, hidden=True) for key in listed))
        asked = [*citations, hidden] if listed else citations
        if self._files is None:
            self._files = files_for(self._language, self._locales)
        if not self._is_draft:
            _refuse_unknown(self._entries, asked)
        cited = ids_of(asked)
        entries = [entry for key, entry in self._entries.items() if key in cited]
        return Document(self._style, self._files, entries, asked, self._language,
                        self._abbreviations, self._limits, kept, self._texts, self._is_draft)


def _references(references: Optional[ReferencesLike],
                entries: Optional[ReferencesLike]) -> ReferencesLike:
    """The references, by the name of either argument."""
    if entries is None and references is not None:
        return references
    if entries is None or references is not None:
        raise TypeError("render() takes one list of references, the argument 'references'")
    deprecated('the argument entries of csl.render', 'references', 4)
    return entries


def _listed(entries: Mapping[str, Entry], nocite: Union[str, Iterable[str]]) -> List[str]:
    """The keys that are listed without being cited. Raises CitationRefused where an entry isn't
    there."""
    keys = list(dict.fromkeys([nocite] if isinstance(nocite, str) else nocite))
    if '*' in keys:
        return list(entries)
    for key in keys:
        if key not in entries:
            fault = f'nocite: there is no entry {key!r}{meant(key, entries)}'
            raise CitationRefused(None, None, None, fault)
    return keys


def about(style: StyleLike) -> About:
    """What a style is. Raises StyleMissing and StyleRefused, as `render` does.

        >>> about('notes')
        About(title='Gamhilon notes', is_note=True, has_bibliography=True)
    """
    found = load(style_of(style))
    if found.about is not None:
        return found.about
    _refuse(_of_style(found))
    raise StyleRefused(found.file, None, None, 'it is no XML')


def check_style(text: StyleLike, file: str = 'the style') -> List[Warned]:
    """What is odd in a style, as `render` takes it; `file` is how places name a text. Raises
    StyleMissing, StyleRefused and StyleLimitExceeded, as `render` does."""
    return _refuse(_of_style(load(style_of(text), file)))


def check_locale(text: str, file: str = 'the locale') -> List[Warned]:
    """What is odd in the text of a locale file, which places name `file`. Raises StyleRefused where
    it isn't one."""
    return _refuse(replace(_of_style(load('author-date')), locales=[LocaleFile(file, text)]))


def check_references(references: ReferencesLike) -> List[Warned]:
    """What is odd in references, as `render` takes them. Raises EntriesRefused where they are no
    list, or where one isn't of its form."""
    entries, odd = read_entries(references)
    known = list(entries.values())
    found = _refuse(replace(_of_style(load('author-date')), entries=known))
    return [*odd, *found]


def check_entries(entries: ReferencesLike) -> List[Warned]:
    """The older name of `check_references`."""
    deprecated('csl.check_entries', 'csl.check_references')
    return check_references(entries)


def check_file(text: str, file: str) -> Tuple[str, List[Warned]]:
    """What the text of a style or of a locale file is, in a line, and what is odd in it. Of a style
    that depends on another this says on which, and that isn't looked for. Raises StyleRefused where
    it is neither."""
    if is_locale(text):
        return f'locale {language_of(text)}', check_locale(text, file)
    document = _of_style(Style(file, text, None, None))
    try:
        answer = document.answer()
    except TextRefused as refusal:
        if refusal.fault.parent is None:
            raise document.error(refusal) from refusal
        warnings = [document.warned(warning) for warning in refusal.warnings]
        return f'dependent style of {refusal.fault.parent}', warnings
    warnings = [document.warned(warning) for warning in answer.warnings]
    return f'independent style {name_of(text)}', warnings


def _of_style(style: Style) -> Document:
    return Document(style, [], [], [], style.language or LANGUAGE)


def _refuse(document: Document) -> List[Warned]:
    """The warnings of a document. Raises what is wrong in it."""
    try:
        answer = document.answer()
    except TextRefused as refusal:
        raise document.error(refusal) from refusal
    return [document.warned(warning) for warning in answer.warnings]


def _unknown(entries: Mapping[str, Entry],
             citations: Sequence[Citation]) -> List[Tuple[int, int, str]]:
    """The cites of entries that aren't there: the indexes of their citations, their own ones there,
    and what is wrong."""
    if ids_of(citations) <= entries.keys():
        return []
    return [(number, index, f'there is no entry {cite.id!r}{meant(cite.id, entries)}')
            for number, citation in enumerate(citations)
            for index, cite in enumerate(citation.cites) if cite.id not in entries]


def _refuse_unknown(entries: Mapping[str, Entry], citations: Sequence[Citation]) -> None:
    """Raises CitationRefused where an entry is cited that isn't there."""
    for number, index, fault in _unknown(entries, citations):
        raise CitationRefused(number, index, 'id', fault)


def _warned_of_unknown(number: int, index: int, fault: str) -> Warned:
    return Warned(place(number, index, 'id'), fault, citation=number)


def _rendered(document: Document, warnings: List[Warned], shown: int) -> Rendered:
    """The answer to a document, of whose citations the first ones are shown. Fields of entries that
    are wrong are left out."""
    document, answer = _answered(document, warnings)
    warnings += [document.warned(warning) for warning in answer.warnings
                 if not document.is_warned(warning)]
    answer = _with_stand_ins(document, answer, warnings)
    return Rendered(replace(answer, citations=answer.citations[:shown], warnings=[]), warnings,
                    document.citations[:shown])


def _answered(document: Document, warnings: List[Warned],
              warns: bool = True) -> Tuple[Document, Answer]:
    """A document without what is wrong in its entries, and the answer to it."""
    while True:
        try:
            return document, document.answer(warns)
        except TextRefused as refusal:
            document = _mended(document, refusal, warnings)


def _mended(document: Document, refusal: TextRefused, warnings: List[Warned]) -> Document:
    """The document without what is wrong in an entry, of which it warns. Raises what is wrong
    elsewhere."""
    steps, fault = steps_of(refusal.fault), refusal.fault.message
    if refusal.fault.file != 'items' or not steps:
        raise document.error(refusal) from refusal
    number, entries = int(steps[0]), list(document.entries)
    entry = entries[number]
    key = str(entry['id'])
    if len(steps) > 1 and steps[1] in entry and steps[1] != 'id':
        message = f'{fault}: the field is left out'
        warnings.append(Warned(f'entry {key}, {steps[1]}', message, entry=key))
        entries[number] = {name: value for name, value in entry.items() if name != steps[1]}
    else:
        warnings.append(warned_of_stand_in(key, fault))
        entries[number] = stand_in(key)
    return replace(document, entries=entries)


def _with_stand_ins(document: Document, answer: Answer, warnings: List[Warned]) -> Answer:
    """The answer, in whose list the id stands for an entry of which the style writes nothing. Warns
    of that, and of citations that show nothing."""
    for number, citation in enumerate(answer.citations):
        if citation.shows_nothing and \
                not all(cite.hidden for cite in document.citations[number]):
            warnings.append(Warned(f'citation {number}', NOTHING, citation=number))
    if answer.bibliography is None:
        return answer
    items = []
    for item in answer.bibliography.items:
        if item.shows_nothing:
            warnings.append(warned_of_stand_in(item.key, NOTHING))
            item = Item(item.key, _stand_in(item.key))
        items.append(item)
    return replace(answer, bibliography=replace(answer.bibliography, items=items))


def _stand_in(key: str) -> Tree:
    node: Node = {'text': key, 'font_style': 'normal', 'font_weight': 'bold'}
    return [node]

