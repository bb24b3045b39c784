"""gamhilon-pandoc: a filter for pandoc that puts in citations and a reference list.

    pandoc text.md --filter gamhilon-pandoc -o text.html

pandoc runs it; by itself it takes --help and --version. It reads from the metadata of the text:
    bibliography             a file of references (CSL-JSON, BibLaTeX, BibTeX, YAML of hayagriva), a
                             list of such files, or a map of names to files or lists of them: a div
                             of the id refs-NAME lists what is cited from the files of that name
    references               references of the text itself, as pandoc has them
    resource-path            the folders in which files are looked for, after that of the text
    csl                      a style: author-date (where it is absent), labels, notes, numeric, the
                             name of a published one, or the path of a file (gamhilon.csl)
    lang                     the language of the text
    nocite                   entries that are listed and not cited; @* for all
    link-citations           whether citations link to the reference list; true where it is absent
    link-bibliography        whether DOIs and URLs in the list are links; true where it is absent
    notes-after-punctuation  whether notes stand behind punctuation; true where it is absent
    suppress-bibliography    whether the reference list is left out
    reference-section-title  the heading of the reference list
What can't be said is told on standard error, with its place. A style or a file that isn't there is
an error, and no other is taken in its place.
"""
from __future__ import annotations

import json
import re
import sys
from typing import Any, Dict, Iterator, List, Optional, Sequence, Set, Tuple, Union

from . import _addresses, _console, csl
from ._locators import words_of
from ._nearest import meant
from ._pandoc_cites import NORMAL, Citation, Written, citation_of, written
from ._pandoc_inlines import (SPACE, Inlines, capitalized, div, inlines_of_pieces, joined, span,
                              strong, text_of, without_quoted_stop, words)
from ._pandoc_metadata import FilterError, Metadata, Source, Warn, plain_value
from ._pandoc_style import Style
from ._version import __version__
from ._writing import anchor, pieces
from .answer import Bibliography, Item, Node, Tree
from .errors import LibraryMissing, Refused
from .html_writer import layout_classes, spacing
from .references import is_shown

LIST_PREFIX = 'refs-'
_KEY = re.compile(r'@([\w*](?:[\w:.#$%&+?<>~/-]*\w)?)')


def main(arguments: Optional[List[str]] = None) -> int:
    """Runs the filter as pandoc does, with the name of a format; or says what it is."""
    words = sys.argv[1:] if arguments is None else arguments
    asks = [word for word in words if word in ('-h', '--help', '--version')]
    if asks or not words and sys.stdin is not None and sys.stdin.isatty():
        return _printed(f'gamhilon-pandoc {__version__}' if asks == ['--version']
                        else (__doc__ or '').strip())
    # texts may nest deeper than Python's own limit
    sys.setrecursionlimit(20000)
    return _console.interruptible(_run)


def _run() -> int:
    try:
        return _printed(json.dumps(filtered(_document(), _warn)))
    except Refused as refusal:
        _warn(f'no citations: {refusal}')
        return refusal.status
    except (FilterError, LibraryMissing, OSError) as error:
        _warn(str(error))
        return 1


def _printed(text: str) -> int:
    """Writes to standard output, and gives the exit status."""
    try:
        _console.write(text + '\n')
        return 0
    except _console.OutputFailed as error:
        _warn(f'standard output: {error}')
        _console.close_output()
        return _console.INPUT_OR_OUTPUT_FAILED


def _document() -> Dict[str, Any]:
    """The document that pandoc hands in. Raises FilterError where standard input has none."""
    try:
        said = json.load(sys.stdin.buffer)
    except (ValueError, RecursionError) as error:
        raise FilterError(f'standard input: no document of pandoc: {error}') from error
    if not isinstance(said, dict) or 'blocks' not in said:
        raise FilterError('standard input: no document of pandoc')
    return said


def _warn(message: str) -> None:
    print(f'gamhilon-pandoc: {message}', file=sys.stderr)


def filtered(text: Dict[str, Any], warn: Warn) -> Dict[str, Any]:
    """Pandoc's document with citations and a reference list put in. What can't be said goes to
    `warn`."""
    return _Filter(text, warn).filtered()


class _Filter:
    """The work on one text."""

    def __init__(self, text: Dict[str, Any], warn: Warn) -> None:
        self.text, self.fields, self.warn = text, text.get('meta', {}), warn
        self.meta = Metadata(self.fields, warn)
        self.style = Style(self.meta)
        self.links = self.meta.truth('link-citations', True)
        self.links_addresses = self.meta.truth('link-bibliography', True)
        self.moves_punctuation = self.meta.truth('notes-after-punctuation', True)
        self.sources: List[Source] = self.meta.sources()
        self.style.take_sources(self.sources)
        self.words_of_locators = words_of(self.style.locale)
        self.citations: Dict[int, Citation] = {}
        self.written: Dict[int, Written] = {}
        self.notes = 0

    def filtered(self) -> Dict[str, Any]:
        for value in self.places():
            self.collect(value, False, False)
        bibliography = self.answer()
        meta = {name: field if name in ('nocite', 'references') else self.replaced(field)
                for name, field in self.fields.items()}
        blocks = self.replaced(self.text['blocks'])
        if bibliography and not self.meta.truth('suppress-bibliography', False):
            blocks = self.with_references(blocks, bibliography)
        return {**self.text, 'meta': meta, 'blocks': blocks}

    # The citations of the text

    def places(self) -> Iterator[Any]:
        """What has citations, in the order of the text."""
        yield from (field for name, field in self.fields.items()
                    if name not in ('nocite', 'references'))
        yield self.text['blocks']

    def collect(self, value: Any, is_in_note: bool, is_in_link: bool) -> None:
        """Notes each citation, and counts the notes."""
        if isinstance(value, list):
            for member in value:
                self.collect(member, is_in_note, is_in_link)
        elif isinstance(value, dict) and value.get('t') == 'Cite':
            self.collect_cite(value, is_in_note, is_in_link)
        elif isinstance(value, dict):
            is_note = value.get('t') == 'Note'
            self.notes += is_note
            for member in value.values():
                self.collect(member, is_in_note or is_note, is_in_link or value.get('t') == 'Link')

    def collect_cite(self, cite: Any, is_in_note: bool, is_in_link: bool) -> None:
        citation = citation_of(cite, len(self.citations) + 1, self.style.keys,
                               self.words_of_locators)
        citation.is_in_note, citation.is_in_link = is_in_note, is_in_link
        citation.keeps_names = is_in_note and self.style.is_note
        if self.style.is_note and citation.cited:
            self.notes += not is_in_note
            citation.note = self.notes
        for key in citation.missing:
            self.warn(f'{citation.place}: no entry has the key {key}{self.near(key)}')
        self.citations[id(cite)] = citation
        self.collect_words(cite, citation, is_in_note or self.style.is_note, is_in_link)

    def collect_words(self, cite: Any, citation: Citation, is_in_note: bool,
                      is_in_link: bool) -> None:
        """Notes the citations in the words around cites: of `[see @a and @b]` pandoc makes one
        cite, with `@b` in the words behind it."""
        for part in cite['c'][0]:
            for inner in _cites([part['citationPrefix'], part['citationSuffix']]):
                self.warn(f'{citation.place}: {text_of(inner["c"][1])} stands in the words around '
                          f'@{part["citationId"]}, so that it is no cite beside it: a semicolon '
                          'between them makes it one')
                self.collect_cite(inner, is_in_note, is_in_link)

    def near(self, key: str) -> str:
        """A key that may have been meant."""
        return meant(key, self.style.keys)

    def nocite(self) -> List[str]:
        """The keys that are listed and not cited."""
        cites = _cites(self.fields.get('nocite', {}))
        keys = [part['citationId'] for cite in cites for part in cite['c'][0]]
        # (of the command line there is a text, in which nothing is a citation)
        keys += _KEY.findall(str(self.meta.said('nocite') or '')) if not keys else []
        if '*' in keys:
            return [str(item['id']) for source in self.sources for item in source.items
                    if str(item['id']) in self.style.keys]
        for key in keys:
            if key not in self.style.keys:
                self.warn(f'nocite: no entry has the key {key}{self.near(key)}')
        return [key for key in keys if key in self.style.keys]

    # The answer

    def answer(self) -> Optional[Bibliography]:
        """Writes each citation, and gives the bibliography."""
        asked = [(place, citation) for place, citation in self.citations.items() if citation.cited]
        nocite = list(dict.fromkeys(self.nocite()))
        answer = self.style.answer([citation for _, citation in asked], nocite)
        for (place, citation), tree, whole in zip(asked, answer.trees, answer.with_authors):
            links = self.links and answer.bibliography is not None and not citation.is_in_link
            self.written[place] = written(citation, tree, whole, links)
        self.tell([citation for _, citation in asked], answer.warnings)
        self.tell_losses({cited.key for _, citation in asked for cited in citation.cited}
                         | set(nocite))
        for place, citation in asked:
            for lost in self.written[place].lost:
                self.warn(f'{citation.place}: {lost}')
        return answer.bibliography

    def tell(self, citations: List[Citation], warnings: Sequence[csl.Warned]) -> None:
        """Tells what the style found odd. Of citations without an author that they have this is
        told otherwise."""
        for warned in warnings:
            if warned.citation is None:
                self.warn(str(warned))
            elif all(cited.mode == NORMAL for cited in citations[warned.citation].cited):
                self.warn(f'{citations[warned.citation].place}: {warned.message}')

    def tell_losses(self, keys: Set[str]) -> None:
        """Tells what isn't kept of these entries, where the style would have shown it."""
        for source in self.sources:
            fields = sorted({loss.field for loss in source.losses if loss.key in keys
                             and is_shown(loss, self.style.variables)})
            if fields:
                self.warn(f'{source.name}: not kept: {", ".join(fields)} '
                          f'({_console.COMMAND} check {source.path} tells more)')

    # What is put in

    def replaced(self, value: Any) -> Any:
        """A part of the text, with its citations written."""
        if isinstance(value, list):
            return self.replaced_list(value)
        if isinstance(value, dict):
            return {name: self.replaced(member) for name, member in value.items()}
        return value

    def replaced_list(self, values: List[Any]) -> List[Any]:
        found: List[Any] = []
        left = list(values)
        while left:
            part = left.pop(0)
            if not (isinstance(part, dict) and part.get('t') == 'Cite'):
                found.append(self.replaced(part))
            elif self.citations[id(part)].note is None or self.citations[id(part)].is_in_note:
                found += self.in_line(part, bool(left))
            else:
                self.put_note(part, found, left)
        return found

    def in_line(self, cite: Any, has_more: bool) -> Inlines:
        """A citation in the line."""
        citation = self.citations[id(cite)]
        if not citation.cited:
            return [self.shown(citation, _missing(citation))]
        made = self.written[id(cite)]
        rest = made.rest
        if citation.note is not None and has_more:
            rest = _without_full_stop(rest)
        spaced = [*made.names, SPACE, *rest] if made.names and rest else [*made.names, *rest]
        return [self.shown(citation, self.replaced_list(joined(spaced)))]

    def put_note(self, cite: Any, before: List[Any], after: List[Any]) -> None:
        """A citation in a note of its own, with no space before, and behind the punctuation that
        follows it."""
        citation = self.citations[id(cite)]
        made = self.written[id(cite)]
        if made.names:
            before.append(self.shown(citation, made.names))
        elif before and before[-1] in (SPACE, {'t': 'SoftBreak'}):
            before.pop()
        follows = after and isinstance(after[0], dict) and after[0].get('t') == 'Str'
        if follows and self.moves_punctuation:
            mark = after[0]['c']
            rest = mark.lstrip('.,;:!?')
            if rest != mark:
                before.append({'t': 'Str', 'c': mark[:len(mark) - len(rest)]})
                after[:1] = [{'t': 'Str', 'c': rest}] if rest else []
        if made.rest:
            rest = self.replaced_list(made.rest)
            content = self.shown(citation, capitalized(rest) if made.begins_with_words else rest)
            before.append({'t': 'Note', 'c': [{'t': 'Para', 'c': [content]}]})

    @staticmethod
    def shown(citation: Citation, content: Inlines) -> Dict[str, Any]:
        keys = [cite.key for cite in citation.cited] or citation.missing
        return span(['citation'], content, [('cites', ' '.join(keys))])

    # The reference lists

    def with_references(self, blocks: List[Any], bibliography: Bibliography) -> List[Any]:
        """The blocks with the reference lists: in a div of the id refs-NAME what is cited from the
        files of this name; and the rest in the div of the id refs where there is one, and else at
        the end."""
        names = {str(item['id']): source.list_name for source in reversed(self.sources)
                 for item in source.items}
        left = list(bibliography.items)
        for name in sorted(set(names.values()) - {''}):
            own = [item for item in left if names.get(item.key) == name]
            blocks, is_put = _filled(blocks, self.list_of(own, bibliography, LIST_PREFIX + name))
            if is_put:
                left = [item for item in left if names.get(item.key) != name]
        title = self.fields.get('reference-section-title')
        references = self.list_of(left, bibliography, 'refs')
        heading = [_heading(self.replaced(title))] if title else []
        found, is_put = _filled(blocks, references, heading)
        if is_put or not left and bibliography.items:
            return found
        return [*found, *heading, references]

    def list_of(self, items: Sequence[Item], settings: Bibliography,
                identifier: str) -> Dict[str, Any]:
        """A reference list, as a div, with the attributes that pandoc gives one."""
        told = [('line-spacing', str(settings.line_spacing)),
                ('entry-spacing', str(settings.entry_spacing)),
                ('style', spacing(settings))]
        entries = [div(anchor(item.key), ['csl-entry'], [{'t': 'Para', 'c': self.item(item)}])
                   for item in items]
        classes = ['references', 'csl-bib-body', *layout_classes(settings)]
        return div(identifier, classes, entries, told)

    def item(self, item: Item) -> Inlines:
        """An item of a reference list."""
        if item.first_field is None:
            return self.inlines(item.content)
        first, rest = self.inlines(item.first_field), self.inlines(item.content)
        while first and first[-1] == SPACE:
            first.pop()
        left = span(['csl-left-margin'], first)
        return [left, SPACE, span(['csl-right-inline'], rest)] if rest else [left]

    def inlines(self, tree: Union[Tree, Node]) -> Inlines:
        """A part of an item, with its links or without any."""
        parts = pieces(tree)
        change = _addresses.with_links if self.links_addresses else _addresses.without_links
        return inlines_of_pieces(change(parts))


def _heading(title: Any) -> Dict[str, Any]:
    """The heading of the reference list, of a field of the metadata."""
    content = list(title['c']) if title['t'] == 'MetaInlines' else words(str(plain_value(title)))
    return {'t': 'Header', 'c': [1, ['bibliography', ['unnumbered'], []], content]}


def _cites(value: Any) -> Iterator[Any]:
    """The citations of a part of the text."""
    if isinstance(value, list):
        for member in value:
            yield from _cites(member)
    elif isinstance(value, dict) and value.get('t') == 'Cite':
        yield value
    elif isinstance(value, dict):
        for member in value.values():
            yield from _cites(member)


def _missing(citation: Citation) -> Inlines:
    found: Inlines = words('(')
    for place, key in enumerate(citation.missing):
        found += [*(words('; ') if place else []), strong(f'{key}?')]
    return joined([*found, *words(')')])


def _without_full_stop(inlines: Inlines) -> Inlines:
    """The inlines without the full stop of a style of notes, which may have moved into quotation
    marks that end there."""
    if inlines and inlines[-1]['t'] == 'Str' and inlines[-1]['c'].endswith('.'):
        return [*inlines[:-1], {'t': 'Str', 'c': inlines[-1]['c'][:-1]}]
    return without_quoted_stop(inlines)


def _filled(blocks: List[Any], references: Dict[str, Any],
            heading: Sequence[Any] = ()) -> Tuple[List[Any], bool]:
    """The blocks with a list of references in the first div of its id, and whether there is one."""
    attributes, entries = references['c']
    for place, block in enumerate(blocks):
        if block.get('t') != 'Div':
            continue
        if block['c'][0][0] == attributes[0]:
            made = {'t': 'Div', 'c': [attributes, [*block['c'][1], *heading, *entries]]}
        else:
            inside, is_put = _filled(block['c'][1], references, heading)
            if not is_put:
                continue
            made = {'t': 'Div', 'c': [block['c'][0], inside]}
        return [*blocks[:place], made, *blocks[place + 1:]], True
    return blocks, False


if __name__ == '__main__':
    sys.exit(main())
