"""Gamhilon for Python: citations and bibliographies, with formatting, links and keys.

    from gamhilon import csl

    rendered = csl.render('apa', 'library.bib', [[{'id': 'doe99', 'locator': '4'}]])
    print(*rendered.citations, rendered.bibliography, sep='\\n')
    page = rendered.to_html(links=True)

What is there:

- `csl.render` writes citations and a bibliography in a style: a published one, one of the package
  (`styles`), or one of a file. `cite` is the same from texts alone.
- `Session` keeps a document that is edited, and says what changed (`sessions`).
- `parse_citations` and `find_citations` read citations in pandoc's notation, `[see @doe99, p. 3]`;
  `markdown_pages` writes those of whole pages of Markdown, `latex_documents` those of LaTeX.
- `references.load` reads the files of reference managers: CSL-JSON, BibLaTeX, BibTeX, RIS,
  hayagriva.
- `render_document` answers a document of the driver's own form (docs/DOCUMENT.md), whose entries
  `csl_json` makes of CSL-JSON; given `write`, a host writes each cite itself (docs/DRIVEN.md).
- `to_html`, `to_markdown` and `to_latex` write trees of an answer, `style_sheet` lays out lists.

Each error that the package raises by itself is a `GamhilonError`, but for the TypeError of wrong
arguments. What is odd is in the `warnings` of what a call gives. `python3 -m gamhilon` does the
same from the command line. Calls may be made from any number of threads and processes at once.
"""
from __future__ import annotations

import json
from typing import Any, Dict, List, Mapping, Optional, Sequence, Union

from . import csl, csl_json, latex_documents, markdown_pages, references, sessions, styles
from ._citing import Json, cite_texts, texts_of
from ._deprecated import deprecated
from ._driving import Missing, State, Task, Writer, Written, drive_bytes, render_with_all
from ._library import library
from ._limits import Limits
from ._version import Version, __version__, version
from .answer import Answer, Bibliography, Citation, Item, Node, Tree, answer_of, plain
from .citation_text import (CitationTextRefused, TextCitation, find_citations,
                            parse_citations)
from .errors import (DocumentRefused, GamhilonError, LibraryFailed, LibraryMissing, LimitExceeded,
                     LimitsRefused, MacroRing, NumberOverflow, OutOfMemory, Refused,
                     StyleLimitExceeded, TextRefused, TooDeep, TooManyElements)
from .html_writer import bibliography_to_html, style_sheet, to_html
from .latex_writer import bibliography_to_latex, to_latex
from .markdown_writer import bibliography_to_markdown, to_markdown
from .sessions import Session
from .texts import TextFault, TextWarning

__all__ = [
    'Answer', 'Bibliography', 'Citation', 'CitationTextRefused', 'Document', 'DocumentRefused',
    'GamhilonError', 'Item', 'LibraryFailed', 'LibraryMissing', 'LimitExceeded', 'Limits',
    'LimitsRefused', 'MacroRing', 'Missing', 'Node', 'NumberOverflow', 'OutOfMemory', 'Refused',
    'Session', 'State', 'StyleLimitExceeded', 'Task', 'TextCitation', 'TextFault', 'TextRefused',
    'TextWarning', 'TooDeep', 'TooManyElements', 'Tree', 'Version', 'Writer', 'Written',
    '__version__',
    'bibliography_to_html', 'bibliography_to_latex', 'bibliography_to_markdown', 'check', 'cite',
    'csl', 'csl_json', 'drive_once', 'find_citations', 'latex_documents', 'markdown_pages',
    'parse_citations', 'plain', 'print_document', 'print_json', 'references', 'render',
    'render_document', 'render_with', 'sessions', 'style_sheet', 'styles', 'to_html', 'to_latex',
    'to_markdown', 'version',
]

Document = Union[Dict[str, Any], str, bytes]
"""A document: the value, or its JSON."""


def _nested_too_deep() -> DocumentRefused:
    """The refusal of a value that not even Python writes as JSON."""
    found, wanted = 'a value that nests deeper than 127 levels', 'at most 127 levels'
    return DocumentRefused(f'the document: {found}', '', found, wanted)


def _bytes_of(document: Document) -> bytes:
    """The JSON of a document. Half of a surrogate pair becomes what the library refuses."""
    if isinstance(document, bytes):
        return document
    try:
        text = document if isinstance(document, str) else json.dumps(document)
    except RecursionError:
        raise _nested_too_deep() from None
    return text.encode('utf-8', 'surrogatepass')


def _within(document: Document, limits: Optional[Limits]) -> bytes:
    """The JSON of a document, which is within the limits where there are some."""
    given = _bytes_of(document)
    if limits is not None:
        library().check_limits(given, limits)
    return given


def print_document(document: Document, *, limits: Optional[Limits] = None) -> str:
    """The text that the document prints: each citation on a line, and then, where there is a
    bibliography, an empty line and a line for each item, with its key, a tab and its text. Raises
    as `render_document` does."""
    return library().print_document(_within(document, limits)).decode()


def print_json(document: Document, *, limits: Optional[Limits] = None) -> str:
    """The answer to the document as JSON (docs/ANSWER.md). Raises as `render_document` does."""
    return library().print_json(_within(document, limits)).decode()


def render_document(document: Document, *, limits: Optional[Limits] = None,
                    write: Optional[Writer] = None) -> Answer:
    """The answer to a document of the driver's own form (docs/DOCUMENT.md).

        >>> document = {'styles': {'s': {'citation': {'elements': []}}}, 'entries': [],
        ...             'requests': [], 'bibliography': {'style': 's'}}
        >>> render_document(document).citations
        []

    With `write` the document is a driven one (docs/DRIVEN.md), a value and no text, whose cites a
    host writes itself: `write` is called once for each task that the driver asks for, and gives
    what was written. What the document has in `written` isn't asked for. The document is handed in
    again with what was written, in all at most three times more than rounds of disambiguation mark,
    or ten times where its `rounds` is `csl`.

    Raises DocumentRefused, MacroRing, NumberOverflow or OutOfMemory, each a Refused, where there is
    no answer, and LibraryMissing where there is no library; and what `write` raises. Where there
    are limits, they are checked before anything is rendered: a document that isn't within them
    raises TooDeep or TooManyElements, each a LimitExceeded and so a Refused.
    """
    if write is None:
        return answer_of(print_json(document, limits=limits))
    if not isinstance(document, dict) or limits is not None:
        raise TypeError('a document that a host writes is a dict, without limits')
    writer = write
    return render_with_all(document, lambda tasks: [writer(task) for task in tasks])


def render(document: Document, *, limits: Optional[Limits] = None) -> Answer:
    """The older name of `render_document`."""
    deprecated('gamhilon.render', 'gamhilon.render_document')
    return render_document(document, limits=limits)


def cite(style: Union[str, bytes], items: Union[Json, references.References], citations: Json, *,
         locales: Sequence[str] = (), locale: Optional[str] = None, nocite: bool = False,
         abbreviations: Optional[Mapping[str, Any]] = None, most_steps: Optional[int] = None,
         most_bytes: Optional[int] = None, draft: bool = False) -> Answer:
    """Citations and a bibliography by a style file, from texts alone (docs/WRITER.md).

    `style` is the text of a style file of CSL 1.0.2, `items` CSL-JSON, the text of a .bib file or
    of RIS, or what `references.load` gives, and `citations` a list of citations. These are lists of
    cites, or objects as in csl-citation.json; cites are dicts with `id`, and maybe `locator`,
    `label`, `prefix`, `suffix`, `suppress-author`, `author-only`, `hidden` and `note`. Items and
    citations may be JSON or its value.
    `locales` are the texts of locale files, beside that of American English, which is built in;
    `locale` is a language tag, in place of the style's. With `nocite` all items are listed.
    `abbreviations` are short forms of texts, as the JSON of pandoc and Zotero has them.
    `most_steps` and `most_bytes` are what the style may take for each cite and each item, in place
    of what no published style comes near (docs/STYLE_FILES.md). In a `draft`, a cite of an item that
    isn't there is its id in bold letters, and an item with a fault is left out, each with a
    warning.

        answer = gamhilon.cite(open('apa.csl').read(), items, [[{'id': 'doe99', 'locator': '4'}]])

    What is read otherwise than it stands in the texts is in `answer.warnings`. Raises TextRefused,
    StyleLimitExceeded, NumberOverflow or OutOfMemory, each a Refused, where there is no answer;
    LimitsRefused where a limit is no number from 0 on; and LibraryMissing where there is no
    library, or one that is older than this call.
    """
    given = items.items if isinstance(items, references.References) else items
    return cite_texts(texts_of(style, given, citations, locales, locale, nocite, abbreviations,
                               most_steps, most_bytes, draft))


def drive_once(document: Document) -> Union[Answer, Missing]:
    """One turn of the loop: the answer to a driven document (docs/DRIVEN.md), or the tasks that the
    host has to write before there is one. Raises as `render_document` does, but for MacroRing:
    there are no macros."""
    return drive_bytes(_bytes_of(document))


def render_with(document: Dict[str, Any], write: Writer) -> Answer:
    """The older name of `render_document` with `write`."""
    deprecated('gamhilon.render_with', 'gamhilon.render_document(.., write=..)')
    return render_document(document, write=write)


def check(document: Document, *, limits: Optional[Limits] = None) -> None:
    """Raises what `render_document` would raise, and gives nothing where there is an answer."""
    library().check(_within(document, limits))


def __dir__() -> List[str]:
    return sorted(__all__)
