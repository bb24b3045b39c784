"""The commands `sample` and `diff`: what a style writes of made-up works, and what of that another
style writes otherwise."""
from __future__ import annotations

import html
from typing import Callable, Dict, List, Optional, Tuple

from . import _console, csl, pages
from ._console import INPUT_OR_OUTPUT_FAILED, NOT_OF_ITS_FORM, name_of, say
from ._sample import Sample, sample_of
from .answer import Citation, Item, plain
from .errors import Refused
from .html_writer import bibliography_to_html, to_html
from .latex_writer import bibliography_to_latex, to_latex
from .markdown_writer import bibliography_to_markdown, to_markdown

__all__ = ['DIFFERENT', 'SAMPLE_FORMS', 'diff_command', 'sample_command', 'sample_in_html']

DIFFERENT = 11
"""The exit status where texts aren't those that are asked for."""

SAMPLE_FORMS = ('text', 'html', 'markdown', 'latex')


def sample_command(style: str, form: str, locale: Optional[str], locales: Optional[str]) -> int:
    """Writes the page of a style."""
    try:
        sample = _sampled(style, locale, locales)
    except _Failed as failure:
        return failure.status
    _console.write(_WRITERS[form](sample))
    return 0


def diff_command(old: str, new: str, locale: Optional[str], locales: Optional[str]) -> int:
    """Writes what of the sample differs between two styles."""
    try:
        samples = [_sampled(style, locale, locales) for style in (old, new)]
    except _Failed as failure:
        return failure.status
    parts = [_difference('citations', *map(_citations, samples)),
             _difference('bibliography', *map(_items, samples))]
    _console.write(''.join(text for text, _ in parts))
    return DIFFERENT if any(is_different for _, is_different in parts) else 0


class _Failed(Exception):
    """Why a style writes nothing, which is said: the exit status."""

    def __init__(self, status: int) -> None:
        super().__init__(status)
        self.status = status


def _sampled(style: str, locale: Optional[str], locales: Optional[str]) -> Sample:
    """The sample of a style. Says what is odd in it. Raises _Failed, and says why."""
    try:
        with _console.progress(f'citing in {name_of(style)}'):
            sample = sample_of(style, locale, locales)
    except Refused as error:
        say(str(error))
        raise _Failed(error.status) from error
    except (csl.StyleMissing, OSError) as error:
        say(str(error))
        raise _Failed(INPUT_OR_OUTPUT_FAILED) from error
    except ValueError as error:
        say(str(error))
        raise _Failed(NOT_OF_ITS_FORM) from error
    for remark in sample.remarks():
        say(f'warning: {remark}')
    return sample


# The page

def _text(sample: Sample) -> str:
    width = max(map(len, sample.citations))
    lines = [sample.title, '', 'Citations']
    lines += [f'  {name.ljust(width)}  {plain(citation)}'.rstrip()
              for name, citation in sample.citations.items()]
    if sample.bibliography is not None:
        lines += ['', 'Bibliography']
        lines += [f'  {_text_of(item)}' for item in sample.bibliography.items]
    return ''.join(f'{line}\n' for line in lines)


def sample_in_html(sample: Sample) -> str:
    """What a page of HTML has of a sample: its title, its citations and its list."""
    rows = [f'<tr><th>{html.escape(name)}</th><td>{to_html(citation)}</td></tr>\n'
            for name, citation in sample.citations.items()]
    return (f'<h1>{html.escape(sample.title)}</h1>\n<table class="csl-sample">\n'
            f'{"".join(rows)}</table>\n{bibliography_to_html(sample.bibliography)}')


def _html(sample: Sample) -> str:
    return pages.standalone(sample_in_html(sample))


def _markdown(sample: Sample) -> str:
    lines = [f'- {name}: {to_markdown(citation)}\n' for name, citation in sample.citations.items()]
    return (f'# {sample.title}\n\n{"".join(lines)}\n'
            f'{bibliography_to_markdown(sample.bibliography)}')


def _latex(sample: Sample) -> str:
    lines = [rf'\item[{name}] {to_latex(citation)}' + '\n'
             for name, citation in sample.citations.items()]
    return (f'\\begin{{description}}\n{"".join(lines)}\\end{{description}}\n\n'
            f'{bibliography_to_latex(sample.bibliography)}')


_WRITERS: Dict[str, Callable[[Sample], str]] = {
    'text': _text, 'html': _html, 'markdown': _markdown, 'latex': _latex,
}


# What differs

Shown = Tuple[str, str]
"""A text, and the same with its formatting, as HTML."""


def _citations(sample: Sample) -> Dict[str, Shown]:
    return {name: _shown(citation) for name, citation in sample.citations.items()}


def _shown(citation: Citation) -> Shown:
    return plain(citation), to_html(citation)


def _items(sample: Sample) -> Dict[str, Shown]:
    """The items of the list by their keys, in their order."""
    items = sample.bibliography.items if sample.bibliography is not None else []
    return {item.key: (_text_of(item), _html_of(item)) for item in items}


def _text_of(item: Item) -> str:
    first = plain(item.first_field).rstrip() + ' ' if item.first_field is not None else ''
    return first + plain(item.content)


def _html_of(item: Item) -> str:
    first = to_html(item.first_field) if item.first_field is not None else ''
    return first + to_html(item.content)


def _difference(what: str, old: Dict[str, Shown], new: Dict[str, Shown]) -> Tuple[str, bool]:
    """What differs between the texts of two styles, and whether something does."""
    names = list(dict.fromkeys([*old, *new]))
    changed = [name for name in names if old.get(name) != new.get(name)]
    lines = [f'{what}: {len(changed)} of {len(names)} differ']
    for name in changed:
        lines.append(f'  {name}')
        lines += [f'    {sign} {text}' for sign, text in _two_texts(old.get(name), new.get(name))]
    common = [[name for name in side if name in old and name in new] for side in (old, new)]
    if common[0] != common[1]:
        lines += ['  in another order', f'    - {", ".join(common[0])}',
                  f'    + {", ".join(common[1])}']
    return ''.join(f'{line}\n' for line in lines), len(lines) > 1


def _two_texts(old: Optional[Shown], new: Optional[Shown]) -> List[Tuple[str, str]]:
    """The text of each side that has one, with formatting where that alone differs."""
    form = 1 if old is not None and new is not None and old[0] == new[0] else 0
    return [(sign, shown[form]) for sign, shown in (('-', old), ('+', new)) if shown is not None]
