"""Texts with formats, as runs, and as the texts of CSL-JSON fields."""
from __future__ import annotations

import re
from itertools import groupby
from typing import Iterable, List, NamedTuple, Tuple

Formats = Tuple[str, ...]
"""The formats of a run, the outermost first: `i`, `b`, `sc`, `sup` and `sub`."""

WORD = re.compile(r"[^\W_]+(?:['\u2019][^\W_]+)*")
"""A word, with the apostrophes inside it."""

_TAGS = {
    'i': ('<i>', '</i>'),
    'b': ('<b>', '</b>'),
    'sup': ('<sup>', '</sup>'),
    'sub': ('<sub>', '</sub>'),
    'sc': ('<span style="font-variant:small-caps;">', '</span>'),
    'nocase': ('<span class="nocase">', '</span>'),
}


class Run(NamedTuple):
    """A part of a text. `is_protected` tells whether no style may change its case."""

    text: str
    formats: Formats = ()
    is_protected: bool = False


def csl_title(runs: Iterable[Run]) -> str:
    """The text of a title in CSL-JSON. Words that a style may not change stand in a span of class
    `nocase`, if it could: the case rules of CSL leave alone what has a capital."""
    parts: List[Tuple[str, Formats]] = []
    before, left = '', with_single_spaces(runs)
    for is_protected, group in groupby(left, key=lambda run: run.is_protected):
        own = list(group)
        text = ''.join(run.text for run in own)
        done = len(parts) + len(own)
        after = left[done].text[:1] if done < len(left) else ''
        is_kept = is_protected and _stands_apart(before, text, after) and _has_lower_case_word(text)
        parts += [(run.text, ('nocase', *run.formats) if is_kept else run.formats) for run in own]
        before = text[-1:]
    return _with_tags(parts)


def with_single_spaces(runs: Iterable[Run]) -> List[Run]:
    """The runs with single spaces, with none at both ends, and without empty runs. Spaces that
    don't break a line stay."""
    found: List[Run] = []
    ends_with_space = True
    for run in runs:
        text = re.sub(r'[ \t\r\n\f\v]+', ' ', run.text)
        text = text.lstrip(' ') if ends_with_space else text
        if text:
            found.append(run._replace(text=text))
            ends_with_space = text.endswith(' ')
    while found:
        last = found.pop()
        if last.text.rstrip(' '):
            return [*found, last._replace(text=last.text.rstrip(' '))]
    return []


def _stands_apart(before: str, text: str, after: str) -> bool:
    """Whether a text is no part of a longer word, of which these are the letters beside it."""
    return not (before.isalnum() and text[0].isalnum() or text[-1].isalnum() and after.isalnum())


def _has_lower_case_word(text: str) -> bool:
    return any(word.islower() for word in WORD.findall(text))


def _with_tags(parts: Iterable[Tuple[str, Formats]]) -> str:
    written: List[str] = []
    open_formats: Formats = ()
    for text, formats in parts:
        same = 0
        while same < min(len(open_formats), len(formats)) and open_formats[same] == formats[same]:
            same += 1
        written += [_TAGS[name][1] for name in reversed(open_formats[same:])]
        written += [_TAGS[name][0] for name in formats[same:]]
        written.append(text)
        open_formats = formats
    return ''.join([*written, *[_TAGS[name][1] for name in reversed(open_formats)]])
