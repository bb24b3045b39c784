"""Locale files: the words of languages beside those that styles have themselves."""
from __future__ import annotations

import os
from typing import List, NamedTuple, Optional, Sequence, Union

from .errors import StyleRefused
from .files import is_text, text_of

__all__ = ['FOLDER', 'LocaleFile', 'Locales', 'files_for', 'with_dialect']

FOLDER = '/usr/share/citation-style-language/locales'
"""Where Debian's package citation-style-language-locales has locale files."""

BUILT_IN = 'en-US'
"""The language whose words the library has."""

Locales = Union[str, 'os.PathLike[str]', Sequence[Union[str, 'os.PathLike[str]']]]
"""Where locale files are: a folder of them, or the paths or texts of some."""

_PRIMARY_DIALECTS = {
    'af': 'af-ZA', 'bg': 'bg-BG', 'ca': 'ca-AD', 'cs': 'cs-CZ', 'cy': 'cy-GB', 'da': 'da-DK',
    'de': 'de-DE', 'el': 'el-GR', 'en': 'en-US', 'es': 'es-ES', 'et': 'et-EE', 'fa': 'fa-IR',
    'fi': 'fi-FI', 'fr': 'fr-FR', 'he': 'he-IL', 'hi': 'hi-IN', 'hr': 'hr-HR', 'hu': 'hu-HU',
    'id': 'id-ID', 'is': 'is-IS', 'it': 'it-IT', 'ja': 'ja-JP', 'km': 'km-KH', 'ko': 'ko-KR',
    'lt': 'lt-LT', 'lv': 'lv-LV', 'mn': 'mn-MN', 'nb': 'nb-NO', 'nl': 'nl-NL', 'nn': 'nn-NO',
    'pl': 'pl-PL', 'pt': 'pt-PT', 'ro': 'ro-RO', 'ru': 'ru-RU', 'sk': 'sk-SK', 'sl': 'sl-SI',
    'sr': 'sr-RS', 'sv': 'sv-SE', 'th': 'th-TH', 'tr': 'tr-TR', 'uk': 'uk-UA', 'vi': 'vi-VN',
    'zh': 'zh-CN',
}


class LocaleFile(NamedTuple):
    """The text of a locale file, and how messages name it."""

    file: str
    text: str


def with_dialect(tag: str) -> str:
    """A language tag with a dialect: the primary one of a language that is told without one."""
    language, hyphen, rest = tag.replace('_', '-').partition('-')
    if not hyphen:
        return _PRIMARY_DIALECTS.get(language.lower(), language)
    return f'{language.lower()}-{rest.upper() if len(rest) == 2 else rest}'


def files_for(language: str, locales: Optional[Locales]) -> List[LocaleFile]:
    """The locale files in which words of a language are looked for: those of the dialect and of
    the language's primary dialect in a folder, or all that are handed in. Raises StyleRefused where
    one that is handed in can't be read."""
    if locales is not None and not isinstance(locales, (str, os.PathLike)):
        return [_handed_in(number, os.fspath(locale)) for number, locale in enumerate(locales)]
    folder = FOLDER if locales is None else os.fspath(locales)
    files: List[LocaleFile] = []
    for tag in _tags(language):
        path = os.path.join(folder, f'locales-{tag}.xml')
        if os.path.isfile(path):
            files.append(LocaleFile(path, _text_of(path)))
    return files


def _tags(language: str) -> List[str]:
    """The tags of the files for a language; none for the words that the library has."""
    tags = [with_dialect(language), _PRIMARY_DIALECTS.get(_without_dialect(language), '')]
    return [tag for tag in dict.fromkeys(tags) if tag and tag.lower() != BUILT_IN.lower()]


def _without_dialect(tag: str) -> str:
    return tag.replace('_', '-').split('-')[0].lower()


def _handed_in(number: int, locale: str) -> LocaleFile:
    if is_text(locale):
        return LocaleFile(f'locale {number}', locale)
    return LocaleFile(locale, _text_of(locale))


def _text_of(path: str) -> str:
    try:
        return text_of(path)
    except OSError as error:
        raise StyleRefused(path, None, None, str(error.strerror or error)) from error
