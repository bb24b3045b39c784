"""The languages of babel and polyglossia, as CSL names them."""
from __future__ import annotations

from typing import Optional

_LANGUAGES = {
    'acadian': 'fr-CA', 'afrikaans': 'af-ZA', 'american': 'en-US', 'arabic': 'ar',
    'australian': 'en-GB', 'austrian': 'de-AT', 'basque': 'eu', 'brazil': 'pt-BR',
    'brazilian': 'pt-BR', 'british': 'en-GB', 'bulgarian': 'bg-BG', 'canadian': 'en-US',
    'canadien': 'fr-CA', 'catalan': 'ca-AD', 'croatian': 'hr-HR', 'czech': 'cs-CZ',
    'danish': 'da-DK', 'dutch': 'nl-NL', 'english': 'en-US', 'estonian': 'et-EE', 'farsi': 'fa-IR',
    'finnish': 'fi-FI', 'francais': 'fr-FR', 'french': 'fr-FR', 'german': 'de-DE',
    'germanb': 'de-DE', 'greek': 'el-GR', 'hebrew': 'he-IL', 'hungarian': 'hu-HU',
    'icelandic': 'is-IS', 'italian': 'it-IT', 'japanese': 'ja-JP', 'latin': 'la',
    'latvian': 'lv-LV', 'lithuanian': 'lt-LT', 'magyar': 'hu-HU', 'mongolian': 'mn-MN',
    'naustrian': 'de-AT', 'newzealand': 'en-GB', 'ngerman': 'de-DE', 'norsk': 'nb-NO',
    'nynorsk': 'nn-NO', 'polish': 'pl-PL', 'polutonikogreek': 'el-GR', 'portugues': 'pt-PT',
    'portuguese': 'pt-PT', 'romanian': 'ro-RO', 'russian': 'ru-RU', 'serbian': 'sr-RS',
    'serbianc': 'sr-RS', 'slovak': 'sk-SK', 'slovene': 'sl-SI', 'spanish': 'es-ES',
    'swedish': 'sv-SE', 'swissgerman': 'de-CH', 'nswissgerman': 'de-CH', 'thai': 'th-TH',
    'turkish': 'tr-TR', 'ukenglish': 'en-GB', 'ukrainian': 'uk-UA', 'usenglish': 'en-US',
    'vietnamese': 'vi-VN',
}
"""The languages of babel and polyglossia, with the regions that pandoc gives them."""

_MORE = {
    'galician': 'gl-ES', 'indonesian': 'id-ID', 'korean': 'ko-KR', 'norwegian': 'nb-NO',
    'portuges': 'pt-PT', 'slovenian': 'sl-SI',
}
"""Those that pandoc lacks."""


def tag_of(language: str) -> Optional[str]:
    """The tag of a language of babel; None where CSL has none, or it is that of most styles.

        >>> tag_of('ngerman'), tag_of('english')
        ('de-DE', None)
    """
    name = language.strip().lower()
    tag = _LANGUAGES.get(name) or _MORE.get(name)
    return None if tag == 'en-US' else tag
