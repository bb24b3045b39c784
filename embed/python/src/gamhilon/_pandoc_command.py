"""What a filter can see of the command line of pandoc, which tells filters nothing of it."""
from __future__ import annotations

import os
from typing import List

# The options whose value is the next word.
_WITH_A_VALUE = set('frtwodMVHBAcFLTD')
_WITH_A_VALUE_LONG = {
    'from', 'read', 'to', 'write', 'output', 'data-dir', 'metadata', 'metadata-file', 'defaults',
    'template', 'variable', 'toc-depth', 'number-offset', 'extract-media', 'resource-path',
    'include-in-header', 'include-before-body', 'include-after-body', 'highlight-style',
    'syntax-definition', 'dpi', 'columns', 'tab-stop', 'pdf-engine', 'pdf-engine-opt',
    'reference-doc', 'request-header', 'abbreviations', 'indented-code-classes', 'filter',
    'lua-filter', 'shift-heading-level-by', 'base-header-level', 'slide-level', 'id-prefix',
    'title-prefix', 'css', 'epub-subdirectory', 'epub-cover-image', 'epub-metadata',
    'epub-embed-font', 'epub-chapter-level', 'bibliography', 'csl', 'citation-abbreviations', 'log',
    'wrap', 'eol', 'top-level-division', 'email-obfuscation', 'ipynb-output', 'track-changes',
    'reference-location', 'markdown-headings',
}


def folders() -> List[str]:
    """The folders of the pages that pandoc reads, and those of its option --resource-path; none
    where nothing tells them, as on other systems than Linux."""
    try:
        with open(f'/proc/{os.getppid()}/cmdline', 'rb') as file:
            words = file.read().decode('utf-8', 'surrogateescape').split('\0')
    except OSError:
        return []
    return folders_of(words[1:]) if os.path.basename(words[0]).startswith('pandoc') else []


def folders_of(words: List[str]) -> List[str]:
    """The same of the words of a command line."""
    pages, resources = [], []
    left = list(words)
    while left:
        word = left.pop(0)
        name, equals, value = word[2:].partition('=') if word.startswith('--') else ('', '', '')
        takes_next = name in _WITH_A_VALUE_LONG and not equals or (
            len(word) == 2 and word[0] == '-' and word[1] in _WITH_A_VALUE)
        if takes_next and left:
            value = left.pop(0)
        if name == 'resource-path':
            resources += value.split(os.pathsep)
        elif not word.startswith('-') and os.path.isfile(word):
            pages.append(os.path.dirname(word))
    return list(dict.fromkeys([*pages, *resources]))
