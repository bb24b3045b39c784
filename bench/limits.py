#!/usr/bin/env python3
"""limits.py PROGRAM [STYLE..]: what styles cost that take as much as they may, and how far published
styles are from their limits.

PROGRAM is crates/gamhilon/out/gamhilon. For each style that is made to cost much, and one or a
hundred items and citations, prints the exit status (10: the style was refused), the processor time
and the memory. For each STYLE of Debian's citation-style-language-styles (some whose layouts are
long, where none is told) and each document, prints the least --most-steps and --most-bytes with
which it is written: works as bench/published.py has them, and works of one group of eight authors
and few years, which are hard to disambiguate.
"""
import json
import os
import subprocess
import sys
import tempfile

import published

HERE = os.path.dirname(os.path.abspath(__file__))
sys.path[:0] = [HERE + '/../tests/writer', HERE + '/../tests']
import faults

STYLES = ('apa', 'apa-cv', 'chicago-fullnote-bibliography', 'ieee', 'isnad-dipnotlu', 'organization-studies')
MOST = 10 ** 7


def listing(layout, *macros):
    """A style whose cites and whose items this layout writes."""
    style = faults.of_macros(layout, *macros)
    return style.replace('</style>', '<bibliography><layout>%s</layout></bibliography></style>' % layout)


TITLE = faults.TITLE
NAMES = '<names variable="author"/>'
# Style, and how many names an item has.
DEAR = {
    'macros that double to 2,048 texts': (listing('<text macro="m11"/>', *faults.twice(11, TITLE)), 1),
    'macros that double to 131,072 texts': (listing('<text macro="m17"/>', *faults.twice(17, TITLE)), 1),
    '1,000 texts': (listing(TITLE * 1000), 1),
    '9,000 texts': (listing(TITLE * 9000), 1),
    '3,000 groups': (listing(('<group delimiter=", ">%s</group>' % TITLE) * 3000), 1),
    '4,000 texts in italics': (listing('<text variable="title" font-style="italic" prefix=" "/>' * 4000), 1),
    '2,000 quotes': (listing('<text variable="title" quotes="true"/>' * 2000), 1),
    '2,000 dates': (listing('<date variable="issued"><date-part name="year" prefix=" "/></date>' * 2000), 1),
    '24 names elements of 100 names': (listing(NAMES * 24), 100),
    '1,900 names elements': (listing(NAMES * 1900), 1),
    'an affix of 20 KB': (listing('<text variable="title" prefix="%s"/>' % ('x' * 20000)), 1),
    'an affix of 190 KB': (listing('<text variable="title" prefix="%s"/>' % ('x' * 190000)), 1),
    'a value of 39 KB of markup': (listing('<text value="%s"/>' % ('&lt;i&gt;a&lt;/i&gt;' * 4900)), 1),
}


def book(number, names):
    return {'id': f'w{number}', 'type': 'book', 'title': f'T{number}', 'issued': {'date-parts': [[2000 + number % 20]]},
            'author': [{'family': f'Family{it}', 'given': 'Ann B.'} for it in range(names)]}


def alike(number):
    """An article of the same eight authors as the others; of each eighth one the last author is
    another, and of each third one too."""
    authors = [{'family': family, 'given': 'Anna'} for family in published.FAMILIES[:7]]
    last = {'family': f'Zed{number % 50}', 'given': 'Quentin'} if number % 3 == 0 else \
        {'family': 'Hansen', 'given': published.GIVEN[number % 8]}
    return {**published.work(number), 'author': [*authors, last], 'editor': authors[:3], 'translator': authors[3:5],
            'publisher': 'House', 'DOI': f'10.1000/x{number}', 'issued': {'date-parts': [[2001 + number // 200]]}}


def write(folder, works, citations):
    for name, value in (('references', works), ('citations', citations)):
        with open(f'{folder}/{name}.json', 'w', encoding='utf-8') as file:
            json.dump(value, file)


def ended(program, folder, style, *words):
    """The exit status of the program, its processor time and its memory."""
    words = [program, 'cite', '--with-bibliography', *words, '--style', style, 'references.json', 'citations.json']
    process = subprocess.Popen(words, cwd=folder, stdout=subprocess.DEVNULL, stderr=subprocess.DEVNULL)
    _, status, usage = os.wait4(process.pid, 0)
    return os.waitstatus_to_exitcode(status), usage.ru_utime + usage.ru_stime, usage.ru_maxrss * 1024


def least(program, folder, style, flag):
    """The least limit with which a document is written, to within a thirtieth; None above MOST."""
    low, high = 0, 16
    while ended(program, folder, style, flag, str(high))[0] != 0:
        low, high = high, 2 * high
        if high > MOST:
            return None
    while high - low > max(1, high // 30):
        middle = (low + high) // 2
        if ended(program, folder, style, flag, str(middle))[0] == 0:
            high = middle
        else:
            low = middle
    return high


def try_dear(program, folder):
    print('| Style | Bytes | Items | Citations | Status | Time | Memory |\n|---|---|---|---|---|---|---|')
    for name, (style, names) in DEAR.items():
        with open(f'{folder}/style.csl', 'w', encoding='utf-8') as file:
            file.write(style)
        for works, count in ((1, 1), (100, 100), (1, 100)):
            write(folder, [book(it, names) for it in range(works)], [[{'id': f'w{it % works}'}] for it in range(count)])
            status, seconds, memory = ended(program, folder, 'style.csl')
            print(f'| {name} | {len(style)} | {works} | {count} | {status} | {seconds:.2f} s | {memory / 1e6:.0f} MB |', flush=True)


def try_published(program, folder, styles):
    print('\n| Style | Works | Status | --most-steps | --most-bytes |\n|---|---|---|---|---|')
    documents = {
        'of published.py': ([published.work(it) for it in range(200)], [published.citation(it, 200) for it in range(400)]),
        'alike': ([alike(it) for it in range(200)], [[{'id': f'w{it}'}, {'id': f'w{(7 * it + 1) % 200}'}] for it in range(200)]),
    }
    for kind, (works, citations) in documents.items():
        write(folder, works, citations)
        for name in styles:
            style = f'{published.FOLDER}/{name}.csl'
            status = ended(program, folder, style)[0]
            limits = [least(program, folder, style, flag) for flag in ('--most-steps', '--most-bytes')]
            print(f'| {name} | {kind} | {status} | {limits[0]} | {limits[1]} |', flush=True)


def main(words):
    program = os.path.abspath(words[0])
    with tempfile.TemporaryDirectory() as folder:
        try_dear(program, folder)
        try_published(program, folder, words[1:] or STYLES)


if __name__ == '__main__':
    if len(sys.argv) < 2:
        sys.exit(__doc__)
    main(sys.argv[1:])
