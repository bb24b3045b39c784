#!/usr/bin/env python3
"""How long the citations of a site of Markdown take, without what the site generator does.

    bench/markdown_site.py [--pages N] [--citations N] [--style STYLE] [--stand-in]

Makes a site of so many pages (500) with so many citations each (20) of 1,000 works, and prints the
processor time, in milliseconds, of reading its pages, of writing them by one call of the library,
and, as under `mkdocs serve`, of one page whose words have changed, and of one with one more
citation: the fastest of five runs. It needs the library (embed/build.py); with --stand-in one that
is made up stands in for it, whose own time is left out. As in the plugin for MkDocs, Python doesn't
look for what it can free.
"""
import argparse
import gc
import pathlib
import random
import sys
import time

ROOT = pathlib.Path(__file__).resolve().parent.parent
sys.path[:0] = [str(ROOT / 'embed/python/src'), str(ROOT / 'embed/python/tests')]
from gamhilon import _library, markdown_pages  # noqa: E402

WORDS = ('species vary by small steps over long times so that what lives in a place is like what '
         'lived there before').split()
RUNS = 5


def made_up_works(count):
    return [{'id': f'work{number}', 'type': 'book', 'title': f'Title {number}',
             'author': [{'family': f'Name{number % 400}', 'given': 'Ann'}],
             'issued': {'date-parts': [[1900 + number % 100]]}} for number in range(count)]


def made_up_page(chosen, number, citations, works):
    lines = [f'# Page {number}\n']
    for place in range(citations):
        words = ' '.join(chosen.choice(WORDS) for _ in range(25))
        key = chosen.choice(works)['id']
        lines.append(f'{words} [see @{key}, p. {place + 1}] and so on.\n')
    return '\n'.join(lines)


apart = [0.0]
# (the seconds that were spent in what stands in for the library)


def timed(work):
    """The milliseconds that some work took."""
    began, before = time.process_time(), apart[0]
    work()
    return 1000 * (time.process_time() - began - (apart[0] - before))


def stand_in():
    """What stands in for the library."""
    from stand_ins import MadeUpSessions

    def apart_from(function):
        def call(*given):
            began = time.process_time()
            status = function(*given)
            apart[0] += time.process_time() - began
            return status
        return call

    functions = MadeUpSessions()
    for name in dir(functions):
        if name.startswith('gamhilon_'):
            setattr(functions, name, apart_from(getattr(functions, name)))
    return _library.Library(functions)


def one_run(texts, works, style):
    """The milliseconds of reading, of writing, and of a page that is edited in two ways."""
    site = markdown_pages.Site(style, works, html=True, list_page='page0')

    def read():
        for name, text in texts.items():
            site.add(name, text)

    def write():
        site.write()
        return [site.page(name) for name in texts]

    def revise(more):
        return lambda: site.revise({'page7': texts['page7'] + more}) and site.page('page7')

    return [timed(work) for work in (read, write, revise('\nMore words.\n'),
                                     revise('\nMore [@work7].\n'))]


def main():
    parser = argparse.ArgumentParser(description=__doc__,
                                     formatter_class=argparse.RawDescriptionHelpFormatter)
    parser.add_argument('--pages', type=int, default=500)
    parser.add_argument('--citations', type=int, default=20)
    parser.add_argument('--style', default='author-date')
    parser.add_argument('--stand-in', action='store_true')
    asked = parser.parse_args()
    if asked.stand_in:
        _library._library = stand_in()
    gc.disable()
    chosen, works = random.Random(1), made_up_works(1000)
    texts = {f'page{number}': made_up_page(chosen, number, asked.citations, works)
             for number in range(max(asked.pages, 8))}
    runs = [one_run(texts, works, asked.style) for _ in range(RUNS)]
    for name, times in zip(('reading', 'writing', 'other words', 'one more citation'), zip(*runs)):
        print(f'{name}: {min(times):.1f} ms')


if __name__ == '__main__':
    main()
