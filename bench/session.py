#!/usr/bin/env python3
"""What an edit costs in a session, against the whole answer from the beginning.

    bench/session.py [--program PATH] [--style FILE] [--items N] [--citations N] [--edits N]

A session of the built program (`gamhilon session`) has a library of --items works and --citations citations of
them in a style, apa where this machine has it. Prints the processor time, without that of the
system, of opening it with its first answer; and of each of --edits edits with its answer, in the
mean: a locator that changes, a citation that is put in the middle, a work that changes, and a
document of two cites of that library. The most memory is that of all of it, and of as many more
edits."""
import argparse
import json
import os
import pathlib
import subprocess
import tempfile

ROOT = pathlib.Path(__file__).resolve().parent.parent
APA = '/usr/share/citation-style-language/styles/apa.csl'
OWN = str(ROOT / 'examples' / 'styles' / 'author-date.csl')


def work(n):
    return {'id': f'w{n}', 'type': 'book', 'title': f'The work of number {n}', 'publisher': 'Press',
            'author': [{'family': f'Family{n % 997}', 'given': f'Given {n % 13}'}],
            'issued': {'date-parts': [[1950 + n % 60]]}}


def citation(n, **more):
    return {'citationID': f'c{n}', 'citationItems': [{'id': f'w{n * 7 % 20000}', **more}, {'id': f'w{n * 3 % 20000}'}]}


def line(word, value=True):
    return f'{json.dumps({word: value})}\n'.encode()


def measured(program, lines):
    """The processor time in milliseconds and the most memory in MB of a session with these lines."""
    with tempfile.TemporaryFile() as given:
        given.write(b''.join(lines))
        given.seek(0)
        process = subprocess.Popen([program, 'session'], stdin=given, stdout=subprocess.DEVNULL)
        _, status, used = os.wait4(process.pid, 0)
        process.returncode = os.waitstatus_to_exitcode(status)
        if status:
            raise SystemExit(f'{program} ended with {process.returncode}')
        return used.ru_utime * 1e3, used.ru_maxrss / 1024


def edited(kind, citations, edits):
    """The lines of so many edits of one kind, each with its answer."""
    for number in range(edits):
        middle = len(citations) // 2
        if kind == 'a locator changes':
            changed = list(citations)
            changed[middle] = citation(middle, locator=str(number + 1))
            yield line('citations', changed)
        elif kind == 'a citation comes and goes':
            more = [] if number % 2 else [citation(len(citations))]
            yield line('citations', citations[:middle] + more + citations[middle:])
        elif kind == 'a work changes':
            yield line('items', [{**work(7 * middle % 20000), 'title': f'Another title {number}'}])
        else:
            yield line('citations', [citation(number)])
        yield line('answer')


def main():
    words = argparse.ArgumentParser()
    words.add_argument('--program', default=str(ROOT / 'crates/gamhilon/out/gamhilon'))
    words.add_argument('--style', default=APA if os.path.exists(APA) else OWN)
    words.add_argument('--items', type=int, default=20000)
    words.add_argument('--citations', type=int, default=1000)
    words.add_argument('--edits', type=int, default=50)
    words = words.parse_args()
    citations = [citation(n) for n in range(words.citations)]
    style = pathlib.Path(words.style).read_text(encoding='utf-8')
    begun = [line('open', {'style': style}), line('items', [work(n) for n in range(words.items)]),
             line('citations', citations), line('answer')]
    opened, memory = measured(words.program, begun)
    print(f'opened, and the first answer: {opened:.0f} ms, {memory:.0f} MB')
    answered, _ = measured(words.program, begun + [line('whole')] * 10)
    print(f'all that was written, once more: {(answered - opened) / 10:.1f} ms')
    for kind in ('a locator changes', 'a citation comes and goes', 'a work changes', 'two cites of the library'):
        lines = list(edited(kind, citations, words.edits))
        few, at_first = measured(words.program, begun + lines)
        many, later = measured(words.program, begun + lines * 3)
        print(f'{kind}: {(many - few) / 2 / words.edits:.2f} ms, {at_first:.0f} MB and then {later:.0f} MB')


if __name__ == '__main__':
    main()
