#!/usr/bin/env python3
"""entries.py PROGRAM [--mutate N] [--seed S]: what PROGRAM, a built test_readers, reads of BibTeX,
BibLaTeX and RIS.

All that the cases of bibtex_cases.py and ris_cases.py ask is read in few runs, and then the cases
are held against it. N documents (300, if not said) are made by changes of what the cases have, drawn
by the seed: each is read, as items that are CSL-JSON. Four times as many entries take about four
times as long. The last line is 'N passed, M failed', and the exit status is 1 where a test
failed."""
import argparse
import os
import random
import sys

HERE = os.path.dirname(os.path.abspath(__file__))
sys.path.append(os.path.dirname(HERE))

import bibtex_cases
import ris_cases
import runs
from asking import ASKED, SECONDS, Asked, Pending
from runs import ABOUT_FOUR, Failed, sized

# All cases


def calls():
    """Each test with its arguments."""
    found = [*vars(bibtex_cases).items(), *vars(ris_cases).items()]
    for name, test in found:
        if not name.startswith('test_'):
            continue
        names, values = getattr(test, 'cases', ([], [()]))
        for value in values:
            yield name, test, dict(zip(names, value if len(names) != 1 else (value,)))


def ask_all():
    """Asks what the cases ask, until all is answered. (Some ask for more than one document.)"""
    for _ in range(20):
        for _, test, given in calls():
            try:
                test(**given)
            except (Pending, AssertionError):
                pass
        if not ASKED.waiting:
            return
        ASKED.run()


# Changed documents


MARKS = ['{', '}', '"', '@', ',', '=', '#', '\\', '$', '~', '%', '\n', '(', ')', "\\'", '\\emph{',
         '@book{', 'crossref = {k}', '\u00e9', '\\(', 'XX', '/', '--', 'ER  - \n', 'TY  - BOOK\n']


def changed(text, chance):
    """A text with some pieces left out, doubled or put in."""
    for _ in range(chance.randint(1, 6)):
        begin = chance.randint(0, len(text))
        end = min(len(text), begin + chance.choice([0, 1, 1, 2, 5, 40]))
        put = chance.choice([chance.choice(MARKS), '', 2 * text[begin:end]])
        text = text[:begin] + put + text[end:]
    return text


def same_whatever_is_changed(program, count, seed):
    """Documents that are changed are read, as CSL-JSON."""
    chance = random.Random(seed)
    known = [document for document in ASKED.said if len(document[1]) < 5000]
    if not known:
        raise Failed('there are no documents to change')
    asked = Asked()
    asked.program = program
    for _ in range(count):
        form, text = chance.choice(known)
        try:
            asked.read((form, changed(text, chance)))
        except Pending:
            pass
    documents = list(asked.waiting)
    asked.run()
    for document in documents:
        try:
            read = asked.read(document)
        except (ValueError, Failed) as error:
            raise Failed('%s: %r' % (error, document))
        ids = [made['id'] for made in read.items]
        if len(set(ids)) != len(ids) or not all(ids):
            raise Failed('ids repeat, or are empty: %r' % (document,))


# Growth

ENTRY = ('@article{k%d, title = {On {NASA} and M{\\"u}ller: A Study}, date = {2001-02}, '
         'author = {Doe, Jane and van Roe, R.}, journal = {J. of X}, volume = {3}, '
         'pages = {11--22}}\n')
RECORD = 'TY  - JOUR\nAU  - Doe, Jane\nTI  - On Order\nT2  - J\nPY  - 2001/02\nER  - \n'
SHAPES = {
    'entries': (b'b', lambda n: ''.join(ENTRY % number for number in range(n))),
    'records': (b'i', lambda n: n * RECORD),
    'broken entries': (b'b', lambda n: n * '@book{x, title={\n'),
    'entries without an end': (b'b', lambda n: n * '@book{'),
    'accents': (b'b', lambda n: '@book{k, title={%s}}' % (n * "\\'")),
    'groups': (b'b', lambda n: '@book{k, title={%s}}' % (n * '{\\emph{a}}')),
    'formulas': (b'b', lambda n: '@book{k, title={%s}}' % (n * '$x$ \\( ')),
    'names': (b'b', lambda n: '@book{k, author={%s}}' % ' and '.join(n * ['A B'])),
    'parts': (b'b', lambda n: '@book{p, abstract={A}}' + ''.join(
        '@inbook{k%d, crossref={p}}\n' % number for number in range(n))),
    'strings': (b'b', lambda n: '@book{k, title=%s}' % '#'.join(n * ['jan'])),
}


def grows(program, name, size):
    """Four times as much takes about four times as long."""
    letter, shape = SHAPES[name]

    def seconds(count):
        given = sized(letter, [shape(count).encode()])

        def call():
            status, _, error = runs.ended([program, 'count'], given, SECONDS)
            if status != 0:
                raise Failed('status %d, %r' % (status, error[:200]))
        return runs.processor_time(runs.resource.RUSAGE_CHILDREN, call)[0]
    small, large = seconds(size), seconds(4 * size)
    if large > 0.3 and large > ABOUT_FOUR * max(small, 0.02):
        raise Failed('%s: %.2f s and %.2f s for four times as much' % (name, small, large))


def main():
    parser = argparse.ArgumentParser(description=__doc__)
    parser.add_argument('program')
    parser.add_argument('--mutate', type=int, default=300)
    parser.add_argument('--seed', type=int, default=1)
    given = parser.parse_args()
    ASKED.program = given.program
    passed = failed = 0

    def count(name, call):
        nonlocal passed, failed
        try:
            call()
            passed += 1
        except (AssertionError, Failed, ValueError, KeyError, IndexError, Pending) as error:
            failed += 1
            print('FAILED: %s: %s %s' % (name, type(error).__name__, str(error)[:2000]))

    ask_all()
    for name, test, told in calls():
        count('%s %r' % (name, told), lambda: test(**told))
    count('changed', lambda: same_whatever_is_changed(given.program, given.mutate, given.seed))
    for name in SHAPES:
        count(name, lambda: grows(given.program, name, 5000))
    print('%d passed, %d failed' % (passed, failed))
    sys.exit(1 if failed else 0)


if __name__ == '__main__':
    main()
