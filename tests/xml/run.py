#!/usr/bin/env python3
"""run.py PROGRAM [--mutate N] [--seed S]: compares PROGRAM, a built test_readers, with expat, and
with Python's xml.etree, which stands on it.

The trees of all documents of documents/, and of all files of Debian's packages
citation-style-language-styles and citation-style-language-locales, are expat's, name by name and
attribute by attribute; those that aren't installed are named. The documents of broken.py are
refused at their places and in their words. N documents (3000, if not said) are made by changes of
others, drawn by the seed: each is read, with the same tree, where xml.etree reads it, and else
refused at a place of the text, but for what this reader refuses by a limit and for names that only
the fifth edition of XML 1.0 allows. What a limit just allows is read. Each growth of memory is
refused in turn (tests/documents/refuse.c, for which a C compiler must be there). Four times as much
takes about four times as long, and the packages' files no longer than xml.etree takes for their
trees. The last line is 'N passed, M failed', and the exit status is 1 where a test failed."""
import argparse
import glob
import hashlib
import os
import re
import resource
import sys
import time
import xml.etree.ElementTree
from xml.parsers import expat

HERE = os.path.dirname(os.path.abspath(__file__))
sys.path.append(os.path.dirname(HERE))

import runs
from broken import BEYOND, EXPAT, RULE
from mutated import mutated_documents
from runs import ATTEMPTS, Failed, read

STYLES = '/usr/share/citation-style-language/'
PACKAGES = {'styles': '*.csl', 'locales': '*.xml'}
FAULT = re.compile('([1-9][0-9]*) ([1-9][0-9]*) found (the end of the text|`.*`), wanted (.*)', re.DOTALL)
# What expat reads, and this reader refuses.
OWN_REFUSALS = [it[3].split('wanted ')[1] for it in BEYOND]
MOST_MEMORY = 1 << 30
SECONDS = 600
BATCH = 2000
# What can be told from nothing, in seconds.
MEASURABLE = 0.1


def ended(program, documents, *words, **how):
    """Status, standard output and standard error of a run with these documents."""
    return runs.ended([program, *words], runs.sized(b'x', documents), SECONDS, **how)


def answers(program, documents):
    """What the program says of each document."""
    status, out, error = ended(program, documents, preexec_fn=runs.at_most(MOST_MEMORY))
    if status != 0 or error:
        raise Failed('status %d, %r' % (status, error[:200]))
    lines = out.decode().split('\n')
    if len(lines) != len(documents) + 1:
        raise Failed('%d lines for %d documents' % (len(lines) - 1, len(documents)))
    return lines[:-1]


# Trees


class Tree:
    """What crates/test_readers/src/xml.rt makes of a document, as expat tells of it."""

    def __init__(self):
        self.out, self.text = [], []

    def end_text(self):
        if self.text:
            self.out.append('\4' + ''.join(self.text))
            self.text = []

    def start(self, name, attributes):
        self.end_text()
        self.out.append('\1' + name)
        for at in range(0, len(attributes), 2):
            self.out.append('\2%s\3%s' % tuple(attributes[at : at + 2]))

    def end(self, _name):
        self.end_text()
        self.out.append('\5')


def digest(document):
    """The digest of a document's tree. What xml.etree refuses, as for its prefixes, is a
    ParseError."""
    xml.etree.ElementTree.fromstring(document)
    tree, parser = Tree(), expat.ParserCreate()
    parser.ordered_attributes = True
    parser.StartElementHandler, parser.EndElementHandler = tree.start, tree.end
    parser.CharacterDataHandler = lambda text: tree.text.append(text)
    parser.Parse(document, True)
    return hashlib.md5(''.join(tree.out).encode()).hexdigest()


def same_trees(program, paths):
    documents = [read(it) for it in paths]
    said = answers(program, documents)
    wrong = [path for path, document, line in zip(paths, documents, said) if line != digest(document)]
    if wrong or not paths:
        raise Failed('of %d documents, %d have another tree: %s' % (len(paths), len(wrong), ', '.join(wrong[:5])))


def package_files(package):
    return sorted(glob.glob(STYLES + package + '/**/' + PACKAGES[package], recursive=True))


# Documents that are refused


def place_of_expat(document):
    """Where expat refuses a document, or None, and the byte there."""
    parser = expat.ParserCreate(namespace_separator='}')
    try:
        parser.Parse(document, True)
    except expat.ExpatError as error:
        return (error.lineno, error.offset + 1), parser.ErrorByteIndex
    return None, None


def broken(program):
    documents = [*EXPAT, *RULE, *BEYOND]
    wrong = []
    for (document, *place, words), line in zip(documents, answers(program, [it[0] for it in documents])):
        if line != '%d %d %s' % (*place, words):
            wrong.append('%r: %s' % (document[:60], line))
    for (document, *place, _), agreeing in [*((it, True) for it in EXPAT), *((it, False) for it in RULE)]:
        theirs = place_of_expat(document)[0]
        if theirs is None or (theirs == tuple(place)) != agreeing:
            wrong.append('%r: expat says %s' % (document[:60], theirs))
    for document, *_ in BEYOND:
        if place_of_expat(document)[0] is not None:
            wrong.append('%r: expat refuses it' % document[:60])
    if wrong:
        raise Failed('\n'.join(wrong))


def within_limits(program):
    """What the limits just allow is read."""
    documents = [
        b'<a>' * 255 + b'<b/>' + b'</a>' * 255,
        b'<a ' + b' '.join(b'b%d="%d"' % (n, n) for n in range(256)) + b'/>',
        b'<a %b><b1:c b2:d="e"/></a>' % b' '.join(b'xmlns:b%d="u%d"' % (n, n) for n in range(64)),
    ]
    for document, line in zip(documents, answers(program, documents)):
        if line != digest(document):
            raise Failed('%r..: %s' % (document[:40], line))


# Mutated documents


def newer_name(document, at):
    """Whether expat stops at a character of a name that only the fifth edition of XML 1.0
    allows."""
    return document[at:].decode()[:1] >= '\x80'


def judge(document, line):
    """What is wrong with what was said of a document, if anything."""
    fault = FAULT.fullmatch(line)
    try:
        theirs = digest(document)
    except (xml.etree.ElementTree.ParseError, LookupError):
        theirs = None
    if fault is None:
        if theirs is None:
            return None if newer_name(document, place_of_expat(document)[1]) else 'expat refuses it'
        return None if line == theirs else 'another tree'
    if theirs is not None and fault[4] not in OWN_REFUSALS:
        return 'expat reads it'
    lines = document.decode(errors='replace').split('\n')
    row, column = int(fault[1]), int(fault[2])
    if row > len(lines) or column > len(lines[row - 1]) + 1:
        return 'no place of the text'
    return None


def mutations(program, count, seed):
    bases = [read(it) for it in own_documents()]
    bases += [it for it in map(read, package_files('styles')[::400]) if len(it) < 6000]
    wrong, refused, batch = [], 0, []
    for number, document in enumerate(mutated_documents(bases, count, seed), 1):
        batch.append(document)
        if len(batch) == BATCH or number == count:
            for document, line in zip(batch, answers(program, batch)):
                refused += ' ' in line
                said = judge(document, line)
                if said:
                    wrong.append('%s, but %s: %r' % (said, line, document))
            batch = []
    print('%d documents of the seed %d, of which %d are refused' % (count, seed, refused))
    if wrong:
        raise Failed('%d of them:\n%s' % (len(wrong), '\n'.join(wrong[:5])))


# Memory


def refused_in_turn(program, document):
    """Each run with a growth refused ends with status 5, or 1 while the input is read, and prints
    nothing; or with the answer. Reading is refused some, and at last none is refused."""
    run = lambda environment: ended(program, [document], 'calls', env=environment)
    refused, in_reading = runs.refused_in_turn(run, unread=1)
    if in_reading < 10:
        raise Failed('only %d growths were refused while a document was read' % in_reading)
    print('%d growths refused in turn, %d of them while a document was read' % (refused, in_reading))


# Time


def seconds(program, documents):
    """The processor time of reading these documents."""
    time, (status, _, _) = runs.processor_time(resource.RUSAGE_CHILDREN, lambda: ended(program, documents, 'count'))
    if status != 0:
        raise Failed('status %d' % status)
    return time


def shapes(size):
    """Documents of about this many bytes, each of much of one kind."""
    attributes = b'<a %b/>' % b' '.join(b'attribute%d="value"' % n for n in range(256))
    names = b'<a xmlns:b="u" %b/>' % b' '.join(b'b:c%d=""' % n for n in range(200))
    return {
        'elements': b'<a>%b</a>' % (b'<b>c</b>' * (size // 8)),
        'depth': b'<r>%b</r>' % ((b'<a>' * 255 + b'</a>' * 255) * (size // 1785)),
        'attributes': b'<a>%b</a>' % (attributes * (size // len(attributes))),
        'prefixes': b'<a>%b</a>' % (names * (size // len(names))),
        'references': b'<a>%b</a>' % (b'&amp;' * (size // 5)),
        'line ends': b'<a>%b</a>' % (b'\r]' * (size // 2)),
        'comments': b'<a>%b</a>' % (b'<!-- -->b' * (size // 9)),
        'a name': b'<%b b=""/>' % (b'a' * size),
        'a value': b'<a b="%b"/>' % (b'\n' * size),
        'no end': b'<a>%b' % (b'<!--' * (size // 4)),
    }


def linear_time(program):
    small, large = shapes(1 << 20), shapes(1 << 22)
    four = lambda document: seconds(program, [document] * 4)
    wrong = [it for it in small if not runs.grows_evenly(it, four, small[it], large[it], MEASURABLE)]
    if wrong:
        raise Failed('more than about four times as long for four times as much: %s' % ', '.join(wrong))


def seconds_of_expat(documents):
    """The processor time of the trees of xml.etree."""
    began = time.process_time()
    for document in documents:
        xml.etree.ElementTree.fromstring(document)
    return time.process_time() - began


def cost(program, paths):
    """Reading takes no longer than xml.etree takes for its trees."""
    documents = [read(it) for it in paths]
    for _ in range(ATTEMPTS):
        theirs, ours = seconds_of_expat(documents), seconds(program, documents)
        if ours <= theirs:
            break
    print('%d files of the packages: %.2f s, and %.2f s by xml.etree' % (len(paths), ours, theirs))
    if ours > theirs:
        raise Failed('longer than xml.etree')


# All of it


def own_documents():
    return sorted(glob.glob(HERE + '/documents/*.xml'))


def tests_of(program, given):
    """Each test: its name, the call, and what it is called with."""
    tests = [('documents: ' + os.path.basename(it), same_trees, [it]) for it in own_documents()]
    files = [path for package in PACKAGES for path in package_files(package)]
    for package in PACKAGES:
        if package_files(package):
            tests.append(('documents of the package of ' + package, same_trees, package_files(package)))
        else:
            print('not installed, and left out: citation-style-language-' + package)
    tests.append(('documents that are refused', broken))
    tests.append(('documents that the limits just allow', within_limits))
    tests.append(('mutated documents', mutations, given.mutate, given.seed))
    for path in own_documents()[:2]:
        tests.append(('growths of memory: ' + os.path.basename(path), refused_in_turn, read(path)))
    tests.append(('time', linear_time))
    if files:
        tests.append(('cost', cost, files))
    return tests


def main():
    parser = argparse.ArgumentParser(description=__doc__, formatter_class=argparse.RawDescriptionHelpFormatter)
    parser.add_argument('program')
    parser.add_argument('--mutate', type=int, default=3000, metavar='N')
    parser.add_argument('--seed', type=int, default=1, metavar='S')
    given = parser.parse_args()
    program = os.path.abspath(given.program)
    sys.setrecursionlimit(10000)
    return runs.count(tests_of(program, given), program)

if __name__ == '__main__':
    sys.exit(main())
