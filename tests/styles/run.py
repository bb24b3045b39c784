#!/usr/bin/env python3
"""run.py GAMHILON TEST_READERS [--mutate N] [--seed S]: tries two built programs, crates/gamhilon,
which checks files, and crates/test_readers, on styles and locales.

Each file of documents/, and of Debian's packages citation-style-language-styles and
citation-style-language-locales, is read, with no warning but those of EXPLAINED, and says what it
says by xml.etree (said.py: each element with all its values); packages that aren't installed are
named. So do files with all names of CSL 1.0.2 (tests/csl_names.py). The files of broken.py are
refused, or warned of, at their places and in their words, or just allowed, and read in 1 MiB of
stack where they nest as deep as is read. mistakes/ has forty styles, ten each with a mistake of XML,
of elements, of attributes and of macros, and beside each the lines that `gamhilon check` prints; as
JSON it has the same places and words. N files (3000, if not said) are made by changes of others,
drawn by the seed: each is refused at a place of the text, or read; with no warning it says what it
says by xml.etree. Each growth of memory is refused in turn (tests/documents/refuse.c, for which a C
compiler must be there). Four times as much takes about four times as long, and the packages' files
take at most 1.5 times as long as xml.etree takes for their trees: processor times, each the least
of three, measured anew before one is too long. The last line is 'N passed, M failed', and the exit
status is 1 where a test failed."""
import argparse
import collections
import glob
import hashlib
import json
import os
import re
import resource
import shutil
import subprocess
import sys
import tempfile
import xml.etree.ElementTree

HERE = os.path.dirname(os.path.abspath(__file__))
sys.path.append(os.path.dirname(HERE))

import csl_names
import runs
from broken import ALLOWED, DEEPEST, REFUSED, SEVERAL, WARNED, all_placed, placed
from colliding import LENGTH, colliding
from mutated import mutated_documents
from runs import ATTEMPTS, Failed, processor_time, read
from said import said_of

STYLES = '/usr/share/citation-style-language/'
PACKAGES = {'styles': '*.csl', 'locales': '*.xml'}
# Warnings on the packages' files, by what they say without names: how often, and why that is right.
EXPLAINED = {}
NAMED = re.compile('`[^`]*`')
MISTAKES = {'xml': 10, 'elements': 10, 'attributes': 10, 'macros': 10}
TOLD_LINE = re.compile(r'([^:\n]+):(\d+):(\d+): (error|warning): (.*)')
# What a style of mistakes/ is, where it is read.
LAKES = 'independent style Journal of Lakes (https://example.org/styles/journal-of-lakes)'
MOST_MEMORY = 1 << 30
MOST_STACK = 1 << 20
SECONDS = 120
BATCH = 2000
# What can be told from nothing, in seconds.
MEASURABLE = 0.01


def ended(program, documents, *words, **how):
    """Status, standard output and standard error of a run with these documents."""
    return runs.ended([program, *words], runs.sized(b's', documents), SECONDS, **how)


class Answer:
    """What the program says of a file: warnings, as line, column and words; the digest of what it
    says, or its fault."""

    def __init__(self):
        self.warnings, self.digest, self.fault = [], None, None


def answers(programs, documents):
    """What the program says of each document."""
    status, out, error = ended(programs.test_readers, documents, preexec_fn=runs.at_most(MOST_MEMORY))
    if status != 0 or error:
        raise Failed('status %d, %r' % (status, error[:200]))
    found, answer = [], Answer()
    for line in out.decode().split('\n')[:-1]:
        kind, rest = line.split(' ', 1)
        if kind == 'digest':
            answer.digest = rest
        else:
            row, column, words = rest.split(' ', 2)
            told = (int(row), int(column), words)
            if kind == 'warning':
                answer.warnings.append(told)
                continue
            answer.fault = told
        found.append(answer)
        answer = Answer()
    if len(found) != len(documents):
        raise Failed('%d answers for %d documents' % (len(found), len(documents)))
    return found


def digest(document):
    return hashlib.md5(said_of(document).encode()).hexdigest()


# Files that are read


def package_files(package):
    return sorted(glob.glob(STYLES + package + '/**/' + PACKAGES[package], recursive=True))


def own_documents():
    return sorted(glob.glob(HERE + '/documents/*'))


def same_values(programs, paths):
    """Each file says what it says by xml.etree."""
    wrong = []
    for begin in range(0, len(paths), BATCH):
        batch = paths[begin : begin + BATCH]
        documents = [read(it) for it in batch]
        for path, document, answer in zip(batch, documents, answers(programs, documents)):
            if answer.fault:
                wrong.append('%s:%d:%d: %s' % (path, *answer.fault))
            elif answer.digest != digest(document):
                wrong.append('%s: %s' % (path, difference(programs, document)))
    if wrong or not paths:
        raise Failed('of %d files, %d are read otherwise:\n%s' % (len(paths), len(wrong), '\n'.join(wrong[:5])))


def difference(programs, document):
    """The first line that a document says otherwise by the program and by xml.etree."""
    ours = ended(programs.test_readers, [document], 'show')[1].decode().split('\n')
    ours = [it for it in ours if not it.startswith('warning ')]
    for mine, theirs in zip(ours, said_of(document).split('\n')):
        if mine != theirs:
            return '%r, and not %r' % (mine, theirs)
    return 'one has more lines'


def explained(programs, paths):
    """The warnings on these files are those that are explained, as often."""
    found, example = collections.Counter(), {}
    for begin in range(0, len(paths), BATCH):
        batch = paths[begin : begin + BATCH]
        for path, answer in zip(batch, answers(programs, [read(it) for it in batch])):
            for warning in answer.warnings:
                kind = NAMED.sub('``', warning[2])
                found[kind] += 1
                example.setdefault(kind, '%s:%d:%d: %s' % (path, *warning))
    wrong = ['%d of %s' % (found[it], example.get(it, it)) for it in {*found, *EXPLAINED} if found[it] != EXPLAINED.get(it, (0,))[0]]
    if wrong:
        raise Failed('\n'.join(wrong))


# Files with faults and warnings


def broken(programs):
    documents = [placed(it) for it, _ in REFUSED.values()]
    wrong = []
    for (name, (_, words)), place, answer in zip(REFUSED.items(), documents, answers(programs, [it[0] for it in documents])):
        if answer.fault != (*place[1:], words):
            wrong.append('%s: %s, and not %s' % (name, answer.fault, (*place[1:], words)))
    if wrong:
        raise Failed('\n'.join(wrong))


def warned(programs):
    documents = [placed(it) for it, _ in WARNED.values()]
    wrong = []
    for (name, (_, words)), place, answer in zip(WARNED.items(), documents, answers(programs, [it[0] for it in documents])):
        if answer.fault or answer.warnings != [(*place[1:], words)]:
            wrong.append('%s: %s %s, and not %s' % (name, answer.fault, answer.warnings, (*place[1:], words)))
    if wrong:
        raise Failed('\n'.join(wrong))


def allowed(programs):
    """What the limits just allow is read, with no warning."""
    for (name, document), answer in zip(ALLOWED.items(), answers(programs, [it.encode() for it in ALLOWED.values()])):
        if answer.fault or answer.warnings:
            raise Failed('%s: %s %s' % (name, answer.fault, answer.warnings))


def deepest(programs):
    """Elements that nest as deep as is read need half of the stack that the library asks for."""
    for name, document in DEEPEST.items():
        status, out, _ = ended(programs.test_readers, [document.encode()], 'count', preexec_fn=runs.with_stack(MOST_STACK))
        if (status, out) != (0, b'1\n'):
            raise Failed('%s: status %d, and %r' % (name, status, out))


def names_of_csl(programs):
    """Each name of CSL 1.0.2 is known where it stands for a variable, a type, a locator type, a
    term, and a form of one."""
    documents = [csl_names.style_of_names(), csl_names.locale_of_names()]
    for document, answer in zip(documents, answers(programs, documents)):
        if answer.fault or answer.warnings or answer.digest != digest(document):
            raise Failed('%s %s, or %s' % (answer.fault, answer.warnings, difference(programs, document)))


# The program


def in_lines(path, text, places, words):
    """What the program prints of these faults: each with its line of the file, and a caret."""
    lines = text.split('\n')
    told = zip(places, words)
    return ''.join('%s:%d:%d: error: %s\n    %s\n    %s^\n' % (path, line, column, it, lines[line - 1], ' ' * (column - 1)) for (line, column), it in told)


def several(programs):
    """All faults of a style, twenty at most, in the order of their places."""
    with tempfile.TemporaryDirectory(prefix='styles-') as folder:
        for name, (marked, words) in SEVERAL.items():
            text, places = all_placed(marked)
            with open(folder + '/several.csl', 'w', encoding='utf-8') as file:
                file.write(text)
            program_is(programs, folder, ['several.csl'], 2, '', in_lines('several.csl', text, places, words))


def program_is(programs, folder, given, status, out, error):
    """The program, on these files in a folder, ends and writes so."""
    done = subprocess.run([programs.gamhilon, 'check', *given], cwd=folder, stdout=subprocess.PIPE, stderr=subprocess.PIPE, timeout=SECONDS)
    got = (done.returncode, done.stdout.decode(), done.stderr.decode())
    if got != (status, out, error):
        raise Failed('%s: %r, and not %r' % (' '.join(given), got, (status, out, error)))


def program(programs):
    """What the program prints, and its exit status."""
    with tempfile.TemporaryDirectory(prefix='styles-') as folder:
        for name in os.listdir(HERE + '/documents'):
            shutil.copy(HERE + '/documents/' + name, folder)
        odd, broken_one = placed(WARNED['a variable'][0]), placed(REFUSED['an element out of place'][0])
        for name, data in ('odd.csl', odd[0]), ('broken.csl', broken_one[0]), ('bytes.csl', b'<style\n>\xff</style>'):
            with open(folder + '/' + name, 'wb') as file:
                file.write(data)
        # a space for each control character: the title goes on in another line of the file
        notes = 'notes.csl: independent style Notes of       the house (https://example.org/styles/notes)\n'
        parent = 'journal.csl: dependent style of https://example.org/styles/notes\n'
        locale = 'words.xml: locale de-AT\n'
        warning = 'odd.csl:%d:%d: warning: %s\n' % (*odd[1:], WARNED['a variable'][1])
        error = in_lines('broken.csl', broken_one[0].decode(), [broken_one[1:]], [REFUSED['an element out of place'][1]])
        no_text = 'bytes.csl:2:2: error: found `\\xff`, wanted UTF-8\n'
        it = (programs, folder)
        program_is(*it, ['notes.csl', 'journal.csl', 'words.xml'], 0, notes + parent + locale, '')
        program_is(*it, ['odd.csl'], 0, 'odd.csl: independent style T (i)\n', warning)
        program_is(*it, ['broken.csl', 'words.xml'], 2, locale, error)
        program_is(*it, ['bytes.csl'], 2, '', no_text)
        program_is(*it, ['none.csl', 'broken.csl'], 1, '', 'none.csl: No such file or directory (os error 2)\n' + error)


def mistakes(programs, kind):
    """The program prints the lines beside each style of a folder of mistakes/, and ends with status
    2 where warnings count; as JSON it says the same."""
    folder = '%s/mistakes/%s' % (HERE, kind)
    names = sorted(it for it in os.listdir(folder) if it.endswith('.csl'))
    texts = [read('%s/%s.txt' % (folder, it[:-4])).decode() for it in names]
    if len(names) != MISTAKES[kind]:
        raise Failed('%d styles' % len(names))
    for name, text in zip(names, texts):
        out = '' if ': error: ' in text else '%s: %s\n' % (name, LAKES)
        program_is(programs, folder, ['--fail-on-warnings', name], 2, out, text)
    wanted = [[(line, column, severity, words) for _, line, column, severity, words in TOLD_LINE.findall(it)] for it in texts]
    done = subprocess.run([programs.gamhilon, 'check', '--to', 'json', *names], cwd=folder, capture_output=True, timeout=SECONDS)
    files = json.loads(done.stdout)
    told = [[(str(it['line']), str(it['column']), it['severity'], it['message']) for it in file['findings']] for file in files]
    if done.stderr or [it['file'] for it in files] != names or told != wanted:
        raise Failed('%r %s' % (done.stderr, [(a, b) for a, b in zip(told, wanted) if a != b]))


# Mutated files


def is_in(text, told):
    """Whether a place is one of the text."""
    lines = text.split('\n')
    return told[0] <= len(lines) and told[1] <= len(lines[told[0] - 1]) + 1


def judge(document, answer):
    """What is wrong with what was said of a document, if anything."""
    text = document.decode()
    told = answer.warnings + ([answer.fault] if answer.fault else [])
    if not all(is_in(text, it) for it in told):
        return 'no place of the text'
    if sorted(it[:2] for it in answer.warnings) != [it[:2] for it in answer.warnings]:
        return 'warnings out of order'
    if not told and answer.digest != digest(document):
        return 'other values'
    return None


def mutations(programs, count, seed):
    bases = [read(it) for it in own_documents()] * 20
    bases += [it for it in map(read, package_files('styles')[::100]) if len(it) < 12000]
    wrong, refused, batch = [], 0, []
    for number, document in enumerate(mutated_documents(bases, count, seed), 1):
        batch.append(document)
        if len(batch) == BATCH or number == count:
            for each, answer in zip(batch, answers(programs, batch)):
                refused += answer.fault is not None
                said = judge(each, answer)
                if said:
                    wrong.append('%s: %s %s %r' % (said, answer.fault, answer.warnings, each))
            batch = []
    print('%d files of the seed %d, of which %d are refused' % (count, seed, refused))
    if wrong:
        raise Failed('%d of them:\n%s' % (len(wrong), '\n'.join(wrong[:5])))


# Memory


def refused_in_turn(programs, document):
    """Each run with a growth refused ends with status 5, or 1 while the input is read, and prints
    nothing; or with the answer. Reading is refused some, and at last none is refused."""
    run = lambda environment: ended(programs.test_readers, [document], 'calls', env=environment)
    refused, in_reading = runs.refused_in_turn(run, unread=1)
    if in_reading < 20:
        raise Failed('only %d growths were refused while a file was read' % in_reading)
    print('%d growths refused in turn, %d of them while a file was read' % (refused, in_reading))


# Time


def seconds(programs, documents):
    """The processor time of reading these documents."""
    time, (status, out, _) = processor_time(resource.RUSAGE_CHILDREN, lambda: ended(programs.test_readers, documents, 'count'))
    if (status, out) != (0, b'%d\n' % len(documents)):
        raise Failed('status %d, and %r of %d files were read' % (status, out, len(documents)))
    return time


def seconds_of_etree(documents):
    """The processor time of xml.etree for the trees of these documents."""

    def parse():
        for document in documents:
            xml.etree.ElementTree.fromstring(document)

    return processor_time(resource.RUSAGE_SELF, parse)[0]


def shapes(size):
    """Files of about this many bytes, each of much of one kind."""
    head = '<style xmlns="http://purl.org/net/xbiblio/csl" version="1.0" class="note"><info><title>T</title><id>i</id></info>'
    layout = '<citation><layout>%s</layout></citation></style>'

    def style(macros, elements=''):
        return (head + macros + layout % elements).encode()

    def many(piece):
        return piece * (size // len(piece))

    def numbered(pattern):
        return ''.join(pattern % {'n': n, 'next': n + 1} for n in range(size // len(pattern)))

    def macro(name):
        return '<macro name="%s"><text variable="title"/></macro>' % name

    return {
        'elements': style('', many('<text variable="title" prefix="(" suffix=")"/>')),
        'macros': style(numbered('<macro name="m%(n)d"><text variable="title"/></macro>')),
        'macros whose names collide': style(''.join(map(macro, colliding(size // len(macro(' ' * LENGTH)))))),
        'calls': style('<macro name="a"/>' + numbered('<macro name="b%(n)d"><text macro="a"/></macro>')),
        'warnings': style('', many('<text variable="titl" later="" fnt-style=""/>\n')),
        'terms': ('<locale xmlns="http://purl.org/net/xbiblio/csl" version="1.0" xml:lang="en"><terms>%s</terms></locale>' % many('<term name="page">p</term>')).encode(),
        'values': style('', '<choose><if variable="%s"/></choose>' % many('title issued unknown ')),
    }


def linear_time(programs):
    small, large = shapes(1 << 20), shapes(1 << 22)
    of_one = lambda document: seconds(programs, [document])
    wrong = [it for it in small if not runs.grows_evenly(it, of_one, small[it], large[it], MEASURABLE)]
    if wrong:
        raise Failed('more than about four times as long for four times as much: %s' % ', '.join(wrong))


def cost(programs, paths):
    """Reading takes at most 1.5 times what xml.etree takes for its trees."""
    documents = [read(it) for it in paths]
    for _ in range(ATTEMPTS):
        theirs, ours = seconds_of_etree(documents), seconds(programs, documents)
        print('%d files of the packages: %.2f s, and %.2f s by xml.etree' % (len(paths), ours, theirs))
        if ours <= 1.5 * theirs:
            return
    raise Failed('longer than 1.5 times what xml.etree takes')


# All of it


def tests_of(given):
    """Each test: its name, the call, and what it is called with."""
    tests = [('files: ' + os.path.basename(it), same_values, [it]) for it in own_documents()]
    files = [path for package in PACKAGES for path in package_files(package)]
    for package in PACKAGES:
        paths = package_files(package)
        if paths:
            tests.append(('files of the package of ' + package, same_values, paths))
            tests.append(('warnings on the package of ' + package, explained, paths))
        else:
            print('not installed, and left out: citation-style-language-' + package)
    tests.append(('files that are refused', broken))
    tests.append(('files with warnings', warned))
    tests.append(('files that the limits just allow', allowed))
    tests.append(('files that nest as deep as is read', deepest))
    tests.append(('names of CSL', names_of_csl))
    tests.append(('gamhilon check', program))
    tests.append(('several faults', several))
    tests += [('mistakes: ' + kind, mistakes, kind) for kind in MISTAKES]
    tests.append(('mutated files', mutations, given.mutate, given.seed))
    for path in own_documents():
        tests.append(('growths of memory: ' + os.path.basename(path), refused_in_turn, read(path)))
    tests.append(('time', linear_time))
    if files:
        tests.append(('cost', cost, files))
    return tests


def main():
    parser = argparse.ArgumentParser(description=__doc__, formatter_class=argparse.RawDescriptionHelpFormatter)
    parser.add_argument('gamhilon')
    parser.add_argument('test_readers')
    parser.add_argument('--mutate', type=int, default=3000, metavar='N')
    parser.add_argument('--seed', type=int, default=1, metavar='S')
    given = parser.parse_args()
    programs = argparse.Namespace(
        gamhilon=os.path.abspath(given.gamhilon), test_readers=os.path.abspath(given.test_readers)
    )
    sys.setrecursionlimit(10000)
    return runs.count(tests_of(given), programs)

if __name__ == '__main__':
    sys.exit(main())
