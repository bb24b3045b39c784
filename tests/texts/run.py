#!/usr/bin/env python3
"""run.py PROGRAM: holds PROGRAM, a built test_texts, to the tables of this folder (*.tsv).

A line of a table is a function, its arguments and what it has to give, apart by tabs;
crates/test_texts has the functions, and prints what each gives. What is wanted comes from outside: the comment before the lines
tells from where. The terms of variables and types are called as these are (tests/csl_names.py).
What is said to be pandoc's is asked of pandoc, where it is installed. A call of a function that
isn't there, or of other arguments, is told. Over one line of each function each growth of
memory is refused in turn (tests/documents/refuse.c, for which a C compiler must be there), and four
times as long a text takes about four times as long.
The last line is 'N passed, M failed', and the exit status is 1 where a test failed."""
import argparse
import glob
import os
import resource
import shutil
import sys

HERE = os.path.dirname(os.path.abspath(__file__))
sys.path.insert(0, os.path.dirname(HERE))

import csl_names
import pandoc
from runs import Failed, at_most, count, ended, grows_evenly, processor_time, refused_in_turn

SECONDS = 600
MOST_MEMORY = 1 << 30
MEASURABLE = 0.1
NO_FUNCTION = 'no such function of so many arguments'


def sections_of(path):
    """The lines of a table behind each of its comments."""
    sections = []
    with open(path, encoding='utf-8') as file:
        for line in file.read().split('\n'):
            if line.startswith('#'):
                sections.append((line, []))
            elif line:
                sections[-1][1].append(line)
    return sections


def lines_of(path):
    return [line for _, lines in sections_of(path) for line in lines]


def lines_of_terms():
    """A line for each variable and type that has a term: its name."""
    kinds = {'number': csl_names.NUMBERS, 'names': csl_names.NAMES, 'locator': csl_names.LOCATORS,
             'type': csl_names.TYPES}
    return ['term-of\t%s\t%s\t%s' % (kind, name, name) for kind, names in kinds.items()
            for name in names]


def run(program, call, **how):
    return ended([program], (call + '\n').encode(), SECONDS, **how)


def given(program, call):
    """What a call gives."""
    status, out, error = run(program, call, preexec_fn=at_most(MOST_MEMORY))
    if status != 0 or error or not out.endswith(b'\n'):
        raise Failed('status %d, %s%s' % (status, out.decode()[-300:], error.decode()[-300:]))
    return out.decode()[:-1]


def holds(program, line):
    """The line gives what it has to."""
    call, wanted = line.rsplit('\t', 1)
    got = given(program, call)
    if got != wanted:
        raise Failed('it gives %s' % got[-300:])


def notices(program, line):
    """A call of a function that isn't there is told, and so is one with an argument more, or less:
    `written` takes any number of steps."""
    call, _ = line.rsplit('\t', 1)
    others = ['no' + call, call + '\t?']
    if not call.startswith('written'):
        others.append(call.rsplit('\t', 1)[0])
    for other in others:
        if given(program, other) != NO_FUNCTION:
            raise Failed('%s is a call' % other)


def unknown(program, name):
    """No variable and no type has this name."""
    for kind in ('number', 'names', 'locator', 'type'):
        if given(program, 'term-of\t%s\t%s' % (kind, name)) != NO_FUNCTION:
            raise Failed('%s: it has a term' % kind)


def as_pandoc(path, command):
    """Pandoc gives what the lines say that are to be as pandoc has it."""
    lines = [it for head, lines in sections_of(path) if head.startswith('# pandoc')
             for it in lines]
    wrong = ['%s: pandoc gives %s' % (line, said) for line, said in
             zip(lines, pandoc.said(command, lines)) if line.rsplit('\t', 1)[1] != said]
    if wrong or not lines:
        raise Failed('%d of %d lines:\n%s' % (len(wrong), len(lines), '\n'.join(wrong)))
    print('%s: %d lines are as pandoc has them' % (os.path.basename(path), len(lines)))


def one_of_each(lines):
    """The first line of each function."""
    first = {}
    for line in lines:
        first.setdefault(line.split('\t')[0], line)
    return first


def growths(program, line):
    """Each growth of memory that is refused ends the run with status 5, or with the answer."""
    call = line.rsplit('\t', 1)[0]
    refused, _ = refused_in_turn(lambda environment: run(program, call, env=environment))
    if not refused:
        raise Failed('no growth was refused')


# Time


def shapes(size):
    """Lines of about this many bytes, each with a text of much of one kind."""

    def line(function, *fields):
        return '\t'.join((function, *fields))

    def many(text):
        return text * (size // len(text.encode()))

    count = size // len('\t{\t=A.\t}')
    deep = size // len('\t{prefix=(|suffix=)\t=A\t}')
    few = many('1, ')[: 3 * (size // 128)] + '2'
    return {
        'words': line('case', 'title', 'en', many('a word ') + 'x',
                      'A' + many(' Word a')[:-1] + 'X'),
        'capitals': line('case', 'lowercase', 'en', many('ABC '), many('abc ')),
        'quotes': line('rich', 'en-US', many('"a" '), many('"a" ').replace('"a"', '“a”')),
        'open quotes': line('plain', 'en-US', many('“a '), many('“a ')),
        'markup': line('rich', 'en-US', many('<i>a</i> '), many('<i>a</i> ')),
        'elements': line('written', 'en-US', '{delimiter=; ', *['{', '=A.', '}'] * count, '}',
                         '; '.join(['A.'] * count)),
        'nested elements': line('written', 'en-US', *['{prefix=(|suffix=)', '=A'] * deep,
                                *['}'] * deep, '(A' * deep + ')' * deep),
        'nested elements without text': line('written', 'en-US', *['{prefix=(|suffix=)'] * deep,
                                             *['}'] * deep, ''),
        'a page': line('pages', 'minimal', '–', many('1') + '-2', many('1') + '–2'),
        'ranges': line('pages', 'none', '–', many('1-2, '), many('1-2, ').replace('-', '–')),
        'ordinals': line('number', 'en-US', 'ordinal', '', many('1, ') + '2',
                         many('1, ').replace('1', '1st') + '2nd'),
        'a number': line('numeric', many('1'), 'yes'),
        'initials': line('initials', '.', 'short', many('Ab '), many('A. ').replace(' ', '')),
        'parts': line('locator', 'en-US', 'page', few, 'page:' + few),
    }


def seconds(program, line):
    """The processor time of a run over a line, which gives what it has to."""
    call, wanted = line.rsplit('\t', 1)
    time, (status, out, error) = processor_time(resource.RUSAGE_CHILDREN,
                                                lambda: run(program, call))
    if (status, out, error) != (0, (wanted + '\n').encode(), b''):
        raise Failed('status %d, %r, %r' % (status, out[-200:], error[-200:]))
    return time


def time(program, name, small, large):
    if not grows_evenly(name, lambda line: seconds(program, line), small, large, MEASURABLE):
        raise Failed('it takes more than about four times as long')


# All of it


def tests_of(program):
    """Each test: its name, the call, and what it is called with."""
    paths = sorted(glob.glob(HERE + '/*.tsv'))
    every = [line for path in paths for line in lines_of(path)] + lines_of_terms()
    tests = [(line, holds, program, line) for line in every]
    for function, line in one_of_each(every).items():
        tests.append(('what is told: ' + function, notices, program, line))
        tests.append(('growths of memory: ' + function, growths, program, line))
    tests += [('no name: ' + it, unknown, program, it) for it in ('', 'doi', 'Page', 'page ')]
    small, large = shapes(1 << 18), shapes(1 << 20)
    for name in small:
        tests.append(('time: ' + name, time, program, name, small[name], large[name]))
    command = shutil.which('pandoc')
    if command:
        tests += [('pandoc: ' + os.path.basename(it), as_pandoc, it, command) for it in paths
                  if any(head.startswith('# pandoc') for head, _ in sections_of(it))]
    else:
        print('not installed, and left out: pandoc')
    return tests


def main():
    parser = argparse.ArgumentParser(description=__doc__,
                                     formatter_class=argparse.RawDescriptionHelpFormatter)
    parser.add_argument('program')
    return count(tests_of(os.path.abspath(parser.parse_args().program)))


if __name__ == '__main__':
    sys.exit(main())
