#!/usr/bin/env python3
"""run.py GAMHILON [--record] [--mutate N] [--seed S]: tries the built program, crates/gamhilon.

The cases of cases.py, small styles of which the rules of CSL 1.0.2 tell the texts; the command
lines and files of faults.py, with their exit statuses and lines on standard error; the styles of
examples/styles, which `gamhilon check` finds nothing in, which are built in byte for byte, and
whose citations and bibliographies of documents/ read as pandoc 2.17 writes them (pandoc.json;
--record writes that file anew, by the pandoc that is installed); documents of examples and
tests/documents, which `gamhilon render` answers as cite_run does; N triples of files (300, if not
said), of which one is changed by changes drawn by the seed (mutations.py): each is answered, or
refused with a line, and takes at most two seconds and 500 MB; Markdown and LaTeX, beside those of
the Python package and what pandoc reads of them where it is installed (forms.py); which element of
a style wrote each text (explained.py); and runs in three styles, of items in Markdown and LaTeX, of
`explain`, `render` and `check`, of which each growth of memory is refused in turn
(tests/documents/refuse.c, for which a C compiler must be there, and a program that brings no memory
of its own, as that of `rt try` does). The last line is 'N passed, M failed', and the exit status is 1 where a test failed."""
import argparse
import glob
import json
import os
import resource
import socket
import subprocess
import sys
import tempfile
from concurrent.futures import ThreadPoolExecutor
from itertools import islice

HERE = os.path.dirname(os.path.abspath(__file__))
ROOT = os.path.dirname(os.path.dirname(HERE))
sys.path.append(os.path.dirname(HERE))

import explained
import forms
import pandoc
import runs
from cases import CASES
from colliding import colliding
from faults import CITATIONS, FAULTS, REFERENCES, SHEET, STYLE
from mutations import is_told, mutated_files
from runs import Failed, compiled, count, grows_evenly, processor_time

SECONDS = 120
MOST_GROWTHS = 20000
LEAST_GROWTHS = 100
# As many growths are tried side by side.
STRETCH = 400


def ended(program, *words, given=None, **how):
    """Status, standard output and standard error of a run, as texts."""
    status, out, error = runs.ended([program, *words], (given or '').encode(), SECONDS, **how)
    return status, out.decode(), error.decode()


def name_of(path):
    """The name of a style, by the path of its file."""
    return os.path.basename(path)[:-len('.csl')]


def bases_of(*folders):
    """The documents of folders, without the endings of their files."""
    return [path[:-len('.json')] for folder in folders for path in sorted(glob.glob('%s/%s/*.json' % (ROOT, folder)))]


def written(folder, files):
    for name, text in files.items():
        os.makedirs(os.path.dirname(os.path.join(folder, name)), exist_ok=True)
        with open(os.path.join(folder, name), 'wb') as file:
            file.write(text if isinstance(text, bytes) else text.encode())


def texts_of(program, folder, case):
    """The lines that the program prints of a case."""
    written(folder, {'s.csl': case.style, 'r.json': json.dumps(case.references), 'c.json': json.dumps(case.citations)})
    verb, files = ('bibliography', ['r.json']) if case.citations is None else ('cite', ['r.json', 'c.json'])
    status, out, error = ended(program, verb, '--style', 's.csl', '--to', case.to, *files, cwd=folder)
    # No case needs the words of a locale file, which only some machines have.
    lines = [line for line in error.splitlines() if ': warning: no locale file of ' not in line]
    if status or any(': warning: ' not in line for line in lines) or bool(lines) != case.warns:
        raise Failed('status %d, %s' % (status, error.strip()))
    # Two ways to write a character in HTML.
    return out.replace('&#38;', '&amp;').replace('&#60;', '&lt;').splitlines()


def try_case(program, case):
    with tempfile.TemporaryDirectory(prefix='writer-') as folder:
        came = texts_of(program, folder, case)
    if came != case.wanted:
        raise Failed('%s\n    wanted %r\n    came   %r' % (case.rule, case.wanted, came))


def is_line(wanted, came):
    return came.startswith(wanted[:-1]) if wanted.endswith('…') else came == wanted


def try_fault(program, fault):
    """The exit status, the lines on standard error, and all of standard output are the wanted
    ones."""
    with tempfile.TemporaryDirectory(prefix='writer-') as folder:
        written(folder, {'s.csl': STYLE, 'r.json': REFERENCES, 'c.json': CITATIONS, **fault.files})
        words = [word.replace('FILE', folder) for word in fault.words]
        status, out, error = ended(program, *words, given=fault.given)
        wanted = [line.replace('FILE/', folder + '/') for line in fault.lines]
        wanted_out = fault.out.replace('FILE', folder)
    lines = error.splitlines()
    if status != fault.status or out != wanted_out or len(lines) != len(wanted) or not all(map(is_line, wanted, lines)):
        raise Failed('wanted %d, %r, %r\n    came   %d, %r, %r' % (fault.status, wanted_out, wanted, status, out, lines))


def try_help(program):
    """Help and version are on standard output, and help has an example."""
    for words in (['--help'], ['help'], ['cite', '-h'], ['bibliography', '--help'], ['render', '-h'], ['styles', '-h'],
                  ['explain', '-h'], ['check', '-h']):
        status, out, error = ended(program, *words)
        if status or error or '\nUsage: gamhilon' not in out or '\nExample: ' not in out:
            raise Failed('%s: status %d, %r, %r' % (' '.join(words), status, out[:80], error))
    status, out, error = ended(program, '--version')
    if status or error or not out.startswith('gamhilon ') or out.count('\n') != 1:
        raise Failed('--version: status %d, %r, %r' % (status, out, error))


def try_closed_pipe(program):
    """Where nobody reads the answer, as behind `| head -0`, the command ends without a line."""
    document = ROOT + '/examples/author_date.json'
    for words in (['styles'], ['explain', 'author-date'], ['cite', '--help'], ['render', document],
                  ['render', '--to', 'html', document]):
        reading, writing = os.pipe()
        os.close(reading)
        with os.fdopen(writing, 'wb') as pipe:
            done = subprocess.run([program, *words], stdout=pipe, stderr=subprocess.PIPE, timeout=SECONDS)
        if done.returncode != 1 or done.stderr:
            raise Failed('%s: status %d, %r' % (' '.join(words), done.returncode, done.stderr))


def plain(tree):
    """The texts of a tree of docs/ANSWER.md."""
    return ''.join(plain(node['children']) if 'children' in node else node['text'] for node in tree)


def try_json(program):
    """Either command prints the whole answer as JSON."""
    italics = {'font_style': 'italic', 'font_weight': 'normal', 'font_variant': 'small-caps', 'text': 'C'}
    items = [{'first_field': italics, 'content': [], 'key': 'a'}]
    listed = {'entry_spacing': 0, 'hanging_indent': False, 'items': items, 'line_spacing': 2, 'second_field_align': 'flush'}
    section = ('<bibliography line-spacing="2" entry-spacing="0" second-field-align="flush"><layout>'
               '<text variable="publisher" font-style="italic" font-variant="small-caps"/></layout></bibliography></style>')
    references = REFERENCES.replace('"A"', '"A \\"b\\"", "publisher": "C"')
    files = {'s.csl': STYLE.replace('</style>', section), 'r.json': references, 'c.json': CITATIONS}
    for verb in ('cite', 'bibliography'):
        with tempfile.TemporaryDirectory(prefix='writer-') as folder:
            written(folder, files)
            status, out, error = ended(program, verb, '--style', 's.csl', '--to', 'json', 'r.json', 'c.json', cwd=folder)
        if status or error or out.count('\n') != 1:
            raise Failed('%s: status %d, %r, %s' % (verb, status, out, error))
        answer = json.loads(out)
        if [plain(citation['content']) for citation in answer['citations']] != ['A “b”'] or answer['bibliography'] != listed:
            raise Failed('%s: %r' % (verb, answer))


# The styles of examples/styles


def try_check(program, path):
    """Nothing is odd or wrong in a style."""
    status, out, error = ended(program, 'check', path)
    if status or error or not out.startswith(path + ': independent style '):
        raise Failed('status %d, %r, %r' % (status, out, error))


def try_names(program):
    """The names of the styles that are built in are those of the files."""
    names = [name_of(path) for path in pandoc.STYLES]
    status, out, error = ended(program, 'styles')
    if status or error or out.splitlines() != names:
        raise Failed('status %d, %r, %r' % (status, out, error))


def try_sheet(program):
    """The style sheet that is built in is that of the Python package, byte for byte."""
    status, out, error = ended(program, 'css')
    if status or error or out != SHEET:
        raise Failed('status %d, %r, %r' % (status, out[:80], error))


def try_built_in(program, path):
    """The style that is built in is the file, byte for byte."""
    got = runs.ended([program, 'styles', name_of(path)], b'', SECONDS)
    if got != (0, runs.read(path), b''):
        raise Failed('status %d, %r, %r' % (got[0], got[1][:80], got[2]))


def try_document(program, document, style, wanted):
    """The citations and the bibliography of a document read as pandoc writes them."""
    with tempfile.TemporaryDirectory(prefix='writer-') as folder:
        written(folder, {'r.json': json.dumps(document['references']), 'c.json': json.dumps(document['citations'])})
        for verb in ('cite', 'bibliography'):
            status, out, error = ended(program, verb, '--style', style, 'r.json', 'c.json', cwd=folder)
            if status or error:
                raise Failed('%s: status %d, %s' % (verb, status, error.strip()))
            for came, text in zip(out.splitlines() + [None], wanted[verb] + [None]):
                if came != text:
                    raise Failed('%s\n    wanted %s\n    came   %s' % (verb, text, came))


# Documents of cite_run


def try_rendered(program, base):
    """A document of tests/documents has the text or the status that cite_run gives it. Where it is
    refused, a line names it."""
    is_refused = os.path.isfile(base + '.status')
    wanted = (int(runs.read(base + '.status')), b'') if is_refused else (0, runs.read(base + '.txt'))
    status, out, error = runs.ended([program, 'render', base + '.json'], b'', SECONDS)
    is_told = error.startswith(base.encode() + b'.json: error: ') and error.count(b'\n') == 1 if is_refused else not error
    if (status, out) != wanted or not is_told:
        raise Failed('wanted %r\n    came   %r, %r' % (wanted, (status, out), error))


def try_rendered_json(program):
    """The JSON of an answer, on a line, is that which was worked out by hand."""
    status, out, error = ended(program, 'render', '--to', 'json', ROOT + '/embed/tests/every_kind.json')
    if status or error or out.count('\n') != 1 or json.loads(out) != json.loads(runs.read(ROOT + '/embed/tests/every_kind.answer.json')):
        raise Failed('status %d, %r, %r' % (status, out, error))


# Memory


def refused_in_turn(program, words):
    """Each run with a growth refused ends with status 5 and a line that says so, with status 1
    while a file is read, or with the answer; and at last none is refused."""
    with tempfile.TemporaryDirectory(prefix='writer-') as folder:
        shim = compiled(folder)
        written(folder, {'r.json': REFERENCES, 'c.json': CITATIONS})
        answer = ended(program, *words, cwd=folder)[1]
        if not answer:
            raise Failed('there is no answer')

        def is_refused(n):
            """Whether the nth growth was refused; none is where the run has fewer."""
            env = {**os.environ, 'LD_PRELOAD': shim, 'REFUSE': str(n)}
            status, out, error = ended(program, *words, cwd=folder, env=env)
            if '!' not in error:
                return False
            is_told = status in (1, 5) and not out and error.count('\n') == 1
            if not is_told and (status, out) != (0, answer):
                raise Failed('growth %d: status %d, %r, %r' % (n, status, out, error))
            return True

        refused = 0
        with ThreadPoolExecutor(os.cpu_count()) as pool:
            for begin in range(1, MOST_GROWTHS, STRETCH):
                these = list(pool.map(is_refused, range(begin, begin + STRETCH)))
                refused += sum(these)
                if not all(these):
                    break
    if refused <= LEAST_GROWTHS or refused != begin - 1 + sum(these):
        raise Failed('%d growths were refused' % refused)
    print('%s: %d growths refused in turn' % (words[0], refused))


# Changed files


# What no run over changed files takes within the limits that hold by themselves: seconds of a
# processor, and bytes of memory.
MOST_SECONDS = 2
MOST_MEMORY = 500_000_000
# What is written of a triple of changed files.
WRITTEN = (('cite', 'html'), ('bibliography', 'html'), ('cite', 'latex'), ('bibliography', 'markdown'))


def try_mutations(program, count, seed):
    """Each changed file is answered or refused, with lines that say so, and soon."""
    document = pandoc.documents()['works']
    styles = []
    for path in pandoc.STYLES:
        with open(path, 'rb') as file:
            styles.append(file.read())

    def tried(files):
        most_seconds, most_memory = 0, 0
        with tempfile.TemporaryDirectory(prefix='writer-') as folder:
            written(folder, dict(zip(('s.csl', 'r.json', 'c.json'), files)))
            for verb, form in WRITTEN:
                words = [program, verb, '--style', 's.csl', '--to', form, 'r.json', 'c.json']
                status, out, error, seconds, memory = runs.measured(words, cwd=folder)
                if not is_told(status, out.decode(), error.decode()):
                    raise Failed('status %d, %r, of %r' % (status, error[-300:], files))
                if seconds > MOST_SECONDS or memory > MOST_MEMORY:
                    raise Failed('%.1f s and %.0f MB, of %r' % (seconds, memory / 1e6, files))
                most_seconds, most_memory = max(most_seconds, seconds), max(most_memory, memory)
        return status != 0, most_seconds, most_memory

    files = mutated_files(styles, document['references'], document['citations'], count, seed)
    results = []
    with ThreadPoolExecutor(os.cpu_count()) as pool:
        # (few at a time: a process begins with the memory of this one, which counts)
        while few := list(islice(files, 1000)):
            results += pool.map(tried, few)
    refused = sum(was_refused for was_refused, _, _ in results)
    seconds = max((took for _, took, _ in results), default=0)
    memory = max((most for _, _, most in results), default=0)
    print('%d triples of files of the seed %d: %d are refused, and none takes more than %.2f s and %.0f MB' % (
        count, seed, refused, seconds, memory / 1e6))


# Much of a kind

# How many reads of the standard input a program may have made before it ends.
PACKETS = 1 << 21


def try_packets(program):
    """The standard input is read to its end, in packets of one byte too: each read of such a socket
    gives one packet."""
    ours, theirs = socket.socketpair(socket.AF_UNIX, socket.SOCK_SEQPACKET)
    with subprocess.Popen([program, 'check', '-'], stdin=theirs, stdout=subprocess.PIPE) as process:
        theirs.close()
        text = REFERENCES.encode().rjust(PACKETS)
        try:
            for place in range(len(text)):
                ours.send(text[place:place + 1])
        except BrokenPipeError:
            pass
        ours.close()
        out = process.stdout.read()
    if (process.returncode, out) != (0, b'-: 1 reference\n'):
        raise Failed('status %d, %r' % (process.returncode, out))


# What the note of the nth citation of so many is.
NOTES = {
    'notes in a row': lambda n, count: n + 1,
    'every second citation with a note': lambda n, count: None if n % 2 else n,
    'the last note of all, and none behind it': lambda n, count: (n or 2**64 - 1) if n < count // 2 else None,
}


def cites_with_notes(note):
    """What makes a reference and so many cites of it, with these notes."""
    def made(count):
        cites = ({'id': 'a'} if note(n, count) is None else {'id': 'a', 'note': note(n, count)} for n in range(count))
        return REFERENCES, [[cite] for cite in cites]

    return made


def cites_that_collide(count):
    """So many references, whose ids have one hash, and a cite of each."""
    ids = colliding(count)
    return json.dumps([{'id': it, 'type': 'book', 'title': 'A'} for it in ids]), [[{'id': it}] for it in ids]


def try_growth(program, made):
    """Four times as many citations take about four times as long."""
    def seconds(count):
        references, citations = made(count)
        with tempfile.TemporaryDirectory(prefix='growth-') as folder:
            files = {'s.csl': STYLE, 'r.json': references, 'c.json': json.dumps(citations)}
            written(folder, {name: text.encode() for name, text in files.items()})
            words = ['cite', '--style', *[os.path.join(folder, name) for name in files]]
            took, (status, out, _) = processor_time(resource.RUSAGE_CHILDREN, lambda: ended(program, *words))
        if (status, out) != (0, 'A\n' * count):
            raise Failed('status %d, %r' % (status, out[:100]))
        return took

    if not grows_evenly('citations', seconds, 5000, 20000, 0.1):
        raise Failed('more than four times as long')


def tests_of(options):
    tests = [('help', try_help), ('a closed pipe', try_closed_pipe), ('JSON', try_json)]
    tests += [('case: ' + case.name, try_case, case) for case in CASES]
    tests += [('fault: ' + fault.name, try_fault, fault) for fault in FAULTS]
    tests += [('style: ' + os.path.basename(path), try_check, path) for path in pandoc.STYLES]
    recorded = pandoc.recorded()
    for name, document in pandoc.documents().items():
        for path in pandoc.STYLES:
            style = os.path.basename(path)
            tests.append(('%s in %s' % (name, style), try_document, document, path, recorded[name][style]))
        built_in = name_of(pandoc.STYLES[0])
        tests.append(('%s in %s, which is built in' % (name, built_in), try_document, document, built_in,
                      recorded[name][built_in + '.csl']))
    tests += forms.tests()
    tests += explained.tests(ended)
    tests += [('names of styles', try_names), ('style sheet', try_sheet)]
    tests += [('built in: ' + name_of(path), try_built_in, path) for path in pandoc.STYLES]
    tests += [('rendered: ' + os.path.relpath(base, ROOT), try_rendered, base) for base in bases_of('examples', 'tests/documents/rows')]
    tests.append(('rendered as JSON', try_rendered_json))
    for verb, path in zip(('cite', 'bibliography', 'cite'), pandoc.STYLES):
        tests.append(('growths of memory: %s in %s' % (verb, os.path.basename(path)), refused_in_turn,
                      [verb, '--style', path, 'r.json', 'c.json']))
    for form in forms.FORMS:
        tests.append(('growths of memory: items in ' + form, refused_in_turn,
                      ['bibliography', '--to', form, '--style', pandoc.STYLES[0], 'r.json', 'c.json']))
    for form in ('json', 'html'):
        tests.append(('growths of memory: explain as ' + form, refused_in_turn,
                      ['explain', '--to', form, pandoc.STYLES[0], 'r.json', 'c.json']))
    for form in ('text', 'html'):
        tests.append(('growths of memory: render as ' + form, refused_in_turn,
                      ['render', '--to', form, ROOT + '/examples/author_date.json']))
    tests.append(('growths of memory: check as JSON', refused_in_turn, ['check', '--to', 'json', pandoc.STYLES[0], 'r.json', 'c.json']))
    tests.append(('the standard input in packets', try_packets))
    tests += [('growth: ' + name, try_growth, cites_with_notes(note)) for name, note in NOTES.items()]
    tests.append(('growth: ids that collide', try_growth, cites_that_collide))
    tests.append(('changed files', try_mutations, options.mutate, options.seed))
    return tests


def main():
    parser = argparse.ArgumentParser(description=__doc__, formatter_class=argparse.RawDescriptionHelpFormatter)
    parser.add_argument('program')
    parser.add_argument('--record', action='store_true')
    parser.add_argument('--only', default='')
    parser.add_argument('--mutate', type=int, default=300, metavar='N')
    parser.add_argument('--seed', type=int, default=1, metavar='S')
    options = parser.parse_args()
    if options.record:
        pandoc.record()
    program = os.path.abspath(options.program)
    tests = [it for it in tests_of(options) if options.only in it[0]]
    sys.exit(count(tests, program))


if __name__ == '__main__':
    main()
