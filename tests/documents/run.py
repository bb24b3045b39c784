#!/usr/bin/env python3
"""run.py PROGRAM: runs a built cite_run on each document of this folder and of examples/, side by
side, and compares standard output, exit status and the line on standard error. Then it tries what
only a process can show, holds the documents to docs/document.schema.json, compares PROGRAM with
tests/model on random documents, and holds the model to what the documents must print. It has
crates/test_calls, which is looked for beside it (../../test_calls/out/test_calls), answer the
documents by the public calls: each by `finish` or, where it says so, by `finish_full` or
`finish_csl`; and where there is a NAME.account, by `finish_counted` or that call once more, of
which the account is printed, or why there is none; where there is a NAME.alone, each request by
`standalone_citation`; where there is a NAME.passes, by the passes themselves, on cites that are
written without a driver; where there is a NAME.equality, it is told which requests are equal to the
first, and whether that for the bibliography is one for its style alone. A copy of each answer has
to be equal to it. It tells where each document that is refused is wrong, which faults.txt has for
most of them, and nothing of the others. Where there is a NAME.context, it prints what calls of a
writing context write in the document's first style, and where there is a NAME.cites, what calls that
render its entries give, and what these have; where there is a NAME.asked, the answer to requests
that cite entries of their own, how many renderings it took, and how often these entries were asked;
where there is a NAME.callers, what callers learn of the answer by laws alone; where there is a
NAME.data, the answer as JSON. It answers each document that has an answer once more from a table of
what its styles write; with any one thing taken out exactly that has to be missing, and a table that
is empty at first has to be filled in at most three calls more than rounds mark, or in the mode `csl`
in ten. Of values that no document makes it has to say that they are as they should be. This script
refuses each growth of memory in turn (refuse.c, for which a C compiler must be there), in both
programs; each such sweep is for some calls, and fails where one of them met no refusal. Without the
library jsonschema the documents aren't held to the schema: a line says so, and where the
environment has CI set, it fails.
run.py PROGRAM FOLDER..: runs it on the documents of these folders, and does nothing else.

A document is NAME.json. NAME.txt is what it must print; where the status isn't 0, NAME.status has
it, and nothing is printed. What is expected was worked out by hand from the rules, never taken from
the program. The folders: rows/ whole runs; layouts/ each kind of element; words/ locales, terms,
quotes and punctuation; purposes/ what cites are written for; keywords/ each name of a variable,
term, form and so on; parts/ each kind of object with all its keys; disambiguation/, rounds/,
grouping/, collapsing/ and bibliography/ how cites and items work together, csl/ how they do in the
mode `csl`, alone/ citations that stand for themselves, equality/ requests that are equal and others,
calls/ what calls print that no answer shows
(each with a README.md that tells why a document prints what it does); hostile/ depth; refused/ what
the program and the schema refuse; beyond_schema/ what the program alone refuses.
The last line is 'N passed, M failed', and the exit status is 1 where a test failed."""
import difflib
import json
import os
import resource
import shutil
import signal
import socket
import subprocess
import sys
import tempfile
import time
from concurrent.futures import ThreadPoolExecutor

HERE = os.path.dirname(os.path.abspath(__file__))
ROOT = os.path.dirname(os.path.dirname(HERE))
LINES = {
    0: b'',
    1: b'cite_run: input or output failed\n',
    2: b'cite_run: document refused\n',
    3: b'cite_run: macro ring\n',
    4: b'cite_run: number overflow\n',
    5: b'cite_run: out of memory\n',
}
# The files of a document.
ENDINGS = ('.json', '.txt', '.status', '.account', '.alone', '.passes', '.equality', '.context', '.cites', '.asked', '.callers', '.data')
SECONDS = 60
RANDOM_DOCUMENTS = 2000
# What a fault says of a value, and how deep JSON may nest.
FOUND = {type(None): 'null', bool: 'a truth value', int: 'a number', float: 'a number', str: 'a text', list: 'a list', dict: 'an object'}
MOST_LEVELS = 127


class Failed(Exception):
    pass


def read(path):
    with open(path, 'rb') as file:
        return file.read()


def ended(program, given=b'', **how):
    """Status, standard output and standard error of a run."""
    if 'stdin' not in how:
        how['input'] = given
    how = {'stdout': subprocess.PIPE, 'stderr': subprocess.PIPE, 'timeout': SECONDS, **how}
    try:
        done = subprocess.run([*program] if isinstance(program, list) else [program], **how)
    except subprocess.TimeoutExpired:
        raise Failed('it had not ended after %d seconds' % SECONDS)
    return done.returncode, done.stdout or b'', done.stderr


def shortened(data, length=400):
    text = data.decode(errors='backslashreplace')
    return text if len(text) <= length else text[:length] + ' .. (%d bytes)' % len(data)


def difference(expected, got, length=12):
    """What differs between two outputs, a line each."""
    both = [shortened(it, 100000).split('\n') for it in (expected, got)]
    lines = [repr(it)[1:-1] for it in difflib.unified_diff(*both, 'expected', 'got', lineterm='', n=1)]
    return '\n'.join(it[:160] for it in lines[2:][:length])


def hold(got, status, text=b''):
    """Fails unless a run ended with the status, its line and the text."""
    said = []
    if got[0] != status:
        said.append('status %d, and not %d' % (got[0], status))
    if got[2] != LINES[status]:
        said.append('standard error %r, and not %r' % (shortened(got[2]), LINES[status].decode()))
    if got[1] != text:
        said.append(difference(text, got[1]))
    if said:
        raise Failed('\n'.join(said))


# Documents


def folders_of(base):
    return sorted(it.path for it in os.scandir(base) if it.is_dir())


def documents(folders=None):
    """Each document's path, without its ending."""
    found = []
    for folder in folders or [*folders_of(HERE), ROOT + '/examples']:
        for name in sorted(os.listdir(folder)) if os.path.isdir(folder) else []:
            if name.endswith('.json'):
                found.append(folder + '/' + name[: -len('.json')])
    return found


def wanted(base):
    """The status and the text that a document must give."""
    has_status, has_text = (os.path.isfile(base + it) for it in ('.status', '.txt'))
    if has_status == has_text:
        raise Failed('it must have one of the files .txt and .status')
    return (int(read(base + '.status')), b'') if has_status else (0, read(base + '.txt'))


def document(program, base):
    status, text = wanted(base)
    hold(ended(program, read(base + '.json')), status, text)


def strays():
    """Files of the folders that belong to no document."""
    for base in documents():
        wanted(base)
    known = {base + ending for base in documents() for ending in ENDINGS}
    folders = {os.path.dirname(base) for base in documents()}
    lost = [it.path for folder in folders for it in os.scandir(folder)
            if it.is_file() and it.path not in known and it.name != 'README.md']
    if lost:
        raise Failed('no document is beside ' + ', '.join(os.path.relpath(it, ROOT) for it in lost))


def is_of_schema(validator, base):
    """Whether the schema takes a document; a text that is no JSON is not for it to judge."""
    try:
        value = json.loads(read(base + '.json'))
    except ValueError:
        return None
    return validator.is_valid(value)


def schema(validator, base):
    status, _ = wanted(base)
    is_refused = status == 2 and os.path.basename(os.path.dirname(base)) != 'beyond_schema'
    takes = is_of_schema(validator, base)
    if takes is not None and takes == is_refused:
        raise Failed('the schema %s it' % ('takes' if takes else 'refuses'))


def validator_of_schema():
    """What checks a document against the schema, or None where the library isn't there."""
    try:
        from jsonschema import Draft202012Validator
    except ImportError:
        return None
    made = json.loads(read(ROOT + '/docs/document.schema.json'))
    Draft202012Validator.check_schema(made)
    return Draft202012Validator(made)


# Documents, call by call


def beside(program, name):
    """The program of another crate, beside the program, or None where it isn't built."""
    found = os.path.join(os.path.dirname(program), '../../%s/out/%s' % (name, name))
    return found if os.access(found, os.X_OK) else None


def call_of(base):
    """The call of a driver that a document asks for."""
    calls = {'full': 'finish_full', 'csl': 'finish_csl'}
    return calls.get(json.loads(read(base + '.json')).get('rounds'), 'finish')


def by_calls(calls, way, base, status, text):
    """A program of calls ends with the status and prints the text."""
    got = ended(calls, way.encode() + b'\n' + read(base + '.json'))
    if got[0] != status:
        raise Failed('status %d, and not %d' % (got[0], status))
    if got[1] != text:
        raise Failed(difference(text, got[1]))


def tests_of_calls(calls, bases):
    """What crates/test_calls is to do with the documents that are of their form."""
    made = []
    for base in bases:
        status, text = wanted(base)
        if status == 2:
            continue
        call = call_of(base)
        made.append(('%s: %s' % (call, name_of(base)), by_calls, calls, call, base, status, text))
        if os.path.isfile(base + '.account'):
            made.append(('account: ' + name_of(base), by_calls, calls, 'account', base, status, read(base + '.account')))
        if os.path.isfile(base + '.alone'):
            made.append(('standalone: ' + name_of(base), by_calls, calls, 'standalone_citation', base, 0, read(base + '.alone')))
        for way in ('passes', 'equality', 'asked', 'callers', 'data'):
            if os.path.isfile(base + '.' + way):
                made.append((way + ': ' + name_of(base), by_calls, calls, way, base, 0, read(base + '.' + way)))
        if status == 0:
            made.append(('copies: ' + name_of(base), by_calls, calls, 'copies', base, 0, b'copy: equal\n'))
    ring = HERE + '/rows/ring_of_one_macro'
    return [*made, ('standalone: ' + name_of(ring), by_calls, calls, 'standalone_citation', ring, 3, b'')]


def tests_of_tables(calls, bases):
    """What crates/test_calls is to do from a table with the documents that have an answer."""
    # (what is written is kept under the name of a style, and those of equality/ have equal styles of several names)
    named = [it for it in bases if wanted(it)[0] == 0 and os.path.dirname(it) != HERE + '/equality']
    return [('table: ' + name_of(it), by_calls, calls, 'table', it, 0, wanted(it)[1]) for it in named]


def tests_of_contexts(calls, bases):
    """What crates/test_calls is to do with the documents that tell what calls of a writing context
    write, or calls that render."""
    asked = [(way, it) for way in ('context', 'cites') for it in bases if os.path.isfile(it + '.' + way)]
    return [('%s: %s' % (way, name_of(it)), by_calls, calls, way, it, 0, read(it + '.' + way)) for way, it in asked]


# What crates/test_calls says of values that no document makes, in this order.
CASES = 'small_values properties_are_compared writes_at_lent_places shrinks_at_the_top'.split()


def cases(calls):
    """The program says of each case once that it is as it should be, and of nothing else."""
    status, out, _ = ended(calls, b'cases\n')
    wanted_text = ''.join('%s: as it should be\n' % it for it in CASES).encode()
    if (status, out) != (0, wanted_text):
        raise Failed('status %d\n%s' % (status, difference(wanted_text, out)))


def faults_wanted():
    """The fault that each document of faults.txt must name."""
    rows = [it.split(' | ') for it in read(HERE + '/faults.txt').decode().splitlines() if it and not it.startswith('#')]
    return {HERE + '/' + base: {'pointer': pointer, 'found': found, 'wanted': asked} for base, pointer, found, asked in rows}


def pointed_to(value, pointer):
    """What a JSON Pointer leads to."""
    for part in pointer.split('/')[1:]:
        part = part.replace('~1', '/').replace('~0', '~')
        value = value[int(part)] if isinstance(value, list) else value[part]
    return value


def depth(value):
    """How deep lists and objects nest."""
    parts = value.values() if isinstance(value, dict) else value if isinstance(value, list) else None
    return 0 if parts is None else 1 + max(map(depth, parts), default=0)


def value_of(data):
    """The JSON value of some bytes, as docs/DOCUMENT.md has it, or what is told of those that are
    none, but for where."""
    try:
        value = json.loads(data.decode())
    except UnicodeDecodeError as error:
        return None, 'no UTF-8 from byte %d' % error.start
    except ValueError:
        return None, 'no JSON from line '
    return (value, None) if depth(value) <= MOST_LEVELS else (None, 'no JSON from line ')


def is_found(value, found):
    """Whether a value is what a fault tells of it."""
    if found.startswith(('unknown key ', 'missing key ')):
        word, _, key = found.split(' ', 2)
        return isinstance(value, dict) and (key in value) == (word == 'unknown')
    return found == FOUND[type(value)]


def fault(calls, base, must):
    """A refused document's fault is told, and leads to a part of it that is as it tells, or tells
    that the document is no JSON, where it is none; of any other document nothing is told."""
    status, _ = wanted(base)
    got = ended(calls, b'fault\n' + read(base + '.json'))
    if got[0] != 0 or bool(got[1]) != (status == 2):
        raise Failed('status %d, and %r told' % (got[0], shortened(got[1])))
    if status != 2:
        return
    told = json.loads(got[1])
    if must not in (None, told):
        raise Failed('told %s, and not %s' % (told, must))
    value, why = value_of(read(base + '.json'))
    if why and not (told['pointer'] == '' and told['found'].startswith(why)):
        raise Failed('told %s, where there is %s' % (told, why))
    if not why and not is_found(pointed_to(value, told['pointer']), told['found']):
        raise Failed('told %s, which is not found there' % told)


def faults(calls, bases):
    must = faults_wanted()
    lost = sorted(set(must) - set(bases))
    if lost:
        raise Failed('no document is there for ' + ', '.join(lost))
    return [('fault: ' + name_of(it), fault, calls, it, must.get(it)) for it in bases]


def failing_writer(calls):
    """`run` over a writer that takes n bytes and then fails, for each n: what went out is a
    beginning of the text."""
    base = HERE + '/rows/offset_and_order'
    _, text = wanted(base)
    for count in range(len(text) + 1):
        by_calls(calls, str(count), base, 0 if count == len(text) else 1, text[:count])


def slow_reader(calls):
    """`read_input` over a reader that gives a byte at each read, and one that fails at its end."""
    base = HERE + '/rows/offset_and_order'
    by_calls(calls, 'slow', base, 0, read(base + '.json'))
    by_calls(calls, 'slow and failing', base, 1, b'')


def most_reads(calls):
    """`read_input` makes 1,048,576 reads at most, and the last must find the end: over a reader
    that gives a byte at each read, one byte less is the longest input."""
    for length, status in ((1048575, 0), (1048576, 1)):
        given = b' ' * length
        got = ended(calls, b'slow\n' + given)
        if got[0] != status or got[1] != (given if status == 0 else b''):
            raise Failed('%d bytes: status %d, and not %d; %d bytes came out' % (length, got[0], status, len(got[1])))


# What only a process can show


def one_cite():
    base = HERE + '/rows/one_cite'
    return read(base + '.json'), read(base + '.txt')


def many_cites(count):
    """A document of so many requests, each of an entry of its own, and what it prints."""
    keys = ['k%d' % it for it in range(count)]
    number = {'kind': 'number', 'variable': 'citation-number', 'prefix': '[', 'suffix': ']'}
    made = {
        'styles': {'s': {'citation': {'elements': [number]}, 'bibliography': {'elements': [number]}}},
        'entries': [{'key': it} for it in keys],
        'requests': [{'style': 's', 'items': [{'entry': it}]} for it in keys],
        'bibliography': {'style': 's'},
    }
    cites = ''.join('[%d]\n' % (it + 1) for it in range(count))
    listed = ''.join('%s\t[%d]\n' % (it, at + 1) for at, it in enumerate(keys))
    return json.dumps(made).encode(), (cites + '\n' + listed).encode()


def of_style(style, text):
    made = {
        'styles': {'s': style},
        'entries': [{'key': 'a'}],
        'requests': [{'style': 's', 'items': [{'entry': 'a'}]}],
        'bibliography': {'style': 's'},
    }
    return json.dumps(made).encode(), text.encode() + b'\n'


def delimiter_of_a_megabyte(program):
    delimiter = '-' * 1048576
    values = [{'kind': 'text', 'value': it} for it in 'ab']
    group = {'kind': 'group', 'delimiter': delimiter, 'children': values}
    given, text = of_style({'citation': {'elements': [group]}}, 'a' + delimiter + 'b')
    hold(ended(program, given), 0, text)


def chain_of_macros(program):
    """The layout calls the first of so many macros, each of which calls the next."""
    for length in (2000, 10000):
        macros = [{'name': 'm%d' % it, 'children': [{'kind': 'text', 'macro': 'm%d' % (it + 1)}]} for it in range(length)]
        macros.append({'name': 'm%d' % length, 'children': [{'kind': 'text', 'value': 'end'}]})
        style = {'citation': {'elements': [{'kind': 'text', 'macro': 'm0'}]}, 'macros': macros}
        given, text = of_style(style, 'end')
        hold(ended(program, given), 0, text)


def seconds(program, given, text):
    """The processor time of a process, without that of the system, which prints this text."""
    with tempfile.TemporaryFile() as document, tempfile.TemporaryFile() as out:
        document.write(given)
        document.seek(0)
        process = subprocess.Popen([program], stdin=document, stdout=out)
        _, status, used = os.wait4(process.pid, 0)
        process.returncode = os.waitstatus_to_exitcode(status)
        out.seek(0)
        hold((process.returncode, out.read(), b''), 0, text)
        return used.ru_utime


def held_even(program, name, made):
    """Four times as much takes about four times as long."""
    small, large = made(5000), made(20000)
    if not grows_evenly(name, lambda it: seconds(program, *it), small, large, 0.1):
        raise Failed('more than about four times as long')


def keys_that_collide(program):
    """Entries whose keys have one hash, and a cite of each."""
    def made(count):
        keys = colliding(count)
        given, text = many_cites(count)
        document = json.loads(given)
        for entry, request, key in zip(document['entries'], document['requests'], keys):
            entry['key'] = request['items'][0]['entry'] = key
        cites, listed = text.decode().split('\n\n')
        listed = ''.join('%s\t[%d]\n' % (key, at + 1) for at, key in enumerate(keys))
        return json.dumps(document).encode(), ('%s\n\n%s' % (cites, listed)).encode()

    held_even(program, 'keys that collide', made)


def macros_whose_names_collide(program):
    """Macros whose names have one hash, and a call of each; the second half of them gives nothing."""
    def made(count):
        names = colliding(count)
        children = [[{'kind': 'text', 'value': 'a'}]] * (count // 2) + [[{'kind': 'text', 'variable': 'title'}]] * (count // 2)
        macros = [{'name': name, 'children': it} for name, it in zip(names, children)]
        calls = [{'kind': 'text', 'macro': name} for name in names]
        return of_style({'citation': {'elements': calls}, 'macros': macros}, 'a' * (count // 2))

    held_even(program, 'macros whose names collide', made)


def inside_many_lists(program):
    for depth in (127, 128, 100000):
        hold(ended(program, b'[' * depth + one_cite()[0] + b']' * depth), 2)


def lines_of_the_readme(_program):
    """What README.md shows of a program over the driver are lines of crates/first_citation."""
    shown = read(ROOT + '/README.md').decode().split('```rust\n')[1].split('```')[0].split('\n')
    there = read(ROOT + '/crates/first_citation/src/main.rt').decode().split('\n')
    lost = [it for it in shown if it not in ('', '..') and it not in there]
    if lost:
        raise Failed('not of the program: %s' % lost)


def cut_after_each_byte(program):
    """Only the whole document, with or without the line feed at its end, is one."""
    whole, text = row('rows/offset_and_order')
    document = whole.rstrip()
    for length in range(len(document)):
        got = ended(program, document[:length])
        try:
            hold(got, 2)
        except Failed as error:
            raise Failed('cut after %d bytes: %s' % (length, error))
    hold(ended(program, document), 0, text)


def bytes_that_are_no_text(program):
    whole, _ = one_cite()
    for given in (b'\xef\xbb\xbf' + whole, whole.replace(b'"a"', b'"\xff"'), whole.replace(b'"a"', b'"\xed\xa0\x80"'), whole + b'\0', whole + whole):
        hold(ended(program, given), 2)


def arguments_change_nothing(program):
    given, text = one_cite()
    hold(ended([program, '--help', '', 'document.json'], given), 0, text)


def input_in_pieces(program):
    """One byte at a time, and the first ones late."""
    given, text = one_cite()
    how = {'stdin': subprocess.PIPE, 'stdout': subprocess.PIPE, 'stderr': subprocess.PIPE}
    with subprocess.Popen([program], bufsize=0, **how) as running:
        time.sleep(0.05)
        for at in range(len(given)):
            running.stdin.write(given[at : at + 1])
        out, error = running.communicate(timeout=SECONDS)
        hold((running.returncode, out, error), 0, text)


def bytes_of_a_read(program):
    """One read takes 65,536 bytes and no more: what is longer in a message is lost."""
    document, text = one_cite()
    document = document.strip()
    whole = b' ' * (65536 - len(document)) + document
    for message in (whole, whole + b'x'):
        ours, its = socket.socketpair(socket.AF_UNIX, socket.SOCK_SEQPACKET)
        with ours, its:
            ours.send(message)
            ours.shutdown(socket.SHUT_WR)
            hold(ended(program, stdin=its), 0, text)


def large_input_and_output(program):
    given, text = many_cites(20000)
    hold(ended(program, given), 0, text)


def input_is_a_folder(program):
    at = os.open(HERE, os.O_RDONLY)
    try:
        hold(ended(program, stdin=at), 1)
    finally:
        os.close(at)


def input_is_closed(program):
    hold(ended(['sh', '-c', 'exec "$0" <&-', program]), 1)


def output_is_full(program):
    with open('/dev/full', 'wb') as full:
        hold(ended(program, one_cite()[0], stdout=full), 1)


def output_is_closed(program):
    hold(ended(['sh', '-c', 'exec "$0" >&-', program], one_cite()[0]), 1)


def nobody_reads_the_output(program):
    reader, writer = os.pipe()
    os.close(reader)
    try:
        hold(ended(program, one_cite()[0], stdout=writer), 1)
    finally:
        os.close(writer)


def reader_leaves(program):
    """The reader takes some bytes and goes: those were a beginning of the text."""
    given, text = many_cites(20000)
    with tempfile.TemporaryFile() as document:
        document.write(given)
        document.seek(0)
        with subprocess.Popen([program], stdin=document, stdout=subprocess.PIPE, stderr=subprocess.PIPE) as running:
            out = os.read(running.stdout.fileno(), 10)
            running.stdout.close()
            error = running.stderr.read()
            running.wait(SECONDS)
    if not out or not text.startswith(out):
        raise Failed('%r is no beginning of the text' % out)
    hold((running.returncode, b'', error), 1)


def refused_with_the_output_closed(program):
    """What is refused writes nothing, so that the output needn't work."""
    hold(ended(['sh', '-c', 'exec "$0" >&-', program], b'{}'), 2)


def output_takes_so_many_bytes(program):
    """A file that takes no more than n bytes, for each n: the write fails then, and what went out
    is a beginning."""
    given, text = row('rows/offset_and_order')

    def limit(count):
        signal.signal(signal.SIGXFSZ, signal.SIG_IGN)
        resource.setrlimit(resource.RLIMIT_FSIZE, (count, count))

    for count in range(len(text) + 1):
        with tempfile.TemporaryFile() as out:
            got = ended(program, given, stdout=out, preexec_fn=lambda: limit(count))
            out.seek(0)
            written = out.read()
        hold(got, 1 if count < len(text) else 0)
        if written != text[:count]:
            raise Failed('%d bytes: %r went out' % (count, written))


def memory_runs_out(program):
    """Under a limit of memory there is the whole answer, or none."""
    given, text = many_cites(8000)
    statuses = set()
    for limit in (12, 16, 20, 24, 28, 32, 48, 256):
        got = ended(['sh', '-c', 'ulimit -v %d; exec "$0"' % (limit * 1024), program], given)
        statuses.add(got[0])
        try:
            # (1 where there is no memory for what is read)
            hold(got, got[0] if got[0] in (1, 5) else 0, b'' if got[0] else text)
        except Failed as error:
            raise Failed('at %d MiB: %s' % (limit, error))
    if not {0, 5} <= statuses:
        raise Failed('only the statuses %s came' % sorted(statuses))


def stored_run(program):
    folder = ROOT + '/crates/cite_run/'
    hold(ended(program, read(folder + 'stdin')), 0, read(folder + 'stdout'))


PROCESSES = [
    stored_run,
    arguments_change_nothing,
    input_in_pieces,
    bytes_of_a_read,
    input_is_a_folder,
    input_is_closed,
    output_is_full,
    output_is_closed,
    nobody_reads_the_output,
    reader_leaves,
    refused_with_the_output_closed,
    output_takes_so_many_bytes,
    memory_runs_out,
    large_input_and_output,
    delimiter_of_a_megabyte,
    chain_of_macros,
    inside_many_lists,
    bytes_that_are_no_text,
    cut_after_each_byte,
    lines_of_the_readme,
]


# Each growth of memory refused in turn


def row(name):
    """A document of this folder, and what it must print."""
    return read(HERE + '/' + name + '.json'), read(HERE + '/' + name + '.txt')


# The documents whose growths are refused in turn.
SWEPT = [
    'rows/offset_and_order',
    'disambiguation/suffix_by_entry',
    'disambiguation/added_names',
    'disambiguation/choose',
    'disambiguation/labels',
    'bibliography/author_substitution',
    'collapsing/year_collapse_of_suffixes',
]
# Those by `finish_full`.
SWEPT_FULL = ['rounds/no_round', 'rounds/suffix_by_entry', 'rounds/group_that_waits', 'rounds/names_that_do_not_help']
# Those by `finish_csl`.
SWEPT_CSL = ['csl/condition_and_then_a_suffix', 'csl/given_names_by_document', 'csl/ranges_of_suffixes', 'csl/repeated_authors_one_by_one']
# Those that have a refusal for an answer, or a number that is just not too large.
SWEPT_REFUSALS = [
    'rows/ring_of_two_macros',
    'rows/ring_of_one_macro',
    'rows/ring_without_requests',
    'rows/number_overflow',
    'rows/number_overflow_at_the_second_entry',
    'rows/greatest_offset',
    'rows/greatest_number',
]
# Those on which the passes are called by themselves, with the passes that take memory there.
MARKING = ['disambiguate_names', 'disambiguate_with_choose', 'disambiguate_year_suffix']
PASSES = ['find_ambiguous_sets', *MARKING, 'group_cites', 'substitute_subsequent_authors']
SWEPT_PASSES = {
    'disambiguation/suffix_by_entry': ['find_ambiguous_sets', 'disambiguate_names', 'disambiguate_year_suffix'],
    'disambiguation/added_names': ['find_ambiguous_sets', 'disambiguate_names', 'disambiguate_year_suffix'],
    'disambiguation/choose': ['find_ambiguous_sets', 'disambiguate_names', 'disambiguate_with_choose'],
    'grouping/blocks': ['find_ambiguous_sets', 'group_cites'],
    'bibliography/author_substitution': ['find_ambiguous_sets', 'substitute_subsequent_authors'],
}
# Those that are answered from a table.
SWEPT_TABLES = ['disambiguation/suffix_by_entry', 'bibliography/author_substitution', 'csl/condition_and_then_a_suffix']
# Those that render an entry without a driver, copy an element, and read the parts of an entry.
RENDERING = ['StyleContext::citation', 'date_replacement', 'Elem::clone', 'parts', 'pieces']
# Calls of crates/test_calls, which names them before it makes them; the status is 5 where one is refused, but for `citation`.
CALLS = ['read', 'prepare', 'citation', 'finish', 'finish_counted', 'finish_full', 'finish_csl', 'standalone_citation', 'run', 'clone', 'context', 'finish_with', 'drive', 'answer_by']
CALLS += [*PASSES, *RENDERING]
# Those that print before others are called.
PRINT = ['standalone_citation', 'context', *PASSES, *RENDERING]
MOST_GROWTHS = 100000


def compiled(folder):
    """What refuses the nth growth of a process, preloaded."""
    compiler = next((it for it in map(shutil.which, ('cc', 'gcc', 'clang')) if it), None)
    if not compiler:
        raise Failed('no C compiler is here, so that no growth of memory can be refused')
    made = folder + '/refuse.so'
    words = [compiler, '-shared', '-fPIC', '-O1', '-o', made, HERE + '/refuse.c', '-ldl']
    if subprocess.run(words, stdout=subprocess.DEVNULL, stderr=subprocess.DEVNULL).returncode:
        raise Failed('%s did not make refuse.so' % compiler)
    return made


def refused_in_turn(shim, program, given, judge):
    """Runs with the first growth refused, the second, and on until none is refused; gives the lines
    of standard error of each run, in which `!` stands where a growth was refused. `judge` gets the
    number of the growth, status, output and these lines."""
    runs = []
    for n in range(1, MOST_GROWTHS):
        status, out, error = ended(program, given, env={'LD_PRELOAD': shim, 'REFUSE': str(n)})
        lines = error.replace(b'!', b'!\n').decode().split('\n')[:-1]
        try:
            judge(n, status, out, lines)
        except Failed as failed:
            raise Failed('growth %d refused: %s' % (n, failed))
        runs.append(lines)
        if '!' not in lines:
            return runs
    raise Failed('growths are refused without end')


def sweep_of_program(shim, program, name):
    """Each run ends in status 5, or 1 while the input is read (whose buffer and bytes are the first
    two growths), with nothing printed; or in the answer, as where a list that is done could not be
    made smaller. At the end the answer comes."""
    given, text = row(name)
    ends = []

    def judge(n, status, out, lines):
        said = ''.join(it for it in lines if it != '!').encode()
        if '!' not in lines or (status == 0 and n > 2):
            return hold((status, out, said), 0, text)
        ends.append(1 if n <= 2 else 5)
        hold((status, out, said + b'\n'), ends[-1])

    runs = refused_in_turn(shim, program, given, judge)
    if 5 not in ends:
        raise Failed('no growth was refused behind the reading of the input')
    return len(runs) - 1


def held_call(called, status, out, text, status_wanted):
    """What a run of a program of calls must end in: the refusal of the call whose growth was
    refused, or the answer."""
    at = called[called.index('!') - 1] if '!' in called else None
    if at == 'citation' and status_wanted == 0:
        # the request that came back was handed in again
        wanted, printed = 6, text
    elif at is None or at == 'citation':
        wanted, printed = status_wanted, text
    elif status == status_wanted and out == text:
        # as where a list that is done could not be made smaller
        return
    else:
        wanted, printed = 5, None
        if called[-1] != '!':
            raise Failed('refused in %s, it went on: %s' % (at, called))
    if status != wanted:
        raise Failed('status %d, and not %d (%s)' % (status, wanted, ', '.join(called[-4:])))
    if printed is not None and out != printed:
        raise Failed(difference(printed, out))
    if printed is None and not (text.startswith(out) if any(it in called for it in PRINT) else not out):
        raise Failed('%r was printed' % out)


def sweep_of_calls(shim, program, way, swept, given, status_wanted, text):
    """Each run ends in the refusal of the very call whose growth was refused, or in the answer; and
    each of the calls that are swept is refused in some run."""

    def judge(_n, status, out, lines):
        called = [it for it in lines if it in CALLS or it == '!']
        held_call(called, status, out, text, status_wanted)

    runs = refused_in_turn(shim, program, way.encode() + b'\n' + given, judge)
    refused = {[it for it in lines[: lines.index('!')] if it in CALLS][-1] for lines in runs if '!' in lines}
    lacking = [it for it in swept if it not in refused]
    if lacking:
        raise Failed('of %d growths none was refused in %s' % (len(runs) - 1, ', '.join(lacking)))
    return len(runs) - 1


def sweeps_of_contexts(shim, program):
    """Those of the calls of a writing context, and of calls that render."""
    context, cites = HERE + '/words/calls_of_a_context', HERE + '/purposes/calls_of_a_style'
    asked = [('context', ['context'], context, read(context + '.context')), ('cites', RENDERING, cites, read(cites + '.cites'))]
    return [('growths of ' + way, sweep_of_calls, shim, program, way, swept, read(base + '.json'), 0, printed) for way, swept, base, printed in asked]


def sweeps_of_answers(shim, program):
    """Those of the calls that answer whole documents. Requests are of prepared styles, and under
    `finish unprepared` of none."""
    made = []
    for way, names in (('finish', SWEPT), ('finish unprepared', SWEPT), ('finish_counted', SWEPT), ('finish_full', SWEPT_FULL), ('finish_csl', SWEPT_CSL)):
        for name in [*names, *SWEPT_REFUSALS]:
            base = HERE + '/' + name
            status, text = wanted(base)
            swept = [way.split(' ')[0]]
            if json.loads(read(base + '.json'))['requests']:
                swept.append('citation')
            made.append(('growths of %s: %s' % (way, name), sweep_of_calls, shim, program, way, swept, read(base + '.json'), status, text))
    return made


def sweeps_of_calls(shim, program):
    """Those of crates/test_calls."""
    made = sweeps_of_answers(shim, program)
    for name, swept in SWEPT_PASSES.items():
        given, text = read(HERE + '/' + name + '.json'), read(HERE + '/' + name + '.passes')
        made.append(('growths of passes: ' + name, sweep_of_calls, shim, program, 'passes', swept, given, 0, text))
    given, text = row('rows/offset_and_order')
    for way, swept, printed in (('run', 'run', text), ('copies', 'clone', b'copy: equal\n')):
        made.append(('growths of ' + way, sweep_of_calls, shim, program, way, [swept], given, 0, printed))
    for name in ('hidden_cites', 'cites_without_content'):
        base, way = HERE + '/alone/' + name, 'standalone_citation'
        made.append(('growths of %s: %s' % (way, name), sweep_of_calls, shim, program, way, [way], read(base + '.json'), 0, read(base + '.alone')))
    return made


def sweeps_of_tables(shim, program):
    """Those of answers from a table."""
    given = {it: read(HERE + '/' + it + '.json') for it in SWEPT_TABLES}
    ways = [('drive 1', ['finish_with', 'drive']), ('fill 1', ['finish_with', 'answer_by'])]
    return [('growths of %s: %s' % (way, it), sweep_of_calls, shim, program, way, swept, given[it], 0, b'')
            for way, swept in ways for it in SWEPT_TABLES]


def sweeps(program, calls):
    """The sweeps of the programs that are built, each with its name."""
    shim = compiled(tempfile.mkdtemp())
    made = [('growths of %s' % it, sweep_of_program, shim, program, it) for it in SWEPT]
    for sweeps_of in (sweeps_of_calls, sweeps_of_contexts, sweeps_of_tables) if calls else ():
        made += sweeps_of(shim, calls)
    return made


def model(program, *mode):
    """The model of tests/model gives what the program gives, on random documents, of this mode
    where one is named."""
    words = [sys.executable, 'compare.py', program, '0', str(RANDOM_DOCUMENTS), *mode]
    done = subprocess.run(words, cwd=ROOT + '/tests/model', stdout=subprocess.PIPE, stderr=subprocess.STDOUT)
    if done.returncode:
        raise Failed(shortened(done.stdout, 4000))


def worked(folder):
    """The model gives what was worked out by hand."""
    words = [sys.executable, 'rows.py', folder]
    done = subprocess.run(words, cwd=ROOT + '/tests/model', stdout=subprocess.PIPE, stderr=subprocess.STDOUT)
    if done.returncode:
        raise Failed(shortened(done.stdout, 4000))


GROWTHS = []
NO_SCHEMA = 'the documents were not held to the schema: %s has no library jsonschema (pip install jsonschema, or Debian: python3-jsonschema)' % sys.executable


def cannot(why):
    """What stands for tests that can't be made."""
    raise Failed(why)


def tried(name, call, *given):
    """What failed, and how, or nothing."""
    try:
        count = call(*given)
        if call in (sweep_of_program, sweep_of_calls):
            GROWTHS.append(count)
        return None
    except Failed as error:
        return name, str(error)
    except Exception as error:
        return name, '%s: %s' % (type(error).__name__, error)


def told(results):
    """Prints what failed, and gives how many did."""
    failed = [it for it in results if it]
    for name, said in failed:
        print('FAILED %s\n    %s' % (name, said.replace('\n', '\n    ')))
    return len(failed)


def name_of(base):
    return os.path.relpath(base, ROOT)


def main_of_folders(program, folders):
    """Runs the documents of these folders, one after another, and names each that gave what it
    must."""
    results = []
    for base in documents([os.path.abspath(it) for it in folders]):
        results.append(tried(name_of(base), document, program, base))
        if not results[-1]:
            print('as expected: ' + name_of(base))
    count = told(results)
    print('%d passed, %d failed' % (len(results) - count, count))
    return 1 if count or not results else 0


def main():
    if len(sys.argv) < 2 or not os.access(sys.argv[1], os.X_OK):
        print(__doc__, file=sys.stderr)
        return 2
    program = os.path.abspath(sys.argv[1])
    if len(sys.argv) > 2:
        return main_of_folders(program, sys.argv[2:])
    sys.setrecursionlimit(100000)
    began = time.time()
    validator = validator_of_schema()
    bases = documents()
    tests = [('model: %d random documents' % RANDOM_DOCUMENTS, model, program)]
    tests.append(('model: %d random documents of the mode csl' % RANDOM_DOCUMENTS, model, program, 'csl'))
    tests += [('process: ' + it.__name__.replace('_', ' '), it, program) for it in reversed(PROCESSES)]
    calls = beside(program, 'test_calls')
    try:
        tests += sweeps(program, calls)
    except Failed as error:
        tests.append(('growths of memory', cannot, str(error)))
    if calls:
        for tests_of in (tests_of_calls, tests_of_contexts, tests_of_tables, faults):
            tests += tests_of(calls, bases)
        tests.append(('cases', cases, calls))
        tests += [('process: ' + it.__name__.replace('_', ' '), it, calls) for it in (failing_writer, slow_reader, most_reads)]
    else:
        tests.append(('program of calls', cannot, 'crates/test_calls is not built'))
    tests += [(name_of(it), document, program, it) for it in bases]
    tests += [('model: ' + name_of(it), worked, it) for it in [*folders_of(HERE), ROOT + '/examples']]
    tests.append(('files of the folders', strays))
    by_schema = [('schema: ' + name_of(it), schema, validator, it) for it in bases if validator]
    if not validator and os.environ.get('CI'):
        tests.append(('schema', cannot, NO_SCHEMA))
    with ThreadPoolExecutor(os.cpu_count()) as pool:
        runs = [pool.submit(tried, *it) for it in tests]
        # (this thread holds the documents to the schema meanwhile)
        results = [tried(*it) for it in by_schema]
        results += [it.result() for it in runs]
    count = told(results)
    if not validator and not os.environ.get('CI'):
        print('note: ' + NO_SCHEMA)
    print('%d documents, %d of a process, %d against the schema, %d growths of memory refused in %d sweeps, %d random documents against the model: '
          '%.1f seconds' % (len(bases), len(PROCESSES), len(by_schema), sum(GROWTHS), len(GROWTHS), RANDOM_DOCUMENTS, time.time() - began))
    print('%d passed, %d failed' % (len(results) - count, count))
    return 1 if count else 0


if __name__ == '__main__':
    sys.exit(main())
