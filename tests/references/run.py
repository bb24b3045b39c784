#!/usr/bin/env python3
"""run.py PROGRAM [--mutate N] [--seed S] [--strict]: what PROGRAM, a built test_readers, reads
of CSL-JSON.

Each case of cases/ is read as its lines say, and where pandoc is installed, what pandoc writes for
each item that isn't marked as read otherwise reads the same. N documents (3000, if not said) are
made by changes of items, drawn by the seed: each is read, or refused at a part of it that is what
the fault says. Each growth of memory is refused in turn (tests/documents/refuse.c, for which a C
compiler must be there). 100,000 items of the kind that Zotero exports take no more than about twice
what reading their JSON alone takes; four times as many items take about four times as long, and
four times as much memory, also where hashes of ids or keys collide. --strict holds these to 2 and
4.4 times, without room for noise. The last line is 'N passed, M failed', and the exit status is 1
where a test failed."""
import argparse
import glob
import json
import os
import shutil
import subprocess
import sys
import tempfile

HERE = os.path.dirname(os.path.abspath(__file__))
sys.path.append(os.path.dirname(HERE))

import runs
from colliding import colliding, wrong_hashes
from items import mutated_documents, zotero_library
from runs import ABOUT_FOUR, Failed, sized

MOST_MEMORY = 1 << 31
SECONDS = 600
BATCH = 1000
LIBRARY = 100000
# Of processor time the least of some rounds is taken, and there are more of them before a failure.
ROUNDS = 12
# What takes less than this many seconds can't be told from nothing on a machine that others use.
MEASURABLE = 0.1
KINDS = {
    dict: 'an object', list: 'a list', str: 'a text', bool: 'a truth value', int: 'a number',
    float: 'a number', type(None): 'null',
}
LACKS_ID = 'no `id`'


def ended(program, documents, *words, **how):
    """Status, standard output and standard error of a run with these documents."""
    return runs.ended([program, *words], sized(b'r', documents), SECONDS, **how)


def answers(program, documents):
    """What the program says of each document: its lines."""
    status, out, error = ended(program, documents, preexec_fn=runs.at_most(MOST_MEMORY))
    if status != 0 or error:
        raise Failed('status %d, %r' % (status, error[:200]))
    return by_documents(out.decode(), len(documents))


def by_documents(text, count):
    """The lines of each of so many documents, behind each of which stands an empty one."""
    said, lines = [], []
    for line in text.split('\n')[:-1]:
        if line:
            lines.append(line)
        else:
            said.append(lines)
            lines = []
    if len(said) != count or lines:
        raise Failed('%d answers for %d documents' % (len(said), count))
    return said


# Cases


def cases_of(path):
    """The cases of a file: the kind, the text and the lines of each."""
    found, case = [], None
    with open(path, encoding='utf-8') as file:
        lines = file.read().split('\n')
    for line in lines:
        word, _, text = line.partition(' ')
        if case is None and word in ('item', 'own', 'document'):
            case = (word, text, [])
        elif not line:
            found += [case] if case else []
            case = None
        elif case:
            case[2].append(line)
        elif not line.startswith('#'):
            raise Failed('%s: no case: %s' % (path, line))
    return found + ([case] if case else [])


def document_of(case):
    kind, text, _ = case
    if kind == 'document':
        return text.encode()
    return json.dumps([{'id': 'x', 'type': 'book', **json.loads(text)}]).encode()


def lines_of(case):
    kind, _, lines = case
    return lines if kind == 'document' else ['reference "x" book', *lines]


def compared(text, one, said, other):
    """A text that was read in two ways, in lines."""
    return '%s\n%s:\n    %s\n%s:\n    %s' % (text, one, '\n    '.join(said[0]), other,
                                            '\n    '.join(said[1]))


def same_as_said(program, path):
    cases = cases_of(path)
    wrong = []
    for case, said in zip(cases, answers(program, [document_of(it) for it in cases])):
        if said != lines_of(case):
            wrong.append(compared(case[1], 'read', (said, lines_of(case)), 'and not'))
    if wrong or not cases:
        raise Failed('of %d cases, %d are read otherwise:\n%s' % (
            len(cases), len(wrong), '\n'.join(wrong)))


def written_by_pandoc(pandoc, items):
    """What pandoc writes for items, by their ids."""
    done = subprocess.run([pandoc, '-f', 'csljson', '-t', 'csljson'], timeout=SECONDS,
                          input=json.dumps(items).encode(), stdout=subprocess.PIPE)
    if done.returncode != 0:
        raise Failed('pandoc ends with %d' % done.returncode)
    return {it['id']: it for it in json.loads(done.stdout)}


def read_items(program, items):
    """The lines of each item, without warnings."""
    said = answers(program, [json.dumps([it]).encode() for it in items])
    return [[line for line in lines if not line.startswith('warning')] for lines in said]


def same_as_pandoc(program, pandoc, paths):
    """What pandoc writes for each item reads the same as the item."""
    cases = [case for path in paths for case in cases_of(path) if case[0] == 'item']
    items = [{**json.loads(document_of(it))[0], 'id': str(n)} for n, it in enumerate(cases)]
    theirs = written_by_pandoc(pandoc, items)
    pairs = zip(read_items(program, items), read_items(program, [theirs[it['id']] for it in items]))
    wrong = [compared(case[1], 'read', pair, 'pandoc') for case, pair in zip(cases, pairs)
             if pair[0] != pair[1]]
    if wrong:
        raise Failed('of %d items, %d are read otherwise:\n%s' % (
            len(cases), len(wrong), '\n'.join(wrong)))
    print('%d items read as what pandoc writes for them' % len(cases))


# Mutated documents


def part_at(value, pointer):
    """The part of a JSON value to which a JSON Pointer leads."""
    for step in pointer.split('/')[1:]:
        key = step.replace('~1', '/').replace('~0', '~')
        value = value[int(key)] if isinstance(value, list) else value[key]
    return value


def wrong_fault(value, line):
    """What is wrong with the fault of a JSON value, if anything."""
    pointer, _, words = line[len('fault '):].rpartition(': found ')
    found = words.partition(', wanted ')[0]
    try:
        part = part_at(value, pointer)
    except (KeyError, IndexError, ValueError, TypeError):
        return 'no part of it is there'
    if found == LACKS_ID:
        return None if isinstance(part, dict) and 'id' not in part else 'there is an id'
    return None if KINDS[type(part)] == found else 'something else is there'


def wrong_references(value, lines):
    """What is wrong with the references of a JSON value, if anything."""
    items = value.get('items') if isinstance(value, dict) else value
    ids = {None if isinstance(it['id'], float) else str(it['id']) for it in items}
    references = [it for it in lines if it.startswith('reference ')]
    if None not in ids and len(references) != len(ids):
        return 'as many references as ids are there'
    return None


def json_value(document):
    """The value of a document, in a list; None where serde_json may refuse it, and a ValueError
    where it must."""
    value = json.loads(document.decode(), parse_constant=lambda it: json.loads('?'))
    text = json.dumps(value)
    return None if '\\ud8' in text.lower() or 'Infinity' in text or '[' * 100 in text else [value]


def judge(document, lines):
    """What is wrong with what was said of a document, if anything."""
    first = lines[0] if lines else ''
    is_json = not first.startswith(('fault no JSON', 'fault no UTF-8'))
    try:
        value = json_value(document)
    except (ValueError, RecursionError):
        return 'it is no JSON' if is_json else None
    if value is None:
        return None
    if not is_json:
        return 'it is JSON'
    if first.startswith('fault '):
        return wrong_fault(value[0], first)
    return wrong_references(value[0], lines)


def lists_to_change(paths):
    """The items of the cases, and some of Zotero's kind."""
    lists = [json.loads(zotero_library(3, seed)) for seed in range(5)]
    for document in [document_of(case) for path in paths for case in cases_of(path)]:
        try:
            lists.append(json.loads(document))
        except ValueError:
            pass
    return [it for it in lists if isinstance(it, list)]


def mutations(program, paths, count, seed):
    wrong, refused, batch = [], 0, []
    documents = mutated_documents(lists_to_change(paths), count, seed)
    for number, document in enumerate(documents, 1):
        batch.append(document)
        if len(batch) == BATCH or number == count:
            for one, lines in zip(batch, answers(program, batch)):
                refused += lines[:1] != [] and lines[0].startswith('fault')
                said = judge(one, lines)
                if said:
                    wrong.append('%s, but %s: %r' % (said, lines, one))
            batch = []
    print('%d documents of the seed %d, of which %d are refused' % (count, seed, refused))
    if wrong:
        raise Failed('%d of them:\n%s' % (len(wrong), '\n'.join(wrong[:5])))


# Memory


def refused_in_turn(program, document):
    """Each run with a growth refused ends with status 5 and prints nothing, wherever it is refused;
    or with the whole answer, where that growth only was to leave memory for later. At last none is
    refused."""
    run = lambda environment: ended(program, [document], 'calls', env=environment)
    refused, in_reading = runs.refused_in_turn(run)
    if in_reading < 10:
        raise Failed('only %d growths were refused while a document was read' % in_reading)
    print('%d growths refused in turn, %d of them while a document was read' % (
        refused, in_reading))


# Time


def used(program, path, word):
    """Processor time, without that of the system, and most memory, in bytes, of a run with the
    documents of a file. (What the system takes for a page of memory differs by machines.)"""
    with open(path, 'rb') as given:
        process = subprocess.Popen([program, word], stdin=given, stdout=subprocess.PIPE)
        out = process.stdout.read()
        _, status, usage = os.wait4(process.pid, 0)
        process.returncode = status
    if status != 0 or not out.strip().isdigit() or int(out) == 0:
        raise Failed('status %d, %r' % (status, out[:100]))
    return usage.ru_utime, usage.ru_maxrss * 1024


def written(folder, shape, size):
    """A file with a document, made by a process of its own, so that this one stays small: what is
    said of the memory of a process is at least what its parent had."""
    path = os.path.join(folder, str(size))
    child = os.fork()
    if child == 0:
        with open(path, 'wb') as file:
            file.write(sized(b'r', [shape(size)]))
        os._exit(0)
    if os.waitpid(child, 0)[1] != 0:
        raise Failed('a document of size %d was not made' % size)
    return path


def least_of_rounds(runs, is_good):
    """The least times of some runs, by rounds, until they are good, or there were enough; and the
    memory of each."""
    times, memory = [None] * len(runs), [0] * len(runs)
    for _ in range(ROUNDS):
        for place, run in enumerate(runs):
            seconds, memory[place] = used(*run)
            times[place] = seconds if times[place] is None else min(times[place], seconds)
        if is_good(*times):
            break
    return times, memory


def growth(program, name, shape, strict):
    """Four times as much takes four times as long, and four times as much memory."""
    most = 4.4 if strict else ABOUT_FOUR
    with tempfile.TemporaryDirectory(prefix='references-') as folder:
        runs = [(program, written(folder, shape, size), 'count') for size in (1, 4)]
        is_even = lambda one, four: four <= most * max(one, MEASURABLE)
        times, memory = least_of_rounds(runs, is_even)
    said = '%s: %.2f s and %.0f MB, %.2f s and %.0f MB for four times as much' % (
        name, times[0], memory[0] / 1e6, times[1], memory[1] / 1e6)
    print(said)
    if not is_even(*times) or memory[1] > most * memory[0]:
        raise Failed(said)


def of_items(count, **members):
    """A list of as many items with these members, each with an id of its own."""
    text = json.dumps({'id': '%d', 'type': 'book', **members})
    one = lambda n: text.replace('"%d"', '"%d"' % n)
    return lambda size: ('[%s]' % ',\n'.join(map(one, range(size * count)))).encode()


def of_one_item(count, members):
    """An item with what is made for so many parts."""
    return lambda size: json.dumps([{'id': 'x', 'type': 'book', **members(size * count)}]).encode()


def shapes():
    """Documents of much of one kind, by their sizes."""
    person = {'family': 'de la Cruz', 'given': 'Juana de, Jr.'}
    raw = {'raw': 'January 5, 2020'}
    typed = lambda n: {'id': n, 'type': 'book%d' % n}
    long_name = lambda n: {'family': 'de ' * n + 'Cruz', 'given': 'Juana' + ' de' * n}
    return {
        'Zotero’s items': lambda size: zotero_library(size * 5000),
        'ids that collide': lambda size: json.dumps([{'id': it} for it in colliding(size * 5000)]).encode(),
        'keys that collide': of_one_item(5000, lambda n: dict.fromkeys(colliding(n), '')),
        'bare items': of_items(100000),
        'unknown keys': of_items(4000, **{'unknown key %d' % n: '' for n in range(20)}),
        'dates': of_items(20000, issued=raw, accessed=raw, submitted=raw),
        'one id': lambda size: json.dumps([{'id': 'x', 'title': 'a'}] * (size * 60000)).encode(),
        'types that differ': lambda size: json.dumps([*map(typed, range(size * 60000))]).encode(),
        'keys that differ': of_one_item(60000, lambda n: {'title%d' % it: '' for it in range(n)}),
        'names': of_one_item(60000, lambda n: {'author': [person] * n}),
        'a name': of_one_item(1000000, lambda n: {'author': [long_name(n)]}),
        'markup': of_one_item(300000, lambda n: {'title': '<i>a <b>b</b></i>' * n}),
        'unclosed tags': of_one_item(1000000, lambda n: {'title': '<i>' * n}),
        'unopened tags': of_one_item(2000000, lambda n: {'title': '<i>' + '</b>' * n}),
        'a list of texts': of_one_item(1000000, lambda n: {'title': ['a'] * n}),
        'fractions': of_one_item(200000, lambda n: {'title': [1.5] * n}),
        'keys that repeat': lambda size: b'[{"id": "x"%s}]' % (b', "title": "a", "note": "b"' * (size * 200000)),
        'objects whose keys repeat': lambda size: b'[{"id": "x", "custom": [{}%s]}]' % (b', {"a": 1, "a": 2}' * (size * 60000)),
        'lines of a note': of_one_item(100000, lambda n: {'note': 'volume: 7\n' * n}),
        'unknown lines of a note': of_one_item(200000, lambda n: {'note': 'OCLC: 7\n' * n}),
        'names in a note': of_one_item(100000, lambda n: {'note': 'author: Doe || J\n' * n}),
        'braces of a note': of_one_item(100000, lambda n: {'note': '{:volume: 7}' * n}),
        'a date': of_one_item(4000000, lambda n: {'issued': '1-' * n}),
    }


def collisions(program):
    """The texts of tests/colliding.py have the hashes of the library, and so collide."""
    wrong = wrong_hashes()
    if wrong:
        raise Failed('%d texts have other hashes, as %s' % (len(wrong), wrong[0]))


def cost(program, strict):
    """Items take no more than some times what reading their JSON alone takes: twice, or on a
    machine that others use, where nothing so near holds, twelve times."""
    most = 2 if strict else 12
    with tempfile.TemporaryDirectory(prefix='references-') as folder:
        path = written(folder, zotero_library, LIBRARY)
        runs = [(program, path, word) for word in ('values', 'count')]
        times, memory = least_of_rounds(runs, lambda values, read: read <= most * values)
        size = os.path.getsize(path)
    said = '%d items, %.0f MB: %.2f s and %.0f MB, and their JSON alone %.2f s and %.0f MB' % (
        LIBRARY, size / 1e6, times[1], memory[1] / 1e6, times[0], memory[0] / 1e6)
    print(said)
    if times[1] > most * times[0]:
        raise Failed(said)


# All of it


def items_of(path):
    """A list of the items of all cases of a file, or else of its first that has some lines."""
    cases = [it for it in cases_of(path) if it[0] != 'document']
    if not cases:
        return next(document_of(it) for it in cases_of(path) if len(it[2]) > 3)
    items = [{**json.loads(document_of(it))[0], 'id': n} for n, it in enumerate(cases)]
    return json.dumps(items).encode()


def tests_of(program, given):
    """Each test: its name, the call, and what it is called with."""
    paths = sorted(glob.glob(HERE + '/cases/*.txt'))
    tests = [('cases: ' + os.path.basename(it), same_as_said, it) for it in paths]
    pandoc = shutil.which('pandoc')
    if pandoc:
        tests.append(('pandoc', same_as_pandoc, pandoc, paths))
    else:
        print('not installed, and left out: pandoc')
    tests.append(('mutated items', mutations, paths, given.mutate, given.seed))
    tests.append(('growths of memory: Zotero’s items', refused_in_turn, zotero_library(2, 3)))
    for path in paths:
        name = 'growths of memory: ' + os.path.basename(path)
        tests.append((name, refused_in_turn, items_of(path)))
    tests.append(('texts that collide', collisions))
    for name, shape in shapes().items():
        tests.append(('growth: ' + name, growth, name, shape, given.strict))
    tests.append(('cost', cost, given.strict))
    return tests


def main():
    parser = argparse.ArgumentParser(description=__doc__,
                                     formatter_class=argparse.RawDescriptionHelpFormatter)
    parser.add_argument('program')
    parser.add_argument('--mutate', type=int, default=3000, metavar='N')
    parser.add_argument('--seed', type=int, default=1, metavar='S')
    parser.add_argument('--strict', action='store_true')
    given = parser.parse_args()
    program = os.path.abspath(given.program)
    return runs.count(tests_of(program, given), program)

if __name__ == '__main__':
    sys.exit(main())
