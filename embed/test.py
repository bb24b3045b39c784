#!/usr/bin/env python3
"""test.py [--many N] [--after-ci | --archive FILE]: builds the library (build.py, with these
words), and tries it as its users would: from C, Python and Rust, on each document of
tests/documents/ and examples/; then it runs the tests of the Python package.

It needs the toolchain and a C compiler. What else it would use (c++, cargo, cmake, pkg-config,
valgrind, dpkg-deb, bash, zsh, fish, mandoc, groff, man, pip, venv, pandoc, chromium, pytest, mypy,
python3-pandocfilters, python3-jsonschema, python3-yaml, python3-distributed,
python3-markdown, mkdocs, citation-style-language-styles and citation-style-language-locales) is
left out where it is missing, and a line says so. --many N has valgrind watch N calls in four
threads, where it is 300 else. The last line is 'N passed, M failed', and the exit status is 1 where
a test failed."""
import collections
import glob
import json
import os
import subprocess
import sys
import tempfile
import time
import xml.etree.ElementTree
from concurrent.futures import ThreadPoolExecutor

HERE = os.path.dirname(os.path.abspath(__file__))
sys.path[:0] = [HERE, f'{HERE}/tests']

import installing  # noqa: E402
from checks import OUT, ROOT, failures, has_tool, hold, left_out  # noqa: E402
from checks import passed, plain, printed, ran, read  # noqa: E402

FORMS = ('text', 'json')
STACK_TOLD = 256 * 1024
STACK_OF_TEXTS = 2 * 1024 * 1024
DEPTH, ELEMENTS = 100, 100000
TEN = ['rows/*.json', 'layouts/*.json', 'disambiguation/*.json', 'grouping/*.json',
       'collapsing/*.json', 'bibliography/*.json', 'parts/*.json', 'purposes/*.json',
       'hostile/*.json', 'refused/*.json']
FEW_CALLS = 300
VALGRIND = ['valgrind', '-q', '--error-exitcode=9', '--leak-check=full',
            '--errors-for-leak-kinds=all']
# In how many processes the tests of the Python package run.
SHARES = 4


class Case:
    """A document, the status that it must end with, and the text that it must print."""

    def __init__(self, path):
        stem = path[:-len('.json')]
        self.path, self.name, self.bytes = path, os.path.relpath(path, ROOT), read(path)
        self.status = int(read(f'{stem}.status')) if os.path.exists(f'{stem}.status') else 0
        self.text = read(f'{stem}.txt') if os.path.exists(f'{stem}.txt') else b''


def compile_all(folder):
    """The programs of tests/ and the caller in C, and the header by itself as C99 and as C++17."""
    compiler = os.environ.get('CC', 'cc').split()
    strict = ['-Wall', '-Wextra', '-pedantic', '-Werror', f'-I{HERE}']
    wraps = ['-Wl,--wrap=malloc,--wrap=realloc,--wrap=free']
    sources = {'calls': [], 'stack': [], 'threads': [], 'many': [], 'about': [], 'limits': [],
               'driven': [], 'cites': [], 'failing': wraps, 'sessions': wraps, '../c/print': [],
               '../c/cite': [], '../c/session': []}
    for name, more in sources.items():
        standard = '-std=c99' if name.startswith('..') else '-std=gnu11'
        made = ran(*compiler, standard, '-O1', '-g', '-pthread', *strict, *more, '-o',
                   f'{folder}/{os.path.basename(name)}', f'{HERE}/tests/{name}.c',
                   f'{HERE}/out/libgamhilon.a')
        hold(made.returncode == 0, f'{name}.c compiles: {made.stderr.decode()[:600]}')
    for name, standard, tool in (('c', 'c99', compiler), ('c++', 'c++17', ['c++'])):
        if has_tool(tool[0], f'the header as {standard}'):
            with open(f'{folder}/header.{name}', 'w', encoding='utf-8') as file:
                file.write('#include "gamhilon.h"\n#include "gamhilon.h"\n'
                           'int main(void) { return GAMHILON_OK; }\n')
            made = ran(*tool, f'-std={standard}', *strict, '-x', name, '-c', '-o',
                       f'{folder}/header.o', f'{folder}/header.{name}')
            hold(made.returncode == 0, f'the header as {standard}: {made.stderr.decode()[:600]}')


def answers_of(folder, form, length, cases):
    """The status and the bytes of each case, by calls from C in a buffer of that length."""
    done = ran(f'{folder}/calls', form, str(length), *[case.path for case in cases])
    hold(done.returncode == 0, f'calls {form} {length}: {done.stderr.decode()[:600]}')
    answers, at = [], 0
    for _ in cases:
        end = done.stdout.index(b'\n', at)
        status, size = map(int, done.stdout[at:end].split())
        answers.append((status, done.stdout[end + 1:end + 1 + size] if status == 0 else b''))
        at = end + 1 + (size if status == 0 else 0)
    return answers


def validator(name):
    """What holds values to a schema of docs/, or none where the library is missing."""
    try:
        import jsonschema
    except ImportError:
        left_out.append(f'JSON against docs/{name}.schema.json: there is no jsonschema '
                        '(Debian: python3-jsonschema)')
        return None
    schema = json.loads(read(f'{ROOT}/docs/{name}.schema.json'))
    jsonschema.Draft202012Validator.check_schema(schema)
    return jsonschema.Draft202012Validator(schema)


def try_from_c(folder, cases):
    """Both texts, in a folder that fits and in one of one byte. Gives the answers in JSON."""
    big = 1 << 21
    schema, texts = validator('answer'), {}
    for form in FORMS:
        texts[form] = answers_of(folder, form, big, cases)
        for one, other, case in zip(texts[form], answers_of(folder, form, 1, cases), cases):
            hold(one == other, f'{case.name}: {form} in a buffer of one byte')
    for case, text, answer in zip(cases, texts['text'], texts['json']):
        hold(text == (case.status, case.text),
             f'{case.name}: the text, or status {text[0]}, and not {case.status}')
        hold(answer[0] == case.status,
             f'{case.name}: JSON: status {answer[0]}, and not {case.status}')
        if case.status == 0:
            value = json.loads(answer[1])
            hold(printed(value) == case.text.decode(),
                 f'{case.name}: the text that is read off its JSON')
            if schema:
                hold(schema.is_valid(value),
                     f'{case.name}: its JSON against docs/answer.schema.json')
    try_faults(folder, cases)
    one = Case(f'{HERE}/tests/every_kind.json')
    status, answer = answers_of(folder, 'json', big, [one])[0]
    wanted = json.loads(read(f'{HERE}/tests/every_kind.answer.json'))
    hold(status == 0 and json.loads(answer) == wanted,
         'the JSON that was worked out by hand for tests/every_kind.json')
    return [answer[1] for answer in texts['json']]


def faults():
    """The faults of tests/documents/faults.txt, by the names of the documents."""
    rows = [line.split(' | ')
            for line in read(f'{ROOT}/tests/documents/faults.txt').decode().splitlines()
            if line and line[0] != '#']
    return {f'tests/documents/{base}.json': dict(zip(('pointer', 'found', 'wanted'), row))
            for base, *row in rows}


def try_faults(folder, cases):
    """The first fault of each refused document, which is the one of tests/documents/faults.txt
    where that has it; of others none."""
    must = faults()
    for length in (1 << 12, 1):
        for case, (status, told) in zip(cases, answers_of(folder, 'fault', length, cases)):
            hold(status == 0 and bool(told) == (case.status == 2),
                 f'{case.name}: fault, status {status}, {told!r}')
            hold(must.get(case.name) in (None, json.loads(told or 'null')),
                 f'{case.name}: the fault is {told!r}')


def borders(path, depth, elements):
    """The limits at which a document whose layouts need this depth and this number of elements is
    tried, and the status of each: what it needs, all there is, and one less of either."""
    most = 2 ** 64 - 1
    rows = [(path, depth, elements, 0), (path, most, most, 0)]
    rows += [(path, depth - 1, elements, 7)] if depth else []
    return rows + ([(path, depth, elements - 1, 8)] if elements else [])


def ran_alone(*words):
    """What a program that prints little gave and how it ended, and the seconds of a processor that
    it alone took."""
    with subprocess.Popen(words, stdout=subprocess.PIPE, stderr=subprocess.PIPE) as process:
        out, error = process.stdout.read(), process.stderr.read()
        _, status, used = os.wait4(process.pid, 0)
        # (that of a signal counts too)
        process.returncode = os.WEXITSTATUS(status) or os.WTERMSIG(status)
    done = subprocess.CompletedProcess(words, process.returncode, out, error)
    return done, used.ru_utime + used.ru_stime


def hold_limits(folder, stack, rows):
    """Calls gamhilon_check_limits, in a thread of so much stack, with each of some rows: a
    document, limits and the status. Gives the seconds of a processor that this took."""
    done, seconds = ran_alone(f'{folder}/limits', str(stack),
                              *[str(word) for path, *limits, _ in rows
                                for word in (*limits, path)])
    statuses = done.stdout.split()
    hold(done.returncode == 0 and len(statuses) == len(rows),
         f'limits in {stack} bytes of stack: {done.returncode}, {done.stderr!r}')
    for (path, depth, elements, status), got in zip(rows, statuses):
        hold(int(got) == status, f'{os.path.basename(path)}: limits {depth} and {elements}: '
             f'status {int(got)}, and not {status}')
    return seconds


def limits_of_cases(layouts, cases):
    """Rows for the documents of the tests: those that have the form, and those whose first fault is
    told."""
    must, rows = faults(), []
    for case in cases:
        pointer, found = (must.get(case.name, {}).get(name, '') for name in ('pointer', 'found'))
        is_of_document = pointer == '' and found and not found.startswith('missing key')
        if pointer.startswith('/styles') or is_of_document:
            rows.append((case.path, DEPTH, ELEMENTS, 2))
        elif case.status != 2 or pointer:
            depth, elements = layouts.measured(json.loads(case.bytes))
            rows += borders(case.path, depth,
                            elements) if elements <= ELEMENTS else [(case.path, DEPTH, ELEMENTS, 8)]
    return rows


def put(folder, what, document):
    """Writes a document into a folder, and gives its path."""
    path = f'{folder}/{what}.json'
    with open(path, 'w', encoding='utf-8') as file:
        json.dump(document, file)
    return path


def try_limits(folder, cases):
    """gamhilon_check_limits: of layouts of a known size and of those of each document, in the stack
    that the header tells; and that it doesn't take long. What is within the limits is answered in
    that stack, and refused memory is told beyond them too."""
    import layouts
    known = [(put(folder, what, document), *size) for what, document, *size in layouts.KNOWN]
    allowed = [(put(folder, what, document), *size) for what, document, *size, _ in layouts.ALLOWED]
    chains = [(put(folder, what, document), *size) for what, document, *size in layouts.CHAINS]
    rows = ([row for case in [*known, *allowed] for row in borders(*case)]
            + limits_of_cases(layouts, cases))
    hold_limits(folder, STACK_TOLD, rows + [(path, DEPTH, ELEMENTS, 7) for path, *_ in chains])
    hold_limits(folder, 1 << 26, [row for case in chains for row in borders(*case)])
    try_much_work(folder, layouts)
    try_allowed(folder, [(path, text) for (path, *_), (*_, text) in zip(allowed, layouts.ALLOWED)])
    exceeding = [chains[0][0],
                 f'{ROOT}/tests/documents/hostile/macros_that_give_nothing_40_deep.json']
    hold(ran(f'{folder}/failing', *exceeding).returncode == 0,
         'each allocation refused in turn, beyond the limits')


def try_much_work(folder, layouts):
    """What would be much work beyond the limits, and what is just within them, take little
    processor time."""
    rows = [(put(folder, f'macros that double {length} deep', layouts.doubling(length)), DEPTH,
             ELEMENTS, 8) for length in (24, 64)]
    rows.append((put(folder, 'many macros', layouts.many_macros(10000, ELEMENTS // 2)), 2, ELEMENTS,
                 0))
    seconds = hold_limits(folder, STACK_TOLD, rows)
    hold(seconds < 30, f'limits of macros that double and of many macros: {seconds:.2f} s')


def try_allowed(folder, rows):
    """What documents at the limits print, and the stack that they take."""
    for path, text in rows:
        with open(f'{path[:-len(".json")]}.txt', 'w', encoding='utf-8') as file:
            file.write(text)
    cases = [Case(path) for path, _ in rows]
    for case, text, answer in zip(cases,
                                  *[answers_of(folder, form, 1 << 21, cases) for form in FORMS]):
        hold(text == (0, case.text), f'{case.name}: the text within the limits')
        hold(answer[0] == 0 and printed(json.loads(answer[1])).encode() == case.text,
             f'{case.name}: the JSON within the limits')
    hold_stack(folder, [case.path for case in cases])


def members(part):
    """What there is of a part of an answer, by name."""
    return {name: value for name, value in vars(part).items() if value is not None}


def is_rebuilt(gamhilon, case, value):
    """Whether `render` gives all that the JSON has, and `plain` the text of each tree."""
    answer = gamhilon.render_document(case.bytes)
    found = {'citations': [members(citation) for citation in answer.citations]}
    if answer.bibliography:
        found['bibliography'] = {**members(answer.bibliography),
                                 'items': [members(item) for item in answer.bibliography.items]}
    return (found == value
            and all(gamhilon.plain(citation.content) == plain(citation.content)
                    for citation in answer.citations))


def holds_shared_parts():
    """Whether each part of docs/driven.schema.json that another schema names too is as it stands
    there."""
    own, *others = [json.loads(read(f'{ROOT}/docs/{name}.schema.json'))['$defs']
                    for name in ('driven', 'document', 'answer')]
    named = [(part, [schema[name] for schema in others if name in schema])
             for name, part in own.items()]
    return all(part in elsewhere for part, elsewhere in named if elsewhere)


def with_written(document, lines):
    """The driven documents that the host of tests/driven.c hands in one after the other, by what it
    prints."""
    written = []
    yield document
    for line in lines[:-1]:
        written += [{'task': task,
                     'tree': [{'text': task['entry'], 'font_style': 'normal',
                               'font_weight': 'normal'}]}
                    for task in json.loads(line.partition(' ')[2])['missing']]
        yield {**document, 'written': list(written)}


def put_texts(folder, name, files):
    """Writes texts of gamhilon_cite into a folder of their own, and gives its path."""
    place = f'{folder}/{name}'
    os.makedirs(place)
    for file, text in files.items():
        with open(f'{place}/{file}', 'wb') as stream:
            stream.write(text)
    return place


def answers_of_texts(folder, length, places):
    """The status and the bytes of each call on the texts of some folders, in a buffer of that
    length: of each folder the answer, what is wrong and odd, and the items."""
    done = ran(f'{folder}/cites', str(length), *places)
    hold(done.returncode == 0, f'cites {length}: {done.stderr.decode()[:600]}')
    answers, at = [], 0
    while at < len(done.stdout):
        end = done.stdout.index(b'\n', at)
        status, size = map(int, done.stdout[at:end].split())
        size = size if status == 0 else 0
        answers.append((status, done.stdout[end + 1:end + 1 + size]))
        at = end + 1 + size
    return list(zip(answers[::3], answers[1::3], answers[2::3]))


def try_texts(folder):
    """Citations of texts: the answers, the warnings and the faults of tests/texts.py, in a buffer
    that fits and in one of a byte."""
    import texts
    schema = validator('answer')
    answered = [put_texts(folder, f'answered {number}', case[1])
                for number, case in enumerate(texts.ANSWERED)]
    cases = [(2, *case) for case in texts.REFUSED] + [(10, *case) for case in texts.EXCEEDED]
    refused = [put_texts(folder, f'refused {number}', case[2])
               for number, case in enumerate(cases)]
    found = answers_of_texts(folder, 1 << 16, answered + refused)
    hold(found == answers_of_texts(folder, 1, answered + refused), 'texts in a buffer of one byte')
    for (name, _, *wanted), (answer, findings, _) in zip(texts.ANSWERED, found):
        cited, notes, listed, warnings = wanted
        hold(answer[0] == 0 and findings[0] == 0, f'texts: {name}: {answer}, {findings}')
        value = json.loads(answer[1] or b'{"citations":[]}')
        hold([plain(citation['content']) for citation in value['citations']] == cited
             and [citation['note_number'] for citation in value['citations']] == notes,
             f'texts: {name}: the citations are {value["citations"]}')
        hold(value.get('bibliography') == listed,
             f'texts: {name}: the bibliography is {value.get("bibliography")}')
        hold(json.loads(findings[1]) == {'warnings': warnings},
             f'texts: {name}: the warnings are {findings[1].decode()}')
        if schema:
            hold(schema.is_valid(value), f'texts: {name}: its JSON against docs/answer.schema.json')
    for (status, name, _, fault), (answer, findings, _) in zip(cases, found[len(answered):]):
        told = json.loads(findings[1] or b'{}').get('fault', {})
        wanted = fault or {}
        hold(answer == (status, b'') and findings[0] == 0
             and told.get('message', '').startswith(wanted.get('message', ''))
             and {**told, 'message': ''} == {**wanted, 'message': ''},
             f'texts: {name}: status {answer[0]}, the fault is {told}')
    try_forms(folder, texts)
    try_references(folder, texts)
    try_hard_texts(folder, texts, answered)


def try_forms(folder, texts):
    """A line for each citation, and behind an empty line one for each item."""
    for form, items in texts.FORMS:
        files = texts.texts(options={'form': form})
        place = put_texts(folder, f'form {form}', files)
        [(answer, *_)] = answers_of_texts(folder, 1 << 16, [place])
        lines = ''.join(f'{line}\n' for line in [*texts.CITED, '', *items])
        hold(answer == (0, lines.encode()), f'texts: in the form {form}: {answer}')


def try_references(folder, texts):
    """The items of references in each form as CSL-JSON, and what was lost of them, in a buffer that
    fits and in one of a byte."""
    places = [put_texts(folder, f'references {number}', files)
              for number, (_, files, _) in enumerate(texts.REFERENCES)]
    found = answers_of_texts(folder, 1 << 16, places)
    hold(found == answers_of_texts(folder, 1, places), 'references in a buffer of one byte')
    for (name, _, wanted), (*_, (status, text)) in zip(texts.REFERENCES, found):
        hold(status == 0 and json.loads(text) == wanted,
             f'references: {name}: {status}, {text.decode()}')


def try_hard_texts(folder, texts, answered):
    """Memory refused, valgrind, and the need of stack, of calls on texts."""
    small = [put_texts(folder, f'small {number}', files)
             for number, files in enumerate(texts.SMALL)]
    done = ran(f'{folder}/failing', '--texts', *small, timeout=900)
    hold(done.returncode == 0,
         f'each allocation of texts refused in turn: {done.stdout.decode()[-600:]}')
    if has_tool('valgrind', 'leaks and wrong reads of texts'):
        done = ran(*VALGRIND, f'{folder}/cites', '1', *small, answered[0])
        hold(done.returncode == 0, f'valgrind, texts: {done.stderr.decode()[:900]}')
    deep = [put_texts(folder, f'deep {number}', files) for number, files in enumerate(texts.DEEP)]
    hold([answer[0] for answer, *_ in answers_of_texts(folder, 1 << 16, deep)] == [0, 0, 2],
         'style files that nest as deep as is read are answered')
    hold_stack(folder, ['--texts', *answered, *deep], STACK_OF_TEXTS)
    place = answered[0]
    done = ran(f'{folder}/cite', f'{place}/style.csl', f'{place}/items.json',
               f'{place}/citations.json')
    hold(done.returncode == 0 and b'Jane Doe' in done.stdout and not done.stderr,
         f'c/cite.c: {done.returncode}, {done.stderr.decode()}')
    done = ran(f'{folder}/cite', f'{place}/items.json', f'{place}/items.json',
               f'{place}/citations.json')
    hold(done.returncode == 2 and b'"file":"style"' in done.stderr, 'c/cite.c: what is no style')


def texts_of_session(folder, length, place):
    """What a session says to the edits of tests/sessions.c, in a buffer of that length: statuses
    and texts."""
    done = ran(f'{folder}/sessions', str(length), place)
    hold(done.returncode == 0, f'sessions {length}: {done.stderr.decode()[:600]}')
    said, at = [], 0
    while at < len(done.stdout):
        end = done.stdout.index(b'\n', at)
        status, size = map(int, done.stdout[at:end].split())
        size = size if status == 0 else 0
        said.append((status, done.stdout[end + 1:end + 1 + size]))
        at = end + 1 + size
    return said


def try_sessions(folder):
    """Sessions from C: a document that is edited, in a buffer that fits and in one of a byte;
    refused memory, threads, valgrind; and the example."""
    import texts
    place = put_texts(folder, 'edited', texts.SESSION)
    said = texts_of_session(folder, 1 << 15, place)
    hold(said == texts_of_session(folder, 1, place), 'a session in a buffer of one byte')
    statuses = [status for status, _ in said]
    hold(statuses == texts.SESSION_STATUSES, f'the statuses of a session: {statuses}')
    told = [text.decode() for status, text in said if status == 0 and text]
    for number, (text, wanted) in enumerate(zip(told, texts.SESSION_TEXTS)):
        hold(text.startswith(wanted) if isinstance(wanted, str) else json.loads(text) == wanted,
             f'text {number} of a session: {text}')
    hold(len(told) == len(texts.SESSION_TEXTS), f'{len(told)} texts of a session')
    for words, what in ((['--refuse'], 'each growth of a session refused in turn'),
                        (['--threads'], 'sessions in eight threads')):
        done = ran(f'{folder}/sessions', *words, place, timeout=900)
        hold(done.returncode == 0, f'{what}: {done.stdout.decode()} {done.stderr.decode()[-600:]}')
    if has_tool('valgrind', 'leaks and wrong reads of sessions'):
        done = ran(*VALGRIND, f'{folder}/sessions', '1', place)
        hold(done.returncode == 0, f'valgrind, sessions: {done.stderr.decode()[:900]}')
    files = [f'{place}/{name}' for name in ('style.csl', 'items.json', 'citations.json')]
    done = ran(f'{folder}/session', *files, files[-1])
    lines = done.stdout.decode().splitlines()
    hold(done.returncode == 0 and len(lines) == 2 and '(Doe 1999)' in lines[0]
         and json.loads(lines[1])['citations'] == {'changed': [], 'gone': []},
         f'c/session.c: {done.returncode}, {lines}, {done.stderr.decode()}')
    done = ran(f'{folder}/session', files[1], *files[1:])
    hold(done.returncode == 2 and b'style:' in done.stderr,
         f'c/session.c: what is no style: {done.stderr.decode()}')


def try_driven(folder):
    """A host that writes what is missing until there is an answer; buffers that are too small;
    refused memory; and where a driven document is wrong."""
    document = json.loads(read(f'{HERE}/tests/driven.json'))
    done = ran(f'{folder}/driven', f'{HERE}/tests/driven.json')
    lines = done.stdout.decode().splitlines()
    hold(done.returncode == 0 and done.stdout == read(f'{HERE}/tests/driven.txt'),
         f'a host that writes what is missing: {lines}')
    handed_in = list(with_written(document, lines))
    schema = validator('driven')
    hold(not schema or all(schema.is_valid(document) for document in handed_in),
         'driven documents against docs/driven.schema.json')
    hold(holds_shared_parts(),
         'the parts of docs/driven.schema.json that the other schemas have too')
    cases = [Case(put(folder, f'driven {k}', document)) for k, document in enumerate(handed_in)]
    for length in (1 << 16, 1):
        told = [f'{status} {text.decode()}'
                for status, text in answers_of(folder, 'drive', length, cases)]
        hold(told == lines, f'driven documents in a buffer of {length}: {told}')
        hold(all(answer == (0, b'') for answer in answers_of(folder, 'drive_fault', length, cases)),
             'driven documents have no fault')
    hold(ran(f'{folder}/failing', *[case.path for case in cases]).returncode == 0,
         'each allocation refused in turn, driven')
    hold_stack(folder, [case.path for case in cases])
    try_driven_faults(folder, schema, handed_in[-1])


def try_driven_faults(folder, schema, whole):
    """The faults of driven documents that are wrong in one place each."""
    one = whole['written'][0]
    rows = [
        ({**whole, 'styles': {'house': {'elements': []}}}, '/styles/house', 'unknown key elements'),
        ({**whole, 'locales': []}, '', 'unknown key locales'),
        ({**whole, 'written': {}}, '/written', 'an object'),
        ({**whole, 'written': [{'task': one['task']}]}, '/written/0', 'missing key tree'),
        ({**whole, 'written': [one, {**one, 'tree': [{'text': 'a', 'font_style': 'normal'}]}]},
         '/written/1/tree/0', 'missing key font_weight'),
        ({**whole, 'written': [{**one, 'task': {**one['task'], 'kind': 'note'}}]},
         '/written/0/task/kind', 'a text'),
        ({**whole, 'written': [{**one, 'task': {**one['task'], 'place': [0]}}]},
         '/written/0/task/place', 'a list'),
    ]
    cases = [Case(put(folder, f'driven and wrong {k}', document))
             for k, (document, *_) in enumerate(rows)]
    answers = answers_of(folder, 'drive', 1 << 16, cases)
    faults = answers_of(folder, 'drive_fault', 1 << 16, cases)
    for (document, pointer, found), (status, _), (judged, fault) in zip(rows, answers, faults):
        told = json.loads(fault or '{}')
        hold(status == 2 and judged == 0
             and (told.get('pointer'), told.get('found')) == (pointer, found),
             f'a driven document with {found} at {pointer}: status {status}, {told}')
        hold(not schema or not schema.is_valid(document),
             f'docs/driven.schema.json refuses {found} at {pointer}')
    for key, value, pointer in (('entry', 'eve', '/written/0/task/entry'),
                                ('style', 'cottage', '/written/0/task/style')):
        unknown = {**whole, 'written': [{**one, 'task': {**one['task'], key: value}}]}
        (status, _), = answers_of(folder, 'drive', 1 << 16,
                                  [Case(put(folder, 'driven and unknown', unknown))])
        (_, fault), = answers_of(folder, 'drive_fault', 1 << 16,
                                 [Case(put(folder, 'driven and unknown', unknown))])
        hold(status == 2 and json.loads(fault or '{}').get('pointer') == pointer,
             f'a task of an unknown {key}: {status}, {fault!r}')


def try_from_python(cases, jsons):
    """The package, alone and in eight threads."""
    sys.path.insert(0, f'{HERE}/python/src')
    import gamhilon

    def tried(case, answer, buffer):
        library = gamhilon._library.library()
        try:
            return (library.print_document(case.bytes, buffer) == case.text
                    and library.print_json(case.bytes, buffer) == answer)
        except gamhilon.Refused as refusal:
            return refusal.status == case.status

    for buffer in (None, 1):
        for case, answer in zip(cases, jsons):
            hold(tried(case, answer, buffer),
                 f'{case.name}: from Python, in a buffer of {buffer or "its own choice"}')
    with ThreadPoolExecutor(8) as pool:
        hold(all(pool.map(lambda pair: tried(*pair, None), [*zip(cases, jsons)] * 3)),
             'from eight threads of Python')
    for case, answer in zip(cases, jsons):
        if case.status == 0:
            hold(is_rebuilt(gamhilon, case, json.loads(answer)), f'{case.name}: what render gives')
    macros = [{'name': 'a', 'children': []},
              {'name': 'b', 'children': [{'kind': 'text', 'macro': 'b'}]}]
    ring = {'styles': {'s': {'citation': {'elements': []}, 'macros': macros}}, 'entries': [],
            'requests': [], 'bibliography': {'style': 's'}}
    try:
        gamhilon.render_document(ring)
        hold(False, 'a ring is refused')
    except gamhilon.MacroRing as refusal:
        hold((refusal.status, refusal.request, refusal.macro_index) == (3, None, 1),
             'the place of a ring of the bibliography')
    ring['styles']['t'] = {'citation': {'elements': []}}
    ring['requests'] = [{'style': 't', 'items': []}, {'style': 's', 'items': []}]
    try:
        gamhilon.render_document(ring)
        hold(False, 'a ring is refused')
    except gamhilon.MacroRing as refusal:
        hold((refusal.request, refusal.macro_index) == (1, 1), 'the place of a ring of a request')


def try_driving():
    """The driven call beside its model, as hosts of ordinary documents make it
    (tests/model/driven_check.py)."""
    done = ran(sys.executable, f'{ROOT}/tests/model/driven_check.py', '--library',
               f'{OUT}/libgamhilon.so', timeout=600)
    told = done.stdout.decode() + done.stderr.decode()
    hold(done.returncode == 0 and ' passed, 0 failed' in told,
         f'the driven call and its model: {told[-1200:]}')


def python_with_pytest():
    """This Python, or Debian's: the one that has more of what the package's tests use; None where
    neither has pytest."""
    def has(python, module):
        return os.path.exists(python) and ran(python, '-c', f'import {module}').returncode == 0

    pythons = [python for python in (sys.executable, '/usr/bin/python3') if has(python, 'pytest')]
    names = ('mypy', 'pandocfilters', 'jsonschema', 'yaml', 'distributed', 'markdown', 'mkdocs')
    return max(pythons, key=lambda python: sum(has(python, name) for name in names), default=None)


def try_tests_of_the_package(folder, share):
    """The tests of a share of the files of the package's own, counted one by one."""
    python = python_with_pytest()
    if not python:
        left_out.append(f'share {share + 1} of {SHARES} of the tests of the Python package: there '
                        'is no pytest (Debian: python3-pytest)')
        return
    report = f'{folder}/pytest_{share}.xml'
    environment = {name: value for name, value in os.environ.items() if name != 'GAMHILON_LIBRARY'}
    words = ['-m', 'pytest', '-q', '-p', 'no:cacheprovider', f'--junitxml={report}']
    files = sorted(glob.glob(f'{HERE}/python/tests/test_*.py'))[share::SHARES]
    done = ran(python, *words, *files, cwd=f'{HERE}/python', env=environment, timeout=900)
    hold(done.returncode == 0, f'pytest ends well: {done.stdout.decode()[-3000:]}')
    reasons = collections.Counter()
    is_there = os.path.exists(report)
    for case in xml.etree.ElementTree.parse(report).iter('testcase') if is_there else []:
        name, skipped = f'{case.get("classname")}.{case.get("name")}', case.find('skipped')
        if skipped is not None:
            reasons[skipped.get('message')] += 1
        else:
            hold(case.find('failure') is None and case.find('error') is None, name)
    left_out.extend(f'{count} tests of the Python package: {reason}'
                    for reason, count in reasons.items())


def ten(cases):
    """A document of each of ten folders."""
    paths = [sorted(glob.glob(f'{ROOT}/tests/documents/{pattern}'), key=os.path.getsize)
             for pattern in TEN]
    chosen = {path[len(path) // 2] for path in paths if path}
    return [case for case in cases if case.path in chosen]


def hold_stack(folder, paths, told=STACK_TOLD):
    """Measures the need of stack of each call, and holds it to what the header tells."""
    done = ran(f'{folder}/stack', *paths)
    hold(done.returncode == 0, 'the need of stack is measured')
    for line in done.stdout.decode().strip().split('\n'):
        form, size, path = line.split(' ', 2)
        print(f'stack: {form} takes at most {int(size) // 1024} KiB, '
              f'at {os.path.relpath(path, ROOT)}')
        hold(int(size) <= told,
             f'{form} takes {size} bytes of stack, and the header tells {told}')


def try_hard(folder, cases):
    """Memory refused, threads, valgrind, and the need of stack."""
    few = [case.path for case in ten(cases)]
    hold(len(few) == 10, f'there are ten documents, one of each folder, and not {len(few)}')
    done = ran(f'{folder}/failing', *few)
    wrong = [line for line in done.stdout.decode().splitlines() if ', 0 wrong' not in line]
    hold(done.returncode == 0, f'each allocation refused in turn: {wrong[:3]}')
    done = ran(f'{folder}/threads', *few)
    hold(done.returncode == 0, f'eight threads: {done.stdout.decode()}')
    if has_tool('valgrind', 'leaks and wrong reads'):
        words = [*VALGRIND, f'{folder}/calls']
        with ThreadPoolExecutor(2) as pool:
            for form, done in zip(FORMS,
                                  pool.map(lambda form: ran(*words, form, '1', *few), FORMS)):
                hold(done.returncode == 0, f'valgrind, {form}: {done.stderr.decode()[:900]}')
    hold_stack(folder, [case.path for case in cases])


def try_many_calls(folder, cases, calls):
    """So many calls in four threads, watched by valgrind."""
    if has_tool('valgrind', 'leaks and wrong reads of calls in threads'):
        few = [case.path for case in ten(cases)]
        done = ran(*VALGRIND, '--fair-sched=yes', f'{folder}/many', str(calls), *few, timeout=3600)
        print(f'valgrind: {done.stdout.decode().strip()}')
        hold(done.returncode == 0,
             f'valgrind, {calls} calls in four threads: {done.stderr.decode()[:900]}')


def timed(part, *arguments):
    """What a part of the tests gives. Prints how long it took."""
    began = time.monotonic()
    given = part(*arguments)
    print(f'{part.__name__}: {time.monotonic() - began:.0f} s')
    return given


def side_by_side(parts):
    """Makes parts of the tests, each with its arguments, as many at a time as there are
    processors."""
    with ThreadPoolExecutor(os.cpu_count()) as pool:
        for part in [pool.submit(timed, *part) for part in parts]:
            part.result()


def main(words):
    began, calls = time.time(), FEW_CALLS
    if words[:1] == ['--many']:
        calls, words = int(words[1]), words[2:]
    built = subprocess.run([sys.executable, f'{HERE}/build.py', *words]).returncode
    hold(built == 0, 'the library is built')
    if built == 0:
        print(f'built in {time.time() - began:.0f} s')
        began = time.time()
        cases = [Case(path)
                 for path in sorted(glob.glob(f'{ROOT}/tests/documents/*/*.json')
                                    + glob.glob(f'{ROOT}/examples/*.json'))]
        with tempfile.TemporaryDirectory() as folder:
            timed(compile_all, folder)
            if not failures:
                jsons = timed(try_from_c, folder, cases)
                # (the longest first, so that none is left alone at the end)
                side_by_side([*[(try_tests_of_the_package, folder, share)
                                for share in range(SHARES)],
                              (try_many_calls, folder, cases, calls),
                              (try_hard, folder, cases),
                              (try_texts, folder),
                              (try_sessions, folder),
                              (installing.try_building, folder),
                              (try_driving,),
                              (try_limits, folder, cases),
                              (try_from_python, cases, jsons),
                              (try_driven, folder)])
                # (it writes embed/out anew, which the others load)
                timed(installing.try_packages, folder)
        print(f'{len(cases)} documents, {time.time() - began:.0f} s')
    for message in left_out:
        print(f'left out: {message}')
    print(f'{len(passed)} passed, {len(failures)} failed')
    return 1 if failures else 0


if __name__ == '__main__':
    sys.exit(main(sys.argv[1:]))
