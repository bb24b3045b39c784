"""Edits that every contract allows, which tests have to notice: a call may always be refused for
want of memory, and no contract says how often an entry is asked. A line `shown: ..` of such an edit
says what shows it,

    shown: PROGRAM WAY DOCUMENT..    the program (as test_calls) in this way of its own, on documents of tests/documents: it
                                     ends by itself, and does not print what each of them must

where `./test` shows that the tree without the edit prints what it must. `rt try` compiles the
edited copy of the crates; it proves nothing."""
import os
import re
import shutil
import subprocess
import tempfile

from edits import ROOT, edit_of, edited

DOCUMENTS = ROOT + '/tests/documents'
# What a document must print is in NAME.WAY, or else in NAME.txt.
CASE = re.compile(r'case=(\S+) (.*)')


def copied(to, edit):
    """Copies the crates, with this edit made."""
    shutil.copytree(ROOT + '/crates', to + '/crates', ignore=shutil.ignore_patterns('out', 'must-fail'))
    for name in ('crates.txt', 'HANDLES'):
        shutil.copyfile('%s/%s' % (ROOT, name), '%s/%s' % (to, name))
    for path, text in edited(edit, to + '/crates').items():
        with open('%s/crates/%s' % (to, path), 'w', encoding='utf-8') as file:
            file.write(text)


def said_by(copy, crate, *words):
    """What `rt try` of a crate says."""
    ran = subprocess.run(['rt', 'try', *words], cwd='%s/crates/%s' % (copy, crate), text=True, errors='replace',
                         stdin=subprocess.DEVNULL, stdout=subprocess.PIPE, stderr=subprocess.STDOUT)
    return ran.stdout


def put_case(folder, way, document):
    """Writes a case for a document, with what it must print; gives its name."""
    base, name = '%s/%s' % (DOCUMENTS, document), document.replace('/', '_')
    wanted = '%s.%s' % (base, way)
    shutil.copyfile(wanted if os.path.exists(wanted) else base + '.txt', '%s/%s.stdout' % (folder, name))
    with open(base + '.json', encoding='utf-8') as given, open('%s/%s' % (folder, name), 'w', encoding='utf-8') as case:
        case.write(way + '\n' + given.read())
    return name


def is_noticed_by_documents(copy, program, way, documents):
    """Whether none of the documents printed what it must, though each run ended by itself."""
    with tempfile.TemporaryDirectory(prefix='cases-') as folder:
        names = [put_case(folder, way, it) for it in documents]
        said = said_by(copy, program, '--cases', folder)
    told = {name: words.split() for name, words in CASE.findall(said)}
    if sorted(told) != sorted(names):
        print(said)
    for name in names:
        print('%s %s: %s: %s' % (program, way, name, ' '.join(told.get(name, ['not tried']))))
    return all('run=ended' in told.get(name, []) and 'output=expected' not in told[name] for name in names)


def is_noticed(key, path):
    """Whether all that an edit names notice it."""
    edit = edit_of(path)
    print('== ' + key, flush=True)
    with tempfile.TemporaryDirectory(prefix='proved-') as copy:
        copied(copy, edit)
        noticed = [is_noticed_by_documents(copy, program, way, documents) for program, way, *documents in edit.shown]
    return all(noticed)
