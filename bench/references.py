#!/usr/bin/env python3
"""references.py PROGRAM [ENTRIES..]: how long .bib and RIS files take by `PROGRAM entries`, and
.bib files by pybtex.

PROGRAM is a built gamhilon. Makes files of so many entries (10,000 and 100,000, if not said), and
prints of each the processor time and the peak of memory of the program, and of pybtex where it is
there (Debian: python3-pybtex), which reads syntax and names alone; and how many times as long that
took. Ends with status 1 where the program gives more or fewer items than there are entries.
"""
import json
import os
import subprocess
import sys
import tempfile

SIZES = (10000, 100000)
ENTRY = ('@article{k%d,\n'
         '  author = {Doe, Jane and van der Roe, Richard and M{\\"u}ller, J{\\\'a}n},\n'
         '  title = {On the {NASA} Order of \\emph{Things}: A Study of $x^2$},\n'
         '  journaltitle = {Journal of Orders},\n  date = {2001-02-03},\n  volume = {3},\n'
         '  number = {4},\n  pages = {11--22},\n  doi = {10.1000/x_%d},\n'
         '  file = {paper.pdf},\n  abstract = {%s}\n}\n\n')
RECORD = ('TY  - JOUR\nAU  - Doe, Jane\nAU  - van der Roe, Richard\nTI  - On the NASA Order %d\n'
          'T2  - Journal of Orders\nPY  - 2001/02/03\nVL  - 3\nIS  - 4\nSP  - 11\nEP  - 22\n'
          'DO  - 10.1000/x_%d\nAB  - %s\nER  - \n\n')
ABSTRACT = 'What orders things have, and why, is said at some length here. ' * 6
FILES = {'bib': ENTRY, 'ris': RECORD}
BY_PYBTEX = ('import sys\nfrom pybtex.database import parse_file\n'
             'read = parse_file(sys.argv[1], bib_format="bibtex")\n'
             'print(sum(1 for entry in read.entries.values() if entry.persons.get("author")))\n')


def ran(*words):
    """What a program prints, the seconds of a processor that it took, and its peak of memory in
    MB."""
    with tempfile.TemporaryFile() as out:
        process = subprocess.Popen(words, stdout=out, stderr=subprocess.DEVNULL)
        _, status, used = os.wait4(process.pid, 0)
        process.returncode = os.waitstatus_to_exitcode(status)
        if process.returncode:
            sys.exit(f'references.py: {words[0]} ended with status {process.returncode}')
        out.seek(0)
        return out.read(), used.ru_utime + used.ru_stime, used.ru_maxrss / 1024


def has_pybtex():
    """Whether this Python has pybtex."""
    done = subprocess.run([sys.executable, '-c', 'import pybtex'], capture_output=True)
    return done.returncode == 0


def put(folder, ending, count):
    """Makes a file of so many entries, and gives its path."""
    path = f'{folder}/{count}.{ending}'
    with open(path, 'w', encoding='utf-8') as file:
        file.writelines(FILES[ending] % (number, number, ABSTRACT) for number in range(count))
    return path


def measure(program, path, count):
    """Prints what a file takes."""
    printed, own, memory = ran(program, 'entries', path)
    items = json.loads(printed)
    if len(items) != count:
        sys.exit(f'references.py: {path}: {len(items)} items')
    size = os.path.getsize(path) / 1e6
    row = f'| {os.path.basename(path)} | {size:.0f} MB | {own:.2f} s | {memory:.0f} MB |'
    if path.endswith('.bib') and has_pybtex():
        _, theirs, their_memory = ran(sys.executable, '-c', BY_PYBTEX, path)
        row += f' {theirs:.1f} s | {their_memory:.0f} MB | {theirs / own:.0f} |'
    else:
        row += ' | | |'
    print(row, flush=True)


def main(words):
    if not words or words[0].startswith('-'):
        sys.exit(__doc__)
    program, sizes = words[0], [int(word) for word in words[1:]] or SIZES
    print('| File | | gamhilon | peak | pybtex | peak | times |\n|---|---|---|---|---|---|---|')
    with tempfile.TemporaryDirectory() as folder:
        for count in sizes:
            for ending in FILES:
                measure(program, put(folder, ending, count), count)


if __name__ == '__main__':
    main(sys.argv[1:])
