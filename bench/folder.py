#!/usr/bin/env python3
"""folder.py [DOCUMENTS]: how long a folder of documents takes by several processes, and by Dask.

Makes so many documents (400, if not said), each of 200 requests as users have them (bench.py), and
answers the folder by `python3 -m gamhilon render --jobs N` and by the example on Dask with N
workers, for N of 1, 2 and 4. Prints the time by the clock of each, with the start of its processes,
and how many times as fast it is as one alone. Dask is left out where it isn't installed (Debian:
python3-distributed). Needs the library (embed/build.py).
"""
import importlib.util
import json
import os
import subprocess
import sys
import tempfile
import time

HERE = os.path.dirname(os.path.abspath(__file__))
ROOT = os.path.dirname(HERE)
sys.path.insert(0, HERE)

import bench  # noqa: E402

REQUESTS = 200
COUNTS = (1, 2, 4)
DASK = f'{ROOT}/embed/python/example/dask_folder.py'


def ran(*words):
    """The seconds that a command takes by the clock."""
    environment = {**os.environ, 'PYTHONPATH': f'{ROOT}/embed/python/src'}
    began = time.monotonic()
    done = subprocess.run([sys.executable, *words], env=environment, capture_output=True, text=True)
    if done.returncode:
        sys.exit(f'folder.py: {" ".join(words)} ended with status {done.returncode}: {done.stderr}')
    return time.monotonic() - began


def by_jobs(documents, pages, processes):
    """The words of the command that answers a folder of documents by so many processes."""
    return ['-m', 'gamhilon', 'render', documents, '--to', 'html', '--jobs', str(processes),
            '--output', pages]


def by_dask(documents, pages, workers):
    """The words of the example that does the same by Dask."""
    return [DASK, documents, pages, '--workers', str(workers)]


def measure(name, way, documents, folder):
    """Prints how long a way takes with each number of processes."""
    alone = None
    for number in COUNTS:
        pages = f'{folder}/pages of {way.__name__} {number}'
        seconds = ran(*way(documents, pages, number))
        alone = alone or seconds
        if len(os.listdir(pages)) != len(os.listdir(documents)):
            sys.exit(f'folder.py: {name} {number}: {len(os.listdir(pages))} pages')
        print(f'| {name} | {number} | {seconds:.1f} s | {alone / seconds:.1f} |', flush=True)


def main(count):
    with tempfile.TemporaryDirectory() as folder:
        documents = f'{folder}/documents'
        os.mkdir(documents)
        for number in range(count):
            with open(f'{documents}/n{number}.json', 'w', encoding='utf-8') as file:
                json.dump(bench.whole_author_date(REQUESTS), file)
        print(f'| {count} documents of {REQUESTS} requests | Processes | Time | Times as fast |')
        print('|---|---|---|---|')
        measure('`python3 -m gamhilon render --jobs`', by_jobs, documents, folder)
        if importlib.util.find_spec('distributed'):
            measure('Dask', by_dask, documents, folder)
        else:
            print('left out: there is no Dask (Debian: python3-distributed)', file=sys.stderr)


if __name__ == '__main__':
    main(int(sys.argv[1]) if len(sys.argv) > 1 else 400)
