"""The documents of a folder, answered by several processes. A document is the unit of work."""
from __future__ import annotations

import errno
import multiprocessing
import os
import signal
import threading
from concurrent.futures import Future, ProcessPoolExecutor, as_completed
from concurrent.futures.process import BrokenProcessPool
from dataclasses import dataclass
from functools import partial
from multiprocessing import resource_tracker
from typing import IO, Dict, Iterator, Tuple

from . import Limits, pages, print_document, print_json
from ._console import INPUT_OR_OUTPUT_FAILED, progress, reason_and_status, say
from ._library import library

SUFFIXES = {'text': '.txt', 'html': '.html', 'markdown': '.md', 'latex': '.tex', 'json': '.json'}

_MOST_PARTS = 100
"""How many files of a page that others have begun may stand beside it."""

Outcome = Tuple[int, str]
"""The exit status of a document, and what is said of it where that isn't 0."""


@dataclass(frozen=True)
class Job:
    """What is to be made of each document."""

    form: str
    is_standalone: bool
    limits: Limits
    links: bool = False


def page_of(job: Job, document: bytes) -> str:
    """What is written of a document."""
    text = pages.written(job.form, document, partial(print_document, limits=job.limits),
                         partial(print_json, limits=job.limits), job.links)
    return pages.standalone(text) if job.is_standalone else text


def render_folder(folder: str, output: str, job: Job, processes: int) -> int:
    """Writes a page for each document of a folder (each file that ends with `.json`) into another
    folder, and tells of those that are refused. The status is that of the first of them, by their
    names. Raises LibraryMissing and OSError."""
    library()
    paths = sorted(file.path for file in os.scandir(folder) if file.name.endswith('.json')
                   and file.is_file())
    os.makedirs(output, exist_ok=True)
    targets = {path: os.path.join(output, _stem(path) + SUFFIXES[job.form]) for path in paths}
    outcomes: Dict[str, Outcome] = {}
    with progress(lambda: f'{len(outcomes)} of {len(paths)} documents answered'):
        for path, outcome in _outcomes(job, targets, processes):
            outcomes[path] = outcome
            if outcome[0]:
                say(f'{path}: {outcome[1]}')
    return next((outcomes[path][0] for path in paths if outcomes[path][0]), 0)


def answer(job: Job, path: str, target: str) -> Outcome:
    """Writes the page of a document, whole or not at all."""
    try:
        with open(path, 'rb') as file:
            text = page_of(job, file.read())
        _put(text.encode('utf-8', 'replace'), target)
        return 0, ''
    except (OSError, ValueError, ArithmeticError, MemoryError) as error:
        message, status = reason_and_status(error)
        return status, message


def _put(page: bytes, target: str) -> None:
    """Puts a page where it belongs, by way of a new file, which a failure leaves nothing of. Raises
    OSError."""
    part, file = _new_file(target)
    try:
        with file:
            file.write(page)
        os.replace(part, target)
    except BaseException:
        os.unlink(part)
        raise


def _new_file(target: str) -> Tuple[str, IO[bytes]]:
    """A new file beside another one, and its path. No file or link that stands there is opened."""
    for number in range(_MOST_PARTS):
        part = f'{target}.part{number or ""}'
        try:
            return part, open(part, 'xb')
        except FileExistsError:
            continue
    raise FileExistsError(errno.EEXIST, os.strerror(errno.EEXIST), f'{target}.part')


def _stem(path: str) -> str:
    return os.path.basename(path)[:-len('.json')]


def _outcomes(job: Job, targets: Dict[str, str], processes: int) -> Iterator[Tuple[str, Outcome]]:
    """The outcome of each document, as soon as it is there."""
    if processes == 1:
        yield from ((path, answer(job, path, target)) for path, target in targets.items())
        return
    left = dict(targets)
    for path, outcome in _by_processes(job, targets, processes):
        del left[path]
        yield path, outcome
    # (a process that ends takes those beside it along: each of what they left has one of its own)
    for path, target in left.items():
        found = list(_by_processes(job, {path: target}, 1))
        yield path, found[0][1] if found else (INPUT_OR_OUTPUT_FAILED,
                                               'the process that answered it ended')


def _by_processes(job: Job, targets: Dict[str, str],
                  processes: int) -> Iterator[Tuple[str, Outcome]]:
    """The outcomes of documents that processes answer, as long as none of these ends."""
    # (it lets Ctrl-C through again, so it begins before that is held back)
    _begin_quiet_tracker()
    context = multiprocessing.get_context('spawn')
    with ProcessPoolExecutor(processes, context, _end_with_parent) as pool:
        # Ctrl-C is for this process, which ends the others: they begin with it held back.
        before = signal.pthread_sigmask(signal.SIG_BLOCK, {signal.SIGINT})
        try:
            futures = _submit_all(pool, job, targets)
        finally:
            signal.pthread_sigmask(signal.SIG_SETMASK, before)
        for future in as_completed(futures):
            try:
                yield futures[future], future.result()
            except BrokenProcessPool:
                continue


def _begin_quiet_tracker() -> None:
    """Begins the process that frees what this one leaves behind, without a warning where Ctrl-C
    ends this one."""
    before = os.environ.get('PYTHONWARNINGS')
    os.environ['PYTHONWARNINGS'] = 'ignore:resource_tracker'
    try:
        resource_tracker.ensure_running()
    finally:
        del os.environ['PYTHONWARNINGS']
        if before is not None:
            os.environ['PYTHONWARNINGS'] = before


def _submit_all(pool: ProcessPoolExecutor, job: Job,
                targets: Dict[str, str]) -> Dict['Future[Outcome]', str]:
    futures: Dict['Future[Outcome]', str] = {}
    for path, target in targets.items():
        try:
            futures[pool.submit(answer, job, path, target)] = path
        except BrokenProcessPool:
            break
    return futures


def _end_with_parent() -> None:
    """Has this process end as soon as that which began it does."""
    parent = multiprocessing.parent_process()

    def wait() -> None:
        if parent is not None:
            parent.join()
            os._exit(INPUT_OR_OUTPUT_FAILED)

    threading.Thread(target=wait, daemon=True).start()
