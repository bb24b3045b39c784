"""What the commands share: files, messages, progress, and an end by Ctrl-C."""
from __future__ import annotations

import json
import os
import sys
import threading
import time
from contextlib import contextmanager
from typing import Any, Callable, Iterator, List, NoReturn, Tuple, Union

from . import _faults
from .errors import LimitExceeded, Refused, StyleLimitExceeded

INPUT_OR_OUTPUT_FAILED, NOT_OF_ITS_FORM, INTERRUPTED = 1, 2, 130
"""Exit statuses: where reading or writing fails, where a file isn't of its form, and by Ctrl-C."""

COMMAND = 'python3 -m gamhilon'
"""How the commands of this package are called: `gamhilon` is the program of docs/WRITER.md."""

_STACK = 64 * 1024 * 1024


class OutputFailed(OSError):
    """Standard output can't be written."""


def name_of(path: str) -> str:
    """How messages name a file."""
    return 'standard input' if path == '-' else path


def say(message: str) -> None:
    """A line on standard error, where there is one."""
    if sys.stderr is not None:
        print(f'gamhilon: {_faults.in_one_line(message)}', file=sys.stderr, flush=True)


def reason_and_status(error: Exception) -> Tuple[str, int]:
    """What is said of a file of which nothing comes, and the exit status."""
    if isinstance(error, LimitExceeded) and not isinstance(error, StyleLimitExceeded):
        option = '--depth' if error.status == 7 else '--elements'
        return f'{error} ({option} raises the limit)', error.status
    if isinstance(error, Refused):
        return str(error), error.status
    if isinstance(error, OSError):
        return error.strerror or str(error), INPUT_OR_OUTPUT_FAILED
    return str(error), NOT_OF_ITS_FORM


def read(path: str) -> bytes:
    """The bytes of a file, or of standard input."""
    if path == '-':
        if sys.stdin is None:
            raise OSError('it is closed')
        return sys.stdin.buffer.read()
    with open(path, 'rb') as file:
        return file.read()


def write(text: str) -> None:
    """Writes to standard output, all of it or with an OutputFailed."""
    if sys.stdout is None:
        raise OutputFailed('it is closed')
    try:
        sys.stdout.buffer.write(text.encode('utf-8', 'replace'))
        sys.stdout.buffer.flush()
    except OSError as error:
        raise OutputFailed(error.strerror or str(error)) from error


def close_output() -> None:
    """Keeps Python from writing the rest once more, and from failing again, as it ends."""
    try:
        os.dup2(os.open(os.devnull, os.O_WRONLY), sys.stdout.fileno())
    except (AttributeError, OSError, ValueError):
        pass


def json_text(value: Any) -> str:
    """A value as JSON, as people read it."""
    return json.dumps(value, ensure_ascii=False, indent=2) + '\n'


@contextmanager
def progress(what: Union[str, Callable[[], str]]) -> Iterator[None]:
    """Tells on standard error what goes on, and for how long, where that takes longer than a second
    and standard error is a terminal."""
    if sys.stderr is None or not sys.stderr.isatty():
        yield
        return
    done = threading.Event()

    def tell() -> None:
        began, width = time.monotonic(), 0
        while not done.wait(1.0):
            said = what if isinstance(what, str) else what()
            line = _faults.in_one_line(f'gamhilon: {said}, {time.monotonic() - began:.0f} s')
            print(f'\r{line.ljust(width)}', end='', file=sys.stderr, flush=True)
            width = len(line)
        if width:
            print('\r' + ' ' * width + '\r', end='', file=sys.stderr, flush=True)

    teller = threading.Thread(target=tell, daemon=True)
    teller.start()
    try:
        yield
    finally:
        done.set()
        teller.join()


def interruptible(work: Callable[[], int]) -> int:
    """The exit status of some work. Ctrl-C ends the process and its children at once, with a status
    of its own, also in a call of the library: so the work is done in a thread of its own, which has
    more stack than others."""
    if threading.current_thread() is not threading.main_thread():
        return work()
    outcome: List[Union[int, BaseException]] = []

    def run() -> None:
        try:
            outcome.append(work())
        except BaseException as error:
            outcome.append(error)

    before = threading.stack_size(_STACK)
    worker = threading.Thread(target=run, daemon=True)
    try:
        worker.start()
        threading.stack_size(before)
        worker.join()
    except KeyboardInterrupt:
        _end_at_once()
    if isinstance(outcome[0], BaseException):
        raise outcome[0]
    return outcome[0]


def _end_at_once() -> NoReturn:
    import multiprocessing
    for child in multiprocessing.active_children():
        child.kill()
    os._exit(INTERRUPTED)
