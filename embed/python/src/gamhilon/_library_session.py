"""The sessions of the shared library (gamhilon_session of gamhilon.h)."""
from __future__ import annotations

import ctypes
from typing import Any, Callable, Tuple

from ._library_text import TextStruct, given
from .errors import OutOfMemory

OK, OUT_OF_MEMORY = 0, 5
EDITS = {'open': 3, 'set_style': 3, 'put_items': 1, 'remove_items': 1, 'set_citations': 1}
"""The calls that change a session, with the number of the texts that each takes."""
TEXTS = ('answer', 'whole', 'warnings', 'error')
"""The calls that give a text."""
ANSWER_BUFFER, ERROR_BUFFER = 1 << 16, 4096

Filled = Callable[[Callable[..., int], int], Tuple[int, bytes]]
"""What gives the status of a call, and what it put into a buffer that grows."""


class SessionStruct(ctypes.Structure):
    """gamhilon_session of gamhilon.h."""

    _fields_ = [('held', ctypes.c_void_p)]


class SessionFault(Exception):
    """The status of a call on a session, and what the library says of it."""

    def __init__(self, status: int, message: str) -> None:
        super().__init__(status, message)
        self.status, self.message = status, message


class LibrarySession:
    """A session of the library: its calls, by their names without `gamhilon_session_`. It is used
    by one thread at a time, and closed at the latest when nothing refers to it any more."""

    def __init__(self, function: Callable[[str], Any], filled: Filled) -> None:
        self._function, self._filled = function, filled
        self._session = SessionStruct()

    def edit(self, name: str, *texts: bytes) -> None:
        """A call that changes the session. Raises SessionFault and OutOfMemory."""
        self._check(self._called(name, *map(given, texts)))

    def text(self, name: str) -> bytes:
        """A call that gives a text. Raises SessionFault and OutOfMemory."""
        status, text = self._filled(lambda *buffer: self._called(name, *buffer), ANSWER_BUFFER)
        self._check(status)
        return text

    def close(self) -> None:
        """Frees what the session has."""
        if self._session.held:
            self._called('close')

    def __del__(self) -> None:
        self.close()

    def _called(self, name: str, *arguments: Any) -> int:
        function = self._function(f'gamhilon_session_{name}')
        status: int = function(ctypes.byref(self._session), *arguments)
        return status

    def _check(self, status: int) -> None:
        if status == OUT_OF_MEMORY:
            raise OutOfMemory('memory was refused')
        if status != OK:
            _, message = self._filled(lambda *buffer: self._called('error', *buffer), ERROR_BUFFER)
            raise SessionFault(status, message.decode('utf-8', 'replace'))


def declare(library: ctypes.CDLL) -> None:
    """Says what the calls on sessions take."""
    session = ctypes.POINTER(SessionStruct)
    buffer = [ctypes.c_void_p, ctypes.c_size_t, ctypes.POINTER(ctypes.c_size_t)]
    for name, count in EDITS.items():
        _declare(library, name, ctypes.c_uint32, [session, *count * [TextStruct]])
    for name in TEXTS:
        _declare(library, name, ctypes.c_uint32, [session, *buffer])
    _declare(library, 'close', None, [session])


def _declare(library: ctypes.CDLL, name: str, result: Any, arguments: Any) -> None:
    function = getattr(library, f'gamhilon_session_{name}')
    function.restype, function.argtypes = result, arguments
