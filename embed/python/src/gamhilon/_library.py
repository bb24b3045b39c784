"""The calls of the shared library libgamhilon.so, which is loaded at the first of them.

It is the one that the environment names as GAMHILON_LIBRARY, else the one beside this file, else
the one that embed/build.py left. Calls may be made from any number of threads at once.
"""
from __future__ import annotations

import ctypes
import json
import os
from typing import Any, Callable, List, NamedTuple, Optional, Tuple

from . import _faults
from ._library_session import LibrarySession, declare
from ._library_text import TextStruct, given
from ._limits import Limits
from .errors import (DocumentRefused, LibraryFailed, LibraryMissing, MacroRing, NumberOverflow,
                     OutOfMemory, StyleLimitExceeded, TooDeep, TooManyElements)

HERE = os.path.dirname(os.path.abspath(__file__))
NAME = 'libgamhilon.so'
OK, BUFFER_TOO_SMALL = 0, 6
FAULT_BUFFER = 4096
# Calls that older libraries of the same name lack.
DRIVE, DRIVE_FAULT = 'gamhilon_drive', 'gamhilon_find_driven_fault'
CITE, CITE_FAULT = 'gamhilon_cite', 'gamhilon_find_cite_fault'
READ = 'gamhilon_read_references'
"""A library that has this call takes texts as one value."""

OF_TEXTS = {CITE: 5, CITE_FAULT: 5, READ: 2}
"""The calls that take texts, and how many."""


class RingLocation(ctypes.Structure):
    """gamhilon_ring_location of gamhilon.h."""

    _fields_ = [('of_bibliography', ctypes.c_size_t), ('request', ctypes.c_size_t),
                ('macro_index', ctypes.c_size_t)]


class CiteTexts(NamedTuple):
    """The texts of a document in a style file, as gamhilon_cite takes them."""

    style: bytes
    locales: bytes
    items: bytes
    citations: bytes
    options: bytes

    def arguments(self) -> List[TextStruct]:
        """The texts as the call takes them."""
        return [given(text) for text in self]


class Library:
    """The calls, of a library that ctypes loaded or of what stands in for one."""

    def __init__(self, functions: Any) -> None:
        self._functions = functions

    def print_document(self, document: bytes, buffer_length: Optional[int] = None) -> bytes:
        """The text of the document's answer. Its buffer at first: text is rarely longer than its
        document."""
        buffer_length = 2 * len(document) + 4096 if buffer_length is None else buffer_length
        return self._text(self._functions.gamhilon_render_text, document, buffer_length)

    def print_json(self, document: bytes, buffer_length: Optional[int] = None) -> bytes:
        """The JSON of the document's answer. Its buffer at first: JSON is mostly four to five times
        as long as its document, and a buffer that is too small costs the whole work once more."""
        buffer_length = 8 * len(document) + 4096 if buffer_length is None else buffer_length
        return self._text(self._functions.gamhilon_render_json, document, buffer_length)

    def drive(self, document: bytes, buffer_length: Optional[int] = None) -> bytes:
        """The JSON of what comes of a driven document: an answer, or the tasks that are missing.
        Raises LibraryMissing where the library is older than this call. Its buffer at first is that
        of `print_json`."""
        buffer_length = 8 * len(document) + 4096 if buffer_length is None else buffer_length
        status, text = self._called(self._newer(DRIVE), document, buffer_length)
        if status == DocumentRefused.status:
            raise self._document_refused(document, self._newer(DRIVE_FAULT))
        if status != OK:
            raise self._refusal(status, document)
        return text

    def cite(self, texts: CiteTexts, buffer_length: Optional[int] = None) -> bytes:
        """The JSON of what comes of a document in a style file. Raises LibraryMissing where the
        library is older than this call, and DocumentRefused, with no place, where a text is
        wrong: `find_cite_fault` tells the place."""
        if buffer_length is None:
            buffer_length = 8 * (len(texts.items) + len(texts.citations)) + 4096
        function = self._of_texts(CITE)
        status, text = _filled(lambda *buffer: function(*texts.arguments(), *buffer), buffer_length)
        if status == DocumentRefused.status:
            raise DocumentRefused('a text of the document is wrong', '', 'a fault', 'none')
        if status != OK:
            raise self._refusal(status, b'')
        return text

    def find_cite_fault(self, texts: CiteTexts) -> bytes:
        """The JSON of what is wrong and odd in a document in a style file."""
        function = self._of_texts(CITE_FAULT)
        status, text = _filled(lambda *buffer: function(*texts.arguments(), *buffer), FAULT_BUFFER)
        if status != OK:
            raise self._refusal(status, b'')
        return text

    def read_references(self, references: bytes, options: bytes) -> bytes:
        """The JSON of what is read of references in any form. Raises LibraryMissing where the
        library is older than this call."""
        function = self._newer(READ)
        status, text = _filled(lambda *buffer: function(given(references), given(options), *buffer),
                               2 * len(references) + FAULT_BUFFER)
        if status != OK:
            raise self._refusal(status, b'')
        return text

    def session(self) -> LibrarySession:
        """A session, which isn't open yet. Raises LibraryMissing where the library is older than
        sessions."""
        self._of_texts('gamhilon_session_open')
        return LibrarySession(self._of_texts, _filled)

    def check(self, document: bytes) -> None:
        """Raises what `render` would raise, and gives nothing where there is an answer."""
        status, _ = self._ring(document)
        if status != OK:
            raise self._refusal(status, document)

    def check_limits(self, document: bytes, limits: Limits) -> None:
        """Raises TooDeep or TooManyElements where a layout of a style isn't within the limits, and
        DocumentRefused where the styles aren't of their form."""
        status = self._functions.gamhilon_check_limits(document, len(document), limits.depth,
                                                       limits.elements)
        if status == TooDeep.status:
            raise TooDeep(f'the elements of a layout nest deeper than {limits.depth}')
        if status == TooManyElements.status:
            raise TooManyElements(f'a layout has more elements than {limits.elements}')
        if status != OK:
            raise self._refusal(status, document)

    def _text(self, function: Any, document: bytes, buffer_length: int) -> bytes:
        status, text = self._called(function, document, buffer_length)
        if status != OK:
            raise self._refusal(status, document)
        return text

    def _called(self, function: Any, document: bytes, buffer_length: int) -> Tuple[int, bytes]:
        """The status of a call with a document, and what it put into its buffer."""
        return _filled(lambda *buffer: function(document, len(document), *buffer), buffer_length)

    def _newer(self, name: str) -> Any:
        """A call that the library has unless it is older than the call."""
        try:
            return getattr(self._functions, name)
        except AttributeError as error:
            raise LibraryMissing(f'{NAME} is older than the call {name}: build it anew '
                                 'by embed/build.py') from error

    def _of_texts(self, name: str) -> Any:
        """A call that takes texts as one value, as it does unless the library is older."""
        function = self._newer(name)
        self._newer(READ)
        return function

    def _ring(self, document: bytes) -> Tuple[int, RingLocation]:
        ring = RingLocation()
        return self._functions.gamhilon_find_ring(document, len(document), ctypes.byref(ring)), ring

    def _refusal(self, status: int, document: bytes) -> Exception:
        if status == DocumentRefused.status:
            return self._document_refused(document, self._functions.gamhilon_find_fault)
        if status == MacroRing.status:
            return self._macro_ring(document)
        if status == NumberOverflow.status:
            return NumberOverflow("the citation numbers don't fit 64 bits")
        if status == OutOfMemory.status:
            return OutOfMemory('memory was refused')
        if status == StyleLimitExceeded.status:
            return StyleLimitExceeded()
        return LibraryFailed(f'{NAME} ended a call with status {status}, '
                             'which this package does not know')

    def _document_refused(self, document: bytes, fault: Any) -> Exception:
        """The refusal of a document, whose first fault the call `fault` tells."""
        status, told = self._called(fault, document, FAULT_BUFFER)
        if status != OK:
            return OutOfMemory('memory was refused')
        said = json.loads(told)
        pointer, found, wanted = said['pointer'], said['found'], said['wanted']
        message = _faults.message(document, pointer, found, wanted)
        return DocumentRefused(message, pointer, found, wanted)

    def _macro_ring(self, document: bytes) -> Exception:
        status, ring = self._ring(document)
        if status != MacroRing.status:
            return OutOfMemory('memory was refused')
        where = 'the bibliography' if ring.of_bibliography else f'request {ring.request}'
        message = (f'the macros of the style of {where} call each other in a ring, '
                   f'macro {ring.macro_index} the first')
        return MacroRing(message, None if ring.of_bibliography else ring.request, ring.macro_index)


def _filled(call: Callable[..., int], buffer_length: int) -> Tuple[int, bytes]:
    """The status of a call, and what it put into its buffer, which grows where it is too small."""
    length = ctypes.c_size_t(buffer_length)
    while True:
        # (of a bytearray only what is written takes memory)
        buffer = bytearray(max(length.value, 1))
        shared = (ctypes.c_char * len(buffer)).from_buffer(buffer)
        status = call(shared, length.value, ctypes.byref(length))
        if status != BUFFER_TOO_SMALL:
            return status, bytes(memoryview(buffer)[:length.value]) if status == OK else b''


def path() -> str:
    """Where the library is looked for: the first of the places that has it, or the first of all."""
    named = os.environ.get('GAMHILON_LIBRARY')
    if named:
        return named
    built = os.path.normpath(os.path.join(HERE, '..', '..', '..', 'out', NAME))
    places = [os.path.join(HERE, NAME), built]
    return next((place for place in places if os.path.exists(place)), places[0])


def _loaded() -> ctypes.CDLL:
    place = path()
    try:
        library = ctypes.CDLL(place)
        texts = [library.gamhilon_render_text, library.gamhilon_render_json,
                 library.gamhilon_find_fault]
        texts += [getattr(library, name) for name in (DRIVE, DRIVE_FAULT) if hasattr(library, name)]
        cites = [(getattr(library, name), count) for name, count in OF_TEXTS.items()
                 if hasattr(library, READ)]
        rings, limits = [library.gamhilon_find_ring], [library.gamhilon_check_limits]
    except (OSError, AttributeError) as error:
        raise LibraryMissing(f'{error}: install the wheel of gamhilon, build {NAME} by '
                             'embed/build.py, or name it in the environment as '
                             'GAMHILON_LIBRARY') from error
    document: List[Any] = [ctypes.c_char_p, ctypes.c_size_t]
    buffer: List[Any] = [ctypes.c_void_p, ctypes.c_size_t, ctypes.POINTER(ctypes.c_size_t)]
    for function in texts:
        function.restype, function.argtypes = ctypes.c_uint32, [*document, *buffer]
    for function, count in cites:
        function.restype = ctypes.c_uint32
        function.argtypes = [*count * [TextStruct], *buffer]
    for function in rings:
        function.restype = ctypes.c_uint32
        function.argtypes = [*document, ctypes.POINTER(RingLocation)]
    for function in limits:
        function.restype = ctypes.c_uint32
        function.argtypes = [*document, ctypes.c_size_t, ctypes.c_size_t]
    if hasattr(library, READ):
        declare(library)
    return library


_library: Optional[Library] = None


def library() -> Library:
    """The library, loaded where it isn't yet. Raises LibraryMissing where it can't be."""
    global _library
    if _library is None:
        _library = Library(_loaded())
    return _library
