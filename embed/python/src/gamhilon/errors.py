"""Why there is no answer."""
from __future__ import annotations

from typing import List, Optional

from .texts import TextFault, TextWarning

__all__ = [
    'DocumentRefused', 'GamhilonError', 'LibraryFailed', 'LibraryMissing', 'LimitExceeded',
    'LimitsRefused', 'MacroRing', 'NumberOverflow', 'OutOfMemory', 'Refused', 'StyleLimitExceeded',
    'TextRefused', 'TooDeep', 'TooManyElements',
]


class GamhilonError(Exception):
    """What the package raises by itself: each of its errors is one, and a ValueError or an OSError
    and the like beside it.

        >>> from gamhilon import csl
        >>> try:
        ...     csl.about('apa.csl')
        ... except GamhilonError as error:
        ...     print(error)
        there is no style 'apa.csl': looked for apa.csl
    """


class Refused(GamhilonError):
    """There is no answer. `status` is that of gamhilon.h."""

    status = 0


class DocumentRefused(Refused, ValueError):
    """The document isn't JSON, or not of the form of a document.

    `pointer` is the JSON Pointer (RFC 6901) of the first fault, `found` what stands there, and
    `wanted` what is asked for there, as docs/DOCUMENT.md has them. The message says the same, with
    the text or number that stands there.
    """

    status = 2

    def __init__(self, message: str, pointer: str, found: str, wanted: str) -> None:
        super().__init__(message, pointer, found, wanted)
        self.pointer, self.found, self.wanted = pointer, found, wanted

    def __str__(self) -> str:
        return str(self.args[0])


class TextRefused(Refused, ValueError):
    """A text of `gamhilon.cite` is wrong.

    `fault` is the first thing that is wrong, with its place; `warnings` has what is read otherwise
    than it stands in the texts before it.
    """

    status = 2

    def __init__(self, fault: TextFault, warnings: List[TextWarning]) -> None:
        super().__init__(fault, warnings)
        self.fault, self.warnings = fault, warnings

    def __str__(self) -> str:
        return str(self.fault)


class MacroRing(Refused, ValueError):
    """The macros of a style call each other in a ring.

    `request` is the place of the request whose style it is, from 0, or None where it is the
    bibliography's; `macro_index` is the place of the first macro on a ring, among the macros of
    that style, from 0.
    """

    status = 3

    def __init__(self, message: str, request: Optional[int], macro_index: int) -> None:
        super().__init__(message, request, macro_index)
        self.request, self.macro_index = request, macro_index

    def __str__(self) -> str:
        return str(self.args[0])


class NumberOverflow(Refused, OverflowError):
    """The citation numbers don't fit 64 bits."""

    status = 4


class OutOfMemory(Refused, MemoryError):
    """Memory was refused."""

    status = 5


class LimitExceeded(Refused, ValueError):
    """A style isn't within its limits."""


class TooDeep(LimitExceeded):
    """The elements of a layout nest deeper than the limit."""

    status = 7


class TooManyElements(LimitExceeded):
    """A layout has more elements than the limit."""

    status = 8


class StyleLimitExceeded(LimitExceeded):
    """A style file takes more steps, or writes more, than it may.

    `fault` is the place in the style: a macro, the citation or the bibliography. It is None where
    the style exceeds its limits only through what the items have.
    """

    status = 10

    def __init__(self, fault: Optional[TextFault] = None) -> None:
        super().__init__(fault)
        self.fault = fault

    def __str__(self) -> str:
        if self.fault is None:
            return 'the style takes more steps or writes more than it may'
        return str(self.fault)


class LimitsRefused(GamhilonError, ValueError):
    """A limit is no number that the library takes."""


class LibraryMissing(GamhilonError, OSError):
    """The shared library isn't there, or can't be loaded."""


class LibraryFailed(GamhilonError, RuntimeError):
    """The shared library gave what this package doesn't know."""
