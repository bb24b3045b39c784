"""The sample of a style: made-up works, cited and listed in it."""
from __future__ import annotations

from dataclasses import dataclass
from typing import Dict, List, Optional

from . import _console, csl
from ._sample_works import CASES, WORKS
from .answer import Bibliography, Citation

__all__ = ['Sample', 'sample_of']


@dataclass(frozen=True)
class Sample:
    """What a style writes of the sample: each citation by what it shows, the list, and what is odd
    in the style."""

    title: str
    citations: Dict[str, Citation]
    bibliography: Optional[Bibliography]
    warnings: List[csl.Warned]

    def remarks(self) -> List[str]:
        """What is odd, a line each, with the citation in which it is by its name."""
        names = list(self.citations)
        return [str(warned) if warned.citation is None
                else f'{names[warned.citation]}: {warned.message}' for warned in self.warnings]


def sample_of(style: str, locale: Optional[str], locales: Optional[str]) -> Sample:
    """The sample of a style: its name, its path, or `-` for standard input. Raises as `csl.render`
    does."""
    told = _console.read('-').decode('utf-8-sig', 'surrogateescape') if style == '-' else style
    rendered = csl.render(told, WORKS, [case.cites for case in CASES], locale=locale,
                          locales=locales)
    names = [case.name for case in CASES]
    return Sample(csl.about(told).title, dict(zip(names, rendered.answer.citations)),
                  rendered.answer.bibliography, rendered.warnings)
