"""Small formulas as runs of text."""
from __future__ import annotations

import re
import unicodedata
from typing import Dict, List, Optional

from .rich_text import Run

_TOKEN = re.compile(r'\\([A-Za-z]+)\s*|\\(.)|([{}^_])|(\s+)|(\d+(?:[.,]\d+)*)|(.)', re.DOTALL)
_DEEPEST = 20

_GREEK = {
    letter: unicodedata.lookup(f'GREEK SMALL LETTER {letter.upper()}')
    for letter in ('alpha beta gamma delta zeta eta theta iota kappa mu nu xi pi rho sigma tau '
                   'upsilon chi psi omega').split()
}
_GREEK.update({
    letter.capitalize(): unicodedata.lookup(f'GREEK CAPITAL LETTER {letter.upper()}')
    for letter in 'gamma delta theta xi pi sigma upsilon phi psi omega'.split()
})
_GREEK.update({
    'lambda': 'λ', 'Lambda': 'Λ', 'epsilon': 'ϵ', 'varepsilon': 'ε', 'phi': 'ϕ', 'varphi': 'φ',
    'vartheta': 'ϑ', 'varsigma': 'ς', 'varpi': 'ϖ', 'varrho': 'ϱ',
})
_SIGNS: Dict[str, str] = {
    'times': '×', 'cdot': '⋅', 'pm': '±', 'mp': '∓', 'div': '÷', 'ast': '∗', 'star': '⋆',
    'circ': '∘', 'bullet': '•', 'le': '≤', 'leq': '≤', 'ge': '≥', 'geq': '≥', 'ne': '≠', 'neq': '≠',
    'approx': '≈', 'sim': '∼', 'simeq': '≃', 'equiv': '≡', 'propto': '∝', 'll': '≪', 'gg': '≫',
    'in': '∈', 'notin': '∉', 'subset': '⊂', 'subseteq': '⊆', 'cup': '∪', 'cap': '∩',
    'emptyset': '∅', 'setminus': '∖', 'to': '→', 'rightarrow': '→', 'leftarrow': '←',
    'leftrightarrow': '↔', 'Rightarrow': '⇒', 'Leftrightarrow': '⇔', 'mapsto': '↦', 'infty': '∞',
    'partial': '∂', 'nabla': '∇', 'forall': '∀', 'exists': '∃', 'neg': '¬', 'wedge': '∧',
    'vee': '∨', 'oplus': '⊕', 'otimes': '⊗', 'sum': '∑', 'prod': '∏', 'int': '∫', 'sqrt': '√',
    'ell': 'ℓ', 'hbar': 'ℏ', 'Re': 'ℜ', 'Im': 'ℑ', 'aleph': 'ℵ', 'prime': '′', 'degree': '°',
    'perp': '⊥', 'parallel': '∥', 'angle': '∠', 'langle': '⟨', 'rangle': '⟩', 'lfloor': '⌊',
    'rfloor': '⌋', 'lceil': '⌈', 'rceil': '⌉', 'ldots': '…', 'dots': '…', 'cdots': '⋯', 'vert': '|',
    'mid': '|', 'colon': ':', 'S': '§', 'dagger': '†', 'triangle': '△', 'log': 'log', 'ln': 'ln',
    'exp': 'exp', 'sin': 'sin', 'cos': 'cos', 'tan': 'tan', 'lim': 'lim', 'max': 'max',
    'min': 'min', 'sup': 'sup', 'inf': 'inf', 'det': 'det', 'dim': 'dim', 'ker': 'ker',
    'bmod': 'mod', 'quad': ' ', 'left': '', 'right': '', 'displaystyle': '', 'limits': '',
    'big': '', 'Big': '',
}
_ESCAPED = {',': '', ';': ' ', ':': ' ', '!': '', ' ': ' ',
            **{letter: letter for letter in '{}%&#_$'}}
_UPRIGHT = {
    'mathrm', 'text', 'textrm', 'mathsf', 'mathtt', 'mbox', 'operatorname', 'textsf', 'texttt',
    'rm', 'textnormal',
}
_BOLD = {'mathbf', 'boldsymbol', 'bm', 'textbf'}
_ITALIC = {'mathit', 'emph', 'textit'}
_ALPHABETS = {
    'mathbb': 'DOUBLE-STRUCK', 'mathcal': 'SCRIPT', 'mathscr': 'SCRIPT', 'mathfrak': 'BLACK-LETTER',
}


def math_runs(source: str) -> Optional[List[Run]]:
    """The runs of a formula, whose letters are italic; None of one that has what isn't known."""
    try:
        return _Formula(source).runs()
    except _Unknown:
        return None


class _Unknown(Exception):
    """The formula has what isn't known."""


class _Formula:
    def __init__(self, source: str) -> None:
        self.tokens = [match.group().strip() or ' ' for match in _TOKEN.finditer(source)]
        self.at = 0

    def runs(self) -> List[Run]:
        """The runs of all of it."""
        found = self.group('i', 0)
        if self.at < len(self.tokens):
            raise _Unknown
        return found

    def group(self, letters: str, depth: int) -> List[Run]:
        """The runs up to the end of a group, whose letters have a format."""
        found: List[Run] = []
        while self.at < len(self.tokens) and self.tokens[self.at] != '}':
            found += self.atom(letters, depth)
        return found

    def atom(self, letters: str, depth: int) -> List[Run]:
        """The runs of what stands next."""
        if self.at == len(self.tokens) or depth > _DEEPEST:
            raise _Unknown
        token = self.tokens[self.at]
        self.at += 1
        if token == '{':
            return self.rest_of_group(letters, depth)
        if token in ('^', '_'):
            name = 'sup' if token == '^' else 'sub'
            raised = self.atom(letters, depth + 1)
            return [run._replace(formats=(name, *run.formats)) for run in raised]
        if token.startswith('\\') and len(token) > 1:
            return self.commanded(token[1:], letters, depth)
        if token == ' ':
            return [Run(' ')] if not letters else []
        if token.isalpha():
            return [Run(token, (letters,) if letters else ())]
        return [Run({'-': '−', '*': '∗', "'": '′', '~': '\u00a0'}.get(token, token))]

    def rest_of_group(self, letters: str, depth: int) -> List[Run]:
        found = self.group(letters, depth + 1)
        if self.at == len(self.tokens):
            raise _Unknown
        self.at += 1
        return found

    def commanded(self, name: str, letters: str, depth: int) -> List[Run]:
        """The runs of a command."""
        if name in _GREEK:
            return [Run(_GREEK[name], (letters,) if letters else ())]
        if name in _SIGNS:
            return [Run(_SIGNS[name])] if _SIGNS[name] else []
        if name in _ESCAPED:
            return [Run(_ESCAPED[name])] if _ESCAPED[name] else []
        for names, format_of_letters in ((_UPRIGHT, ''), (_BOLD, 'b'), (_ITALIC, 'i')):
            if name in names:
                return self.atom(format_of_letters, depth + 1)
        if name in _ALPHABETS:
            return [_in_alphabet(run, _ALPHABETS[name]) for run in self.atom('', depth + 1)]
        raise _Unknown


def _in_alphabet(run: Run, alphabet: str) -> Run:
    """The run with its capitals in another alphabet."""
    found = ''
    for letter in run.text:
        for name in (f'{alphabet} CAPITAL {letter}', f'MATHEMATICAL {alphabet} CAPITAL {letter}',
                     f'MATHEMATICAL FRAKTUR CAPITAL {letter}'):
            try:
                letter = unicodedata.lookup(name)
                break
            except KeyError:
                continue
        found += letter
    return run._replace(text=found)
