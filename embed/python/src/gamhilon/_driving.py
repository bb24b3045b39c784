"""The driven call: what the driver decides for a host that writes each cite itself
(docs/DRIVEN.md)."""
from __future__ import annotations

import json
from dataclasses import dataclass
from typing import Any, Callable, Dict, List, Optional, Set, Tuple, Union

from . import _deep_json
from ._library import library
from .answer import Answer, Tree, answer_of_value
from .errors import LibraryFailed

__all__ = ['Missing', 'State', 'Task', 'Writer', 'Writers', 'Written', 'drive_bytes',
           'render_with_all', 'result_of']


@dataclass(frozen=True)
class State:
    """What disambiguates an entry: a form for each of its first names (`count`, `short`,
    `initials`, `full`), or that the condition `disambiguate` of the style holds, or the place of
    its year suffix, from 0."""

    names: Optional[Tuple[str, ...]] = None
    choose: bool = False
    suffix: Optional[int] = None

    @classmethod
    def of(cls, data: Any) -> State:
        """The state that a task says."""
        if data == 'choose':
            return cls(choose=True)
        return cls(names=tuple(data['names'])) if 'names' in data else cls(suffix=data['suffix'])

    def data(self) -> Any:
        """The state as a task says it."""
        if self.choose:
            return 'choose'
        return {'suffix': self.suffix} if self.names is None else {'names': list(self.names)}


@dataclass(frozen=True)
class Task:
    """Something that the host has to write: a `cite`, an `item` of the bibliography, or the `date`
    of a cite alone.

    What doesn't apply is None or False. `locale` is the locale in use, `number` counts from 0.
    `place` is there where a cite is written for the last time: the places of its request and of its
    item, from 0. Cites that are compared have none, and no locator.

    `state` is what disambiguates the entry by one means at a time. Where `rounds` is `csl` means
    are taken together, and stand in `names` (a form for each of its first names), `choose` and
    `suffix` in place of a state. `name_forms`, `disambiguates` and `year_suffix` tell of both.
    """

    kind: str
    style: str
    locale: str
    entry: str
    place: Optional[Tuple[int, int]] = None
    note: Optional[int] = None
    first_note: Optional[int] = None
    near_note: bool = False
    first: bool = False
    repeats: Optional[str] = None
    number: Optional[int] = None
    locator: Optional[Tuple[str, str]] = None
    state: Optional[State] = None
    names: Optional[Tuple[str, ...]] = None
    choose: bool = False
    suffix: Optional[int] = None
    usage: Optional[str] = None
    purpose: Optional[str] = None
    verdict: Optional[str] = None

    @classmethod
    def of(cls, data: Dict[str, Any]) -> Task:
        """The task that a value says, as the driver asks for it."""
        told = dict(data)
        for key in ('place', 'locator', 'names'):
            if key in told:
                told[key] = tuple(told[key])
        if 'state' in told:
            told['state'] = State.of(told['state'])
        return cls(**told)

    def data(self) -> Dict[str, Any]:
        """The task as a value, as the driver asked for it."""
        told = {key: value for key, value in vars(self).items() if value is not None
                and value is not False}
        for key in ('place', 'locator', 'names'):
            if key in told:
                told[key] = list(told[key])
        if self.state is not None:
            told['state'] = self.state.data()
        return told

    @property
    def position(self) -> str:
        """The position as CSL 1.0.2 names it: `first`, `subsequent`, `ibid` or `ibid-with-locator`.
        In a style, `ibid-with-locator` holds as `ibid` and `subsequent` too, and `ibid` as
        `subsequent`."""
        if self.first:
            return 'first'
        return self.repeats or 'subsequent'

    @property
    def is_final(self) -> bool:
        """Whether this is what the reader sees: an item, or a cite that is written for the last
        time."""
        return self.kind == 'item' or self.place is not None

    @property
    def disambiguates(self) -> bool:
        """Whether the condition `disambiguate` of the style holds."""
        return self.choose or (self.state is not None and self.state.choose)

    @property
    def name_forms(self) -> Optional[Tuple[str, ...]]:
        """The least form of each of the first names, where names disambiguate the entry."""
        if self.names is not None:
            return self.names
        return self.state.names if self.state else None

    @property
    def year_suffix(self) -> str:
        """The letters of the year suffix (`a` to `z`, then `aa`), or an empty text."""
        suffix = self.state.suffix if self.suffix is None and self.state else self.suffix
        if suffix is None:
            return ''
        letters, left = '', suffix + 1
        while left:
            left, place = divmod(left - 1, 26)
            letters = chr(ord('a') + place) + letters
        return letters


@dataclass(frozen=True)
class Written:
    """What the host wrote for a task: a tree, and what it noted meanwhile.

    `disambiguate_tested` tells whether a condition `disambiguate` was tested; `first_name` has the
    form of each name of the names that were written first; `usage` is `label`, `number` or `both`,
    the identifiers that were written.
    """

    tree: Tree
    disambiguate_tested: bool = False
    first_name: Optional[Tuple[str, ...]] = None
    usage: Optional[str] = None

    def data(self, task: Task) -> Dict[str, Any]:
        """The value that a driven document has in `written`."""
        told: Dict[str, Any] = {'task': task.data(), 'tree': self.tree}
        if self.disambiguate_tested:
            told['disambiguate_tested'] = True
        if self.first_name is not None:
            told['first_name'] = list(self.first_name)
        if self.usage is not None:
            told['usage'] = self.usage
        return told


Writer = Callable[[Task], Written]
"""The host's function that writes a task."""

Writers = Callable[[List[Task]], List[Written]]
"""A host's function that writes all tasks that a call asks for."""


@dataclass(frozen=True)
class Missing:
    """What has to be written before there is an answer."""

    tasks: List[Task]


def result_of(text: str) -> Union[Answer, Missing]:
    """What the driven call gave, of which this is the JSON."""
    said = _deep_json.loads(text)
    if 'missing' in said:
        return Missing([Task.of(task) for task in said['missing']])
    return answer_of_value(said['answer'])


def drive_bytes(document: bytes) -> Union[Answer, Missing]:
    """One call."""
    return result_of(library().drive(document).decode())


def render_with_all(document: Dict[str, Any], write_all: Writers) -> Answer:
    """Calls, and has the host write what is missing, until there is an answer. A driver that asks
    for what was written ends it with LibraryFailed."""
    written: List[Any] = list(document.get('written', []))
    asked: Set[Task] = set()
    while True:
        result = drive_bytes(json.dumps({**document, 'written': written}).encode('utf-8',
                                                                                 'surrogatepass'))
        if isinstance(result, Answer):
            return result
        again = asked.intersection(result.tasks)
        if again or not result.tasks:
            first = sorted(map(repr, again))[:1]
            raise LibraryFailed(f'the driver asked again for what was written: {first}')
        asked.update(result.tasks)
        written += [made.data(task) for task, made in zip(result.tasks, write_all(result.tasks))]
