"""Dates of ISO 8601 with extensions (EDTF), as hayagriva and pages have them, as dates of
CSL-JSON."""
from __future__ import annotations

import re
from typing import Any, Dict, List, NamedTuple, Optional, Tuple

CslDate = Dict[str, Any]
"""A date of CSL-JSON."""

_DATE = re.compile(
    r'(?P<year>-?\d{4}|y-?\d{5,})(?:-(?P<month>\d{1,2})(?:-(?P<day>\d{1,2}))?)?'
    r'(?P<time>T[\d:.]+(?:Z|[+-][\d:]+)?)?(?P<mark>[~?%]?)')
_UNSPECIFIED = re.compile(
    r'(?P<years>\d{2}(?:XX|\dX)|\d{4})(?:-(?P<month>XX|\d\d)(?:-(?P<day>XX|\d\d))?)?')
_YEARS = re.compile(r'(\d{4})\s*(?:--?|\u2013)\s*(\d{4})')
_CIRCA = re.compile(r'(?:c|ca|circa)\.?\s*(\d{4})')
_SEASONS = range(21, 25)
_DAYS = (31, 29, 31, 30, 31, 30, 31, 31, 30, 31, 30, 31)
_OPEN = ('', '..', 'open', 'unknown')


class _Point(NamedTuple):
    """One date: its year, month or season, and day; and what stands beside it."""

    parts: List[int]
    is_approximate: bool
    lost: List[str]


def csl_date(text: str) -> Tuple[CslDate, List[str]]:
    """The date, or the range of dates, that a text says, and what isn't kept of it. What is no date
    stays as a text."""
    text = text.strip()
    parts = _unspecified(text)
    if parts:
        return {'date-parts': parts}, []
    years = _YEARS.fullmatch(text)
    if years:
        return {'date-parts': [[int(year)] for year in years.groups()]}, []
    circa = _CIRCA.fullmatch(text)
    if circa:
        return {'date-parts': [[int(circa.group(1))]], 'circa': True}, []
    first, slash, second = text.partition('/')
    begin, end = _point(first), _point(second) if slash else None
    is_open = [end.strip() in _OPEN for end in (first, second)] if slash else [False, False]
    if slash and any(is_open) and not all(is_open) and (begin or end):
        point = begin or end
        assert point is not None
        side = 'beginning' if is_open[0] else 'end'
        return _of_point(point), [*point.lost, f'the open {side} of a range']
    if begin is None or (slash and end is None):
        return {'literal': text}, ['no date of a known form: kept as a text']
    if end is None:
        return _of_point(begin), begin.lost
    both = {'date-parts': [begin.parts, end.parts]}
    is_approximate = begin.is_approximate or end.is_approximate
    return {**both, 'circa': True} if is_approximate else both, [*begin.lost, *end.lost]


def _of_point(point: _Point) -> CslDate:
    circa = {'circa': True} if point.is_approximate else {}
    if len(point.parts) == 2 and point.parts[1] in _SEASONS:
        return {'date-parts': [point.parts[:1]], 'season': point.parts[1] - 20, **circa}
    return {'date-parts': [point.parts], **circa}


def _point(text: str) -> Optional[_Point]:
    """The date that a text says; None where it says none."""
    match = _DATE.fullmatch(text.strip())
    if not match:
        return None
    year = int(match.group('year').lstrip('y'))
    # (CSL counts from 1 BC, the year -1, which ISO 8601 has as 0)
    parts = [year if year > 0 else year - 1]
    month, day = (int(match.group(name) or 0) for name in ('month', 'day'))
    lost = ['the time of the day'] if match.group('time') else []
    if match.group('mark') == '?':
        lost.append('that the date is uncertain')
    if month in _SEASONS or 1 <= month <= 12:
        parts.append(month)
    elif month:
        lost.append('a month that no year has')
    if day and 1 <= month <= 12 and day <= _DAYS[month - 1]:
        parts.append(day)
    elif day:
        lost.append('a day that no month has')
    return _Point(parts, match.group('mark') in ('~', '%'), lost)


def _unspecified(text: str) -> Optional[List[List[int]]]:
    """The range of a date in which digits are not specified, as `199X` or `1999-XX`; None of any
    other text."""
    match = _UNSPECIFIED.fullmatch(text)
    if not match or 'X' not in text:
        return None
    years, month, day = match.group('years', 'month', 'day')
    begin, end = [int(years.replace('X', '0'))], [int(years.replace('X', '9'))]
    if month == 'XX' and day != 'XX':
        begin, end = [*begin, 1], [*end, 12]
    elif month is not None and month != 'XX' and 1 <= int(month) <= 12:
        begin, end = [*begin, int(month), 1], [*end, int(month), _DAYS[int(month) - 1]]
        if month == '02' and not (end[0] % 4 == 0 and (end[0] % 100 or end[0] % 400 == 0)):
            end[2] = 28
    elif month is not None and month != 'XX':
        return None
    if begin[0] == 0:
        return None
    return [begin] if begin == end else [begin, end]
