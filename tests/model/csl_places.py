"""Cites in their places in the mode `csl`: notes and positions, blocks, and the years, suffixes and
numbers that stand together.

A cite here is a `CslCite`, whose `mention` is as the third table has it. What is found out of it in
turn are its `block` and its `position`; by its `shown`, which tells what it shows there, its
`part`; then its `number`, `override` and `verdict`, and whether it is `collapsed`.
"""
from dataclasses import dataclass
from typing import Optional

from collapse import EN_DASH
from pieces import DIFFERENT, IBID, IBID_WITH_LOCATOR

BY_YEARS = ('year', 'year-suffix', 'year-suffix-ranged')


# Notes, by the order handed in


def note_facts(cite, before, distance):
    """Whether no cite before is of the entry; the number of the first note that cites it; whether
    the last note before is near, which is the own one or lies at most so far below."""
    same = [other for other in before if other.key == cite.key]
    if cite.note is None:
        return not same, None, False
    notes = [other.note for other in same if other.note is not None] + [cite.note]
    is_near = len(notes) > 1 and 0 <= cite.note - notes[-2] <= distance
    return not same, notes[0], is_near


# Positions, by the final order


def repeatable(row, note, rows):
    """The cite of a request that the first one of the next request, in this note if in any, may
    repeat."""
    if len(row) != 1:
        return None
    only = row[0]
    if only.note in (None, note):
        return only
    in_that_note = [cite for other in rows for cite in other if cite.note == only.note]
    return None if any(cite.key != only.key for cite in in_that_note) else only


def position_behind(cite, before):
    if before is None or before.key != cite.key:
        return DIFFERENT
    if before.item.get('locator') == cite.item.get('locator'):
        return IBID
    return IBID_WITH_LOCATOR if 'locator' in cite.item else DIFFERENT


def settle_repeats(rows):
    for row, before in zip(rows, [[]] + rows):
        for place, cite in enumerate(row):
            last = row[place - 1] if place else repeatable(before, cite.note, rows)
            cite.position = position_behind(cite, last)


# Blocks


def has_blocks(citation):
    return 'cite_group_delimiter' in citation or citation.get('collapse') in BY_YEARS


def is_looked_at(row):
    """What its cites show counts: it has two at least, and its style groups or collapses them."""
    return len(row) > 1 and (has_blocks(row[0].citation) or 'collapse' in row[0].citation)


def words_between(cite, following):
    """Words stand behind the one cite, or before the other."""
    return cite.item.get('apart') == 'both' or 'apart' in following.item


def in_blocks(row, events):
    """The cites of a request with those of equal names in one part of it together, where the first
    of them stood."""
    part, blocks = 0, {}
    for place, cite in enumerate(row):
        part += place > 0 and words_between(row[place - 1], cite)
        names = None if cite.is_hidden else cite.names
        key = ('alone', place) if names is None else ('part', part, names)
        blocks.setdefault(key, []).append(cite)
    in_order = []
    for block in blocks.values():
        events['blocks of more than one'] += len(block) > 1
        for cite in block:
            cite.block = block
        in_order += block
    events['requests with another order'] += in_order != row
    events['parts behind words'] += part
    return in_order


# Parts, by the final order


@dataclass(frozen=True)
class Shown:
    """What a cite shows before it is cut. It has no text where it reads as it does by its position
    alone."""
    names: Optional[object]
    text: str
    has_number: bool
    has_date: bool


def names_shown(cite):
    return None if cite.is_hidden else cite.shown.names


def settle_parts(row, events):
    """Divides each block where other names are shown: a cite begins a part if it is the first of
    its block, if the part before shows no names, or if it shows other names than that part. Each
    but the first of a part has the cite group delimiter before it."""
    for before, cite in zip([None] + row, row):
        names = names_shown(cite)
        is_first = before is None or before.block is not cite.block
        of_part = None if is_first else names_shown(before.part[0])
        if of_part is not None and names in (None, of_part):
            cite.part = before.part
            cite.part.append(cite)
            cite.override = cite.citation.get('cite_group_delimiter', ', ')
            events['cite without names in a part'] += names is None
        else:
            cite.part = [cite]
            events['part behind another of its block'] += not is_first


# Years


def can_be_cut(cite):
    """It shows names and a date."""
    return names_shown(cite) is not None and cite.shown.has_date


def shrink_parts(row, citation, events):
    """Each cite of a part but the first leaves its names out, if it can be cut."""
    after = citation.get('after_collapse_delimiter')
    by_year = citation['collapse'] == 'year'
    located = [cite.part for cite in row if 'locator' in cite.item]
    for place, cite in enumerate(row):
        if cite is not cite.part[0]:
            is_cut = can_be_cut(cite)
            cite.verdict = 'first' if is_cut else None
            events['verdict first'] += is_cut
            events['verdict first of a cite that repeats'] += is_cut and cite.position != DIFFERENT
            events['later cite of a part that can\'t be cut'] += not is_cut
            if by_year and after is not None and any(part is cite.part for part in located):
                cite.override = after
                events['after-collapse delimiter in a part'] += 1
        elif place and (by_year or len(row[place - 1].part) > 1):
            cite.override = after
            events['cite behind a part'] += 1


def may_be_suffix_alone(cite):
    return (cite.shown.has_date and not cite.is_hidden and 'locator' not in cite.item
            and cite.shown.text != '' and cite.suffix is not None
            and cite.item.get('apart') != 'both')


def goes_on(cite, following):
    """The next cite reads like this one, but for another suffix of one class."""
    return (cite.key != following.key and cite.suffix_class == following.suffix_class
            and cite.shown.text == following.shown.text
            and names_shown(cite) == names_shown(following) and 'apart' not in following.item)


def longest_runs(members, fits, links):
    """The longest stretches of members that fit, each linked to the next."""
    answer = []
    for place, member in enumerate(members):
        if not fits(member):
            continue
        if place and fits(members[place - 1]) and links(members[place - 1], member):
            answer[-1].append(member)
        else:
            answer.append([member])
    return answer


def shrink_suffixes(row, citation, events):
    """Of cites side by side that read alike all but the first show their suffixes alone; if ranges
    are asked for, of three or more whose suffixes rise by one only the ends are shown."""
    for run in longest_runs(row, may_be_suffix_alone, goes_on):
        events['runs of suffixes of more than one'] += len(run) > 1
        events['run with a cite that repeats'] += len(run) > 1 and run[0].position != DIFFERENT
        for cite in run[1:]:
            cite.verdict = 'year-suffix'
            cite.override = citation.get('year_suffix_delimiter')
        if citation['collapse'] == 'year-suffix-ranged':
            for rising in longest_runs(run, lambda cite: True, is_next_suffix):
                cut_to_ends(rising, events)


def is_next_suffix(cite, following):
    return following.suffix == cite.suffix + 1


def cut_to_ends(run, events):
    """Of three or more only the ends are shown, with a dash between."""
    if len(run) < 3:
        return False
    for cite in run[1:-1]:
        cite.collapsed = True
    run[-1].override = EN_DASH
    events['ranges'] += 1
    return True


# Numbers


def may_be_in_range(cite):
    return (cite.shown.has_number and not cite.is_hidden and 'locator' not in cite.item
            and 'apart' not in cite.item)


def is_next_number(cite, following):
    return following.number == cite.number + 1


def shrink_numbers(row, citation, events):
    for run in longest_runs(row, may_be_in_range, is_next_number):
        if cut_to_ends(run, events):
            last = row.index(run[-1])
            following = [cite for cite in row[last + 1:] if not cite.is_hidden][:1]
            for cite in following:
                cite.override = citation.get('after_collapse_delimiter')
                events['cite behind a range'] += 1


def shrink(row, citation, events):
    """Only where no item of the request has a purpose."""
    purposes = [cite.item['purpose'] for cite in row if 'purpose' in cite.item]
    how = None if purposes else citation.get('collapse')
    if how == 'citation-number':
        shrink_numbers(row, citation, events)
    if how in BY_YEARS:
        shrink_parts(row, citation, events)
    if how in ('year-suffix', 'year-suffix-ranged'):
        shrink_suffixes(row, citation, events)
