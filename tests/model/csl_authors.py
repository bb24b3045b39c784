"""Repeated authors of a bibliography in the mode `csl`: each item beside the one directly before
it, as both were written.
"""
from trees import Text, first_names, plain, with_meta
from writing import NORMAL


def names_in(item):
    """The names in the first names element of an item."""
    names = first_names(item)
    return [] if names is None else with_meta(names.children, 'name')


def persons_named(item):
    """The persons of the first names, those that et al. hides too, variable by variable."""
    names = first_names(item)
    return [] if names is None else [persons for persons, _ in names.meta[1]]


def count_repeated(texts, before, rule):
    """How many names at the beginning are those of the item before, as far as the rule looks."""
    count = 0
    while count < min(len(texts), len(before)) and texts[count] == before[count]:
        count += 1
    return min(count, 1) if rule == 'partial-first' else count


def substitute_repeated(items, substitute, rule, events):
    """Puts the text in the place of the names that repeat those of the item before."""
    texts = [[plain(name.children) for name in names_in(item)] for item in items]
    persons = [persons_named(item) for item in items]
    for at in range(1, len(items)):
        names = names_in(items[at])
        if rule in ('complete-all', 'complete-each'):
            if not names or texts[at] != texts[at - 1] or persons[at] != persons[at - 1]:
                continue
            replaced = [first_names(items[at])] if rule == 'complete-all' else names
        else:
            replaced = names[:count_repeated(texts[at], texts[at - 1], rule)]
        for element in replaced:
            element.children = [Text(substitute, NORMAL)]
        events['substitution by ' + rule] += bool(replaced)
