"""Items of the kind that Zotero exports, and items that are made of others by a few changes, drawn
by a seed."""
import copy
import json
import random

WORDS = ('the of and a study in on theory history analysis modern early systems networks culture '
         'method a new data').split()
FAMILIES = [
    'Smith', 'van der Berg', 'García Márquez', 'de la Cruz', 'O’Brien', 'Müller', 'Nguyễn',
    "d'Alembert", 'Kim', 'Łukasiewicz',
]
GIVEN = [
    'Anna Maria', 'J. R. R.', 'Peter', 'Jean-Luc', 'Søren', 'Martin Luther, Jr.', 'Alfred de',
    'Wei',
]
RAW_DATES = ['2019', '2020-03', '2021-11-05', 'Spring 2018', 'circa 1999', 'forthcoming']
TYPES = ['article-journal', 'book', 'chapter', 'paper-conference', 'webpage']


def title(draw, least, most):
    words = [draw.choice(WORDS) for _ in range(draw.randint(least, most))]
    if draw.randrange(8) == 0:
        words[0] = '<i>%s</i>' % words[0]
    return ' '.join(words).capitalize()


def names(draw):
    count = draw.randint(1, 4)
    return [{'family': draw.choice(FAMILIES), 'given': draw.choice(GIVEN)} for _ in range(count)]


def date(draw):
    if draw.randrange(6) == 0:
        return {'raw': draw.choice(RAW_DATES)}
    parts = [str(draw.randint(1900, 2025)), draw.randint(1, 12), draw.randint(1, 28)]
    return {'date-parts': [parts[: draw.randint(1, 3)]]}


def zotero_item(draw, number):
    item = {
        'id': 'http://zotero.org/users/%d/items/%08X' % (draw.randrange(10**7), number),
        'type': draw.choice(TYPES),
        'abstract': title(draw, 60, 140),
        'container-title': title(draw, 3, 7),
        'DOI': '10.%04d/j.%06d' % (draw.randrange(10**4), draw.randrange(10**6)),
        'ISSN': '%04d-%04d' % (draw.randrange(10**4), draw.randrange(10**4)),
        'issue': str(draw.randint(1, 12)),
        'journalAbbreviation': title(draw, 2, 3),
        'language': 'en',
        'page': '%d-%d' % (draw.randint(1, 99), draw.randint(100, 300)),
        'source': 'DOI.org (Crossref)',
        'title': title(draw, 6, 14),
        'title-short': title(draw, 2, 4),
        'URL': 'https://doi.org/10.%04d/%d' % (draw.randrange(10**4), draw.randrange(10**9)),
        'volume': str(draw.randint(1, 90)),
        'author': names(draw),
        'accessed': {'date-parts': [['2024', draw.randint(1, 12), draw.randint(1, 28)]]},
        'issued': date(draw),
    }
    if draw.randrange(3) == 0:
        item['editor'] = names(draw)
        item['publisher'] = title(draw, 1, 3)
        item['publisher-place'] = 'Amsterdam'
        item['note'] = title(draw, 5, 20)
    return item


def zotero_library(count, seed=1):
    """The bytes of a list of as many items."""
    draw = random.Random(seed)
    items = (json.dumps(zotero_item(draw, number), ensure_ascii=False, separators=(',', ':'))
             for number in range(count))
    return ('[\n' + ',\n'.join(items) + '\n]\n').encode()


# Mutated items

PARTS = [
    None, True, False, 0, 1, -1, 5, 2020, 12.5, 1e3, 10**9, -(10**9), 2**31, -(2**31), 2**63 - 1,
    -(2**63), 2**64, 10**30, [], {}, [[]], [{}], [None], [''], [2020], [[2020]], [[2020], [2021]],
    [[0]], [['2020', '1', '5']], [[2020, 13]], [[2020, 99, 99]], [[2**70]], {'raw': '2020'},
    {'literal': 'a'}, {'date-parts': [[2020]]}, {'date-parts': [[]], 'season': '1'},
    {'family': 'de Foo', 'given': 'A de, Jr.'}, {'literal': ''}, ['a', 'b'], {'a': {'b': [1]}},
]
NAME_TEXTS = [
    '"', '""', '"a"', ',', ',!', 'a,', 'de', 'van der', "d'", 'd’', '-', '–', '.', '’’', 'de, Jr.',
    'a de', 'A,! B',
]
MARKUP_TEXTS = [
    '<', '>', '<i>', '</i>', '<i>a</i>', '<i', '<i><b></i></b>', '<span', '<span>',
    '<span class="nocase">', '<span style="font-variant:small-caps;">', '</span>', '<sup><sub>',
]
DATE_TEXTS = [
    '2020-01', '2020-13', '2020-01-05', '2020/2021', '2020/', '/2020', '/', '../..', '2020/..',
    '199u', '19uu', 'uuuu', '199X', 'XXXX', '000X', '0000', '-0001', '-9999', 'y99999', 'Y-99999',
    'Y2147483648', '9999999999', '99999999999999999999', '2020-01-05T12:00', '2020T', '2020~', '~',
    '?', '2020?', 'circa', 'circa 1999', 'c. ', 'Jan 2020', 'January 5, 2020', '5th May 2020',
    'Spring', 'Spring 2020', '44 BC', 'AD 50', '0 BC', 'BC', '1-2-3', '1/2/3/4', '13/13/2020',
    '2020-1', '00', '2020–2021', 'é 2020', '١٢٣٤', '２０２０',
]
TEXTS = [
    '', ' ', 'a', '0', '1', '-1', '2020', '05', 'false', '\n', '\0', '\u202e', '𝔸', 'e\u0301', '’',
    *NAME_TEXTS, *MARKUP_TEXTS, *DATE_TEXTS,
]
KEYS = [
    'id', 'type', 'title', 'author', 'editor', 'issued', 'accessed', 'volume', 'page', 'note',
    'custom', 'categories', 'shortTitle', 'title-short', 'event', 'part', '', 'family', 'given',
    'literal', 'suffix', 'comma-suffix', 'static-ordering', 'parse-names', 'non-dropping-particle',
    'dropping-particle', 'date-parts', 'season', 'circa', 'raw', 'items', 'titel', 'DOI', 'doi',
    'x' * 50, '~', '/', '~1/~0', 'é', 'a"b', 'a\nb',
]
BYTES = [
    b'', b'\0', b'\xff', b'\xc3', b'\xed\xa0\x80', b'"', b'\\', b'\\u0000', b'\\ud800',
    b'\\ud83d\\ude00', b',', b':', b'{', b'}', b'[', b']', b'[' * 200, b'1e999', b'-', b'nul', b' ',
    b'\n',
]


def places(value, found):
    """Each list and object in a value, with each of its keys or indexes."""
    if isinstance(value, dict):
        keys = list(value)
    elif isinstance(value, list):
        keys = range(len(value))
    else:
        return found
    for key in keys:
        found.append((value, key))
        places(value[key], found)
    return found


def any_part(draw):
    return copy.deepcopy(draw.choice(draw.choice((PARTS, TEXTS))))


def changed_text(draw, text):
    at = draw.randint(0, len(text))
    return text[:at] + draw.choice(TEXTS) + text[at + draw.randint(0, 3):]


def change(draw, items):
    """Makes one change."""
    inside = places(items, [])
    if not inside:
        items.append(any_part(draw))
        return
    at, key = draw.choice(inside)
    kind = draw.randrange(6)
    if kind == 0:
        del at[key]
    elif kind == 1 and isinstance(at, dict):
        at[draw.choice(KEYS)] = at.pop(key)
    elif kind == 2 and isinstance(at, dict):
        at[draw.choice(KEYS)] = any_part(draw)
    elif kind == 3 and isinstance(at, list):
        at.insert(key, copy.deepcopy(draw.choice([any_part(draw), *at])))
    elif isinstance(at[key], str) and draw.randrange(2):
        at[key] = changed_text(draw, at[key])
    else:
        at[key] = any_part(draw)


def mutated_documents(bases, count, seed):
    """As many documents, each with one to three changes of its items, and one in eight with one of
    its bytes."""
    draw = random.Random(seed)
    for _ in range(count):
        items = copy.deepcopy(draw.choice(bases))
        for _ in range(draw.randint(1, 3)):
            change(draw, items)
        is_ascii = draw.randrange(2) == 0
        document = json.dumps(items, ensure_ascii=is_ascii).encode(errors='surrogatepass')
        if draw.randrange(8) == 0:
            at = draw.randint(0, len(document))
            document = document[:at] + draw.choice(BYTES) + document[at + draw.randint(0, 2):]
        yield document
