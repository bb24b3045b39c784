"""Changes drawn by chance, of texts and of values of JSON, that are likely to break them."""
import copy

PIECES = ['', '{', '}', '\\', '$', '"', ',', '=', '@', '~', '#', '\n', ':', '- ', '&a ', '*a', '|',
          '\ud800', '\\"', '{' * 300, '\x00', 'é', '  ', '[', ']', '<i>', '</i>', '‘', '1999',
          '\u202e']
ODD = [None, True, False, 0, -1, 1.5, 13, 99999, 2 ** 70, float('nan'), float('inf'), '', ' ', 'x',
       '\ud800', '<i>', '</b>', '<span class="nocase">', 'a' * 3000, 'a ' * 2000, '“', "'",
       '\u0301', '1-2', '§ 3', 'circa 1999', '1999/2000', '\x00', '{{{', [], {}, [[]], {'x': {}},
       ['a', 3], [[1999, 13, 32]], {'date-parts': [[]]}, {'raw': '199X'}, {'literal': 'x'},
       {'family': ''}]
KEYS = ['id', 'type', 'title', 'titel', 'author', 'editor', 'issued', 'page', 'locator', 'locater',
        'label', 'prefix', 'suffix', 'note', 'hidden', 'author-only', 'suppress-author', 'family',
        'given', 'literal', 'date-parts', 'season', 'circa', 'raw', 'DOI', 'URL', 'volume',
        'edition', '', 'é', '\ud800']


def of_text(random, text):
    """The text with a few changes."""
    for _ in range(random.choice([1, 2, 5, 20])):
        at, end = sorted(random.choices(range(len(text) + 1), k=2))
        piece = random.choice([*PIECES, text[at:min(end, at + 50)]])
        text = text[:at] + piece + text[min(end, at + random.choice([0, 1, 5])):]
    return text


def of_value(random, value):
    """A copy of a value of JSON with a few changes."""
    made = [copy.deepcopy(value)]
    for _ in range(random.choice([1, 1, 2, 4, 10])):
        try:
            change_one(random, made)
        except RecursionError:  # (of a copy of what nests too deep for Python)
            break
    return made[0]


def change_one(random, made):
    """Changes one part of the value in a list of one."""
    places = [(made, 0)]
    for container, key in places:
        part = container[key]
        members = part if isinstance(part, dict) else range(len(part)) if isinstance(part, list) \
            else ()
        places += [(part, member) for member in members]
    container, key = random.choice(places)
    part, way = container[key], random.randrange(6)
    if way == 0 and container is not made:
        del container[key]
    elif way == 1 and isinstance(container, dict):
        container[random.choice(KEYS)] = container.pop(key)
    elif way == 1 and isinstance(container, list) and container is not made:
        container.insert(key, copy.deepcopy(part))
    elif way == 2:
        other, at = random.choice(places)
        container[key] = copy.deepcopy(other[at])
    elif way == 3:
        for _ in range(random.choice([1, 1, 2, 200])):
            part = [part] if random.random() < 0.5 else {random.choice(KEYS): part}
        container[key] = part
    elif way == 4 and isinstance(part, str):
        container[key] = of_text(random, part[:500])
    else:
        container[key] = copy.deepcopy(random.choice(ODD))
