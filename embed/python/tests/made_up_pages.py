"""Pages of pandoc with whatever may stand in them, made up by chance."""

WORDS = ['a', 'see', 'p.', '3', ',', '.', '3–5', 'chap.', 'x@y', '“', '', 'é', '<i>', '1999', '{',
         'doe99', '\u00a0']
KEYS = ['doe99', 'roe00', 'nobody', '', 'x', 'äh b']
VALUES = ['refs.json', 'none.json', 'x', '', 'true', 'de', 'numeric', 'apa', '1999', '1999-05/2000',
          '@doe99', '@*']
PARTS = ['id', 'title', 'author', 'issued', 'year', 'month', 'family', 'given', 'literal',
         'date-parts', 'type', 'DOI',
         'note', 'season']
FIELDS = ['bibliography', 'references', 'resource-path', 'csl', 'lang', 'nocite',
          'link-citations',
          'link-bibliography', 'notes-after-punctuation', 'suppress-bibliography',
          'reference-section-title', 'title']
KINDS = ['Str'] * 5 + ['Space'] * 3 + ['Emph', 'Strong', 'Cite', 'Link', 'Note', 'Quoted', 'Span',
                                       'Code', 'Math',
                                       'RawInline', 'SoftBreak', 'Superscript', 'SmallCaps',
                                       'Strikeout']


def text(words):
    return {'t': 'MetaString', 'c': words}


def inlines(random, depth, most):
    return [inline(random, depth) for _ in range(random.randrange(most))]


def inline(random, depth=0):
    kind = random.choice(KINDS) if depth < 4 else 'Str'
    if kind == 'Str':
        return {'t': 'Str', 'c': random.choice(WORDS)}
    if kind in ('Space', 'SoftBreak'):
        return {'t': kind}
    if kind == 'Cite':
        cites = [cite(random, depth + 1) for _ in range(random.choice([1, 1, 2, 3]))]
        return {'t': 'Cite', 'c': [cites, [{'t': 'Str', 'c': '[@x]'}]]}
    inner, none = inlines(random, depth + 1, 4), ['', [], []]
    made = {
        'Link': [none, inner, ['http://x', '']], 'Note': [{'t': 'Para', 'c': inner}],
        'Quoted': [{'t': random.choice(['DoubleQuote', 'SingleQuote'])}, inner],
        'Span': [['', random.choice([[], ['nocase']]), []], inner], 'Code': [none, 'x'],
        'Math': [{'t': 'InlineMath'}, random.choice(['x^2', '\\alpha', '\\foo'])],
        'RawInline': ['html', '<i>'],
    }
    return {'t': kind, 'c': made.get(kind, inner)}


def cite(random, depth):
    modes = ['NormalCitation', 'AuthorInText', 'SuppressAuthor']
    return {'citationId': random.choice(KEYS), 'citationPrefix': inlines(random, depth, 3),
            'citationSuffix': inlines(random, depth, 6),
            'citationMode': {'t': random.choice(modes)},
            'citationNoteNum': 1, 'citationHash': 0}


def meta(random, depth=0):
    kinds = ['MetaString', 'MetaInlines', 'MetaBool', 'MetaList', 'MetaMap', 'MetaBlocks']
    kind = random.choice(kinds) if depth < 4 else 'MetaString'
    if kind == 'MetaBool':
        return {'t': kind, 'c': random.choice([True, False])}
    if kind == 'MetaInlines':
        return {'t': kind, 'c': inlines(random, 1, 4)}
    if kind == 'MetaBlocks':
        return {'t': kind,
                'c': [{'t': 'Para', 'c': inlines(random, 1, 4)}, {'t': 'HorizontalRule'}]}
    if kind == 'MetaList':
        return {'t': kind, 'c': [meta(random, depth + 1) for _ in range(random.randrange(4))]}
    if kind == 'MetaMap':
        names = random.sample(PARTS, random.randrange(7))
        return {'t': kind, 'c': {name: meta(random, depth + 1) for name in names}}
    return text(random.choice(VALUES))


def block(random):
    if random.random() < 0.2:
        return {'t': 'Div', 'c': [[random.choice(['refs', 'refs-a', 'x']), [], []], []]}
    return {'t': 'Para', 'c': inlines(random, 0, 8)}


def page(random):
    fields = {'bibliography': text('refs.json')} if random.random() < 0.7 else {}
    if random.random() < 0.9:
        fields['csl'] = text(random.choice(['numeric', 'notes', 'author-date', 'labels']))
    for name in random.sample(FIELDS, random.choice([0, 0, 1, 2, 4])):
        fields[name] = meta(random)
    return {'pandoc-api-version': [1, 22], 'meta': fields,
            'blocks': [block(random) for _ in range(random.randrange(4))]}
