"""Documents whose layouts nest to a known depth and have a known number of elements, and the two of
any document. What is known was worked out by hand from what gamhilon.h says of
gamhilon_check_limits."""

TEXT = {'kind': 'text', 'variable': 'title'}


def call(name):
    return {'kind': 'text', 'macro': name}


def group(*children):
    return {'kind': 'group', 'children': list(children)}


def block(*children):
    return {'kind': 'group', 'display': 'block', 'children': list(children)}


def choice(*branches, otherwise=()):
    return {'kind': 'choose',
            'branches': [{'if': [{'variable': 'title'}], 'children': list(branch)}
                         for branch in branches], 'else': list(otherwise)}


def style(elements, macros=(), bibliography=None):
    """A style, of which the macros are names with their children."""
    made = {'citation': {'elements': elements},
            'macros': [{'name': name, 'children': list(children)} for name, children in macros]}
    return made if bibliography is None else {**made, 'bibliography': {'elements': bibliography}}


def document(*styles):
    """A document of one cite in the first of the styles. Its title is x."""
    return {'styles': {f's{place}': style for place, style in enumerate(styles)},
            'entries': [{'key': 'a', 'title': 'x'}],
            'requests': [{'style': 's0', 'items': [{'entry': 'a'}]}],
            'bibliography': {'style': 's0'}}


def chain(length):
    """Macros of which each is a block that calls the next, and the last is a text: for each a call
    and, in it, a block or the text. So the depth and the number of elements are twice the
    length."""
    names = [f'm{number}' for number in range(length)]
    macros = ([(name, [block(call(after))]) for name, after in zip(names, names[1:])]
              + [(names[-1], [TEXT])])
    return document(style([call(names[0])], macros))


def doubling(length):
    """Macros of which each is a text and two calls of the next, and the last is a text. So many
    texts are written: of n macros 2 ** n - 1; and there are as many calls, the layout's too."""
    names = [f'm{number}' for number in range(length)]
    macros = ([(name, [TEXT, call(after), call(after)]) for name, after in zip(names, names[1:])]
              + [(names[-1], [TEXT])])
    return document(style([call(names[0])], macros))


def blocks():
    """Blocks in blocks, 98, and a text in them: as many as JSON's nesting lets be in the layout,
    and the rest in a macro that is called there. The depth and the number of elements are 100."""
    inner, outer = TEXT, call('m')
    for _ in range(39):
        inner = block(inner)
    for _ in range(59):
        outer = block(outer)
    return document(style([outer], [('m', [inner])]))


def many_macros(macros, calls):
    """As many macros, each a text, and as many calls of the last: twice as many elements."""
    return document(style([call(f'm{macros - 1}')] * calls,
                          [(f'm{number}', [TEXT]) for number in range(macros)]))


RING = style([call('r')], [('r', [call('r')])])
# What it is, a document, and the depth and the number of elements that its layouts need.
KNOWN = [
    ('an empty layout', document(style([])), 0, 0),
    ('elements side by side',
     document(style([TEXT, TEXT, {'kind': 'number', 'variable': 'volume'}])), 1, 3),
    ('each kind of element', document(style([
        TEXT, {'kind': 'text', 'value': 'x'}, {'kind': 'text', 'term': 'and'},
        {'kind': 'date', 'variable': 'issued'},
        {'kind': 'names', 'variables': ['author'], 'substitute': ['editor']}])), 1, 5),
    ('a group', document(style([group(TEXT, group(TEXT), TEXT)])), 3, 5),
    ('an empty group and an empty choice', document(style([group(), choice()])), 1, 2),
    ('a macro called twice', document(style([call('m'), call('m')], [('m', [TEXT, group(TEXT)])])),
     3, 8),
    ('a macro called at two depths',
     document(style([group(group(call('m'))), call('m')], [('m', [TEXT])])), 4, 6),
    ('a macro that is not there', document(style([call('nowhere')])), 1, 1),
    ('an empty macro', document(style([call('m'), call('m')], [('m', [])])), 1, 2),
    ('macros of one name, the first of which counts',
     document(style([call('m')], [('m', [TEXT]), ('m', [group(group(TEXT))])])), 2, 2),
    ('a macro that is not called', document(style([TEXT], [('m', [group(group(TEXT))])])), 1, 1),
    ('a choice, all branches', document(style([choice([TEXT], [TEXT, TEXT], otherwise=[TEXT])])), 2,
     5),
    ('a choice, deepest in its first branch',
     document(style([choice([group(TEXT)], [TEXT], otherwise=[TEXT])])), 3, 5),
    ('a choice, deepest in its last branch',
     document(style([choice([TEXT], [group(TEXT)], otherwise=[TEXT])])), 3, 5),
    ('a choice, deepest where none holds',
     document(style([choice([TEXT], otherwise=[TEXT, group(TEXT)])])), 3, 5),
    ('a macro in a choice in a group',
     document(style([group(choice([call('m')], otherwise=[call('m')]))], [('m', [TEXT, TEXT])])), 4,
     8),
    ('a choice in a macro', document(style([call('m')], [('m', [choice([TEXT, TEXT]), TEXT])])), 3,
     5),
    ('a bibliography that is greater', document(style([TEXT], bibliography=[group(TEXT, TEXT)])), 2,
     3),
    ('a citation that is greater', document(style([group(TEXT, TEXT)], bibliography=[TEXT])), 2, 3),
    ('a citation and a bibliography of the same macro',
     document(style([call('m')], [('m', [TEXT, TEXT])], bibliography=[call('m'), TEXT])), 2, 4),
    ('a bibliography that calls a macro twice',
     document(style([], [('m', [group(TEXT)])], bibliography=[call('m'), call('m')])), 3, 6),
    ('a style that nothing names', document(style([TEXT]), style([group(group(TEXT))])), 3, 3),
    ('the deeper and the greater of two styles',
     document(style([group(group(TEXT))]), style([TEXT] * 7)), 3, 7),
    ('a ring', document(RING), 0, 0),
    ('a ring beside a style', document(RING, style([group(TEXT)])), 2, 2),
    ('a ring that no layout reaches',
     document(style([group(group(TEXT))], [('r', [call('q')]), ('q', [call('r')])])), 0, 0),
]
# The same within a depth of 100 and 100,000 elements, and the text that it must print.
ALLOWED = [
    ('a chain of 50 macros', chain(50), 100, 100, 'x\n'),
    ('98 blocks', blocks(), 100, 100, 'x\n'),
    ('macros that double 15 deep', doubling(15), 16, 65534, 'x' * 32767 + '\n'),
]
# The same beyond a depth of 100.
CHAINS = [
    ('a chain of 51 macros', chain(51), 102, 102),
    ('a chain of 1135 macros', chain(1135), 2270, 2270),
    ('a chain of 4554 macros', chain(4554), 9108, 9108),
]


class Ring(Exception):
    """The macros of a style call each other in a ring."""


def measured(value):
    """The greatest depth and the greatest number of elements of the layouts of a document."""
    sizes = [of_style(style) for style in value['styles'].values()]
    return max([0, *[depth for depth, _ in sizes]]), max([0, *[count for _, count in sizes]])


def of_style(value):
    """The same of the layouts of a style, where both are 0 if it has a ring."""
    macros, known = {}, {}
    for macro in value.get('macros', []):
        macros.setdefault(macro['name'], macro['children'])

    def of_macro(name):
        if name not in known:
            known[name] = None
            known[name] = of_elements(macros.get(name, []))
        if known[name] is None:
            raise Ring
        return known[name]

    def of_elements(elements):
        depth, count = 0, 0
        for element in elements:
            inside = ([branch['children'] for branch in element.get('branches', [])]
                      + [element.get('children', []), element.get('else', [])])
            sizes = ([of_elements(part) for part in inside]
                     + ([of_macro(element['macro'])] if 'macro' in element else []))
            depth = max([depth, *[1 + own for own, _ in sizes]])
            count += 1 + sum(own for _, own in sizes)
        return depth, count

    try:
        for name in macros:
            of_macro(name)
        sizes = [of_elements(value[layout]['elements'])
                 for layout in ('citation', 'bibliography') if layout in value]
    except Ring:
        return 0, 0
    return max(depth for depth, _ in sizes), max(count for _, count in sizes)
