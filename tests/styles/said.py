"""What a style file or a locale file says, by xml.etree, in the lines of
crates/test_readers/src/dump.rt.

It reads what CSL 1.0.2 has, and is for files that have nothing else."""
import xml.etree.ElementTree

CSL = '{http://purl.org/net/xbiblio/csl}'
LANG = '{http://www.w3.org/XML/1998/namespace}lang'
AFFIXES = ('prefix', 'suffix')
FORMATTING = ('font-style', 'font-variant', 'font-weight', 'text-decoration', 'vertical-align')
# Names of older versions and of items, and those that stand for them.
OLDER_VARIABLES = {'event': 'event-title', 'journalAbbreviation': 'container-title-short', 'shortTitle': 'title-short'}
OLDER_TERMS = {'editortranslator': 'editor-translator', 'sub verbo': 'sub-verbo'}
# Values that mean the same as another.
SAME = {'chicago-15': 'chicago'}
NUMBERS = (
    'chapter-number citation-number collection-number edition first-reference-note-number issue locator number number-of-pages '
    'number-of-volumes page page-first part-number printing-number section supplement-number version volume'
).split()
CONDITIONS = ('disambiguate', 'is-numeric', 'is-uncertain-date', 'locator', 'position', 'type', 'variable')
RENDERING = ('text', 'number', 'label', 'date', 'names', 'group', 'choose')


def name_options(form, delimiter):
    """The options of names in their order, where their form and their delimiter have these
    names."""
    return (
        'and',
        delimiter + '!',
        'delimiter-precedes-et-al',
        'delimiter-precedes-last',
        'et-al-min',
        'et-al-use-first',
        'et-al-subsequent-min',
        'et-al-subsequent-use-first',
        'et-al-use-last',
        form,
        'initialize',
        'initialize-with!',
        'name-as-sort-order',
        'sort-separator!',
    )


INHERITED = (*name_options('name-form', 'name-delimiter'), 'names-delimiter!')


def quoted(text):
    return '"%s"' % text.replace('\\', '\\\\').replace('"', '\\"').replace('\n', '\\n')


class Lines:
    """The lines of a file."""

    def __init__(self):
        self.lines = []

    def add(self, depth, kind, values):
        self.lines.append(' ' * depth + kind + ''.join(values))

    def text(self):
        return ''.join(it + '\n' for it in self.lines)


def tag(element):
    return element.tag.removeprefix(CSL)


def children(element, *names):
    return [it for it in element if tag(it) in names]


def only(element, name):
    return next(iter(children(element, name)), None)


def values(element, keys):
    """The values of these attributes, as `KEY=VALUE`. A key with `!` is a text; one with `?` is a
    text that is left out where it is empty; `KEY=DEFAULT` is left out where it has that value."""
    found = []
    for key in keys:
        name, _, default = key.rstrip('!?').partition('=')
        value = element.get(LANG if name == 'xml:lang' else name)
        if value is None or default and value == default or key.endswith('?') and not value:
            continue
        found.append(' %s=%s' % (name, quoted(value) if key[-1] in '!?' else plain(value)))
    return found


def plain(value):
    return str(int(value)) if value.strip().isdigit() else SAME.get(value, value)


def appearance(element):
    return values(element, [it + '?' for it in AFFIXES] + list(FORMATTING))


def variable_of(element):
    """The variable that an element names."""
    return OLDER_VARIABLES.get(element.get('variable'), element.get('variable'))


def current_term(name):
    return OLDER_TERMS.get(name, name)


def tests_of(branch):
    """The tests of a branch, one for each of its values."""
    tests = []
    for key, value in branch.attrib.items():
        if key in CONDITIONS:
            older = {'variable': OLDER_VARIABLES, 'is-numeric': OLDER_VARIABLES, 'locator': OLDER_TERMS}.get(key, {})
            tests += [' %s=%s' % (key, older.get(it, it)) for it in value.split()]
    return tests


def trues(*names):
    return [it + '=false' for it in names]


def say_elements(parent, depth, lines):
    for element in children(parent, *RENDERING):
        globals()['say_' + tag(element)](element, depth, lines)


def say_text(element, depth, lines):
    found = []
    if element.get('variable') is not None:
        variable = variable_of(element)
        found.append(' variable=' + variable)
        if variable not in NUMBERS:
            found += values(element, ['form=long'])
    elif element.get('term') is not None:
        found += [' term=' + current_term(element.get('term')), *values(element, ['form=long', 'plural=false'])]
    else:
        found += values(element, ['macro!', 'value!'])
    keys = [*trues('quotes', 'strip-periods'), 'text-case', 'display']
    lines.add(depth, 'text', found + values(element, keys) + appearance(element))


def say_number(element, depth, lines):
    lines.add(depth, 'number', values(element, ['variable', 'form=numeric', 'text-case', 'display']) + appearance(element))


LABEL = ['form=long', 'plural=contextual', *trues('strip-periods'), 'text-case']


def say_label(element, depth, lines):
    lines.add(depth, 'label', values(element, ['variable', *LABEL]) + appearance(element))


def say_date(element, depth, lines):
    how = ['form', 'date-parts=year-month-day'] if element.get('form') else ['delimiter?']
    lines.add(depth, 'date', values(element, ['variable', *how, 'text-case', 'display']) + appearance(element))
    say_date_parts(element, depth + 1, lines)


def say_date_parts(date, depth, lines):
    for part in children(date, 'date-part'):
        keys = ['name', 'form', 'range-delimiter!', *trues('strip-periods'), 'text-case']
        lines.add(depth, 'date-part', values(part, keys) + appearance(part))


def say_names(element, depth, lines):
    variables = [' variable=' + it for it in element.get('variable', '').split()]
    lines.add(depth, 'names', variables + values(element, ['delimiter!', 'display']) + appearance(element))
    name, et_al, label = (only(element, it) for it in ('name', 'et-al', 'label'))
    if name is not None:
        lines.add(depth + 1, 'name', values(name, name_options('form', 'delimiter')) + appearance(name))
        for which in 'given', 'family':
            for part in children(name, 'name-part'):
                if part.get('name') == which:
                    lines.add(depth + 2, 'name-part', values(part, ['name', 'text-case']) + appearance(part))
    if et_al is not None:
        lines.add(depth + 1, 'et-al', values(et_al, ['term=et-al']) + appearance(et_al))
    if label is not None:
        inside = [tag(it) for it in element]
        is_before = name is None or inside.index('label') < inside.index('name')
        lines.add(depth + 1, 'label', [' side=' + ('before' if is_before else 'behind')] + values(label, LABEL) + appearance(label))
    for substitute in children(element, 'substitute'):
        say_elements(substitute, depth + 1, lines)


def say_group(element, depth, lines):
    lines.add(depth, 'group', values(element, ['delimiter?', 'display']) + appearance(element))
    say_elements(element, depth + 1, lines)


def say_choose(element, depth, lines):
    lines.add(depth, 'choose', [])
    for branch in children(element, 'if', 'else-if'):
        lines.add(depth + 1, 'if', values(branch, ['match=all']) + tests_of(branch))
        say_elements(branch, depth + 2, lines)
    lines.add(depth + 1, 'else', [])
    for otherwise in children(element, 'else'):
        say_elements(otherwise, depth + 2, lines)


def say_locale(element, depth, lines):
    options = only(element, 'style-options')
    found = [] if options is None else values(options, ['limit-day-ordinals-to-day-1', 'punctuation-in-quote'])
    lines.add(depth, 'locale', values(element, ['xml:lang!']) + found)
    for date in children(element, 'date'):
        lines.add(2, 'date', values(date, ['form', 'delimiter?', 'text-case', *FORMATTING]))
        say_date_parts(date, 3, lines)
    for terms in children(element, 'terms'):
        for term in children(terms, 'term'):
            if only(term, 'single') is None:
                words = [' text=' + quoted(own_text(term))]
            else:
                words = [' %s=%s' % (it, quoted(own_text(only(term, it)))) for it in ('single', 'multiple')]
            keys = ['form=long', 'gender', 'gender-form', 'match']
            lines.add(2, 'term', [' name=' + current_term(term.get('name')), *values(term, keys), *words])


def own_text(element):
    return (element.text or '') + ''.join(it.tail or '' for it in element)


def say_info(info, lines):
    found = []
    for name in 'title', 'title-short', 'id', 'summary', 'updated':
        element = only(info, name)
        if element is not None:
            found.append(' %s=%s' % (name, quoted(own_text(element).strip())))
    lines.add(1, 'info', found)
    for link in children(info, 'link'):
        lines.add(2, 'link', values(link, ['href!', 'rel', 'xml:lang!']))
    for category in children(info, 'category'):
        found = values(category, ['citation-format']) or values(category, ['field'])
        if found:
            lines.add(2, 'category', found)


def say_section(section, keys, lines):
    lines.add(1, tag(section), keys + values(section, INHERITED))
    for sort in children(section, 'sort'):
        for key in children(sort, 'key'):
            by = [' variable=' + variable_of(key)] if key.get('variable') else values(key, ['macro!'])
            rest = ['sort=ascending', 'names-min', 'names-use-first', 'names-use-last']
            lines.add(2, 'key', by + values(key, rest))
    layout = only(section, 'layout')
    lines.add(2, 'layout', values(layout, ['delimiter?']) + appearance(layout))
    say_elements(layout, 3, lines)


def number(element, name, default):
    return ' %s=%d' % (name, int(element.get(name, default)))


def say_citation(section, lines):
    keys = values(section, trues('disambiguate-add-names', 'disambiguate-add-givenname'))
    keys += values(section, ['givenname-disambiguation-rule=by-cite', *trues('disambiguate-add-year-suffix')])
    keys += values(section, ['cite-group-delimiter!', 'collapse', 'year-suffix-delimiter!', 'after-collapse-delimiter!'])
    say_section(section, keys + [number(section, 'near-note-distance', 5)], lines)


def say_bibliography(section, lines):
    keys = values(section, [*trues('hanging-indent'), 'second-field-align'])
    keys += [number(section, 'line-spacing', 1), number(section, 'entry-spacing', 1)]
    keys += values(section, ['subsequent-author-substitute!', 'subsequent-author-substitute-rule=complete-all'])
    say_section(section, keys, lines)


def ordered(macros):
    """Macros, those that call nothing first, and then each as soon as all that it calls have
    come."""
    waiting = {it.get('name'): [text.get('macro') for text in it.iter(CSL + 'text') if text.get('macro')] for it in macros}
    callers = {name: [] for name in waiting}
    for name, calls in waiting.items():
        for call in calls:
            callers[call].append(name)
    left = {name: len(calls) for name, calls in waiting.items()}
    order = [name for name in waiting if not left[name]]
    for name in order:
        for caller in callers[name]:
            left[caller] -= 1
            if not left[caller]:
                order.append(caller)
    by_name = {it.get('name'): it for it in macros}
    return [by_name[name] for name in order]


def say_style(root, lines):
    info = only(root, 'info')
    if [tag(it) for it in root] == ['info']:
        parent = next(it.get('href') for it in children(info, 'link') if it.get('rel') == 'independent-parent')
        lines.add(0, 'dependent', values(root, ['default-locale!']) + [' parent=' + quoted(parent)])
        say_info(info, lines)
        return
    keys = ['class', 'default-locale!', 'demote-non-dropping-particle=display-and-sort', 'initialize-with-hyphen=true', 'page-range-format']
    lines.add(0, 'style', values(root, [*keys, *INHERITED]))
    say_info(info, lines)
    for locale in children(root, 'locale'):
        say_locale(locale, 1, lines)
    for macro in ordered(children(root, 'macro')):
        lines.add(1, 'macro', values(macro, ['name!']))
        say_elements(macro, 2, lines)
    say_citation(only(root, 'citation'), lines)
    for bibliography in children(root, 'bibliography'):
        say_bibliography(bibliography, lines)


def said_of(document):
    """The lines of a document."""
    root = xml.etree.ElementTree.fromstring(document)
    lines = Lines()
    if tag(root) == 'locale':
        say_locale(root, 0, lines)
    else:
        say_style(root, lines)
    return lines.text()
