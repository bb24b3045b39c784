"""Styles and locales that are refused, and others that are read with warnings: what must be said of
each, worked out by hand. The folder mistakes has more.

In a document `¦` stands at the place that must be told, and is taken out. Faults and warnings have
their words."""

HEAD = '<style xmlns="http://purl.org/net/xbiblio/csl" version="1.0" class="in-text">\n'
INFO = ' <info>\n  <title>T</title>\n  <id>i</id>\n </info>\n'
LAYOUT = ' <citation>\n  <layout>\n   <text variable="title"/>\n  </layout>\n </citation>\n'
LOCALE = '<locale xmlns="http://purl.org/net/xbiblio/csl" version="1.0" xml:lang="en-US">\n'


def style(body='', info=INFO, citation=LAYOUT, head=HEAD):
    return head + info + body + citation + '</style>\n'


def layout(elements):
    """A style whose citation has these elements."""
    return style(citation=' <citation>\n  <layout>\n   %s\n  </layout>\n </citation>\n' % elements)


def macros(*bodies):
    """A style with these macros, `m0` and so on."""
    return style(body=''.join(' <macro name="m%d">%s</macro>\n' % it for it in enumerate(bodies)))


def texts(count):
    return '<text value="t"/>' * count


def deep(groups, element):
    """An element in as many groups."""
    return '<group>' * groups + element + '</group>' * groups


def inside(count, begin, end):
    """A style whose text is in as many elements that begin and end so."""
    return layout(begin * count + texts(1) + end * count)


def locale(body):
    return LOCALE + body + '</locale>\n'


REFUSED = {
    # no XML
    'an end tag is missing': (HEAD + INFO + '¦', 'found the end of the text, wanted the end tag of `style`'),
    # roots
    'another root': ('\n¦<html/>', 'found `html`, wanted the element `style` or `locale` of CSL'),
    'another namespace': (
        '<style ¦xmlns="http://purl.org/net/csl"/>',
        'found `http://purl.org/net/csl`, wanted the namespace `http://purl.org/net/xbiblio/csl`, without a prefix',
    ),
    'a root with a prefix': (
        '<?xml version="1.0"?>\n<!-- one -->\n ¦<c:style xmlns:c="http://purl.org/net/xbiblio/csl"/>',
        'found `c:style`, wanted the element `style` or `locale` of CSL',
    ),
    # what is missing
    'no info': ('¦' + style(info=''), 'found `style`, wanted an element `info` in it'),
    'no id': (style(info=' ¦<info><title>T</title></info>\n'), 'found `info`, wanted an element `id` in it'),
    'a dependent style without its parent': (
        '¦' + style(citation=''),
        'found `style`, wanted an element `citation` in it, or a link to an independent parent',
    ),
    'no class': ('¦' + style(head=HEAD.replace(' class="in-text"', '')), 'found `style`, wanted an attribute `class` of it'),
    'no variable': (layout('¦<date form="text"/>'), 'found `date`, wanted an attribute `variable` of it'),
    'no name of a part': (layout('<date variable="issued">¦<date-part/></date>'), 'found `date-part`, wanted an attribute `name` of it'),
    'a link without its aim': (
        style(info=' <info><title>T</title><id>i</id>\n ¦<link rel="self"/></info>'),
        'found `link`, wanted an attribute `href` of it',
    ),
    # what is too much
    'two bibliographies': (
        style(body=' <bibliography><layout/></bibliography>\n ¦<bibliography><layout/></bibliography>\n'),
        'found `bibliography`, wanted no second element of its kind',
    ),
    'two parts of a name': (
        layout('<names variable="author"><name><name-part name="given"/>\n¦<name-part name="given"/></name></names>'),
        'found `name-part`, wanted no second element of its kind',
    ),
    'two macros of a name with an accent': (
        style(body=' <macro name="año"/><macro name="b"/><macro ¦name="año"/>\n'),
        'found `año`, wanted a name that no macro before has',
    ),
    # elements and values that aren't known
    'an element out of place': (layout('¦<layout/>'), 'found `layout`, wanted an element that `layout` may contain'),
    'no value': (layout('<text ¦quotes="" variable="title"/>'), 'found ``, wanted a value of `quotes`'),
    'a form of another part': (
        layout('<date variable="issued">\n<date-part name="year" ¦form="ordinal"/></date>'),
        'found `ordinal`, wanted a value of `form`',
    ),
    'one of several values': (
        layout('<choose><if ¦position="first lats"/></choose>'),
        'found `lats`, wanted a value of `position`',
    ),
    'a number that is too small': (
        style(body=' <bibliography ¦line-spacing="0"><layout/></bibliography>'),
        'found `0`, wanted a whole number, 1 or more',
    ),
    'a number that is too large': (
        layout('<names variable="author"><name ¦et-al-min="4294967296"/></names>'),
        'found `4294967296`, wanted a whole number, 4294967295 or less',
    ),
    'a text as number': (layout('<number ¦variable="title"/>'), 'found `title`, wanted a number variable'),
    'a name among dates': (layout('<choose><if ¦is-uncertain-date="author"/></choose>'), 'found `author`, wanted a date variable'),
    'a text among names': (layout('<names ¦variable="author title"/>'), 'found `title`, wanted a name variable'),
    # macros
    'a macro that an unused one misses': (
        style(body=' <macro name="a"><choose><if type="book"><text ¦macro="c"/></if></choose></macro>\n'),
        'found `c`, wanted the name of a macro',
    ),
    'a ring that one leads to, by a second call': (
        macros(
            '<text macro="m3"/>', '<text macro="m4"/><text ¦macro="m2"/>', '<text macro="m3"/>', '<text macro="m1"/>', texts(1)
        ),
        "found `m2`, wanted a macro that doesn't lead back to this one",
    ),
    'one element more than a macro may have': (
        macros('<text macro="m1"/>' * 1000 + texts(1), texts(999)).replace('<macro', '¦<macro', 1),
        'found `macro`, wanted at most 1000000 elements with all macros written out',
    ),
    'one level more than a macro may have': (
        macros(
            deep(250, '<text macro="m1"/>'), deep(249, '<text macro="m2"/>'), deep(249, '<text macro="m3"/>'), deep(249, texts(1))
        ).replace('<macro', '¦<macro', 1),
        'found `macro`, wanted at most 1000 elements in one another with all macros written out',
    ),
    'macros that double': (
        style(
            body=''.join(
                ' %s<macro name="m%d">%s</macro>\n' % ('¦' if n == 18 else '', n, '<text macro="m%d"/>' % (n + 1) * 2) for n in range(37)
            )
            + ' <macro name="m37"/>\n'
        ),
        'found `macro`, wanted at most 1000000 elements with all macros written out',
    ),
    'a layout of large macros': (
        style(
            body=''.join(' <macro name="m%d">%s</macro>\n' % (n, '<text macro="m%d"/>' % (n + 1) * 2) for n in range(18)) + ' <macro name="m18"/>\n',
            citation=' <citation>\n  ¦<layout><text macro="m0"/><text macro="m0"/></layout>\n </citation>\n',
        ),
        'found `layout`, wanted at most 1000000 elements with all macros written out',
    ),
    'macros that are deep': (
        style(
            body=''.join(
                ' %s<macro name="m%d">%s</macro>\n' % ('¦' if n == 16 else '', n, '<group>' * 59 + '<text macro="m%d"/>' % (n + 1) + '</group>' * 59)
                for n in range(33)
            )
            + ' <macro name="m33"/>\n'
        ),
        'found `macro`, wanted at most 1000 elements in one another with all macros written out',
    ),
    # locales
    'a locale of no language': (
        '¦<locale xmlns="http://purl.org/net/xbiblio/csl" version="1.0"/>',
        'found `locale`, wanted an attribute `xml:lang` of it',
    ),
    'a term of no name': (locale('<terms>\n  ¦<term>and</term></terms>'), 'found `term`, wanted an attribute `name` of it'),
    'a term without its plural': (
        locale('<terms>\n  ¦<term name="page"><single>page</single></term></terms>'),
        'found `term`, wanted an element `multiple` in it',
    ),
    'an unknown gender': (
        locale('<terms>\n  <term name="page" ¦gender="femminine">page</term></terms>'),
        'found `femminine`, wanted a value of `gender`, perhaps `feminine`',
    ),
    'a date of no form': (locale(' ¦<date><date-part name="year"/></date>'), 'found `date`, wanted an attribute `form` of it'),
    'an unknown element of a locale': (locale(' ¦<term/>'), 'found `term`, wanted an element that `locale` may contain, perhaps `terms`'),
}

WARNED = {
    'a variable': (layout('<text ¦variable="custom"/>'), 'unknown variable `custom`'),
    'a variable of several': (layout('<choose><if ¦variable="title isued"/></choose>'), 'unknown variable `isued`, perhaps `issued`'),
    'a type': (layout('<choose><if ¦type="boook"/></choose>'), 'unknown item type `boook`, perhaps `book`'),
    'a name of other processors': (layout('<text ¦variable="doi"/>'), 'unknown variable `doi`'),
    'a long ordinal above ten': (locale('<terms>\n  <term ¦name="long-ordinal-11">t</term></terms>'), 'unknown term `long-ordinal-11`'),
    'an ordinal with a sign': (locale('<terms>\n  <term ¦name="ordinal-+1">t</term></terms>'), 'unknown term `ordinal-+1`'),
    'a locator': (layout('<choose><if ¦locator="surah"/></choose>'), 'unknown locator type `surah`'),
    'a term': (layout('<text ¦term="no-date"/>'), 'unknown term `no-date`, perhaps `no date`'),
    'a term of a locale': (locale('<terms>\n  <term ¦name="year-range-delimiter">–</term></terms>'), 'unknown term `year-range-delimiter`'),
    'a field': (style(info=INFO.replace(' </info>', '  <category ¦field="alchemy"/>\n </info>')), 'unknown field `alchemy`'),
    'a relation': (style(info=INFO.replace(' </info>', '  <link href="h" ¦rel="slef"/>\n </info>')), 'unknown relation `slef`, perhaps `self`'),
    'an element of CSL-M': (layout('<names variable="author"><name/>¦<institution/></names>'), 'element `institution` is ignored'),
    'an element of another namespace': (
        layout('<group>\n ¦<x:note xmlns:x="urn:x">n</x:note></group>'),
        'element `x:note` is ignored',
    ),
    'an element with a namespace of its own': (layout('<group>\n ¦<text xmlns="urn:x"/></group>'), 'element `text` is ignored'),
    'an element of info': (style(info=INFO.replace(' </info>', '  ¦<dc/>\n </info>')), 'element `dc` is ignored'),
    'text': (layout('¦<group> stray <text variable="title"/></group>'), 'text `stray` is ignored'),
    'a version': (style(head=HEAD.replace('version="1.0"', '¦version="1.1mlz1"')), 'version `1.1mlz1` is read as 1.0'),
    'no version': ('¦' + style(head=HEAD.replace(' version="1.0"', '')), '`style` without a version is read as 1.0'),
    'a namespace of a prefix alone': (
        '¦' + style(head=HEAD.replace('xmlns=', 'xmlns:cs=')),
        "`style` without a namespace is read as CSL's",
    ),
    'another namespace of a prefix alone': (
        '¦' + style(head=HEAD.replace('xmlns="http://purl.org/net/xbiblio/csl"', 'xmlns:cs="urn:x"')),
        "`style` without a namespace is read as CSL's",
    ),
    'no namespace': (
        '¦' + style(head=HEAD.replace(' xmlns="http://purl.org/net/xbiblio/csl"', '')),
        "`style` without a namespace is read as CSL's",
    ),
    'a parent that is not used': (
        style(info=INFO.replace(' </info>', '  <link ¦href="h" rel="independent-parent"/>\n </info>')),
        'the parent `h` is not used',
    ),
}

# What the limits just allow.
ALLOWED = {
    'a macro of many elements': macros('<text macro="m1"/>' * 1000, texts(999)),
    'macros that are deep': macros(
        deep(249, '<text macro="m1"/>'), deep(249, '<text macro="m2"/>'), deep(249, '<text macro="m3"/>'), deep(249, texts(1))
    ),
    'macros that are called before they are told, and twice': macros('<text macro="m1"/><text macro="m2"/>' * 2, '<text macro="m2"/>', texts(1)),
}


# Styles whose elements nest as deep as is read.
DEEPEST = {
    'groups': inside(252, '<group>', '</group>'),
    'conditions': inside(126, '<choose><if type="book">', '</if></choose>'),
    'what else is written': inside(126, '<choose><if type="book"/><else>', '</else></choose>'),
    'substitutes': inside(126, '<names variable="author"><substitute>', '</substitute></names>'),
}


# Styles with several faults, each at its mark, and their words.
SEVERAL = {
    'in all parts': (
        style(
            body=' <macro name="a"><text ¦variable="issued"/></macro>\n'
            ' <bibliography>\n  <layout>\n   ¦<txt/>\n   <names ¦variable="title"/>\n  </layout>\n </bibliography>\n',
            citation=' <citation ¦collapse="yeer">\n  <layout>\n'
            '   <group>¦<date form="text"/></group>\n   <text ¦macro="b"/>\n  </layout>\n </citation>\n',
        ),
        [
            'found `issued`, wanted a text or number variable',
            'found `txt`, wanted an element that `layout` may contain, perhaps `text`',
            'found `title`, wanted a name variable',
            'found `yeer`, wanted a value of `collapse`, perhaps `year`',
            'found `date`, wanted an attribute `variable` of it',
            'found `b`, wanted the name of a macro',
        ],
    ),
    'of the style, of its info and of a locale': (
        style(
            head=HEAD.replace('class="in-text"', '¦class="text"'),
            info=' ¦<info>\n  <title>T</title>\n </info>\n',
            body=' <locale>\n  <terms>\n   ¦<term form="short">a</term>\n   <term name="and" ¦form="shrt">a</term>\n  </terms>\n </locale>\n',
        ),
        [
            'found `text`, wanted a value of `class`',
            'found `info`, wanted an element `id` in it',
            'found `term`, wanted an attribute `name` of it',
            'found `shrt`, wanted a value of `form`, perhaps `short`',
        ],
    ),
    'of macros as a whole, and in them': (
        style(
            body=' <macro name="a"/>\n <macro ¦name="a"/>\n <macro name="b"><text ¦quotes="on" value="b"/></macro>\n',
        ),
        [
            'found `a`, wanted a name that no macro before has',
            'found `on`, wanted a value of `quotes`',
        ],
    ),
    'twenty of more': (layout('¦<txt/>\n   ' * 20 + '<txt/>' * 5), ['found `txt`, wanted an element that `layout` may contain, perhaps `text`'] * 20),
}


def all_placed(marked):
    """A document without its marks, and the line and the column of each."""
    places, text = [], ''
    for part in marked.split('¦'):
        text += part
        places.append((text.count('\n') + 1, len(text) - (text.rfind('\n') + 1) + 1))
    return text, places[:-1]


def placed(marked):
    """A document without its mark, and the line and the column of the mark."""
    front, behind = marked.split('¦')
    return (front + behind).encode(), front.count('\n') + 1, len(front) - (front.rfind('\n') + 1) + 1
