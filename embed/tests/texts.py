"""Texts of gamhilon_cite, as files of a folder, with what has to come of them. The answers were
worked out by hand from CSL 1.0.2 and docs/WRITER.md, and the places were counted."""
import json

NAMESPACE = 'xmlns="http://purl.org/net/xbiblio/csl"'
HEAD = (f'<style {NAMESPACE} class="note" version="1.0"%s>\n'
        '<info><title>T</title><id>T</id><updated>2026-01-01T00:00:00+00:00</updated>%s</info>\n')
TITLE = '<text variable="title"/>'
STYLE = (HEAD % ('', '')
         + '<citation><layout delimiter="; " suffix="."><names variable="author"/>'
         '<text variable="title" quotes="true" prefix=", "/>'
         '<text variable="locator" prefix=", "/></layout></citation>\n'
         '<bibliography hanging-indent="true" line-spacing="2"><sort><key variable="title"/></sort>'
         '<layout><text variable="title" font-style="italic"/></layout></bibliography>\n'
         '</style>\n')
APA = 'http://www.zotero.org/styles/apa'
DEPENDENT = HEAD % (' default-locale="de-DE"',
                    f'<link href="{APA}" rel="independent-parent"/>') + '</style>\n'
ITEMS = [{'id': 'b', 'type': 'book', 'title': 'On "Order" Now',
          'author': [{'family': 'Doe', 'given': 'Jane'}]},
         {'id': 'a', 'type': 'book', 'title': 'A Reply', 'author': [{'family': 'Roe'}]},
         {'id': 'c', 'type': 'book', 'title': 'More'}]
CITATIONS = [[{'id': 'b', 'locator': '4'}], [{'id': 'a', 'note': 7}, {'id': 'b'}]]
ENGLISH = f'<locale {NAMESPACE} version="1.0" xml:lang="en-US"></locale>'
GERMAN = (f'<locale {NAMESPACE} version="1.0" xml:lang="de-DE">'
          '<style-options punctuation-in-quote="false"/><terms>'
          '<term name="open-quote">„</term><term name="close-quote">“</term>'
          '<term name="open-inner-quote">‚</term><term name="close-inner-quote">‘</term>'
          '</terms></locale>')


def style_of(layout, macros=()):
    """A style whose cites this layout writes, with these macros, m0 the first."""
    rows = ''.join(f'<macro name="m{number}">{row}</macro>\n' for number, row in enumerate(macros))
    return (HEAD % ('', '') + rows
            + f'<citation><layout>{layout}</layout></citation>\n</style>\n')


LONG = style_of('<text macro="m17"/>', ['<group>' * 4 + TITLE + '</group>' * 4,
                                        *[2 * f'<text macro="m{it}"/>' for it in range(17)]])
"""A layout of 917,503 elements, fewer than a style file may have. The macro m0 has 9 steps, and each
one behind it four more than twice as many: 13 * 2 ** n - 4. So m14, in line 17, is the first that
has more than 200,000."""
MANY_NAMES = style_of(30 * ('<names variable="author"><name et-al-min="2" et-al-use-first="1"/>'
                            '</names>'))
"""Thirty names elements, which takes 12,000 steps where there are a hundred names."""


def bytes_of(value):
    if isinstance(value, bytes):
        return value
    return (value if isinstance(value, str) else json.dumps(value)).encode()


def texts(style=STYLE, items=ITEMS, citations=CITATIONS, **more):
    """The files of a folder: values are JSON, and texts and bytes stand as they are."""
    given = {'style.csl': style, 'items.json': items, 'citations.json': citations}
    given.update({f'{name}.json': value for name, value in more.items()})
    return {name: bytes_of(value) for name, value in given.items()}


def remark(file, message, pointer=None, line=None, column=None, **more):
    """What is said of a place of a text."""
    place = {'pointer': pointer, 'line': line, 'column': column}
    told = {key: value for key, value in place.items() if value is not None}
    return {'file': file, 'message': message, **told, **more}


def node(text, style='italic'):
    return {'font_style': style, 'font_weight': 'normal', 'text': text}


def listed(*items):
    """The bibliography of these items, each with its key and its nodes."""
    return {'entry_spacing': 1, 'hanging_indent': True, 'line_spacing': 2,
            'items': [{'content': nodes, 'key': key} for key, *nodes in items]}


REPLY, MORE = ('a', node('A Reply')), ('c', node('More'))


def order(opening, closing):
    """The item with a quote in its title: the marks of the quote are in italics, as the title is."""
    return ('b', node(f'On {opening}Order{closing} Now'))


TWO = listed(REPLY, order('“', '”'))
CITED = ['Jane Doe, “On ‘Order’ Now,” 4.', 'Roe, “A Reply”; Jane Doe, “On ‘Order’ Now.”']

ROE = [{'id': 'a'}]

# References in other forms, and as they are in CSL-JSON.
BIB = ('@book{a, author = {Roe, R. and van Doe, J.}, title = {A {Reply}}, date = {2001-02},\n'
       '    langid = {ngerman}, volumi = {x}}\n'
       '@book{b')
RIS = 'TY  - BOOK\nAU  - Roe, R.\nTI  - A Reply\nPY  - 2001\nXX  - x\nID  - a\nER  - \n'
BIB_ITEM = {'id': 'a', 'type': 'book', 'title': 'A Reply', 'language': 'de-DE',
            'author': [{'family': 'Roe', 'given': 'R.'},
                       {'dropping-particle': 'van', 'family': 'Doe', 'given': 'J.'}],
            'issued': {'date-parts': [[2001, 2]]}}
RIS_ITEM = {'id': 'a', 'type': 'book', 'title': 'A Reply',
            'author': [{'family': 'Roe', 'given': 'R.'}], 'issued': {'date-parts': [[2001]]}}

# Name, files, the texts of the citations, their notes, the bibliography, and the warnings.
ANSWERED = [
    ('two notes', texts(), CITED, [1, 7], TWO, []),
    ('empty lists', texts(items=[], citations=[], locales=[], options={}), [], [], listed(), []),
    ('all items', texts(citations=[], options={'nocite': True}), [], [],
     listed(REPLY, MORE, order('“', '”')), []),
    ('a locale', texts(citations=[[{'id': 'b'}]], locales=[GERMAN], options={'locale': 'de-AT'}),
     ['Jane Doe, „On ‚Order‘ Now“.'], [1], listed(order('„', '“')), []),
    ('a locale in place of the one that is built in', texts(citations=[ROE], locales=[ENGLISH]),
     ['Roe, “A Reply”.'], [1], listed(REPLY), []),
    ('no locale of the language', texts(citations=[ROE], options={'locale': 'fr-CA'}),
     ['Roe, “A Reply.”'], [1], listed(REPLY),
     [remark('locales', 'no locale of `fr-CA`, its words are those of American English')]),
    ('two locales of a language', texts(citations=[ROE], locales=[ENGLISH, ENGLISH]),
     ['Roe, “A Reply”.'], [1], listed(REPLY),
     [remark('locales/1', 'a locale before it is of the same language, so it is left out')]),
    ('items of RIS', texts(items=RIS, citations=[ROE]),
     ['R. Roe, “A Reply.”'], [1], listed(REPLY),
     [remark('items', 'CSL has no place for it', entry='a', field='XX')]),
    ('items of a form that is named, behind a remark',
     texts(items='A remark.\n@book{a, author={Roe, R.}, title={A {Reply}}}', citations=[ROE],
           options={'from': 'bibtex'}),
     ['R. Roe, “A Reply.”'], [1], listed(REPLY), []),
    ('limits', texts(citations=[ROE], options={'limits': {'steps': 100, 'bytes': 1000}}),
     ['Roe, “A Reply.”'], [1], listed(REPLY), []),
    ('odd texts', texts(STYLE.replace('<citation>', '<citation size="3">'),
                        [{**ITEMS[1], 'a/b': 1}], [[{'id': 'a', 'page': 3, 'hidden': 'no'}]]),
     ['Roe, “A Reply.”'], [1], listed(REPLY),
     [remark('style', 'unknown attribute `size` of `citation`', line=3, column=11),
      remark('items', 'unknown key, left out', '/0/a~1b'),
      remark('citations', 'neither true nor false, left out', '/0/0/hidden'),
      remark('citations', 'unknown key, left out', '/0/0/page')]),
]

# Form, and the items as they stand in it, in the order of the list.
FORMS = [
    ('text', ['A Reply', 'On “Order” Now']),
    ('html', ['<i>A Reply</i>', '<i>On “Order” Now</i>']),
    ('markdown', ['*A Reply*', '*On “Order” Now*']),
    ('latex', [r'\textit{A Reply}', r'\textit{On “Order” Now}']),
]

# Name, files, and the fault, of whose message that is the beginning.
REFUSED = [
    ('a style that is no UTF-8', texts(STYLE.encode().replace(b'<citation>', b'<\xff>')),
     remark('style', 'no UTF-8 from byte ', line=3, column=2)),
    ('a style that is no XML', texts(STYLE.replace('</style>', '</stile>')),
     remark('style', '', line=5, column=1)),
    ('an empty style', texts(''), remark('style', '', line=1, column=1)),
    ('a dependent style', texts(DEPENDENT),
     remark('style', f'it stands for the style `{APA}`, which is to be given', parent=APA,
            parent_locale='de-DE')),
    ('options that are no object', texts(options=[]), remark('options', 'wanted an object', '')),
    ('an unknown option', texts(options={'a/b': 1}), remark('options', 'unknown key; ', '/a~1b')),
    ('a language that is no text', texts(options={'locale': None}),
     remark('options', 'wanted a language', '/locale')),
    ('entries that are no truth value', texts(options={'entries': 'all'}),
     remark('options', 'wanted true', '/entries')),
    ('a nocite that is no truth value', texts(options={'nocite': 1}),
     remark('options', 'wanted true', '/nocite')),
    ('an unknown form', texts(options={'form': 'pdf'}),
     remark('options', 'wanted `text`', '/form')),
    ('a form that is no text', texts(options={'form': ['text']}),
     remark('options', 'wanted `text`', '/form')),
    ('a form of items that there is not', texts(options={'from': 'csv'}),
     remark('options', 'wanted `csl-json`', '/from')),
    ('items in another form than the one that is named', texts(items=RIS,
                                                               options={'from': 'csl-json'}),
     remark('items', 'no JSON', line=1, column=1)),
    ('items of RIS that are no UTF-8', texts(items=RIS.encode() + b'\xff'),
     remark('items', f'no UTF-8 from byte {len(RIS)}')),
    ('limits that are no object', texts(options={'limits': 7}),
     remark('options', 'wanted an object of `steps`', '/limits')),
    ('a limit below 0', texts(options={'limits': {'steps': -1}}),
     remark('options', 'wanted an object of `steps`', '/limits')),
    ('an unknown limit', texts(options={'limits': {'hours': 1}}),
     remark('options', 'wanted an object of `steps`', '/limits')),
    ('options that are no JSON', texts(options='{\n "locale"}'),
     remark('options', 'no JSON', line=2, column=10)),
    ('locales that are no list', texts(locales={}), remark('locales', 'wanted a list', '')),
    ('a locale that is no text', texts(locales=[ENGLISH, 5]),
     remark('locales', 'wanted the text', '/1')),
    ('a locale that is a style', texts(locales=[STYLE]),
     remark('locales/0', '', line=1, column=1)),
    ('items that are no UTF-8', texts(items=b'["\xff"]'), remark('items', 'no UTF-8 from byte 2')),
    ('items that are no list', texts(items=5),
     remark('items', 'found a number, wanted a list of items', '')),
    ('an item without an id', texts(items=[{}]),
     remark('items', 'found no `id`, wanted an `id`', '/0')),
    ('citations that are empty', texts(citations=''),
     remark('citations', 'no JSON', line=1, column=0)),
    ('citations that are no list', texts(citations={}),
     remark('citations', 'wanted a list of citations', '')),
    ('a citation that is no list', texts(citations=[[], 7]),
     remark('citations', 'wanted a citation', '/1')),
    ('a citation without cites', texts(citations=[[], {}]),
     remark('citations', 'wanted `citationItems`', '/1')),
    ('a cite of an object that is none', texts(citations=[{'citationItems': [7]}]),
     remark('citations', 'wanted a cite', '/0/citationItems/0')),
    ('a cite that is no object', texts(citations=[[{'id': 'a'}, 'b']]),
     remark('citations', 'wanted a cite', '/0/1')),
    ('a cite without an id', texts(citations=[[{}]]),
     remark('citations', 'wanted an `id`', '/0/0')),
    ('a cite of no item', texts(citations=[[], [{'id': 'a'}, {'id': 'd'}]]),
     remark('citations', 'there is no item `d`', '/1/1/id')),
]

# Name, files, and what is told of the style that takes too much, if it does so whatever items have.
EXCEEDED = [
    ('macros that double', texts(LONG),
     remark('style', 'the style takes more than 200000 steps', line=17, column=1)),
    ('a macro of many names elements, each of which takes five steps',
     texts(style_of('<text macro="m0"/>', ['<names variable="author"/>' * 2001])),
     remark('style', 'the style takes more than 10000 steps', line=3, column=1)),
    ('a variable that stands many times',
     texts(style_of(f'<names variable="{" ".join(["author"] * 4000)}"/>')),
     remark('style', 'the style takes more than 10000 steps', line=3, column=1)),
    ('a long affix', texts(style_of('<text macro="m0"/>',
                                    [f'<text variable="title" prefix="{"x" * 200001}"/>'])),
     remark('style', 'the style writes more than 200000 bytes', line=3, column=1)),
    ('a long text in place of names that repeat',
     texts(STYLE.replace('<bibliography', '<bibliography subsequent-author-substitute="%s"'
                         % ('x' * 200001))),
     remark('style', 'the style writes more than 200000 bytes', line=4, column=1)),
    ('no steps at all', texts(options={'limits': {'steps': 0}}),
     remark('style', 'the style takes more than 0 steps', line=3, column=1)),
    ('fewer bytes than an affix has', texts(options={'limits': {'bytes': 0}}),
     remark('style', 'the style writes more than 0 bytes', line=3, column=1)),
    ('an item of many names',
     texts(MANY_NAMES, [{'id': 'a', 'type': 'book', 'author': [{'family': 'Doe'}] * 100}], [ROE]),
     None),
]

# Name, files, and the items with what was lost of them.
REFERENCES = [
    ('BibLaTeX', texts(items=BIB),
     {'items': [BIB_ITEM, {'id': 'b', 'type': 'book'}],
      'warnings': [remark('items', 'no comma behind a field, and no end: the rest of the entry is '
                          'left out', line=3, column=8),
                   remark('items', 'CSL has no place for it', entry='a', field='volumi')]}),
    ('RIS', texts(items=RIS),
     {'items': [RIS_ITEM],
      'warnings': [remark('items', 'CSL has no place for it', entry='a', field='XX')]}),
    ('CSL-JSON', texts(items=ITEMS), {'items': ITEMS, 'warnings': []}),
    ('CSL-JSON in an object', texts(items={'items': [{**ITEMS[1], 'titel': 'x'}]}),
     {'items': [{**ITEMS[1], 'titel': 'x'}],
      'warnings': [remark('items', 'unknown key, left out; is it `title`?', '/items/0/titel')]}),
    ('a language of entries that say none',
     texts(items='@book{a, title={A Long Reply}}', options={'from': 'bibtex', 'locale': 'de-DE'}),
     {'items': [{'id': 'a', 'type': 'book', 'title': 'A Long Reply'}], 'warnings': []}),
    ('American English, where none is named', texts(items='@book{a, title={A Long Reply}}'),
     {'items': [{'id': 'a', 'type': 'book', 'title': 'A long reply'}], 'warnings': []}),
    ('the entries of BibLaTeX, as they stand',
     texts(items='@Book{a, Title = {A {Long}  Reply}}', options={'entries': True}),
     {'entries': [{'fields': {'title': 'A {Long} Reply'}, 'key': 'a', 'type': 'book'}],
      'items': [{'id': 'a', 'type': 'book', 'title': 'A Long reply'}], 'warnings': []}),
    ('no entries of CSL-JSON', texts(items=[], options={'entries': True}),
     {'entries': [], 'items': [], 'warnings': []}),
    ('no list', texts(items=5),
     {'fault': remark('items', 'found a number, wanted a list of items, or an object that has one '
                      'under `items`', ''), 'warnings': []}),
]

# Small texts, on which each growth of memory is refused in turn: the words that are built in take
# thousands.
SMALL = [texts(citations=[[{'id': 'b', 'locator': '4', 'size': 1}]], items=ITEMS[:1],
               locales=[ENGLISH], options={'nocite': True}),
         texts(citations=[[{'id': 'd'}]], items=ITEMS[:1], locales=[ENGLISH]), texts(DEPENDENT),
         texts(citations=[ROE], items=BIB, locales=[ENGLISH])]

# Style files whose elements and whose macros nest as deep as is read, and items that do.
CALLED = [f'<text macro="m{it}" quotes="true" display="block"/>' for it in range(1, 998)] + [TITLE]
DEEP = [texts(style_of('<group display="block">' * 252 + TITLE + '</group>' * 252)),
        texts(style_of('<text macro="m0"/>', CALLED)), texts(items='[' * 126 + ']' * 126)]

# A document that is edited by tests/sessions.c.

SESSION = texts(
    HEAD.replace('"note"', '"in-text"') % ('', '')
    + '<citation><layout prefix="(" suffix=")"><group delimiter=" "><names variable="author"/>'
    '<date variable="issued"><date-part name="year"/></date></group></layout></citation>\n'
    '<bibliography><layout><text variable="title"/></layout></bibliography>\n</style>\n',
    [{'id': 'd', 'type': 'book', 'title': 'T', 'titel': 'U', 'author': [{'family': 'Doe'}],
      'issued': {'date-parts': [[1999]]}}],
    [{'citationID': 'a', 'citationItems': [{'id': 'd'}]}])
SESSION_STATUSES = [11, 11, 2, 11, *[0] * 7, 2, *[0] * 8]
"""The statuses of the calls: those before a session is open, and the answer that cites no item,
end with others than 0."""
ALL = {'bibliography': {'changed': [{'id': 'd', 'text': 'T'}], 'gone': [], 'ids': ['d']},
       'citations': {'changed': [{'key': 'a', 'text': '(Doe 1999)'}], 'gone': [], 'keys': ['a']}}
NOTHING = {'bibliography': {'changed': [], 'gone': []}, 'citations': {'changed': [], 'gone': []}}
SESSION_TEXTS = [
    'style:', ALL, NOTHING, 'citations: /0/',
    {'bibliography': {'changed': [], 'gone': ['d'], 'ids': []},
     'citations': {'changed': [], 'gone': ['a'], 'keys': []}},
    ALL,
    {'warnings': [{'file': 'items', 'message': 'unknown key, left out; is it `title`?',
                   'pointer': '/0/titel'}]}]
"""The texts that are handed out: values of JSON, or what a message begins with."""
