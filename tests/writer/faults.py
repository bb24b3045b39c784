"""Wrong command lines and wrong files: the exit status, and the lines on standard error. FILE/ in a
line is the folder of the files, and a line that ends with … may go on in other words: those of the
readers, which have tests of their own. docs/WRITER.md says what the lines are made of; the places
are counted by hand."""
import json
import os

STYLE = ('<style xmlns="http://purl.org/net/xbiblio/csl" class="in-text" version="1.0">\n'
         '<info><title>T</title><id>T</id><updated>2026-01-01T00:00:00+00:00</updated></info>\n'
         '<citation><layout><text variable="title"/></layout></citation>\n'
         '</style>\n')
REFERENCES = '[{"id": "a", "type": "book", "title": "A"}]'
CITATIONS = '[[{"id": "a"}]]'
HELP = '; see gamhilon --help'
DOCUMENT = ('{"styles": {"s": {"citation": {"elements": []}}}, "entries": [{"key": "a"}], "requests": [], '
            '"bibliography": {"style": "s"}}')
# A document whose citation and bibliography have the title of its one entry.
TITLES = ('{"styles": {"s": {"citation": {"elements": [{"kind": "text", "variable": "title"}]}, "bibliography": {"elements": '
          '[{"kind": "text", "variable": "title"}]}}}, "entries": [{"key": "a", "title": "A"}], "requests": [{"style": "s", "items": '
          '[{"entry": "a"}]}], "bibliography": {"style": "s"}%s}')
LOCALE = ('<locale xmlns="http://purl.org/net/xbiblio/csl" version="1.0" xml:lang="de-DE"><terms><term name="and">und</term></terms>'
          '</locale>')
DEPENDENT = ('<style xmlns="http://purl.org/net/xbiblio/csl" version="1.0"><info><title>D</title><id>D</id>'
             '<link href="http://www.zotero.org/styles/s" rel="independent-parent"/><updated>2026-01-01T00:00:00+00:00</updated>'
             '</info></style>')
JOURNAL = '[{"id": "a", "type": "article-journal", "title": "A", "container-title": "Journal of Lakes"}]'
ABBREVIATIONS = '{"default": {"container-title": {"journal of lakes": "J. Lakes"}, "hereinafter": {"x": "y"}}, "us": 1}'
MARK = b'\xef\xbb\xbf'
# Lists that nest one level too deep: the reader stops behind the bracket that opens it.
DEEP = '[' * 128 + ']' * 128
# The style sheet of the Python package, which pages have.
SHEET = open(os.path.join(os.path.dirname(os.path.abspath(__file__)), '../../embed/python/src/gamhilon/gamhilon.css'),
             encoding='utf-8').read()
LIST = ('<div id="refs" class="references csl-bib-body%s" style="--csl-line-spacing: %s; --csl-entry-spacing: %s">\n%s</div>\n')
BOTH = ('<section class="citations">\n<p class="citation">A</p>\n</section>\n<section class="bibliography">\n%s</section>\n'
        % (LIST % ('', 1, 1, '<div id="ref-a" class="csl-entry">A</div>\n')))


def page(title, content, language='en-US', direction='ltr'):
    """A whole page of HTML."""
    return ('<!DOCTYPE html>\n<html lang="%s" dir="%s">\n<head>\n<meta charset="utf-8">\n'
            '<meta name="viewport" content="width=device-width, initial-scale=1">\n<title>%s</title>\n<style>\n%s</style>\n'
            '</head>\n<body>\n%s</body>\n</html>\n' % (language, direction, title, SHEET, content))


# A style that sets the first field of each item apart, and items whose ids an id of HTML can't be.
LAID_OUT = STYLE.replace('</style>', '<bibliography hanging-indent="true" second-field-align="flush" line-spacing="2" entry-spacing="0">'
                         '<layout><text variable="publisher"/><text variable="title"/></layout></bibliography></style>')
ODD_ANCHORS = [('ref-a__20_b', 'A'), ('ref-a__5f__b', 'B'), ('ref-a_b', 'C'), ('ref-__22___3e_', 'D'), ('ref-__fc_ber', 'E')]
ODD_IDS = json.dumps([{'id': key, 'type': 'book', 'publisher': publisher, 'title': 'T'} for key, publisher in
                      (('a b', 'A'), ('a__b', 'B'), ('a_b', 'C'), ('">', 'D'), ('über', 'E'))])


def ring():
    return STYLE.replace('<citation>', '<macro name="m"><text macro="m"/></macro>\n<citation>')


TITLE = '<text variable="title"/>'


def style_of(layout, *more):
    """A style that writes this, with these elements behind `info`; it lists its items in the order
    of their titles."""
    return (STYLE.replace('<citation>', ''.join(more) + '<citation>').replace('<text variable="title"/>', layout)
            .replace('</citation>', '</citation><bibliography><sort><key variable="title"/></sort><layout><text variable="title"/>'
                                    '</layout></bibliography>'))


def doubling(count):
    """Macros of which each calls the next one twice."""
    macros = ['<macro name="m%d"><text macro="m%d"/><text macro="m%d"/></macro>' % (n, n + 1, n + 1) for n in range(count)]
    return style_of('<text macro="m0"/>', *macros, '<macro name="m%d"><text variable="title"/></macro>' % count)


def many_names(count):
    names = ', '.join('{"family": "F%d"}' % n for n in range(count))
    return '[{"id": "a", "type": "book", "title": "A", "author": [%s]}]' % names


def of_macros(layout, *macros):
    """A style that writes this, with these macros, m0 in line 3 the first, and each in a line of its own."""
    rows = ''.join('<macro name="m%d">%s</macro>\n' % numbered for numbered in enumerate(macros))
    return STYLE.replace(TITLE, layout).replace('<citation>', rows + '<citation>')


def twice(count, element):
    """Macros each of which calls the one before it twice; the first one writes the element."""
    return [element, *('<text macro="m%d"/><text macro="m%d"/>' % (n, n) for n in range(count))]


def titles(count, affix=''):
    """A style whose layout writes the title so many times."""
    return STYLE.replace(TITLE, count * ('<text variable="title" prefix="%s"/>' % affix))


# Styles that take more than they may, whatever the items have; where; and what they take too much of.
STEPS, BYTES = 'the style takes more than %d steps', 'the style writes more than %d bytes'
EXCESSIVE = [
    # The nth macro has 5 * 2 ** n - 4 steps: the sixteenth is the first that has more than 200,000.
    ('macros that double to 131,072 texts', of_macros('<text macro="m17"/>', *twice(17, TITLE)), '19:1', STEPS % 200000),
    ('names that are called 32,768 times', style_of('<text macro="m15"/>', *('<macro name="m%d">%s</macro>' % it for it in enumerate(
        twice(15, '<names variable="author"/>')))), '3', STEPS % 10000),
    ('a macro of 2,001 names elements, each of which takes five steps', of_macros('<text macro="m0"/>', '<names variable="author"/>' * 2001),
     '3:1', STEPS % 10000),
    ('a variable that stands 4,000 times', of_macros('<names variable="%s"/>' % ' '.join(['author'] * 4000)), '3:1', STEPS % 10000),
    ('an affix of 8 MB', of_macros('<text macro="m1"/>', TITLE, '<text variable="title" prefix="%s"/>' % ('x' * 8000000)), '4:1',
     BYTES % 200000),
    ('a long delimiter of a group', of_macros('<group delimiter="%s">%s</group>' % ('x' * 100001, TITLE * 2)), '3:1', BYTES % 200000),
    ('a long delimiter of cites', STYLE.replace('<layout>', '<layout delimiter="%s">' % ('x' * 200001)), '3:1', BYTES % 200000),
    ('a long text in place of names that repeat', style_of(TITLE).replace('<bibliography>', '\n<bibliography subsequent-author-substitute="%s">'
                                                                        % ('x' * 200001)), '4:1', BYTES % 200000),
    ('a long value, which may be full of markup', of_macros('<text value="%s"/>' % ('x' * 40100)), '3:1', STEPS % 10000),
    ('a language with 1,700 locales', STYLE.replace('<citation>', '<locale xml:lang="de"><terms/></locale>' * 1700 + '\n<citation>'), '3:1',
     STEPS % 100),
    ('a long term', STYLE.replace('<citation>', '<locale><terms><term name="and">%s</term></terms></locale>\n<citation>' % ('x' * 2001)),
     '3:1', BYTES % 2000),
]
# What is written once more in another case is paid for each time: 50,000 bytes with the title, and four times as many.
CASES_IN_CASES = of_macros('<text macro="m3" text-case="uppercase"/>', '<text variable="title" prefix="%s"/>' % ('x' * 49999),
                           *('<text macro="m%d" text-case="uppercase"/>' % n for n in range(3)))
# Each takes 1 step, 4 for the variable, and 400 for a hundred names.
NAMES_25 = style_of('<names variable="author"><name et-al-min="2" et-al-use-first="1"/></names>' * 25)


def calling(count, calls):
    """A document with this many macros, of which each calls the next one so many times, and the
    last one writes."""
    call = ', '.join(['{"kind": "text", "macro": "m%d"}'] * calls)
    macros = ['{"name": "m%d", "children": [%s]}' % (n, call % ((n + 1,) * calls)) for n in range(count - 1)]
    macros.append('{"name": "m%d", "children": [{"kind": "text", "value": "x"}]}' % (count - 1))
    return ('{"styles": {"s": {"citation": {"elements": [{"kind": "text", "macro": "m0"}]}, "macros": [%s]}}, "entries": [{"key": "a"}], '
            '"requests": [{"style": "s", "items": [{"entry": "a"}]}], "bibliography": {"style": "s"}}' % ', '.join(macros))


def shown(*files):
    """What `check --to json` prints of these files."""
    return json.dumps(files, ensure_ascii=False, separators=(',', ':'), sort_keys=True) + '\n'


def finding(severity, message, **place):
    return {'severity': severity, 'message': message, **place}


class Fault:
    """What is called, with these files beside the usual ones, and what comes of it."""

    def __init__(self, name, words, status, lines, files=None, given=None, out=''):
        self.name, self.words, self.status, self.lines = name, words, status, lines
        self.files, self.given, self.out = files or {}, given, out


def cited(name, status, lines, out='', given=None, words=('--style', 'FILE/s.csl', 'FILE/r.json', 'FILE/c.json'), **files):
    """A call of `cite` with some of its files changed: s (style), r (references), c (citations)."""
    kinds = {'s': 's.csl', 'r': 'r.json', 'c': 'c.json'}
    return Fault(name, ['cite', *words], status, lines, {kinds[it]: text for it, text in files.items()}, given, out)


def usage(name, why, *words):
    return Fault(name, list(words), 64, ['gamhilon: ' + why + HELP])


def abbreviated(name, status, lines, abbreviations, out='', references=JOURNAL, form='short'):
    """A call of `cite` in a style that writes titles of journals, with a file of abbreviations."""
    layout = '<text variable="container-title" form="%s"/>' % form
    return Fault(name, ['cite', '--style', 'FILE/s.csl', '--abbreviations', 'FILE/a.json', 'FILE/r.json', 'FILE/c.json'], status, lines,
                 {'s.csl': style_of(layout), 'r.json': references, 'a.json': abbreviations}, out=out)


# What a draft cites: a book of Knuth, two of Doe, and one of Roe.
WORKS = json.dumps([{'id': key, 'type': 'book', 'title': title, 'author': [{'family': family, 'given': 'Ann'}],
                     'issued': {'date-parts': [[year]]}}
                    for key, family, title, year in (('knuth', 'Knuth', 'A', 1984), ('doe', 'Doe', 'B', 1999),
                                                     ('doe2', 'Doe', 'C', 2001), ('roe', 'Roe', 'D', 2000))])


def drafted(name, style, cites, out, places=('0/0',), references=WORKS, lines=()):
    """A call of `cite` on a draft, in a style that is built in, as HTML; a cite is an id, or an object. Of
    the cites at these places the items aren't there: what stands for them is what pandoc 2.17 writes."""
    citation = [cite if isinstance(cite, dict) else {'id': cite} for cite in cites]
    missing = ['FILE/c.json: warning: /%s: there is no item `%s`' % (place, citation[int(place.split('/')[1])]['id']) for place in places]
    return Fault(name, ['cite', '--draft', '--to', 'html', '--style', style, 'FILE/r.json', 'FILE/c.json'], 0, [*lines, *missing],
                 {'r.json': references, 'c.json': json.dumps([citation])}, out=out + '\n')


def rendered(name, status, lines, document, out='', words=()):
    """A call of `render` on a document in a file."""
    return Fault(name, ['render', *words, 'FILE/d.json'], status, lines, {'d.json': document}, None, out)


TWO = {'s.csl': style_of('<text variable="title"/>'), 'c.json': '[[{"id": "b"}]]',
       'r.json': '[{"id": "a", "type": "book", "title": "A"}, {"id": "b", "type": "book", "title": "B"}]'}

# What `check --to json` says of a file: its text, the status, and the members beside the name of the file.
WHOLE = {'kind': 'independent style', 'title': 'T', 'id': 'T', 'findings': []}
ODD_ENTRIES = '@book{a, title = {A}}\n@book{a, title = {B}}\n'
CHECKED = [
    ('a style', STYLE, 0, WHOLE),
    ('a style with two faults', STYLE.replace('class="in-text"', 'class="text"').replace('<text variable="title"/>', '<txt variable="title"/>'),
     2, {'findings': [finding('error', 'found `text`, wanted a value of `class`', line=1, column=48),
                      finding('error', 'found `txt`, wanted an element that `layout` may contain, perhaps `text`', line=3, column=19)]}),
    ('a style with two warnings', STYLE.replace('variable="title"', 'variable="titel" colour="red"'), 0,
     {**WHOLE, 'findings': [finding('warning', 'unknown variable `titel`, perhaps `title`', line=3, column=25),
                            finding('warning', 'unknown attribute `colour` of `text`', line=3, column=42)]}),
    ('a style that exceeds its limits', of_macros('<text macro="m0"/>', '<names variable="author"/>' * 2001), 10,
     {'findings': [finding('error', STEPS % 10000, line=3, column=1)]}),
    ('a dependent style', DEPENDENT, 0, {'kind': 'dependent style', 'title': 'D', 'id': 'D', 'parent': 'http://www.zotero.org/styles/s',
                                         'findings': []}),
    ('a locale with a warning', LOCALE.replace('name="and"', 'name="andd"'), 0,
     {'kind': 'locale', 'language': 'de-DE', 'findings': [finding('warning', 'unknown term `andd`, perhaps `and`', line=1, column=93)]}),
    ('references with warnings', '[{"id": "a", "type": "book", "titel": "A"}, {"id": 7}]', 0,
     {'kind': 'references', 'count': 2, 'findings': [
         finding('warning', 'unknown key, left out; is it `title`? (item `a`)', pointer='/0/titel'),
         finding('warning', 'no type, taken for a document (item `7`)', pointer='/1')]}),
    ('references with a fault', '[{"id": "a", "author": [7]}]', 2,
     {'findings': [finding('error', 'found a number, wanted a name, which is an object or a text (item `a`)', pointer='/0/author/0')]}),
    ('references that are no JSON', '[\n}', 2, {'findings': [finding('error', "no JSON: `}` can't stand here: `}`", line=2, column=1)]}),
    ('BibTeX that breaks off', '@book{a, title = {A}}\n@book{b, title = {B\n', 0,
     {'kind': 'references', 'count': 2, 'findings': [
         finding('warning', 'a value without an end: the rest of the entry is left out', line=2, column=18)]}),
    ('citations with a warning', '[[{"id": "a", "colour": "red"}]]', 0,
     {'kind': 'citations', 'count': 1, 'findings': [finding('warning', 'unknown key, left out', pointer='/0/0/colour')]}),
    ('citations with a fault', '[[7]]', 2, {'findings': [finding('error', 'wanted a cite, which is an object', pointer='/0/0')]}),
    ('a document', DOCUMENT, 0, {'kind': 'document', 'findings': []}),
    ('a document with a fault', DOCUMENT.replace('"style": "s"', '"style": "t"'), 2,
     {'findings': [finding('error', 'found a text, wanted the name of a style that is there', pointer='/bibliography/style')]}),
    ('what is no kind', '7', 2, {'findings': [finding('error', 'found `7`, wanted the element of the document', line=1, column=1)]}),
    ('an empty file', '', 2, {'findings': [finding('error', 'found the end of the text, wanted the element of the document', line=1, column=1)]}),
    ('what is no text', b'<a\n\xff/>', 2, {'findings': [finding('error', 'found `\\xff`, wanted UTF-8', line=2, column=1)]}),
    ('a title with characters that are no letters', STYLE.replace('<title>T', '<title>T \t\u202eT'), 0,
     {**WHOLE, 'title': 'T \t\u202eT'}),
]

FAULTS = [
    # Command lines
    usage('no word', "'gamhilon' requires a subcommand but one was not provided [subcommands: cite, bibliography, explain, session, render, check, entries, styles, css, help]"),
    usage('an unknown command', "unrecognized subcommand 'print'", 'print'),
    usage('a command that is nearly one', "unrecognized subcommand 'cited'; tip: a similar subcommand exists: 'cite'", 'cited'),
    usage('no style', 'the following required arguments were not provided: --style <STYLE>', 'cite', 'FILE/r.json', 'FILE/c.json'),
    usage('no references', 'the following required arguments were not provided: <REFERENCES>', 'bibliography', '--style', 'apa'),
    usage('no citations', 'the following required arguments were not provided: <CITATIONS>', 'cite', '--style', 'apa', 'FILE/r.json'),
    usage('three files', "unexpected argument 'c' found", 'cite', '--style', 'apa', 'a', 'b', 'c'),
    usage('an unknown option', "unexpected argument '--stile' found; tip: a similar argument exists: '--style'", 'cite', '--stile', 'apa'),
    usage('an unknown option with a value', "unexpected argument '--stile' found; tip: a similar argument exists: '--style'", 'cite',
          '--stile=apa'),
    usage('no value', "a value is required for '--style <STYLE>' but none was supplied", 'bibliography', 'r.json', '--style'),
    usage('two styles', "the argument '--style <STYLE>' cannot be used multiple times", 'bibliography', '--style', 'a', '--style', 'b', 'r'),
    usage('an unknown format', "invalid value 'pdf' for '--to <FORMAT>' [possible values: text, html, markdown, latex, json]",
          'bibliography', '--style',
          'apa', '--to', 'pdf', 'r.json'),
    usage('a page of texts', '`--standalone` makes a page of HTML alone', 'bibliography', '--style', 'apa', '--to', 'text', '--standalone',
          'r.json'),
    usage('a page of Markdown', '`--standalone` makes a page of HTML alone', 'bibliography', '--style', 'apa', '--to', 'markdown',
          '--standalone', 'r.json'),
    usage('nothing to check', 'the following required arguments were not provided: <FILE>...', 'check'),
    usage('an option of check', "unexpected argument '--all' found; tip: to pass '--all' as a value, use '-- --all'", 'check', '--all'),
    usage('no document', 'the following required arguments were not provided: <DOCUMENT>', 'render'),
    usage('two documents', "unexpected argument 'b' found", 'render', 'a', 'b'),
    usage('a document of an unknown form', "invalid value 'pdf' for '--to <FORMAT>' [possible values: text, html, markdown, latex, json]",
          'render', '--to', 'pdf', 'a'),
    usage('a page of the text of a document', '`--standalone` makes a page of HTML alone', 'render', '--to', 'text', '--standalone', 'a'),
    usage('a limit that is no number', "invalid value 'x' for '--depth <N>': invalid digit found in string", 'render', '--depth', 'x', 'a'),
    usage('a limit above all', "invalid value '18446744073709551616' for '--elements <N>': number too large to fit in target type", 'render',
          '--elements', '18446744073709551616', 'a'),
    usage('no limit', "a value is required for '--depth <N>' but none was supplied", 'render', 'a', '--depth'),
    usage('two names of styles', "unexpected argument 'b' found", 'styles', 'a', 'b'),
    usage('two standard inputs', '`-` stands for several files', 'cite', '--style', 'FILE/s.csl', '-', '-'),
    usage('two standard inputs to check', '`-` stands for several files', 'check', '-', '-'),
    usage('a word of several lines', "unrecognized subcommand 'a b'", 'a\nb'),
    usage('a word that is no text', 'a word is no UTF-8', 'cite', '\udcff'),
    # Files that can't be read
    cited('no such style', 1, ['FILE/none.csl: …'], words=('--style', 'FILE/none.csl', 'FILE/r.json', 'FILE/c.json')),
    cited('no such references', 1, ['FILE/none: …'], words=('--style', 'FILE/s.csl', 'FILE/none', 'FILE/c.json')),
    cited('no such citations', 1, ['FILE/none: …'], words=('--style', 'FILE/s.csl', 'FILE/r.json', 'FILE/none')),
    # Styles
    Fault('a name that is nearly one', ['cite', '--styles', 'FILE', '--style', 'appa', 'FILE/r.json', 'FILE/c.json'], 1,
          ['FILE/appa.csl: No such file or directory (os error 2); is it `apa`?'], {'apa.csl': STYLE, 'ieee.csl': STYLE}),
    Fault('a name in capitals', ['cite', '--styles', 'FILE', '--style', 'IEEE', 'FILE/r.json', 'FILE/c.json'], 1,
          ['FILE/IEEE.csl: No such file or directory (os error 2); is it `ieee`?'], {'apa.csl': STYLE, 'ieee.csl': STYLE}),
    Fault('the initials of a name', ['cite', '--styles', 'FILE', '--style', 'mla', 'FILE/r.json', 'FILE/c.json'], 1,
          ['FILE/mla.csl: No such file or directory (os error 2); is it `modern-language-association`?'],
          {'modern-language-association.csl': STYLE, 'mhra.csl': STYLE}),
    cited('a style that is no XML', 2, ['FILE/s.csl:4:1: error: …'], s=STYLE.replace('</style>', '</stile>')),
    cited('a style without a title', 2, ['FILE/s.csl:2:1: error: …'], s=STYLE.replace('<title>T</title>', '')),
    cited('a ring of macros', 2, ['FILE/s.csl:3:…'], s=ring()),
    cited('groups in groups', 2, ['FILE/s.csl:3:…'], s=style_of('<group>' * 10000 + '</group>' * 10000)),
    cited('macros that double', 2, ['FILE/s.csl:3:…'], s=doubling(40)),
    # Limits of styles
    *(cited('limits: ' + name, 10, ['FILE/s.csl:%s:%s' % (place, ' error: ' + why if ':' in place else '…')], s=text)
      for name, text, place, why in EXCESSIVE),
    *(Fault('check: ' + name, ['check', 'FILE/s.csl'], 10, ['FILE/s.csl:%s:%s' % (place, ' error: ' + why if ':' in place else '…')],
            {'s.csl': text}) for name, text, place, why in EXCESSIVE),
    cited('text cases of a text in text cases', 10, ['FILE/s.csl:6:1: error: ' + BYTES % 200000], s=CASES_IN_CASES),
    cited('an item of a hundred names', 10, ['FILE/s.csl:3:1: error: ' + STEPS % 10000], s=NAMES_25, r=many_names(100)),
    cited('an item of ten names', 0, [], s=NAMES_25, r=many_names(10), out='F0 et al.' * 25 + '\n'),
    cited('as many steps as may be', 0, [], s=titles(6), out='AAAAAA\n',
          words=('--most-steps', '3', '--style', 'FILE/s.csl', 'FILE/r.json', 'FILE/c.json')),
    cited('a step more', 10, ['FILE/s.csl:3:1: error: ' + STEPS % 6], s=titles(7),
          words=('--most-steps=3', '--style', 'FILE/s.csl', 'FILE/r.json', 'FILE/c.json')),
    cited('no steps', 10, ['FILE/s.csl:3:1: error: ' + STEPS % 0],
          words=('--most-steps', '0', '--style', 'FILE/s.csl', 'FILE/r.json', 'FILE/c.json')),
    cited('as many bytes as may be, with that of the title', 0, [], s=titles(1, 'x' * 19), out='x' * 19 + 'A\n',
          words=('--most-bytes', '10', '--style', 'FILE/s.csl', 'FILE/r.json', 'FILE/c.json')),
    cited('a byte more', 10, ['FILE/s.csl:3:1: error: ' + BYTES % 20], s=titles(1, 'x' * 20),
          words=('--most-bytes', '10', '--style', 'FILE/s.csl', 'FILE/r.json', 'FILE/c.json')),
    cited('more steps than usual', 0, [], s=titles(11000), out='A' * 11000 + '\n',
          words=('--most-steps', '5500', '--style', 'FILE/s.csl', 'FILE/r.json', 'FILE/c.json')),
    Fault('limits of a bibliography', ['bibliography', '--most-bytes', '1', '--style', 'FILE/s.csl', 'FILE/r.json'], 10,
          ['FILE/s.csl:4:1: error: ' + BYTES % 2], {'s.csl': style_of(TITLE).replace('<bibliography>', '\n<bibliography>').replace(
              '<layout><text variable="title"/></layout></bibliography>', '<layout><text value="xyz"/></layout></bibliography>')}),
    usage('a limit that is no number', "invalid value 'x' for '--most-steps <N>': invalid digit found in string", 'cite', '--most-steps', 'x',
          '--style', 'apa', 'r.json', 'c.json'),
    Fault('a style whose parent is not there', ['cite', '--styles', 'FILE/none', '--style', 'FILE/d.csl', 'FILE/r.json', 'FILE/c.json'], 2,
          ['FILE/d.csl: error: its parent can\'t be read: FILE/none/s.csl: …'], {'d.csl': DEPENDENT}),
    Fault('a parent that depends on another', ['cite', '--styles', 'FILE', '--style', 'FILE/d.csl', 'FILE/r.json', 'FILE/c.json'], 2,
          ['FILE/s.csl: error: it depends on a style itself'], {'d.csl': DEPENDENT, 's.csl': DEPENDENT}),
    cited('a locale for a style', 2, ['FILE/s.csl:1:1: error: …'], s='<locale xmlns="http://purl.org/net/xbiblio/csl" version="1.0" xml:lang="en-US"/>'),
    cited('a style that is no UTF-8', 2, ['FILE/s.csl:1:4: error: …'], s=b'<st\xffyle/>'),
    cited('a language that is a path', 2, ['FILE/s.csl:1:…'], s=STYLE.replace(' version', ' default-locale="../x" version')),
    cited('a number above all', 2, ['FILE/s.csl:3:…'], s=STYLE.replace('<citation>', '<citation et-al-min="4294967296">')),
    cited('an odd style', 0, ['FILE/s.csl:3:42: warning: …'], out='A\n', s=STYLE.replace('<text variable="title"/>', '<text variable="title" colour="red"/>')),
    # References
    cited('references that are no JSON', 2, ["FILE/r.json:2:1: error: no JSON: `}` can't stand here: `}`"], r='[\n}'),
    cited('references that nest too deep', 2, ['FILE/r.json: error: nested deeper than 127 levels from line 1, column 129'], r=DEEP),
    cited('references that stop too deep', 2, ['FILE/r.json: error: nested deeper than 127 levels from line 1, column 128'], r='[' * 128),
    cited('references that are wrong before they nest too deep', 2, ["FILE/r.json:1:2: error: no JSON: `!` can't stand here: `[![[…"], r='[!' + DEEP),
    cited('references with brackets in a text', 2, ["FILE/r.json:2:1: error: no JSON: `}` can't stand here: `}`"],
          r='["\\"%s"\n}' % ('[' * 200)),
    cited('references with one list behind the other', 2, ['FILE/r.json:1:602: error: no JSON: there is an extra comma before `}`: `[],[],[],[],[],[],[],[],[],[],}`'],
          r='[' + '[],' * 200 + '}'),
    cited('a comma behind the last member', 2, ['FILE/r.json:1:13: error: no JSON: there is an extra comma before `}`: `[{"id": "a",}]`'],
          r='[{"id": "a",}]'),
    cited('a quote missing at the end', 2, ['FILE/r.json:1:13: error: no JSON: no quote ends this text: `[{"id": "a}]`'], r='[{"id": "a}]'),
    cited('a list that is not closed', 2, ['FILE/r.json:2:1: error: no JSON: it ends before all that is open is closed: ``'],
          r='[{"id": "a"}\n'),
    cited('no comma between items', 2,
          ['FILE/r.json:2:2: error: no JSON: a comma, a colon or a quote is missing before this: ` {"id": "b"}]`'],
          r='[{"id": "a"}\n {"id": "b"}]'),
    cited('single quotes', 2, ["FILE/r.json:1:3: error: no JSON: a text needs double quotes: `[{'id': 'a'}]`"], r="[{'id': 'a'}]"),
    cited('a key without a value', 2, ['FILE/r.json:1:8: error: no JSON: the key has no value: `[{"id":}]`'], r='[{"id":}]'),
    cited('a comment', 2, ['FILE/r.json:1:2: error: no JSON: there are no comments in JSON: `[// mine`'], r='[// mine\n]'),
    cited('a word of another language', 2, ['FILE/r.json:1:9: error: no JSON: a text needs quotes: `[{"id": None}]`'],
          r='[{"id": None}]'),
    cited('a number that is too large', 2, ['FILE/r.json:1:9: error: no JSON: the number is too large: `[{"id": 1e400}]`'],
          r='[{"id": 1e400}]'),
    cited('BibTeX in a file of JSON', 2, ['FILE/r.json: error: this is BibTeX or BibLaTeX: name the file .bib, or say `--from biblatex`'],
          r='@book{a,\n  title = {A}\n}\n'),
    cited('BibTeX that is told', 0, [], out='A\n', r='@book{a,\n  title = {A}\n}\n',
          words=('--style', 'FILE/s.csl', '--from', 'biblatex', 'FILE/r.json', 'FILE/c.json')),
    Fault('an entry that breaks off', ['cite', '--style', 'FILE/s.csl', 'FILE/r.bib', 'FILE/c.json'], 0,
          ['FILE/r.bib:2:18: warning: a value without an end: the rest of the entry is left out'],
          {'r.bib': '@book{a, title = {A}}\n@book{b, title = {B\n'}, out='A\n'),
    cited('a key twice', 0, ['FILE/r.json: warning: /0/title: repeated key, the value before was replaced (item `a`)'], out='A\n',
          r='[{"id": "a", "type": "book", "title": "B", "title": "A"}]'),
    cited('a number as it stands', 0, [], out='1.10\n', r='[{"id": "a", "type": "book", "title": 1.10}]'),
    cited('a key that turns the line', 0, ['FILE/r.json: warning: /0/x\\u{202e}y: unknown key, left out (item `a`)'], out='A\n',
          r='[{"id": "a", "type": "book", "title": "A", "x\u202ey": 1}]'),
    cited('references behind a byte order mark', 0, [], out='A\n', r=MARK + REFERENCES.encode()),
    cited('references behind two byte order marks', 2, ['FILE/r.json: error: begins with a byte order mark'],
          r=MARK + MARK + REFERENCES.encode()),
    cited('wrong references behind a byte order mark', 2, ["FILE/r.json:1:2: error: no JSON: `!` can't stand here: `[!]`"], r=MARK + b'[!]'),
    cited('bytes behind a byte order mark', 2, ['FILE/r.json:1:1: error: no UTF-8 from byte 3'], r=MARK + b'\xff'),
    cited('references that are no list', 2, ['FILE/r.json: error: : found a number, wanted a list of items, or an object that has one '
                                             'under `items`'], r='7'),
    cited('an item without an id', 2, ['FILE/r.json: error: /1: found no `id`, wanted an `id`, which is a text or a number'],
          r='[{"id": "a"}, {"title": "B"}]'),
    cited('references that are no UTF-8', 2, ['FILE/r.json:1:1: error: no UTF-8 from byte 0'], r=b'\xff'),
    cited('an unknown key', 0, ['FILE/r.json: warning: /0/titel: unknown key, left out; is it `title`? (item `a`)'], out='A\n',
          r='[{"id": "a", "type": "book", "title": "A", "titel": "B"}]'),
    cited('a value of another kind', 2, ['FILE/r.json: error: /0/author: found a number, wanted a list of names (item `a`)'],
          r='[{"id": "a", "type": "book", "author": 7}]'),
    cited('an item without a type', 0, ['FILE/r.json: warning: /0: no type, taken for a document (item `a`)'], out='A\n',
          r='[{"id": "a", "title": "A"}]'),
    cited('ids that are numbers', 0, [], out='A\n', r='[{"id": 7, "type": "book", "title": "A"}]', c='[[{"id": 7}]]'),
    cited('a month that is none', 0, ['FILE/r.json: warning: /0/issued/date-parts/0: not all of the date could be kept (item `a`)'], out='A\n',
          r='[{"id": "a", "type": "book", "title": "A", "issued": {"date-parts": [[2001, 17]]}}]'),
    cited('a name without parts', 0, ['FILE/r.json: warning: /0/author/0: a name without parts, left out (item `a`)'], out='A\n',
          r='[{"id": "a", "type": "book", "title": "A", "author": [{}]}]'),
    cited('an id twice', 0, ['FILE/r.json: warning: /1: repeated id, the item before was replaced (item `a`)'], out='B\n',
          r='[{"id": "a", "type": "book", "title": "A"}, {"id": "a", "type": "book", "title": "B"}]'),
    cited('many names', 0, [], out='F0 et al.\n', r=many_names(100000),
          s=style_of('<names variable="author"><name et-al-min="3" et-al-use-first="1" delimiter-precedes-et-al="never"/></names>')),
    # Citations
    cited('citations that are no JSON', 2, ["FILE/c.json:1:3: error: no JSON: `!` can't stand here: `[[!`"], c='[[!'),
    cited('citations that nest too deep', 2, ['FILE/c.json: error: nested deeper than 127 levels from line 129, column 1'],
          c='[\n' * 200),
    cited('citations behind a byte order mark', 0, [], out='A\n', c=MARK + CITATIONS.encode()),
    cited('no list of citations', 2, ['FILE/c.json: error: wanted a list of citations'], c='{}'),
    cited('no list of cites', 2, ['FILE/c.json: error: /1: wanted a citation, which is a list of cites or an object with '
                                  '`citationItems`'], c='[[], 7]'),
    cited('a citation without cites', 2, ['FILE/c.json: error: /1: wanted `citationItems`, which is a list of cites'],
          c='[[], {"citationID": "x"}]'),
    cited('a cite of a citation that is an object', 2, ['FILE/c.json: error: /0/citationItems/1: wanted a cite, which is an object'],
          c='[{"citationItems": [{"id": "a"}, 7]}]'),
    cited('an unknown id in a citation that is an object', 2, ['FILE/c.json: error: /0/0: there is no item `b`'],
          c='[{"citationItems": [{"id": "b"}]}]'),
    cited('odd citations', 0, ['FILE/c.json: warning: /0/citationId: unknown key, left out',
                               'FILE/c.json: warning: /0/properties/noteindex: unknown key, left out',
                               'FILE/c.json: warning: /0/citationItems/0/note: another note than the citation\'s `noteIndex`, left out',
                               'FILE/c.json: warning: /1/citationID: no text, left out',
                               'FILE/c.json: warning: /1/properties/noteIndex: no number of a note, left out',
                               'FILE/c.json: warning: /1/properties/unsorted: neither true nor false, left out',
                               'FILE/c.json: warning: /2/properties: no object, left out'], out='A\nA\nA\n',
          c='[{"citationId": "x", "citationItems": [{"id": "a", "note": 4}], "properties": {"noteIndex": 3, "noteindex": 3}}, '
            '{"citationID": [], "citationItems": [{"id": "a"}], "properties": {"noteIndex": -1, "unsorted": "yes"}}, '
            '{"citationItems": [{"id": "a"}], "properties": true}]'),
    cited('a cite that is a text', 2, ['FILE/c.json: error: /0/1: wanted a cite, which is an object'], c='[[{"id": "a"}, "a"]]'),
    cited('a cite without an id', 2, ['FILE/c.json: error: /0/0: wanted an `id`, which is a text or a number'], c='[[{"locator": "7"}]]'),
    cited('a cite of nothing', 2, ['FILE/c.json: error: /1/0: there is no item `b`'], c='[[{"id": "a"}], [{"id": "b"}]]'),
    cited('cites of nothing', 2, ['FILE/c.json: error: /0/0: there is no item `Smith`; is it `smith`?',
                                  'FILE/c.json: error: /1/1: there is no item `x`', 'FILE/c.json: error: /2/0: there is no item `smiht`; '
                                  'is it `smith`?'], r='[{"id": "smith", "type": "book", "title": "A"}]',
          c='[[{"id": "Smith"}], [{"id": "smith"}, {"id": "x"}], [{"id": "smiht"}]]'),
    cited('a key of a cite twice', 0, ['FILE/c.json: warning: /0/0/prefix: repeated key, the value before was replaced'], out='x A\n',
          c='[[{"id": "a", "prefix": "y ", "prefix": "x "}]]'),
    cited('odd cites', 0, ['FILE/c.json: warning: /0/0/infix: unknown key, left out',
                           'FILE/c.json: warning: /0/0/label: unknown kind of locator, taken for a page',
                           'FILE/c.json: warning: /0/1/hidden: neither true nor false, left out',
                           'FILE/c.json: warning: /1/0/note: no number of a note, left out',
                           'FILE/c.json: warning: /1/0/prefix: no text, left out'], out='AA\nA\n',
          c='[[{"id": "a", "infix": "x", "label": "drawer", "locator": "7"}, {"id": "a", "hidden": "no"}], '
            '[{"id": "a", "note": -1, "prefix": []}]]'),
    # What is right all the same
    cited('citations of the standard input', 0, [], out='A\n', given=CITATIONS,
          words=('--style', 'FILE/s.csl', 'FILE/r.json', '-')),
    cited('a style of the standard input', 0, [], out='A\n', given=STYLE, words=('--style', '-', 'FILE/r.json', 'FILE/c.json')),
    cited('an option with its value', 0, [], out='A\n', words=('--style=FILE/s.csl', '--to=text', 'FILE/r.json', 'FILE/c.json')),
    Fault('several files of references', ['cite', '--style', 'FILE/s.csl', '--references', 'FILE/more.json', 'FILE/r.json', 'FILE/c.json'],
          0, ['FILE/more.json: warning: `a` replaces the item of a file before'], {'more.json': '[{"id": "a", "type": "book", "title": "B"}, '
              '{"id": "b", "type": "book", "title": "C"}]', 'c.json': '[[{"id": "a"}], [{"id": "b"}]]'}, None, 'B\nC\n'),
    Fault('a style without a bibliography', ['bibliography', '--style', 'FILE/s.csl', 'FILE/r.json'], 0,
          ['gamhilon: warning: the style has no bibliography']),
    Fault('a name of a style', ['cite', '--styles', 'FILE', '--style', 's', 'FILE/r.json', 'FILE/c.json'], 0, [], out='A\n'),
    Fault('a style that depends on another', ['cite', '--styles', 'FILE', '--style', 'FILE/d.csl', 'FILE/r.json', 'FILE/c.json'], 0, [],
          {'d.csl': DEPENDENT}, out='A\n'),
    Fault('a name of such a style', ['cite', '--styles', 'FILE', '--style', 'd', 'FILE/r.json', 'FILE/c.json'], 0, [],
          {'dependent/d.csl': DEPENDENT}, out='A\n'),
    Fault('a page of HTML', ['cite', '--style', 'FILE/s.csl', '--to', 'html', '--standalone', 'FILE/r.json', 'FILE/c.json'], 0, [],
          out=page('Citations', '<p class="citation">A</p>\n')),
    Fault('a page of HTML where no format is told', ['bibliography', '--style', 'FILE/s.csl', '--standalone', 'FILE/r.json'], 0, [],
          {'s.csl': style_of('')}, out=page('References', LIST % ('', 1, 1, '<div id="ref-a" class="csl-entry">A</div>\n'))),
    Fault('a page whose style lays its list out', ['bibliography', '--style', 'FILE/s.csl', '--standalone', 'FILE/r.json'], 0, [],
          {'s.csl': LAID_OUT, 'r.json': ODD_IDS}, out=page('References', LIST % (' hanging-indent second-field-align-flush', 2, 0, ''.join(
              '<div id="%s" class="csl-entry"><div class="csl-left-margin">%s</div><div class="csl-right-inline">T</div></div>\n'
              % (anchor, title) for anchor, title in ODD_ANCHORS)))),
    Fault('citations and the bibliography', ['cite', '--with-bibliography', '--style', 'FILE/s.csl', 'FILE/r.json', 'FILE/c.json'], 0, [],
          {'s.csl': style_of(TITLE)}, out='A\n\nA\n'),
    Fault('citations and no bibliography', ['cite', '--with-bibliography', '--style', 'FILE/s.csl', 'FILE/r.json', 'FILE/c.json'], 0,
          ['gamhilon: warning: the style has no bibliography'], out='A\n'),
    Fault('a page of both', ['cite', '--with-bibliography', '--style', 'FILE/s.csl', '--standalone', 'FILE/r.json', 'FILE/c.json'], 0, [],
          {'s.csl': style_of(TITLE)}, out=page('Citations', BOTH)),
    Fault('HTML of both', ['cite', '--with-bibliography', '--style', 'FILE/s.csl', '--to', 'html', 'FILE/r.json', 'FILE/c.json'], 0, [],
          {'s.csl': style_of(TITLE)}, out=BOTH),
    Fault('cites that lead to their items', ['cite', '--link-citations', '--style', 'FILE/s.csl', '--to', 'html', 'FILE/r.json',
                                             'FILE/c.json'], 0, [], {'s.csl': style_of(TITLE)}, out='<a href="#ref-a">A</a>\n'),
    Fault('a cite that leads elsewhere', ['cite', '--link-citations', '--style', 'FILE/s.csl', '--to', 'html', 'FILE/r.json', 'FILE/c.json'],
          0, [], {'s.csl': style_of('<text variable="DOI"/>'), 'r.json': '[{"id": "a", "type": "book", "DOI": "10.1234/x"}]'},
          out='<a href="https://doi.org/10.1234/x">10.1234/x</a>\n'),
    Fault('links of cites in text', ['cite', '--link-citations', '--style', 'FILE/s.csl', 'FILE/r.json', 'FILE/c.json'], 0, [],
          {'s.csl': style_of(TITLE)}, out='A\n'),
    Fault('items in Markdown', ['bibliography', '--style', 'FILE/s.csl', '--to', 'markdown', 'FILE/r.json'], 0, [],
          {'s.csl': LAID_OUT, 'r.json': ODD_IDS}, out='\n'.join(
              '<div id="%s" class="csl-entry">\n\n%s T\n\n</div>\n' % anchored for anchored in ODD_ANCHORS)),
    Fault('items in LaTeX', ['bibliography', '--style', 'FILE/s.csl', '--to', 'latex', 'FILE/r.json'], 0, [],
          {'s.csl': LAID_OUT, 'r.json': ODD_IDS}, out=''.join(
              '\\noindent \\hangindent=1.5em \\hypertarget{%s}{}%s\\quad T\\par\n\n' % anchored for anchored in ODD_ANCHORS)),
    Fault('no items in LaTeX', ['bibliography', '--style', 'FILE/s.csl', '--to', 'latex', 'FILE/r.json', 'FILE/c.json'], 0, [],
          {'s.csl': style_of(TITLE), 'c.json': '[]'}),
    Fault('citations and the bibliography in Markdown', ['cite', '--with-bibliography', '--style', 'FILE/s.csl', '--to', 'markdown',
                                                         'FILE/r.json', 'FILE/c.json'], 0, [], {'s.csl': style_of(TITLE)},
          out='A\n\n<div id="ref-a" class="csl-entry">\n\nA\n\n</div>\n'),
    Fault('citations and the bibliography in LaTeX', ['cite', '--with-bibliography', '--style', 'FILE/s.csl', '--to', 'latex',
                                                      'FILE/r.json', 'FILE/c.json'], 0, [], {'s.csl': style_of(TITLE)},
          out='A\n\n\\noindent \\hypertarget{ref-a}{}A\\par\n\n'),
    Fault('cites that lead to their items in Markdown', ['cite', '--link-citations', '--style', 'FILE/s.csl', '--to', 'markdown',
                                                         'FILE/r.json', 'FILE/c.json'], 0, [], {'s.csl': style_of(TITLE)},
          out='[A](#ref-a)\n'),
    Fault('cites that lead to their items in LaTeX', ['cite', '--link-citations', '--style', 'FILE/s.csl', '--to', 'latex', 'FILE/r.json',
                                                      'FILE/c.json'], 0, [], {'s.csl': style_of(TITLE)}, out='\\hyperlink{ref-a}{A}\n'),
    Fault('a cite that leads elsewhere in Markdown', ['cite', '--link-citations', '--style', 'FILE/s.csl', '--to', 'markdown',
                                                      'FILE/r.json', 'FILE/c.json'], 0, [],
          {'s.csl': style_of('<text variable="DOI"/>'), 'r.json': '[{"id": "a", "type": "book", "DOI": "10.1234/x"}]'},
          out='[10.1234/x](<https://doi.org/10.1234/x>)\n'),
    Fault('a page from right to left', ['cite', '--style', 'FILE/s.csl', '--locale', 'ar', '--locales', 'FILE', '--standalone', 'FILE/r.json',
                                        'FILE/c.json'], 0, [], {'locales-ar.xml': LOCALE.replace('de-DE', 'ar')},
          out=page('Citations', '<p class="citation">A</p>\n', 'ar', 'rtl')),
    Fault('a page in what is no language', ['cite', '--style', 'FILE/s.csl', '--locale', '"', '--standalone', 'FILE/r.json', 'FILE/c.json'],
          0, ['…'], out=page('Citations', '<p class="citation">A</p>\n', 'und')),
    Fault('a language', ['cite', '--style', 'FILE/s.csl', '--locale', 'de-DE', '--locales', 'FILE', 'FILE/r.json', 'FILE/c.json'], 0, [],
          {'s.csl': style_of('<text term="and"/>'), 'locales-de-DE.xml': LOCALE}, out='und\n'),
    *[Fault('a language written as ' + tag, ['cite', '--style', 'FILE/s.csl', '--locale', tag, '--locales', 'FILE', 'FILE/r.json',
                                             'FILE/c.json'], 0, [],
            {'s.csl': style_of('<text term="and"/>'), 'locales-de-DE.xml': LOCALE}, out='und\n') for tag in ('de_DE', 'DE-de', 'de')],
    Fault('a language of a style, with an underscore', ['cite', '--style', 'FILE/s.csl', '--locales', 'FILE', 'FILE/r.json', 'FILE/c.json'],
          0, [], {'s.csl': style_of('<text term="and"/>').replace(' version', ' default-locale="DE_de" version'),
                  'locales-de-DE.xml': LOCALE}, out='und\n'),
    Fault('a page of a language, with an underscore', ['cite', '--style', 'FILE/s.csl', '--locale', 'de_de', '--locales', 'FILE',
                                                       '--standalone', 'FILE/r.json', 'FILE/c.json'], 0, [],
          {'locales-de-DE.xml': LOCALE}, out=page('Citations', '<p class="citation">A</p>\n', 'de-DE')),
    abbreviated('abbreviations', 0, [], ABBREVIATIONS, 'J. Lakes\n'),
    abbreviated('abbreviations behind a byte order mark', 0, [], MARK + ABBREVIATIONS.encode(), 'J. Lakes\n'),
    abbreviated('abbreviations of the long form', 0, [], ABBREVIATIONS, 'Journal of Lakes\n', form='long'),
    abbreviated('a short form of an item beside abbreviations', 0, [], ABBREVIATIONS, 'Lakes\n',
                JOURNAL.replace('"Journal', '"Journal of Lakes", "container-title-short": "Lakes", "note": "Journal')),
    abbreviated('abbreviations of other titles', 0, [], '{"default": {"container-title": {"Lakes": "L."}}}', 'Journal of Lakes\n'),
    abbreviated('abbreviations that are a list', 2, ['FILE/a.json: error: wanted an object of abbreviations with a key `default`'], '[]'),
    abbreviated('abbreviations of no variables', 2, ['FILE/a.json: error: /default: wanted an object of variables'], '{"default": []}'),
    abbreviated('abbreviations of nothing', 2, ['FILE/a.json: error: /default/container-title: wanted an object of short forms'],
                '{"default": {"container-title": "J."}}'),
    abbreviated('an abbreviation that is a number', 2,
                ['FILE/a.json: error: /default/container-title/Lakes: wanted a short form, which is a text'],
                '{"default": {"container-title": {"Lakes": 1}}}'),
    abbreviated('abbreviations that are no JSON', 2, ['FILE/a.json:2:1: error: no JSON: …'], '{"default":\nx}'),
    abbreviated('abbreviations that are no UTF-8', 2, ['FILE/a.json:2:1: error: no UTF-8 from byte 2'], b'{\n\xff}'),
    Fault('abbreviations that are not there', ['cite', '--style', 'FILE/s.csl', '--abbreviations', 'FILE/a.json', 'FILE/r.json',
                                               'FILE/c.json'], 1, ['FILE/a.json: …']),
    Fault('a language without a file', ['cite', '--style', 'FILE/s.csl', '--locale', 'de-DE', '--locales', 'FILE', 'FILE/r.json', 'FILE/c.json'],
          0, ['gamhilon: warning: no locale file of de-DE is there'], {'s.csl': style_of('<text term="and"/>')}, out='and\n'),
    Fault('a locale file that is a folder', ['cite', '--style', 'FILE/s.csl', '--locale', 'de-DE', '--locales', 'FILE', 'FILE/r.json',
                                             'FILE/c.json'], 0,
          ["FILE/locales-de-DE.xml: warning: can't be read, left out: …", 'gamhilon: warning: no locale file of de-DE is there'],
          {'s.csl': style_of('<text term="and"/>'), 'locales-de-DE.xml/x': ''}, out='and\n'),
    Fault('a locale file that is wrong', ['cite', '--style', 'FILE/s.csl', '--locale', 'de-DE', '--locales', 'FILE', 'FILE/r.json',
                                          'FILE/c.json'], 2, ['FILE/locales-de-DE.xml:1:1: error: …'], {'locales-de-DE.xml': STYLE}),
    Fault('what is cited', ['bibliography', '--style', 'FILE/s.csl', 'FILE/r.json', 'FILE/c.json'], 0, [], TWO, out='B\n'),
    Fault('what is not cited, too', ['bibliography', '--nocite', '--style', 'FILE/s.csl', 'FILE/r.json', 'FILE/c.json'], 0, [], TWO,
          out='A\nB\n'),
    Fault('citations beside what is not cited', ['cite', '--nocite', '--style', 'FILE/s.csl', 'FILE/r.json', 'FILE/c.json'], 0, [], TWO,
          out='B\n'),
    Fault('all references', ['bibliography', '--style', 'FILE/s.csl', 'FILE/r.json'], 0, [], TWO, out='A\nB\n'),
    # Drafts
    drafted('a draft that cites what is not there', 'author-date', ['nobody'], '(<b>nobody?</b>)'),
    drafted('a draft with two cites of what is not there', 'numeric', ['nobody', 'nemo'], '[<b>nobody?</b>, <b>nemo?</b>]', ('0/0', '0/1')),
    drafted('what is missing follows cites that are sorted', 'author-date', ['nobody', 'knuth'], '(Knuth 1984; <b>nobody?</b>)'),
    drafted('what is missing between cites that are sorted', 'author-date', ['doe', 'nobody', 'doe2'], '(Doe 1999, 2001; <b>nobody?</b>)',
            ('0/1',)),
    drafted('what is missing beside a range', 'numeric', ['knuth', 'doe', 'nobody', 'doe2', 'roe'], '[1–4, <b>nobody?</b>]', ('0/2',)),
    drafted('what is missing in a style of labels', 'labels', ['doe', 'nobody', 'knuth'], '[Doe99; Knut84; <b>nobody?</b>]', ('0/1',)),
    drafted('what is missing between words', 'author-date', ['knuth', {'id': 'nobody', 'prefix': 'see ', 'suffix': ' and more', 'locator': '3'}],
            '(Knuth 1984; see <b>nobody?</b> and more)', ('0/1',)),
    drafted('what is missing between cites in their order', 'notes', ['knuth', 'nobody', 'doe'],
            'Ann Knuth, <i>A</i> (1984); <b>nobody?</b>; Ann Doe, <i>B</i> (1999).', ('0/1',)),
    drafted('what is missing behind cites in their order', 'notes', ['knuth', 'nobody'], 'Ann Knuth, <i>A</i> (1984); <b>nobody?</b>', ('0/1',)),
    drafted('what is hidden and missing', 'author-date', ['knuth', {'id': 'nobody', 'hidden': True}], '(Knuth 1984)', ('0/1',)),
    drafted('the author alone of what is missing', 'author-date', [{'id': 'nobody', 'author-only': True}], '<b>nobody?</b>'),
    drafted('an item with a fault in a draft', 'author-date', ['doe', 'knuth'], '(Doe 1999; <b>knuth?</b>)', ('0/1',),
            WORKS.replace('"A", "author": [', '"A", "author": [[], '),
            ['FILE/r.json: warning: /0/author/0: found a list, wanted a name, …']),
    Fault('a draft with an id that is nearly there', ['cite', '--draft', '--style', 'author-date', 'FILE/r.json', 'FILE/c.json'], 0,
          ['FILE/c.json: warning: /0/0: there is no item `knuht`; is it `knuth`?'],
          {'r.json': WORKS, 'c.json': '[[{"id": "knuht"}]]'}, out='(knuht?)\n'),
    Fault('the bibliography of a draft', ['bibliography', '--draft', '--style', 'FILE/s.csl', 'FILE/r.json', 'FILE/c.json'], 0,
          ['FILE/c.json: warning: /0/1: there is no item `nobody`'], {**TWO, 'c.json': '[[{"id": "b"}, {"id": "nobody"}]]'}, out='B\n'),
    # Styles that are built in
    Fault('no style of this name is built in', ['styles', 'apa'], 64,
          ['gamhilon: there is no style `apa`: the styles are author-date, labels, notes, numeric']),
    Fault('a style of the folder before one that is built in', ['cite', '--styles', 'FILE', '--style', 'notes', 'FILE/r.json', 'FILE/c.json'],
          0, [], {'notes.csl': STYLE}, out='A\n'),
    Fault('a style that depends on another before one that is built in', ['cite', '--styles', 'FILE', '--style', 'notes', 'FILE/r.json',
                                                                          'FILE/c.json'], 0, [], {'dependent/notes.csl': DEPENDENT}, out='A\n'),
    Fault('a style that is built in where the folder has none', ['cite', '--styles', 'FILE', '--style', 'numeric', 'FILE/r.json',
                                                                 'FILE/c.json'], 0, [], out='[1]\n'),
    Fault('a style that is built in where no folder is', ['cite', '--styles', 'FILE/none', '--style', 'numeric', 'FILE/r.json', 'FILE/c.json'],
          0, [], out='[1]\n'),
    Fault('a file of the name of a style that is built in', ['cite', '--style', 'FILE/numeric.csl', 'FILE/r.json', 'FILE/c.json'], 0, [],
          {'numeric.csl': STYLE}, out='A\n'),
    # The command render
    rendered('a document', 0, [], TITLES % '', out='A\n\na\tA\n'),
    Fault('a document of the standard input', ['render', '--to=text', '-'], 0, [], given=TITLES % '', out='A\n\na\tA\n'),
    rendered('a document without requests', 0, [], DOCUMENT),
    Fault('no such document', ['render', 'FILE/none'], 1, ['FILE/none: …']),
    rendered('a document that is no JSON', 2, ['FILE/d.json: error: : found no JSON from line 1, column …'], '{]'),
    rendered('a document that nests too deep', 2, ['FILE/d.json: error: nested deeper than 127 levels from line 1, column 139'],
             '{"styles": %s}' % DEEP[1:-1]),
    rendered('a document behind a byte order mark', 2, ['FILE/d.json: error: begins with a byte order mark'], MARK + DOCUMENT.encode()),
    rendered('a document that is no UTF-8', 2, ['FILE/d.json: error: : found no UTF-8 from byte 0, wanted UTF-8'], b'\xff'),
    rendered('references for a document', 2, ['FILE/d.json: error: : found a list, wanted an object'], REFERENCES),
    rendered('a document without its style', 2,
             ['FILE/d.json: error: /bibliography/style: found a text, wanted the name of a style that is there'],
             DOCUMENT.replace('"style": "s"', '"style": "t"')),
    rendered('a wrong style of a document', 2, ['FILE/d.json: error: /styles/s/citation/elements: found a number, wanted a list'],
             DOCUMENT.replace('[]}}}', '7}}}')),
    rendered('a ring of macros in a document', 3,
             ['FILE/d.json: error: the macros of the style of request 0 call each other in a ring, macro 0 the first'],
             calling(1, 1).replace('"value": "x"', '"macro": "m0"')),
    rendered('a ring of macros for a bibliography', 3,
             ['FILE/d.json: error: the macros of the style of the bibliography call each other in a ring, macro 0 the first'],
             DOCUMENT.replace('[]}}}', '[]}, "macros": [{"name": "m", "children": [{"kind": "text", "macro": "m"}]}]}}')),
    rendered('numbers that do not fit', 4, ["FILE/d.json: error: the citation numbers don't fit 64 bits"],
             TITLES % ', "offset": 18446744073709551615'),
    # A call and what it calls nest one deeper each.
    rendered('macros that call each other as deep as may be', 0, [], calling(99, 1), out='x\n'),
    rendered('macros that call each other too deep', 7,
             ['FILE/d.json: error: the elements of a layout nest deeper than 100 (--depth raises the limit)'], calling(100, 1)),
    rendered('a greater depth', 0, [], calling(100, 1), out='x\n', words=['--depth', '101']),
    rendered('a smaller depth', 7, ['FILE/d.json: error: the elements of a layout nest deeper than 2 (--depth raises the limit)'],
             calling(2, 1), words=['--depth=2']),
    # 1 call, and 2, 4, 8 .. 65,536 of the macros below it: 131,071 calls, and as many texts as the last macros have calls.
    rendered('too many elements', 8, ['FILE/d.json: error: a layout has more elements than 100000 (--elements raises the limit)'],
             calling(17, 2)),
    rendered('as many elements as may be', 0, [], calling(3, 2), out='xxxx\n', words=['--elements', '11']),
    rendered('an element too many', 8, ['FILE/d.json: error: a layout has more elements than 10 (--elements raises the limit)'],
             calling(3, 2), words=['--elements', '10']),
    # Documents as HTML, Markdown and LaTeX
    rendered('a document as HTML', 0, [], TITLES % '', out=BOTH, words=['--to', 'html']),
    rendered('a document as HTML with links', 0, [], TITLES % '', words=['--to', 'html', '--link-citations'],
             out=BOTH.replace('"citation">A<', '"citation"><a href="#ref-a">A</a><')),
    rendered('a document as a page', 0, [], TITLES % '', out=page('Citations', BOTH), words=['--standalone']),
    rendered('a document as a page in its language', 0, [], (TITLES % '').replace('{"style": "s"}}', '{"style": "s", "locale": "ar"}}'),
             out=page('Citations', BOTH, 'ar', 'rtl'), words=['--standalone']),
    rendered('a document as Markdown with links', 0, [], TITLES % '', words=['--to', 'markdown', '--link-citations'],
             out='[A](#ref-a)\n\n<div id="ref-a" class="csl-entry">\n\nA\n\n</div>\n'),
    rendered('a document as LaTeX with links', 0, [], TITLES % '', words=['--to', 'latex', '--link-citations'],
             out='\\hyperlink{ref-a}{A}\n\n\\noindent \\hypertarget{ref-a}{}A\\par\n\n'),
    rendered('a document without a bibliography as HTML', 0, [], calling(1, 1), words=['--to', 'html', '--link-citations'],
             out='<section class="citations">\n<p class="citation">x</p>\n</section>\n'),
    rendered('a document as HTML that has no answer', 7,
             ['FILE/d.json: error: the elements of a layout nest deeper than 100 (--depth raises the limit)'], calling(100, 1),
             words=['--to', 'html']),
    # The command check
    Fault('check', ['check', 'FILE/s.csl'], 0, [], out='FILE/s.csl: independent style T (T)\n'),
    Fault('check of two', ['check', 'FILE/r.json', 'FILE/s.csl'], 0, [], TWO, out='FILE/r.json: 2 references\n'
          'FILE/s.csl: independent style T (T)\n'),
    Fault('check of a locale and a dependent style', ['check', 'FILE/d.csl', 'FILE/l.xml'], 0, [], {'d.csl': DEPENDENT, 'l.xml': LOCALE},
          out='FILE/d.csl: dependent style of http://www.zotero.org/styles/s\nFILE/l.xml: locale de-DE\n'),
    Fault('check of citations and of wrapped references', ['check', 'FILE/c.json', 'FILE/r.json'], 0, [],
          {'r.json': '{"items": %s}' % REFERENCES}, out='FILE/c.json: 1 citation\nFILE/r.json: 1 reference\n'),
    Fault('check of BibTeX', ['check', 'FILE/l.bib'], 0, [], {'l.bib': '@book{a}'}, out='FILE/l.bib: 1 reference\n'),
    Fault('two entries of one key', ['cite', '--style', 'FILE/s.csl', 'FILE/l.bib', 'FILE/c.json'], 0,
          ['FILE/l.bib: warning: a: id: a second item of this id, left out'],
          {'l.bib': '@book{a, title = {A}}\n@book{a, title = {B}}\n'}, out='A\n'),
    Fault('no entry at all', ['entries', 'FILE/l.bib'], 0, ['FILE/l.bib: warning: there is no entry in it'],
          {'l.bib': '%0 Journal Article\n%T A title\n'}, out='[\n]\n'),
    Fault('references in place of citations', ['cite', '--style', 'FILE/s.csl', 'FILE/l.bib', 'FILE/l.ris'], 2,
          ['FILE/l.ris: error: these are references, not citations: name them by `--references`'],
          {'l.bib': '@book{a, title = {A}}', 'l.ris': 'TY  - BOOK\nID  - b\nTI  - B\nER  - \n'}),
    Fault('entries of two files', ['entries', 'FILE/l.bib', 'FILE/l.ris'], 0, ['FILE/l.bib: warning: a: usera: CSL has no place for it'],
          {'l.bib': '@book{a, title = {A}, usera = {U}}', 'l.ris': 'TY  - BOOK\nID  - b\nTI  - B\nER  - \n'},
          out='[\n  {\n    "id": "a",\n    "type": "book",\n    "title": "A"\n  },\n'
          '  {\n    "id": "b",\n    "type": "book",\n    "title": "B"\n  }\n]\n'),
    Fault('check of the standard input', ['check', '-'], 0, [], given=' \n' + REFERENCES, out='-: 1 reference\n'),
    Fault('check of a document', ['check', 'FILE/d.json'], 0, [], {'d.json': DOCUMENT}, out='FILE/d.json: document\n'),
    Fault('check of a document that is wrong', ['check', 'FILE/d.json'], 2,
          ['FILE/d.json: error: /bibliography/style: found a text, wanted the name of a style that is there'],
          {'d.json': DOCUMENT.replace('"style": "s"', '"style": "t"')}),
    Fault('check of an object that is no JSON', ['check', 'FILE/d.json'], 2, ['FILE/d.json: error: : found no JSON from line 1, column …'],
          {'d.json': '{]'}),
    Fault('check of what nests too deep or begins with a byte order mark', ['check', 'FILE/r.json', 'FILE/d.json', 'FILE/m.json'], 2,
          ['FILE/r.json: error: nested deeper than 127 levels from line 1, column 129',
           'FILE/d.json: error: nested deeper than 127 levels from line 1, column 139', 'FILE/m.json: error: begins with a byte order mark'],
          {'r.json': DEEP, 'd.json': '{"styles": %s}' % DEEP[1:-1], 'm.json': MARK + DOCUMENT.encode()}),
    Fault('check of references that are odd and wrong', ['check', 'FILE/r.json', 'FILE/w.json'], 2,
          ['FILE/r.json: warning: /0: no type, taken for a document (item `a`)', 'FILE/w.json: error: /0: found a number, wanted an item, which is an object'],
          {'r.json': '[{"id": "a"}]', 'w.json': '[7]'}, out='FILE/r.json: 1 reference\n'),
    Fault('check of what is no kind', ['check', 'FILE/n'], 2, ['FILE/n:1:1: error: …', '    7', '    ^'], {'n': '7'}),
    Fault('check of an empty file', ['check', 'FILE/n'], 2, ['FILE/n:1:1: error: …', '    ', '    ^'], {'n': ''}),
    Fault('check of what is no text', ['check', 'FILE/n'], 2, ['FILE/n:2:1: error: …'], {'n': b'<a\n\xff/>'}),
    Fault('check of nothing', ['check', 'FILE/none.csl', 'FILE/n'], 1, ['FILE/none.csl: …', 'FILE/n:1:1: error: …', '    7', '    ^'], {'n': '7'}),
    # The command check, as JSON
    Fault('check as text', ['check', '--to', 'text', 'FILE/s.csl'], 0, [], out='FILE/s.csl: independent style T (T)\n'),
    *(Fault('check as JSON of ' + name, ['check', '--to', 'json', 'FILE/f'], status, [], {'f': text}, out=shown({'file': 'FILE/f', **wanted}))
      for name, text, status, wanted in CHECKED),
    Fault('check as JSON of several files, one of which is not there', ['check', '--to', 'json', 'FILE/none', 'FILE/s.csl', 'FILE/n'], 1, [],
          {'n': '[7]'}, out=shown(
              {'file': 'FILE/none', 'findings': [finding('error', 'No such file or directory (os error 2)')]}, {'file': 'FILE/s.csl', **WHOLE},
              {'file': 'FILE/n', 'findings': [finding('error', 'found a number, wanted an item, which is an object', pointer='/0')]})),
    Fault('check as JSON of BibTeX', ['check', '--to=json', 'FILE/l.bib'], 0, [], {'l.bib': ODD_ENTRIES}, out=shown(
        {'file': 'FILE/l.bib', 'kind': 'references', 'count': 1, 'findings': [
            finding('warning', 'a second item of this id, left out', entry='a', field='id')]})),
    Fault('check as JSON of the standard input', ['check', '--to', 'json', '-'], 0, [], given=CITATIONS, out=shown(
        {'file': '-', 'kind': 'citations', 'count': 1, 'findings': []})),
    usage('a check as HTML', "invalid value 'html' for '--to <FORMAT>' [possible values: text, json]", 'check', '--to', 'html', 'FILE/s.csl'),
    # Warnings that count
    Fault('no warning to fail on', ['check', '--fail-on-warnings', 'FILE/s.csl'], 0, [], out='FILE/s.csl: independent style T (T)\n'),
    Fault('a warning to fail on', ['check', '--fail-on-warnings', 'FILE/r.json', 'FILE/s.csl'], 2,
          ['FILE/r.json: warning: /0: no type, taken for a document (item `a`)'], {'r.json': '[{"id": "a"}]'},
          out='FILE/r.json: 1 reference\nFILE/s.csl: independent style T (T)\n'),
    Fault('a warning to fail on, as JSON', ['check', '--fail-on-warnings', '--to', 'json', 'FILE/r.json'], 2, [], {'r.json': '[{"id": "a"}]'},
          out=shown({'file': 'FILE/r.json', 'kind': 'references', 'count': 1, 'findings': [
              finding('warning', 'no type, taken for a document (item `a`)', pointer='/0')]})),
    Fault('a warning to fail on, and no file', ['check', '--fail-on-warnings', 'FILE/r.json', 'FILE/none'], 1,
          ['FILE/r.json: warning: …', 'FILE/none: …'], {'r.json': '[{"id": "a"}]'}, out='FILE/r.json: 1 reference\n'),
    Fault('a warning of a style that exceeds its limits', ['check', '--fail-on-warnings', 'FILE/s.csl'], 10,
          ['FILE/s.csl:3:24: warning: unknown attribute `colour` of `text`', 'FILE/s.csl:3:1: error: …'],
          {'s.csl': of_macros('<text macro="m0"/>', '<text colour="red" variable="title"/>' + '<names variable="author"/>' * 2001)}),
]
