"""What pandoc writes for the lines of the tables, by a style that is made for each kind of line."""
import json
import re
import subprocess
import tempfile
from xml.sax.saxutils import quoteattr

SECONDS = 120
STYLE = '''<style xmlns="http://purl.org/net/xbiblio/csl" version="1.0" class="in-text"
 default-locale="{locale}" {options}><info><title>T</title><id>i</id></info>
<citation><layout>{layout}</layout></citation>
<bibliography><layout>{layout}</layout></bibliography></style>'''
ENTRY = re.compile(r'<div id="ref-x(\d+)" class="csl-entry" role="doc-biblioentry">\n(.*?)\n'
                   r'</div>(?=\n<div id="ref-x|\n</div>)', re.DOTALL)
LOCALES = {'en': 'en-US', 'de': 'de-DE', 'tr': 'tr-TR', 'el': 'el-GR'}
FAMILY = 'Family'
VARIABLES = ('title', 'note', 'publisher', 'genre', 'abstract')
PLURALS = {'page': 'singular', 'pages': 'plural', 'volume': 'singular', 'volumes': 'plural'}
ATTRIBUTES = {
    'italic': 'font-style="italic"', 'bold': 'font-weight="bold"', 'quotes': 'quotes="true"',
    'underline': 'text-decoration="underline"', 'strip': 'strip-periods="true"',
}
# Tags and references of pandoc, and what tests/texts has in their place.
SPELLINGS = (
    ('<em>', '<i>'), ('</em>', '</i>'), ('<strong>', '<b>'), ('</strong>', '</b>'),
    ('<u>', '<span style="text-decoration:underline;">'), ('</u>', '</span>'),
    ('<span class="smallcaps">', '<span style="font-variant:small-caps;">'),
    ('&amp;', '&#38;'), ('&lt;', '&#60;'), ('&gt;', '&#62;'),
)
BARE = ('<span>', '<span class="nocase">')


class Asked:
    """What a line asks pandoc for: a style, by its locale, its options and its layout; and an
    item, by its variables."""

    def __init__(self, locale, layout, item, options=''):
        self.style = STYLE.format(locale=LOCALES.get(locale, locale), layout=layout,
                                  options=options)
        self.item = item


def date(locale, element, _suffix, text):
    form, _, parts = element.partition(':')
    if form in ('text', 'numeric'):
        parts = {'all': 'year-month-day'}.get(parts, parts)
        layout = '<date variable="issued" form="%s" date-parts="%s"/>' % (form, parts)
    else:
        parts = ''.join(map(date_part, element.split('|')))
        layout = '<date variable="issued">%s</date>' % parts
    return Asked(locale, layout, {'issued': date_value(text)})


def date_part(words):
    name, form, prefix, suffix = (words.split(':') + [''] * 3)[:4]
    form = 'form="%s"' % form if form else ''
    affixes = quoteattr(prefix), quoteattr(suffix)
    return '<date-part name="%s" %s prefix=%s suffix=%s/>' % (name, form, *affixes)


def date_value(text):
    if not re.fullmatch('[-0-9/.]+', text):
        return {'literal': text}
    if text.endswith('/..'):
        return {'date-parts': [[int(text[:-3])], [0]]}
    return text


def number(locale, form, gender, text):
    variable = 'edition' if gender == 'feminine' else 'volume'
    layout = '<number variable="%s" form="%s"/>' % (variable, form)
    return Asked(locale, layout, {variable: text})


def pages(form, _delimiter, text):
    options = '' if form == 'none' else 'page-range-format="%s"' % form
    return Asked('en-US', '<text variable="page"/>', {'page': text}, options)


def page(locale, text):
    return Asked(locale, '<text variable="page"/>', {'page': text})


def plural(variable, text):
    return Asked('en-US', '<label variable="%s"/>' % variable, {variable: text})


def case(name, language, text):
    return Asked(language, '<text variable="title" text-case="%s"/>' % name, {'title': text})


def title(locale, text):
    return Asked(locale, '<text variable="title"/>', {'title': text})


def initials(mark, how, given):
    options = ''
    if 'full' in how:
        options += ' initialize="false"'
    hyphen = 'initialize-with-hyphen="false"' if 'apart' in how else ''
    layout = '<names variable="author"><name initialize-with=%s %s/></names>' % (
        quoteattr(mark), options)
    return Asked('en-US', layout, {'author': [{'given': given, 'family': FAMILY}]}, hyphen)


def term(locale, name, form, count):
    many = 'true' if count == 'many' else 'false'
    return Asked(locale, '<text term="%s" form="%s" plural="%s"/>' % (name, form, many), {})


def written(locale, *steps):
    """The steps as a style: a group for each element, but a text for what has one text alone."""
    item, layers = {}, [('', [])]
    for step in steps:
        if step[0] == '{':
            layers.append((attributes_of(step[1:]), []))
        elif step == '}':
            close(layers)
        else:
            variable = VARIABLES[len(item)]
            item[variable] = step[1:]
            layers[-1][1].append('<text variable="%s"/>' % variable)
    while len(layers) > 1:
        close(layers)
    return Asked(locale, ''.join(layers[0][1]), item)


def close(layers):
    attributes, inside = layers.pop()
    is_text = len(inside) == 1 and inside[0].startswith('<text variable')
    if is_text:
        element = inside[0].replace('/>', ' %s/>' % attributes)
    else:
        element = '<group %s>%s</group>' % (attributes, ''.join(inside))
    layers[-1][1].append(element)


def attributes_of(words):
    attributes = []
    for word in filter(None, words.split('|')):
        name, is_value, value = word.partition('=')
        name = 'text-case' if name == 'case' else name
        attributes.append('%s=%s' % (name, quoteattr(value)) if is_value else ATTRIBUTES[name])
    return ' '.join(attributes)


ASKED = {
    'date': date, 'number': number, 'pages': pages, 'page': page, 'plural': plural, 'case': case,
    'rich': title, 'plain': title, 'initials': initials, 'term': term, 'written': written,
}


def spelled(function, text):
    """What pandoc wrote, in the spelling of the tables."""
    for theirs, ours in SPELLINGS:
        text = text.replace(theirs, ours)
    text = without_bare_spans(text)
    if function == 'plural':
        return PLURALS.get(text, text)
    if function == 'plain':
        return re.sub('<.*?>', '', text)
    return text.removesuffix(' ' + FAMILY)


def without_bare_spans(text):
    """Without the spans that pandoc has around quotes, and for `nocase`."""
    out, are_bare = [], []
    for part in re.split('(</?span.*?>)', text):
        if part.startswith('<span'):
            are_bare.append(part in BARE)
            part = '' if are_bare[-1] else part
        elif part == '</span>' and are_bare.pop():
            part = ''
        out.append(part)
    return ''.join(out)


def entries(pandoc, style, items):
    """What pandoc writes for these items in its bibliography."""
    given = [{'id': 'x%d' % n, 'type': 'book', **it} for n, it in enumerate(items)]
    with tempfile.NamedTemporaryFile('w', suffix='.csl', encoding='utf-8') as file:
        file.write(style)
        file.flush()
        words = [pandoc, '-f', 'csljson', '-t', 'html', '--wrap=none', '--citeproc', '--csl']
        done = subprocess.run([*words, file.name], input=json.dumps(given).encode(), check=True,
                              stdout=subprocess.PIPE, stderr=subprocess.PIPE, timeout=SECONDS)
    found = dict(ENTRY.findall(done.stdout.decode()))
    return [found.get(str(n), '') for n in range(len(items))]


def said(pandoc, lines):
    """What pandoc gives for lines of tables, each with its expected value behind it."""
    by_style = {}
    for place, line in enumerate(lines):
        function, *arguments, _ = line.split('\t')
        asked = ASKED[function](*arguments)
        by_style.setdefault(asked.style, []).append((place, function, asked.item))
    answers = [None] * len(lines)
    for style, cases in by_style.items():
        texts = entries(pandoc, style, [item for _, _, item in cases])
        for (place, function, _), text in zip(cases, texts):
            answers[place] = spelled(function, text)
    return answers
