"""Markdown and LaTeX: held to what the Python package writes of the same answer's JSON, and, where
pandoc is installed, to what it reads of them beside the HTML. (Texts that were worked out by hand
are in cases.py and faults.py.)"""
import json
import os
import shutil
import string
import subprocess
import sys
import tempfile

HERE = os.path.dirname(os.path.abspath(__file__))
ROOT = os.path.dirname(os.path.dirname(HERE))
sys.path.append(ROOT + '/embed/python/src')

import pandoc
import runs
from gamhilon.answer import answer_of
from gamhilon.latex_writer import bibliography_to_latex, to_latex
from gamhilon.markdown_writer import bibliography_to_markdown, to_markdown
from runs import Failed

SECONDS = 120
FORMS = {'markdown': (to_markdown, bibliography_to_markdown), 'latex': (to_latex, bibliography_to_latex)}
HAS_PANDOC = bool(shutil.which('pandoc'))

# Titles that Markdown or LaTeX may read as more than their letters, alone or at a beginning.
BEGINNINGS = ['1. x', '12) x', '(1) x', 'a. x', 'b) x', 'iv. x', 'XI. x', 'A.  x', 'B) x', '1.x', 'C. x', '    x', '--- x', '=== x',
              '``` x', '~~~ x', '(@) x', '[x]: y', '[^1]: x', '| x | y |', '---', '===', '10% x', '%x', ': x', '+ x', '- x', '* x', '# x',
              '> x', '{#a .b} x']
INSIDES = ['*a* **b** _c_ __d__', '`a` ``b``', '[a](b) ![c](d)', '[a]{.b}', r'\textbf{a} \input{b} \\', '$a^2$ 100% #1 ~a~ ^b^ a_b',
           '@doe99 [@roe]', 'a -- b --- c ... d', ',,a,, ?`b !`c', ':smile: a:b', 'http://example.org/a_b*c(d)', 'www.example.org a@b.c',
           '<a@b.c> <http://x.y>', '<em>a</em> &amp; &#60;', '<!-- a -->', '"a" \'b\' c\'s', 'a\\', '\\', '~', '^', 'a\u00a0b', 'a-', '-b',
           '10.1000/182', '\u2212 \u2009 \u2032', 'Ä — “b”', 'a/b', '(a', 'b)']
TITLES = [*BEGINNINGS, *INSIDES, *(form % mark for mark in string.punctuation for form in ('%s x', '%sx', 'x%sy', 'x %s y'))]
LAYOUTS = {
    'as they are': '<text variable="title"/>',
    'in italics': '<text variable="title" font-style="italic"/>',
    'bold, beside letters': '<text variable="title" font-weight="bold" prefix="a" suffix="b"/>',
    'in italics, behind a bracket and before a quote':
        '<group><text variable="title" font-style="italic" prefix="("/><text variable="title" quotes="true" prefix="-"/></group>',
    'small capitals, underlined': '<text variable="title" font-variant="small-caps" text-decoration="underline" suffix=" b"/>',
    'above the line': '<text variable="title" vertical-align="sup" prefix="a " suffix="."/>',
}
STYLE = ('<style xmlns="http://purl.org/net/xbiblio/csl" class="in-text" version="1.0"><info><title>T</title><id>T</id>'
         '<updated>2026-01-01T00:00:00+00:00</updated></info><citation><layout>%s</layout></citation>'
         '<bibliography hanging-indent="true"%s><layout>%s</layout></bibliography></style>')
# The fields of a work that may have an address.
LISTED = ('<text variable="citation-number" suffix=". "/><text variable="title"/><text variable="note" prefix=" "/>'
          '<text variable="abstract" display="block"/><text variable="type" display="left-margin"/>'
          '<text variable="title" display="right-inline" font-style="italic"/><text variable="URL" prefix=" "/><text variable="DOI" prefix=" "/>')
NOTES = ['see http://example.org/a_b?c=1&d=~e#f.', '(https://example.org/(a)), 10.1000/a_b<c>', 'x10.1000/a 10.12/b 10.1234567890/c',
         'HTTPS://example.org/%41/\u00e9;', '\u201chttp://example.org/\u201d', 'http:// https://.', 'doi:10.1000/182, a']
WORKS = [{'id': 'work %d' % place, 'type': 'book', 'title': title, 'note': NOTES[place % len(NOTES)], 'abstract': title,
          **({'URL': 'https://example.org/%s' % title, 'DOI': '10.1000/%s' % title} if place % 2 else {})}
         for place, title in enumerate(TITLES)]


def printed(program, files, *words):
    """What the program prints, with these files beside it."""
    with tempfile.TemporaryDirectory(prefix='forms-') as folder:
        for name, text in files.items():
            with open(os.path.join(folder, name), 'w', encoding='utf-8') as file:
                file.write(text)
        status, out, error = runs.ended([program, *words], b'', SECONDS, cwd=folder)
    if status or any(b': warning: ' not in line for line in error.splitlines()):
        raise Failed('%s: status %d, %s' % (' '.join(words), status, error.decode()))
    return out.decode()


def is_same(what, wanted, came):
    if wanted != came:
        place = len(os.path.commonprefix([wanted, came]))
        raise Failed('%s\n    wanted %r\n    came   %r' % (what, wanted[place - 40:place + 60], came[place - 40:place + 60]))


# What the Python package writes


def try_python(program, style, works, citations):
    """Citations, with links and without them, items, and both are what the Python package writes of
    the answer."""
    files = {'s.csl': style, 'r.json': json.dumps(works), 'c.json': json.dumps(citations)}
    how = ('--style', 's.csl', 'r.json', 'c.json')
    answer = answer_of(printed(program, files, 'cite', '--to', 'json', *how))
    for form, (write, write_list) in FORMS.items():
        plain = [write(citation) for citation in answer.citations]
        linked = [write(citation, [cite['id'] for cite in cites]) for citation, cites in zip(answer.citations, citations)]
        items = write_list(answer.bibliography)
        for what, wanted, words in (
                ('citations', ''.join(text + '\n' for text in plain), ['cite']),
                ('linked citations', ''.join(text + '\n' for text in linked), ['cite', '--link-citations']),
                ('items', items, ['bibliography']),
                ('both', ''.join(text + '\n\n' for text in plain) + items, ['cite', '--with-bibliography'])):
            is_same('%s: %s' % (form, what), wanted, printed(program, files, *words, '--to', form, *how))


def try_titles(program, layout, align):
    citations = [[{'id': work['id']}] for work in WORKS]
    try_python(program, STYLE % (layout, align, LISTED), WORKS, citations)


def try_document(program, document, path):
    try_python(program, runs.read(path).decode(), document['references'], document['citations'])


# What pandoc reads

FORMATS = {'Emph': 'italic', 'Strong': 'bold', 'SmallCaps': 'small capitals', 'Underline': 'underlined', 'Superscript': 'above',
           'Subscript': 'below'}
# What pandoc doesn't read of the style of a span, as HTML has it.
UNREAD = {'underlined'}
TAGS = {'em': 'italic', 'strong': 'bold', 'u': 'underlined', 'sup': 'above', 'sub': 'below', 'span': 'small capitals'}
QUOTES = {'DoubleQuote': '“”', 'SingleQuote': '‘’'}
# Commands of LaTeX's kernel that pandoc 2.17 doesn't read, and what it reads as the same.
UNKNOWN_TO_PANDOC = (('\\textasciigrave{}', '\\`{}'), ('\\textbar{}', '|'), ('\\ensuremath{-}', '\u2212'), ('\\ensuremath{\\prime}', '\u2032'))


def letters_of(inlines, formats=frozenset()):
    """The letters of pandoc's inlines, each with its formatting and what it leads to."""
    found, opened = [], []
    for inline in inlines:
        kind, content = inline['t'], inline.get('c')
        inside = formats | set(opened)
        if kind == 'Str':
            found += [(letter, inside) for letter in content]
        elif kind in ('Space', 'SoftBreak'):
            found.append((' ', inside))
        elif kind in FORMATS:
            found += letters_of(content, inside | {FORMATS[kind]})
        elif kind == 'Span':
            found += letters_of(content[1], inside | ({'small capitals'} if 'small-caps' in json.dumps(content[0]) else set()))
        elif kind == 'Link':
            found += letters_of(content[1], inside | {content[2][0]})
        elif kind == 'Quoted':
            opening, closing = QUOTES[content[0]['t']]
            found += [(opening, inside), *letters_of(content[1], inside), (closing, inside)]
        elif kind == 'RawInline' and content[1].strip('</>').split(' ')[0] in TAGS:
            tag = TAGS[content[1].strip('</>').split(' ')[0]]
            opened.remove(tag) if content[1].startswith('</') else opened.append(tag)
        else:
            raise Failed('pandoc reads %r' % inline)
    return found


def paragraphs_of(text, form):
    """What pandoc reads of paragraphs."""
    done = subprocess.run(['pandoc', '-f', form, '-t', 'json'], input=text.encode(), stdout=subprocess.PIPE, check=True)
    return [shown(block) for block in json.loads(done.stdout)['blocks']]


def shown(block):
    """The letters of a paragraph. White space is one space without formatting, and nothing at the
    ends."""
    if block['t'] != 'Para':
        raise Failed('pandoc reads %r' % block)
    kept = [(' ', frozenset())]
    for letter, formats in letters_of(block['c']):
        if not letter.isspace():
            kept.append(('’' if letter == "'" else letter, formats - UNREAD))
        elif kept[-1][0] != ' ':
            kept.append((' ', frozenset()))
    return kept[1:-1] if kept[-1][0] == ' ' else kept[1:]


def try_read_back(program, layout):
    """pandoc reads the same letters, with the same formatting and links, of each form."""
    works = [work for work in WORKS if work['title'].strip()]
    files = {'s.csl': STYLE % (layout, '', '<text variable="title"/>'), 'r.json': json.dumps(works),
             'c.json': json.dumps([[{'id': work['id']}] for work in works])}

    def lines(form):
        return printed(program, files, 'cite', '--to', form, '--style', 's.csl', 'r.json', 'c.json').splitlines()

    wanted = paragraphs_of('\n'.join('<p>%s</p>' % line for line in lines('html')), 'html')
    for form, reader in (('markdown', 'markdown'), ('markdown', 'commonmark'), ('latex', 'latex')):
        texts = lines(form)
        whole = '\n\n'.join(texts)
        for command, same in UNKNOWN_TO_PANDOC if form == 'latex' else ():
            whole = whole.replace(command, same)
        came = paragraphs_of(whole, reader)
        if len(came) != len(wanted):
            raise Failed('%s: %d paragraphs of %d' % (reader, len(came), len(wanted)))
        for text, letters, read in zip(texts, wanted, came):
            if letters != read:
                raise Failed('%s: %s\n    wanted %r\n    came   %r' % (reader, text, letters, read))


def tests():
    made = []
    for name, layout in LAYOUTS.items():
        made.append(('forms of titles, ' + name, try_titles, layout, ''))
        if HAS_PANDOC:
            made.append(('pandoc reads titles, ' + name, try_read_back, layout))
    made.append(('forms of items with a first field', try_titles, LAYOUTS['as they are'], ' second-field-align="flush"'))
    for name, document in pandoc.documents().items():
        for path in pandoc.STYLES:
            made.append(('forms of %s in %s' % (name, os.path.basename(path)), try_document, document, path))
    return made
