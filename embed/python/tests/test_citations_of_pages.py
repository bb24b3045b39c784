"""Citations of whole pages, held to those that pandoc reads in the same pages, and their locators
to those that pandoc's citeproc writes."""
import json
import re
import shutil
import subprocess
from random import Random

import pytest

from gamhilon import _locators, markdown_pages, parse_citations
from gamhilon._pandoc_inlines import text_of
from gamhilon.csl import LABELS
from made_up_citations import KEYS, PageMaker

pytestmark = pytest.mark.skipif(not shutil.which('pandoc'),
                                reason='there is no pandoc (Debian: pandoc)')
PAGES, AT_ONCE = 200, 20
MARK = 'Page number'
KNOWN = [key.strip('{}') if key != '{a_{b}}' else 'a_{b}' for key in KEYS]
# (what pandoc reads of `@c++` and `@smith--jones`, and keys of what may look like a citation)
MORE = ['c', 'smith', 'a', 'b', 'code', 'label']
TERMS = ''.join(f'<term name="{kind}" form="{form}"><single>{kind}</single><multiple>{kind}'
                '</multiple></term>' for kind in LABELS for form in ('long', 'short'))
STYLE = f'''<style xmlns="http://purl.org/net/xbiblio/csl" version="1.0" class="in-text">
<info><title>Locators</title><id>locators</id><updated>2026-11-29T00:00:00+00:00</updated></info>
<locale xml:lang="en"><terms>{TERMS}</terms></locale>
<citation><layout prefix="⟦" suffix="⟧"><label variable="locator" suffix="="/>
<text variable="locator" suffix="|"/></layout></citation></style>'''
SHOWN = re.compile(r'⟦(?:([\w-]+)=(?:(.*)\|)?)?(.*)⟧')


@pytest.fixture(scope='module')
def pages():
    """200 pages, the same each time."""
    maker = PageMaker(Random(1))
    return [maker.page() for _ in range(PAGES)]


@pytest.fixture(scope='module')
def in_pandoc(pages, tmp_path_factory):
    """The citations of each page, as pandoc has them."""
    folder = tmp_path_factory.mktemp('pages')
    found = []
    for start in range(0, PAGES, AT_ONCE):
        files = []
        for number, page in enumerate(pages[start:start + AT_ONCE]):
            files.append(folder / f'{number}.md')
            files[-1].write_text(f'{MARK} {number}\n\n{page}')
        for block in read_by_pandoc('-f', 'markdown', '--file-scope', *map(str, files))['blocks']:
            if text_of(block).startswith(MARK):
                found.append([])
            else:
                found[-1] += citations_in(block)
    return found


def read_by_pandoc(*words, document=None):
    given = None if document is None else json.dumps(document).encode()
    done = subprocess.run(['pandoc', '-t', 'json', *words], input=given, capture_output=True,
                          check=True, timeout=120)
    return json.loads(done.stdout)


def citations_in(value):
    """The citations of a part of a document, without those in links, pictures and the words around
    cites."""
    if isinstance(value, list):
        return [found for member in value for found in citations_in(member)]
    if not isinstance(value, dict) or value.get('t') in ('Link', 'Image'):
        return []
    if value.get('t') == 'Cite':
        return [value['c'][0]]
    return [found for member in value.values() for found in citations_in(member)]


def letters(text):
    """A text without its markup, and without what pandoc makes of its quotes and dashes."""
    text = re.sub(r'\$([^$]*)\$', r'\1', text)
    text = re.sub(r'\[([^\[\]]*)\](?:\([^()]*\)|\[label\])', r'\1', text)
    text = re.sub(r'</?b>|<!--.*?-->|[*_`\\~^"“”‘’\'\[\]{}]|&amp;|&', '', text)
    return ' '.join(text.replace('--', '–').replace('\u00a0', ' ').split())


def of_pandoc(citation):
    found = []
    for part in citation:
        locator, rest = _locators.split(text_of(part['citationSuffix']))
        found.append((part['citationId'], part['citationMode']['t'],
                      letters(text_of(part['citationPrefix'])),
                      locator and (locator.kind, letters(locator.text)), letters(rest)))
    return found


def cite_of(cite, mode, prefix, suffix):
    locator = None if cite.locator is None else (cite.label, letters(cite.locator))
    return cite.id, mode, letters(prefix), locator, letters(suffix)


def mode_of(cite, is_named):
    return 'AuthorInText' if is_named else \
        'SuppressAuthor' if cite.suppress_author else 'NormalCitation'


def citations_of(text):
    """The citations of a page, as the Markdown command finds them, and the page's text of each."""
    works = [{'id': key, 'type': 'book', 'title': key} for key in [*KNOWN, *MORE]]
    site = markdown_pages.Site('author-date', works)
    site.add('page', text)
    page = site.pages['page']
    nested = set(map(id, page.nested))
    assert not any(citation.missing for citation in page.citations)
    return [(citation, page.text[citation.start:citation.end]) for citation in page.citations
            if id(citation) not in nested]


def of_page(citation):
    return [cite_of(cited.cite, mode_of(cited.cite, citation.is_in_text and place == 0),
                    cited.prefix.text, cited.suffix.text)
            for place, cited in enumerate(citation.cited)]


def test_the_pages_have_all_of_the_notation(pages):
    text = '\n'.join(pages)
    for part in ('[-@', '@{', '; ', '^[', '[^n0]', '`@code`', '<me@example.org>', '](', '$x_{@a}$',
                 '\\@doe99', '@doe99 [', '{p. A-3}', '::: ', '    see [@a]', '<!-- ', '| One',
                 '# '):
        assert text.count(part) > 5, part


def test_pages_have_the_citations_that_pandoc_reads(pages, in_pandoc):
    assert len(in_pandoc) == PAGES and sum(map(len, in_pandoc)) > 2000
    for text, wanted in zip(pages, in_pandoc):
        found = [of_page(citation) for citation, _ in citations_of(text)]
        assert found == list(map(of_pandoc, wanted)), text


def test_each_citation_is_one_by_itself_too(pages, in_pandoc):
    tried = 0
    for text, wanted in zip(pages, in_pandoc):
        for (_, part), citation in zip(citations_of(text), wanted):
            read = parse_citations(part)
            # (a key alone may be a citation in brackets, whose brackets aren't there)
            is_named = read.author_in_text or not part.endswith(']')
            assert [cite_of(cite, mode_of(cite, is_named and place == 0), cite.prefix, cite.suffix)
                    for place, cite in enumerate(read)] == of_pandoc(citation), part
            tried += 1
    assert tried > 2000


def test_locators_are_those_of_citeproc(in_pandoc, tmp_path):
    """Each suffix once, as a citation of one work in a style that writes locators alone."""
    (tmp_path / 'locators.csl').write_text(STYLE)
    suffixes = {json.dumps(part['citationSuffix']): part['citationSuffix']
                for citations in in_pandoc for citation in citations for part in citation
                if part['citationSuffix'] and not citations_in(part['citationSuffix'])}
    plain = {'citationId': 'x', 'citationPrefix': [], 'citationMode': {'t': 'NormalCitation'},
             'citationNoteNum': 0, 'citationHash': 0}
    blocks = [{'t': 'Para', 'c': [{'t': 'Cite', 'c': [[{**plain, 'citationSuffix': suffix}],
                                                      [{'t': 'Str', 'c': '@x'}]]}]}
              for suffix in suffixes.values()]
    work = {'t': 'MetaMap', 'c': {'id': {'t': 'MetaString', 'c': 'x'},
                                  'type': {'t': 'MetaString', 'c': 'book'}}}
    document = read_by_pandoc('-f', 'markdown', document='')
    written = read_by_pandoc('-f', 'json', '--citeproc', '--csl', str(tmp_path / 'locators.csl'),
                             document={**document, 'blocks': blocks, 'meta': {
                                 'references': {'t': 'MetaList', 'c': [work]},
                                 'suppress-bibliography': {'t': 'MetaBool', 'c': True}}})
    paragraphs = [text_of(block['c'][0]['c'][1]) for block in written['blocks'][:len(blocks)]]
    assert len(paragraphs) > 200
    for suffix, shown in zip(suffixes.values(), paragraphs):
        kind, text, rest = SHOWN.match(shown).groups()
        locator, behind = _locators.split(text_of(suffix))
        # (of `{}` citeproc makes a locator without letters)
        wanted = (kind, text) if text else None
        assert (locator and tuple(locator)) == wanted, text_of(suffix)
        assert letters(behind).lstrip(', ') == letters(rest).lstrip(', '), text_of(suffix)
