"""Small styles and references with the texts that the rules of CSL 1.0.2 ask for; each names the
section of the specification that it follows. The texts are written by hand from these sections."""

from alphabets import ALPHABETS

BOOK = {'id': 'book', 'type': 'book', 'title': 'the art of rivers', 'author': [{'family': 'Roe', 'given': 'Jane Ann'}],
        'publisher': 'North Press', 'publisher-place': 'Oslo', 'edition': '2', 'volume': '4', 'number-of-pages': '312',
        'issued': {'date-parts': [[2001, 3, 9]]}}
PAPER = {'id': 'paper', 'type': 'article-journal', 'title': 'On lakes', 'container-title': 'Waters', 'volume': '12', 'issue': '3',
         'page': '321-328', 'author': [{'family': 'Poe', 'given': 'Paul'}, {'family': 'Doe', 'given': 'John'},
                                       {'family': 'Moe', 'given': 'Mary'}],
         'DOI': '10.1000/182', 'issued': {'date-parts': [[1999]]}}
PAGE = {'id': 'page', 'type': 'webpage', 'title': 'Nobody', 'URL': 'https://example.org/nobody'}
EDITED = {'id': 'edited', 'type': 'book', 'title': 'Waters of the north',
          'editor': [{'family': 'Moe', 'given': 'Mary'}, {'family': 'Poe', 'given': 'Paul'}], 'issued': {'date-parts': [[2010]]}}


def person(id, family, given, year, title='T', **more):
    return {'id': id, 'type': 'book', 'title': title, 'author': [{'family': family, 'given': given}],
            'issued': {'date-parts': [[year]]}, **more}


def atlas(id):
    """An article of nobody, in a paper."""
    return {'id': id, 'type': 'article-newspaper', 'container-title': 'Atlas', 'issued': {'date-parts': [[2001]]}}


def located(*cites):
    """A citation of items with locators."""
    return [{'id': id, 'locator': '%d' % locator} for id, locator in cites]


def several(id, year, *families, title='T'):
    return {'id': id, 'type': 'book', 'title': title, 'author': [{'family': it, 'given': it[0] + 'x'} for it in families],
            'issued': {'date-parts': [[year]]}}


def cites(*ids):
    """A citation of these items."""
    return [it if isinstance(it, dict) else {'id': it} for it in ids]


def style(citation='', bibliography='', macros='', options='', class_='in-text', in_citation='', in_bibliography='', affixes='',
          sort='', bibliography_sort='', locale='', in_layout=''):
    """A style with these layouts."""
    section = ''
    if bibliography:
        section = '<bibliography %s>%s<layout %s>%s</layout></bibliography>' % (in_bibliography, bibliography_sort, in_layout, bibliography)
    return ('<style xmlns="http://purl.org/net/xbiblio/csl" class="%s" version="1.0" %s><info><title>T</title><id>T</id>'
            '<updated>2026-01-01T00:00:00+00:00</updated></info>%s%s<citation %s>%s<layout %s>%s</layout></citation>%s</style>'
            % (class_, options, locale, macros, in_citation, sort, affixes, citation or '<text variable="title"/>', section))


class Case:
    """Texts of citations, or of items of a bibliography, in a style. `warns`: whether the references
    are odd."""

    def __init__(self, name, rule, style, references, wanted, citations=None, to='text', warns=False):
        self.name, self.rule, self.style, self.references = name, rule, style, references
        self.citations, self.wanted, self.to, self.warns = citations, wanted, to, warns


def cite(name, rule, layout, references, wanted, citations=None, to='text', **how):
    """A case of citations; without citations, one of all references."""
    asked = citations or [cites(*(it['id'] for it in references))]
    return Case(name, rule, style(layout, **how), references, wanted, asked, to)


def item(name, rule, layout, references, wanted, to='text', warns=False, **how):
    """A case of a bibliography of all references."""
    return Case(name, rule, style('', layout, **how), references, wanted, None, to, warns)


def names(inside='', outer='', more=''):
    return '<names variable="author" %s><name %s/>%s</names>' % (outer, inside, more)


YEAR = '<date variable="issued"><date-part name="year"/></date>'
TEXT = '<text variable="title"/>'
PREFIXED = style(TEXT).replace('<', '<cs:').replace('<cs:/', '</cs:').replace('xmlns=', 'xmlns:cs=')
LOCATED = '<group delimiter=" "><label variable="locator" form="short"/><text variable="locator"/></group>'
AUTHOR_YEAR = '<group delimiter=" ">' + names('form="short" and="text"') + YEAR + '</group>'
LETTERS = ['Ernst', 'Əliyev', 'Faber', 'Галаган', 'Ежов', 'Єсенін', 'Жук', 'Иванов', 'Іванов', 'Йосип', 'بیت', 'پور', 'کار', 'گل', 'لاله', 'یار']
COLLATED = ['role', 'Role', 'rôle', 'roles', 'Smith Zed', 'Smithson Al']
TITLED = [{**PAGE, 'id': it.lower(), 'title': it} for it in 'AB']
LOCATED_TITLE = '<group delimiter=" "><text variable="title"/><text variable="locator"/></group>'
# Macros that put a cite with a locator before one without.
LOCATOR_MACROS = [
    ('writes a locator', '<text variable="locator"/>'),
    ('writes the number of a locator', '<number variable="locator"/>'),
    ('writes the label of a locator', '<label variable="locator"/>'),
    ('asks for a locator', '<choose><if variable="locator"><text value="1"/></if>'
     '<else><text value="2"/></else></choose>'),
    ('asks for the kind of a locator', '<choose><if locator="page"><text value="1"/></if>'
     '<else><text value="2"/></else></choose>'),
    ('asks whether a locator is numeric', '<group><choose><if is-numeric="locator">'
     '<text value="1"/></if><else><text value="2"/></else></choose></group>')]
# For each character of ASCII four works of one title, behind which two have a dash.
DASHED = [{'id': '%d %d' % (code, volume), 'type': 'book', 'volume': '%d' % volume,
           'title': 'a%cB' % code + '—' * (volume % 2)}
          for code in range(128) for volume in range(4)]
CHINESE = [{'id': id, 'type': 'book', 'author': [{'family': it[0], 'given': it[1:]} for it in names]}
           for id, names in (('two', ['王小明', '李四']), ('three', ['王小明', '李四', '张三']))]
VAN_GOGH = {**PAGE, 'author': [{'family': 'Gogh', 'given': 'Vincent', 'dropping-particle': 'de', 'non-dropping-particle': 'van',
                                'suffix': 'Jr.'}]}
PARTED_NAMES = ('<group delimiter=" / "><names variable="author"><name>%s</name></names>'
                '<names variable="author"><name name-as-sort-order="all">%s</name></names></group>')
LABELLED = [person('a', 'Doe', 'Jane', 1999, title='A'), person('b', 'Doe', 'Jane', 1999, title='B')]
FOUR = [several('one', 2000, 'Ape', 'Bee', 'Cat', 'Dog')]



def in_form(name, rule, to, layout, *pairs):
    """A case of titles, each with what is written of it in a form."""
    pages = [{**PAGE, 'id': 'page %d' % place, 'title': title} for place, (title, _) in enumerate(pairs)]
    return cite(name, rule, layout, pages, [wanted for _, wanted in pairs], [cites(page['id']) for page in pages], to=to)


IN_MARGIN = '<text value="x" display="left-margin"/><text variable="title" display="right-inline" font-style="italic"/>'
FORMATTED = '<group delimiter=" ">%s</group>' % ''.join('<text variable="title" %s/>' % formatting for formatting in (
    'font-style="italic"', 'font-weight="bold"', 'font-weight="bold" font-style="italic"', 'font-variant="small-caps"',
    'text-decoration="underline"', 'vertical-align="sup"', 'vertical-align="sub"'))

CASES = [
    # Markdown and LaTeX
    in_form('letters of Markdown', 'a backslash stands before a letter that Markdown reads as its own', 'markdown', TEXT,
            (r'\ ` * _ { } [ ] < > # | ~ ^ $ @ & % !', r'\\ \` \* \_ \{ \} \[ \] \< \> \# \| \~ \^ \$ \@ &amp; % \!'),
            ('a--b---c d', r'a-\-b-\-\-c d'), ('www.a.b http://a.b a:b:c a: b', r'www\.a.b http\://a.b a\:b:c a: b')),
    in_form('beginnings of lists', 'no paragraph begins as an item of a list, a heading or a quotation', 'markdown', TEXT,
            ('1. x', r'1\. x'), ('12) x', r'12\) x'), ('(a) x', r'(a\) x'), ('iv. x', r'iv\. x'), ('XI) x', r'XI\) x'), ('+ x', r'\+ x'),
            ('- x', r'\- x'), ('# x', r'\# x'), ('> x', r'\> x'), (': x', r'\: x'), ('% x', r'\% x'), ('A. x', 'A. x'), ('1.x', '1.x'),
            ('x. y', r'x\. y'), ('xyz. x', 'xyz. x')),
    in_form('formatting in Markdown', 'marks of Markdown are italic and bold, and tags of HTML the rest', 'markdown', FORMATTED,
            ('T', '*T* **T** ***T*** <span style="font-variant:small-caps;">T</span> <u>T</u> <sup>T</sup> <sub>T</sub>')),
    in_form('formatting beside letters in Markdown', 'tags stand where marks would not be read as such', 'markdown',
            '<text variable="title" font-style="italic" prefix="x" suffix="y"/><text variable="title" font-weight="bold" suffix="."/>',
            ('T', 'x<em>T</em>y<strong>T</strong>.')),
    in_form('formatting behind a bracket in Markdown', 'marks stand where they are read as such', 'markdown',
            '<text variable="title" font-style="italic" prefix="(" suffix=")"/>', ('T', '(*T*)')),
    in_form('a link in Markdown', 'its address stands in angle brackets', 'markdown', '<text variable="URL"/>',
            ('T', r'[https\://example.org/nobody](<https://example.org/nobody>)')),
    in_form('letters of LaTeX', 'a command stands for a letter that LaTeX reads as its own, and two marks are no ligature', 'latex', TEXT,
            (r'\ ` * _ { } [ ] < > # | ~ ^ $ @ & % !', r'\textbackslash{} \textasciigrave{} * \_ \{ \} {[} {]} \textless{} \textgreater{} \# '
             r'\textbar{} \textasciitilde{} \textasciicircum{} \$ @ \& \% !'),
            ('a--b---c d', 'a-{}-b-{}-{}-c d'), ('a\u00a0b\u2009c\u2212d', r'a~b\,c\ensuremath{-}d')),
    in_form('formatting in LaTeX', 'each formatting has a command', 'latex', FORMATTED,
            ('T', r'\textit{T} \textbf{T} \textbf{\textit{T}} \textsc{T} \underline{T} \textsuperscript{T} \textsubscript{T}')),
    in_form('a link in LaTeX', 'an address that is shown may be broken behind its signs', 'latex', '<text variable="URL"/>',
            ('T', r'\href{https://example.org/nobody}{https://\allowbreak{}example.\allowbreak{}org/\allowbreak{}nobody}')),
    item('addresses in a bibliography in LaTeX', 'URLs and DOIs of texts lead there, without the punctuation of their sentences', TEXT,
         [{**PAGE, 'title': 'at 10.1000/a_b%c, (http://example.org/~a#b).'}],
         [r'\noindent \hypertarget{ref-page}{}at \href{https://doi.org/10.1000/a_b\%c}{10.\allowbreak{}1000/\allowbreak{}a\_\allowbreak{}b\%c}, '
          r'(\href{http://example.org/\%7Ea\#b}{http://\allowbreak{}example.\allowbreak{}org/\allowbreak{}\textasciitilde{}a\#b}).\par', ''],
         to='latex'),

    # Links
    item('a link with its affix', 'Links: what a prefix has of the address is part of the link, and other affixes are not',
         '<text variable="DOI" prefix="doi: https://doi.org/" suffix="."/>', [PAPER],
         ['doi: <a href="https://doi.org/10.1000/182">https://doi.org/10.1000/182</a>.'], to='html'),
    item('a link with the affix of its group', 'Links: the prefix of a group may begin the address of what it begins with',
         '<group prefix="doi: https://doi.org/" suffix="."><text variable="DOI"/></group>', [PAPER],
         ['doi: <a href="https://doi.org/10.1000/182">https://doi.org/10.1000/182</a>.'], to='html'),
    item('formatting in a link', 'Links: one link, of which a part is in italics',
         '<text variable="DOI" prefix="https://doi.org/" font-style="italic"/>', [PAPER],
         ['<a href="https://doi.org/10.1000/182">https://doi.org/<i>10.1000/182</i></a>'], to='html'),
    item('a DOI behind a resolver', 'Links: a DOI leads to its resolver, whose address may stand before it',
         '<group delimiter=" "><text variable="DOI"/><text variable="DOI" prefix="https://doi.org/"/></group>',
         [{**PAPER, 'DOI': 'http://dx.doi.org/10.1000/1<2'}],
         ['<a href="https://doi.org/10.1000/1%3C2">http://dx.doi.org/10.1000/1&lt;2</a> '
          '<a href="https://doi.org/10.1000/1%3C2">https://doi.org/10.1000/1&lt;2</a>'], to='html', warns=True),
    item('identifiers', 'Links: PMID and PMCID', '<group delimiter=" "><text variable="PMID"/><text variable="PMCID"/></group>',
         [{**PAPER, 'PMID': '123', 'PMCID': 'PMC45'}],
         ['<a href="https://www.ncbi.nlm.nih.gov/pubmed/123">123</a> <a href="https://www.ncbi.nlm.nih.gov/pmc/articles/PMC45">PMC45</a>'],
         to='html'),
    *[item('no link: ' + url.replace(chr(1), ' '), 'docs/WRITER.md: links lead to http, https, mailto and doi alone', '<text variable="%s"/>' % variable,
           [{**PAGE, 'URL': url, 'DOI': url}], [shown], to='html', warns=variable == 'DOI')
      for variable, url, shown in (('URL', 'javascript:alert(1)', 'javascript:alert(1)'),
                                   ('URL', '\x01JavaScript:alert(1)', 'JavaScript:alert(1)'), ('URL', 'data:text/html,x', 'data:text/html,x'),
                                   ('URL', 'www.example.org', 'www.example.org'), ('DOI', 'http://evil/', 'http://evil/'))],
    cite('a text behind names of a key', 'pandoc: what a macro writes behind names goes before a second name',
         TEXT, [several('three', 2014, 'Meyer', 'Abe', 'Diaz', title='three'), several('one', 2012, 'Meyer', title='one')], ['onethree'],
         macros='<macro name="m"><group delimiter=" ">' + names('form="short"') + YEAR + '</group></macro>',
         sort='<sort><key macro="m"/></sort>'),
    cite('a term given twice', 'Terms: of a term that a locale has twice the last counts, as with pandoc', '<text term="page"/>', [PAGE], ['second'],
         locale='<locale><terms><term name="page">first</term><term name="page">second</term></terms></locale>'),
    # One line
    item('a break in a text', 'docs/WRITER.md: text is one line', '<text variable="title" suffix="&#10;!"/>',
         [{**PAGE, 'title': 'No\nbody\x00\u2028was'}], ['No body was !']),
    item('a break in HTML', 'docs/WRITER.md: HTML is one line', '<text variable="title" suffix="&#10;!"/>',
         [{**PAGE, 'title': 'No\nbody\x00\u2028was'}], ['No body was !'], to='html'),
    item('a block in a line', 'Display: a block stands apart', '<text variable="title" display="block"/><text value="x"/>', [PAGE],
         ['Nobody x']),
    in_form('a margin in Markdown', 'Display: what stands in the left margin is apart from what is beside it', 'markdown', IN_MARGIN,
            ('T', 'x *T*')),
    in_form('a margin in LaTeX', 'Display: what stands in the left margin is apart from what is beside it', 'latex', IN_MARGIN,
            ('T', r'x \textit{T}')),
    item('a period behind what is replaced', 'pandoc: the period that names share with what follows stands behind what replaces them',
         '<group delimiter=". " suffix=".">' + names('name-as-sort-order="all"') + YEAR + '</group>',
         [person('a', 'King', 'Martin L.', 1958), person('b', 'King', 'Martin L.', 1959)], ['King, Martin L. 1958.', '———. 1959.'],
         in_bibliography='subsequent-author-substitute="———"'),
    # Names
    cite('names of no variable', 'Substitute: where there are no names, what stands in is written, and of that the first that is there',
         '<names><substitute><text variable="genre"/><text variable="title"/><text variable="publisher"/></substitute></names>', [BOOK],
         ['the art of rivers']),
    cite('formatting of names that stand in', 'Substitute: `names` without children are those around them, with other variables',
         '<names variable="author" font-weight="bold" suffix="!"><name form="short"/><substitute><names variable="editor"/></substitute></names>',
         [EDITED], ['<b>Moe, Poe</b>!'], to='html'),
    cite('affixes around what stands in', 'pandoc: what stands in for names is the output of their element, between its affixes and in its '
         'formatting',
         '<names variable="author" font-weight="bold" prefix="{" suffix="}"><name form="short"/><label form="short" prefix=" (" suffix=")"/>'
         '<substitute><names variable="editor"/><text variable="title"/></substitute></names>', [EDITED, PAGE],
         ['{<b>Moe, Poe (eds.)</b>}', '{<b>Nobody</b>}'], [cites('edited'), cites('page')], to='html'),
    cite('two names', 'Name: `and`, `delimiter-precedes-last` is `contextual`: no comma of two', names('and="text"'),
         [several('a', 2000, 'Ape', 'Bee')], ['Ax Ape and Bx Bee']),
    cite('three names', 'Name: `contextual` has a delimiter before the last of three', names('and="text"'),
         [several('a', 2000, 'Ape', 'Bee', 'Cat')], ['Ax Ape, Bx Bee, and Cx Cat']),
    cite('always', 'Name: `delimiter-precedes-last="always"`', names('and="symbol" delimiter-precedes-last="always"'),
         [several('a', 2000, 'Ape', 'Bee')], ['Ax Ape, & Bx Bee']),
    cite('never', 'Name: `delimiter-precedes-last="never"`', names('and="text" delimiter-precedes-last="never"'),
         [several('a', 2000, 'Ape', 'Bee', 'Cat')], ['Ax Ape, Bx Bee and Cx Cat']),
    cite('after inverted', 'Name: `after-inverted-name`: a delimiter only behind a name that is turned round',
         names('and="text" name-as-sort-order="first" delimiter-precedes-last="after-inverted-name"'),
         [several('a', 2000, 'Ape', 'Bee')], ['Ape, Ax, and Bx Bee']),
    cite('all turned round', 'Name: `name-as-sort-order="all"`, `sort-separator`',
         names('name-as-sort-order="all" sort-separator="; " delimiter=" / "'),
         [several('a', 2000, 'Ape', 'Bee')], ['Ape; Ax / Bee; Bx']),
    cite('a word without spaces', 'Name: `and`; citeproc-js: a word of a script without spaces has none beside it, nor a comma of itself',
         names('and="text"'), CHINESE, ['王小明和李四', '王小明, 李四和张三'], [cites('two'), cites('three')],
         locale='<locale><terms><term name="and">和</term></terms></locale>'),
    cite('et al.', 'Name: `et-al-min`, `et-al-use-first`; of one name no comma stands before the term', names('form="short"'), FOUR,
         ['Ape et al.'], in_citation='et-al-min="3" et-al-use-first="1"'),
    *[cite('et al. by %s alone' % it, 'Et-al: use of both attributes enables abbreviation', names('form="short"'), FOUR,
           ['Ape, Bee, Cat, Dog'], in_citation=it) for it in ('et-al-min="3"', 'et-al-use-first="1"')],
    cite('et al. of two', 'Name: a delimiter before `et al.` behind two names or more', names('form="short"'), FOUR,
         ['Ape, Bee, et al.'], in_citation='et-al-min="3" et-al-use-first="2"'),
    cite('the last name', 'Name: `et-al-use-last` writes an ellipsis and the last name', names('form="short" delimiter=", "'), FOUR,
         ['Ape, … Dog'], in_citation='et-al-min="3" et-al-use-first="1" et-al-use-last="true"'),
    cite('later cites', 'Name: `et-al-subsequent-min` is for cites behind the first', names('form="short" and="text"'), FOUR,
         ['Ape, Bee, Cat, and Dog', 'Ape et al.'], [cites('one'), cites('one')],
         in_citation='et-al-min="6" et-al-use-first="1" et-al-subsequent-min="3" et-al-subsequent-use-first="1"'),
    *[cite('and others' + how, 'pandoc: a last name `others`, as BibTeX has it, is et al., with the delimiter before that',
           names('and="text"' + options), [{**PAGE, 'author': [*told, {'literal': 'others'}]}], [wanted])
      for how, options, told, wanted in (
          (' of one name', '', [{'family': 'Ape'}], 'Ape et al.'),
          (' of two names', '', [{'family': 'Ape'}, {'family': 'Bee'}], 'Ape, Bee, et al.'),
          (' that are cut', ' et-al-min="3" et-al-use-first="1"', [{'family': 'Ape'}, {'family': 'Bee'}], 'Ape et al.'),
          (' alone', '', [], 'others'))],
    cite('initials', 'Name: `initialize-with`', names('initialize-with=". "'), [BOOK], ['J. A. Roe']),
    cite('initials without periods', 'Name: `initialize-with=""`', names('initialize-with=""'), [BOOK], ['JA Roe']),
    cite('hyphens of initials', 'Global Options: `initialize-with-hyphen` is true', names('initialize-with="."'),
         [person('a', 'Sartre', 'Jean-Paul', 1943)], ['J.-P. Sartre']),
    cite('no hyphens of initials', 'Global Options: `initialize-with-hyphen="false"`', names('initialize-with="."'),
         [person('a', 'Sartre', 'Jean-Paul', 1943)], ['J.P. Sartre'], options='initialize-with-hyphen="false"'),
    cite('particles shown first', 'Global Options: `demote-non-dropping-particle="never"`', names('name-as-sort-order="all"'),
         [{**PAGE, 'author': [{'family': 'Gogh', 'given': 'Vincent', 'non-dropping-particle': 'van'}]}], ['van Gogh, Vincent'],
         options='demote-non-dropping-particle="never"'),
    cite('particles shown last', 'Global Options: `demote-non-dropping-particle="display-and-sort"`', names('name-as-sort-order="all"'),
         [{**PAGE, 'author': [{'family': 'Gogh', 'given': 'Vincent', 'non-dropping-particle': 'van'}]}], ['Gogh, Vincent van'],
         options='demote-non-dropping-particle="display-and-sort"'),
    cite('parts of names', 'Name-part: the formatting of the family name is that of a non-dropping particle too, wherever that stands',
         PARTED_NAMES % (('<name-part name="family" text-case="uppercase"/>',) * 2), [VAN_GOGH],
         ['Vincent de VAN GOGH Jr. / GOGH, Vincent de VAN, Jr.']),
    cite('affixes of parts of names', 'Name-part: the affixes of the family name stand around the particles before it and the suffix of a '
         'name that isn’t turned round, those of the given name around a particle behind it',
         PARTED_NAMES % (('<name-part name="family" prefix="[" suffix="]"/><name-part name="given" prefix="(" suffix=")"/>',) * 2),
         [VAN_GOGH], ['(Vincent) [de van Gogh Jr.] / [Gogh], (Vincent de van), Jr.']),
    cite('an institution', 'Name: a literal name is written as it is', names('name-as-sort-order="all"'),
         [{**PAGE, 'author': [{'literal': 'Institute of Lakes'}]}], ['Institute of Lakes']),
    cite('a suffix', 'Names: a suffix stands behind the name, with the sort separator where that is turned round',
         names('name-as-sort-order="all"'), [{**PAGE, 'author': [{'family': 'King', 'given': 'Martin', 'suffix': 'Jr.'}]}],
         ['King, Martin, Jr.']),
    cite('a label', 'Label in cs:names: the plural where there are several names',
         '<names variable="editor"><name form="short" and="text"/><label form="short" prefix=" (" suffix=")"/></names>', [EDITED],
         ['Moe and Poe (eds.)']),
    cite('a label in front', 'Label in cs:names: it may stand before the name',
         '<names variable="editor"><label form="verb" suffix=" "/><name form="short" and="text"/></names>', [EDITED],
         ['edited by Moe and Poe']),
    cite('a name stands in', 'Substitute: the first that has something stands in',
         names('form="short"', more='<substitute><names variable="editor"/><text variable="title"/></substitute>'), [EDITED, PAGE],
         ['Moe, Poe; Nobody'], affixes='delimiter="; "'),
    cite('what stood in is left out', 'Substitute: a variable that stood in is left out in the rest',
         '<group delimiter=". ">' + names('', more='<substitute><text variable="title"/></substitute>') + TEXT +
         '<text variable="URL"/></group>', [PAGE], ['Nobody. https://example.org/nobody']),
    *[cite('%s that stood in' % what, 'Substitute: a variable that stood in is left out in the rest, and a test finds it empty',
           '<group delimiter=" / ">' + names('', more='<substitute>%s</substitute>' % element) + element + '<choose><if %s="%s">'
           '<text value="there"/></if></choose>' % (test, variable) + TEXT + '</group>', [{**PAGE, 'volume': '4', 'genre': 'Sketch'}],
           [wanted])
      for what, element, test, variable, wanted in (
          ('a number', '<number variable="volume"/>', 'variable', 'volume', '4 / Nobody'),
          ('a number that is numeric', '<number variable="volume"/>', 'is-numeric', 'volume', '4 / Nobody'),
          ('a text', '<text variable="genre"/>', 'variable', 'genre', 'Sketch / Nobody'))],
    cite('editor and translator', 'Names: where both variables have the same names, these are written once, with the term for both',
         '<names variable="editor translator" delimiter="; "><name form="short"/><label form="short" prefix=", "/></names>',
         [{**PAGE, 'editor': [{'family': 'Moe'}], 'translator': [{'family': 'Moe'}]}], ['Moe, ed. & tran.']),
    cite('affixes of each name', 'Name: it tells how individual names are formatted; pandoc: its affixes and its formatting are those of each',
         names('prefix="[" suffix="]" font-style="italic" and="text" form="short"'), [several('a', 2000, 'Ape', 'Bee')],
         ['[<i>Ape</i>] and [<i>Bee</i>]'], to='html'),
    cite('names of other scripts', 'Name: names in Asian scripts have the family name first, in either order',
         '<group delimiter=" / ">' + names('delimiter="; "') + names('delimiter="; " name-as-sort-order="all"') + '</group>',
         [{**PAGE, 'author': [{'family': '毛', 'given': '泽东'}, {'family': 'Roe', 'given': 'Jane'}]}],
         ['毛泽东; Jane Roe / 毛泽东; Roe, Jane']),
    cite('how many names', 'Name: `form="count"` gives the number', names('form="count"'), FOUR, ['4']),
    cite('a label without a name', 'pandoc, citeproc-js: it stands before the names',
         '<names variable="editor"><label form="verb" suffix=" "/></names>', [{**PAGE, 'editor': [{'family': 'Moe', 'given': 'M'}]}],
         ['edited by M Moe']),
    cite('an empty term for both', 'Names: editors and translators are joined only where the locale has a term for both',
         '<names variable="editor translator" delimiter=" and "><name/><label prefix=" (" suffix=")"/></names>',
         [{**PAGE, 'editor': [{'family': 'Moe'}], 'translator': [{'family': 'Moe'}]}], ['Moe (editor) and Moe (translator)'],
         locale='<locale><terms><term name="editortranslator"><single></single><multiple></multiple></term></terms></locale>'),
    cite('both stood in', 'Substitute: a variable that stood in is left out in the rest, that of translators who are the editors too',
         '<group delimiter=". "><names variable="author"><name/><label form="short" prefix=" (" suffix=")"/><substitute>'
         '<names variable="editor translator"/></substitute></names>' + TEXT + '<names variable="translator"/></group>',
         [{**PAGE, 'editor': [{'family': 'Moe'}], 'translator': [{'family': 'Moe'}]}], ['Moe (ed. & tran.). Nobody']),
    cite('initials behind a space', 'pandoc, citeproc-js: a hyphen behind a space makes a compound name', names('initialize-with="."'),
         [person('a', 'Sartre', 'J. -P.', 1943)], ['J.-P. Sartre']),
    cite('initials in markup', 'citeproc-js: the mark of an initial stands in the markup of the name', names('initialize-with=". "'),
         [person('a', '<b>Doe</b>', '<b>John</b> Quincy', 1943), person('b', 'Doe', '<b>J</b>-Q', 1944)],
         ['<b>J.</b> Q. <b>Doe</b>', '<b>J.</b>-Q. Doe'], [cites('a'), cites('b')], to='html'),
    cite('initials behind a particle', 'pandoc, citeproc-js: of a name that a hyphen joins to a particle stands the initial',
         names('initialize-with=". "'), [person('a', 'Haddad', 'Abd al-Karim', 1943)], ['A. al-K. Haddad']),
    cite('a given name alone', 'citeproc-js: a given name that stands alone is not parted', names(),
         [{**PAGE, 'author': [{'given': 'Sting, Jr.'}]}], ['Sting, Jr.']),
    # Numbers, labels, terms
    cite('an ordinal', 'Number: `form="ordinal"`', '<number variable="edition" form="ordinal"/>', [BOOK], ['2nd']),
    cite('a long ordinal', 'Number: `form="long-ordinal"`', '<number variable="edition" form="long-ordinal"/>', [BOOK], ['second']),
    cite('a Roman number', 'Number: `form="roman"`', '<number variable="volume" form="roman"/>', [BOOK], ['iv']),
    cite('a text for a number', 'Number: a text that is no number stays', '<number variable="edition" form="ordinal"/>',
         [{**PAGE, 'edition': 'revised'}], ['revised']),
    cite('is-numeric', 'Choose: `is-numeric`: numbers with an affix are numeric, a text isn’t',
         '<choose><if is-numeric="volume"><text value="yes"/></if><else><text value="no"/></else></choose>',
         [BOOK, {**PAGE, 'volume': 'D2'}, {**PAGE, 'id': 'other', 'volume': 'second'}], ['yes; yes; no'], affixes='delimiter="; "'),
    cite('plural of pages', 'Label: `plural="contextual"`: several pages have the plural',
         '<group delimiter=" "><label variable="page" form="short"/><text variable="page"/></group>', [PAPER], ['pp. 321–328']),
    cite('plural of a count', 'Label: the plural of `number-of-pages` where it is not 1',
         '<group delimiter=" "><number variable="number-of-pages"/><label variable="number-of-pages"/></group>', [BOOK], ['312 pages']),
    cite('a locator', 'Label: the term of the locator', LOCATED, [BOOK], ['chap. 3; sec. 2'],
         [[{'id': 'book', 'locator': '3', 'label': 'chapter'}, {'id': 'book', 'locator': '2', 'label': 'section'}]],
         affixes='delimiter="; "'),
    cite('an own term', 'Locale: a style’s own term goes before that of the locale file', '<text term="and"/>', [PAGE], ['plus'],
         locale='<locale xml:lang="en"><terms><term name="and">plus</term></terms></locale>'),
    cite('another form of a term', 'Terms: a short form that is missing is the long one', '<text term="accessed" form="short"/>', [PAGE],
         ['accessed']),
    cite('plural of a count in words', 'Label: the plural of `number-of-pages` where it is more than 1',
         '<label variable="number-of-pages" form="short"/>', [{**PAGE, 'number-of-pages': '234 p.'}], ['pp.']),
    cite('a locator that repeats its label', 'docs/WRITER.md, Numbers: a locator that begins with a label', LOCATED, [BOOK], ['vol. v'],
         [[{'id': 'book', 'locator': 'vol. v'}]]),
    cite('a locator of words', 'Locators: an entry of a dictionary', LOCATED, [BOOK], ['s.v. note taking'],
         [[{'id': 'book', 'locator': 'note taking', 'label': 'sub-verbo'}]]),
    cite('a locator of words that begin with a term', 'citeproc-js: words that count nothing are no label', LOCATED, [BOOK],
         ['p. table of contents', 'app. B'], [[{'id': 'book', 'locator': 'table of contents'}], [{'id': 'book', 'locator': 'appendix B'}]]),
    cite('spaces around a locator', 'docs/WRITER.md, Numbers', TEXT + '<text variable="locator" prefix=":"/>', [PAGE], ['Nobody:13'],
         [[{'id': 'page', 'locator': ' 13 '}]]),
    cite('a numeric locator', 'Choose: `is-numeric` of a locator behind its label',
         '<choose><if is-numeric="locator"><text value="yes"/></if><else><text value="no"/></else></choose>', [PAGE], ['yes'],
         [[{'id': 'page', 'locator': 'vol. 12'}]]),
    cite('a hyphen that stays', 'docs/WRITER.md, Numbers: a hyphen behind a backslash', '<text variable="issue"/>',
         [{**PAGE, 'issue': '4\\-5'}], ['4-5']),
    cite('markup in numbers', 'docs/REFERENCES.md: number variables may have markup',
         '<group delimiter="; "><text variable="volume"/><number variable="edition" form="ordinal"/><text variable="number"/></group>',
         [{**PAGE, 'volume': '<i>12</i>', 'edition': '<b>2</b>', 'number': 'A<sub>2</sub>'}],
         ['<i>12</i>; <b>2nd</b>; A<sub>2</sub>'], to='html'),
    cite('the first page', 'Standard Variables: `page-first`', '<text variable="page-first"/>', [{**PAGE, 'page': '12; 14'}], ['12']),
    cite('a label of any names', 'citeproc-js, pandoc: `citation-label` of an item with names of another kind',
         '<text variable="citation-label"/>',
         [{'id': 'page', 'type': 'song', 'composer': [{'family': 'Bach'}], 'issued': {'date-parts': [[1749]]}}], ['Bach49']),
    cite('a label behind a date', 'docs/WRITER.md: a label has the suffix of the year also where the date before it has that',
         '<group delimiter=" / ">' + names('form="short"') + YEAR + '<text variable="citation-label"/></group>', LABELLED,
         ['Doe / 1999a / Doe99a', 'Doe / 1999b / Doe99b'], [cites('a'), cites('b')],
         in_citation='disambiguate-add-year-suffix="true"'),
    cite('a label of a cite', 'citeproc-js: `citation-label` has the suffix of the year',
         '<text variable="citation-label"/>', LABELLED, ['Doe99a', 'Doe99b'], [cites('a'), cites('b')],
         in_citation='disambiguate-add-year-suffix="true"'),
    cite('a label of names with others', 'docs/WRITER.md: a label has letters of the names that are told', '<text variable="citation-label"/>',
         [{'id': 'page', 'type': 'book', 'author': [{'family': 'Bach'}, {'literal': 'others'}], 'issued': {'date-parts': [[1749]]}}],
         ['Bach49']),
    # Page ranges
    cite('pages expanded', 'Appendix, Page Range Formats: expanded', '<text variable="page"/>', [{**PAPER, 'page': '321-28'}],
         ['321–328'], options='page-range-format="expanded"'),
    cite('pages minimal', 'Appendix, Page Range Formats: minimal', '<text variable="page"/>', [PAPER], ['321–8'],
         options='page-range-format="minimal"'),
    cite('pages minimal-two', 'Appendix, Page Range Formats: minimal-two', '<text variable="page"/>', [PAPER], ['321–28'],
         options='page-range-format="minimal-two"'),
    cite('pages chicago', 'Appendix, Page Range Formats: chicago, 107–8', '<text variable="page"/>', [{**PAPER, 'page': '107-108'}],
         ['107–8'], options='page-range-format="chicago"'),
    cite('ranges of other locators', 'Global Options: `page-range-format` is for ranges of pages', LOCATED, [BOOK],
         ['pp. 321–8; secs. 321–328'], [[{'id': 'book', 'locator': '321-328'}, {'id': 'book', 'locator': '321-328', 'label': 'section'}]],
         affixes='delimiter="; "', options='page-range-format="minimal"'),
    cite('an own delimiter of pages', 'Global Options: `page-range-format` has the term `page-range-delimiter` between pages',
         '<text variable="page"/>', [PAPER], ['321-8'], options='page-range-format="minimal"',
         locale='<locale><terms><term name="page-range-delimiter">-</term></terms></locale>'),
    cite('ranges that aren’t of pages', 'pandoc; Global Options: `page-range-delimiter` is for pages: other ranges have an en dash',
         '<group delimiter="; "><text variable="page"/><number variable="volume"/>' + LOCATED + '</group>', [{**PAPER, 'volume': '1-3'}],
         ['321=328; 1–3; pp. 3=5', '321=328; 1–3; chaps. 3–5'],
         [[{'id': 'paper', 'locator': '3-5'}], [{'id': 'paper', 'locator': '3-5', 'label': 'chapter'}]],
         locale='<locale><terms><term name="page-range-delimiter">=</term></terms></locale>'),
    # Dates
    cite('a date in words', 'Date: `form="text"` of the locale', '<date variable="issued" form="text"/>', [BOOK], ['March 9, 2001']),
    cite('a date in numbers', 'Date: `form="numeric"` of the locale', '<date variable="issued" form="numeric"/>', [BOOK],
         ['03/09/2001']),
    cite('the year and the month', 'Date: `date-parts="year-month"`', '<date variable="issued" form="text" date-parts="year-month"/>',
         [BOOK], ['March 2001']),
    cite('an own date', 'Date-part: forms and affixes of a style’s own date',
         '<date variable="issued"><date-part name="day" form="ordinal" suffix=" "/><date-part name="month" form="short" '
         'strip-periods="true" suffix=" "/><date-part name="year" form="short"/></date>', [BOOK], ['9th Mar 01']),
    cite('a range of years', 'Date-part: years of a range with an en dash', YEAR, [{**PAGE, 'issued': {'date-parts': [[1998], [2001]]}}],
         ['1998–2001']),
    cite('a range within a month', 'Date-part: what both dates share stands once', '<date variable="issued" form="text"/>',
         [{**PAGE, 'issued': {'date-parts': [[2001, 3, 9], [2001, 3, 12]]}}], ['March 9–12, 2001']),
    cite('a season', 'Date: a season stands for the month', '<date variable="issued" form="text"/>',
         [{**PAGE, 'issued': {'date-parts': [[2001]], 'season': 2}}], ['Summer 2001']),
    cite('before our era', 'Date: years before 1 have the term `bc`', YEAR, [{**PAGE, 'issued': {'date-parts': [[-44]]}}], ['44BC']),
    cite('early years', 'Date: years of three digits have the term `ad`', YEAR, [{**PAGE, 'issued': {'date-parts': [[476]]}}],
         ['476AD']),
    cite('a literal', 'docs/REFERENCES.md: the literal of a date stands in its place', YEAR,
         [{**PAGE, 'issued': {'date-parts': [[2008, 5, 1]], 'literal': 'Spring 2008'}}], ['Spring 2008']),
    cite('the suffix of a literal', 'Disambiguation: the suffix of a year stands behind the first date, inside its affixes',
         '<group delimiter=" ">' + names('form="short"') + '<date variable="issued" prefix="(" suffix=")"><date-part name="year"/></date>'
         '</group>', [{**person(it, 'Doe', 'J', 0, title=it), 'issued': {'literal': 'in press'}} for it in 'ab'],
         ['Doe (in pressa)', 'Doe (in pressb)'], [cites('a'), cites('b')], in_citation='disambiguate-add-year-suffix="true"'),
    cite('a range of a year and a month', 'pandoc: parts that one date lacks don’t differ',
         '<date variable="issued" delimiter=" "><date-part name="month"/><date-part name="year"/></date>',
         [{**PAGE, 'issued': {'date-parts': [[2008], [2008, 5]]}}], ['May 2008']),
    cite('a range in one year', 'docs/REFERENCES.md: ranges of raw dates', '<date variable="issued" form="text"/>',
         [{**PAGE, 'issued': {'raw': 'Jan-Feb 2000'}}, {**BOOK, 'issued': {'raw': 'Spring/Summer 1999'}}],
         ['January–February 2000', 'Spring–Summer 1999'], [cites('page'), cites('book')]),
    cite('a range without a beginning', 'EDTF: nothing stands between the dash and the date',
         '<date variable="issued" delimiter=" "><date-part name="month"/><date-part name="year"/></date>',
         [{**PAGE, 'issued': {'raw': '/2008-05'}}], ['–May 2008']),
    # Groups, conditions, affixes
    cite('an empty group', 'Group: a group all of whose variables are empty leaves nothing, with its terms',
         '<group delimiter=" "><text variable="title"/><group prefix="(" suffix=")"><text term="in"/><text variable="publisher"/>'
         '</group></group>', [PAGE], ['Nobody']),
    cite('an empty macro', 'pandoc, citeproc-js: a macro all of whose variables are empty leaves nothing, as a group does',
         '<text variable="title"/><text macro="within"/>', [PAGE, PAPER], ['Nobody', 'On lakes in Waters'],
         [cites('page'), cites('paper')],
         macros='<macro name="within"><text term="in" prefix=" "/><text variable="container-title" prefix=" "/></macro>'),
    cite('a macro of a text', 'Group: a macro that has text counts as a variable with a value, as a group does',
         '<text variable="title"/><group prefix=" (" suffix=")" delimiter=", "><text macro="kind"/><text variable="genre"/></group>',
         [PAGE], ['Nobody (online)'], macros='<macro name="kind"><text value="online"/></macro>'),
    cite('no date', 'Group: the term `no date` is no variable, so that it goes where the variable beside it is empty',
         '<text variable="title"/><group prefix=" (" suffix=")" delimiter=", "><text term="no date" form="short"/>'
         '<text variable="locator"/></group>', [PAGE], ['Nobody', 'Nobody (n.d., 3)'],
         [cites('page'), cites({'id': 'page', 'locator': '3'})]),
    cite('delimiters', 'Group: the delimiter stands between those that have text',
         '<group delimiter=", "><text variable="publisher"/><text variable="title"/><text variable="URL"/></group>', [PAGE],
         ['Nobody, https://example.org/nobody']),
    cite('a type', 'Choose: `type`, `match="any"`',
         '<choose><if type="book report" match="any"><text value="b"/></if><else-if type="webpage"><text value="w"/></else-if><else>'
         '<text value="o"/></else></choose>', [BOOK, PAGE, PAPER], ['bwo']),
    cite('none of two', 'Choose: `match="none"`',
         '<choose><if variable="DOI URL" match="none"><text value="n"/></if><else><text value="s"/></else></choose>', [BOOK, PAGE, PAPER],
         ['nss']),
    cite('uncertain', 'Choose: `is-uncertain-date`',
         '<choose><if is-uncertain-date="issued"><text term="circa" form="short"/></if></choose>' + YEAR,
         [{**PAGE, 'issued': {'date-parts': [[1600]], 'circa': True}}], ['c.1600']),
    cite('punctuation', 'Affixes: a period behind a text that ends with one is written once', '<text variable="title" suffix="."/>',
         [{**PAGE, 'title': 'Nobody etc.'}], ['Nobody etc.']),
    # Text cases and formatting
    cite('a title in capitals', 'Text-case: `title`; small words stay, but for the first', '<text variable="title" text-case="title"/>',
         [{**BOOK, 'title': 'the art of rivers and lakes'}], ['The Art of Rivers and Lakes']),
    cite('the language of an item, with an underscore', 'Text-case: `title` is for items in English', '<text variable="title" text-case="title"/>',
         [{**BOOK, 'language': 'EN_us'}, {**BOOK, 'id': 'b', 'language': 'de_DE'}], ['The Art of Rivers', 'the art of rivers'],
         [cites('book'), cites('b')], options='default-locale="de-DE"'),
    cite('an own locale, with an underscore', 'Locale: a style’s own term goes before that of the locale file', '<text term="and"/>', [PAGE],
         ['plus'], locale='<locale xml:lang="DE_de"><terms><term name="and">plus</term></terms></locale>',
         options='default-locale="de_DE"'),
    cite('a name in capitals', 'pandoc, citeproc-js: `title` leaves a text in capitals as it is', '<text variable="title" text-case="title"/>',
         [{**PAGE, 'title': 'PLOS ONE'}], ['PLOS ONE']),
    cite('a compound', 'citeproc-js: in running text a small word before a hyphen has a capital', '<text variable="title" text-case="title"/>',
         [{**PAGE, 'title': 'effects of in-vivo tests'}], ['Effects of In-Vivo Tests']),
    cite('a small word in capitals', 'pandoc, citeproc-js: `title` leaves the capital that a small word has', '<text variable="title" text-case="title"/>',
         [{**PAGE, 'title': 'Gone With the wind'}], ['Gone With the Wind']),
    cite('an article alone', 'Text-case: `sentence`: words with a capital lose it', '<text variable="title" text-case="sentence"/>',
         [{**PAGE, 'title': 'Once Upon A Time'}], ['Once upon a time']),
    cite('a tag and words', 'Title Case Conversion: an item whose language begins with the tag `en` is English; one without a language '
         'has that of the style', '<text variable="title" text-case="title"/>',
         [{**BOOK, 'id': 'a', 'language': 'en English'}, {**BOOK, 'id': 'b', 'language': 'fr French'}, {**BOOK, 'id': 'c', 'language': ' '}],
         ['The Art of Rivers', 'the art of rivers', 'The Art of Rivers'], [cites(it) for it in 'abc']),
    cite('capitalize-first', 'Text-case: `capitalize-first`', '<text variable="title" text-case="capitalize-first"/>', [BOOK],
         ['The art of rivers']),
    cite('upper case', 'Text-case: `uppercase`', '<text variable="title" text-case="uppercase"/>', [BOOK], ['THE ART OF RIVERS']),
    cite('quotes', 'Quotes: those of the locale; quotes inside have the inner marks', '<text variable="title" quotes="true"/>',
         [{**PAGE, 'title': 'On "Nobody"'}], ['“On ‘Nobody’”']),
    cite('punctuation in quotes', 'Locale: `punctuation-in-quote` is true in American English',
         '<group delimiter=", "><text variable="title" quotes="true"/><text variable="URL"/></group>', [PAGE],
         ['“Nobody,” https://example.org/nobody']),
    cite('punctuation behind a quote that ends a field', 'pandoc, citeproc-js: a comma or a period behind it stands inside, too; one of '
         'the field itself stays', '<group delimiter=", " suffix="."><text variable="title"/><text variable="note"/></group>',
         [{**PAGE, 'title': 'On "Nobody"', 'note': '"Seen", as "read"'}], ['On “Nobody,” “Seen”, as “read.”']),
    cite('no punctuation in quotes', 'Locale: `punctuation-in-quote="false"` of the style',
         '<group delimiter=", "><text variable="title" quotes="true"/><text variable="URL"/></group>', [PAGE],
         ['“Nobody”, https://example.org/nobody'], locale='<locale><style-options punctuation-in-quote="false"/></locale>'),
    cite('a title and a year', 'Text-case, Quotes: cases go through markup and quotes; Locale: a comma behind a quote stands inside',
         '<group delimiter=", " suffix="."><text variable="title" quotes="true" text-case="title"/>' + YEAR + '</group>',
         [{**BOOK, 'title': 'the "<i>whole</i>" of it\'s parts'}], ['“The ‘Whole’ of It’s Parts,” 2001.']),
    cite('strip-periods', 'Strip-periods', '<text term="page" form="short" strip-periods="true"/>', [PAGE], ['p']),
    cite('italics', 'Formatting: `font-style` in HTML', '<text variable="title" font-style="italic"/>', [PAGE], ['<i>Nobody</i>'], to='html'),
    cite('markup of HTML', 'Output: characters of HTML are escaped', '<text variable="title"/>', [{**PAGE, 'title': 'A & B < C'}],
         ['A &amp; B &lt; C'], to='html'),
    # Sorting
    item('sorted by names', 'Sorting: by names and dates', AUTHOR_YEAR,
         [person('c', 'Bee', 'B', 2001), person('a', 'Bee', 'B', 1999), person('b', 'Ape', 'A', 2005)], ['Ape 2005', 'Bee 1999', 'Bee 2001'],
         bibliography_sort='<sort><key variable="author"/><key variable="issued"/></sort>'),
    item('sorted downwards', 'Sorting: `sort="descending"`', YEAR, [person('a', 'A', 'A', 1990), person('b', 'B', 'B', 2010)],
         ['2010', '1990'], bibliography_sort='<sort><key variable="issued" sort="descending"/></sort>'),
    item('without a value', 'Sorting: items without a value stand behind the others', TEXT,
         [{**PAGE, 'title': 'Z'}, person('a', 'A', 'A', 1990, title='Y')], ['Y', 'Z'],
         bibliography_sort='<sort><key variable="issued"/></sort>'),
    item('letters, accents, case', 'Unicode’s root collation: letters, then accents, then case; a space before letters', TEXT,
         [{**PAGE, 'id': it, 'title': it} for it in reversed(COLLATED)], COLLATED,
         bibliography_sort='<sort><key variable="title"/></sort>'),
    cite('sorted cites', 'Sorting: the cites of a citation have keys of their own', AUTHOR_YEAR,
         [person('b', 'Bee', 'B', 2001), person('a', 'Ape', 'A', 2005)], ['Ape 2005; Bee 2001'],
         sort='<sort><key variable="author"/></sort>', affixes='delimiter="; "'),
    cite('names that stand in', 'Cite Grouping and Collapsing: what is compared has what `cs:substitute` renders',
         '<group delimiter=" "><names variable="author"><name form="short"/><substitute><text variable="container-title"/></substitute>'
         '</names>' + YEAR + '</group>', [atlas('x'), person('r', 'Roe', 'R', 2002), atlas('y')],
         ['(Atlas 2001a, b; Roe 2002)', '(2001a; Roe 2002)'], [cites('x', 'r', 'y'), cites({'id': 'x', 'suppress-author': True}, 'r')],
         in_citation='disambiguate-add-year-suffix="true" collapse="year-suffix" year-suffix-delimiter=", "',
         affixes='prefix="(" suffix=")" delimiter="; "'),
    cite('words between cites', 'docs/DECISIONS.md: a citation with words before a cite behind the first keeps its order', AUTHOR_YEAR,
         [person('b', 'Bee', 'B', 2001), person('a', 'Ape', 'A', 2005)],
         ['Bee 2001; see also Ape 2005', 'Ape 2005; see Bee 2001', 'Ape 2005, p; Bee 2001'],
         [cites('b', {'id': 'a', 'prefix': 'see also '}), cites({'id': 'b', 'prefix': 'see '}, 'a'),
          cites('b', {'id': 'a', 'suffix': ', p'})], sort='<sort><key variable="author"/></sort>', affixes='delimiter="; "'),
    cite('unsorted citations', 'csl-citation.json: `unsorted`', AUTHOR_YEAR,
         [person('b', 'Bee', 'B', 2001), person('a', 'Ape', 'A', 2005)], ['Bee 2001; Ape 2005', 'Ape 2005; Bee 2001'],
         [{'citationID': 'x', 'citationItems': cites('b', 'a'), 'properties': {'unsorted': True}},
          {'citationID': 'y', 'citationItems': cites('b', 'a'), 'properties': {'unsorted': False, 'noteIndex': 0}}],
         sort='<sort><key variable="author"/></sort>', affixes='delimiter="; "'),
    cite('cites in order by a second key', 'Sorting: keys in turn; equal cites stay in order',
         TEXT, [person('a', 'Bee', 'B', 2001, title='X'), person('b', 'Bee', 'B', 1999, title='Y'),
                person('c', 'Ape', 'A', 2005, title='Z'), person('d', 'Bee', 'B', 2001, title='W')],
         ['Z; Y; X', 'Y; W', 'W; X', 'X; W'],
         [cites('a', 'c', 'b'), cites('d', 'b'), cites('d', 'a'), cites('a', 'd')],
         sort='<sort><key variable="author"/><key variable="issued"/></sort>',
         affixes='delimiter="; "'),
    cite('cites sorted downwards by a second key', 'Sorting: a cite without a value stands last',
         TEXT, [person('a', 'Bee', 'B', 2001, title='X'), person('b', 'Bee', 'B', 2003, title='Y'),
                {**PAGE, 'title': 'Z', 'author': [{'family': 'Bee', 'given': 'B'}]}],
         ['Y; X; Z', 'X; Z', 'Y; Z'],
         [cites('page', 'a', 'b'), cites('page', 'a'), cites('page', 'b')],
         sort='<sort><key variable="author"/><key variable="issued" sort="descending"/></sort>',
         affixes='delimiter="; "'),
    cite('cites sorted by their locators', 'Sorting: a key is a variable of the cite',
         LOCATED_TITLE, TITLED, ['A 1; B 3; A 9', 'B; A', 'A 2; B'],
         [located(('a', 9), ('b', 3), ('a', 1)), cites('b', 'a'),
          [{'id': 'b'}, {'id': 'a', 'locator': '2'}]],
         sort='<sort><key variable="locator"/></sort>', affixes='delimiter="; "'),
    *(cite('cites sorted by a macro that ' + what, 'Sorting: a macro is written of the cite',
           LOCATED_TITLE, TITLED, ['B 5; A', 'B; A', 'A; B'],
           [[{'id': 'a'}, {'id': 'b', 'locator': '5'}], cites('b', 'a'), cites('a', 'b')],
           sort='<sort><key macro="m"/></sort>', affixes='delimiter="; "',
           macros='<macro name="m">%s</macro>' % content)
      for what, content in LOCATOR_MACROS),
    item('seasons', 'Sorting: what a date lacks is zero, and a season is no part of a date', TEXT,
         [person('a', 'A', 'A', 2000, title='X'), {**person('b', 'B', 'B', 2000, title='Y'), 'issued': {'date-parts': [[2000, 5]]}},
          {**person('c', 'C', 'C', 2000, title='Z'), 'issued': {'date-parts': [[2000]], 'season': 1}}], ['X', 'Z', 'Y'],
         bibliography_sort='<sort><key variable="issued"/></sort>'),
    item('literal dates', 'pandoc, citeproc-js: a date without numbers stands behind the others, downwards too', TEXT,
         [{**PAGE, 'title': 'X', 'issued': {'literal': 'forthcoming'}}, person('a', 'A', 'A', 2000, title='Y')], ['Y', 'X'],
         bibliography_sort='<sort><key variable="issued" sort="descending"/></sort>'),
    *(item('letters of ' + tag, 'ICU, Unicode’s collation for the language (alphabets.py)', TEXT,
           [{**PAGE, 'id': it, 'title': it} for it in sorted(words.split(), reverse=True)], words.split(),
           bibliography_sort='<sort><key variable="title"/></sort>', options='default-locale="%s"' % tag)
      for tag, words in ALPHABETS.items()),
    item('accents of other languages', 'Unicode’s root collation: elsewhere they are letters with accents', TEXT,
         [{**PAGE, 'id': it, 'title': it} for it in ('Zola', 'Öberg', 'Mann', 'Åberg')], ['Åberg', 'Mann', 'Öberg', 'Zola'],
         bibliography_sort='<sort><key variable="title"/></sort>'),
    item('letters of other alphabets', 'pandoc, Unicode’s root collation: Azerbaijani, Ukrainian and Persian letters', TEXT,
         [{**PAGE, 'id': it, 'title': it} for it in reversed(LETTERS)], LETTERS, bibliography_sort='<sort><key variable="title"/></sort>'),
    item('marks of a transliteration', 'pandoc, citeproc-js: primes and the okina are passed over', TEXT,
         [{**PAGE, 'id': it, 'title': it} for it in ('Mann', 'ʻIolani', 'Grigorz', 'Grigorʹev')],
         ['Grigorʹev', 'Grigorz', 'ʻIolani', 'Mann'], bibliography_sort='<sort><key variable="title"/></sort>'),
    cite('dashes behind titles', 'Sorting: punctuation is passed over, so these titles are equal',
         '<text variable="volume"/>', DASHED, ['0 1 2 3'] * 128,
         [cites(*('%d %d' % (code, volume) for volume in (3, 0, 2, 1))) for code in range(128)],
         affixes='delimiter=" "',
         sort='<sort><key variable="title"/><key variable="volume"/></sort>'),
    item('sorted by labels', 'Sorting: the variable `citation-label`', TEXT,
         [person('a', 'Zola', 'Z', 1900, title='X'), person('b', 'Adam', 'A', 1900, title='Y')], ['Y', 'X'],
         bibliography_sort='<sort><key variable="citation-label"/></sort>'),
    item('short names with particles', 'Name-part Order: sorting with `sort-only` begins with the family name, in the short form too', TEXT,
         [{**PAGE, 'id': it, 'title': it, 'author': [{'family': it, 'non-dropping-particle': particle}]}
          for it, particle in (('Wagner', ''), ('Mann', ''), ('Gogh', 'van'))], ['Gogh', 'Mann', 'Wagner'],
         bibliography_sort='<sort><key macro="short"/></sort>', options='demote-non-dropping-particle="sort-only"',
         macros='<macro name="short">' + names('form="short"') + '</macro>'),
    item('sorted by counts', 'Sorting: the number of names is a number', TEXT,
         [several('ten', 2000, *'ABCDEFGHIJ', title='X'), several('two', 2000, *'AB', title='Y')], ['Y', 'X'],
         bibliography_sort='<sort><key macro="count"/></sort>', macros='<macro name="count">' + names('form="count"') + '</macro>'),
    # Numbers and collapsing
    cite('ranges of numbers', 'Cite Collapsing: `citation-number`: three or more in a row are a range',
         '<text variable="citation-number"/>', [person(it, it, it, 2000) for it in 'abcdef'], ['[1]', '[2]', '[3]', '[4]', '[1–3, 5, 6]'],
         [cites('a'), cites('b'), cites('c'), cites('d'), cites('a', 'b', 'c', 'e', 'f')],
         in_citation='collapse="citation-number"', affixes='prefix="[" suffix="]" delimiter=", "'),
    cite('years of one author', 'Cite Collapsing: `year`', AUTHOR_YEAR,
         [person('a', 'Ape', 'A', 2000), person('b', 'Ape', 'A', 2001), person('c', 'Bee', 'B', 2002)], ['(Ape 2000, 2001; Bee 2002)'],
         in_citation='collapse="year"', affixes='prefix="(" suffix=")" delimiter="; "'),
    cite('suffixes of years', 'Cite Collapsing: `year-suffix`; Disambiguation: year suffixes',
         AUTHOR_YEAR, [person('a', 'Ape', 'A', 2000, title='A'), person('b', 'Ape', 'A', 2000, title='B')], ['(Ape 2000a, b)'],
         in_citation='collapse="year-suffix" year-suffix-delimiter=", " disambiguate-add-year-suffix="true"',
         affixes='prefix="(" suffix=")" delimiter="; "'),
    cite('ranges of suffixes', 'Cite Collapsing: `year-suffix-ranged`', AUTHOR_YEAR,
         [person(it, 'Ape', 'A', 2000, title=it) for it in 'abc'], ['(Ape 2000a–c)'],
         in_citation='collapse="year-suffix-ranged" year-suffix-delimiter=", " disambiguate-add-year-suffix="true"',
         affixes='prefix="(" suffix=")" delimiter="; "'),
    cite('numbers of a sorted list', 'Sorting: `citation-number`s follow the bibliography', '<text variable="citation-number"/>',
         [person('z', 'Ape', 'A', 2000, title='Z'), person('a', 'Ape', 'A', 2001, title='A')], ['2', '1'], [cites('z'), cites('a')],
         bibliography=TEXT, bibliography_sort='<sort><key variable="title"/></sort>'),
    cite('suffixes of a sorted list', 'Disambiguation: year suffixes follow the bibliography', AUTHOR_YEAR,
         [person('z', 'Ape', 'A', 2000, title='Z'), person('a', 'Ape', 'A', 2000, title='A')], ['Ape 2000b', 'Ape 2000a'],
         [cites('z'), cites('a')], in_citation='disambiguate-add-year-suffix="true"',
         bibliography=TEXT, bibliography_sort='<sort><key variable="title"/></sort>'),
    # Disambiguation
    cite('names are added', 'Disambiguation: `disambiguate-add-names`', AUTHOR_YEAR,
         [several('a', 2000, 'Ape', 'Bee', 'Cat'), several('b', 2000, 'Ape', 'Dog', 'Cat')],
         ['Ape, Bee, et al. 2000; Ape, Dog, et al. 2000'], affixes='delimiter="; "',
         in_citation='et-al-min="3" et-al-use-first="1" disambiguate-add-names="true"'),
    cite('given names are added', 'Disambiguation: `disambiguate-add-givenname`',
         '<group delimiter=" ">' + names('form="short" initialize-with=". "') + YEAR + '</group>',
         [person('a', 'Ape', 'Ann', 2000), person('b', 'Ape', 'Bob', 2000)], ['A. Ape 2000; B. Ape 2000'], affixes='delimiter="; "',
         in_citation='disambiguate-add-givenname="true" givenname-disambiguation-rule="by-cite"'),
    cite('the condition', 'Choose: `disambiguate="true"`',
         AUTHOR_YEAR + '<choose><if disambiguate="true"><text variable="title" prefix=", "/></if></choose>',
         [person('a', 'Ape', 'A', 2000, title='X'), person('b', 'Ape', 'A', 2000, title='Y')], ['Ape 2000, X; Ape 2000, Y'],
         affixes='delimiter="; "'),
    # Notes
    cite('ibid', 'Choose: `position`; the suite of CSL processors: a term that begins a note has a capital',
         '<choose><if position="ibid-with-locator"><text term="ibid"/><text variable="locator" prefix=" "/></if><else-if position="ibid">'
         '<text term="ibid"/></else-if><else-if position="subsequent"><text variable="title" form="short"/></else-if><else>'
         '<text variable="title"/></else></choose>', [{**BOOK, 'title-short': 'rivers'}, PAGE],
         ['the art of rivers', 'Ibid.', 'Ibid. 7', 'Nobody', 'rivers'],
         [cites('book'), cites('book'), cites({'id': 'book', 'locator': '7'}), cites('page'), cites('book')], class_='note'),
    cite('near notes', 'Choose: `position="near-note"`, `near-note-distance`',
         '<choose><if position="near-note"><text value="near"/></if><else-if position="subsequent"><text value="far"/></else-if><else>'
         '<text value="first"/></else></choose>', [BOOK, PAGE], ['first', 'first', 'near', 'near', 'near', 'far'],
         [[{'id': 'book', 'note': 1}], [{'id': 'page', 'note': 2}], [{'id': 'book', 'note': 3}], [{'id': 'page', 'note': 4}],
          [{'id': 'page', 'note': 5}], [{'id': 'book', 'note': 6}]], class_='note', in_citation='near-note-distance="2"'),
    cite('the first note', 'Standard Variables: `first-reference-note-number`',
         '<choose><if position="subsequent"><text variable="first-reference-note-number" prefix="n. "/></if><else>'
         '<text value="first"/></else></choose>', [BOOK, PAGE], ['first', 'first', 'n. 4'],
         [[{'id': 'book', 'note': 4}], [{'id': 'page', 'note': 5}], [{'id': 'book', 'note': 6}]], class_='note'),
    cite('notes of citations', 'csl-citation.json: `noteIndex`',
         '<choose><if position="subsequent"><text variable="first-reference-note-number" prefix="n. "/></if><else>'
         '<text value="first"/></else></choose>', [BOOK, PAGE], ['first', 'first', 'n. 4'],
         [{'citationItems': cites('book'), 'properties': {'noteIndex': 4}}, [{'id': 'page', 'note': 5}],
          {'citationItems': cites({'id': 'book', 'note': 6}), 'properties': {'noteIndex': 6}}], class_='note'),
    cite('own notes', 'docs/WRITER.md: a citation that tells no note has the next one that no other citation tells',
         '<choose><if position="subsequent"><text variable="first-reference-note-number" prefix="n. "/></if><else>'
         '<text value="first"/></else></choose>', [BOOK, PAGE, PAPER], ['first', 'first', 'first', 'n. 2', 'n. 4', 'n. 3'],
         [[{'id': 'page', 'note': 2}], cites('paper'), cites('book'), [{'id': 'page', 'note': 5}], cites('book'), cites('paper')],
         class_='note'),
    cite('words that begin a note', 'docs/WRITER.md: a capital, where a citation of a style of notes tells no note', TEXT, [PAGE],
         ['See Nobody', 'cf. Nobody', 'Élan in Nobody'],
         [[{'id': 'page', 'prefix': 'see'}], [{'id': 'page', 'prefix': 'cf. ', 'note': 9}], [{'id': 'page', 'prefix': 'élan in'}]],
         class_='note'),
    # The bibliography
    item('repeated authors', 'Bibliography: `subsequent-author-substitute`',
         '<group delimiter=". "><names variable="author"><name name-as-sort-order="all"/></names><text variable="title"/></group>',
         [person('a', 'Ape', 'Ann', 2000, title='X'), person('b', 'Ape', 'Ann', 2001, title='Y'), person('c', 'Bee', 'Bob', 2001, title='Z')],
         ['Ape, Ann. X', '———. Y', 'Bee, Bob. Z'], in_bibliography='subsequent-author-substitute="———"'),
    item('repeated authors behind et al.', 'Bibliography: `subsequent-author-substitute` stands where all rendered names match',
         '<group delimiter=". "><names variable="author"><name form="short"/></names><text variable="title"/></group>',
         [several('a', 2000, 'Ape', 'Bee', 'Cat', title='V'), several('b', 2001, 'Ape', 'Bee', 'Dog', title='W'),
          several('c', 2002, 'Ape', 'Bee', title='X'), several('d', 2003, 'Ape', 'Bee', title='Y')],
         ['Ape, Bee, et al. V', '———. W', 'Ape, Bee. X', '———. Y'],
         in_bibliography='subsequent-author-substitute="———" et-al-min="3" et-al-use-first="2"'),
    item('repeated editors', 'Bibliography: `subsequent-author-substitute` replaces the names alone, wherever they stand in',
         '<text macro="author"/><text variable="title" prefix=". "/>',
         [{**EDITED, 'id': it, 'title': it} for it in ('X', 'Y')], ['Moe and Poe, eds. X', '———, eds. Y'],
         in_bibliography='subsequent-author-substitute="———"',
         macros='<macro name="editor"><names variable="editor"><name form="short" and="text"/><label form="short" prefix=", "/></names>'
         '</macro><macro name="author"><names variable="author"><name form="short" and="text"/><substitute><text macro="editor"/>'
         '</substitute></names></macro>'),
    item('the end of a block', 'pandoc, citeproc-js: the suffix of the layout stands inside what `display` sets off',
         '<text variable="title" display="block"/>', [PAGE], ['<div class="csl-block">Nobody.</div>'], to='html', in_layout='suffix="."'),
    item('the first field', 'Whitespace: `second-field-align` sets the first field apart',
         '<text variable="citation-number" suffix=". "/><text variable="title"/>', [PAGE],
         ['<div class="csl-left-margin">1. </div><div class="csl-right-inline">Nobody</div>'], to='html',
         in_bibliography='second-field-align="flush"'),
    item('a first field of several parts', 'Whitespace: the first field is the first element that is there, with its affixes',
         '<group suffix=". ">' + names('form="short"') + '</group><text variable="title"/>' + YEAR, [BOOK, {**EDITED, 'title': 'Waters'}],
         ['<div class="csl-left-margin">Roe. </div><div class="csl-right-inline">the art of rivers2001</div>',
          '<div class="csl-left-margin">Waters</div><div class="csl-right-inline">2010</div>'], to='html',
         in_bibliography='second-field-align="flush"'),
    item('a first field alone', 'pandoc: nothing is set beside a first field with nothing behind it',
         '<text variable="title" suffix=". "/><text variable="publisher"/>', [PAGE],
         ['<div class="csl-left-margin">Nobody. </div>'], to='html', in_bibliography='second-field-align="flush"'),
    item('a first field alone, in its layout', 'pandoc: the suffix of the layout stands with a first field that is all of an item',
         '<text variable="title"/>', [PAGE], ['Nobody.'], in_bibliography='second-field-align="flush"', in_layout='suffix="."'),
    cite('words of the style', 'docs/WRITER.md, Text cases: words of the style and the locale are in the language of the locale',
         '<text value="edition" text-case="uppercase"/><text term="edition" text-case="uppercase" prefix=" "/>'
         '<number variable="edition" form="long-ordinal" text-case="uppercase" prefix=" "/>',
         [{**PAGE, 'language': 'tr', 'edition': '9'}], ['EDITION EDITION NINTH']),
    cite('a setting around an author alone', 'docs/WRITER.md: all that stands in for names is what `author-only` shows',
         '<names variable="author" font-weight="bold"><substitute><names variable="editor"><name form="short"/></names></substitute></names>',
         [EDITED], ['<b>Moe, Poe</b>'], [[{'id': 'edited', 'author-only': True}]], to='html'),
    cite('words in an author alone', 'docs/WRITER.md: all that stands in for names is what `author-only` shows',
         names('form="short"', more='<substitute><text macro="edited"/></substitute>') + YEAR, [EDITED], ['edited by Moe, Poe'],
         [[{'id': 'edited', 'author-only': True}]],
         macros='<macro name="edited"><group delimiter=" "><text value="edited by"/><names variable="editor"><name form="short"/></names>'
         '</group></macro>'),
    cite('no date in affixes', 'Disambiguation: `year-suffix` is behind the words for no date, inside their affixes',
         '<names variable="author"><name form="short"/></names><choose><if variable="issued"><date variable="issued" form="numeric"/></if>'
         '<else><text term="no date" form="short" prefix=" [" suffix="]"/></else></choose>',
         [{'id': it, 'type': 'book', 'title': it, 'author': [{'family': 'Roe', 'given': 'Ann'}]} for it in 'ab'],
         ['Roe [n.d.a]', 'Roe [n.d.b]'], [cites('a'), cites('b')], in_citation='disambiguate-add-year-suffix="true"'),
    item('a first field alone, as text', 'pandoc: nothing is set beside a first field with nothing behind it',
         '<text variable="title" suffix=". "/><text variable="publisher"/>', [PAGE], ['Nobody.'],
         in_bibliography='second-field-align="flush"'),
    cite('a mark that joins nothing', 'docs/WRITER.md, Streams: an affix at the beginning of a citation that is a mark and a space',
         '<group prefix=". "><text variable="title"/></group><text variable="title" prefix=". "/>', [PAGE], ['Nobody. Nobody']),
    cite('a labelled number', 'docs/WRITER.md, Numbers: a label behind a number', '<number variable="edition" form="ordinal"/>',
         [{**BOOK, 'edition': '7, p. 3-8'}, {**BOOK, 'id': 'b', 'edition': 'third'}], ['7th, pp. 3–8', 'third'],
         [cites('book'), cites('b')]),
    cite('variables in a note', 'docs/REFERENCES.md: lines of a note', '<text variable="note"/><text variable="genre" prefix="/"/>',
         [{**PAGE, 'note': 'genre: Sketch\nSeen.'}], ['Seen./Sketch']),
    cite('several variables in a line of a note', 'pandoc, citeproc-js: each in braces of its own',
         '<text variable="note"/><text variable="genre" prefix="/"/><text variable="medium" prefix="/"/>',
         [{**PAGE, 'note': '{:genre: Sketch}{:medium: Ink} Seen.'}], ['Seen./Sketch/Ink']),
    # Cites
    cite('words around a cite', 'docs/WRITER.md: `prefix` and `suffix` of a cite, with a space where there is none', TEXT, [PAGE],
         ['(see Nobody, which is short)'], [[{'id': 'page', 'prefix': 'see', 'suffix': ', which is short'}]], affixes='prefix="(" suffix=")"'),
    cite('no author', 'docs/WRITER.md: `suppress-author`', AUTHOR_YEAR, [BOOK], ['2001'], [[{'id': 'book', 'suppress-author': True}]]),
    cite('the author alone', 'docs/WRITER.md: `author-only`', AUTHOR_YEAR, [BOOK], ['Roe'], [[{'id': 'book', 'author-only': True}]]),
    cite('what stands in for an author alone', 'pandoc, citeproc-js: `author-only` is all that is written for the names',
         '<group delimiter=" "><names variable="author"><name form="short"/><label form="short" prefix=" (" suffix=")"/><substitute>'
         '<names variable="editor"/><text variable="title"/></substitute></names>' + YEAR + '</group>', [PAGE, EDITED],
         ['Nobody', 'Moe, Poe (eds.)'], [[{'id': 'page', 'author-only': True}], [{'id': 'edited', 'author-only': True}]]),
    cite('no author behind other names', 'pandoc, citeproc-js: `suppress-author` leaves out the first names that are there',
         '<group delimiter=", "><names variable="composer"/>' + names('form="short"') + TEXT + '</group>', [BOOK], ['the art of rivers'],
         [[{'id': 'book', 'suppress-author': True}]]),
    cite('a prefix in markup', 'docs/WRITER.md: a space behind a `prefix`', TEXT, [PAGE], ['<i>cf.</i> Nobody'],
         [[{'id': 'page', 'prefix': '<i>cf.</i>'}]], to='html'),
    cite('a suffix in markup or in brackets', 'citeproc-js: a space before a `suffix`', TEXT, [PAGE], ['Nobody <i>sic</i>', 'Nobody (sic)'],
         [[{'id': 'page', 'suffix': '<i>sic</i>'}], [{'id': 'page', 'suffix': '(sic)'}]], to='html'),
    cite('a prefix in brackets', 'citeproc-js: a space behind a `prefix` that ends in a bracket', TEXT, [PAGE], ['(cf.) Nobody', '[sic] Nobody'],
         [[{'id': 'page', 'prefix': '(cf.)'}], [{'id': 'page', 'prefix': '[sic]'}]]),
    cite('a prefix that begins with a mark', 'pandoc, citeproc-js: it takes the place of the delimiter', TEXT, [PAGE, BOOK],
         ['Nobody, the art of rivers'], [[{'id': 'page'}, {'id': 'book', 'prefix': ', '}]], affixes='delimiter="; "'),
    Case('names with a prefix', 'Namespacing: the elements of CSL may have the prefix `cs`',
         PREFIXED, [PAGE], ['Nobody'], [cites('page')]),
    Case('names with a prefix beside another namespace', 'Namespacing: the prefix tells the namespace of the elements of CSL',
         PREFIXED.replace('xmlns:cs=', 'xmlns="http://www.w3.org/1999/xhtml" xmlns:cs='), [PAGE], ['Nobody'], [cites('page')]),
    cite('a hidden cite', 'docs/WRITER.md: `hidden`', TEXT, [PAGE, BOOK], ['the art of rivers'],
         [[{'id': 'page', 'hidden': True}, {'id': 'book'}]]),
]
