"""Cases of BibTeX and BibLaTeX.

What is expected is what the manual of biblatex says, in CSL's terms as pandoc has them (`pandoc -f
biblatex -t csljson`, 2.17).
"""
import edtf
from asking import cases, date_of, item, loads, names_of, text_of, title_of, url_of

PANDOC_TYPES = """article article-journal
book book
booklet pamphlet
bookinbook chapter
collection book
dataset dataset
electronic webpage
inbook chapter
incollection chapter
inproceedings paper-conference
inreference entry-encyclopedia
jurisdiction legal_case
legal treaty
legislation legislation
letter personal_communication
manual book
mastersthesis thesis
movie motion_picture
mvbook book
mvcollection book
mvproceedings book
mvreference book
newsarticle article-newspaper
online webpage
patent patent
performance speech
periodical article-journal
phdthesis thesis
proceedings book
reference book
report report
review review
software book
standard legislation
suppbook chapter
suppcollection chapter
suppperiodical article-journal
techreport report
thesis thesis
unpublished manuscript
video motion_picture
www webpage"""


@cases('line', PANDOC_TYPES.splitlines())
def test_types_as_pandoc_has_them(line):
    kind, wanted = line.split(' ')
    assert item(kind, title='X')[0]['type'] == wanted


@cases('kind, wanted', [
    ('conference', 'paper-conference'), ('misc', 'document'), ('commentary', 'book'),
])
def test_types_that_pandoc_has_not(kind, wanted):
    """biblatex: @conference is an alias of @inproceedings. CSL 1.0.2 has a type for what has no
    other."""
    assert item(kind, title='X') == ({'type': wanted, 'title': 'X'}, [])


def test_a_type_that_is_not_known_is_a_document():
    made, lost = item('leaflet', title='X')
    assert made['type'] == 'document' and lost == [('type', 'no such type, read as a document')]


@cases('subtype, wanted',
                         [('magazine', 'article-magazine'), ('newspaper', 'article-newspaper')])
def test_subtypes_of_articles(subtype, wanted):
    assert item('article', entrysubtype=subtype) == ({'type': wanted}, [])
    assert item('book', entrysubtype=subtype)[1] == [('entrysubtype', 'CSL has no such type')]


# Names

DOE = {'family': 'Doe', 'given': 'Jane'}
GOGH = {'family': 'Gogh', 'given': 'Vincent'}


@cases('source, wanted', [
    ('Jane Doe', [DOE]), ('Doe, Jane', [DOE]), ('Doe,Jane', [DOE]), ('~Doe,~Jane', [DOE]),
    ('Plato', [{'family': 'Plato'}]), ('Doe, Jane AND Plato', [DOE, {'family': 'Plato'}]),
    ('Doe, Jane\n  and\tothers', [DOE, {'literal': 'others'}]),
    ('Vincent van Gogh', [{**GOGH, 'dropping-particle': 'van'}]),
    ('van Gogh, Vincent', [{**GOGH, 'dropping-particle': 'van'}]),
    ('Van Gogh, Vincent', [{'family': 'Van Gogh', 'given': 'Vincent'}]),
    ('{van Gogh}, Vincent', [{'family': 'van Gogh', 'given': 'Vincent'}]),
    ('Jean de la Fontaine',
     [{'family': 'Fontaine', 'given': 'Jean', 'dropping-particle': 'de la'}]),
    ('Jean de La Fontaine',
     [{'family': 'La Fontaine', 'given': 'Jean', 'dropping-particle': 'de'}]),
    ("Charles Louis de la Vall{\\'e}e Poussin",
     [{'family': 'Vallée Poussin', 'given': 'Charles Louis', 'dropping-particle': 'de la'}]),
    ('King, Jr., Martin Luther', [{'family': 'King', 'given': 'Martin Luther', 'suffix': 'Jr.'}]),
    ('von Hicks, III, Michael',
     [{'family': 'Hicks', 'given': 'Michael', 'suffix': 'III', 'dropping-particle': 'von'}]),
    ('{The Foo Group}', [{'literal': 'The Foo Group'}]),
    ('{Barnes and Noble} and {UNESCO}', [{'literal': 'Barnes and Noble'}, {'literal': 'UNESCO'}]),
    ('{Barnes and Noble}, Inc.', [{'family': 'Barnes and Noble', 'given': 'Inc.'}]),
    ('{\\"O}zg{\\"u}r, A.', [{'family': 'Özgür', 'given': 'A.'}]),
    ('Tolkien, J.R.R.', [{'family': 'Tolkien', 'given': 'J. R. R.'}]),
    ('J.-P. Sartre', [{'family': 'Sartre', 'given': 'J.-P.'}]),
    ("Jean d'Alembert", [{'family': 'Alembert', 'given': 'Jean', 'non-dropping-particle': 'd’'}]),
    ('al-Hakim, Tawfiq', [{'family': 'Hakim', 'given': 'Tawfiq', 'non-dropping-particle': 'al-'}]),
    ("O'Neil, Sean", [{'family': 'O’Neil', 'given': 'Sean'}]),
    ('bell hooks', [{'family': 'hooks', 'dropping-particle': 'bell'}]),
    ('hooks, bell', [{'family': 'hooks', 'given': 'bell'}]),
    ('李 明', [{'family': '明', 'given': '李'}]),
    ('given=Hans, family=Harman', [{'family': 'Harman', 'given': 'Hans'}]),
    ('family=Gogh, given=Vincent, prefix=van, useprefix=true',
     [{**GOGH, 'non-dropping-particle': 'van'}]),
])
def test_names(source, wanted):
    assert names_of(source) == (wanted, [])


@cases('source, wanted, lost', [
    ('Doe, Jane and', [DOE], []),
    ('Doe, Jane and and Plato', [DOE, {'family': 'Plato'}], ['an empty name']),
    ('Doe, Jr., Jane, X', [{**DOE, 'given': 'Jane X', 'suffix': 'Jr.'}],
     ['a name of more than three parts, Doe, Jr., Jane, X']),
    ('{}', [], ['an empty name']), (',', [], ['an empty name']),
])
def test_names_of_which_something_is_told(source, wanted, lost):
    assert names_of(source) == (wanted, lost)


@cases('options', ['useprefix', 'useprefix=true', 'skipbib, useprefix = true'])
def test_particles_stay_where_the_entry_says_so(options):
    made, lost = item(author='van Gogh, Vincent', options=options)
    assert made['author'] == [{**GOGH, 'non-dropping-particle': 'van'}] and lost == []


def test_roles():
    fields = {'author': 'A', 'bookauthor': 'B', 'translator': 'T', 'editor': 'E',
              'illustrator': 'I'}
    made, lost = item('inbook', **fields)
    variables = ['author', 'container-author', 'translator', 'editor', 'illustrator']
    wanted = {variable: [{'family': name}] for variable, name in zip(variables, 'ABTEI')}
    assert {variable: made[variable] for variable in variables} == wanted
    assert lost == []


@cases('kind, variable, lost', [
    ('editor', 'editor', []), ('director', 'director', []),
    ('compiler', 'editor', [('editortype', 'stands as an editor')]),
])
def test_kinds_of_editors(kind, variable, lost):
    made, told = item(editor='Doe, Jane', editortype=kind)
    assert made[variable] == [DOE] and told == lost


def test_further_editors():
    made, lost = item(editor='A', editora='B', editoratype='compiler', editorb='C',
                      editorbtype='redactor',
                      editorc='D')
    assert (made['editor'], made['compiler']) == ([{'family': 'A'}], [{'family': 'B'}])
    assert lost == [('editorb', 'CSL has no place for more names of the kind redactor'),
                    ('editorc', 'CSL has no place for more names of the kind editor')]


@cases('name', ['introduction', 'foreword', 'afterword', 'commentator',
                                  'annotator', 'holder',
                                  'shortauthor'])
def test_names_that_csl_has_no_place_for_are_told(name):
    assert item(**{name: 'Doe, Jane'}) == ({'type': 'book'}, [(name, 'CSL has no place for it')])


# Dates

@cases('text, wanted', edtf.KEPT)
def test_dates_that_are_kept_whole(text, wanted):
    assert date_of(text) == (wanted, [])


@cases('text, wanted, lost', edtf.LOST)
def test_dates_of_which_something_is_told(text, wanted, lost):
    assert date_of(text) == (wanted, [lost])


@cases('fields, wanted', [
    ({'year': '1999'}, {'date-parts': [[1999]]}), ({'year': '99'}, {'date-parts': [[99]]}),
    ({'year': '1999', 'month': 'March'}, {'date-parts': [[1999, 3]]}),
    ({'year': '1999', 'month': '3', 'day': '5'}, {'date-parts': [[1999, 3, 5]]}),
    ({'year': '1999', 'month': 'Summer'}, {'date-parts': [[1999]], 'season': 2}),
    ({'year': '1999', 'endyear': '2001'}, {'date-parts': [[1999], [2001]]}),
    ({'year': '1999', 'month': '3', 'endyear': '1999', 'endmonth': 'may'},
     {'date-parts': [[1999, 3], [1999, 5]]}),
    ({'year': '1999/2000'}, {'date-parts': [[1999], [2000]]}),
    ({'year': '1999--2000'}, {'date-parts': [[1999], [2000]]}),
    ({'date': '1999', 'year': '2001', 'month': '3'}, {'date-parts': [[1999]]}),
    ({'date': '{1999}-05'}, {'date-parts': [[1999, 5]]}),
])
def test_dates_of_entries(fields, wanted):
    assert item(**fields) == ({'type': 'book', 'issued': wanted}, [])


def test_other_dates():
    made, lost = item(urldate='2019-03-05', origyear='1850', eventdate='1999/2000')
    assert made['accessed'] == {'date-parts': [[2019, 3, 5]]}
    assert made['original-date'] == {'date-parts': [[1850]]} and lost == []
    assert made['event-date'] == {'date-parts': [[1999], [2000]]}


def test_a_month_that_is_none_is_told():
    assert item(year='1999', month='soon')[1] == [('month', 'no month, and no season')]
    assert item(year='{in press}') == ({'type': 'book', 'issued': {'literal': 'in press'}},
                                       [('year', 'no date of a known form: kept as a text')])


def test_months_by_their_macros():
    for place, name in enumerate('jan feb mar apr may jun jul aug sep oct nov dec'.split()):
        read = loads(f'@book{{k, year = 1999, month = {name}}}')
        assert read.items[0]['issued'] == {'date-parts': [[1999, place + 1]]}


# LaTeX

@cases('source, wanted', [
    ("Caf\\'e na\\\"{\\i}ve {\\AA}ngstr{\\\"o}m \\o{} \\ss{} \\L{}od\\'z",
     'Café naïve Ångström ø ß Łodź'),
    ('\\c{c}a \\v{S}koda \\=a \\H{o} \\k{a} \\.z \\u{g} \\r{u} \\d{a}', 'ça Škoda ā ő ą ż ğ ů ạ'),
    ("\\~n \\'{\\i} \\^\\i\\ {\\'{E}}", 'ñ í î É'),
    ('10\\% \\& \\$5 \\# \\_ \\{x\\}', '10% & $5 # _ {x}'),
    ('a---b--c-d', 'a—b–c-d'), ("``a `b' c''", '“a ‘b’ c”'),
    ("it's ?`que? !`ay!", 'it’s ¿que? ¡ay!'),
    ('A~B\\ C\\,D\\/E', 'A\u00a0B C\u2006DE'), ('\\LaTeX{} and \\TeX\\ x', 'LaTeX and TeX x'),
    ('\\emph{a \\textbf{b}} \\textsc{c}',
     '<i>a <b>b</b></i> <span style="font-variant:small-caps;">c</span>'),
    ('\\textit{a \\emph{b}}', '<i>a <i>b</i></i>'), ('{\\em a b} {\\bf c}', '<i>a b</i> <b>c</b>'),
    ('CO\\textsubscript{2}, x\\textsuperscript{th}', 'CO<sub>2</sub>, x<sup>th</sup>'),
    ('\\enquote{a \\enquote{b} c}', '“a ‘b’ c”'),
    ('\\mkbibquote{a} \\mkbibemph{b}', '“a” <i>b</i>'),
    ('\\url{http://a.b/c_d%20}', 'http://a.b/c_d%20'), ('\\href{http://a.b}{text}', 'text'),
    ('\\textnormal{a} \\mbox{b} \\texttt{c}', 'a b c'), ('a\\nocite{x}b \\noopsort{1990}c', 'ab c'),
    ('\\foreignlanguage{french}{Le Monde}', 'Le Monde'), ('\\MakeUppercase{abc}', 'ABC'),
    ('a\\\\b\\newline c', 'a b c'), ('Σ Ω', 'Σ Ω'), ('\\textquoteleft a\\textquoteright', '‘a’'),
    ('$x^2$, CO$_2$, $\\alpha$', '<i>x</i><sup>2</sup>, CO<sub>2</sub>, <i>α</i>'),
    ('a {\\&} b{}', 'a & b'),
    ('', ''), ('\\', ''),
    ("\\'", '\u00a0\u0301'),
])
def test_latex(source, wanted):
    assert text_of(source) == (wanted, [])


@cases('source, text, unknown', [
    ('\\foo{a} b', 'a b', ['foo']), ('\\foo \\bar x \\foo', 'x', ['foo', 'bar']),
    ('$\\foo{a}$', '\\foo{a}', ['$']),
    ('$a^$', 'a^', ['$']), ('$\\frac{a}{b}$', '\\frac{a}{b}', ['$']),
])
def test_commands_that_are_not_known_are_told(source, text, unknown):
    reasons = ['a formula, kept as its source' if word == '$' else 'the command \\' + word
               for word in unknown]
    assert text_of(source) == (text, reasons)


def test_what_is_lost_of_a_text_is_told_by_its_field():
    made, lost = item(title='\\foo{A} Title', note='$\\frac12$')
    assert made['title'] == 'A title' and made['note'] == '\\frac12'
    assert lost == [('title', 'the command \\foo'), ('note', 'a formula, kept as its source')]


@cases('source, wanted', [
    ('x_1 + y', '<i>x</i><sub>1</sub>+<i>y</i>'), ('\\mathcal{O}(n^2)', '𝒪(<i>n</i><sup>2</sup>)'),
    ('\\mathbb{R}^n', 'ℝ<sup><i>n</i></sup>'), ('10^{-3}', '10<sup>−3</sup>'),
    ('\\mathrm{CO}_2', 'CO<sub>2</sub>'),
    ('a \\leq \\infty', '<i>a</i>≤∞'), ('\\mathbf{v}', '<b>v</b>'), ('\\text{a b}', 'a b'),
    ('x^\\alpha', '<i>x</i><sup><i>α</i></sup>'),
])
def test_formulas(source, wanted):
    assert text_of(f'${source}$') == (wanted, [])


@cases('source, wanted', [
    ('http://a.b/c_d%20', 'http://a.b/c_d%20'),
    ('http://a.b/c\\_d\\%20\\&x', 'http://a.b/c_d%20&x'),
    ('\\url{http://a.b}', 'http://a.b'),
    ('http://a.b/{\\textasciitilde}c', 'http://a.b/~c'),
    ('http://a.b/\\textasciitilde c', 'http://a.b/~c'),
    ('10.1000/a{\\_}b{_}c', '10.1000/a_b_c'),
])
def test_addresses_have_no_commands(source, wanted):
    assert url_of(source) == wanted


# Titles

@cases('source, wanted', [
    # as pandoc has them
    ('The Title of a Book', 'The title of a book'),
    ('Title: Subtitle Here', 'Title: Subtitle here'),
    ('A {NASA} History', 'A NASA history'), ('{The Whole Title}', 'The Whole Title'),
    ('iPhone McDonald DNA mRNA', 'iPhone McDonald DNA mRNA'),
    ('A New-World Order', 'A new-world order'),
    ('What? No Answer! Is', 'What? No answer! Is'), ('of Mice and Men', 'Of mice and men'),
    ('(Re)Think The {World}', '(Re)think the World'), ('Foo: “Bar Baz” Qux', 'Foo: “Bar baz” qux'),
    ('Foo {\\"O}sterreich Bar', 'Foo Österreich bar'), ('Foo \\"{O}sterreich', 'Foo österreich'),
    ('Universit{\\"a}t Bar Universit{\\"a}t', 'Universität bar universität'),
    ('Foo: 3 Things', 'Foo: 3 things'),
    ('Foo; Bar, Baz --- Qux', 'Foo; bar, baz — qux'), ('{A}lpha {B}eta', 'Alpha Beta'),
    ('3D Printing', '3D printing'),
    ('e-Learning at eBay', 'E-learning at eBay'), ('DNA-Based Methods', 'DNA-based methods'),
    ("it's a Dog's Life", 'It’s a dog’s life'),
    ('\\emph{Homo Sapiens} Today', '<i>Homo sapiens</i> today'),
    # where pandoc has something else
    ('Foo: Bar', 'Foo: Bar'), ('The U.S. Policy', 'The U.S. policy'),
    ('Vitamin C and E. coli', 'Vitamin C and E. coli'),
    ("On O'Neil and L'Homme", 'On O’Neil and L’Homme'), ('This Is A Test', 'This is a test'),
])
def test_english_titles_are_put_into_sentence_case(source, wanted):
    assert title_of(source) == wanted


@cases('source, wanted', [
    ('On {de novo} Things', 'On <span class="nocase">de novo</span> things'),
    ('On {\\emph{Homo} sapiens}', 'On <span class="nocase"><i>Homo</i> sapiens</span>'),
    # what has a capital no style changes, nor a part of a word
    ('On {iPhone} and {DNA} and Universit{\\"a}t {m}RNA', 'On iPhone and DNA and universität mRNA'),
])
def test_words_that_keep_their_case(source, wanted):
    assert title_of(source) == wanted


@cases('fields, lang, wanted', [
    ({'langid': 'german'}, 'en-US', 'Die Struktur der Welt'),
    ({'langid': 'english'}, 'de-DE', 'Die struktur der welt'),
    ({}, 'de-DE', 'Die Struktur der Welt'), ({}, 'en-GB', 'Die struktur der welt'),
    ({'language': 'de'}, 'en-US', 'Die Struktur der Welt'),
    ({'langid': 'en-GB'}, 'de-DE', 'Die struktur der welt'),
])
def test_the_language_tells_whether_a_title_is_english(fields, lang, wanted):
    assert item(title='Die Struktur der Welt', lang=lang, **fields)[0]['title'] == wanted


@cases('name, wanted', [
    ('german', 'de-DE'), ('ngerman', 'de-DE'), ('american', 'en-US'), ('UKenglish', 'en-GB'),
    ('french', 'fr-FR'),
    ('brazilian', 'pt-BR'), ('latin', 'la'), ('de', 'de'), ('en-gb', 'en-GB'),
    ('german and english', 'de-DE'),
])
def test_languages(name, wanted):
    assert item(language=name) == ({'type': 'book', 'language': wanted}, [])


def test_a_language_that_is_not_known_is_told():
    assert item(langid='klingonish')[1] == [('langid',
                                             'no language of babel, polyglossia or ISO 639')]


def test_titles_are_joined_as_pandoc_joins_them():
    made = item(title='Main Title', subtitle='Sub Title', titleaddon='Add')[0]
    assert (made['title'], made['title-short']) == ('Main title: Sub title. Add', 'Main title')
    assert item(title='What?', subtitle='Sub')[0]['title'] == 'What? Sub'
    assert item(title='Is It: Yes')[0] == {'type': 'book', 'title': 'Is it: Yes',
                                           'title-short': 'Is it'}
    assert item(title='T', subtitle='S', shorttitle='Short')[0]['title-short'] == 'Short'


def test_titles_of_volumes():
    made = item(title='Volume', maintitle='All', mainsubtitle='Of It', volume='2', part='1')[0]
    assert made == {'type': 'book', 'title': 'All: Of it', 'volume-title': 'Volume',
                    'volume': '2.1'}
    made = item('inbook', title='Part', booktitle='Volume', maintitle='All')[0]
    assert made == {'type': 'chapter', 'title': 'Part', 'container-title': 'All',
                    'volume-title': 'Volume'}


def test_titles_of_journals_keep_their_case():
    made = item('article', title='A Title', journaltitle='The \\emph{Best} {J}ournal',
                journalsubtitle='Of All',
                shortjournal='J. Best', issuetitle='Special')
    assert made == ({'type': 'article-journal', 'title': 'A title',
                     'container-title': 'The <i>Best</i> Journal: Of All',
                     'container-title-short': 'J. Best'},
                    [('issuetitle', 'CSL has no place for it')])


@cases('series, wanted', [
    ('Lecture Notes', 'Lecture notes'), ('3', '3rd series'), ('11', '11th series'),
    ('newseries', 'New series'),
])
def test_series(series, wanted):
    assert item(series=series, number='7')[0] == {'type': 'book', 'collection-title': wanted,
                                                  'collection-number': '7'}


# Numbers, publishers, identifiers

@cases('kind, fields, wanted', [
    ('article', {'number': '7'}, {'issue': '7'}),
    ('article', {'number': '7', 'issue': 'Spring'}, {'issue': '7, Spring'}),
    ('article', {'issue': 'Spring'}, {'issue': 'Spring'}),
    ('report', {'number': '7'}, {'number': '7'}),
    ('book', {'number': '7'}, {'collection-number': '7'}), ('book', {'part': '2'}, {'volume': '2'}),
    ('article', {'volume': '3--4'}, {'volume': '3–4'}),
    ('article', {'pages': '11--22, 30'}, {'page': '11-22, 30'}),
    ('article', {'pages': '11–22'}, {'page': '11-22'}),
    ('article', {'eid': 'e12'}, {'page': 'e12'}),
    ('book', {'volumes': '3', 'pagetotal': 'xii+300', 'chapter': '4', 'version': '2',
              'edition': '2nd'},
     {'number-of-volumes': '3', 'number-of-pages': 'xii+300', 'chapter-number': '4', 'version': '2',
      'edition': '2nd'}),
])
def test_numbers(kind, fields, wanted):
    made, lost = item(kind, **fields)
    made.pop('type')
    assert (made, lost) == (wanted, [])


def test_publishers_and_places():
    made = item(publisher='P and {Q and R}', location='Berlin and New York', organization='O',
                origpublisher='X',
                origlocation='Y', venue='V')
    assert made == ({'type': 'book', 'publisher': 'O; P; Q and R',
                     'publisher-place': 'Berlin; New York',
                     'original-publisher': 'X', 'original-publisher-place': 'Y',
                     'event-place': 'V'}, [])
    assert item(form='bibtex', publisher='Smith and Sons')[0]['publisher'] == 'Smith and Sons'


@cases('kind, told, genre', [
    ('phdthesis', None, 'PhD thesis'), ('mastersthesis', None, 'Master’s thesis'),
    ('thesis', 'candthesis', 'Candidate thesis'),
    ('report', 'techreport', 'technical report'), ('patent', 'patentus', 'U.S. patent'),
    ('thesis', 'Habilitation', 'Habilitation'),
    ('thesis', None, None),
])
def test_genres(kind, told, genre):
    assert item(kind, **({'type': told} if told else {}))[0].get('genre') == genre


@cases('fields, url', [
    ({'eprint': '1234.5678', 'eprinttype': 'arxiv'}, 'https://arxiv.org/abs/1234.5678'),
    ({'eprint': 'cs/01', 'archiveprefix': 'arXiv', 'primaryclass': 'cs.AI'},
     'https://arxiv.org/abs/cs/01'),
    ({'eprint': '12', 'eprinttype': 'jstor'}, 'https://www.jstor.org/stable/12'),
    ({'howpublished': '\\url{http://a.b}'}, 'http://a.b'),
    ({'url': 'http://a.b/c\\_d'}, 'http://a.b/c_d'),
])
def test_addresses_of_works(fields, url):
    assert item('misc', **fields) == ({'type': 'document', 'URL': url}, [])


def test_an_eprint_that_is_not_shown_is_told():
    assert item(eprint='1', eprinttype='foo')[1] == [('eprint', 'no known archive foo')]
    assert item(eprint='1')[1] == [('eprint', 'no eprinttype names its archive')]
    assert item(eprint='1', eprinttype='arxiv',
                url='http://a.b')[1] == [('eprint', 'the URL stands alone')]


@cases('doi', ['10.1000/x_y', 'https://doi.org/10.1000/x_y', 'doi:10.1000/x\\_y',
                                 'http://dx.doi.org/10.1000/x_y'])
def test_a_doi_is_bare(doi):
    assert item(doi=doi) == ({'type': 'book', 'DOI': '10.1000/x_y'}, [])


def test_notes():
    made = item(note='N', addendum='A.', annotation='An', abstract='Ab', keywords='a, b',
                library='L', shorthand='S',
                pubstate='inpress', isbn='1', issn='2', pmid='3')
    assert made == ({'type': 'book', 'note': 'N. A.', 'annote': 'An', 'abstract': 'Ab',
                     'keyword': 'a, b', 'call-number': 'L',
                     'citation-label': 'S', 'status': 'in press', 'ISBN': '1', 'ISSN': '2',
                     'PMID': '3'}, [])


def test_fields_of_programs_are_not_told_and_others_are():
    made, lost = item(file='x.pdf', timestamp='1', usera='U', sortkey='k', title='{}')
    assert made == {'type': 'book'} and lost == [('usera', 'CSL has no place for it')]


# What entries inherit

PARENT = ('@{}{{p, title = {{Parent Title}}, subtitle = {{Sub}}, author = {{Par, Ent}}, '
          'date = {{1999}}, publisher = {{Pub}}, shorttitle = {{Short}}, ids = {{x}}{}}}')


@cases('child, parent, field', [
    # (the defaults of the manual of biblatex, "Data inheritance")
    ('inbook', 'book', 'container-title'), ('suppbook', 'book', 'container-title'),
    ('incollection', 'collection', 'container-title'),
    ('inreference', 'reference', 'container-title'),
    ('inproceedings', 'proceedings', 'container-title'),
    ('article', 'periodical', 'container-title'), ('book', 'mvbook', 'title'),
    ('collection', 'mvcollection', 'title'),
    ('inbook', 'mvbook', 'container-title'), ('incollection', 'book', 'container-title'),
])
def test_titles_of_parents(child, parent, field):
    made, lost = item(child, crossref='p', title='Child', more=PARENT.format(parent, ''))
    own = 'volume-title' if field == 'title' else 'title'
    title = 'Parent Title: Sub' if parent == 'periodical' else 'Parent title: Sub'
    assert (made[field], made[own]) == (title, 'Child') and lost == []
    assert made['publisher'] == 'Pub' and made['issued'] == {'date-parts': [[1999]]}
    assert 'title-short' not in made


def test_the_author_of_a_book_is_that_of_its_parts():
    made = item('inbook', crossref='p', title='C', more=PARENT.format('book', ''))[0]
    assert made['author'] == made['container-author'] == [{'family': 'Par', 'given': 'Ent'}]
    assert 'container-author' not in item('incollection', crossref='p',
                                          more=PARENT.format('collection', ''))[0]


def test_parents_for_bibtex_tell_the_title_of_the_book():
    more = PARENT.format('book', ', booktitle = {The Book}')
    for form in ('bibtex', 'biblatex'):
        made, lost = item('incollection', crossref='P', title='Child', form=form, more=more)
        assert (made['title'], made['container-title']) == ('Child', 'The book') and lost == []


def test_own_fields_count_before_those_of_parents():
    made = item('inbook', crossref='p', booktitle='Own', year='2001',
                more=PARENT.format('book', ''))[0]
    assert made['container-title'] == 'Own' and made['issued'] == {'date-parts': [[2001]]}


def test_parents_of_parents():
    more = ('@book{m, crossref = {mv}, title = {Middle}}\n'
            '@mvbook{mv, title = {Multi}, publisher = {Pub}}')
    made = item('inbook', crossref='m', title='Child', more=more)[0]
    assert made == {'type': 'chapter', 'title': 'Child', 'container-title': 'Multi',
                    'volume-title': 'Middle', 'publisher': 'Pub'}


def test_xdata():
    text = '''@book{k, xdata = {a, b}, title = {Own}}
        @xdata{a, publisher = {One}, title = {No}}
        @xdata{b, location = {Place}, publisher = {Two}}'''
    assert loads(text).items == [
        {'id': 'k', 'type': 'book', 'title': 'Own', 'publisher': 'Two', 'publisher-place': 'Place'}]


@cases('more, reason', [
    ('', 'there is no entry p'), ('@book{p, crossref = {o}}', 'there is no entry o'),
    ('@book{p, crossref = {k}, publisher = {Pub}}', 'a ring of entries, with k'),
])
def test_parents_that_are_not_there_or_go_round_are_told(more, reason):
    made, lost = item('inbook', crossref='p', title='T', more=more)
    assert made['title'] == 'T' and lost == [('crossref', reason)]
    assert made.get('publisher') == ('Pub' if 'ring' in reason else None)


@cases('parent_of', [
    lambda number: f'crossref = {{k{number + 1}}}', lambda number: f'xdata = {{k{number + 1}}}',
    lambda number: f'crossref = {{k{(number + 1) % 500}}}',
    lambda number: f'xdata = {{k{(number + 1) % 500}, k{(number + 2) % 500}}}',
])
def test_chains_and_rings_of_many_entries_cost_no_other(parent_of):
    text = ''.join(f'@book{{k{number}, title = {{T{number}}}, {parent_of(number)}}}\n'
                   for number in range(500))
    read = loads(f'{text}@book{{k500, publisher = {{Pub}}}}\n@book{{a, title = {{A}}}}')
    titles = {item['id']: item.get('title') for item in read.items}
    assert titles == {**{f'k{number}': f'T{number}' for number in range(500)},
                      'k500': None, 'a': 'A'} and read.faults == []
    assert any(loss.key == 'k0' and 'more than 100 entries' in loss.reason for loss in read.losses)


def test_a_chain_of_entries_hands_all_down():
    text = ''.join(f'@book{{k{number}, crossref = {{k{number + 1}}}}}\n' for number in range(50))
    read = loads(f'{text}@book{{k50, publisher = {{Pub}}}}')
    assert [item.get('publisher') for item in read.items] == 51 * ['Pub'] and not read.losses


# What is wrong in .bib files

def test_strings_that_double_cost_only_what_has_them():
    """29 times, 10 letters would be more than 5 GB."""
    text = '@string{s0 = "0123456789"}\n' + ''.join(
        f'@string{{s{number} = s{number - 1} # s{number - 1}}}\n' for number in range(1, 30))
    read = loads(f'{text}@book{{a, title = {{A}}, note = s29}}\n'
                            '@book{b, title = {B}, note = s2}')
    assert [(item['title'], item.get('note')) for item in read.items] == [
        ('A', None), ('B', 4 * '0123456789')]
    assert [line for line, _, reason in read.faults if 'a string of more than' in reason] == [15]


def test_a_string_that_entries_have_many_times_is_left_out_behind():
    text = f'@string{{s = "{90000 * "x"}"}}\n' + ''.join(
        f'@book{{k{number}, title = {{T{number}}}, note = s}}\n' for number in range(120))
    read = loads(text)
    assert [len(item.get('note', '')) for item in read.items] == 111 * [90000] + 9 * [0]


def test_an_entry_that_breaks_off_costs_no_other():
    text = '\n'.join(['@string{x = {X Press}}', '@book{a, title = {A, author = {X}}',
                      '@book{b, title = {B}, publisher = x}', '@book{c, title = {C} author = {D}}',
                      '@book{, title = {E}}', '@misc{f, title = {F}, note = nowhere}'])
    read = loads(text)
    assert [item['id'] for item in read.items] == ['a', 'b', 'c', 'f']
    assert read.items[1]['publisher'] == 'X Press' and read.items[3]['title'] == 'F'
    assert [fault[:2] for fault in read.faults] == [(3, 1), (4, 22), (5, 7), (6, 30)]


def test_a_second_field_and_a_second_entry_are_told():
    read = loads('@book{k, title = {A}, TITLE = {B}}\n@book{k, title = {C}}')
    assert [item['title'] for item in read.items] == ['A']
    assert [(loss.field, loss.reason) for loss in read.losses] == [
        ('title', 'a second field of this name, left out'),
        ('id', 'a second item of this id, left out')]


def test_what_is_no_work_is_left_out():
    text = '@set{s, entryset = {a}}\n@comment{x}\n@preamble{"x"}\n@book{a, title = {A}}'
    read = loads(text)
    assert [item['id'] for item in read.items] == ['a']
    assert [loss.key for loss in read.losses] == ['s']
