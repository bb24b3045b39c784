"""Published styles, by the writer of the library.

What is expected is what CSL 1.0.2 says, or what pandoc prints of the same (`pandoc --citeproc`,
2.17), where a test says so.
"""
import json

import pytest

import gamhilon
from gamhilon import csl
from gamhilon.csl import locales

HEAD = '<style xmlns="http://purl.org/net/xbiblio/csl" version="1.0" class="{}"{}>{}'
INFO = '<info><title>Own</title><id>own</id><updated>2026-11-27T00:00:00+00:00</updated></info>'
NORMAL = {'font_style': 'normal', 'font_weight': 'normal'}
NAMES = '<names variable="author"><name form="short"/></names>'
DATE = '<date variable="issued"><date-part name="year"/></date>'
BOTH = f'<group delimiter=" ">{NAMES}{DATE}</group>'
TITLE = '<text variable="title"/>'


def entry(key, *names, year=None, **more):
    """A book by some names, each `Family, Given`."""
    persons = [dict(zip(('family', 'given'), name.split(', '))) for name in names]
    issued = {} if year is None else {'issued': {'date-parts': [[year]]}}
    return {'id': key, 'type': 'book', 'title': f'Title {key}',
            **({'author': persons} if persons else {}), **issued, **more}


def style_of(layout, attributes='', layout_attributes='prefix="(" suffix=")" delimiter="; "',
             style_class='in-text', before='', sort='', bibliography='', more=''):
    """The text of a style, of which this is the layout of cites, and what else is given."""
    head = HEAD.format(style_class, more, INFO)
    return (f'{head}{before}<citation {attributes}>{sort}<layout {layout_attributes}>{layout}'
            f'</layout></citation>{bibliography}</style>')


@pytest.fixture
def render(cites):
    """Renders citations in a style of which this is the layout of cites, and what else is given."""
    def rendered(layout, entries, *citations, locale=None, **more):
        given = [[{'id': cite} if isinstance(cite, str) else cite for cite in citation]
                 for citation in citations]
        return csl.render(style_of(layout, **more), entries, given, locale=locale)
    return rendered


# Names

def test_names_are_added_up_to_the_one_that_differs(render):
    """CSL: with et-al-use-first 1, names are added until the cites differ, and none is skipped."""
    entries = [entry('one', 'Miller', 'Tanaka', 'Novak', 'Silva', year=2018),
               entry('two', 'Miller', 'Tanaka', 'Olsen', 'Petrov', year=2018)]
    told = render(BOTH, entries, ['one'], ['two'],
                  attributes='disambiguate-add-names="true" et-al-min="3" et-al-use-first="1"')
    assert told.citations == ['(Miller, Tanaka, Novak, et al. 2018)',
                              '(Miller, Tanaka, Olsen, et al. 2018)']


def test_given_names_by_cite_are_initials_where_these_differ(render):
    names = '<names variable="author"><name form="short" initialize-with=". "/></names>'
    entries = [entry('one', 'Doe, Jane', year=1999), entry('two', 'Doe, Mary', year=1999),
               entry('three', 'Doe, Jim', year=2000)]
    attributes = 'disambiguate-add-givenname="true" givenname-disambiguation-rule="by-cite"'
    told = render(f'<group delimiter=" ">{names}{DATE}</group>', entries, ['one'], ['two'],
                  ['three'], attributes=attributes)
    assert told.citations == ['(J. Doe 1999)', '(M. Doe 1999)', '(Doe 2000)']


def test_given_names_by_other_rules_tell_all_persons(render):
    """CSL: the rule `primary-name` disambiguates names, also of cites that aren't ambiguous."""
    entries = [entry('one', 'Doe, Jane', 'Poe, Al', year=1999),
               entry('two', 'Doe, John', year=2004), entry('three', 'Poe, Ed', year=2005)]
    attributes = 'disambiguate-add-givenname="true" givenname-disambiguation-rule="{}"'
    one, two = (render(BOTH, entries, ['one'], ['two'], ['three'],
                       attributes=attributes.format(rule)).citations
                for rule in ('primary-name', 'all-names'))
    assert one == ['(Jane Doe, Poe 1999)', '(John Doe 2004)', '(Poe 2005)']
    assert two == ['(Jane Doe, Al Poe 1999)', '(John Doe 2004)', '(Ed Poe 2005)']


def test_later_cites_may_be_cut_at_other_numbers(render):
    attributes = ('et-al-min="4" et-al-use-first="1" '
                  'et-al-subsequent-min="3" et-al-subsequent-use-first="1"')
    told = render(BOTH, [entry('one', 'Doe', 'Roe', 'Poe', year=1999)], ['one'], ['one'],
                  attributes=attributes)
    assert told.citations == ['(Doe, Roe, Poe 1999)', '(Doe et al. 1999)']


def test_given_names_stay_where_initialize_is_false(render):
    names = '<names variable="author"><name initialize="false" initialize-with=". "/></names>'
    assert render(names, [entry('one', 'Doe, Jane')], ['one']).citations == ['(Jane Doe)']


# Year suffixes and conditions

def test_a_suffix_stands_behind_the_first_date(render):
    layout = (f'<group delimiter=" ">{NAMES}<date variable="issued" prefix="[" suffix="]">'
              '<date-part name="year"/></date></group>')
    entries = [entry('one', 'Doe', year=1999), entry('two', 'Doe', year=1999)]
    told = render(layout, entries, ['one'], ['two'],
                  attributes='disambiguate-add-year-suffix="true"')
    assert told.citations == ['(Doe [1999a])', '(Doe [1999b])']


def test_a_suffix_stands_where_the_style_writes_it(render):
    layout = f'<group delimiter=" ">{DATE}{NAMES}<text variable="year-suffix" prefix="-"/></group>'
    entries = [entry('one', 'Doe', year=1999), entry('two', 'Doe', year=1999),
               entry('three', 'Roe', year=1999)]
    told = render(layout, entries, ['one'], ['two'], ['three'],
                  attributes='disambiguate-add-year-suffix="true"')
    assert told.citations == ['(1999 Doe -a)', '(1999 Doe -b)', '(1999 Roe)']


def test_the_term_for_no_date_takes_a_suffix(render):
    """As pandoc prints it in the style elsevier-harvard."""
    layout = f'''<group delimiter=" ">{NAMES}<choose><if variable="issued">{DATE}</if>
        <else><text term="no date" form="short"/></else></choose></group>'''
    told = render(layout, [entry('one', 'Doe'), entry('two', 'Doe')], ['one'], ['two'],
                  attributes='disambiguate-add-year-suffix="true"')
    assert told.citations == ['(Doe n.d.a)', '(Doe n.d.b)']


BY_TITLE = ('<bibliography><sort><key variable="title"/></sort>'
            f'<layout>{BOTH}<text variable="title" prefix=". "/></layout></bibliography>')


def test_suffixes_follow_the_bibliography(render):
    """CSL: whichever work is cited first."""
    entries = [entry(key, 'Doe', year=1999) for key in 'ba']
    told = render(BOTH, entries, ['b'], ['a'], attributes='disambiguate-add-year-suffix="true"',
                  bibliography=BY_TITLE)
    assert told.citations == ['(Doe 1999b)', '(Doe 1999a)']
    assert list(told.bibliography.values()) == ['Doe 1999a. Title a', 'Doe 1999b. Title b']


def test_names_that_are_added_stay_where_a_suffix_is_needed(render):
    """CSL: names tell two pairs of works, each of which reads alike but for its suffixes."""
    others = {'d': 'Tanaka', 'c': 'Olsen', 'b': 'Tanaka', 'a': 'Olsen'}
    entries = [entry(key, 'Miller', name, 'Kim', year=2018) for key, name in others.items()]
    attributes = ('disambiguate-add-names="true" disambiguate-add-year-suffix="true" '
                  'et-al-min="3" et-al-use-first="1"')
    told = render(BOTH, entries, *[[other] for other in others], attributes=attributes,
                  bibliography=BY_TITLE)
    assert told.citations == ['(Miller, Tanaka, et al. 2018b)', '(Miller, Olsen, et al. 2018b)',
                              '(Miller, Tanaka, et al. 2018a)', '(Miller, Olsen, et al. 2018a)']


TITLE_IF_NEEDED = (f'{NAMES}<choose><if disambiguate="true">'
                   '<text variable="title" prefix=", "/></if></choose>')


def test_the_condition_disambiguate_holds_for_all_works_that_read_alike(render):
    """CSL: also for the first of them."""
    works = [entry('one', 'Doe'), entry('two', 'Doe'), entry('three', 'Roe'), entry('four', 'Doe')]
    told = render(TITLE_IF_NEEDED, works, ['one'], ['two'], ['three'], ['one', 'four'])
    assert told.citations == ['(Doe, Title one)', '(Doe, Title two)', '(Roe)',
                              '(Doe, Title one; Doe, Title four)']


def test_the_condition_disambiguate_does_not_hold_where_names_do(render):
    """CSL: it is tried where names failed. The third work is told by a name."""
    works = [entry('one', 'Miller', 'Tanaka', 'Kim'), entry('two', 'Miller', 'Tanaka', 'Kim'),
             entry('three', 'Miller', 'Olsen', 'Kim')]
    one, two, three = render(TITLE_IF_NEEDED, works, ['one'], ['two'], ['three'],
                             attributes='disambiguate-add-names="true" et-al-min="3" '
                                        'et-al-use-first="1"').citations
    assert three == '(Miller, Olsen, et al.)' and one.endswith('Title one)')
    assert two.endswith('Title two)')


def test_disambiguate_beside_other_conditions(render):
    layout = ''.join(
        f'<choose><if disambiguate="true" type="{kind}" match="{match}">'
        f'<text value="{value}"/></if></choose>'
        for kind, match, value in (('book', 'any', 'any'), ('book', 'all', ' all'),
                                   ('thesis', 'none', ' none')))
    assert render(layout, [entry('one', 'Doe')], ['one']).citations == ['(any none)']


# Positions

POSITIONS = ''.join(f'<choose><if position="{position}"><text value="{position} "/></if></choose>'
                    for position in ('first', 'subsequent', 'ibid', 'ibid-with-locator',
                                     'near-note'))


def test_positions_of_csl(render):
    """CSL: ibid-with-locator is also ibid, and both are subsequent; a note is near where it isn't
    further than the distance."""
    layout = (f'{POSITIONS}<text variable="title"/>'
              '<text variable="first-reference-note-number" prefix=" (n. " suffix=")"/>')
    told = render(layout, [entry('one'), entry('two')], ['one'], ['one'],
                  [{'id': 'one', 'locator': '4'}], ['two'], ['one'], style_class='note',
                  attributes='near-note-distance="1"', layout_attributes='suffix="."')
    assert told.citations == [
        'first Title one.', 'subsequent ibid near-note Title one (n. 1).',
        'subsequent ibid ibid-with-locator near-note Title one (n. 1).', 'first Title two.',
        'subsequent Title one (n. 1).']
    assert [citation.note_number for citation in told.answer.citations] == [1, 2, 3, 4, 5]


def test_no_cite_is_ibid_after_a_citation_of_several(render):
    """CSL: the first cite of a citation is ibid where the citation before has a single cite, of the
    same work; another cite where the one before it is of the same work."""
    layout = f'{POSITIONS}<text variable="title"/>'
    told = render(layout, [entry('one'), entry('two')], ['one', 'two'], ['two'], ['two', 'two'],
                  style_class='note', layout_attributes='delimiter="; "',
                  attributes='near-note-distance="0"')
    assert told.citations == ['first Title one; first Title two', 'subsequent Title two',
                              'subsequent ibid Title two; subsequent ibid near-note Title two']


def test_no_cite_is_ibid_behind_a_note_that_cites_other_works(render):
    """Two citations of one note, each with a cite alone: what reads ibid in the next note would be
    of the second alone."""
    layout = f'{POSITIONS}<text variable="title"/>'
    told = render(layout, [entry('one'), entry('two')], [{'id': 'one', 'note': 1}],
                  [{'id': 'two', 'note': 1}], [{'id': 'two', 'note': 2}], style_class='note',
                  attributes='near-note-distance="0"', layout_attributes='')
    assert told.citations == ['first Title one', 'first Title two', 'subsequent Title two']


def test_what_reads_ibid_is_not_ambiguous(render):
    layout = ('<choose><if position="ibid"><text term="ibid"/></if><else><text variable="title"/>'
              '<choose><if disambiguate="true"><text value="!"/></if></choose></else></choose>')
    told = render(layout, [entry('one'), entry('two')], ['one'], ['one'], ['two'], ['two'],
                  style_class='note')
    assert told.citations == ['(Title one)', '(Ibid.)', '(Title two)', '(Ibid.)']


def test_numbers_of_notes_may_be_given(render):
    told = render('<text variable="title"/>', [entry('one')], [{'id': 'one', 'note': 7}],
                  style_class='note')
    assert told.answer.citations[0].note_number == 7


# Cites

LABELLED = ('<group delimiter=", "><text variable="title"/><group delimiter=" ">'
            '<label variable="locator" form="short"/>'
            '<text variable="locator"/></group></group>')


def test_locators_have_their_labels(render):
    cites = [{'id': 'one', 'locator': '4'}, {'id': 'one', 'locator': '4-6'},
             {'id': 'one', 'locator': '2', 'label': 'chapter'},
             {'id': 'one', 'locator': '7', 'label': 'folio'}, {'id': 'one'}]
    assert render(LABELLED, [entry('one')], *[[cite] for cite in cites]).citations == [
        '(Title one, p. 4)', '(Title one, pp. 4–6)', '(Title one, chap. 2)', '(Title one, fol. 7)',
        '(Title one)']


def test_locators_have_the_labels_of_the_language(render, published):
    cites = [{'id': 'one', 'locator': '4'}]
    assert render(LABELLED, [entry('one')], cites,
                  locale='de-DE').citations == ['(Title one, S. 4)']


def test_affixes_and_suppressed_authors_are_of_the_cite(render):
    cites = [{'id': 'one', 'prefix': 'see ', 'suffix': ', passim'},
             {'id': 'two', 'suppress-author': True}]
    told = render(BOTH, [entry('one', 'Doe', year=1999), entry('two', 'Roe', year=2000)], cites,
                  ['one', 'two'])
    assert told.citations == ['(see Doe 1999, passim; 2000)', '(Doe 1999; Roe 2000)']


def test_nothing_stands_in_for_a_suppressed_author(render):
    """And what stands in for an author is left out as it is, as pandoc has it."""
    names = ('<names variable="author"><name/>'
             '<substitute><text variable="title"/></substitute></names>')
    told = render(f'<group delimiter=" ">{names}{DATE}</group>',
                  [entry('one', 'Doe', year=1999), entry('two', year=2000)],
                  [{'id': 'one', 'suppress-author': True}],
                  [{'id': 'two', 'suppress-author': True}])
    assert told.citations == ['(1999)', '(2000)']


def test_cites_are_sorted_and_tell_their_places(render):
    entries = [entry('one', 'Roe', year=1999), entry('two', 'Doe', year=2000)]
    told = render(BOTH, entries, ['one', 'two'], sort='<sort><key variable="author"/></sort>')
    assert told.citations == ['(Doe 2000; Roe 1999)']
    assert [node['meta'] for node in told.answer.citations[0].content
            if 'meta' in node] == [{'entry': 1}, {'entry': 0}]


# Collapsing

COLLAPSE = 'disambiguate-add-year-suffix="true" collapse="{}" after-collapse-delimiter=" / "'


@pytest.mark.parametrize('collapse, text', [
    ('year', '(Doe 1999a / 1999b / 2004, 5 / Roe 2000)'),
    ('year-suffix', '(Doe 1999a; b, 2004, 5 / Roe 2000)'),
])
def test_years_are_collapsed(render, collapse, text):
    """CSL: cite-group-delimiter is a comma by default, and year-suffix-delimiter the delimiter of
    the layout. By `year` the after-collapse delimiter stands beside locators (docs/CSL_MODE.md)."""
    entries = [entry('one', 'Doe', year=1999), entry('two', 'Doe', year=1999),
               entry('three', 'Doe', year=2004), entry('four', 'Roe', year=2000)]
    layout = f'<group delimiter=", ">{BOTH}<text variable="locator"/></group>'
    cites = ['one', 'two', {'id': 'three', 'locator': '5'}, 'four']
    assert render(layout, entries, cites, attributes=COLLAPSE.format(collapse)).citations == [text]


def test_numbers_are_collapsed(render):
    entries = [entry(key) for key in ('one', 'two', 'three', 'four')]
    told = render('<text variable="citation-number" prefix="[" suffix="]"/>', entries,
                  ['one', 'two', 'three'], ['four', 'two'], attributes='collapse="citation-number"',
                  layout_attributes='delimiter=","',
                  sort='<sort><key variable="citation-number"/></sort>')
    assert told.citations == ['[1]–[3]', '[2],[4]']


def test_a_group_of_a_number_and_no_locator_is_written(render):
    layout = ('<group delimiter=", " prefix="[" suffix="]"><text variable="citation-number"/>'
              '<text variable="locator"/></group>')
    told = render(layout, [entry('one')], ['one'], [{'id': 'one', 'locator': '4'}],
                  layout_attributes='delimiter=", "')
    assert told.citations == ['[1]', '[1, 4]']


SORTED = '<sort><key macro="who"/></sort>'
WHO = f'<macro name="who">{NAMES}</macro>'
APE, BEE = entry('ape', 'Ape, A', year=2005), entry('bee', 'Bee, B', year=2001)


def test_words_before_a_cite_behind_the_first_keep_the_order(cites):
    """docs/DECISIONS.md: words of a document's own lead from one cite to the next."""
    given = [[{'id': 'bee'}, {'id': 'ape', 'prefix': 'see also'}],
             [{'id': 'bee', 'prefix': 'see'}, {'id': 'ape'}]]
    told = csl.render(style_of(BOTH, before=WHO, sort=SORTED), [APE, BEE], given)
    assert told.citations == ['(Bee 2001; see also Ape 2005)', '(Ape 2005; see Bee 2001)']


def test_citations_may_be_objects(cites):
    """csl-citation.json: `unsorted` keeps the order, and `noteIndex` is the number of the note."""
    items = [{'id': 'bee'}, {'id': 'ape'}]
    given = [{'citationID': 'x', 'citationItems': items, 'properties': {'unsorted': True}},
             {'citationID': 'y', 'citationItems': items, 'properties': {'noteIndex': 0}},
             csl.Citation((csl.Cite('bee'), csl.Cite('ape')), unsorted=True)]
    told = csl.render(style_of(BOTH, before=WHO, sort=SORTED), [APE, BEE], given)
    assert told.citations == ['(Bee 2001; Ape 2005)', '(Ape 2005; Bee 2001)',
                              '(Bee 2001; Ape 2005)']
    assert told.warnings == []


def test_the_note_of_a_citation_goes_before_those_of_its_cites(cites):
    layout = ('<choose><if position="subsequent"><text variable="first-reference-note-number" '
              f'prefix="n. "/></if><else>{TITLE}</else></choose>')
    given = [{'citationItems': [{'id': 'ape', 'note': 5}], 'properties': {'noteIndex': 4}},
             [{'id': 'bee', 'note': 6}], {'citationItems': [{'id': 'ape'}],
                                          'properties': {'noteIndex': 7}}]
    told = csl.render(style_of(layout, style_class='note'), [APE, BEE], given)
    assert told.citations == ['(Title ape)', '(Title bee)', '(n. 4)']
    assert [str(warning) for warning in told.warnings] == [
        "citation 0, cite 0, note: another note than the citation's `noteIndex`, left out"]


@pytest.mark.parametrize('citation, said', [
    ({'citationID': 'x'},
     'citation 0: no citation, which is a list of cites or an object with citationItems'),
    ({'citationItems': 7}, 'citation 0, citationItems: no list of cites'),
    ({'citationItems': [], 'properties': 7}, 'citation 0, properties: no object'),
    ({'citationItems': [], 'properties': {'noteIndex': -1}},
     'citation 0, noteIndex: -1 is not a whole number, the number of a note'),
    ({'citationItems': [], 'properties': {'unsorted': 'no'}},
     "citation 0, unsorted: 'no' is not true or false")])
def test_a_citation_that_is_no_object_of_the_form(citation, said):
    with pytest.raises(csl.CitationRefused) as refused:
        csl.render('author-date', [APE], [citation])
    assert str(refused.value) == said


def test_no_cites_collapse_across_words(render):
    """What stands before the first of them stands before all."""
    entries = [entry('one', 'Doe', year=1999), entry('two', 'Doe', year=2004)]
    told = render(BOTH, entries, [{'id': 'one', 'prefix': 'see '}, 'two'],
                  ['one', {'id': 'two', 'prefix': 'but '}],
                  [{'id': 'one', 'suffix': ', passim'}, 'two'], attributes='collapse="year"')
    assert told.citations == ['(see Doe 1999, 2004)', '(Doe 1999; but Doe 2004)',
                              '(Doe 1999, passim; Doe 2004)']


def test_suffixes_collapse_beside_other_years(render):
    """Only the cite with words of its own stands apart, and a suffix is behind its year again."""
    entries = [entry(key, 'Doe', year=year)
               for key, year in (('a', 1999), ('b', 1999), ('c', 1999), ('d', 2004))]
    told = render(BOTH, entries, ['a', 'b', 'c', 'd', {'id': 'a', 'prefix': 'but '}],
                  attributes='disambiguate-add-year-suffix="true" collapse="year-suffix-ranged"')
    assert told.citations == ['(Doe 1999a–c, 2004; but Doe 1999a)']


# The bibliography

BIBLIOGRAPHY = ('<bibliography {}><sort><key variable="author"/><key variable="title"/></sort>'
                '<layout suffix=".">'
                '<names variable="author"><name and="text"/><label form="short" prefix=", "/>'
                '</names>'
                '<text variable="title" prefix=". "/></layout></bibliography>')


def test_the_bibliography_is_sorted_and_substitutes(render):
    """CSL, complete-all: the text stands for the whole list of names."""
    entries = [entry('c', 'Doe', 'Roe'), entry('b', 'Doe', 'Roe'), entry('a', 'Doe'),
               entry('d', 'Able')]
    attributes = 'subsequent-author-substitute="---" hanging-indent="true"'
    told = render(NAMES, entries, ['c', 'b', 'a', 'd'],
                  bibliography=BIBLIOGRAPHY.format(attributes))
    assert list(told.bibliography.items()) == [
        ('d', 'Able. Title d.'), ('a', 'Doe. Title a.'), ('b', 'Doe and Roe. Title b.'),
        ('c', '---. Title c.')]
    assert told.answer.bibliography.hanging_indent


def test_an_item_has_the_suffix_and_the_names_of_its_style(render):
    """CSL: names that are added to cites aren't added to the bibliography."""
    bibliography = ('<bibliography et-al-min="3" et-al-use-first="1">'
                    f'<layout>{BOTH}</layout></bibliography>')
    entries = [entry('one', 'Miller', 'Tanaka', 'Silva', year=2018),
               entry('two', 'Miller', 'Olsen', 'Kim', year=2018), entry('three', 'Doe', year=1999),
               entry('four', 'Doe', year=1999)]
    told = render(BOTH, entries, ['one'], ['two'], ['three'], ['four'], bibliography=bibliography,
                  attributes='disambiguate-add-names="true" disambiguate-add-year-suffix="true" '
                             'et-al-min="3" et-al-use-first="1"')
    assert told.citations == ['(Miller, Tanaka, et al. 2018)', '(Miller, Olsen, et al. 2018)',
                              '(Doe 1999a)', '(Doe 1999b)']
    assert list(told.bibliography.values()) == ['Miller et al. 2018', 'Miller et al. 2018',
                                                'Doe 1999a', 'Doe 1999b']


def test_the_number_is_the_first_field(render):
    bibliography = '''<bibliography second-field-align="flush"><layout>
        <text variable="citation-number" suffix="."/>
        <text variable="title"/></layout></bibliography>'''
    told = render('<text variable="citation-number"/>', [entry('one')], ['one'],
                  bibliography=bibliography)
    item = told.answer.bibliography.items[0]
    assert gamhilon.plain(item.first_field) == '1.' and gamhilon.plain(item.content) == 'Title one'


# Trees

def test_trees_have_formats_and_tell_their_cites(render):
    layout = f'{NAMES}<text variable="title" font-style="italic" prefix=" "/>'
    tree = render(layout, [entry('one', 'Doe, Jane', 'Roe')], ['one'],
                  layout_attributes='').answer.citations[0].content
    assert tree == [{'meta': {'entry': 0}, 'children': [
        {**NORMAL, 'text': 'Doe, Roe '},
        {**NORMAL, 'font_style': 'italic', 'text': 'Title one'}]}]


@pytest.mark.parametrize('asked, told', [
    ('font-variant="small-caps"', {'font_variant': 'small-caps'}),
    ('text-decoration="underline"', {'text_decoration': 'underline'}),
    ('vertical-align="sup"', {'vertical_align': 'sup'}), ('font-weight="bold"',
                                                          {'font_weight': 'bold'}),
])
def test_trees_keep_what_a_style_asks_for(render, asked, told):
    layout = f'<text variable="title" {asked}/>'
    tree = render(layout, [entry('one')], ['one'], layout_attributes='').answer.citations[0].content
    assert tree[0]['children'] == [{**NORMAL, **told, 'text': 'Title one'}]


def test_markup_of_fields_is_in_the_tree(render):
    title = 'On <i>Homo</i> and H<sub>2</sub>O'
    tree = render(TITLE, [entry('one', title=title)], ['one']).answer.citations[0].content
    assert gamhilon.to_html(tree) == '(On <i>Homo</i> and H<sub>2</sub>O)'


def test_displays_are_elements(render):
    layout = '<group display="block"><text variable="title"/></group>'
    tree = render(layout, [entry('one')], ['one'], layout_attributes='').answer.citations[0].content
    assert tree[0]['children'] == [{'display': 'block',
                                    'children': [{**NORMAL, 'text': 'Title one'}]}]


# Styles

WATSON = entry('watson', 'Watson, James D.', 'Crick, Francis H. C.', year=1953)
SMITHS = [entry('anna', 'Smith, Anna', year=2010), entry('brian', 'Smith, Brian', year=2010)]
PANDOC = {
    'apa': ['(Watson & Crick, 1953)', '(Watson & Crick, 1953, p. 737)',
            '(A. Smith, 2010; B. Smith, 2010)'],
    'chicago-author-date': ['(Watson and Crick 1953)', '(Watson and Crick 1953, 737)',
                            '(A. Smith 2010; B. Smith 2010)'],
    'modern-language-association': ['(Watson and Crick)', '(Watson and Crick 737)',
                                    '(A. Smith; B. Smith)'],
    'ieee': ['[1]', '[1, p. 737]', '[2], [3]'], 'vancouver': ['(1)', '(1)', '(2,3)'],
    'nature': ['1', '1', '2,3'],
}


@pytest.mark.parametrize('name', PANDOC)
def test_published_styles_as_pandoc_prints_them(cites, published, name):
    citations = [[{'id': 'watson'}], [{'id': 'watson', 'locator': '737'}],
                 [{'id': 'anna'}, {'id': 'brian'}]]
    told = csl.render(name, [WATSON, *SMITHS], citations)
    assert told.citations == PANDOC[name] and told.warnings == []


def test_one_cite_may_stand_twice_in_a_citation(render):
    cite = csl.Cite('one')
    told = render('<text variable="title"/>', [entry('one')], [cite, cite])
    assert [node['meta'] for node in told.answer.citations[0].content
            if 'meta' in node] == [{'entry': 0}, {'entry': 1}]


def test_a_work_with_an_empty_list_of_authors_has_no_author(render):
    names = ('<names variable="author"><name/></names>'
             '<names variable="editor" prefix=" "><name form="short"/></names>')
    book = {**entry('one'), 'author': [], 'editor': [{'family': 'Doe', 'given': 'Jane'}]}
    assert render(names, [book], ['one']).citations == ['(Doe)']


def test_the_last_of_many_names_may_be_kept(render):
    """CSL: et-al-use-last writes an ellipsis and the last name."""
    told = render(NAMES, [entry('one', 'Doe', 'Roe', 'Poe', 'Lee')], ['one'],
                  attributes='et-al-min="3" et-al-use-first="1" et-al-use-last="true"')
    assert told.citations == ['(Doe, … Lee)']


def test_a_dependent_style_is_that_of_its_parent(cites, published):
    entries = [entry('one', 'Doe, Jane', year=1999)]
    own, parent = (csl.render(name, entries, [[{'id': 'one'}]])
                   for name in ('nature-genetics', 'nature'))
    assert own.citations == ['1'] and own.bibliography == parent.bibliography


PARENT_LINK = '<link href="http://www.zotero.org/styles/parent" rel="independent-parent"/></info>'


def test_a_style_of_a_file_depends_on_one_beside_it(tmp_path, cites, published):
    """And asks for a language of its own."""
    info = INFO.replace('</info>', PARENT_LINK)
    (tmp_path / 'child.csl').write_text(HEAD.format('in-text', ' default-locale="de-DE"',
                                                    info) + '</style>')
    (tmp_path / 'parent.csl').write_text(style_of('<text term="and"/>', layout_attributes=''))
    assert csl.render(str(tmp_path / 'child.csl'), [entry('one')],
                      [[{'id': 'one'}]]).citations == ['und']


def test_a_style_whose_parent_is_missing_or_is_itself_is_told(tmp_path):
    info = INFO.replace('</info>', PARENT_LINK)
    child = tmp_path / 'child.csl'
    child.write_text(HEAD.format('in-text', '', info) + '</style>')
    with pytest.raises(csl.StyleMissing, match="^.*child.csl: the style that it depends on is "
                                               "missing: there is no style 'parent'"):
        csl.about(str(child))
    (tmp_path / 'parent.csl').write_text(child.read_text())
    with pytest.raises(csl.StyleMissing, match='parent.csl: the style depends on itself'):
        csl.about(str(child))


def test_what_a_style_is():
    about = csl.about(style_of(TITLE, style_class='note'))
    assert about == csl.About(title='Own', is_note=True, has_bibliography=False)
    assert csl.about('author-date').has_bibliography and csl.about('notes').is_note


def test_the_names_of_styles(published):
    names = csl.names()
    assert {'apa', 'nature-genetics', 'author-date', 'notes'} < set(names)
    assert names == sorted(names)


@pytest.mark.parametrize('name, said', [
    ('no-such-style', "there is no style 'no-such-style': looked for "),
    ('none.csl', "there is no style 'none.csl': looked for none.csl"),
    ('folder/none', "there is no style 'folder/none': looked for folder/none"),
    ('auhtor-date', "is 'author-date' meant"),
])
def test_a_style_that_is_not_there_is_told(name, said):
    with pytest.raises(csl.StyleMissing) as missing:
        csl.render(name, [], [])
    assert said in str(missing.value) and isinstance(missing.value, ValueError)


@pytest.mark.parametrize('old, new, line, said', [
    ('font-style="italic"', 'font-style="itallic"', 2, 'found `itallic`.*perhaps `italic`'),
    ('</layout>', '', 3, 'end tag'), ('variable="title"', 'variable="author"', 2, 'author'),
])
def test_a_style_that_is_none_is_told_with_its_place(cites, tmp_path, old, new, line, said):
    path = tmp_path / 'own.csl'
    text = style_of('\n<text variable="title" font-style="italic"/>\n', layout_attributes='')
    path.write_text(text.replace(old, new))
    for call in (lambda: csl.render(str(path), [], []), lambda: csl.check_style(path.read_text(),
                                                                                str(path))):
        with pytest.raises(csl.StyleRefused, match=said) as refused:
            call()
        error = refused.value
        assert (error.file, error.line) == (str(path), line) and error.column >= 1
        assert str(error) == f'{path}:{error.line}:{error.column}: {error.fault}'


def test_what_is_odd_in_a_style_is_told_with_its_place(cites, tmp_path):
    path = tmp_path / 'own.csl'
    path.write_text(style_of('\n <text variable="title" colour="red"/>'))
    told = csl.render(str(path), [entry('one')], [[{'id': 'one'}]])
    assert told.citations == ['(Title one)'] and len(told.warnings) == 1
    assert str(told.warnings[0]).startswith(f'{path}:2:') and 'colour' in str(told.warnings[0])


def test_locales_are_files_or_texts(cites, tmp_path):
    """And take the place of Debian's."""
    text = ('<locale xmlns="http://purl.org/net/xbiblio/csl" version="1.0" xml:lang="de-DE">'
            '<terms><term name="and">plus</term></terms></locale>')
    path = tmp_path / 'locales-de-DE.xml'
    path.write_text(text)
    style = style_of('<text term="and"/>', layout_attributes='')
    for given in (str(tmp_path), [str(path)], [text]):
        told = csl.render(style, [entry('one')], [[{'id': 'one'}]], locale='de-DE', locales=given)
        assert (told.citations, told.warnings) == (['plus'], [])
    with pytest.raises(csl.StyleRefused, match='^locale 0:1:'):
        csl.render(style, [], [], locales=[text.replace('term>', 'trem>')])
    with pytest.raises(csl.StyleRefused, match='none.xml: No such file'):
        csl.render(style, [], [], locales=['none.xml'])


SHORT_CONTAINER = '<text variable="container-title" form="short"/>'
ABBREVIATIONS = {'default': {'container-title': {'Journal of Lakes': 'J. Lakes'}}}


def test_abbreviations_are_a_file_or_what_it_has(cites, tmp_path):
    path = tmp_path / 'abbreviations.json'
    path.write_text(json.dumps(ABBREVIATIONS))
    style = style_of(SHORT_CONTAINER, layout_attributes='')
    article = {**entry('one'), 'container-title': 'Journal of Lakes'}
    for given in (ABBREVIATIONS, str(path), path):
        told = csl.render(style, [article], [[{'id': 'one'}]], abbreviations=given)
        assert (told.citations, told.warnings) == (['J. Lakes'], [])
    own = {**article, 'container-title-short': 'Lakes'}
    told = csl.render(style, [own], [[{'id': 'one'}]], abbreviations=ABBREVIATIONS)
    assert told.citations == ['Lakes']


def test_what_is_no_file_of_abbreviations_is_refused(cites, tmp_path):
    style = style_of(SHORT_CONTAINER)
    with pytest.raises(csl.AbbreviationsRefused, match='^the abbreviations: wanted an object of'):
        csl.render(style, [], [], abbreviations={'container-title': {}})
    fault = '^the abbreviations: /default/container-title: wanted an object of short forms'
    with pytest.raises(csl.AbbreviationsRefused, match=fault):
        csl.render(style, [], [], abbreviations={'default': {'container-title': 'J.'}})
    path = tmp_path / 'abbreviations.json'
    path.write_text('{"default":\nx}')
    with pytest.raises(csl.AbbreviationsRefused, match=r'abbreviations.json:2:1: no JSON: '):
        csl.render(style, [], [], abbreviations=path)


@pytest.mark.parametrize('tag', ['de_AT', 'DE-at', 'de-AT'])
def test_a_language_may_have_an_underscore_or_other_capitals(tag, tmp_path):
    for name in ('de-AT', 'de-DE'):
        (tmp_path / f'locales-{name}.xml').write_text('<locale/>')
    found = locales.files_for(tag, str(tmp_path))
    assert [file.file for file in found] == [f'{tmp_path}/locales-{name}.xml'
                                             for name in ('de-AT', 'de-DE')]


def test_a_language_without_a_locale_file_is_told(cites):
    told = csl.render(style_of('<text term="and"/>', layout_attributes=''), [entry('one')],
                      [[{'id': 'one'}]], locale='xx-XX')
    assert told.citations == ['and']
    assert [str(warned) for warned in told.warnings] == [
        'locales: no locale of `xx-XX`, its words are those of American English']


@pytest.mark.parametrize('tag, tags', [
    ('de', ['de-DE']), ('de-AT', ['de-AT', 'de-DE']), ('de-at', ['de-AT', 'de-DE']),
    ('en', []), ('en-GB', ['en-GB']), ('pt_BR', ['pt-BR', 'pt-PT']), ('la', ['la']),
    ('xx', ['xx']),
])
def test_the_locale_files_of_a_language(tmp_path, tag, tags):
    for name in ('de-DE', 'de-AT', 'en-US', 'en-GB', 'pt-BR', 'pt-PT', 'la', 'xx'):
        (tmp_path / f'locales-{name}.xml').write_text('<locale/>')
    found = locales.files_for(locales.with_dialect(tag), str(tmp_path))
    assert [file.file for file in found] == [f'{tmp_path}/locales-{name}.xml' for name in tags]


# Citations that are wrong

@pytest.mark.parametrize('citations, place, said', [
    ('x', (None, None, None), 'the citations are no list of citations'),
    ([3], (0, None, None),
     'citation 0: no citation, which is a list of cites or an object with citationItems'),
    ([[], ['one']], (1, 0, None), 'citation 1, cite 0: no cite, which is an object'),
    ([[{'id': 'one'}, {'locator': '4'}]], (0, 1, 'id'),
     'citation 0, cite 1, id: a cite has to have an id'),
    ([[{'id': 'one', 'locator': ['4']}]], (0, 0, 'locator'),
     "citation 0, cite 0, locator: ['4'] is not a text or a number"),
    ([[{'id': 'one', 'hidden': 'yes'}]], (0, 0, 'hidden'),
     "citation 0, cite 0, hidden: 'yes' is not true or false"),
    ([[{'id': 'one', 'note': -1}]], (0, 0, 'note'),
     'citation 0, cite 0, note: -1 is not a whole number, the number of a note'),
    ([[{'id': 'one'}], [{'id': 'onee'}]], (1, 0, 'id'),
     "citation 1, cite 0, id: there is no entry 'onee': is 'one' meant?"),
    ([[{'id': 'else'}]], (0, 0, 'id'), "citation 0, cite 0, id: there is no entry 'else'"),
])
def test_a_citation_that_is_none_is_told_with_its_place(citations, place, said):
    with pytest.raises(csl.CitationRefused) as refused:
        csl.render('author-date', [entry('one')], citations)
    error = refused.value
    assert (error.citation, error.cite, error.field) == place and str(error) == said


def test_unknown_keys_and_labels_are_told_with_the_nearest_known_word(render):
    layout = (f'{TITLE}<group delimiter=" " prefix=", "><label variable="locator" form="short"/>'
              '<text variable="locator"/></group>')
    told = render(layout, [entry('one')], ['one'],
                  [{'id': 'one', 'locater': '4'}, {'id': 'one', 'locator': '5', 'label': 'chaptr'}])
    assert told.citations == ['(Title one)', '(Title one; Title one, p. 5)']
    assert [str(warned) for warned in told.warnings] == [
        "citation 1, cite 0, locater: cites have no such key, left out: is 'locator' meant?",
        "citation 1, cite 1, label: there is no kind of locator 'chaptr', taken for a page: is "
        "'chapter' meant?"]
    assert {warned.citation for warned in told.warnings} == {1}


def test_cites_may_be_values(render):
    cite = csl.Cite('one', '4', label='chapter', prefix='see', hidden=False)
    assert cite.data() == {'id': 'one', 'locator': '4', 'label': 'chapter', 'prefix': 'see'}
    layout = f'{TITLE}<text variable="locator" prefix=", "/>'
    assert render(layout, [entry('one')], [cite]).citations == ['(see Title one, 4)']


# Entries that are odd

def test_of_entries_of_one_id_the_last_counts(render):
    entries = [entry('one', 'Doe'), entry('two', 'Roe'), entry('one', 'Poe')]
    told = render(NAMES, entries, ['one'], ['two'], ['one'])
    assert told.citations == ['(Poe)', '(Roe)', '(Poe)']
    assert [str(warned) for warned in told.warnings] == [
        "entry 2: a second item of the id 'one', in place of the first"]


def test_entries_without_an_id_are_told(render):
    told = render(TITLE, [{'title': 'x'}, 3, entry('one')], ['one'])
    assert told.citations == ['(Title one)']
    assert [str(warned) for warned in told.warnings] == [
        'entry 0: no item with an id, left out', 'entry 1: no item with an id, left out']


def test_ids_may_be_numbers(render):
    assert render(TITLE, [entry(7)], [{'id': 7}], ['7']).citations == ['(Title 7)', '(Title 7)']


@pytest.mark.parametrize('entries', [{'id': 'one'}, 3])
def test_entries_that_are_no_list_are_refused(entries):
    with pytest.raises(csl.EntriesRefused, match='no list of items'):
        csl.render('author-date', entries, [])


def test_a_field_that_is_wrong_costs_itself_alone(render):
    entries = [entry('one', year=1999), {**entry('two'), 'issued': {'date-parts': [['x', []]]},
                                         'volume': {'a': 1}}]
    told = render(f'{TITLE}{DATE}<text variable="volume"/>', entries, ['one'], ['two'])
    assert told.citations == ['(Title one1999)', '(Title two)']
    assert [(warned.entry, warned.place) for warned in told.warnings] == [
        ('two', 'entry two, issued'), ('two', 'entry two, volume')]
    assert all('the field is left out' in str(warned) for warned in told.warnings)


def deep(depth):
    value = []
    for _ in range(depth):
        value = [value]
    return value


@pytest.mark.parametrize('field', [{'custom': deep(300)}, {'custom': {1, 2}},
                                   {'custom': float('nan')}])
def test_the_id_stands_for_an_entry_that_can_not_be_written(render, field):
    told = render(TITLE, [{**entry('one'), **field}, entry('two')], ['one'], ['two'],
                  bibliography=BY_TITLE)
    assert told.citations == ['(one)', '(Title two)'] and list(told.bibliography) == ['one', 'two']
    assert told.warnings[0].entry == 'one' and 'its id stands in the list' in str(told.warnings[0])


def test_halves_of_surrogate_pairs_cost_nothing_else(render):
    assert render(TITLE, [entry('one', title='a\ud800b')], ['one']).citations == ['(a?b)']


def test_what_the_style_writes_nothing_of_is_told(render):
    bibliography = '<bibliography><layout><text variable="note"/></layout></bibliography>'
    told = render('<text variable="note"/>', [entry('one'), entry('two', note='N')], ['one'],
                  ['two'], bibliography=bibliography)
    assert told.citations == ['', '(N)'] and told.bibliography == {'one': 'one', 'two': 'N'}
    assert [str(warned) for warned in told.warnings] == [
        'citation 0: the style writes nothing of it',
        'entry one: the style writes nothing of it: its id stands in the list']


def test_unknown_keys_of_entries_are_told(render):
    told = render(TITLE, [entry('one', titel='x')], ['one'])
    assert told.citations == ['(Title one)'] and len(told.warnings) == 1
    assert str(told.warnings[0]).startswith('entry one, titel: unknown key')
    assert 'title' in str(told.warnings[0])


# Cites that are hidden, and authors alone

def test_hidden_cites_are_listed(render):
    entries = [entry(key, 'Doe', year=1999) for key in ('one', 'two', 'three')]
    told = render(BOTH, entries, ['one'], [{'id': 'three', 'hidden': True}],
                  attributes='disambiguate-add-year-suffix="true"', bibliography=BY_TITLE)
    assert told.citations == ['(Doe 1999a)', ''] and list(told.bibliography) == ['one', 'three']
    assert told.warnings == []


def test_the_author_alone(render):
    told = render(BOTH, [entry('one', 'Doe', year=1999)], [{'id': 'one', 'author-only': True}],
                  [{'id': 'one', 'suppress-author': True}])
    assert told.citations == ['Doe', '(1999)']


def test_the_call_of_texts(cites):
    """gamhilon.cite, of which csl.render is made."""
    answer = gamhilon.cite(style_of(TITLE), [entry('one'), entry('two')], [[{'id': 'one'}]],
                           nocite=True)
    assert [gamhilon.plain(citation) for citation in answer.citations] == ['(Title one)']
    with pytest.raises(gamhilon.TextRefused) as refused:
        gamhilon.cite('<style', json.dumps([]), [])
    assert refused.value.fault.file == 'style' and refused.value.fault.line == 1
