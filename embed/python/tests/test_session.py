"""Sessions. What is expected was worked out by hand from CSL 1.0.2, or is what `render` gives of
the same."""
import json
import operator
from random import Random

import pytest

from gamhilon import csl
from gamhilon.csl.cites import CitationPart, CitationParts
from gamhilon.csl.session import KeyChanges, differing, key_changes


def work(key, family, year, title='A Title'):
    return {'id': key, 'type': 'book', 'title': title, 'author': [{'family': family}],
            'issued': {'date-parts': [[year]]}}


WORKS = [work('doe99', 'Doe', 1999), work('roe00', 'Roe', 2000), work('poe01', 'Poe', 2001)]


# What changed, without a library

@pytest.mark.parametrize('old, new, indexes', [
    ([], [], []),
    ([], ['a', 'b'], [0, 1]),
    (['a', 'b'], [], [0, 1]),
    (['a', 'b'], ['a', 'b'], []),
    (['a', 'b', 'c'], ['a', 'x', 'c'], [1]),
    (['a', 'b'], ['b'], [0, 1]),
    (['a'], ['a', 'a'], [1]),
])
def test_indexes_at_which_lists_differ(old, new, indexes):
    assert differing(old, new) == indexes


@pytest.mark.parametrize('old, new, changes', [
    ({}, {}, KeyChanges([], [], [])),
    ({}, {'a': 1, 'b': 2}, KeyChanges([], ['a', 'b'], [])),
    ({'a': 1, 'b': 2}, {'a': 1, 'b': 3}, KeyChanges(['b'], [], [])),
    ({'a': 1, 'b': 2}, {'b': 2}, KeyChanges([], [], ['a'])),
    ({'a': 1, 'b': 2}, {'b': 2, 'a': 1}, KeyChanges([], [], [], True)),
    ({'a': 1, 'b': 2}, {'b': 2, 'c': 3}, KeyChanges([], ['c'], ['a'])),
])
def test_what_changed_by_keys(old, new, changes):
    assert key_changes(old, new) == changes


# With the library

def test_the_first_update_is_all_new(cites):
    with csl.Session('author-date', WORKS) as session:
        changes = session.update([[{'id': 'doe99'}], [{'id': 'roe00'}]])
    assert changes.rendered.citations == ['(Doe 1999)', '(Roe 2000)']
    assert (changes.citations, changes.items.new) == ([0, 1], ['doe99', 'roe00'])


def test_nothing_changes_where_the_same_is_asked_again(cites):
    with csl.Session('author-date', WORKS) as session:
        session.update([[{'id': 'doe99'}]])
        assert not session.update([[{'id': 'doe99'}]])


def test_a_new_citation_changes_those_that_it_makes_ambiguous(cites):
    """Two works of one author and year have letters behind the year."""
    works = [work('one', 'Doe', 1999, 'Alpha'), work('two', 'Doe', 1999, 'Beta')]
    with csl.Session('author-date', works) as session:
        session.update([{'citationID': 'x', 'citationItems': [{'id': 'one'}]}])
        changes = session.update([{'citationID': 'x', 'citationItems': [{'id': 'one'}]},
                                  {'citationID': 'y', 'citationItems': [{'id': 'two'}]}])
    assert changes.rendered.citations == ['(Doe 1999a)', '(Doe 1999b)']
    assert changes.citations == [0, 1]
    assert (changes.named.changed, changes.named.new) == (['x'], ['y'])
    assert (changes.items.changed, changes.items.new) == (['one'], ['two'])


def test_each_update_is_what_render_gives(cites):
    asked = [[{'id': 'doe99', 'locator': '4'}], [{'id': 'poe01'}, {'id': 'roe00'}]]
    with csl.Session('author-date', WORKS) as session:
        for count in (2, 1, 0, 2):
            given = session.update(asked[:count]).rendered
            assert given.answer == csl.render('author-date', WORKS, asked[:count]).answer


def test_references_are_put_and_removed(cites):
    with csl.Session('author-date', WORKS) as session:
        session.update([[{'id': 'doe99'}]])
        session.put([work('doe99', 'Doe', 2005)])
        changes = session.update([[{'id': 'doe99'}]])
        assert changes.rendered.citations == ['(Doe 2005)']
        assert (changes.citations, changes.items.changed) == ([0], ['doe99'])
        session.remove(['doe99'])
        with pytest.raises(csl.CitationRefused):
            session.update([[{'id': 'doe99'}]])
        assert session.update([]).items.gone == ['doe99']


def test_a_refusal_leaves_the_session_as_it_was(cites):
    with csl.Session('author-date', WORKS) as session:
        session.update([[{'id': 'doe99'}]])
        with pytest.raises(csl.CitationRefused):
            session.update([[{'id': 'nobody'}]])
        with pytest.raises(csl.StyleMissing):
            session.set_style('no-such-style')
        assert not session.update([[{'id': 'doe99'}]])


def test_a_closed_session_says_so(cites):
    session = csl.Session('author-date', WORKS)
    session.close()
    with pytest.raises(ValueError, match='the session is closed'):
        session.update([])


# What is kept between updates, beside an answer from the beginning

def odd_work(key, year):
    """A work with a key that no item has, of which the library warns."""
    return {**work(key, 'Odd', year), 'titel': 'x'}


def test_what_is_odd_is_in_each_update(cites):
    works = [odd_work('odd1', 1999), *WORKS, odd_work('odd2', 2001)]
    asked = [[{'id': 'odd2'}], [{'id': 'doe99'}], [{'id': 'odd1'}]]
    with csl.Session('author-date', works) as session:
        for count in (1, 3, 2):
            given = session.update(asked[:count]).rendered.warnings
            anew = csl.render('author-date', works, asked[:count]).warnings
            assert sorted(map(str, given)) == sorted(map(str, anew))


def test_citations_that_move_are_not_written_anew(cites):
    asked = [[{'id': 'doe99'}], [{'id': 'roe00'}]]
    with csl.Session('author-date', WORKS) as session:
        first = session.update(asked).rendered.answer
        then = session.update([[{'id': 'poe01'}], *asked]).rendered.answer
        assert all(map(operator.is_, first.citations, then.citations[1:]))
        assert then == csl.render('author-date', WORKS, [[{'id': 'poe01'}], *asked]).answer


@pytest.mark.parametrize('style', ['author-date', 'numeric', 'notes', 'labels'])
def test_edits_by_chance(style, cites):
    random = Random(5)
    works = {it['id']: it for it in WORKS}
    with csl.Session(style, WORKS) as session:
        for _ in range(40):
            key = random.choice(list(works))
            works[key] = work(key, random.choice(['Doe', 'Roe']), random.choice([1999, 2000]))
            session.put([works[key]])
            asked = [[{'id': random.choice(list(works))} for _ in range(random.randint(1, 3))]
                     for _ in range(random.randint(0, 5))]
            given = session.update(asked).rendered
            assert given.answer == csl.render(style, list(works.values()), asked).answer


# Drafts

def test_a_draft_shows_what_is_missing(cites):
    """As pandoc 2.17 writes it."""
    asked = [[{'id': 'doe98'}], [{'id': 'doe99'}, {'id': 'nobody', 'prefix': 'see '}]]
    rendered = csl.render('author-date', WORKS, asked, draft=True)
    assert rendered.citations == ['(doe98?)', '(Doe 1999; see nobody?)']
    assert rendered.citations[0].to_html() == '(<b>doe98?</b>)'
    assert rendered.citations[1].to_html(links=True) == \
        '(<a href="#ref-doe99">Doe 1999</a>; see <b>nobody?</b>)'
    assert [str(it) for it in rendered.warnings] == [
        "citation 0, cite 0, id: there is no entry 'doe98': is 'doe99' meant?",
        "citation 1, cite 1, id: there is no entry 'nobody'"]


def test_no_draft_refuses_what_is_missing(cites):
    with pytest.raises(csl.CitationRefused):
        csl.render('author-date', WORKS, [[{'id': 'nobody'}]])


def test_citations_in_parts_keep_their_keys_where_others_change():
    cites = [csl.Citation((csl.Cite(key),), note) for key, note in (('doe99', 3), ('roe00', None))]
    one, other, more = CitationPart(cites), CitationPart(cites), CitationPart([])
    first = json.loads(CitationParts([one, more, other]).keyed_json())
    assert len({citation['citationID'] for citation in first}) == 4
    assert first[0]['properties'] == {'noteIndex': 3}
    assert first[1]['citationItems'] == [{'id': 'roe00'}]
    assert json.loads(CitationParts([CitationPart(cites), other]).keyed_json())[2:] == first[2:]
    assert json.loads(CitationParts([one, other]).json()) == 2 * [it.data() for it in cites]


def test_the_json_of_a_cite_is_that_of_its_data():
    for number in range(2 ** 8):
        with_one, with_many = number & 1, number & 2
        cite = csl.Cite('a"é', '3–5' if number & 4 else None, 'chapter' if number & 4 else 'page',
                        'see \U000F0000' if number & 8 else '', ', 4\n' if number & 16 else '',
                        bool(number & 32), bool(number & 64), bool(number & 128),
                        2 if with_one else None)
        citation = csl.Citation((cite,) * (3 if with_many else 1), 4 if with_one else None)
        assert json.loads(cite.json) == cite.data()
        assert json.loads(citation.json) == citation.data()
