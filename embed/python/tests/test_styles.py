"""The styles that come with the package: what they write, by what their README tells."""
import re

import pytest
from conftest import ROOT

import gamhilon
from gamhilon import csl, styles

NAMES = ['author-date', 'labels', 'notes', 'numeric']

BOOK = {'id': 'book', 'type': 'book', 'title': 'On order', 'edition': '2', 'volume': '3',
        'author': [{'family': 'Doe', 'given': 'Jane'}, {'family': 'Roe', 'given': 'Al'}],
        'publisher': 'Press', 'publisher-place': 'Rome', 'issued': {'date-parts': [[1999, 5]]},
        'DOI': '10.1000/xyz', 'URL': 'https://example.org/x'}
CHAPTER = {'id': 'chapter', 'type': 'chapter', 'title': 'On parts', 'container-title': 'The whole',
           'author': [{'family': 'Poe', 'given': 'Ed'}],
           'editor': [{'family': 'Lee', 'given': 'Ann'}], 'page': '10-12', 'publisher': 'House',
           'issued': {'date-parts': [[2001]]}, 'URL': 'https://example.org/y'}
ARTICLE = {'id': 'article', 'type': 'article-journal', 'title': 'On time',
           'container-title': 'Annals', 'author': [{'family': 'Able', 'given': 'Bo'}],
           'volume': '17', 'issue': '2', 'page': '132-148', 'issued': {'date-parts': [[1905]]}}
ANONYMOUS = {'id': 'anonymous', 'type': 'book', 'title': 'Nameless', 'publisher': 'Press'}
WORKS = [BOOK, CHAPTER, ARTICLE, ANONYMOUS]


def test_the_names_and_texts():
    assert styles.names() == NAMES
    for name in NAMES:
        with open(f'{ROOT}/examples/styles/{name}.csl', encoding='utf-8') as file:
            assert styles.text(name) == file.read()
        assert styles.path(name).endswith(f'{name}.csl')


@pytest.mark.parametrize('name', ['apa', '', '../answer', 'notes.csl'])
def test_a_name_that_is_not_there_is_an_error(name):
    for call in (styles.path, styles.text):
        with pytest.raises(ValueError, match='the styles are author-date, labels, notes, numeric'):
            call(name)


@pytest.fixture
def listed(cites):
    """The items of all works in a style, as HTML, by their ids."""
    def items(name, works=WORKS):
        told = csl.render(name, works, [[{'id': work['id'], 'hidden': True} for work in works]])
        assert told.warnings == [] and told.answer.bibliography is not None
        return {item.key: gamhilon.to_html([*([item.first_field] if item.first_field else []),
                                            *item.content])
                for item in told.answer.bibliography.items}
    return items


@pytest.mark.parametrize('name', NAMES)
def test_nothing_in_them_is_odd(cites, name):
    assert csl.check_style(styles.text(name)) == []


@pytest.mark.parametrize('name', ['author-date', 'labels', 'notes'])
def test_family_names_stand_first_where_the_list_is_sorted_by_them(listed, name):
    items = listed(name)
    assert list(items) == ['article', 'book', 'anonymous', 'chapter']
    for key, family in (('article', 'Able, B'), ('book', 'Doe, J'), ('chapter', 'Poe, E')):
        assert family in items[key]
        assert re.sub('<[^>]*>', '', items[key]).split('] ')[-1].startswith(family)


@pytest.mark.parametrize('name', NAMES)
def test_items_have_what_they_are_found_by(listed, name):
    """Titles of books and of what contains others in italics, editors, editions, volumes, pages,
    publishers, and a DOI before a URL."""
    items = listed(name)
    for words in ('<i>On order</i>', '2nd ed', 'vol. 3', 'Press', 'Rome', '10.1000/xyz', '1999'):
        assert words in items['book'], (name, items['book'])
    assert 'example.org' not in items['book']
    for words in ('On parts', '<i>The whole</i>', 'Lee', 'House', '10–', '2001',
                  'https://example.org/y'):
        assert words in items['chapter'], (name, items['chapter'])
    for words in ('On time', '<i>Annals</i>', '17', '132–', '1905'):
        assert words in items['article'], (name, items['article'])


@pytest.mark.parametrize('name', NAMES)
def test_a_title_stands_for_an_author_and_a_term_for_a_date(listed, cites, name):
    item = listed(name)['anonymous']
    assert '<i>Nameless</i>' in item and 'n.d' in item and item.count('Nameless') == (
        2 if name == 'labels' else 1)
    told = csl.render(name, WORKS, [[{'id': 'anonymous'}]])
    assert 'Nameless' in told.citations[0] or name == 'numeric'
    assert 'n.d' in told.citations[0] or name in ('labels', 'numeric')


def alike(*keys):
    return [{'id': key, 'type': 'book', 'title': key, 'author': BOOK['author'][:1],
             'issued': {'date-parts': [[1999]]}} for key in keys]


@pytest.mark.parametrize('name, texts', [
    ('author-date', ['(Doe 1999b)', '(Doe 1999a)']), ('labels', ['[Doe99b]', '[Doe99a]']),
])
def test_suffixes_are_in_the_order_of_the_list(cites, name, texts):
    told = csl.render(name, alike('B', 'A'), [[{'id': 'B'}], [{'id': 'A'}]])
    assert told.citations == texts and list(told.bibliography) == ['A', 'B']
    first, second = told.bibliography.values()
    assert '99a' in first and '99b' in second


def test_labels_are_made_of_names_and_years(listed):
    firsts = {key: re.findall(r'\[(\w+)\] ', item) for key, item in listed('labels').items()}
    assert firsts == {'article': ['Able05'], 'book': ['DoRo99'], 'anonymous': ['Nameless'],
                      'chapter': ['Poe01']}


def test_numbers_are_in_the_order_of_the_cites(cites):
    told = csl.render('numeric', WORKS, [[{'id': 'chapter'}], [{'id': 'book'}, {'id': 'article'},
                                                               {'id': 'chapter'}]])
    assert told.citations == ['[1]', '[1–3]'] and list(told.bibliography) == ['chapter', 'book',
                                                                              'article']
    assert [item.split(' ')[0] for item in told.bibliography.values()] == ['[1]', '[2]', '[3]']


def test_notes_are_full_at_first_and_then_short(cites):
    told = csl.render('notes', WORKS, [
        [{'id': 'book', 'locator': '7'}], [{'id': 'book', 'locator': '8'}], [{'id': 'article'}],
        [{'id': 'book'}]])
    first, second, third, fourth = told.citations
    assert first.startswith('Jane Doe and Al Roe, On order') and '7' in first
    assert second == 'Ibid., 8.' and third.startswith('Bo Able, “On time,” Annals 17')
    assert fourth == 'Doe and Roe, On order.'
