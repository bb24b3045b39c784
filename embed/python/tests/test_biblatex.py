"""BibTeX, BibLaTeX and RIS as the library reads them for Python.

tests/references has the cases of the readers. Beside pandoc's reader (`pandoc -f biblatex -t
csljson`, 2.17) the works of references/works.bib are put.
"""
import json
import os
import shutil
import subprocess
import time

import pytest

from gamhilon import references

HERE = os.path.dirname(os.path.abspath(__file__))
WORKS = f'{HERE}/references/works.bib'


# Beside pandoc

# Where pandoc has something else, and why.
DIFFERENCES = {
    ('thesis', 'title'): 'CSL-JSON of pandoc has no spans that keep case',
    ('special', 'title'): 'formulas are texts, and a letter in the middle of a word stays as it is',
    ('special', 'issued'): 'CSL-JSON has a field for seasons',
    ('acm', 'number-of-pages'): 'numpages is the number of pages',
    ('range', 'compiler'): 'CSL has a variable for compilers',
    ('draft', 'issued'): 'a year that is a text stays one',
    ('volume', 'container-author'): 'a volume stands in no book of its author',
    ('review', 'issued'): 'February has no 30th day',
    ('review', 'title'): 'no sentence begins within quotes',
    ('odd', 'title'): 'the last word begins a sentence behind a colon, and initials stay',
    ('odd', 'title-short'): 'initials stay',
}
ODD = '@book{odd, title = {U.S. Policy and {\\"O}sterreich: Introduction}}\n'


@pytest.mark.skipif(not shutil.which('pandoc'), reason='there is no pandoc')
def test_works_are_read_as_pandoc_reads_them(reads):
    version = subprocess.run(['pandoc', '--version'], capture_output=True,
                             text=True).stdout.split()[1]
    if not version.startswith('2.17'):
        pytest.skip(f'pandoc is {version}, and what it reads is known of 2.17')
    with open(WORKS, encoding='utf-8') as file:
        text = file.read() + ODD
    done = subprocess.run(['pandoc', '-f', 'biblatex', '-t', 'csljson'], input=text.encode(),
                          capture_output=True,
                          check=True)
    theirs = {item['id']: item for item in json.loads(done.stdout)}
    own = {item['id']: item for item in references.loads(text, form='biblatex').items}
    assert list(own) == [item for item in theirs] and len(own) == 37
    found = set()
    for key, other in theirs.items():
        if 'event' in other:
            other['event-title'] = other.pop('event')
        other['type'] = other['type'] or 'document'
        found |= {(key, name) for name in {*own[key], *other}
                  if own[key].get(name) != other.get(name)}
    assert found == set(DIFFERENCES)


# What is lost, and what is no entry

def test_what_is_lost_has_its_entry_and_its_field(reads):
    read = references.loads('@book{k, title = {A}, volumi = {x}, date = {1984?}}')
    assert read.items == [{'id': 'k', 'type': 'book', 'title': 'A',
                           'issued': {'date-parts': [[1984]]}}]
    assert sorted(map(str, read.losses)) == ['k: date: that the date is uncertain',
                                             'k: volumi: CSL has no place for it']


def test_lists_of_publishers_are_whole_in_bibtex(reads):
    text = '@book{k, publisher = {A and B}}'
    for form, publisher in (('bibtex', 'A and B'), ('biblatex', 'A; B')):
        assert references.loads(text, form=form).items[0]['publisher'] == publisher


def test_ris(reads):
    read = references.loads('TY  - BOOK\nAU  - Doe, Jane\nTI  - On Order\nPY  - 1999\nER  - \n')
    assert read.items == [{'id': 'Doe1999', 'type': 'book', 'title': 'On Order',
                           'author': [{'family': 'Doe', 'given': 'Jane'}],
                           'issued': {'date-parts': [[1999]]}}]


def test_half_of_a_surrogate_pair_is_refused(reads):
    with pytest.raises(references.ReferencesError, match='^no UTF-8 from byte 17$'):
        references.loads('@book{k, title = \ud800}')


def test_an_entry_that_breaks_off_costs_no_other(reads):
    text = '\n'.join(['@string{x = {X Press}}', '@book{a, title = {A, author = {X}}',
                      '@book{b, title = {B}, publisher = x}', '@book{c, title = {C} author = {D}}',
                      '@book{, title = {E}}', '@misc{f, title = {F}, note = nowhere}'])
    read = references.loads(text)
    assert [item['id'] for item in read.items] == ['a', 'b', 'c', 'f']
    assert read.items[1]['publisher'] == 'X Press' and read.items[3]['title'] == 'F'
    assert [int(problem.split(',')[0].split()[1]) for problem in read.problems] == [3, 4, 5, 6]


def test_a_second_field_and_a_second_entry_are_told(reads):
    read = references.loads('@book{k, title = {A}, TITLE = {B}}\n@book{k, title = {C}}')
    assert [item['title'] for item in read.items] == ['A']
    assert [(loss.field, loss.reason) for loss in read.losses] == [
        ('title', 'a second field of this name, left out'),
        ('id', 'a second item of this id, left out')]


def test_what_is_no_work_is_left_out(reads):
    text = '@set{s, entryset = {a}}\n@comment{x}\n@preamble{"x"}\n@book{a, title = {A}}'
    read = references.loads(text)
    assert [item['id'] for item in read.items] == ['a']
    assert [loss.key for loss in read.losses] == ['s']


def test_many_entries_do_not_take_long(reads):
    entry = ('@article{{k{}, title = {{On {{NASA}} and M{{\\"u}}ller}}, date = {{2001-02}}, '
             'author = {{Doe, Jane and van Roe, R.}}}}\n')
    began = time.process_time()
    read = references.loads(''.join(entry.format(number)
                                    for number in range(3000)) + '@book{broken, title = {')
    assert len(read.items) == 3001 and time.process_time() - began < 60
