"""Cases of RIS, by hand from its tags, and from what Zotero writes."""
from asking import cases, loads

def ris(*lines):
    """The items of a record of these lines, and what isn't kept."""
    read = loads('\r\n'.join([*lines, 'ER  - ', '']), form='ris')
    assert read.faults == []
    return read.items, [(loss.field, loss.reason) for loss in read.losses]


def test_a_record_of_an_article():
    """By hand, from the tags of the RIS format."""
    items, lost = ris('TY  - JOUR', 'ID  - doe99', 'AU  - Doe, Jane', 'A1  - Roe, Richard, Jr.',
                      'TI  - On Order', 'T2  - Journal of Order', 'J2  - J. Order',
                      'PY  - 1999/05/03/', 'VL  - 7', 'IS  - 2', 'SP  - 11', 'EP  - 22',
                      'SN  - 1234-5678', 'DO  - https://doi.org/10.1000/x',
                      'UR  - http://a.b/c', 'KW  - one', 'KW  - two', 'Y2  - 2020/01/02',
                      'N1  - A note', 'that goes on', 'L1  - file.pdf', 'U1  - own')
    assert items == [{
        'id': 'doe99', 'type': 'article-journal',
        'author': [{'family': 'Doe', 'given': 'Jane'},
                   {'family': 'Roe', 'given': 'Richard', 'suffix': 'Jr.'}],
        'title': 'On Order', 'container-title': 'Journal of Order',
        'container-title-short': 'J. Order', 'issued': {'date-parts': [[1999, 5, 3]]},
        'volume': '7', 'issue': '2', 'page': '11-22', 'ISSN': '1234-5678',
        'DOI': '10.1000/x', 'URL': 'http://a.b/c', 'keyword': 'one, two',
        'accessed': {'date-parts': [[2020, 1, 2]]}, 'note': 'A note that goes on'}]
    assert lost == [('U1', 'CSL has no place for it')]


def test_a_record_of_a_book():
    """What contains a book is its series, and its second authors are those of the series."""
    items, lost = ris('TY  - BOOK', 'AU  - UNESCO', 'TI  - B', 'T2  - A Series', 'A2  - Ed, Itor',
                      'PY  - 2001', 'SN  - 978-3', 'PB  - Pub', 'CY  - Berlin')
    assert items == [{
        'id': 'UNESCO2001', 'type': 'book', 'author': [{'literal': 'UNESCO'}], 'title': 'B',
        'collection-title': 'A Series', 'collection-editor': [{'family': 'Ed', 'given': 'Itor'}],
        'issued': {'date-parts': [[2001]]}, 'ISBN': '978-3', 'publisher': 'Pub',
        'publisher-place': 'Berlin'}]
    assert lost == []


def test_a_record_behind_blanks():
    """The form of a file is told by its beginning, behind blanks; so lines may begin with them."""
    read = loads('\n  TY  - BOOK\n  ID  - k\n\tTI  - A\n  ER  - \n', form='ris')
    assert (read.items, read.losses, read.faults) == (
        [{'id': 'k', 'type': 'book', 'title': 'A'}], [], [])


@cases('tag, wanted', [
    ('PY  - 1999///Spring', {'date-parts': [[1999]], 'season': 1}),
    ('DA  - 2019-03-05', {'date-parts': [[2019, 3, 5]]}),
    ('PY  - 2019/13/', {'date-parts': [[2019]]}), ('PY  - in press', {'literal': 'in press'}),
])
def test_dates_of_records(tag, wanted):
    assert ris('TY  - GEN', 'ID  - k', tag) == (
        [{'id': 'k', 'type': 'document', 'issued': wanted}], [])


def test_records_without_an_id_get_one_each():
    record = 'TY  - BOOK\nAU  - Doe, Jane\nPY  - 1999\nER  - \n'
    assert [made['id'] for made in loads(3 * record, form='ris').items] == [
        'Doe1999', 'Doe1999-2', 'Doe1999-3']


def test_what_is_wrong_in_a_file_of_records_is_told():
    read = loads('AU  - Doe\nTY  - BOOK\nTI  - A\nTY  - LEAFLET\nTI  - B\nTI  - C\n', form='ris')
    assert [made.get('title') for made in read.items] == ['A', 'B']
    assert [fault[0] for fault in read.faults] == [1, 4, 6]
    assert [(loss.field, loss.reason) for loss in read.losses] == [
        ('TY', 'no such type, read as a document'), ('TI', 'the item has such a text, left out')]
