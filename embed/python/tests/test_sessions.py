"""Sessions of the library. What is expected was worked out by hand from CSL 1.0.2, or is what
`render` gives of the same."""
import pytest

import gamhilon
from gamhilon import csl
from gamhilon._library_session import SessionFault
from gamhilon.sessions import Changes, TextChanges, _error, _Texts

from test_session import WORKS, work


# What changed, without a library

@pytest.mark.parametrize('answers, changed, gone, order, is_reordered', [
    ([{'changed': [('a', '1'), ('b', '2')], 'gone': [], 'keys': ['a', 'b']}],
     {'a': '1', 'b': '2'}, [], ['a', 'b'], False),
    ([{'changed': [('a', '1'), ('b', '2')], 'gone': [], 'keys': ['a', 'b']},
      {'changed': [], 'gone': []}], {}, [], ['a', 'b'], False),
    ([{'changed': [('a', '1'), ('b', '2')], 'gone': [], 'keys': ['a', 'b']},
      {'changed': [('b', '3')], 'gone': []}], {'b': '3'}, [], ['a', 'b'], False),
    ([{'changed': [('a', '1'), ('b', '2')], 'gone': [], 'keys': ['a', 'b']},
      {'changed': [], 'gone': [], 'keys': ['b', 'a']}], {}, [], ['b', 'a'], True),
    ([{'changed': [('a', '1'), ('b', '2')], 'gone': [], 'keys': ['a', 'b']},
      {'changed': [('c', '4')], 'gone': ['a'], 'keys': ['c', 'b']}],
     {'c': '4'}, ['a'], ['c', 'b'], False),
    ([{'changed': [('a', '1')], 'gone': [], 'keys': ['a']}, None], {}, ['a'], [], False),
])
def test_what_changed_of_texts(answers, changed, gone, order, is_reordered):
    texts = _Texts('key', 'keys')
    for answer in answers:
        told = answer and {**answer, 'changed': [{'key': key, 'text': text}
                                                 for key, text in answer['changed']]}
        changes = texts.apply(told)
    assert changes == TextChanges(changed, gone, order, is_reordered)
    assert list(texts.now()) == order
    assert bool(changes) == bool(changed or gone or is_reordered)


@pytest.mark.parametrize('status, message, error', [
    (2, 'citations: /3/1/id: there is no item `x`',
     csl.CitationRefused(3, 1, 'id', 'there is no item `x`')),
    (2, 'citations: /3/citationItems/1/id: no', csl.CitationRefused(3, 1, 'id', 'no')),
    (2, 'items: wanted a list', csl.EntriesRefused('items: wanted a list')),
    (2, 'style:7:3: no style', csl.StyleRefused('mine.csl', 7, 3, 'no style')),
    (4, 'there are too many items', gamhilon.NumberOverflow),
    (10, 'style:7:3: too many steps', gamhilon.StyleLimitExceeded),
    (11, '', gamhilon.LibraryFailed),
])
def test_errors_by_what_the_library_says(status, message, error):
    style = csl.style.Style('mine.csl', '', None, None)
    document = csl.calling.Document(style, [], [], [], 'en-US')
    made = _error(SessionFault(status, message), document)
    if isinstance(error, type):
        assert type(made) is error
    else:
        assert (type(made), made.args) == (type(error), error.args)


def test_nothing_changed_is_false():
    nothing = TextChanges({}, [], ['a'])
    assert not Changes(nothing, nothing) and Changes(nothing, TextChanges({}, ['b'], []))


# With the library

def test_each_update_has_what_changed(cites):
    with gamhilon.Session('author-date', WORKS) as session:
        first = session.update([[{'id': 'doe99'}], [{'id': 'roe00'}]])
        assert first.citations.changed == {'0': '(Doe 1999)', '1': '(Roe 2000)'}
        assert list(first.bibliography.changed) == ['doe99', 'roe00']
        assert not session.update([[{'id': 'doe99'}], [{'id': 'roe00'}]])
        then = session.update([[{'id': 'doe99'}]])
        assert (then.citations.changed, then.citations.gone) == ({}, ['1'])
        assert (session.citations, list(session.bibliography)) == ({'0': '(Doe 1999)'}, ['doe99'])


def test_a_suffix_that_another_edit_gives(cites):
    works = [work('one', 'Doe', 1999, 'A'), work('two', 'Doe', 1999, 'B')]
    with gamhilon.Session('author-date', works) as session:
        session.update([{'citationID': 'x', 'citationItems': [{'id': 'one'}]}])
        changes = session.update([{'citationID': 'x', 'citationItems': [{'id': 'one'}]},
                                  {'citationID': 'y', 'citationItems': [{'id': 'two'}]}])
    assert changes.citations.changed == {'x': '(Doe 1999a)', 'y': '(Doe 1999b)'}


@pytest.mark.parametrize('form, text', [
    ('html', '<i>A Title</i>'), ('markdown', '*A Title*'), ('latex', r'\textit{A Title}')])
def test_forms(cites, form, text):
    with gamhilon.Session('author-date', WORKS, form=form) as session:
        session.update([[{'id': 'doe99'}]])
        assert text in session.bibliography['doe99']


def test_references_and_the_style_change(cites):
    with gamhilon.Session('author-date', WORKS, nocite=True) as session:
        assert list(session.update([]).bibliography.changed) == ['doe99', 'poe01', 'roe00']
        session.put([work('doe99', 'Doe', 2005)])
        assert session.update([[{'id': 'doe99'}]]).citations.changed == {'0': '(Doe 2005)'}
        session.remove(['poe01'])
        assert session.update([[{'id': 'doe99'}]]).bibliography.gone == ['poe01']
        session.set_style('numeric')
        assert session.update([[{'id': 'doe99'}]]).citations.changed == {'0': '[1]'}


def test_references_of_a_file(cites, tmp_path):
    path = tmp_path / 'library.bib'
    path.write_text('@book{doe99, author = {Doe}, title = {On Order}, year = {1999}}\n')
    for given in (path, str(path), gamhilon.references.load(path)):
        with gamhilon.Session('author-date', given) as session:
            assert session.update([[{'id': 'doe99'}]]).citations.changed == {'0': '(Doe 1999)'}


def test_a_draft_has_stand_ins(cites):
    with gamhilon.Session('author-date', WORKS, draft=True, form='markdown') as session:
        changes = session.update([[{'id': 'doe98'}]])
        assert changes.citations.changed == {'0': '(**doe98?**)'}
        assert any('doe99' in warning.message for warning in session.warnings)


def test_a_refusal_leaves_the_session_as_it_was(cites):
    with gamhilon.Session('author-date', WORKS) as session:
        session.update([[{'id': 'doe99'}]])
        with pytest.raises(csl.CitationRefused, match='nobody'):
            session.update([[{'id': 'nobody'}]])
        with pytest.raises(csl.StyleMissing):
            session.set_style('no-such-style')
        with pytest.raises(csl.StyleRefused):
            session.set_style('<style/>\n')
        assert not session.update([[{'id': 'doe99'}]])


def test_an_answer_is_longer_than_its_first_buffer(cites):
    works = [work(f'w{number}', 'Doe' * 40, 1000 + number) for number in range(1000)]
    with gamhilon.Session('author-date', works) as session:
        changes = session.update([[{'id': it['id']}] for it in works])
        assert len(changes.citations.changed) == 1000
        assert not session.update([[{'id': it['id']}] for it in works])


def test_a_closed_session_says_so(cites):
    session = gamhilon.Session('author-date', WORKS)
    session.close()
    session.close()
    with pytest.raises(ValueError, match='the session is closed'):
        session.update([])
