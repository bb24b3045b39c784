"""How the page of a document in a folder comes into its file."""
import pytest

from gamhilon import Limits
from gamhilon._render_folder import Job, answer

JOB = Job('text', False, Limits(100, 100000))


@pytest.fixture
def document(tmp_path, made_up):
    """A document, whose page is a line."""
    made_up(text=b'(Doe 1999)\n')
    path = tmp_path / 'a.json'
    path.write_text('{}')
    return path


def test_a_page_goes_through_no_link(tmp_path, document):
    other = tmp_path / 'other'
    other.write_text('kept')
    target = tmp_path / 'a.txt'
    (tmp_path / 'a.txt.part').symlink_to(other)
    assert answer(JOB, str(document), str(target)) == (0, '')
    assert target.read_text() == '(Doe 1999)\n' and other.read_text() == 'kept'
    assert sorted(path.name for path in tmp_path.iterdir()) == [
        'a.json', 'a.txt', 'a.txt.part', 'other']


def test_a_link_in_the_place_of_a_page_is_replaced(tmp_path, document):
    other, target = tmp_path / 'other', tmp_path / 'a.txt'
    other.write_text('kept')
    target.symlink_to(other)
    assert answer(JOB, str(document), str(target)) == (0, '')
    assert target.read_text() == '(Doe 1999)\n' and other.read_text() == 'kept'


def test_a_failure_leaves_nothing(tmp_path, document):
    (tmp_path / 'a.txt').mkdir()
    status, said = answer(JOB, str(document), str(tmp_path / 'a.txt'))
    assert status == 1 and said == 'Is a directory'
    assert sorted(path.name for path in tmp_path.iterdir()) == ['a.json', 'a.txt']
