"""Projects of Sphinx in the forms that the documentation of sphinxcontrib-bibtex describes, built
by both extensions: each list has the works that are written here by hand, in this order."""
import re

import pytest

pytest.importorskip('sphinx', reason='there is no Sphinx (Debian: python3-sphinx)')

from gamhilon import _library  # noqa: E402
from stand_ins import NumberedStyle  # noqa: E402
from test_sphinx import Project  # noqa: E402

# Each work has its key as its title.
WORK = ('@{kind}{{{key},\n  author = {{{author}}},\n  title = {{{{{key}}}}},\n'
        '  year = {{{year}}}{more}\n}}\n')
RIVERS = [('book', 'adler1999', 'Ruth Adler', 1999, 'publisher = {Meander Press}'),
          ('article', 'bauer2004', 'Karl Bauer and Li Chen', 2004,
           'journal = {Journal of Streams}, volume = 12, pages = {101--119}'),
          ('phdthesis', 'quist2013', 'Lena Quist', 2013, 'school = {University of Lund}'),
          ('inproceedings', 'singh2017', 'Asha Singh', 2017,
           'booktitle = {Proceedings on Gauges}')]
BRIDGES = [('book', 'ito:2015a', 'Kenji Ito', 2015, 'publisher = {Arch Press}'),
           ('book', 'ito:2015b', 'Kenji Ito', 2015, 'publisher = {Arch Press}'),
           ('misc', 'dahl:2021', 'Nora Dahl and Owen Evans', 2021, 'note = {A note}')]
KEYS = [work[1] for work in [*RIVERS, *BRIDGES]]


def bib(works):
    return '\n'.join(WORK.format(kind=kind, key=key, author=author, year=year, more=f',\n  {more}')
                     for kind, key, author, year, more in works)


def page(title, *parts):
    """A page: its paragraphs, and its lists with a mark before each."""
    return '\n\n'.join([f'{title}\n{"=" * len(title)}', *parts]) + '\n'


def listed(number, options='', keys='', files=''):
    """A list, which the page names by its number."""
    lines = [f'.. bibliography:: {files}'.rstrip(), *(f'   {line}' for line in options.split('\n')),
             *(['', *(f'   {key}' for key in keys.split())] if keys else [])]
    return f'LIST {number}\n\n' + '\n'.join(line.rstrip() for line in lines if line.strip() or keys)


TOCTREE = '.. toctree::\n\n   {}'
# Of each project its pages, and the works of each list by its page and number.
ONE_LIST = {
    'index': page('Home', TOCTREE.format('rivers\n   bridges\n   references'),
                  'See :cite:t:`singh2017` for an introduction.'),
    'rivers': page('Rivers', 'As :cite:p:`bauer2004,adler1999` say, and :cite:t:`singh2017`.'),
    'bridges': page('Bridges', 'Not :cite:p:`ito:2015b`, but :cite:author:`adler1999` in '
                    ':cite:year:`adler1999`.', '.. note::\n\n   Also :cite:`dahl:2021`.'),
    'references': page('References', listed(1)),
}
ONE_LIST_HAS = {('references', 1): 'singh2017 bauer2004 adler1999 ito:2015b dahl:2021'}

FILTERS = [
    (':cited:', 'ito:2015a bauer2004'), (':notcited:', 'adler1999 quist2013 singh2017 ito:2015b '
                                                       'dahl:2021'),
    (':all:', 'ito:2015a bauer2004 adler1999 quist2013 singh2017 ito:2015b dahl:2021'),
    (':filter: cited and (author % "Bauer")', 'bauer2004'),
    (':filter: author % "Ito" or author % "Dahl"', 'ito:2015a ito:2015b dahl:2021'),
    (':filter: type == "phdthesis"', 'quist2013'), (':filter: type != "book" and not cited',
                                                    'quist2013 singh2017 dahl:2021'),
    (':filter: year >= "2015" and year < "2020"', 'ito:2015a singh2017 ito:2015b'),
    (':filter: title % "^.?ito"', 'ito:2015a ito:2015b'), (':filter: key % "5b$"', 'ito:2015b'),
    (':filter: journal % "Streams" or key == "dahl:2021"', 'bauer2004 dahl:2021'),
    (':filter: docname in docnames', 'ito:2015a'), (':filter: "other" in docnames', 'bauer2004'),
    (':filter: docnames >= {"index", "other"}', ''),
    (':filter: cited or False', 'ito:2015a bauer2004'),
    (':filter: {"index"} & docnames', 'ito:2015a'), (':filter: not docnames', 'adler1999 quist2013 '
                                                     'singh2017 ito:2015b dahl:2021'),
]
FILTERED = {
    'other': page('Other', 'As :cite:p:`bauer2004` says.'),
    'index': page('Home', TOCTREE.format('other'), 'See :cite:t:`ito:2015a`.',
                  *(listed(number, f':list: bullet\n{options}')
                    for number, (options, _) in enumerate(FILTERS, 1))),
}
FILTERED_HAS = {('index', number): keys for number, (_, keys) in enumerate(FILTERS, 1)}

FILES = {
    'index': page('Home', 'See :cite:p:`quist2013` and :cite:ps:`ito:2015b, adler1999`.',
                  listed(1, files='rivers.bib'), listed(2, files='bridges.bib'),
                  listed(3, ':list: enumerated\n:notcited:', files='rivers.bib'),
                  listed(4, ':list: enumerated\n:enumtype: upperroman\n:start: continue\n:all:',
                         files='bridges.bib'),
                  listed(5, ':list: bullet\n:filter: False', keys='singh2017 dahl:2021'),
                  listed(6, ':list: bullet', keys='dahl:2021', files='bridges.bib'),
                  listed(7, ':list: bullet\n:all:', files='rivers.bib bridges.bib')),
}
FILES_HAS = {('index', 1): 'quist2013 adler1999', ('index', 2): 'ito:2015b',
             ('index', 3): 'bauer2004 singh2017', ('index', 4): 'ito:2015b ito:2015a dahl:2021',
             ('index', 5): 'singh2017 dahl:2021', ('index', 6): 'ito:2015b dahl:2021',
             ('index', 7): 'quist2013 ito:2015b adler1999 bauer2004 singh2017 ito:2015a dahl:2021'}

LOCAL_LIST = ':filter: docname in docnames\n:labelprefix: {0}\n:keyprefix: {1}-'
LOCAL = {
    'index': page('Home', TOCTREE.format('parts/one\n   parts/two'), 'See :cite:p:`adler1999`.',
                  listed(1)),
    'parts/one': page('One', 'As :cite:p:`a-bauer2004` and :cite:t:`a-adler1999`.',
                      listed(1, LOCAL_LIST.format('A', 'a'))),
    'parts/two': page('Two', 'As :cite:t:`b-dahl:2021`, :cite:p:`b-bauer2004,b-quist2013`.',
                      listed(1, LOCAL_LIST.format('B', 'b')),
                      listed(2, ':list: bullet\n:filter: docname % "^parts/" and docnames')),
}
LOCAL_HAS = {('index', 1): 'adler1999', ('parts/one', 1): 'bauer2004 adler1999',
             ('parts/two', 1): 'dahl:2021 bauer2004 quist2013', ('parts/two', 2): 'adler1999'}

FOOT = {
    'index': page('Home', TOCTREE.format('other'), 'One :footcite:p:`quist2013`, two '
                  ':footcite:t:`adler1999`, and again :footcite:`quist2013`; :cite:p:`ito:2015b`.',
                  'LIST 1', '.. footbibliography::', 'Later :footcite:`bauer2004,adler1999`.',
                  'LIST 2', '.. footbibliography::', listed(3)),
    'other': page('Other', 'One :footcite:p:`dahl:2021`.', 'LIST 1', '.. footbibliography::'),
}
FOOT_HAS = {('index', 1): 'quist2013 adler1999', ('index', 2): 'bauer2004',
            ('index', 3): 'ito:2015b', ('other', 1): 'dahl:2021'}

PROJECTS = {'one list': (ONE_LIST, ONE_LIST_HAS), 'filters': (FILTERED, FILTERED_HAS),
            'files': (FILES, FILES_HAS), 'local lists': (LOCAL, LOCAL_HAS),
            'footnotes': (FOOT, FOOT_HAS)}


@pytest.fixture(params=['stand-in', 'library'])
def writes(request, monkeypatch):
    """What writes the lists of this package: a style that is made up, and then the library."""
    if request.param == 'library':
        request.getfixturevalue('cites')
    else:
        monkeypatch.setattr(_library, '_library', _library.Library(NumberedStyle()))


def built(folder, extension, pages):
    """A project built by an extension."""
    folder.mkdir()
    project = Project(folder)
    project.write('conf.py', f'extensions = [{extension!r}]\nbibtex_default_style = "unsrt"\n'
                             'bibtex_bibfiles = ["rivers.bib", "bridges.bib"]\n')
    project.write('rivers.bib', bib(RIVERS))
    project.write('bridges.bib', bib(BRIDGES))
    for name, text in pages.items():
        project.write(f'{name}.rst', text)
    return project.build(), project


def works_of(project, name):
    """The works of each list of a page, by its number. (A page shows keys in its lists alone.)"""
    parts = re.split(r'^LIST (\d+)$', project.page(name), flags=re.MULTILINE)
    key = re.compile('|'.join(map(re.escape, KEYS)))
    return {(name, int(number)): ' '.join(key.findall(text))
            for number, text in zip(parts[1::2], parts[2::2])}


def lists_of(project, pages):
    found = {}
    for name in pages:
        found.update(works_of(project, name))
    return found


@pytest.mark.parametrize('name', PROJECTS)
def test_lists_of_this_package(tmp_path, reads, writes, name):
    pages, wanted = PROJECTS[name]
    warned, project = built(tmp_path / 'project', 'gamhilon.sphinx', pages)
    assert (warned, lists_of(project, pages)) == ([], wanted)


@pytest.mark.parametrize('name', PROJECTS)
def test_lists_of_sphinxcontrib_bibtex(tmp_path, reads, name):
    pytest.importorskip('sphinxcontrib.bibtex', reason='there is no sphinxcontrib-bibtex '
                                                       '(Debian: python3-sphinxcontrib.bibtex)')
    pages, wanted = PROJECTS[name]
    warned, project = built(tmp_path / 'project', 'sphinxcontrib.bibtex', pages)
    assert lists_of(project, pages) == wanted, warned
