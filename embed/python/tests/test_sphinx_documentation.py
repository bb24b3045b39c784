"""The examples of the documentation of sphinxcontrib-bibtex, as Debian's package of it has them:
each is a project that both extensions build, and their lists have the same works in the same
order."""
import os
import re
import textwrap

import pytest

pytest.importorskip('sphinx', reason='there is no Sphinx (Debian: python3-sphinx)')
pytest.importorskip('sphinxcontrib.bibtex', reason='there is no sphinxcontrib-bibtex (Debian: '
                                                   'python3-sphinxcontrib.bibtex)')

from gamhilon import _library  # noqa: E402
from stand_ins import NumberedStyle  # noqa: E402
from test_sphinx import Project  # noqa: E402
from test_sphinx_examples import WORK  # noqa: E402

PAGE = '/usr/share/doc/python-sphinxcontrib.bibtex-doc/html/_sources/usage.rst.txt'
FILES = {
    'refs': [('book', '1987:nelson', 'Edward Nelson', 1987),
             ('book', '2001:schechter', 'Eric Schechter', 2001)],
    'articles': [('article', 'einstein1905', 'Albert Einstein', 1905),
                 ('article', 'relativity', 'Hermann Weyl', 1918)],
    'books1': [('book', 'nelson1987', 'Edward Nelson', 1987),
               ('book', 'boole1854', 'George Boole', 1854)],
    'books2': [('book', 'noether1918', 'Emmy Noether', 1918)],
    'references': [('book', 'hilbert1899', 'David Hilbert', 1899)],
}
MORE = ',\n  publisher = {Press}, journal = {Journal}'
KEYS = [work[1] for works in FILES.values() for work in works]
CITED = {'doc1': 'einstein1905 noether1918', 'doc2': 'noether1918 hilbert1899',
         'doc3': 'relativity hilbert1899'}


def examples(language):
    """The blocks of a language, by the first line in which they differ."""
    if not os.path.exists(PAGE):
        return []
    with open(PAGE, encoding='utf-8') as file:
        text = file.read()
    blocks = re.findall(rf'^( *)\.\. code-block:: {language}\s*\n((?:\1 +.*\n|\s*\n)+)', text,
                        re.MULTILINE)
    return list(dict.fromkeys(textwrap.dedent(block).strip('\n') for _, block in blocks))


PAGES = [block for block in examples('rest') if re.search(r':(foot)?cite|bibliography::', block)
         and 'curly-bracket' not in block]
SETTINGS = [block for block in examples('python') if block.startswith('bibtex_')
            and 'mystyle' not in block and 'author_year_round' not in block]


def name_of(block):
    return ' '.join(block.split())[:60]


def with_lists(block):
    """A block with a mark before each of its lists, and with the lists that it lacks. What begins
    with a prefix is cited with it."""
    prefix = re.search(r':keyprefix: (\S+)', block)
    parts = [f'Also :cite:`{prefix.group(1)}boole1854`.'] if prefix else []
    parts.append(block)
    text = '\n\n'.join(parts)
    if not re.search(r'^\.\. bibliography::', text, re.MULTILINE):
        text += '\n\n.. bibliography::'
    if ':footcite' in text:
        text += '\n\n.. footbibliography::'
    count = iter(range(1, 9))
    return re.sub(r'^(?=\.\. (?:foot)?bibliography::)', lambda _: f'LIST {next(count)}\n\n', text,
                  flags=re.MULTILINE)


def lists_by(extension, folder, page, settings='', suffix='rst'):
    """The works of each list of a page, with the others beside it, as an extension builds them."""
    folder.mkdir()
    project = Project(folder)
    project.write('conf.py', f"extensions = [{extension!r}, 'myst_parser'][:{1 + (suffix == 'md')}]"
                             f'\nbibtex_bibfiles = {[f"{name}.bib" for name in FILES]}\n'
                             f"bibtex_default_style = 'unsrt'\n{settings}\n")
    for name, works in FILES.items():
        project.write(f'{name}.bib', '\n'.join(
            WORK.format(kind=kind, key=key, author=author, year=year, more=MORE)
            for kind, key, author, year in works))
    title = '# Home\n\n' if suffix == 'md' else 'Home\n====\n\n'
    project.write(f'index.{suffix}', f'{title}{page}\n')
    project.write('about.rst', ':orphan:\n\nAbout\n=====\n\n.. toctree::\n\n   index\n   doc1\n'
                               '   doc2\n   doc3\n')
    for name, keys in CITED.items():
        cites = ' '.join(f':cite:p:`{key}`' for key in keys.split())
        project.write(f'{name}.rst', f'{name}\n====\n\n{cites}\n')
    warned = project.build()
    parts = re.split(r'^LIST (\d+)$', project.page('index'), flags=re.MULTILINE)
    key = re.compile('|'.join(map(re.escape, KEYS)))
    return {number: key.findall(text) for number, text in zip(parts[1::2], parts[2::2])}, warned


@pytest.fixture(params=['stand-in', 'library'])
def writes(request, monkeypatch):
    """What writes the lists of this package: a style that is made up, and then the library."""
    if not os.path.exists(PAGE):
        pytest.skip('there is no documentation of sphinxcontrib-bibtex (Debian: '
                    'python-sphinxcontrib.bibtex-doc)')
    if request.param == 'library':
        request.getfixturevalue('cites')
    else:
        monkeypatch.setattr(_library, '_library', _library.Library(NumberedStyle()))


def compare(tmp_path, page, *more):
    theirs, _ = lists_by('sphinxcontrib.bibtex', tmp_path / 'theirs', page, *more)
    ours, warned = lists_by('gamhilon.sphinx', tmp_path / 'ours', page, *more)
    assert (ours, warned) == (theirs, []) and theirs


@pytest.mark.parametrize('block', PAGES or ['.. bibliography::'], ids=name_of)
def test_examples_of_pages(tmp_path, reads, writes, block):
    compare(tmp_path, with_lists(block))


@pytest.mark.parametrize('settings', SETTINGS or ["bibtex_default_style = 'unsrt'"], ids=name_of)
def test_examples_of_settings(tmp_path, reads, writes, settings):
    if settings.startswith('bibtex_footbibliography_header'):
        settings = f"bibtex_bibliography_header = ''\n{settings}"
    compare(tmp_path, with_lists('See :cite:p:`1987:nelson` and :footcite:p:`2001:schechter`.'),
            settings)


def test_the_example_of_myst(tmp_path, reads, writes):
    pytest.importorskip('myst_parser', reason='there is no MyST (Debian: python3-myst-parser)')
    block, = [block for block in examples('markdown') if '{cite:p}' in block]
    page = block.replace('```{bib', 'LIST 1\n\n```{bib', 1)
    compare(tmp_path, f'{page}\n\n{{cite:p}}`hilbert1899`', '', 'md')
