"""Citations in Sphinx (gamhilon.sphinx). What is expected of pages is written by hand, from the
rules of the style or of what stands in for it; where both extensions are installed, lists are held
to those of sphinxcontrib-bibtex."""
import io
import os
import re
import shutil

import pytest

pytest.importorskip('sphinx', reason='there is no Sphinx (Debian: python3-sphinx)')

from sphinx.application import Sphinx  # noqa: E402
from sphinx.util.docutils import docutils_namespace, patch_docutils  # noqa: E402

from gamhilon import _library  # noqa: E402
from gamhilon.sphinx._filters import Filter, FilterFault  # noqa: E402
from gamhilon.sphinx._roles import cites_of  # noqa: E402
from stand_ins import MadeUpStyle, NumberedStyle  # noqa: E402

REFERENCES = """[
{"id": "doe99", "type": "book", "title": "On Order", "author": [{"family": "Doe"}],
 "issued": {"date-parts": [[1999]]}},
{"id": "roe00", "type": "article-journal", "title": "A Reply", "author": [{"family": "Roe"}]},
{"id": "poe", "type": "book", "title": "Tales", "author": [{"family": "Poe"}]},
{"id": "lee", "type": "book", "title": "Uncited", "author": [{"family": "Lee"}]}]"""
CONF = """extensions = ['gamhilon.sphinx']
bibtex_bibfiles = ['references.json']
"""


class Project:
    """A project of Sphinx in a folder."""

    def __init__(self, folder):
        self.folder = folder

    def write(self, name, text):
        path = self.folder / name
        is_new = not path.exists()
        path.parent.mkdir(parents=True, exist_ok=True)
        path.write_text(text)
        if not is_new:
            # (a change within a second of a build is seen, too)
            later = path.stat().st_mtime + 2
            os.utime(path, (later, later))

    def build(self, builder='text', fresh=False, parallel=1, doctrees=None, **config):
        """What a build warns of."""
        warned = io.StringIO()
        name = 'fresh' if fresh else builder
        out = self.folder / f'_build/{name}'
        trees = self.folder / f'_build/{doctrees or name}.trees'
        if fresh:
            shutil.rmtree(out, ignore_errors=True)
        with patch_docutils(str(self.folder)), docutils_namespace():
            app = Sphinx(str(self.folder), str(self.folder), str(out), str(trees), builder,
                         confoverrides=config, status=None, warning=warned, freshenv=fresh,
                         parallel=parallel)
            app.build()
        text = re.sub('\x1b.*?m', '', warned.getvalue())
        return [line.replace(f'{self.folder}/', '') for line in text.splitlines() if line.strip()]

    def page(self, name, builder='text'):
        """A page as it was built."""
        suffix = {'text': 'txt', 'html': 'html', 'latex': 'tex', 'fresh': 'txt'}[builder]
        return (self.folder / f'_build/{builder}/{name}.{suffix}').read_text()

    def pages(self, builder='text'):
        """All pages as they were built."""
        folder = self.folder / f'_build/{builder}'
        return {str(path.relative_to(folder)): path.read_text() for path in folder.rglob('*.txt')}


@pytest.fixture
def project(tmp_path, monkeypatch):
    """A project with the references, over a library that is made up."""
    monkeypatch.setattr(_library, '_library', _library.Library(MadeUpStyle()))
    made = Project(tmp_path)
    made.write('conf.py', CONF)
    made.write('references.json', REFERENCES)
    return made


@pytest.fixture
def numbered(project, monkeypatch):
    """Such a project, in which works are numbered in the order in which they are cited."""
    monkeypatch.setattr(_library, '_library', _library.Library(NumberedStyle()))
    project.write('index.rst', 'Home\n====\n\n.. toctree::\n\n   two\n   one\n\nAt :cite:`poe`.\n\n'
                               '.. bibliography::\n')
    project.write('one.rst', 'One\n===\n\nAs :cite:p:`roe00` and :cite:p:`doe99,poe`.\n')
    project.write('two.rst', 'Two\n===\n\nAs :cite:p:`doe99`.\n')
    return project


def body(text):
    """The lines below the heading of a page, without those that are empty."""
    return [line for line in text.splitlines()[2:] if line.strip()]


# Roles and what stands in them

def test_roles_cite_and_the_directive_lists(project):
    project.write('index.rst', 'Home\n====\n\nSee :cite:`doe99` and :cite:p:`roe00, poe`.\n\n'
                               '.. bibliography::\n')
    assert project.build() == []
    assert body(project.page('index')) == [
        'See (Doe, On Order) and (Roe, A Reply; Poe, Tales).', 'doe99', 'roe00', 'poe']


@pytest.mark.parametrize('text, cites', [
    ('a', [{'id': 'a'}]), (' a , b ', [{'id': 'a'}, {'id': 'b'}]),
    ('{see}a{p. 4}', [{'id': 'a', 'prefix': 'see', 'locator': '4', 'label': 'page'}]),
    ('a{chap. 2}, {also}b{in part}', [{'id': 'a', 'locator': '2', 'label': 'chapter'},
                                      {'id': 'b', 'prefix': 'also', 'suffix': 'in part'}]),
    ('1987:nelson', [{'id': '1987:nelson'}]),
])
def test_what_stands_in_a_role(text, cites):
    assert [cite.data() for cite in cites_of(text)] == cites


@pytest.mark.parametrize('text', ['', 'a b', 'a{p. 4', 'a,,b', '{see}'])
def test_what_is_no_cite(text):
    with pytest.raises(ValueError):
        cites_of(text)


@pytest.mark.parametrize('role, shown', [
    ('t', '(Doe, On Order) (Doe, On Order, 4)'), ('label', 'Doe, On Order, 4'),
    ('labelpar', '(Doe, On Order, 4)'), ('author', '(Doe, On Order)'),
    ('authorpar', '((Doe, On Order))'), ('empty', ''),
])
def test_roles_that_show_more_or_less(project, role, shown):
    """In a style of labels, which writes no author: that is written beside the style. (The stand-in
    writes it as a whole citation.)"""
    project.write('index.rst', f'Home\n====\n\nx :cite:{role}:`doe99{{p. 4}}`\n')
    assert project.build() == []
    assert body(project.page('index')) == [f'x {shown}'.strip()]


def test_all_roles_of_sphinxcontrib_bibtex_are_known(project):
    roles = ('p ps t ts ct cts author authors cauthor cauthors authorpar authorpars year yearpar '
             'label labelpar empty').split()
    project.write('index.rst', 'Home\n====\n\n' + ''.join(f':cite:{role}:`doe99`\n\n'
                                                         for role in roles))
    assert project.build() == []


def test_a_project_in_markdown(project):
    pytest.importorskip('myst_parser', reason='there is no MyST (Debian: python3-myst-parser)')
    project.write('conf.py', CONF.replace("sphinx']", "sphinx', 'myst_parser']"))
    project.write('index.md', '# Home\n\nSee {cite:p}`doe99` and {cite:p}`none`.\n\n'
                              '```{bibliography}\n:all:\n```\n')
    warned = project.build()
    assert [line for line in warned if 'WARNING' in line] == [
        "index.md:3: WARNING: there is no entry 'none'"]
    assert body(project.page('index'))[0].startswith('See (Doe, On Order) and ')
    assert body(project.page('index'))[1:] == ['doe99', 'roe00', 'poe', 'lee']


# What is wrong

@pytest.mark.parametrize('text, said', [
    (':cite:p:`doe98`', "there is no entry 'doe98': is 'doe99' meant?"),
    (':cite:p:`doe99 roe00`', "no keys with commas between: 'doe99 roe00'"),
    ('.. bibliography::\n   :filter: cited and', ':filter: \'cited and\' is no expression'),
    ('.. bibliography::\n   :filter: cited()', ':filter: filters have no Call'),
    ('.. bibliography::\n   :list: round', "there is no list 'round'"),
    ('.. bibliography::\n   :style: no-such-style', ":style: there is no style 'no-such-style'"),
    ('.. bibliography:: none.bib', 'none.bib is no file of bibtex_bibfiles'),
    ('.. bibliography::\n\n   rowe00', "there is no entry 'rowe00': is 'roe00' meant?"),
])
def test_what_is_wrong_is_a_warning_with_its_page_and_line(project, text, said):
    project.write('index.rst', f'Home\n====\n\nx\n\n{text}\n')
    warned = project.build()
    assert len(warned) >= 1 and warned[0].startswith('index.rst:6: WARNING: ')
    assert said in warned[0]


def test_a_file_that_is_missing_or_broken_is_a_warning(project):
    project.write('broken.json', '[{')
    project.write('index.rst', 'Home\n====\n')
    warned = project.build(bibtex_bibfiles=['none.bib', 'broken.json'])
    assert [line.partition(': WARNING: ')[2].split(':')[1].strip() for line in warned] == [
        'No such file or directory', 'no JSON']


def test_a_style_that_is_missing_ends_the_build(project):
    from sphinx.errors import ConfigError
    project.write('index.rst', 'Home\n====\n')
    with pytest.raises(ConfigError, match="there is no style 'no-such-style'"):
        project.build(gamhilon_style='no-such-style')


# Many pages, and builds one after the other

def test_numbers_run_over_all_pages_in_the_order_of_the_toctree(numbered):
    assert numbered.build() == []
    assert body(numbered.page('index'))[-4:] == ['At [1].', '[1] poe', '[2] doe99', '[3] roe00']
    assert body(numbered.page('two')) == ['As [2].']
    assert body(numbered.page('one')) == ['As [3] and [2, 1].']


EDITS = [
    ('two.rst', 'Two\n===\n\nAs :cite:p:`lee` and :cite:p:`roe00`.\n'),
    ('index.rst', 'Home\n====\n\n.. toctree::\n\n   one\n   two\n\nText.\n\n'
                  '.. bibliography::\n'),
    ('references.json', REFERENCES.replace('"poe"', '"poe2"')),
    ('one.rst', 'One\n===\n\nNothing.\n'),
    ('three.rst', ':orphan:\n\nThree\n=====\n\nAs :cite:p:`roe00`.\n'),
]


@pytest.mark.parametrize('name, text', EDITS)
def test_a_build_after_an_edit_is_that_of_a_fresh_one(numbered, name, text):
    numbered.build()
    numbered.write(name, text)
    numbered.build()
    before = numbered.pages()
    numbered.build(fresh=True)
    assert before == numbered.pages('fresh')


def test_a_page_that_is_removed_takes_its_citations_along(numbered):
    numbered.write('index.rst', 'Home\n====\n\n.. toctree::\n   :glob:\n\n   o*\n   t*\n\n'
                                '.. bibliography::\n')
    numbered.build()
    assert body(numbered.page('two')) == ['As [2].']
    (numbered.folder / 'one.rst').unlink()
    numbered.build()
    assert body(numbered.page('two')) == ['As [1].']
    assert body(numbered.page('index'))[-1] == '[1] doe99'


def test_a_build_without_a_change_writes_nothing(numbered):
    numbered.build()
    page = numbered.folder / '_build/text/two.txt'
    before = page.stat().st_mtime_ns
    numbered.build()
    assert page.stat().st_mtime_ns == before


def test_a_title_shows_its_citation_on_other_pages(numbered):
    """Also where that changes, and the page itself doesn't."""
    numbered.write('one.rst', 'On :cite:p:`roe00`\n==================\n\nText.\n')
    assert numbered.build() == []
    assert '* On [3]' in numbered.page('index')
    numbered.write('two.rst', 'Two\n===\n\nAs :cite:p:`lee` and :cite:p:`doe99`.\n')
    numbered.build()
    assert '* On [4]' in numbered.page('index')


def test_a_second_builder_writes_what_the_first_has_seen_change(numbered):
    """Both over one set of doctrees, as of `make text html`."""
    for builder in ('text', 'html'):
        numbered.build(builder, doctrees='shared')
    assert '>3</a>' in numbered.page('one', 'html')
    numbered.write('two.rst', 'Two\n===\n\nAs :cite:p:`lee` and :cite:p:`doe99`.\n')
    for builder in ('text', 'html'):
        numbered.build(builder, doctrees='shared')
    assert body(numbered.page('one')) == ['As [4] and [3, 1].']
    assert '>4</a>' in numbered.page('one', 'html')


def test_pages_that_several_processes_read_are_the_same(numbered):
    names = [f'page{number}' for number in range(12)]
    keys = ['doe99', 'roe00', 'poe', 'lee']
    for place, name in enumerate(names):
        numbered.write(f'{name}.rst', f'{name}\n======\n\nAs :cite:p:`{keys[place * 7 % 4]}`.\n')
    numbered.write('index.rst', 'Home\n====\n\n.. toctree::\n\n   '
                   + '\n   '.join(reversed(names)) + '\n\n.. bibliography::\n')
    numbered.build(parallel=3)
    found = numbered.pages()
    numbered.build(fresh=True)
    assert found == numbered.pages('fresh') and len(found) >= 13


# Lists

LISTS = [
    (':cited:', ['doe99']), (':notcited:', ['roe00', 'poe', 'lee']),
    (':all:', ['doe99', 'roe00', 'poe', 'lee']),
    (':filter: cited or key == "lee"', ['doe99', 'lee']),
    (':filter: type == "book" and not cited', ['poe', 'lee']),
    (':filter: author % "^r"', ['roe00']), (':filter: year >= "1990"', ['doe99']),
    (':filter: docname in docnames', ['doe99']), (':filter: {"index"} & docnames', ['doe99']),
    (':filter: False\n\n   lee', ['lee']),
]


@pytest.mark.parametrize('options, keys', LISTS)
def test_what_a_list_has(project, options, keys):
    project.write('index.rst', 'Home\n====\n\nSee :cite:p:`doe99`.\n\n.. bibliography::\n'
                               f'   {options}\n')
    assert project.build() == []
    assert body(project.page('index'))[1:] == keys


@pytest.mark.parametrize('expression', ['', 'a b', 'f(x)', 'a < b < c', 'a + b', '-a', 'a.b'])
def test_what_is_no_filter(expression):
    with pytest.raises(FilterFault):
        Filter(expression).holds(lambda name: 'x')


def test_lists_with_bullets_and_with_numbers_that_go_on(project):
    listed = '.. bibliography::\n   :list: enumerated\n   :filter: key == "{}"\n{}'
    project.write('index.rst', 'Home\n====\n\n' + listed.format('doe99', '   :start: 4\n\n')
                  + listed.format('roe00', '   :start: continue\n\n')
                  + '.. bibliography::\n   :list: bullet\n   :filter: key == "poe"\n')
    assert project.build() == []
    assert body(project.page('index')) == ['4. doe99', '5. roe00', '* poe']


def test_lists_of_pages_by_prefixes(numbered):
    """As the documentation of sphinxcontrib-bibtex has local bibliographies."""
    for name in ('one', 'two'):
        numbered.write(f'{name}.rst', f'{name}\n===\n\nAs :cite:p:`{name}-doe99`.\n\n'
                                      '.. bibliography::\n   :filter: docname in docnames\n'
                                      f'   :keyprefix: {name}-\n')
    assert numbered.build() == []
    for name in ('one', 'two'):
        assert body(numbered.page(name)) == ['As [1].', f'[1] {name}-doe99']


# What builders write

def links_of(project, page):
    """Each link of a page to a place on this or another page, and whether that is there."""
    html = project.page(page, 'html')
    main = html[html.index('role="main"'):html.index('sphinxsidebar"')]
    for uri in re.findall(r'<a class="reference internal" href="([^"]*#[^"]*)"', main):
        name, _, place = uri.partition('#')
        target = project.page(name[:-len('.html')] if name else page, 'html')
        yield uri, f'id="{place}"' in target


def test_cites_lead_to_their_items_on_any_page(project):
    project.write('index.rst', 'Home\n====\n\n.. toctree::\n\n   one\n\nSee :cite:p:`doe99`.\n\n'
                               '.. bibliography::\n')
    project.write('one.rst', 'One\n===\n\nSee :cite:p:`roe00` and :cite:t:`doe99`.\n')
    assert project.build('html') == []
    assert list(links_of(project, 'one')) == [('index.html#ref-roe00', True),
                                              ('index.html#ref-doe99', True)]
    assert ('#ref-doe99', True) in list(links_of(project, 'index'))
    home = project.page('index', 'html')
    assert 'class="references csl-bib-body hanging-indent' in home
    for name in ('gamhilon.css', 'gamhilon_sphinx.css'):
        assert f'_static/{name}' in home
        assert (project.folder / f'_build/html/_static/{name}').is_file()


def test_ids_header_and_tooltips_are_those_of_conf(project):
    project.write('index.rst', 'Home\n====\n\nSee :cite:p:`doe99`.\n\n.. bibliography::\n')
    told = {'bibtex_cite_id': 'cite-{bibliography_count}-{key}',
            'bibtex_bibliography_id': 'list-{bibliography_count}',
            'bibtex_bibliography_header': '.. rubric:: *Works*'}
    assert project.build('html', **told) == []
    home = project.page('index', 'html')
    assert 'href="#cite-1-doe99" title="doe99"' in home and 'id="cite-1-doe99"' in home
    assert 'id="list-1"' in home and '<p class="rubric"><em>Works</em></p>' in home
    assert project.build('html', bibtex_tooltips=False, **told) == []
    assert 'title="doe99"' not in project.page('index', 'html')


def test_the_header_of_footnotes(project):
    project.write('index.rst', 'Home\n====\n\nSee :footcite:p:`doe99`.\n\n'
                               '.. footbibliography::\n\nMore.\n\n.. footbibliography::\n')
    told = {'bibtex_footbibliography_header': '.. rubric:: *Notes*'}
    assert project.build('html', **told) == []
    home = project.page('index', 'html')
    assert home.count('<p class="rubric"><em>Notes</em></p>') == 1
    assert home.index('rubric') < home.index('doe99</') < home.index('More.')


def test_latex_has_each_label_to_which_it_refers(project):
    project.write('index.rst', 'Home\n====\n\nSee :cite:p:`doe99`.\n\n.. bibliography::\n')
    assert project.build('latex', project='Own') == []
    text = project.page('own', 'latex')
    assert r'\hyperref[\detokenize{index:ref-doe99}]' in text
    assert r'\label{\detokenize{index:ref-doe99}}' in text


def test_an_epub_has_the_list_and_the_style_sheet(project):
    import zipfile
    project.write('index.rst', 'Home\n====\n\nSee :cite:p:`doe99`.\n\n.. bibliography::\n')
    project.build('epub', project='Own', version='1', copyright='x', epub_show_urls='no')
    names = zipfile.ZipFile(project.folder / '_build/epub/Own.epub').namelist()
    assert {'index.xhtml', '_static/gamhilon.css'} <= set(names)


# Styles of notes

NOTES = """Home
====

One :cite:p:`doe99`, two [#]_ and three :cite:p:`{see}roe00`. The end.

.. [#] A note :cite:p:`poe`, with more.
"""


def test_in_a_style_of_notes_citations_are_footnotes_in_the_order_of_the_text(project):
    project.write('index.rst', NOTES)
    assert project.build(gamhilon_style='notes') == []
    lines = body(project.page('index'))
    assert lines[0] == 'One,[1] two [2] and three.[3] The end.'
    assert [line for line in lines if line.startswith('[')] == [
        '[2] A note (Poe, Tales), with more.', '[1] (Doe, On Order)', '[3] (SeeRoe, A Reply)']


FOOT = """Home
====

One :footcite:p:`doe99`, two [#]_, :footcite:t:`roe00` and :footcite:`doe99`; :cite:p:`poe`.

.. [#] A note.

.. footbibliography::

.. bibliography::
"""


def test_works_in_footnotes(numbered):
    """As sphinxcontrib-bibtex has them: one for each work of a page, and none of them listed. (The
    stand-in writes a number for an author: here that of the second work in footnotes.)"""
    numbered.write('index.rst', FOOT)
    for name in ('one', 'two'):
        numbered.write(f'{name}.rst', f':orphan:\n\n{name}\n===\n\nText.\n')
    assert numbered.build() == []
    lines = body(numbered.page('index'))
    assert lines[0] == 'One [1], two [2], [2][3] and [1]; [1].'
    assert lines[1:] == ['[2] A note.', '[1] doe99', '[3] roe00', '[1] poe']


def test_works_in_footnotes_without_a_place_stand_at_the_end(project):
    project.write('index.rst', 'Home\n====\n\nOne :footcite:`doe99`, and :footcite:`none`.\n')
    assert project.build() == ["index.rst:4: WARNING: there is no entry 'none'"]
    assert body(project.page('index')) == ['One [1], and "none".', '-[ Footnotes ]-', '[1] doe99']


# Over the library

WORKS = """
@book{nelson, author={Edward Nelson}, title={Radically Elementary Probability Theory},
  publisher={Princeton University Press}, year=1987}
@article{doe, author={Jane Doe and Richard Roe and Al Poe}, title={On the Order of Things},
  journal={Journal of Order}, year=1999, volume=4, pages={1--20}}
@book{adams, author={Ann Adams}, title={First Things}, year=1980, publisher={Press}}
@inproceedings{zeta, author={Zoe Zeta}, title={Last Things}, booktitle={Proceedings of Things},
  year=2010, pages={3--9}}
@book{never, author={Nell Never}, title={Never Cited}, year=1991, publisher={Press}}
"""
TUTORIAL = {
    'index.rst': 'Home\n====\n\n.. toctree::\n\n   zzz\n   local\n\nSee :cite:p:`nelson`; '
                 ':cite:p:`doe,zeta`.\n\n.. bibliography::\n',
    'zzz.rst': 'Page\n====\n\nAs :cite:p:`zeta` and :cite:p:`adams`.\n',
    'local.rst': 'Local\n=====\n\nAs :cite:p:`a-zeta` and :cite:p:`a-never`.\n\n'
                 '.. bibliography::\n   :filter: docname in docnames\n   :keyprefix: a-\n'
                 '   :labelprefix: A\n',
}
TITLES = {'nelson': 'Radically', 'doe': 'On the', 'adams': 'First', 'zeta': 'Last',
          'never': 'Never'}


def lists_of(project):
    """Of each page the texts of its sentences, and the labels and works of its list."""
    found = {}
    for name in ('index', 'zzz', 'local'):
        text = project.page(name)
        labels = re.findall(r'^\[(\w+)\] +(.*(?:\n.*\S)*)', text, re.MULTILINE)
        works = [(label, next(key for key, title in TITLES.items()
                              if re.search(rf'\b{title}\s', item, re.IGNORECASE)))
                 for label, item in labels]
        found[name] = [re.findall(r'^(?:See|As) .*', text, re.MULTILINE), works]
    return found


@pytest.mark.parametrize('style', ['unsrt', 'plain'])
def test_numbers_and_lists_are_those_of_sphinxcontrib_bibtex(tmp_path, cites, reads, style):
    """A project with a list of all pages and one of a page, as its tutorial has them."""
    pytest.importorskip('sphinxcontrib.bibtex', reason='there is no sphinxcontrib-bibtex '
                                                       '(Debian: python3-sphinxcontrib.bibtex)')
    found = []
    for extension in ('sphinxcontrib.bibtex', 'gamhilon.sphinx'):
        project = Project(tmp_path / extension)
        project.write('conf.py', f'extensions = [{extension!r}]\nbibtex_bibfiles = ["w.bib"]\n'
                                 f'bibtex_default_style = {style!r}\n')
        for name, text in {**TUTORIAL, 'w.bib': WORKS}.items():
            project.write(name, text)
        assert project.build() == []
        found.append(lists_of(project))
    assert found[0] == found[1]
    assert [len(works) for _, works in found[0].values()] == [4, 0, 2]


def test_authors_and_years_of_a_style(tmp_path, cites, reads):
    """As the rules of the style say: `et al.` from three authors, and a suffix of the year."""
    project = Project(tmp_path)
    project.write('conf.py', 'extensions = ["gamhilon.sphinx"]\nbibtex_bibfiles = ["w.bib"]\n'
                             'gamhilon_style = "author-date"\n')
    project.write('w.bib', WORKS + '@book{again, author={Edward Nelson}, title={More}, year=1987}')
    project.write('index.rst', 'Home\n====\n\n:cite:p:`doe{p. 4}`; :cite:t:`nelson`; '
                               ':cite:author:`doe`; :cite:year:`again`; :cite:yearpar:`doe`; '
                               ':cite:t:`adams,zeta`.\n')
    assert project.build() == []
    assert ' '.join(body(project.page('index'))) == (
        '(Doe et al. 1999, p. 4); Nelson (1987b); Doe et al.; 1987a; (1999); Adams (1980) and '
        'Zeta (2010).')


def test_the_author_in_a_sentence_is_left_out_of_its_note(tmp_path, cites, reads):
    project = Project(tmp_path)
    project.write('conf.py', 'extensions = ["gamhilon.sphinx"]\nbibtex_bibfiles = ["w.bib"]\n'
                             'gamhilon_style = "notes"\n')
    project.write('w.bib', WORKS)
    project.write('index.rst', 'Home\n====\n\nAs :cite:t:`nelson` says; :cite:p:`adams`.\n')
    assert project.build() == []
    lines = body(project.page('index'))
    assert lines[0].startswith('As Nelson')
    first, second = (next(line for line in lines if line.startswith(f'[{n}]')) for n in (1, 2))
    assert 'Nelson' not in first and 'Radically' in first
    assert 'Adams' in second and 'First' in second
