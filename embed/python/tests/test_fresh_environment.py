"""The wheel in a fresh environment, without a network: the first lines of each guide, as they stand
there. What a guide needs beside the package is that of Debian, and the guide is left out where that
isn't installed. (The wheel has the built library and the built program. Where there is no library,
one that is none shows that the rest is installed; where there is no program, an executable stands
in for it.)"""
import importlib.util
import json
import os
import re
import shutil
import subprocess
import sys
from types import SimpleNamespace

import pytest
from conftest import PROJECT, ROOT
from stand_ins import put_program

from gamhilon import _library

sys.path.insert(0, PROJECT)
import gamhilon_wheel  # noqa: E402

GUIDES = f'{ROOT}/docs/GUIDES'
WORKS = [
    {'id': 'darwin1859', 'type': 'book', 'title': 'On the Origin of Species',
     'author': [{'family': 'Darwin', 'given': 'Charles'}], 'issued': {'date-parts': [[1859]]},
     'publisher': 'John Murray'},
    {'id': 'darwin1871', 'type': 'book', 'title': 'The Descent of Man',
     'author': [{'family': 'Darwin', 'given': 'Charles'}], 'issued': {'date-parts': [[1871]]},
     'publisher': 'John Murray'},
    {'id': 'wallace1855', 'type': 'article-journal', 'title': 'On the law of new species',
     'author': [{'family': 'Wallace', 'given': 'Alfred Russel'}],
     'issued': {'date-parts': [[1855]]}, 'container-title': 'Annals', 'page': '184-196'},
]
DOE = [{'id': 'doe99', 'type': 'book', 'title': 'On Order', 'author': [{'family': 'Doe'}],
        'issued': {'date-parts': [[1999]]}},
       {'id': 'roe00', 'type': 'book', 'title': 'A Reply', 'author': [{'family': 'Roe'}],
        'issued': {'date-parts': [[2000]]}}]


def open_guide(guide):
    """The text of a guide."""
    with open(f'{GUIDES}/{guide}.md', encoding='utf-8') as file:
        return file.read()


def blocks(guide, language):
    """The blocks of a language in a guide; those without one are indented."""
    text = open_guide(guide)
    if language:
        return re.findall(rf'```{language}\n(.*?)```', text, re.DOTALL)
    return [re.sub(r'^    ', '', block, flags=re.MULTILINE).lstrip('\n')
            for block in re.findall(r'^((?:    .*\n|\n(?=    ))+)', text, re.MULTILINE)]


@pytest.fixture(scope='module')
def environment(tmp_path_factory):
    """An environment with the packages of the system and the wheel, and what runs in it."""
    if importlib.util.find_spec('pip') is None:
        pytest.skip('there is no pip (Debian: python3-pip)')
    folder = tmp_path_factory.mktemp('fresh')
    out = folder / 'out'
    out.mkdir()
    is_built = os.path.exists(_library.path())
    if is_built:
        shutil.copy(_library.path(), out / 'libgamhilon.so')
    else:
        (out / 'libgamhilon.so').write_bytes(b'no library')
    with pytest.MonkeyPatch.context() as patch:
        patch.setattr(gamhilon_wheel, 'OUT', str(out))
        if not os.path.exists(gamhilon_wheel.PROGRAM):
            put_program(out / 'gamhilon')
            patch.setattr(gamhilon_wheel, 'PROGRAM', str(out / 'gamhilon'))
        program = gamhilon_wheel.PROGRAM
        wheel = folder / gamhilon_wheel.build_wheel(str(folder))
    place = folder / 'environment'
    subprocess.run([sys.executable, '-m', 'venv', '--system-site-packages', '--without-pip',
                    str(place)], check=True)
    python = str(place / 'bin/python')
    variables = {**os.environ, 'PATH': f'{place}/bin{os.pathsep}{os.environ["PATH"]}',
                 'PIP_NO_INDEX': '1', 'PYTHONNOUSERSITE': '1', 'HOME': str(folder)}
    for name in ('PYTHONPATH', 'GAMHILON_LIBRARY'):
        variables.pop(name, None)
    subprocess.run([python, '-m', 'pip', 'install', '--quiet', '--no-deps', str(wheel)],
                   check=True, env=variables, timeout=120)

    def run(*words, folder=folder, **more):
        done = subprocess.run(words, capture_output=True, text=True, cwd=folder, timeout=300,
                              env={**variables, **more})
        assert done.returncode == 0, (words, done.stdout, done.stderr)
        return done.stdout
    return SimpleNamespace(run=run, python=python, is_built=is_built, program=program, place=place)


@pytest.fixture
def guide(environment, tmp_path):
    """What runs a guide, in a folder of its own. Its styles are written by the library."""
    if not environment.is_built:
        pytest.skip('the library is not built (embed/build.py)')
    for name, works in (('library.json', WORKS), ('references.json', DOE)):
        (tmp_path / name).write_text(json.dumps(works))

    def run(*words, **more):
        return environment.run(*words, folder=tmp_path, **more)
    return SimpleNamespace(run=run, folder=tmp_path, python=environment.python)


def needs(module, package):
    if importlib.util.find_spec(module) is None:
        pytest.skip(f'there is no {module} (Debian: {package})')


def has_command(name, package):
    if not shutil.which(name):
        pytest.skip(f'there is no {name} (Debian: {package})')


def with_library(text):
    """Lines of a guide over a library in JSON, which needs no more packages."""
    return text.replace('library.bib', 'library.json').replace('references.bib', 'references.json')


def test_all_that_the_wheel_has_is_installed(environment):
    told = environment.run(environment.python, '-c',
                           'import gamhilon, sys; print(gamhilon.__file__); '
                           'print(sys.prefix != sys.base_prefix)').split('\n')
    assert f'{os.sep}environment{os.sep}' in told[0] and told[1] == 'True'

    def command(*words):
        return environment.run('python3', '-m', 'gamhilon', *words).strip()
    assert command('styles').split() == ['author-date', 'labels', 'notes', 'numeric']
    assert 'csl-bib-body' in command('css')
    assert os.path.isfile(os.path.join(command('org'), 'oc-gamhilon.el'))
    assert os.path.isfile(os.path.join(command('latex', '--where'), 'gamhilon.sty'))
    assert command('--help').startswith('usage: python3 -m gamhilon ')


def test_the_command_is_the_program(environment):
    """Byte for byte, so that it has the same options, forms, messages and statuses."""
    installed = environment.place / 'bin/gamhilon'
    with open(environment.program, 'rb') as file:
        assert installed.read_bytes() == file.read()
    assert os.access(installed, os.X_OK)
    assert environment.run('gamhilon', '--version') == environment.run(environment.program,
                                                                       '--version') != ''
    assert sorted(path.name for path in installed.parent.glob('gamhilon*')) == ['gamhilon',
                                                                               'gamhilon-pandoc']


def test_the_guide_of_markdown(guide, published):
    page, written = blocks('MARKDOWN', 'markdown')[:2]
    (guide.folder / 'post.md').write_text(page)
    command, = [line.split('>')[0] for line in blocks('MARKDOWN', '')[0].split('\n')
                if 'post.md' in line]
    out = guide.run(*with_library(command).split())
    assert ' '.join(out.split('\n\n')[0].split()) == ' '.join(written.split())
    assert 'On the Origin of Species' in out.split('# References')[1]


def test_the_guide_of_mkdocs(guide, published):
    needs('mkdocs', 'mkdocs')
    settings = with_library(blocks('MKDOCS', 'yaml')[0])
    (guide.folder / 'mkdocs.yml').write_text(f'site_name: Own\n{settings}')
    (guide.folder / 'docs').mkdir()
    (guide.folder / 'docs/index.md').write_text('# Home\n\nSpecies vary [@darwin1859, p. 84].\n')
    (guide.folder / 'docs/references.md').write_text('# References\n')
    guide.run(guide.python, '-m', 'mkdocs', 'build', '--strict', '--quiet')
    home = (guide.folder / 'site/index.html').read_text()
    assert '<a href="references/#ref-darwin1859">Darwin, 1859, p. 84</a>' in home
    listed = (guide.folder / 'site/references/index.html').read_text()
    assert 'id="ref-darwin1859"' in listed


def test_the_guide_of_pelican(guide, published):
    needs('pelican', 'pelican')
    settings = with_library(blocks('MKDOCS', 'python')[0])
    (guide.folder / 'pelicanconf.py').write_text(f'SITENAME = "Own"\n{settings}')
    (guide.folder / 'content').mkdir()
    (guide.folder / 'content/one.md').write_text('Title: One\nDate: 2026-01-01\n\n'
                                                 'Species vary [@darwin1859].\n')
    guide.run(guide.python, '-m', 'pelican', 'content', '-s', 'pelicanconf.py', '-o', 'site')
    page = (guide.folder / 'site/one.html').read_text()
    assert '<a href="#ref-darwin1859">Darwin, 1859</a>' in page and 'id="ref-darwin1859"' in page


def test_the_guide_of_sphinx(guide, published):
    needs('sphinx', 'python3-sphinx')
    conf, _, page = with_library(blocks('SPHINX', '')[0]).partition('\n\n')
    (guide.folder / 'conf.py').write_text(conf)
    (guide.folder / 'index.rst').write_text(f'Home\n====\n\n{page}')
    guide.run(guide.python, '-m', 'sphinx', '-q', '-W', '-b', 'text', '.', 'site')
    text = (guide.folder / 'site/index.txt').read_text()
    assert 'See (Doe, 1999, p. 4), and Roe (2000).' in ' '.join(text.split())


def test_the_guide_of_python(guide):
    works = [{**DOE[0], 'id': 'darwin', 'author': [{'family': 'Darwin'}],
              'issued': {'date-parts': [[1859]]}}]
    (guide.folder / 'references.json').write_text(json.dumps(works))
    lines = blocks('PYTHON', 'python')[0]
    wanted, = re.findall(r'# (\(.*\))$', lines, re.MULTILINE)
    out = guide.run(guide.python, '-c', lines).split('\n')
    assert out[0] == wanted and '<div id="ref-darwin" class="csl-entry">' in '\n'.join(out[1:])


def test_the_guide_of_styles(guide):
    (guide.folder / 'mine.csl').write_text(guide.run(guide.python, '-m', 'gamhilon', 'styles',
                                                     'author-date'))
    shutil.copy(guide.folder / 'mine.csl', guide.folder / 'before.csl')
    ran = []
    for line in blocks('STYLES', '')[0].split('\n'):
        words = line.split('#')[0].split()
        if words and words[3] in ('check', 'sample', 'diff'):
            ran.append(words[3])
            out = guide.run(guide.python, *words[1:])
            assert out and ('0 of' in out) == (words[3] == 'diff')
    assert ran == ['check', 'sample', 'diff']


def test_the_filter_of_pandoc(guide):
    has_command('pandoc', 'pandoc')
    (guide.folder / 'page.md').write_text('Species vary [@darwin1859].\n')
    out = guide.run('pandoc', 'page.md', '--filter', 'gamhilon-pandoc', '--to', 'plain',
                    '--metadata', 'bibliography=library.json')
    assert out.startswith('Species vary (Darwin 1859).')


def test_the_guide_of_latex(guide, published):
    has_command('pdflatex', 'texlive-latex-base')
    (guide.folder / 'paper.tex').write_text(with_library(blocks('LATEX', 'latex')[0]))
    own = ['python3', '-m', 'gamhilon', 'latex']
    assert f'    {" ".join(own)} paper ' in open_guide('LATEX')
    where = guide.run(*own, '--where').strip()
    for command in (['pdflatex', '-interaction=batchmode', 'paper'], [*own, 'paper'],
                    ['pdflatex', '-interaction=batchmode', 'paper']):
        guide.run(*command, TEXINPUTS=f'{where}:')
    assert 'Darwin' in (guide.folder / 'paper.bbl').read_text()
    assert (guide.folder / 'paper.pdf').read_bytes().startswith(b'%PDF-')


def test_the_guide_of_org(guide, published):
    has_command('emacs', 'emacs-nox')
    (guide.folder / 'page.org').write_text(with_library(blocks('ORG', 'org')[0]))
    start = blocks('ORG', 'elisp')[0]
    guide.run('emacs', '--batch', '--eval', f'(progn {start})', 'page.org', '--eval',
              '(org-html-export-to-html)')
    page = (guide.folder / 'page.html').read_text()
    assert 'Wallace (1855)' in re.sub('<[^>]*>', '', page)
