"""What the tests share: the library where it is built, and what stands in for it."""
import json
import os
import signal
import subprocess
import sys

import pytest

HERE = os.path.dirname(os.path.abspath(__file__))
PROJECT = os.path.dirname(HERE)
SOURCE = f'{PROJECT}/src'
ROOT = os.path.normpath(f'{PROJECT}/../..')
sys.path.insert(0, SOURCE)

from gamhilon import _library  # noqa: E402
from gamhilon.csl import locales, style  # noqa: E402

from stand_ins import MadeUpLibrary, ModelOfTheDriver, ModelOfTheLibrary  # noqa: E402


def heed_interrupts():
    """Has a process that is about to start heed SIGINT, which one in the background ignores."""
    signal.signal(signal.SIGINT, signal.SIG_DFL)


@pytest.fixture
def made_up(monkeypatch):
    """Puts a made-up library in the place of the shared one."""
    def put(**how):
        functions = MadeUpLibrary(**how)
        monkeypatch.setattr(_library, '_library', _library.Library(functions))
        return functions
    return put


@pytest.fixture
def built():
    """For tests that call the shared library."""
    if not os.path.exists(_library.path()):
        pytest.skip('the library is not built (embed/build.py)')


@pytest.fixture
def drives(built):
    """For tests of the driven call of the shared library."""
    if not hasattr(_library._loaded(), _library.DRIVE):
        pytest.skip('the library is older than the driven call (embed/build.py)')


@pytest.fixture
def cites(built):
    """For tests of styles, which the shared library writes."""
    if not hasattr(_library._loaded(), _library.READ):
        pytest.skip('the library is older than texts as one value (embed/build.py)')


@pytest.fixture(params=['model', 'library'])
def driver(request, monkeypatch):
    """For tests of the driven call: first its model, and then that of the shared library."""
    if request.param == 'library':
        request.getfixturevalue('drives')
    else:
        monkeypatch.setattr(_library, '_library', _library.Library(ModelOfTheDriver()))


@pytest.fixture(params=['model', 'library'])
def library(request, monkeypatch):
    """For tests of answers: first the model of the library, and then the shared library."""
    if request.param == 'library':
        request.getfixturevalue('built')
    else:
        monkeypatch.setattr(_library, '_library', _library.Library(ModelOfTheLibrary()))


@pytest.fixture
def published():
    """For tests of published styles."""
    for folder, package in ((style.FOLDER, 'styles'), (locales.FOLDER, 'locales')):
        if not os.path.isdir(folder):
            pytest.skip('there are no published styles '
                        f'(Debian: citation-style-language-{package})')


@pytest.fixture
def reads(cites):
    """For tests that read .bib files and RIS, which the shared library reads."""


@pytest.fixture
def yaml():
    """For tests that read YAML."""
    pytest.importorskip('yaml', reason='there is no PyYAML (Debian: python3-yaml)')


@pytest.fixture
def document(example):
    """A document in the style of a file of examples/, without entries and requests."""
    def made(name):
        said = json.loads(example(f'{name}.json'))
        return {**said, 'entries': [], 'requests': [],
                'bibliography': {'style': said['bibliography']['style']}}
    return made


@pytest.fixture
def example():
    """The text of a file of examples/."""
    def read(name):
        with open(f'{ROOT}/examples/{name}', encoding='utf-8') as file:
            return file.read()
    return read


REFERENCES = [
    {'id': 'doe99', 'title': 'On Order', 'author': [{'family': 'Doe', 'given': 'Jane'}],
     'issued': {'date-parts': [[1999]]}},
    {'id': 'roe00', 'title': 'A Reply', 'author': [{'family': 'Roe', 'given': 'Richard'}],
     'issued': {'date-parts': [[2000]]}},
    {'id': 'doe01', 'title': 'More', 'author': [{'family': 'Doe', 'given': 'Jane'}],
     'issued': {'date-parts': [[2001]]}},
    {'id': 'äh b', 'title': 'Umlauts', 'author': [{'family': 'Äh'}],
     'issued': {'date-parts': [[1900]]}},
]

FILTER = '''#!{python}
import sys
from gamhilon.pandoc_filter import main
sys.exit(main())
'''


@pytest.fixture
def pandoc(cites, tmp_path):
    """Runs pandoc over a text, and gives what it writes and what it says."""
    (tmp_path / 'refs.json').write_text(json.dumps(REFERENCES))
    script = tmp_path / 'filter.py'
    script.write_text(FILTER.format(python=sys.executable))
    script.chmod(0o755)

    def run(text, *words, to='plain', own=True, **metadata):
        if text is not None:
            metadata = {'bibliography': 'refs.json', **metadata}
        fields = [f'--metadata={name.replace("_", "-")}={value}'
                  for name, value in metadata.items()]
        way = ['--filter', str(script)] if own else ['--citeproc']
        environment = {**os.environ, 'PYTHONPATH': SOURCE}
        done = subprocess.run(['pandoc', '-f', 'markdown', '-t', to, '--wrap=none', *fields, *way,
                               *words],
                              input=None if text is None else text.encode(),
                              capture_output=True, cwd=tmp_path, env=environment, timeout=60)
        return done.stdout.decode(), done.stderr.decode(), done.returncode
    return run


@pytest.fixture
def known():
    """For tests that compare with what pandoc's own --citeproc writes."""
    version = subprocess.run(['pandoc', '--version'], capture_output=True,
                             text=True).stdout.split()[1]
    if not version.startswith('2.17'):
        pytest.skip(f'pandoc is {version}, and what it writes is known of 2.17')
