"""The package's types, by mypy --strict."""
import os
import subprocess
import sys

import pytest
from conftest import PROJECT, SOURCE
from test_documented_code import block

pytest.importorskip('mypy', reason='there is no mypy')

USER = '''
from pathlib import Path
from typing import Any, Dict, List, Optional
import gamhilon

def cited(path: str) -> List[str]:
    rendered = gamhilon.csl.render('notes', gamhilon.references.load(path),
                                   [[gamhilon.csl.Cite('doe', '4')], [{'id': 'roe'}],
                                    gamhilon.parse_citations('@doe, p. 4')], locale='de')
    shown: str = rendered.citations[0].to_html(links=True) + rendered.bibliography.to_html()
    page: str = gamhilon.markdown_pages.cite_page('@doe', Path('apa.csl'), Path(path)).text
    warnings: List[gamhilon.csl.Warned] = rendered.warnings
    place: Optional[int] = warnings[0].citation if warnings else None
    return [*rendered.citations, *rendered.bibliography.values(), str(place), shown, page]

def pages(path: str) -> List[str]:
    document: Dict[str, Any] = {'styles': {}, 'requests': [], 'bibliography': {'style': 's'}}
    document['entries'] = gamhilon.csl_json.entries(gamhilon.csl_json.load(path)).entries
    try:
        answer = gamhilon.render_document(document)
    except gamhilon.MacroRing as ring:
        place: Optional[int] = ring.request
        raise SystemExit(f'{place}, {ring.macro_index + 1}')
    except gamhilon.DocumentRefused as refusal:
        raise SystemExit(refusal.pointer or '')
    limits: Optional[gamhilon.Limits] = gamhilon.Limits(depth=100, elements=100000)
    try:
        gamhilon.check(document, limits=limits)
    except (gamhilon.TooDeep, gamhilon.TooManyElements) as exceeded:
        raise SystemExit(exceeded.status)
    told = gamhilon.drive_once(document)
    if isinstance(told, gamhilon.Missing):
        for task in told.tasks:
            suffix: str = task.year_suffix
        answer = gamhilon.render_document(
            document, write=lambda task: gamhilon.Written([{'text': task.entry}],
                                                    first_name=task.name_forms))
    items = answer.bibliography.items if answer.bibliography else []
    return [it.key + gamhilon.to_html(it.content) for it in items] + [str(gamhilon.version())]
'''
WRONG = '''
import gamhilon
gamhilon.render_document(3)
gamhilon.render_document({}).citations[0].note_number + 1
gamhilon.render_document({}, gamhilon.Limits(1, 1))
gamhilon.csl.render('notes', [], [[3]])
'''


@pytest.fixture(scope='module')
def folder(tmp_path_factory):
    """A folder in which the package stands, and what mypy keeps for its next call."""
    made = tmp_path_factory.mktemp('types')
    (made / 'gamhilon').symlink_to(f'{SOURCE}/gamhilon')
    return made


def mypy(folder, *words):
    environment = {**os.environ, 'MYPYPATH': ''}
    done = subprocess.run([sys.executable, '-m', 'mypy', '--strict', '--cache-dir',
                           str(folder / 'cache'), *words],
                          cwd=folder,
                          env={**environment, 'PYTHONPATH': SOURCE}, capture_output=True,
                          text=True)
    return done.stdout


def test_the_package_passes(folder):
    told = mypy(folder, '--config-file', f'{PROJECT}/pyproject.toml', f'{SOURCE}/gamhilon')
    assert told.startswith('Success'), told


DOCUMENTED = [
    ('README.md', 'gamhilon.csl.render', ''), ('embed/README.md', 'gamhilon.csl.render', ''),
    ('embed/python/README.md', 'gamhilon.csl.render', ''),
    ('docs/GUIDES/PYTHON.md', 'gamhilon.csl.render', ''),
    ('docs/GUIDES/PYTHON.md', 'gamhilon.GamhilonError', ''),
]


@pytest.mark.parametrize('name, words, before', DOCUMENTED)
def test_the_lines_of_the_documentation_pass(folder, name, words, before):
    (folder / 'documented.py').write_text(before + block(name, words))
    told = mypy(folder, 'documented.py')
    assert told.startswith('Success'), told


def test_callers_see_the_types(folder):
    for name, text in (('user.py', USER), ('wrong.py', WRONG)):
        (folder / name).write_text(text)
    assert os.path.exists(f'{SOURCE}/gamhilon/py.typed')
    assert mypy(folder, 'user.py').startswith('Success')
    told = mypy(folder, 'wrong.py')
    assert told.count('wrong.py:3: error') == 1
    assert all(f'wrong.py:{line}: error' in told for line in (4, 5, 6))
