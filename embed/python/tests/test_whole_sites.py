"""Sites of 3 and of 50 pages, built by MkDocs and by Pelican as their users do: each by its own
program, in folders, with what pages have beside citations. The numbers that their citations have
follow from the order of the pages, each link leads to an item, and each item stands there once."""
import importlib.util
import json
import os
import posixpath
import re
import subprocess
import sys
from html.parser import HTMLParser
from random import Random

import pytest
from conftest import HERE, PROJECT, SOURCE

sys.path.insert(0, PROJECT)
import gamhilon_wheel  # noqa: E402

WORKS = [{'id': f'work{number}', 'type': 'book', 'title': f'Title <{number}> & more',
          'author': [{'family': f'Name{number}'}], 'issued': {'date-parts': [[1900 + number]]}}
         for number in range(60)]
# The program of a site generator, over a library that numbers works as they are cited.
PROGRAM = '''import runpy, sys
sys.path[:0] = [{source!r}, {tests!r}]
from gamhilon import _library
from stand_ins import NumberedStyle
_library._library = _library.Library(NumberedStyle())
sys.argv[0] = {module!r}
runpy.run_module({module!r}, run_name='__main__', alter_sys=True)
'''
BESIDE = ['```python\n@work1\n```', '| a | b |\n|---|---|\n| [@{0}] | c |', '> [see @{0}, p. 3]',
          '- one [@{0}]\n- two [-@{0}]', 'Code `[@work2]` and mail@work3.org.',
          '<div>[@work4]</div>', '![Picture](https://example.org/a.png "[@work5]")',
          '[^n]: A note [@{0}].', 'Code:\n\n    [@work6]', '## A heading [@{0}]']
THEME = '<html><body>{{ page.content }}</body></html>'


class Page(HTMLParser):
    """What a page has: the links of its citations with their texts, and its ids."""

    def __init__(self, text):
        super().__init__()
        self.links, self.ids, self.open = [], [], False
        self.feed(text)

    def handle_starttag(self, tag, attributes):
        said = dict(attributes)
        self.ids += [said['id']] if said.get('id', '').startswith('ref-') else []
        self.open = tag == 'a' and '#ref-' in (said.get('href') or '')
        self.links += [[said['href'], '']] if self.open else []

    def handle_endtag(self, tag):
        self.open = self.open and tag != 'a'

    def handle_data(self, data):
        if self.open:
            self.links[-1][1] += data


def made_up_site(pages):
    """The text of each page, and the keys that it cites in their order. (A note stands before its
    mark, so that both have one place.)"""
    random, texts, cited = Random(pages), {}, {}
    for number in range(pages):
        name = posixpath.join(*['part%d' % (number % 4)] * (number % 3), f'page{number:03}.md')
        keys, parts = [], [f'# Page {number}']
        for part in random.sample(BESIDE, 5):
            key = random.choice(WORKS)['id']
            keys += [key] * part.count('{0}') if not part.startswith('[^n]') else []
            parts.append(part.format(key))
            if part.startswith('[^n]'):
                parts.append('A word[^n].')
                keys.append(key)
        texts[name], cited[name] = '\n\n'.join(parts) + '\n', keys
    return texts, cited


@pytest.fixture
def run(tmp_path):
    """Runs a site generator in a folder, where the entry points are those of the wheel."""
    info = tmp_path / 'installed/gamhilon-0.3.0.dist-info'
    info.mkdir(parents=True)
    (info / 'METADATA').write_text('Metadata-Version: 2.1\nName: gamhilon\nVersion: 0.3.0\n')
    (info / 'entry_points.txt').write_bytes(gamhilon_wheel.entry_points())
    (tmp_path / 'works.json').write_text(json.dumps(WORKS))

    def ran(module, *words):
        if importlib.util.find_spec(module) is None:
            pytest.skip(f'there is no {module} (Debian: {module})')
        program = PROGRAM.format(source=SOURCE, tests=HERE, module=module)
        done = subprocess.run([sys.executable, '-c', program, *words], cwd=tmp_path, text=True,
                              capture_output=True, timeout=300,
                              env={**os.environ, 'PYTHONPATH': str(tmp_path / 'installed')})
        assert done.returncode == 0, done.stdout + done.stderr
    return ran


def written(folder, files):
    for name, text in files.items():
        (folder / name).parent.mkdir(parents=True, exist_ok=True)
        (folder / name).write_text(text)


def numbered(keys):
    """The number that each key has, in the order in which they are cited."""
    return {key: str(number) for number, key in enumerate(dict.fromkeys(keys), 1)}


@pytest.mark.parametrize('pages', [3, 50])
def test_a_site_of_mkdocs(run, tmp_path, pages):
    texts, cited = made_up_site(pages)
    order = sorted(texts)
    Random(1).shuffle(order)
    written(tmp_path / 'docs', {**texts, 'index.md': '# Home\n', 'works.md': '# References\n'})
    written(tmp_path, {'theme/main.html': THEME, 'theme/404.html': THEME})
    (tmp_path / 'mkdocs.yml').write_text(json.dumps({
        'site_name': 'Site', 'theme': {'name': None, 'custom_dir': 'theme'},
        'markdown_extensions': ['footnotes', 'tables', 'fenced_code'],
        'nav': ['index.md', *order, 'works.md'],
        'plugins': [{'gamhilon': {'bibliography': 'works.json', 'style': 'numeric',
                                  'list_page': 'works.md'}}]}))
    run('mkdocs', 'build', '--strict', '--quiet')
    wanted = numbered(key for name in order for key in cited[name])
    listed = Page((tmp_path / 'site/works/index.html').read_text())
    assert listed.ids == [f'ref-{key}' for key in wanted]
    for name in order:
        place = f'site/{name[:-len(".md")]}'
        page = Page((tmp_path / place / 'index.html').read_text())
        assert page.ids == []
        found = sorted((posixpath.normpath(posixpath.join(place, href.split('#')[0])),
                        href.split('#')[1], text) for href, text in page.links)
        assert found == sorted(('site/works', f'ref-{key}', wanted[key]) for key in cited[name])


@pytest.mark.parametrize('pages', [3, 50])
def test_a_site_of_pelican(run, tmp_path, pages):
    texts, cited = made_up_site(pages)
    written(tmp_path / 'content', {
        name: f'Title: {name[:-len(".md")]}\nSlug: {name[:-len(".md")]}\nDate: 2026-01-01\n\n{text}'
        for name, text in texts.items()})
    (tmp_path / 'pelicanconf.py').write_text(
        'SITENAME = "Site"\nTIMEZONE = "UTC"\nMARKDOWN = {"extensions": ["markdown.extensions.meta"'
        ', "footnotes", "tables", "fenced_code", "gamhilon"], "extension_configs": {"gamhilon": '
        '{"bibliography": "works.json", "style": "numeric"}}}\n')
    run('pelican', '--quiet', 'content', '-s', 'pelicanconf.py', '-o', 'site')
    for name in texts:
        page = Page((tmp_path / f'site/{name[:-len(".md")]}.html').read_text())
        wanted = numbered(cited[name])
        assert page.ids == [f'ref-{key}' for key in wanted]
        assert sorted(page.links) == sorted([f'#ref-{key}', wanted[key]] for key in cited[name])
