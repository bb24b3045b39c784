#!/usr/bin/env python3
"""What citations add to the time of a site that MkDocs or Pelican builds.

    bench/site_generators.py mkdocs|pelican [--pages N] [--citations N] [--style STYLE] [--stand-in]

Makes a site as markdown_site.py does, of so many pages (500, and of Pelican 50) with so many
citations each (20), builds it by the site generator, and prints the processor time, in
milliseconds, of the whole build and of this package in it. For MkDocs it then builds the site
again: as it is, with other words on a page, and with one more citation there, as `mkdocs serve`
does after each edit. It needs the library (embed/build.py), whose time is part of that of the
package; with --stand-in one that is made up stands in for it, whose own time is left out.
"""
import argparse
import functools
import json
import logging
import os
import random
import sys
import tempfile
import time

import markdown_site

PAGES = {'mkdocs': 500, 'pelican': 50}
SETTINGS = {
    'mkdocs': 'site_name: Own\ntheme: {{name: null, custom_dir: theme}}\nplugins:\n  - gamhilon:\n'
              '      bibliography: library.json\n      style: {style}\n      list_page: page0.md\n',
    'pelican': 'SITENAME = "Own"\nPATH = "docs"\nTIMEZONE = "UTC"\nMARKDOWN = {{"extensions": '
               '["markdown.extensions.meta", "gamhilon.python_markdown"], "extension_configs": '
               '{{"gamhilon.python_markdown": {{"bibliography": "library.json", '
               '"style": "{style}"}}}}}}\n',
}
TEMPLATE = '<html><body>{{ page.content }}</body></html>'
HOOKS = ('on_config', 'on_nav', 'on_page_markdown', 'on_post_build')

spent = [0.0]
# (the seconds of this package since the last build began)


def counted(function):
    """A call whose time is that of this package."""
    @functools.wraps(function)
    def call(*given, **more):
        began, apart = time.process_time(), markdown_site.apart[0]
        try:
            return function(*given, **more)
        finally:
            spent[0] += time.process_time() - began - (markdown_site.apart[0] - apart)
    return call


def written(folder, name, text):
    path = os.path.join(folder, name)
    os.makedirs(os.path.dirname(path), exist_ok=True)
    with open(path, 'w', encoding='utf-8') as file:
        file.write(text)


def made(asked, folder):
    """Makes the site in a folder, and gives the texts of its pages."""
    works, chosen = markdown_site.made_up_works(1000), random.Random(1)
    texts = {f'page{number}': markdown_site.made_up_page(chosen, number, asked.citations, works)
             for number in range(max(asked.pages, 8))}
    head = 'Title: {}\nDate: 2026-01-01\n\n' if asked.generator == 'pelican' else ''
    for name, text in texts.items():
        written(folder, f'docs/{name}.md', head.format(name) + text)
    written(folder, 'library.json', json.dumps(works))
    settings = SETTINGS[asked.generator].format(style=asked.style)
    written(folder, 'mkdocs.yml' if asked.generator == 'mkdocs' else 'pelicanconf.py', settings)
    for name in ('main.html', '404.html'):
        written(folder, f'theme/{name}', TEMPLATE)
    return texts


def by_mkdocs():
    """What builds the site. MkDocs finds the plugin as that of an installed wheel."""
    info = 'installed/gamhilon-0.dist-info'
    written('.', f'{info}/METADATA', 'Metadata-Version: 2.1\nName: gamhilon\nVersion: 0\n')
    written('.', f'{info}/entry_points.txt',
            '[mkdocs.plugins]\ngamhilon = gamhilon.mkdocs_plugin:CitationPlugin\n')
    sys.path.insert(0, os.path.abspath('installed'))
    from mkdocs.commands.build import build
    from mkdocs.config import load_config

    from gamhilon.mkdocs_plugin import CitationPlugin
    for hook in HOOKS:
        setattr(CitationPlugin, hook, counted(getattr(CitationPlugin, hook)))
    return lambda: build(load_config('mkdocs.yml'))


def by_pelican():
    """What builds the site."""
    from pelican import Pelican
    from pelican.settings import read_settings

    from gamhilon import python_markdown

    kind = python_markdown.CitationExtension
    kind.extendMarkdown = counted(kind.extendMarkdown)
    python_markdown._Citations.run = counted(python_markdown._Citations.run)
    return lambda: Pelican(read_settings('pelicanconf.py')).run()


def one_build(what, build):
    """Builds the site, and prints how long that took."""
    spent[0], began = 0.0, time.process_time()
    apart = markdown_site.apart[0]
    build()
    whole = time.process_time() - began - (markdown_site.apart[0] - apart)
    print(f'{what}: {1000 * whole:.0f} ms, the citations {1000 * spent[0]:.1f} ms', flush=True)


def main():
    parser = argparse.ArgumentParser(description=__doc__,
                                     formatter_class=argparse.RawDescriptionHelpFormatter)
    parser.add_argument('generator', choices=sorted(PAGES))
    parser.add_argument('--pages', type=int)
    parser.add_argument('--citations', type=int, default=20)
    parser.add_argument('--style', default='author-date')
    parser.add_argument('--stand-in', action='store_true')
    asked = parser.parse_args()
    asked.pages = asked.pages or PAGES[asked.generator]
    if asked.stand_in:
        markdown_site._library._library = markdown_site.stand_in()
    logging.disable(logging.WARNING)
    with tempfile.TemporaryDirectory() as folder:
        texts = made(asked, folder)
        os.chdir(folder)
        build = by_mkdocs() if asked.generator == 'mkdocs' else by_pelican()
        one_build('the first build', build)
        if asked.generator == 'mkdocs':
            one_build('nothing changed', build)
            for what, more in (('other words', 'More words.'), ('one more citation', '[@work7].'),
                               ('another citation', '[@work8].')):
                written(folder, 'docs/page7.md', f'{texts["page7"]}\nMore. {more}\n')
                one_build(what, build)
        os.chdir('/')


if __name__ == '__main__':
    main()
