#!/usr/bin/env python3
"""picture.py [FILE]: makes docs/page.png, or another file: the page of embed/python/example by the
filter with its style sheet, on the left, and by `pandoc --citeproc`, on the right; in the styles
author-date and numeric of examples/styles, which both read. Needs pandoc, chromium and the library
(embed/build.py)."""
import html
import os
import subprocess
import sys
import tempfile

ROOT = os.path.dirname(os.path.dirname(os.path.abspath(__file__)))
EXAMPLE = f'{ROOT}/embed/python/example'
SOURCE = f'{ROOT}/embed/python/src'
STYLES = ('author-date', 'numeric')
FILTER = f'''#!{sys.executable}
import sys
sys.path.insert(0, {SOURCE!r})
from gamhilon.pandoc_filter import main
sys.exit(main())
'''
PAGE = '''<!DOCTYPE html>
<meta charset="utf-8">
<style>
body {{ margin: 0; background: #fff; font: 15px sans-serif; display: grid;
        grid-template-columns: 1fr 1fr; }}
h2 {{ margin: 0; padding: 8px 16px; font-size: 15px; background: #ddd; }}
iframe {{ border: 0; width: 100%; height: {height}px; zoom: {zoom}; }}
section {{ border-right: 1px solid #999; border-bottom: 1px solid #999; }}
</style>
{parts}'''
WIDTH, HEIGHT, ZOOM = 1200, 1180, 0.7


def by_filter(folder, style):
    """The page of the filter, with the style sheet that `gamhilon css` writes."""
    script = f'{folder}/gamhilon-pandoc'
    with open(script, 'w', encoding='utf-8') as file:
        file.write(FILTER)
    os.chmod(script, 0o755)
    return written('--filter', script, '--css', f'{SOURCE}/gamhilon/gamhilon.css', '-V',
                   'document-css=true', '-M', f'csl={style_file(style)}')


def by_pandoc(_, style):
    """The page of pandoc alone."""
    return written('--citeproc', '-M', 'link-citations=true', '-M', f'csl={style_file(style)}')


def style_file(style):
    return f'{ROOT}/examples/styles/{style}.csl'


def written(*words):
    """A page in one file, with its style sheets in it."""
    command = ['pandoc', 'page.md', '--standalone', '--self-contained', '-t', 'html', *words]
    return subprocess.run(command, cwd=EXAMPLE, capture_output=True, text=True, check=True).stdout


def main(picture):
    parts = []
    with tempfile.TemporaryDirectory() as folder:
        for style in STYLES:
            for name, made in (('gamhilon-pandoc, gamhilon.css', by_filter),
                               ('pandoc --citeproc', by_pandoc)):
                shown = html.escape(made(folder, style), quote=True)
                parts.append(f'<section><h2>{name}: {style}</h2>'
                             f'<iframe srcdoc="{shown}"></iframe></section>')
        path = f'{folder}/both.html'
        with open(path, 'w', encoding='utf-8') as file:
            file.write(PAGE.format(height=HEIGHT, zoom=ZOOM, parts='\n'.join(parts)))
        size = f'{WIDTH},{len(STYLES) * (round(HEIGHT * ZOOM) + 34)}'
        subprocess.run(['chromium', '--headless', '--no-sandbox', '--disable-gpu',
                        '--hide-scrollbars', f'--window-size={size}', f'--screenshot={picture}',
                        f'file://{path}'], check=True, capture_output=True, timeout=120)


if __name__ == '__main__':
    main(os.path.abspath(sys.argv[1]) if len(sys.argv) > 1 else f'{ROOT}/docs/page.png')
