#!/usr/bin/env python3
"""guide_pictures.py [NAME..]: makes docs/GUIDES/pictures, or those of these names: what comes of
the lines with which a guide begins, in APA style. Needs chromium, pdftoppm, the library
(embed/build.py), published styles, and for each what its guide is about: Debian's mkdocs, pandoc,
python3-sphinx, texlive-latex-base and emacs-nox."""
import json
import os
import pathlib
import subprocess
import sys
import tempfile

ROOT = pathlib.Path(__file__).resolve().parent.parent
PICTURES = ROOT / 'docs/GUIDES/pictures'
SOURCE = ROOT / 'embed/python/src'
SIZE = 760, 360
OWN = [sys.executable, '-m', 'gamhilon']


def book(key, family, given, year, title, **more):
    return {'id': key, 'type': 'book', 'title': title, 'issued': {'date-parts': [[year]]},
            'author': [{'family': family, 'given': given}], **more}


WORKS = [
    book('darwin1859', 'Darwin', 'Charles', 1859, 'On the origin of species',
         publisher='John Murray'),
    book('darwin1871', 'Darwin', 'Charles', 1871, 'The descent of man', publisher='John Murray'),
    {**book('wallace1855', 'Wallace', 'Alfred Russel', 1855,
            'On the law which has regulated the introduction of new species', volume='16',
            page='184-196'), 'type': 'article-journal',
     'container-title': 'Annals and Magazine of Natural History'},
    {'id': 'watson1953', 'type': 'article-journal', 'title': 'Molecular structure of nucleic acids',
     'author': [{'family': 'Watson', 'given': 'James D.'},
                {'family': 'Crick', 'given': 'Francis H. C.'}], 'volume': '171',
     'issued': {'date-parts': [[1953]]}, 'container-title': 'Nature', 'page': '737-738'},
]
TEXT = ('As @darwin1859 [p. 84] says, species vary [@darwin1871, chap. 2; see also '
        '@wallace1855]. What they inherit has the form of a double helix [@watson1953].\n')
PAGE = ('<!DOCTYPE html><meta charset="utf-8"><style>'
        'body {{ font: 16px sans-serif; margin: 24px; }} pre {{ background: #f4f4f4; '
        'padding: 12px; font-size: 13px; }} {css}</style>{body}')


class Place:
    """A folder with the works in it, and what runs there."""

    def __init__(self, folder):
        self.folder = pathlib.Path(folder)
        self.write('library.json', json.dumps(WORKS))
        self.more = {}

    def write(self, name, text):
        path = self.folder / name
        path.parent.mkdir(parents=True, exist_ok=True)
        path.write_text(text, encoding='utf-8')

    def read(self, name):
        return (self.folder / name).read_text(encoding='utf-8')

    def run(self, *words):
        """What a command prints."""
        variables = {**os.environ, 'PYTHONPATH': f'{SOURCE}{os.pathsep}installed', **self.more}
        return subprocess.run(words, cwd=self.folder, env=variables, check=True, text=True,
                              stdout=subprocess.PIPE).stdout

    def show(self, picture, page):
        """A page in the browser."""
        wide, high = SIZE
        self.run('chromium', '--headless', '--no-sandbox', '--disable-gpu', '--hide-scrollbars',
                 '--virtual-time-budget=5000', f'--window-size={wide},{high}',
                 f'--screenshot={picture}', (self.folder / page).as_uri())

    def show_parts(self, picture, *parts):
        """A page of these parts, with the style sheet of lists."""
        self.write('page.html', PAGE.format(css=self.run(*OWN, 'css'), body='\n'.join(parts)))
        self.show(picture, 'page.html')


def markdown(place, picture):
    place.write('post.md', f'# Species\n\n{TEXT}\n# References\n')
    place.run(*OWN, 'markdown', 'post.md', '--bibliography', 'library.json', '--style', 'apa',
              '--output', 'cited.md')
    place.show_parts(picture, place.run('pandoc', '-f', 'commonmark', '-t', 'html', 'cited.md'))


def mkdocs(place, picture):
    place.write('installed/gamhilon-0.dist-info/METADATA',
                'Metadata-Version: 2.1\nName: gamhilon\nVersion: 0\n')
    place.write('installed/gamhilon-0.dist-info/entry_points.txt',
                '[mkdocs.plugins]\ngamhilon = gamhilon.mkdocs_plugin:CitationPlugin\n')
    place.write('mkdocs.yml', 'site_name: Species\ntheme: readthedocs\nuse_directory_urls: false\n'
                'plugins:\n  - gamhilon:\n      bibliography: library.json\n      style: apa\n'
                '      list_page: references.md\n')
    place.write('docs/index.md', f'# Species\n\n{TEXT}')
    place.write('docs/references.md', '# References\n')
    place.run(sys.executable, '-m', 'mkdocs', 'build', '--strict', '--quiet')
    place.show(picture, 'site/index.html')


def sphinx(place, picture):
    place.write('conf.py', "extensions = ['gamhilon.sphinx']\nbibtex_bibfiles = ['library.json']\n"
                "gamhilon_style = 'apa'\nhtml_theme = 'alabaster'\n"
                "html_theme_options = {'nosidebar': True}\n")
    place.write('index.rst', 'Species\n=======\n\nSpecies vary :cite:p:`darwin1859{p. 84}`, and '
                ':cite:t:`wallace1855` saw it too. What they\ninherit has the form of a double '
                'helix :cite:p:`watson1953`.\n\n.. bibliography::\n')
    place.run(sys.executable, '-m', 'sphinx', '-q', '-W', '.', 'site')
    place.show(picture, 'site/index.html')


def latex(place, picture):
    place.write('paper.tex', '\\documentclass{article}\n\\usepackage[paperwidth=15cm, '
                'paperheight=10cm, margin=1.3cm]{geometry}\n'
                '\\usepackage[style=apa, library=library.json]{gamhilon}\n\\pagestyle{empty}\n'
                '\\begin{document} Species vary \\parencite[see][84]{darwin1859}, as '
                '\\textcite{wallace1855} saw.\nWhat they inherit has the form of a double helix '
                '\\parencite{watson1953}.\n\\printbibliography\n\\end{document}\n')
    place.more = {'TEXINPUTS': f'{SOURCE}/gamhilon/tex:'}
    for words in (['pdflatex', '-interaction=batchmode', 'paper'], [*OWN, 'latex', 'paper'],
                  ['pdflatex', '-interaction=batchmode', 'paper']):
        place.run(*words)
    place.run('pdftoppm', '-png', '-r', '110', '-singlefile', 'paper.pdf',
              str(picture.with_suffix('')))


def org(place, picture):
    place.write('page.org', '#+title: Species\n#+options: toc:nil num:nil html-postamble:nil\n'
                '#+bibliography: library.json\n#+cite_export: gamhilon apa\n\n'
                'Species vary [cite:see @darwin1859 p. 84], as [cite/t:@wallace1855] saw. What '
                'they inherit has the\nform of a double helix [cite:@watson1953].\n\n'
                '#+print_bibliography:\n')
    command = ' '.join(json.dumps(word) for word in OWN)
    place.run('emacs', '-Q', '--batch', '-L', str(ROOT / 'embed/org'), '-l', 'oc-gamhilon',
              '--eval', f"(setq org-cite-gamhilon-program '({command}))", 'page.org', '--eval',
              '(org-html-export-to-html)')
    place.show(picture, 'page.html')


def python(place, picture):
    lines = ('rendered = gamhilon.csl.render(\n    "apa", "library.json",\n'
             '    [[{"id": "darwin1859", "locator": "84"}], [{"id": "wallace1855"}]])\n')
    shown = place.run(sys.executable, '-c', f'import gamhilon\n{lines}'
                      'print(*[it.to_html(links=True) for it in rendered.citations], sep="<br>")\n'
                      'print("<br>", rendered.bibliography.to_html())')
    place.show_parts(picture, f'<pre>{lines}</pre>', shown)


def style(place, picture):
    place.write('page.html', place.run(*OWN, 'sample', 'apa', '--to', 'html'))
    place.show(picture, 'page.html')


MAKERS = {made.__name__: made for made in (markdown, mkdocs, sphinx, latex, org, python, style)}


def main(names):
    for name in names or MAKERS:
        with tempfile.TemporaryDirectory() as folder:
            MAKERS[name](Place(folder), PICTURES / f'{name}.png')


if __name__ == '__main__':
    main(sys.argv[1:])
