"""A document of LaTeX with the commands of biblatex, by that and by gamhilon.sty: what pdftotext
reads of their pages. What biblatex shows in its styles authoryear and numeric stands here, and is
held to biblatex where it is installed; the styles author-date and numeric show the same but where
it stands beside."""
import os
import re
import shutil
import subprocess
import sys

import pytest
from conftest import SOURCE

from gamhilon import latex_documents

pytestmark = pytest.mark.skipif(not shutil.which('pdflatex') or not shutil.which('pdftotext'),
                                reason='there is no LaTeX or no pdftotext (Debian: '
                                       'texlive-latex-base, poppler-utils)')

LIBRARY = r'''
@book{origin, author={Darwin, Charles}, title={Origin}, year={1859}, publisher={Murray}}
@book{descent, author={Darwin, Charles}, title={Descent}, year={1871}, publisher={Murray}}
@article{law, author={Wallace, Alfred}, title={Law}, journaltitle={Annals}, year={1855}}
@article{helix, author={Watson, James and Crick, Francis}, title={Helix}, journaltitle={Nature},
  year={1953}}
@article{light, author={Einstein, Albert}, title={Light}, journaltitle={Annalen}, year={1905}}
@article{motion, author={Einstein, Albert}, title={Motion}, journaltitle={Annalen}, year={1905}}
@article{clay, author={Alvarez, Luis and Alvarez, Walter and Asaro, Frank and Michel, Helen},
  title={Clay}, journaltitle={Science}, year={1980}}
'''
# A citation; what biblatex shows of it; and what the styles of this package show where that is
# something else: they collapse what one author wrote, put cites in their order, and have their own
# form of a page in a style of numbers.
CITATIONS = [
    (r'\cite{origin}', 'Darwin 1859', '[1]', None, None),
    (r'\cite[see][84]{origin}', 'see Darwin 1859, p. 84', '[see 1, p. 84]', None,
     '[see 1 (p. 84)]'),
    (r'\cite*[4]{origin}', '1859, p. 4', '[1, p. 4]', None, '[1 (p. 4)]'),
    (r'\parencite{law}', '(Wallace 1855)', '[2]', None, None),
    (r'\parencite[12--15]{law}', '(Wallace 1855, pp. 12–15)', '[2, pp. 12–15]', None,
     '[2 (pp. 12–5)]'),
    (r'\parencite[chap.~3]{law}', '(Wallace 1855, chap. 3)', '[2, chap. 3]', None,
     '[2 (chap. 3)]'),
    (r'\parencite[in part]{law}', '(Wallace 1855, in part)', '[2, in part]', None, None),
    (r'\parencite[see][]{origin,law}', '(see Darwin 1859; Wallace 1855)', '[see 1, 2]', None, None),
    (r'\parencite*{origin}', '(1859)', '[1]', None, None),
    (r'\autocite[4]{descent}', '(Darwin 1871, p. 4)', '[3, p. 4]', None, '[3 (p. 4)]'),
    (r'\textcite{law}', 'Wallace (1855)', 'Wallace [2]', None, None),
    (r'\textcite[see][12]{descent}', 'Darwin (see 1871, p. 12)', 'Darwin [see 3, p. 12]', None,
     'Darwin [see 3 (p. 12)]'),
    (r'\textcite{helix}', 'Watson and Crick (1953)', 'Watson and Crick [4]', None, None),
    (r'\textcite{clay}', 'Alvarez et al. (1980)', 'Alvarez et al. [5]', None, None),
    (r'\textcite{origin,law}', 'Darwin (1859) and Wallace (1855)', 'Darwin [1] and Wallace [2]',
     None, None),
    (r'\textcite{descent,origin}', 'Darwin (1871) and Darwin (1859)', 'Darwin [3, 1]', None,
     'Darwin [3] and Darwin [1]'),
    (r'\citeauthor{helix}', 'Watson and Crick', 'Watson and Crick', None, None),
    (r'\citeauthor{clay}', 'Alvarez et al.', 'Alvarez et al.', None, None),
    (r'\cite{light}', 'Einstein 1905a', '[6]', None, None),
    (r'\textcite{motion}', 'Einstein (1905b)', 'Einstein [7]', None, None),
    (r'\parencite{light,motion}', '(Einstein 1905a; Einstein 1905b)', '[6, 7]',
     '(Einstein 1905a, 1905b)', None),
    (r'\parencite{descent,origin}', '(Darwin 1871; Darwin 1859)', '[3, 1]', '(Darwin 1859, 1871)',
     '[1, 3]'),
]
NOTE = (r'\footcite[84]{origin}', 'Darwin 1859, p. 84.', '1, p. 84.', None, '[1 (p. 84)].')
TITLES = {'authoryear': 'Clay Origin Descent Light Motion Law Helix',
          'numeric': 'Origin Law Descent Helix Clay Light Motion'}
OURS = {'authoryear': 'author-date', 'numeric': 'numeric'}
DOCUMENT = r'''\documentclass{article}
\usepackage[paperwidth=20cm, paperheight=40cm, margin=2cm]{geometry}
%s
\addbibresource{library.bib}
\begin{document}
%s

Note%s

\printbibliography
\end{document}
'''


class Paper:
    """The document as LaTeX sets it with a package."""

    def __init__(self, folder, package):
        self.folder = folder
        (folder / 'library.bib').write_text(LIBRARY)
        marked = [f'A{at}a {row[0]} B{at}b\n' for at, row in enumerate(CITATIONS)]
        (folder / 'paper.tex').write_text(DOCUMENT % (package, '\n'.join(marked), NOTE[0]))

    def run(self, *words):
        paths = os.pathsep.join(path for path in (SOURCE, os.environ.get('PYTHONPATH')) if path)
        done = subprocess.run(words, cwd=self.folder, capture_output=True, timeout=300, env={
            **os.environ, 'TEXINPUTS': latex_documents.folder() + os.pathsep, 'PYTHONPATH': paths})
        assert done.returncode == 0, (done.stdout[-2000:], done.stderr)
        return done.stdout.decode('utf-8', 'replace')

    def shown(self, *between):
        """What the page shows of each citation and of the note, and the titles of its list."""
        self.run('pdflatex', '-interaction=nonstopmode', 'paper')
        self.run(*between)
        for _ in range(2):
            self.run('pdflatex', '-interaction=nonstopmode', 'paper')
        text = ' '.join(self.run('pdftotext', '-layout', 'paper.pdf', '-').split())
        listed = text.split(' References ')[1]
        note = re.search(r' 1 ((?:\S+ )*\S+\.) 1$', listed).group(1)
        titles = ' '.join(re.findall('|'.join(TITLES['numeric'].split()), listed))
        return [*re.findall(r'A\d+a (.*?) B\d+b', text), note.split('. 1 ')[-1]], titles


@pytest.mark.parametrize('style', OURS)
def test_what_biblatex_shows(tmp_path, style):
    if not shutil.which('biber'):
        pytest.skip('there is no biber (Debian: biber, texlive-bibtex-extra)')
    sorting = ', sorting=none' if style == 'numeric' else ''
    paper = Paper(tmp_path, rf'\usepackage[style={style}, backend=biber{sorting}]{{biblatex}}')
    column = 1 + [*OURS].index(style)
    assert paper.shown('biber', '-q', 'paper') == ([row[column] for row in [*CITATIONS, NOTE]],
                                                   TITLES[style])


@pytest.mark.parametrize('style', OURS)
def test_what_this_package_shows(tmp_path, cites, reads, style):
    paper = Paper(tmp_path, rf'\usepackage[style={OURS[style]}]{{gamhilon}}')
    column = 1 + [*OURS].index(style)
    assert paper.shown(sys.executable, '-m', 'gamhilon', 'latex', 'paper') == (
        [row[column + 2] or row[column] for row in [*CITATIONS, NOTE]], TITLES[style])
