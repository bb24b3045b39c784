"""LaTeX documents: what gamhilon.sty writes into the .aux file, what the command `latex` makes of
it, and what LaTeX then prints."""
import json
import os
import re
import shutil
import subprocess
import sys

import pytest
from conftest import HERE, SOURCE
from stand_ins import MadeUpStyle, NumberedStyle

from gamhilon import __main__, _library, csl, latex_documents
from gamhilon._latex_aux import arguments, read_aux

WORKS = [
    {'id': 'doe99', 'type': 'book', 'title': 'On Order',
     'author': [{'family': 'Doe', 'given': 'Jane'}], 'issued': {'date-parts': [[1999]]}},
    {'id': 'roe_00', 'type': 'book', 'title': 'A Reply',
     'author': [{'family': 'Roe', 'given': 'Richard'}], 'issued': {'date-parts': [[2000]]}},
    {'id': 'poe', 'type': 'book', 'title': 'Costs & 50% of_a #1 {x} ~ ^ \\ $',
     'author': [{'family': 'Poe', 'given': 'Ann'}], 'issued': {'date-parts': [[2001]]}},
]
NO_TEX = 'there is no LaTeX (Debian: texlive-latex-recommended and poppler-utils)'
tex = pytest.mark.skipif(not (shutil.which('pdflatex') and shutil.which('pdftotext')),
                         reason=NO_TEX)
needs_latexmk = pytest.mark.skipif(not shutil.which('latexmk'),
                                   reason='there is no latexmk (Debian: latexmk)')


@pytest.fixture
def made_up_style(monkeypatch):
    """Cites are the family name, the title and the locator; numbers where they are asked for."""
    def put(functions=MadeUpStyle):
        monkeypatch.setattr(_library, '_library', _library.Library(functions()))
    put()
    return put


@pytest.fixture
def written(tmp_path, made_up_style):
    """What is written in the line and in notes of citations, of the lines of an .aux file."""
    (tmp_path / 'works.json').write_text(json.dumps(WORKS))

    def run(*cites, style='author-date', functions=MadeUpStyle, more=''):
        made_up_style(functions)
        lines = [rf'\gamhilon@options{{{style}}}{{}}{{}}{{works.json}}', more]
        for number, (place, last_note, command, *rest) in enumerate(cites, 1):
            told = ''.join(f'{{{part}}}' for part in rest)
            lines.append(rf'\gamhilon@cite{{{number}}}{{{place}}}{{{last_note}}}{{7}}{{}}'
                         rf'{{{command}}}{told}')
        (tmp_path / 'paper.aux').write_text('\n'.join(lines))
        text, run.warnings = latex_documents.bbl_of(str(tmp_path / 'paper.aux'))
        found = re.findall(r'^\\gamhilon@citation.*\n  (\{.*\})$', text, re.MULTILINE)
        run.text = text
        return [tuple(re.sub(r'\\hyperlink\{[^{}]*\}\{([^{}]*)\}', r'<\1>', part)
                      for part in arguments(line, 0, 2)) for line in found]
    return run


def test_arguments_are_read_to_their_braces():
    assert arguments(r'{a{b}c}{\{}{\\}rest', 0, 3) == ['a{b}c', r'\{', r'\\']
    assert arguments('{a}{b', 0, 2) is None and arguments('a', 0, 1) is None


def test_an_aux_file_has_those_of_its_chapters(tmp_path):
    (tmp_path / 'ch').mkdir()
    (tmp_path / 'ch' / 'one.aux').write_text(r'\gamhilon@cite{2}{note}{3}{4}{one.tex}{cite}{b}{}{}')
    (tmp_path / 'paper.aux').write_text('\n'.join([
        r'\providecommand\gamhilon@cite[9]{}', r'\gamhilon@options{apa}{de-DE}{ngerman}{a.bib, b}',
        r'\gamhilon@listed{x, y}', r'\@input{ch/one.aux}', r'\@input{ch/none.aux}',
        r'\gamhilon@cite{3}{text}{0}{9}{}{textcite}{a,  c}{see \emph {too}}{4}',
        r'\gamhilon@cite{3}{text}{0}{9}{}{textcite}{a,  c}{see \emph {too}}{4}',
        r'\gamhilon@cite{1}{text}{0}{1}{}{cite}{a}{}{', r'\gamhilon@sums{AB}{CD}']))
    aux = read_aux(str(tmp_path / 'paper.aux'))
    assert (aux.style, aux.locale, aux.language) == ('apa', 'de-DE', 'ngerman')
    assert aux.library_list == ['a.bib', 'b'] and aux.listed == ['x', 'y']
    assert aux.checksum == 'AB'
    assert [cite.number for cite in aux.citations] == [2, 3]
    one, other = aux.citations
    assert (one.place, one.last_note, one.line, one.file) == ('note', 3, 4, 'one.tex')
    assert other.key_list == ['a', 'c'] and other.prenote == r'see \emph {too}'


# What biblatex's manual says of its commands: \cite is bare in styles of authors and dates,
# \parencite has parentheses, \footcite is a note with a full stop, and a page range is a page.
INLINE = [
    ('cite', 'doe99', '', '', ('<Doe, On Order>', '')),
    ('parencite', 'doe99', '', '', ('(<Doe, On Order>)', '')),
    ('parencite', 'doe99', 'see', '4', ('(see <Doe, On Order, 4>)', '')),
    ('parencite', 'doe99, roe_00', 'see', '4--7',
     ('(see <Doe, On Order>; <Roe, A Reply, 4\u20137>)', '')),
    ('parencite', 'doe99', '', r'\emph {passim}', (r'(<Doe, On Order>, \emph {passim})', '')),
    ('parencite', 'doe99', '', 'p.~4, in part', ('(<Doe, On Order, 4>, in part)', '')),
    ('parencite', 'doe99', '', r'4 and \emph {passim}--', (r'(<Doe, On Order, 4> and '
                                                          r'\emph {passim}--)', '')),
    ('parencite*', 'doe99', '', '', ('(<On Order>)', '')),
    ('textcite', 'doe99', '', '4', ('Doe (<On Order, 4>)', '')),
    ('footcite', 'doe99', 'see', '', ('', 'See <Doe, On Order>.')),
    ('footcite', 'doe99', r'\emph {see}', '', ('', r'\emph {see} <Doe, On Order>.')),
    ('cite', 'nobody', '', '', (r'\gamhilonundefined{nobody}', '')),
    ('parencite', 'doe99,nobody', '', '',
     (r'(<Doe, On Order>; \gamhilonundefined{nobody})', '')),
    ('parencite', 'nobody,doe99', 'see', '',
     (r'(see \gamhilonundefined{nobody}; <Doe, On Order>)', '')),
]


@pytest.mark.parametrize('command, keys, prenote, postnote, wanted', INLINE)
def test_citations_in_the_line(written, command, keys, prenote, postnote, wanted):
    assert written(('text', 0, command, keys, prenote, postnote)) == [wanted]


def test_a_style_of_numbers_keeps_its_brackets(written):
    assert written(('text', 0, 'cite', 'roe_00', '', '3'),
                   ('text', 0, 'parencite', 'doe99', '', ''), style='numeric',
                   functions=NumberedStyle) == [('{[}<1>{]}', ''), ('{[}<2>{]}', '')]


def test_a_style_of_notes_puts_citations_into_notes(written):
    assert written(('text', 0, 'cite', 'doe99', 'see', '4'), ('note', 1, 'cite', 'roe_00', '', ''),
                   ('made', 1, 'parencite', 'doe99', '', ''),
                   ('float', 2, 'cite', 'doe99', '', ''), style='notes') == [
        ('', '(see <Doe, On Order, 4>).'), ('(<Roe, A Reply>)', ''), ('', '(<Doe, On Order>).'),
        ('(<Doe, On Order>)', '')]
    assert written(('text', 0, 'textcite', 'doe99', '', ''), style='notes') == [
        ('Doe', '(<On Order>).')]
    assert written(('note', 1, 'textcite', 'doe99', '', ''), style='notes') == [
        ('(<Doe, On Order>)', '')]


def test_notes_have_the_numbers_that_they_will_have(written, monkeypatch):
    asked = []
    real = MadeUpStyle.gamhilon_cite
    monkeypatch.setattr(MadeUpStyle, 'gamhilon_cite', lambda self, *given: asked.append(
        json.loads(given[3].bytes)) or real(self, *given))
    first = [('text', 0, 'cite', 'doe99', '', ''), ('note', 1, 'cite', 'doe99', '', ''),
             ('text', 1, 'cite', 'doe99', '', '')]
    second = [('made', 0, 'cite', 'doe99', '', ''), ('note', 2, 'cite', 'doe99', '', ''),
              ('made', 2, 'cite', 'doe99', '', '')]
    for run in (first, second):
        written(*run, style='notes')
        assert [cites[0]['note'] for cites in asked[-1]] == [1, 2, 3]


def test_a_caption_that_is_typeset_twice_cites_once(written, monkeypatch):
    asked = []
    real = MadeUpStyle.gamhilon_cite
    monkeypatch.setattr(MadeUpStyle, 'gamhilon_cite', lambda self, *given: asked.append(
        json.loads(given[3].bytes)) or real(self, *given))
    shown = written(('float', 0, 'cite', 'doe99', '', ''), ('float', 0, 'cite', 'doe99', '', ''))
    assert shown == [('<Doe, On Order>', '')] * 2 and len(asked[0]) == 1


def test_what_is_odd_has_its_line(written):
    written(('text', 0, 'cite', 'nobody', '', ''), more=r'\gamhilon@listed{none}')
    assert [str(warning) for warning in written.warnings] == [
        'paper.tex:7: no entry has the key nobody', 'paper.tex: nocite: no entry has the key none']
    assert r'\gamhilon@missing{none}' in written.text


def test_the_list_has_what_is_cited_and_listed(written):
    written(('text', 0, 'cite', 'doe99', '', ''), more=r'\gamhilon@listed{poe}')
    assert re.findall(r'\\gamhilon@item\{(.*?)\}', written.text) == ['ref-doe99', 'ref-poe']
    written(more=r'\gamhilon@listed{*}')
    assert written.text.count(r'\gamhilon@item') == 3


# The command line

def command(folder, *words, functions='MadeUpStyle', environment=()):
    """Runs the command line over the made-up library."""
    script = folder / 'program.py'
    script.write_text(f'import sys\nsys.path[:0] = [{SOURCE!r}, {HERE!r}]\n'
                      'from gamhilon import __main__, _library\nimport stand_ins\n'
                      f'_library._library = _library.Library(stand_ins.{functions}())\n'
                      'sys.exit(__main__.main())\n')
    return subprocess.run([sys.executable, str(script), *words], cwd=folder, capture_output=True,
                          text=True, timeout=60, env={**os.environ, **dict(environment)})


def test_it_tells_where_its_package_is(capsys):
    assert __main__.main(['latex', '--where']) == 0
    assert os.path.isfile(os.path.join(capsys.readouterr().out.strip(), 'gamhilon.sty'))


def test_it_installs_its_package(tmp_path):
    home = str(tmp_path / 'tree')
    done = command(tmp_path, 'latex', '--install',
                   environment={'TEXMFHOME': home, 'HOME': str(tmp_path)})
    assert done.returncode == 0 and done.stderr == ''
    assert os.path.isfile(done.stdout.strip()) and done.stdout.strip().endswith('/gamhilon.sty')


def test_what_it_refuses(tmp_path, capsys):
    (tmp_path / 'other.aux').write_text('\\relax\n')
    (tmp_path / 'style.aux').write_text(r'\gamhilon@options{none}{}{}{}')
    (tmp_path / 'file.aux').write_text(r'\gamhilon@options{author-date}{}{}{none.json}')
    for name, status, said in (('other', 2, 'gamhilon.sty'), ('none', 1, 'none.aux: No such file'),
                               ('style', 1, "no style 'none'"), ('file', 1, 'none.json: No such')):
        assert __main__.main(['latex', str(tmp_path / name)]) == status
        assert said in capsys.readouterr().err
    with pytest.raises(SystemExit) as ended:
        __main__.main(['latex'])
    assert ended.value.code == 64


# By LaTeX

DOCUMENT = r'''\documentclass{article}
\usepackage[%(options)s]{gamhilon}
\addbibresource{works.json}
%(preamble)s
\begin{document}
%(text)s

\printbibliography
\end{document}
'''


class Paper:
    """A document that is compiled. In the fonts that LaTeX has by itself a low line is a rule, of
    which nothing is read back, and `~` and `^` are accents."""

    def __init__(self, folder):
        self.folder = folder
        (folder / 'works.json').write_text(json.dumps(WORKS))
        self.log = ''

    def write(self, text, options='style=author-date', preamble=''):
        (self.folder / 'paper.tex').write_text(
            DOCUMENT % {'text': text, 'options': options, 'preamble': preamble})

    def latex(self):
        """Runs LaTeX, and gives the text of the page."""
        done = self.ran('pdflatex', '-interaction=nonstopmode', '-halt-on-error', 'paper.tex')
        self.log = done.stdout
        assert done.returncode == 0, done.stdout[-2000:]
        return self.page()

    def page(self):
        shown = self.ran('pdftotext', '-layout', 'paper.pdf', '-').stdout
        return ' '.join(shown.split())

    def ran(self, *words):
        environment = {**os.environ, 'TEXINPUTS': latex_documents.folder() + os.pathsep,
                       'max_print_line': '1000', 'TEXMFVAR': str(self.folder / 'texmf-var')}
        done = subprocess.run(words, cwd=self.folder, capture_output=True, timeout=300,
                              env=environment)
        done.stdout = done.stdout.decode('utf-8', 'replace')
        return done

    def cited(self, functions='MadeUpStyle'):
        done = command(self.folder, 'latex', 'paper', functions=functions)
        assert (done.returncode, done.stderr) == (0, '')


@pytest.fixture
def paper(tmp_path):
    return Paper(tmp_path)


@tex
def test_the_first_run_shows_keys_and_warns(paper):
    paper.write(r'See \cite[4]{doe99, roe_00}, and \footcite{poe}. End.')
    shown = paper.latex()
    assert shown.startswith('See doe99, roe 00, and.1 End.') and '1 poe' in shown
    for key in ('doe99', 'roe_00', 'poe'):
        assert f"LaTeX Warning: Citation `{key}' on page 1 undefined on input line 6." in paper.log
    assert 'No file paper.bbl.' in paper.log and 'Citations may have changed' in paper.log
    assert 'There were undefined references' in paper.log


@tex
def test_the_second_run_shows_what_is_written(paper):
    paper.write(r'A \cite[see][4]{doe99}, B \footcite{roe_00}. C \textcite{poe}, '
                r'D\footnote{In \parencite{doe99}.}')
    paper.latex()
    paper.cited()
    shown = paper.latex()
    assert shown.startswith('A see Doe, On Order, 4, B.1 C Poe (Costs & 50% of a #1 {x} ˜ ˆ \\ $), '
                            'D2')
    assert '1 Roe, A Reply.' in shown and '2 In (Doe, On Order).' in shown
    assert 'References doe99 roe 00 poe' in shown
    assert 'undefined' not in paper.log and 'may have changed' not in paper.log


@tex
def test_a_change_is_told_and_shows_no_other_citation(paper):
    paper.write(r'\cite{doe99} \cite{roe_00}')
    paper.latex()
    paper.cited()
    paper.write(r'\cite{poe} \cite{doe99} \cite{roe_00}')
    assert paper.latex().startswith('poe Doe, On Order Roe, A Reply References')
    assert 'Citations may have changed' in paper.log
    paper.write(r'\cite{doe99} \cite{roe_00}', options='style=numeric')
    paper.latex()
    assert 'Citations may have changed' in paper.log


@tex
def test_links_lead_to_items(paper):
    paper.write(r'\section{On \cite{doe99}} \cite{roe_00}', preamble=r'\usepackage{hyperref}')
    paper.latex()
    paper.cited()
    assert '1 On Doe, On Order Roe, A Reply' in paper.latex()
    paper.latex()
    assert 'has been referenced but does not exist' not in paper.log
    assert 'Token not allowed' not in paper.log
    told = paper.ran('pdfinfo', '-dests', 'paper.pdf').stdout
    assert '"ref-doe99"' in told and '"ref-roe_00"' in told


@tex
def test_what_is_typeset_twice_is_cited_once(paper):
    paper.write('\\tableofcontents\n\\section{Of \\cite{doe99}}\n'
                r'\begin{tabularx}{\textwidth}{X} In a table \cite{roe_00} \end{tabularx}'
                r'\begin{align} x \text{ by \cite{poe}} \end{align} \cite{doe99}',
                preamble='\\usepackage{tabularx,amsmath}')
    for _ in range(2):
        paper.latex()
        paper.cited(functions='NumberedStyle')
    shown = paper.latex()
    numbers = [cite.number for cite in read_aux(str(paper.folder / 'paper.aux')).citations]
    assert numbers == [1, 2, 3, 4]
    assert shown.startswith('Contents 1 Of 1 1 1 Of 1 In a table 2 x by 3 (1) 1 References')


@tex
def test_numbers_stand_before_items(paper):
    paper.write(r'\cite{roe_00} \cite{doe99}', options='style=numeric')
    paper.latex()
    paper.cited(functions='NumberedStyle')
    assert paper.latex().startswith('[1] [2] References [1] roe 00 [2] doe99')


@tex
def test_notes_stand_behind_the_punctuation(paper):
    paper.write(r'One \cite{doe99}. Two \textcite{roe_00}, and \autocite[4]{poe} three.',
                options='style=notes')
    paper.latex()
    paper.cited()
    shown = paper.latex()
    assert shown.startswith('One.1 Two Roe,2 and3 three.')
    assert '1 (Doe, On Order).' in shown and '2 (A Reply).' in shown
    assert r'\gamhilon@cite{3}{made}{2}' in (paper.folder / 'paper.aux').read_text()


@tex
def test_spaces_behind_abbreviations_are_those_of_words(paper):
    """As in biblatex, which sets \\frenchspacing. Of sentences they are wider."""
    paper.write(r'\sbox0{\cite[cf.][p.~4]{doe99}}\sbox2{\frenchspacing cf. Doe, On Order, 4}'
                r'\sbox4{cf. Doe, On Order, 4}\typeout{WIDTHS \the\wd0 \the\wd2 \the\wd4}')
    paper.latex()
    paper.cited()
    paper.latex()
    shown, of_words, of_sentences = re.findall(r'[\d.]+(?=pt)', paper.log.split('WIDTHS')[1])[:3]
    assert shown == of_words != of_sentences


@tex
def test_headings_of_lists(paper):
    for options, wanted in (('[title=Works]', '1 Works doe99'), ('[heading=none]', '1 doe99'),
                            ('[heading=bibnumbered]', '1 1 References doe99')):
        paper.write(r'\nocite{doe99} 1 \printbibliography%s \end{document}' % options)
        paper.latex()
        paper.cited()
        assert paper.latex().startswith(wanted)


@tex
def test_chapters_that_are_left_out_keep_their_numbers(paper):
    for name, text in (('one', r'One \cite{roe_00}.'), ('two', r'Two \cite{poe}.')):
        (paper.folder / f'{name}.tex').write_text(text)
    for only in ('one,two', 'two'):
        paper.write(r'\section{On \cite{doe99}} \include{one} \include{two}',
                    options='style=numeric',
                    preamble=r'\pagestyle{headings}\includeonly{%s}' % only)
        paper.latex()
        paper.cited(functions='NumberedStyle')
        shown = paper.latex()
        assert 'Two [3].' in shown and ('One [2].' in shown) == (only != 'two')
        assert 'may have changed' not in paper.log and 'undefined' not in paper.log


LATEXMKRC = '''add_cus_dep('aux', 'bbl', 0, 'gamhilon');
sub gamhilon { return system('%s', 'program.py', 'latex', $_[0]); }
$bibtex_use = 2;
'''


@tex
@needs_latexmk
def test_latexmk_runs_it_for_chapters_too(paper):
    (paper.folder / 'latexmkrc').write_text(LATEXMKRC % sys.executable)
    command(paper.folder, 'latex', '--where')
    chapter = paper.folder / 'chapter.tex'
    chapter.write_text(r'B \cite{roe_00}.')
    paper.write(r'A \cite{doe99}. \include{chapter}')
    make = ('latexmk', '-pdf', '-interaction=nonstopmode', 'paper.tex')
    assert paper.ran(*make).returncode == 0
    assert paper.page().startswith('A Doe, On Order. 1 B Roe, A Reply. 2 References')
    chapter.write_text(r'B \cite{roe_00}. C \cite{poe}.')
    assert paper.ran(*make).returncode == 0
    assert 'C Poe, Costs & 50%' in paper.page()
    assert 'Nothing to do' in paper.ran(*make).stdout
    paper.ran('latexmk', '-C')
    assert not (paper.folder / 'paper.bbl').exists()


@tex
@pytest.mark.parametrize('style', ['author-date', 'numeric', 'labels', 'notes'])
def test_it_prints_what_the_package_writes(paper, cites, style):
    works = [work for work in WORKS if work['id'] != 'poe']
    (paper.folder / 'works.json').write_text(json.dumps(works))
    paper.write(r'\parencite[4]{doe99} and \parencite{roe_00,doe99}.', options=f'style={style}')
    paper.latex()
    assert __main__.main(['latex', str(paper.folder / 'paper')]) == 0
    shown = paper.latex()
    rendered = csl.render(style, works, [[{'id': 'doe99', 'locator': '4'}],
                                         [{'id': 'roe_00'}, {'id': 'doe99'}]])
    for text in [*rendered.citations, *rendered.bibliography.values()]:
        assert ' '.join(text.split()) in shown, text


@pytest.mark.parametrize('command, wanted', [
    ('cite', 'Doe 1999, p. 4'), ('parencite', '(Doe 1999, p. 4)'), ('textcite', 'Doe (1999, p. 4)'),
    ('citeauthor', 'Doe'), ('cite*', '1999, p. 4')])
def test_commands_in_a_style_of_authors_and_dates(tmp_path, cites, command, wanted):
    (tmp_path / 'works.json').write_text(json.dumps(WORKS))
    (tmp_path / 'paper.aux').write_text(
        '\\gamhilon@options{author-date}{}{}{works.json}\n'
        rf'\gamhilon@cite{{1}}{{text}}{{0}}{{1}}{{}}{{{command}}}{{doe99}}{{}}{{4}}')
    text, warnings = latex_documents.bbl_of(str(tmp_path / 'paper.aux'))
    line = re.search(r'^  (\{.*\})$', text, re.MULTILINE).group(1)
    shown = re.sub(r'\\hyperlink\{[^{}]*\}\{([^{}]*)\}', r'\1', arguments(line, 0, 1)[0])
    assert (shown, warnings) == (wanted, [])


@pytest.mark.parametrize('style, wanted', [
    ('author-date', 'Doe (1999) and Roe (2000)'), ('numeric', 'Doe [1] and Roe [2]')])
def test_several_works_in_a_sentence(tmp_path, cites, style, wanted):
    (tmp_path / 'works.json').write_text(json.dumps(WORKS))
    (tmp_path / 'paper.aux').write_text(
        f'\\gamhilon@options{{{style}}}{{}}{{}}{{works.json}}\n'
        r'\gamhilon@cite{1}{text}{0}{1}{}{textcite}{doe99,roe_00}{}{}')
    text, _ = latex_documents.bbl_of(str(tmp_path / 'paper.aux'))
    line = re.search(r'^  (\{.*\})$', text, re.MULTILINE).group(1)
    shown = re.sub(r'\\hyperlink\{[^{}]*\}\{([^{}]*)\}', r'\1', arguments(line, 0, 1)[0])
    assert shown.replace('{[}', '[').replace('{]}', ']') == wanted
