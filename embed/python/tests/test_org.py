"""The export processor for the citations of Org (embed/org/oc-gamhilon.el)."""
import json
import os
import re
import shutil
import subprocess
import sys

import pytest
from conftest import HERE, ROOT, SOURCE

pytestmark = pytest.mark.skipif(not shutil.which('emacs'),
                                reason='there is no Emacs (Debian: emacs-nox)')

PROCESSOR = f'{ROOT}/embed/org/oc-gamhilon.el'
REFERENCES = [
    {'id': 'doe99', 'type': 'book', 'title': 'On Order', 'author': [{'family': 'Doe'}],
     'issued': {'date-parts': [[1999]]}},
    {'id': 'roe', 'type': 'book', 'title': 'A Reply', 'author': [{'family': 'Roe'}],
     'issued': {'date-parts': [[2000]]}},
]
# The command line over a library that is made up, which tells what it is asked for.
PROGRAM = '''
import json, os, sys
sys.path[:0] = [{source!r}, {tests!r}]
from gamhilon import __main__, _library
from stand_ins import MadeUpStyle

class Style(MadeUpStyle):
    def _put(self, text, status, *given):
        said = json.loads(text or b'{{}}')
        for number, citation in enumerate(said.get('citations', []), 1):
            if {notes}:
                citation['note_number'] = number
        return super()._put(json.dumps(said).encode(), status, *given)

if sys.argv[1] in ('cite', 'bibliography'):
    with open({asked!r}, 'w') as file:
        file.write(open(sys.argv[-1]).read())
_library._library = _library.Library(Style())
sys.exit(__main__.main())
'''
DOCUMENT = '''#+bibliography: {folder}/refs.json
#+cite_export: gamhilon {style}
#+options: toc:nil author:nil html-style:nil

{text}

#+print_bibliography:

* Footnotes

[fn:1] A note [cite:@roe], with more.
'''


class Export:
    """Exports documents by Emacs."""

    def __init__(self, folder):
        self.folder = folder
        (folder / 'refs.json').write_text(json.dumps(REFERENCES))

    def __call__(self, text, to='ascii', style='author-date', notes=False, program=True):
        document, script = self.folder / 'a.org', self.folder / 'program.py'
        document.write_text(DOCUMENT.format(folder=self.folder, style=style, text=text))
        script.write_text(PROGRAM.format(source=SOURCE, tests=HERE, notes=notes,
                                         asked=str(self.folder / 'asked.json')))
        words = json.dumps(str(script)) if program else '"-m" "gamhilon"'
        done = self.emacs(
            '--eval', f'(setq org-cite-gamhilon-program (list {json.dumps(sys.executable)} '
            f'{words}))', '-l', PROCESSOR, str(document), '--eval',
            f"(condition-case fault (progn (require 'ox-{to}) "
            f"(princ (org-export-as '{to} nil nil t)))"
            ' (user-error (message "%s" (cadr fault)) (kill-emacs 3)))')
        return done

    def emacs(self, *words):
        environment = {**os.environ, 'PYTHONPATH': os.pathsep.join(sys.path), 'LANG': 'C.UTF-8'}
        done = subprocess.run(['emacs', '-Q', '--batch', *words], capture_output=True, text=True,
                              timeout=120, cwd=self.folder, env=environment)
        return done.returncode, done.stdout, done.stderr

    def asked(self):
        """The citations that the last call was asked for."""
        return json.loads((self.folder / 'asked.json').read_text())


@pytest.fixture
def export(tmp_path):
    return Export(tmp_path)


def first(out):
    """The first paragraph, on one line."""
    return ' '.join(out.strip().split('\n\n')[0].split())


def test_the_lines_of_the_guide_load_it(export, monkeypatch):
    monkeypatch.setenv('PYTHONPATH', SOURCE)
    with open(f'{ROOT}/docs/GUIDES/ORG.md', encoding='utf-8') as file:
        lines = re.search(r'```elisp\n(.*?)```', file.read(), re.DOTALL).group(1)
    assert '"python3"' in lines
    lines = lines.replace('"python3"', json.dumps(sys.executable))
    status, out, error = export.emacs('--eval', f'(progn {lines} (princ (featurep '
                                      "'oc-gamhilon)))")
    assert (status, out) == (0, 't'), error


def test_it_compiles_without_a_warning(export):
    shutil.copy(PROCESSOR, export.folder)
    status, _, error = export.emacs('--eval', '(setq byte-compile-error-on-warn t)', '-f',
                                    'batch-byte-compile', 'oc-gamhilon.el')
    assert (status, error) == (0, '')
    assert (export.folder / 'oc-gamhilon.elc').is_file()


def test_a_document_has_its_citations_and_its_list(export):
    status, out, _ = export('See [cite:@doe99] and [cite:@doe99; @roe].')
    assert status == 0 and first(out) == (
        'See (Doe, On Order) and (Doe, On Order; Roe, A Reply).')
    assert out.index('\ndoe99\n\nroe\n') > 0


ASKED = [
    ('[cite:@doe99 p. 4]', [[{'id': 'doe99', 'locator': '4', 'label': 'page'}]]),
    ('[cite:@doe99 3-5, in part]', [[{'id': 'doe99', 'locator': '3-5', 'label': 'page',
                                      'suffix': ', in part'}]]),
    ('[cite:@doe99 chaps. iv-vi]', [[{'id': 'doe99', 'locator': 'iv-vi', 'label': 'chapter'}]]),
    ('[cite:@doe99 in full]', [[{'id': 'doe99', 'suffix': 'in full'}]]),
    ('[cite:@doe99 mid 1990]', [[{'id': 'doe99', 'suffix': 'mid 1990'}]]),
    ('[cite:@doe99 s.v. order]', [[{'id': 'doe99', 'suffix': 's.v. order'}]]),
    ('[cite:@doe99 s.v. 7]', [[{'id': 'doe99', 'locator': '7', 'label': 'sub-verbo'}]]),
    ('[cite/y/b:@doe99 p. 4]', [[{'id': 'doe99', 'suppress-author': True}]]),
    ('[cite:see; also @doe99;@roe;, too]', [[{'id': 'doe99', 'prefix': 'see also'},
                                             {'id': 'roe', 'suffix': ', too'}]]),
    ('[cite/na:@doe99]', [[{'id': 'doe99', 'suppress-author': True}]]),
    ('[cite/author:@doe99]', [[{'id': 'doe99', 'author-only': True}]]),
    ('[cite/n:@doe99]', [[{'id': 'doe99', 'hidden': True}]]),
    ('[cite/t:@doe99 p. 4]', [[{'id': 'doe99', 'author-only': True}],
                              [{'id': 'doe99', 'locator': '4', 'label': 'page',
                                'suppress-author': True}]]),
]


def test_what_is_asked_for(export):
    status, _, error = export('\n\n'.join(citation for citation, _ in ASKED))
    assert status == 0, error
    told = [[{key: value for key, value in cite.items() if value != ''} for cite in asked]
            for asked in export.asked()]
    assert told == [request for _, requests in ASKED for request in requests]


def test_html_and_latex_are_those_of_the_program(export):
    for to, wanted in (('html', '<div id="ref-doe99" class="csl-entry">doe99</div>'),
                       ('latex', r'\hypertarget{ref-doe99}{}doe99')):
        status, out, _ = export('See [cite:@doe99].', to)
        assert status == 0 and 'See (Doe, On Order).' in out and wanted in out
        assert ('.csl-entry' in out.split('</style>')[0]) == (to == 'html')


def test_in_a_style_of_notes_citations_are_footnotes(export):
    """The note of the document is the second, and its citation stays in it."""
    status, out, error = export('One [cite:see @doe99], two[fn:1] and [cite:@roe].', notes=True)
    assert status == 0, error
    assert first(out) == 'One,[1] two[2] and.[3]'
    assert sorted(cite['note'] for asked in export.asked() for cite in asked) == [1, 2, 3]
    assert export.asked()[0][0]['prefix'] == 'See'


def test_an_author_stands_in_the_sentence_of_a_note(export):
    """As in pandoc. The author is asked for behind all notes, and a note of the document has it."""
    status, out, error = export('As [cite/t:see @doe99 p. 4], two[fn:1]; [cite/text/caps:@roe].\n\n'
                                'Three[fn:: By [cite/t:@roe].]', notes=True)
    assert status == 0, error
    assert first(out) == 'As (Doe),[1] two[2]; (Roe).[3]'
    text = ' '.join(out.split())
    assert '[1] (SeeOn Order, 4)' in text and '[4] By (Roe, A Reply)' in text
    told = [[(cite['id'], cite.get('note'), bool(cite.get('author-only')),
              bool(cite.get('suppress-author'))) for cite in asked] for asked in export.asked()]
    assert told == [[('doe99', 1, False, True)], [('roe', 2, False, False)],
                    [('roe', 3, False, True)], [('roe', 4, False, False)],
                    [('doe99', None, True, False)], [('roe', None, True, False)]]


@pytest.mark.parametrize('to', ['ascii', 'html', 'latex'])
def test_a_style_of_notes_keeps_authors_in_the_sentence(export, cites, to):
    """Behind the author, the note has the rest."""
    status, out, error = export('As [cite/t:@doe99 p. 4] says, and [cite/t:@roe].', to,
                                style='notes', program=False)
    assert status == 0, error
    text = ' '.join(re.sub(r'<[^>]*>', '', out).split())
    assert re.search(r'As Doe.+? says, and Roe\.', text), text


@pytest.mark.parametrize('text, style, said', [
    ('[cite:@none]', 'author-date', "there is no entry 'none'"),
    ('[cite:@doe99]', 'no-such-style', "there is no style 'no-such-style'"),
])
def test_what_is_wrong_ends_the_export_and_is_told(export, text, style, said):
    status, out, error = export(text, style=style)
    assert (status, out) == (3, '') and said in error


def test_authors_and_years_of_a_style(export, cites):
    status, out, error = export('As [cite/t:@doe99 p. 4] and [cite:@roe]; [cite/a:@roe].',
                                program=False)
    assert status == 0, error
    assert first(out) == 'As Doe (1999, p. 4) and (Roe 2000); Roe.'


# What the commentary of oc-csl.el lists: its styles and variants, but for those that name all
# authors, and the text that it shows of a citation with a locator.
OF_OC_CSL = [
    ('[cite:see @doe99 chapter 1, for an example]', '(see Doe 1999, chap. 1, for an example)'),
    ('[cite//b:@doe99]', 'Doe 1999'), ('[cite//bare:see @doe99 p. 4]', 'see Doe 1999, p. 4'),
    ('[cite//c:see @doe99]', '(See Doe 1999)'), ('[cite//bare-caps:see @doe99]', 'See Doe 1999'),
    ('[cite/a:@small]', 'van Small'), ('[cite/a/c:@small]', 'Van Small'),
    ('[cite/na:@doe99]', '(1999)'), ('[cite/na/b:@doe99 p. 4]', '1999, p. 4'),
    ('[cite/na/bc:see @doe99]', 'See 1999'), ('[cite/y:@doe99]', '(1999)'),
    ('[cite/year/bare:@doe99]', '1999'), ('[cite/t:@small]', 'van Small (2001)'),
    ('[cite/text/caps:@small]', 'Van Small (2001)'),
]


@pytest.mark.parametrize('to', ['ascii', 'html', 'latex'])
def test_styles_of_oc_csl(export, cites, to):
    small = {'id': 'small', 'type': 'book', 'title': 'Less', 'issued': {'date-parts': [[2001]]},
             'author': [{'family': 'Small', 'non-dropping-particle': 'van'}]}
    (export.folder / 'refs.json').write_text(json.dumps([*REFERENCES, small]))
    status, out, error = export('; '.join(citation for citation, _ in OF_OC_CSL), to,
                                program=False)
    assert status == 0, error
    text = re.sub(r'<[^>]*>|\\hyperlink\{[^}]*\}', '', out)
    text = re.sub(r'\{([^{}]*)\}', r'\1', ' '.join(text.split()))
    assert '; '.join(shown for _, shown in OF_OC_CSL) in text.replace('\u00a0', ' ')


@pytest.mark.parametrize('style, shown', [
    ('numeric', 'As Doe [1 (p. 4)] and [2]; Roe; Doe [1], Roe [2].'),
    ('labels', 'As Doe [Doe99, p. 4] and [Roe00]; Roe; Doe [Doe99], Roe [Roe00].')])
def test_authors_in_styles_that_write_none(export, cites, style, shown):
    """As biblatex's \\textcite and \\citeauthor in its styles numeric and alphabetic."""
    status, out, error = export('As [cite/t:@doe99 p. 4] and [cite:@roe]; [cite/a:@roe]; '
                                '[cite/t:@doe99;@roe].', style=style, program=False)
    assert (status, first(out)) == (0, shown), error
