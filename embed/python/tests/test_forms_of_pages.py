"""Superscripts, small capitals and underlines of a style in what pandoc writes: HTML, Markdown,
LaTeX, docx, and PDF where there is LaTeX."""
import json
import re
import shutil
import subprocess
import zipfile

import pytest
from conftest import REFERENCES

pytestmark = pytest.mark.skipif(not shutil.which('pandoc'), reason='there is no pandoc')

STYLE = '''<style xmlns="http://purl.org/net/xbiblio/csl" version="1.0" class="in-text">
<info><title>Own</title><id>own</id><updated>2026-11-27T00:00:00+00:00</updated></info>
<citation><layout delimiter=" "><text variable="citation-number" vertical-align="sup"/></layout>
</citation>
<bibliography><layout>
<names variable="author"><name font-variant="small-caps" form="short"/></names>
<text variable="title" text-decoration="underline" prefix=" "/>
<text variable="note" font-weight="bold" font-style="italic" prefix=" "/>
</layout></bibliography></style>'''
WORK = {**REFERENCES[0], 'note': 'H<sub>2</sub>O'}


@pytest.fixture
def written(pandoc, tmp_path):
    """What pandoc writes in a form of a page in that style."""
    (tmp_path / 'own.csl').write_text(STYLE)
    (tmp_path / 'one.json').write_text(json.dumps([WORK]))

    def write(form, *words):
        out, said, status = pandoc('Cited [@doe99].', *words, to=form, csl='own.csl',
                                   bibliography='one.json')
        assert (said, status) == ('', 0)
        return out
    return write


def test_html(written):
    out = written('html')
    assert '<sup>1</sup>' in out and '<span class="smallcaps">Doe</span>' in out
    assert '<u>On Order</u>' in out and re.search('<sub>2</sub>', out)
    assert '<strong>' in out and '<em>' in out


def test_markdown(written):
    """(Of Markdown with citations of its own pandoc leaves out all reference lists.)"""
    out = written('markdown-citations')
    assert '^1^' in out
    assert '[Doe]{.smallcaps}' in out and '[On Order]{.underline}' in out and '~2~' in out
    assert '***H' in out


def test_latex(written):
    out = written('latex')
    assert r'\textsuperscript{1}' in out and r'\textsc{Doe}' in out
    assert re.search(r'\\(underline|uline|ul)\{On Order\}', out)
    assert r'\textsubscript{2}' in out or r'\textsubscript{\textbf' in out


def runs(folder):
    """The runs of text of a docx file, each with the properties that it has."""
    with zipfile.ZipFile(folder / 'out.docx') as archive:
        text = archive.read('word/document.xml').decode()
    found = {}
    for run in re.findall(r'<w:r>(.*?)</w:r>', text, re.DOTALL):
        for words in re.findall(r'<w:t[^>]*>(.*?)</w:t>', run, re.DOTALL):
            found[words] = re.sub(r'<w:t[ >].*', '', run, flags=re.DOTALL)
    return found


def test_docx(written, tmp_path):
    written('docx', '-o', 'out.docx')
    found = runs(tmp_path)
    assert '<w:vertAlign w:val="superscript"' in found['1']
    assert '<w:smallCaps' in found['Doe']
    assert re.search('<w:u w:val="single"', ''.join(found[words] for words in found
                                                    if words in ('On', 'On Order')))
    assert '<w:vertAlign w:val="subscript"' in found['2']
    assert '<w:b' in found['2'] and '<w:i' in found['2']


def has_latex():
    """Whether there is a LaTeX, with what pandoc underlines by."""
    if not shutil.which('pdflatex') or not shutil.which('kpsewhich'):
        return False
    return subprocess.run(['kpsewhich', 'ulem.sty'], capture_output=True).returncode == 0


@pytest.mark.skipif(not has_latex(), reason='there is no LaTeX with ulem '
                                            '(Debian: texlive-plain-generic)')
def test_pdf(written, tmp_path):
    written('latex', '-o', 'out.pdf')
    assert (tmp_path / 'out.pdf').read_bytes().startswith(b'%PDF-')
