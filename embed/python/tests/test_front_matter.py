"""What a page says of its citations in its front matter, and the command `markdown` takes of it."""
import builtins
import json

import pytest
from conftest import REFERENCES
from stand_ins import MadeUpStyle

from gamhilon import _library, __main__ as command, styles

pytestmark = pytest.mark.usefixtures('yaml')


class Asked(MadeUpStyle):
    """Stands in for the library, and keeps the style and the options of the last call."""

    def gamhilon_cite(self, style, locales, items, citations, options, *buffer):
        self.style, self.locale = style.bytes.decode(), json.loads(options.bytes)['locale']
        return super().gamhilon_cite(style, locales, items, citations, options, *buffer)


@pytest.fixture
def asked(monkeypatch, tmp_path):
    """The library, a working folder, and references in a folder of it, `pages`."""
    functions = Asked()
    monkeypatch.setattr(_library, '_library', _library.Library(functions))
    monkeypatch.chdir(tmp_path)
    (tmp_path / 'pages').mkdir()
    (tmp_path / 'pages' / 'refs.json').write_text(json.dumps(REFERENCES[:2]))
    (tmp_path / 'more.json').write_text(json.dumps(REFERENCES[2:]))
    return functions


def run(front, capsys, *words, text='[@doe99]'):
    """What the command writes of a page, without its front matter, and what it says."""
    with open('pages/page.md', 'w', encoding='utf-8') as file:
        file.write(f'---\n{front}\n---\n\n{text}\n')
    status = command.main(['markdown', 'pages/page.md', *words])
    said = capsys.readouterr()
    assert said.out == '' or said.out.startswith(f'---\n{front}\n---\n\n')
    return status, said.out[len(f'---\n{front}\n---\n\n'):], said.err


def text_of(name):
    with open(styles.path(name), encoding='utf-8') as file:
        return file.read()


def test_references_stand_beside_the_page_or_in_the_working_folder(asked, capsys):
    status, out, said = run('bibliography: refs.json', capsys)
    assert (status, said) == (0, '') and out.startswith('([Doe, On Order](#ref-doe99))\n')
    several = 'bibliography:\n- refs.json\n- more.json'
    out = run(several, capsys, text='[@doe99; @doe01]')[1]
    assert out.startswith('([Doe, On Order](#ref-doe99); [Doe, More](#ref-doe01))')


def test_style_and_language(asked, capsys):
    run('bibliography: refs.json', capsys)
    assert (asked.style, asked.locale) == (text_of('author-date'), 'en-US')
    for field in ('csl', 'citation-style', 'style'):
        run(f'bibliography: refs.json\n{field}: numeric\nlang: de', capsys)
        assert (asked.style, asked.locale) == (text_of('numeric'), 'de-DE')
    with open('pages/own.csl', 'w', encoding='utf-8') as file:
        file.write(text_of('labels'))
    for name in ('own', 'own.csl'):
        run(f'bibliography: refs.json\ncsl: {name}', capsys)
        assert asked.style == text_of('labels')


def test_keys_that_are_listed(asked, capsys):
    for nocite, keys in (("'@roe00'", ['roe00']), ("'@roe00, @doe99'", ['roe00', 'doe99']),
                         ("'@*'", ['doe99', 'roe00']), ("\n- '@roe00'", ['roe00']),
                         ('|\n  @doe99, @roe00', ['doe99', 'roe00'])):
        out = run(f'bibliography: refs.json\nnocite: {nocite}', capsys, text='No cites')[1]
        assert {key for key in ('doe99', 'roe00') if f'id="ref-{key}"' in out} == {*keys}


def test_cites_lead_nowhere_where_the_page_says_so(asked, capsys):
    assert run('bibliography: refs.json\nlink-citations: false',
               capsys)[1].startswith('(Doe, On Order)\n')
    assert run('bibliography: refs.json\nlink-citations: true',
               capsys)[1].startswith('([Doe, On Order](#ref-doe99))\n')


def test_the_command_line_comes_first(asked, capsys):
    front = "bibliography: none.json\ncsl: none\nlang: fr\nnocite: '@doe01'"
    assert run(front, capsys)[0] == 2
    status, out, said = run(front, capsys, '--bibliography', 'more.json', '--style', 'labels',
                            '--locale', 'de-AT', '--nocite', 'äh b', text='x')
    assert (status, said) == (0, '') and 'id="ref-doe01"' not in out and 'Umlauts' not in out
    assert 'id="ref-__e4_h__20_b"' in out
    assert (asked.style, asked.locale) == (text_of('labels'), 'de-AT')


@pytest.mark.parametrize('front, status, said', [
    ('bibliography: none.json', 2, 'page.md: bibliography: there is no file none.json: looked in '
     'pages, .\n'),
    ('bibliography: refs.json\ncsl: no-such', 1, "there is no style 'no-such'"),
    ('bibliography: refs.json\ncsl: https://x.org/apa', 2, 'styles are not fetched'),
    ('bibliography:\n  a: refs.json', 2, 'bibliography: a text or a list of texts is wanted'),
    ('bibliography: refs.json\nlang: [de]', 2, 'lang: a text is wanted'),
    ('bibliography: [', 2, 'page.md: line 3, column 1: '),
])
def test_what_is_refused(front, status, said, asked, capsys):
    told = run(front, capsys)
    assert told[:2] == (status, '') and said in told[2]


def test_a_page_without_references(asked, capsys):
    assert run('title: A page', capsys, text='No cites') == (0, 'No cites\n', '')
    status, out, said = run('title: A page', capsys)
    assert (status, out) == (0, '(**doe99?**)\n')
    assert 'it has no references: --bibliography names files of them' in said


@pytest.mark.parametrize('front', ['title: [', '{{ x }}: y', '- style: a', 'a: 1\n b: 2', ''])
def test_front_matter_of_others_is_left_alone(front, asked, capsys):
    status, out, said = run(front, capsys, '--bibliography', 'pages/refs.json')
    assert (status, said) == (0, '') and out.startswith('([Doe, On Order](#ref-doe99))')


def test_a_page_of_toml_is_read_as_it_was(asked, capsys):
    with open('page.md', 'w', encoding='utf-8') as file:
        file.write('+++\nbibliography = "x"\nstyle: none\n+++\n\n[@doe99]\n')
    assert command.main(['markdown', 'page.md', '--bibliography', 'pages/refs.json']) == 0
    assert '([Doe, On Order](#ref-doe99))' in capsys.readouterr().out


def test_yaml_is_asked_for_only_where_the_page_has_a_field(asked, capsys, monkeypatch):
    real = builtins.__import__

    def without(name, *given):
        if name == 'yaml':
            raise ImportError('there is no yaml')
        return real(name, *given)

    monkeypatch.setattr('gamhilon.references.yaml_values.import_module',
                        lambda name: without(name))
    words = ['--bibliography', 'pages/refs.json']
    assert run('title: A page', capsys, *words)[0] == 0
    status, out, said = run('csl: numeric', capsys, *words)
    assert (status, out) == (2, '') and 'install python3-yaml' in said
