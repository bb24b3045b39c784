"""run.py GAMHILON [--sequences N] [--seed S]: tries sessions, by the built program's `gamhilon
session`. Prints what fails, and last 'N passed, M failed'.

Documents are edited at random; after each edit the answer of a session, applied to what was there,
is what a session gives that is told the whole document anew. Edits by hand have answers that were
worked out by hand."""
import argparse
import glob
import json
import os
import subprocess
import sys
import tempfile

HERE = os.path.dirname(os.path.abspath(__file__))
ROOT = os.path.dirname(os.path.dirname(HERE))
sys.path[1:1] = [HERE, os.path.dirname(HERE)]

from drawn import sequences
from runs import Failed, count, ended, refused_in_turn

OWN = sorted(glob.glob(os.path.join(ROOT, 'examples', 'styles', '*.csl')))
PUBLISHED = ['apa', 'chicago-author-date', 'chicago-fullnote-bibliography', 'ieee', 'modern-language-association',
             'nature', 'vancouver', 'harvard-cite-them-right']
PLACES = '/usr/share/citation-style-language/styles/%s.csl'
EDITS = 20
SECONDS = 600


def styles():
    """The styles of the examples, and the published ones that this machine has."""
    return OWN + [it for it in (PLACES % name for name in PUBLISHED) if os.path.exists(it)]


def line(word, value=True):
    """A line of `gamhilon session`. A style is a path, or a path and options."""
    if word in ('open', 'style'):
        path, options = value if isinstance(value, tuple) else (value, {})
        with open(path, encoding='utf-8') as file:
            value = {'style': file.read(), 'options': options}
    return ('%s\n' % json.dumps({word: value})).encode()


def answers(program, lines):
    """What a session says to lines: `{}` where nothing was asked for, and an object with `refused`."""
    status, out, error = ended([program, 'session'], b''.join(lines), SECONDS)
    said = out.decode().split('\n')[:-1]
    if status != 0 or len(said) != len(lines):
        raise Failed('status %d, %d lines for %d, %s' % (status, len(said), len(lines), error.decode()[-300:]))
    return [said_of(json.loads(it)) for it in said]


def said_of(answer):
    if 'error' in answer:
        return {'refused': answer['error']}
    return {} if answer['ok'] is True else answer['ok']


def asked_again(program, lines, env):
    """What `gamhilon session` says to lines of which each is written again where memory is refused. Where
    the process ends for that, nothing is said."""
    how = {'stdin': subprocess.PIPE, 'stdout': subprocess.PIPE, 'stderr': subprocess.PIPE}
    with subprocess.Popen([program, 'session'], env=env, **how) as process:
        said = []
        for line_in in lines:
            answer = b'{"error":"out of memory"}\n'
            while answer == b'{"error":"out of memory"}\n':
                try:
                    process.stdin.write(line_in)
                    process.stdin.flush()
                except BrokenPipeError:
                    pass
                answer = process.stdout.readline()
            said.append(answer)
        try:
            process.stdin.close()
        except BrokenPipeError:
            pass
        error = process.stderr.read()
        status = process.wait(SECONDS)
    return status, b'' if status else b''.join(said), error


# What a line that is no object of `gamhilon session` is answered, and that the next one is done.
WRONG_LINES = {
    'no JSON': (b'open\n', 'wanted a JSON object with one member'),
    'an empty line': (b'\n', 'wanted a JSON object with one member'),
    'a name that there is not': (b'{"close": true}\n', 'unknown member `close`'),
    'a style that is no text': (b'{"style": {"style": 5}}\n', 'wanted an object with a text as `style`'),
    'a key that there is not': (b'{"style": {"style": "", "local": []}}\n', 'wanted an object with a text as `style`'),
    'items that are no JSON': (b'{"items": [}\n', 'items:'),
    'two members': (b'{"items": [], "answer": true}\n', 'items:'),
}


def try_wrong_line(program, wrong, part):
    status, out, error = ended([program, 'session'], b''.join(ONE) + wrong + b'{"answer": 1}\n', SECONDS)
    *_, said, answer = [json.loads(it) for it in out.decode().splitlines()]
    if status != 0 or part not in said.get('error', '') or answer['ok']['citations'] != {'changed': [], 'gone': []}:
        raise Failed('status %d, %r, %r, %r' % (status, said, answer, error))


def try_no_session(program):
    """Before a session is open, each line but one that opens one is refused."""
    lines = [b'{"answer": true}\n', b'{"items": []}\n', b'{"open": {}}\n']
    status, out, _ = ended([program, 'session'], b''.join(lines), SECONDS)
    said = [json.loads(it)['error'] for it in out.decode().splitlines()]
    if status != 0 or said[:2] != 2 * ['no session is open'] or len(said) != 3:
        raise Failed('status %d, %r' % (status, said))


# A document that is kept up to date


class Kept:
    """The texts that a caller has who applies each answer."""

    def __init__(self):
        self.parts = {'citations': ('key', 'keys', {}, []), 'bibliography': ('id', 'ids', {}, [])}

    def apply(self, answer):
        for part, (name, names, texts, order) in self.parts.items():
            given = answer.get(part, {'changed': [], 'gone': list(texts), names: []})
            for gone in given['gone']:
                del texts[gone]
            for changed in given['changed']:
                if texts.get(changed[name]) == changed['text']:
                    raise Failed('%s is reported, and has not changed' % changed[name])
                texts[changed[name]] = changed['text']
            if names in given:
                if given[names] == order and part in answer and order:
                    raise Failed('the same %s are reported' % names)
                order[:] = given[names]
            if sorted(order) != sorted(texts):
                raise Failed('%s are %s, and there are texts of %s' % (names, order, sorted(texts)))

    def whole(self):
        """What is there, in its order."""
        return {part: [(key, texts[key]) for key in order]
                for part, (_, _, texts, order) in self.parts.items()}


def of_whole(answer):
    """What an answer from the beginning has."""
    kept = Kept()
    kept.apply(answer)
    return kept.whole()


def tell_all(state):
    return [line('open', state['style']), line('items', list(state['items'].values())),
            line('citations', state['citations']), line('answer')]


def try_sequence(program, states):
    told, anew = [], []
    for number, (words, state) in enumerate(states):
        for word, value in words:
            told.append(line('open' if number == 0 and word == 'style' else word, value))
        told.append(line('answer'))
        anew += tell_all(state)
    changes = [it for it, asked in zip(answers(program, told), told) if asked == line('answer')]
    wholes = answers(program, anew)[3::4]
    kept = Kept()
    for number, (change, whole) in enumerate(zip(changes, wholes)):
        kept.apply(change)
        if kept.whole() != of_whole(whole):
            raise Failed('after edit %d, %r: %r, and from the beginning %r' % (
                number, states[number][0], kept.whole(), of_whole(whole)))


def try_sequences(program, count, seed):
    """Edits at random, beside answers from the beginning."""
    for number, states in enumerate(sequences(styles(), count, EDITS, seed)):
        try:
            try_sequence(program, states)
        except Failed as failed:
            raise Failed('sequence %d of the seed %d: %s' % (number, seed, failed))
    print('%d sequences of %d edits of the seed %d, in %d styles' % (count, EDITS, seed, len(styles())))


# By hand

AUTHOR_DATE = os.path.join(ROOT, 'examples', 'styles', 'author-date.csl')
NUMERIC = os.path.join(ROOT, 'examples', 'styles', 'numeric.csl')


def work(key, family, year, title='T'):
    return {'id': key, 'type': 'book', 'title': title, 'author': [{'family': family, 'given': 'Ann'}],
            'issued': {'date-parts': [[year]]}}


def cited(key, *ids, **properties):
    citation = {'citationID': key, 'citationItems': [{'id': it} for it in ids]}
    return {**citation, 'properties': properties} if properties else citation


ONE = [line('open', AUTHOR_DATE), line('items', [work('d', 'Doe', 1999), work('e', 'Doe', 1999, 'U'), work('r', 'Roe', 2000)]),
       line('citations', [cited('x', 'd'), cited('y', 'r')]), line('answer')]

# Lines behind those of ONE, and what the last of them is answered in `citations`: texts that changed,
# keys that are gone, and the keys where they are others.
CASES = {
    'the first answer has all': ([], {'x': '(Doe 1999)', 'y': '(Roe 2000)'}, [], ['x', 'y']),
    'nothing changed': ([line('answer')], {}, [], None),
    "a suffix that another's edit gives": (
        [line('citations', [cited('x', 'd'), cited('y', 'r', 'e')]), line('answer')],
        {'x': '(Doe 1999a)', 'y': '(Doe 1999b; Roe 2000)'}, [], None),
    'a suffix that goes with a citation': (
        [line('citations', [cited('x', 'd'), cited('z', 'e')]), line('answer'),
         line('citations', [cited('x', 'd')]), line('answer')],
        {'x': '(Doe 1999)'}, ['z'], ['x']),
    'an item that changed': (
        [line('items', [work('r', 'Roe', 2001)]), line('answer')], {'y': '(Roe 2001)'}, [], None),
    'an item that changed twice, and is what it was': (
        [line('items', [work('r', 'Roe', 2001)]), line('items', [work('r', 'Roe', 2000)]), line('answer')],
        {}, [], None),
    'citations in another order': (
        [line('citations', [cited('y', 'r'), cited('x', 'd')]), line('answer')], {}, [], ['y', 'x']),
    'a citation that is put in front': (
        [line('citations', [cited('w', 'r'), cited('x', 'd'), cited('y', 'r')]), line('answer')],
        {'w': '(Roe 2000)'}, [], ['w', 'x', 'y']),
    'a key that is used for another citation': (
        [line('citations', [cited('x', 'r'), cited('y', 'r')]), line('answer')], {'x': '(Roe 2000)'}, [], None),
    'another style': ([line('style', NUMERIC), line('answer')], {'x': '[1]', 'y': '[2]'}, [], None),
    'numbers that an edit moves': (
        [line('style', NUMERIC), line('answer'),
         line('citations', [cited('w', 'e'), cited('x', 'd'), cited('y', 'r')]), line('answer')],
        {'w': '[1]', 'x': '[2]', 'y': '[3]'}, [], ['w', 'x', 'y']),
    'citations without a key have their places': (
        [line('citations', [[{'id': 'd'}], [{'id': 'r'}]]), line('answer')],
        {'0': '(Doe 1999)', '1': '(Roe 2000)'}, ['x', 'y'], ['0', '1']),
    'no citation': ([line('citations', []), line('answer')], {}, ['x', 'y'], []),
    'a citation that was refused is forgotten': (
        [line('citations', [cited('x', 'd'), cited('x', 'r')]), line('answer')], {}, [], None),
    'items that were refused are forgotten': (
        [line('items', [work('r', 'Roe', 2001), {'title': 'without an id'}]), line('answer')], {}, [], None),
    'a style that was refused is forgotten': ([line('style', os.devnull), line('answer')], {}, [], None),
    'an item that is removed and put again': (
        [line('remove', ['r']), line('items', [work('r', 'Poe', 2000)]), line('answer')],
        {'y': '(Poe 2000)'}, [], None),
    'all of it again': ([line('whole')], {'x': '(Doe 1999)', 'y': '(Roe 2000)'}, [], ['x', 'y']),
}


def try_case(program, told, changed, gone, keys):
    said = answers(program, ONE + told)[-1]['citations']
    got = ({it['key']: it['text'] for it in said['changed']}, said['gone'], said.get('keys'))
    if got != (changed, gone, keys):
        raise Failed('%r, wanted %r' % (got, (changed, gone, keys)))


# Lines behind those of ONE whose last one is refused, and a part of what is said of it.
REFUSED = {
    'a key twice': ([line('citations', [cited('x', 'd'), cited('x', 'r')])], '/1'),
    'an item that is not there': ([line('citations', [cited('x', 'nobody')]), line('answer')], 'nobody'),
    'an item that was removed': ([line('remove', ['r']), line('answer')], '`r`'),
    'no list of ids': ([line('remove', {'id': 'r'})], 'items: wanted a list of ids'),
}


def try_refused(program, told, part):
    said = answers(program, ONE + told)[-1]
    if 'refused' not in said or part not in said['refused']:
        raise Failed('%r, wanted a refusal with %r' % (said, part))


def try_list(program):
    """The list names the items that changed, the new ones, those that are gone, and its order."""
    told = ONE + [line('items', [work('r', 'Adams', 2000)]), line('answer'),
                  line('citations', [cited('x', 'e')]), line('answer')]
    first, second, third = (it['bibliography'] for it in answers(program, told) if 'bibliography' in it)
    got = [([it['id'] for it in part['changed']], part['gone'], part.get('ids')) for part in (first, second, third)]
    wanted = [(['d', 'r'], [], ['d', 'r']), (['r'], [], ['r', 'd']), (['e'], ['r', 'd'], ['e'])]
    if got != wanted:
        raise Failed('%r, wanted %r' % (got, wanted))


DRAFT = [line('open', (AUTHOR_DATE, {'draft': True, 'form': 'markdown'})), line('items', [work('knuth1984', 'Knuth', 1984)])]


def try_draft(program):
    """A cite of an item that isn't there is its id, as pandoc has it, and is warned of with the nearest
    id."""
    told = DRAFT + [line('citations', [cited('x', 'knuth1948'), cited('y', 'knuth1984', 'knuth1948')]), line('answer'),
                    line('warnings')]
    *_, answer, warnings = answers(program, told)
    got = {it['key']: it['text'] for it in answer['citations']['changed']}
    if got != {'x': '(**knuth1948?**)', 'y': '(Knuth 1984; **knuth1948?**)'}:
        raise Failed('%r' % got)
    if [it['id'] for it in answer['bibliography']['changed']] != ['knuth1984']:
        raise Failed('the list is %r' % answer['bibliography'])
    if not any('knuth1948' in it['message'] and '`knuth1984`' in it['message'] for it in warnings['warnings']):
        raise Failed('%r' % warnings)


# How the example's items are laid out, by its file and the defaults of CSL.
LAYOUT = {'hanging_indent': True, 'entry_spacing': 1, 'line_spacing': 1}


def plain(tree):
    """The plain text of a tree."""
    return ''.join(node['text'] if 'text' in node else plain(node['children']) for node in tree)


def try_json(program):
    """As JSON, a session gives trees, whose plain texts are its texts, and how items are laid out."""
    told = [line('style', (AUTHOR_DATE, {'form': 'json'})), line('answer'),
            line('items', [work('r', 'Roe', 2001)]), line('answer')]
    first, second = [it for it in answers(program, ONE + told) if 'citations' in it][1:]
    got = [{it['key']: plain(it['citation']['content']) for it in answer['citations']['changed']} for answer in (first, second)]
    if got != [{'x': '(Doe 1999)', 'y': '(Roe 2000)'}, {'y': '(Roe 2001)'}]:
        raise Failed('%r' % got)
    (item,) = second['bibliography']['changed']
    if (item['id'], item['item']['key'], plain(item['item']['content'])) != ('r', 'r', 'Roe, A. 2001. T.'):
        raise Failed('%r' % item)
    layout = {name: second['bibliography'].get(name) for name in ('hanging_indent', 'entry_spacing', 'line_spacing')}
    if layout != LAYOUT:
        raise Failed('%r' % layout)


# Memory

STYLE = """<style xmlns="http://purl.org/net/xbiblio/csl" version="1.0" class="in-text">
<info><title>s</title><id>s</id><updated>2020-01-01T00:00:00Z</updated></info>
<citation disambiguate-add-year-suffix="true"><layout delimiter="; "><group delimiter=" ">
<names variable="author"/><date variable="issued" form="numeric" date-parts="year"/></group></layout></citation>
<bibliography><layout><text variable="title"/></layout></bibliography></style>"""


def try_memory(program):
    """A call that is refused for memory leaves a session as it was: made once more, it gives the same."""
    with tempfile.TemporaryDirectory(prefix='sessions-') as folder:
        style = os.path.join(folder, 's.csl')
        with open(style, 'w') as file:
            file.write(STYLE)
        lines = [line('open', style), line('items', [work('d', 'Doe', 1999), work('e', 'Doe', 1999)]),
                 line('citations', [cited('x', 'd')]), line('answer'), line('citations', [cited('x', 'd'), cited('y', 'e')]),
                 line('answer'), line('remove', ['e']), line('items', [work('e', 'Roe', 1999)]), line('answer'),
                 line('style', style), line('whole')]
        refused, _ = refused_in_turn(lambda env: asked_again(program, lines, env))
    print('%d growths of memory were refused' % refused)


def main():
    parser = argparse.ArgumentParser(usage=__doc__)
    parser.add_argument('program')
    parser.add_argument('--sequences', type=int, default=200, metavar='N')
    parser.add_argument('--seed', type=int, default=1)
    options = parser.parse_args()
    tests = [('sequences', try_sequences, options.sequences, options.seed), ('list', try_list), ('draft', try_draft),
             ('json', try_json), ('memory', try_memory)]
    tests += [(name, try_case, *it) for name, it in CASES.items()]
    tests += [(name, try_refused, *it) for name, it in REFUSED.items()]
    tests += [(name, try_wrong_line, *it) for name, it in WRONG_LINES.items()]
    tests += [('before a session is open', try_no_session)]
    return count(tests, os.path.abspath(options.program))


sys.exit(main())
