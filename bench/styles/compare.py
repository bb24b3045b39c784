#!/usr/bin/env python3
"""compare.py [--program FILE] [--texts | --each N] [STYLE..]: published styles by Gamhilon and by
pandoc.

Writes the citations of citations.json, of the works of references.json, and their bibliography in
each style (those of styles.json where none is named), by the program gamhilon and by `pandoc
--citeproc`, and prints which of the citations and items read alike, in the tables of
docs/STYLES.md; with --texts each text that doesn't, too. styles.json has by hand why citations
differ, and items.json why items do, by the names of causes.json. The exit status is 1 where
something differs and no cause is told, where one is told and nothing differs, and, where no style
is named, where docs/STYLES.md doesn't have the citations, the tables and the causes as they are
here.
With --each N nothing is compared: each N-th of the published styles writes the citations and the
bibliography, and those are told in which that ends with another status than 0.
It needs the program (crates/gamhilon/out/gamhilon, or --program), Debian's
citation-style-language-styles and citation-style-language-locales, and, but for --each, pandoc.
"""
import json
import os
import subprocess
import sys
import tempfile

HERE = os.path.dirname(os.path.abspath(__file__))
ROOT = os.path.normpath(f'{HERE}/../..')
PROGRAM = f'{ROOT}/crates/gamhilon/out/gamhilon'
STYLES = '/usr/share/citation-style-language/styles'
LABELS = {'page': 'p.', 'chapter': 'chap.'}
QUOTES = {'DoubleQuote': '“”', 'SingleQuote': '‘’'}


def read(name):
    with open(f'{HERE}/{name}', encoding='utf-8') as file:
        return json.load(file)


def normal(text):
    """The text, in which white space of all kinds is one space."""
    return ' '.join(text.split())


# pandoc

def markdown(citation):
    """A citation as pandoc's Markdown has it."""
    cites = []
    for cite in citation:
        label = LABELS[cite.get('label', 'page')]
        locator = f', {{{label} {cite["locator"]}}}' if 'locator' in cite else ''
        sign = '-@' if cite.get('suppress-author') else '@'
        cites.append(f'{cite.get("prefix", "")}{sign}{cite["id"]}{locator}{cite.get("suffix", "")}')
    return f'[{"; ".join(cites)}]'


def shown(node):
    """The text of a part of pandoc's document."""
    if isinstance(node, list):
        return ''.join(map(shown, node))
    kind, content = node['t'], node.get('c')
    if kind in ('Str', 'Code'):
        return content if isinstance(content, str) else content[-1]
    if kind in ('Space', 'SoftBreak', 'LineBreak'):
        return ' '
    if kind == 'Quoted':
        opening, closing = QUOTES[content[0]['t']]
        return opening + shown(content[1]) + closing
    if kind in ('Cite', 'Span', 'Div', 'Link'):
        return shown(content[1])
    return shown(content)


def by_pandoc(path, citations):
    """The texts of citations in a style, by pandoc."""
    text = '\n\n'.join(map(markdown, citations))
    words = ['pandoc', '-f', 'markdown', '-t', 'json', '--citeproc', '--csl', path,
             '--bibliography', f'{HERE}/references.json', '-M', 'suppress-bibliography=true']
    done = subprocess.run(words, input=text, capture_output=True, text=True, check=True)
    blocks = [block for block in json.loads(done.stdout)['blocks'] if block['t'] == 'Para']
    return [normal(shown(block['c'])) for block in blocks[:len(citations)]]


def items_in(blocks):
    """The texts of the items of a bibliography in pandoc's document."""
    items = []
    for block in blocks:
        if block['t'] == 'Div':
            (_, classes, _), inside = block['c']
            is_item = 'csl-entry' in classes
            items += [normal(' '.join(map(shown, inside)))] if is_item else items_in(inside)
    return items


def items_by_pandoc(path, citations):
    """The texts of the items of a bibliography in a style, by pandoc."""
    text = '\n\n'.join(map(markdown, citations))
    words = ['pandoc', '-f', 'markdown', '-t', 'json', '--citeproc', '--csl', path,
             '--bibliography', f'{HERE}/references.json']
    done = subprocess.run(words, input=text, capture_output=True, text=True, check=True)
    return items_in(json.loads(done.stdout)['blocks'])


# Gamhilon

def ran(program, verb, path, citations):
    """What the program does with citations in a style."""
    with tempfile.NamedTemporaryFile('w', suffix='.json', encoding='utf-8') as file:
        json.dump(citations, file)
        file.flush()
        words = [program, verb, '--style', path, f'{HERE}/references.json', file.name]
        return subprocess.run(words, capture_output=True, text=True, timeout=600)


def by_gamhilon(program, path, citations):
    """The texts of citations in a style, by the program."""
    done = ran(program, 'cite', path, citations)
    if done.returncode:
        sys.exit(f'compare.py: {path}: status {done.returncode}: {done.stderr}')
    return [normal(line) for line in done.stdout.split('\n')[:len(citations)]]


def items_by_gamhilon(program, path, citations):
    """The texts of the items of a bibliography in a style, by the program."""
    done = ran(program, 'bibliography', path, citations)
    if done.returncode:
        sys.exit(f'compare.py: {path}: status {done.returncode}: {done.stderr}')
    return [normal(line) for line in done.stdout.split('\n') if line.strip()]


def try_each(program, step, citations):
    """Writes each style of a sample, and tells in which that fails."""
    names = sorted(name for name in os.listdir(STYLES) if name.endswith('.csl'))[::step]
    failed = {}
    for name in names:
        for verb in ('cite', 'bibliography'):
            done = ran(program, verb, f'{STYLES}/{name}', citations)
            if done.returncode:
                failed[name] = f'status {done.returncode}: {done.stderr.splitlines()[-1:]}'
    print(f'{len(names)} styles, {len(failed)} of which fail')
    for name, why in failed.items():
        print(f'{name}: {why}')
    return 1 if failed else 0


# The table

def runs(numbers):
    """Numbers as text, with ranges."""
    parts = []
    for number in numbers:
        if parts and parts[-1][1] == number - 1:
            parts[-1][1] = number
        else:
            parts.append([number, number])
    return ', '.join(str(first) if first == last else f'{first}–{last}'
                     for first, last in parts) or 'none'


def path_of(name):
    return name if name.endswith('.csl') else f'{STYLES}/{name}.csl'


def alike(name, wanted, written, tells_texts):
    """The numbers of the texts that read as pandoc's."""
    if len(wanted) != len(written):
        sys.exit(f'compare.py: {name}: pandoc has {len(wanted)} texts, Gamhilon {len(written)}')
    for place, (one, other) in enumerate(zip(wanted, written)):
        if tells_texts and one != other:
            print(f'{name} {place + 1}\n    pandoc    {one}\n    Gamhilon  {other}')
    return [place + 1 for place, (one, other) in enumerate(zip(wanted, written)) if one == other]


def causes_of(told):
    """Why citations of a style differ, as a cell of the table."""
    return '; '.join(f'{cause}: {runs(numbers)}' for cause, numbers in told.items())


def unexplained(told, count, equal):
    """The citations that differ with no cause, and those that have one and don't differ."""
    explained = {number for numbers in told.values() for number in numbers}
    return sorted(explained ^ (set(range(1, count + 1)) - set(equal)))


def compare(program, name, citations, tells_texts):
    """The numbers of the citations that read as pandoc's."""
    path = path_of(name)
    return alike(name, by_pandoc(path, citations), by_gamhilon(program, path, citations),
                 tells_texts)


def compare_items(program, name, citations, tells_texts):
    """The numbers of the items that read as pandoc's, in the order of the bibliography."""
    path = path_of(name)
    return alike(name, items_by_pandoc(path, citations),
                 items_by_gamhilon(program, path, citations), tells_texts)


def table(what, results, all_styles, count):
    """The lines of the table of what is compared."""
    lines = [f'| Style | {what} | Why others differ |', '|---|---|---|']
    for name, equal in results.items():
        cells = [name, f'{len(equal)}: {runs(equal)}', causes_of(all_styles.get(name, {}))]
        lines.append(f'| {" | ".join(cells)} |')
    whole = sum(map(len, results.values()))
    return [*lines, f'| of {len(results) * count} | {whole} | |']


def undocumented(lines, citations):
    """The lines of the table, of the citations and of the causes that docs/STYLES.md lacks,
    wherever its lines are broken."""
    with open(f'{ROOT}/docs/STYLES.md', encoding='utf-8') as file:
        documented = ' '.join(file.read().split())
    wanted = [f'{place + 1}. {told["what"]}: `{markdown(told["cites"])}`'
              for place, told in enumerate(citations)]
    wanted += [f'- **{name}**: {cause}' for name, cause in read('causes.json').items()]
    return [line for line in lines + wanted if ' '.join(line.split()) not in documented]


def option(words, name):
    """The value of an option, which is taken out of the words; None where it is absent."""
    if name not in words:
        return None
    place = words.index(name)
    value = words[place + 1]
    del words[place:place + 2]
    return value


def main(words):
    program = option(words, '--program') or PROGRAM
    step = option(words, '--each')
    if not os.path.exists(program):
        sys.exit(f'compare.py: there is no program {program}: build it by rt run, or name it by '
                 '--program')
    all_styles, all_citations = read('styles.json'), read('citations.json')
    citations = [told['cites'] for told in all_citations]
    if step is not None:
        return try_each(program, int(step), citations)
    tells_texts = '--texts' in words
    named = [word for word in words if word != '--texts']
    names, works = named or list(all_styles), len(read('references.json'))
    kinds = [('Citations', compare, all_styles, len(citations), 'styles.json'),
             ('Items', compare_items, read('items.json'), works, 'items.json')]
    told, printed = [], []
    for what, compared, causes, count, file in kinds:
        results = {name: compared(program, name, citations, tells_texts) for name in names}
        lines = table(what, results, causes, count)
        print(*lines, '', sep='\n')
        printed += lines
        wrong = {name: unexplained(causes.get(name, {}), count, equal)
                 for name, equal in results.items()}
        told += [f'{name}: not as {file} says: {runs(numbers)}'
                 for name, numbers in wrong.items() if numbers]
    if not named:
        told += [f'docs/STYLES.md lacks: {line}' for line in undocumented(printed, all_citations)]
    print(*told, sep='\n', end='\n' if told else '', file=sys.stderr)
    return 1 if told else 0


if __name__ == '__main__':
    sys.exit(main(sys.argv[1:]))
