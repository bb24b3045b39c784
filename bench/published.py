#!/usr/bin/env python3
"""published.py [--instructions] PROGRAM [COUNT..]: citations in published styles by the program
gamhilon, and by pandoc --citeproc.

PROGRAM is crates/gamhilon/out/gamhilon. For each of three styles and each count of citations (1600
and 6400 where none is given), prints the processor time and the memory of the fastest of five runs
of each that writes all citations as text, and of each that writes the bibliography too; and how
much longer the program takes for more citations. With --instructions it prints the millions of
instructions that the program executes, without pandoc: machines differ less in these.
There are half as many works as citations, of families that share authors and years, so that cites
have to be disambiguated; each fourth citation has two cites, and each third a locator. Needs pandoc
(valgrind with --instructions) and Debian's citation-style-language-styles.
"""
import json
import os
import re
import subprocess
import sys
import tempfile

STYLES = ('apa', 'ieee', 'chicago-fullnote-bibliography')
FOLDER = '/usr/share/citation-style-language/styles'
RUNS = 5
FAMILIES = ('Adams', 'Brown', 'Costa', 'Doe', 'Evans', 'Fischer', 'Garcia', 'Hansen', 'Ito', 'Jones')
GIVEN = ('Anna', 'Ben', 'Clara', 'David', 'Emma', 'Felix', 'Grace', 'Hugo')


def person(number):
    return {'family': f'{FAMILIES[number % 10]}{number // 80 % 40 or ""}', 'given': GIVEN[number % 8]}


def work(number):
    """An article; each fifth one shares its persons and its year with the one before."""
    like = number - 1 if number % 5 == 4 else number
    return {
        'id': f'w{number}', 'type': 'article-journal', 'title': f'On the order of things, part {number}',
        'container-title': 'Journal of Order', 'volume': str(number % 40 + 1), 'page': f'{number}-{number + 12}',
        'author': [person(like * 7 + place) for place in range(like % 4 + 1)],
        'issued': {'date-parts': [[1950 + like % 70]]},
    }


def citation(number, works):
    cites = [{'id': f'w{number * 3 % works}'}]
    if number % 4 == 0:
        cites.append({'id': f'w{number * 5 % works}'})
    if number % 3 == 0:
        cites[0]['locator'] = str(number % 90 + 1)
    return cites


def markdown(cites):
    return '[' + '; '.join(f'@{it["id"]}' + (f', p. {it["locator"]}' if 'locator' in it else '') for it in cites) + ']'


def measured(words, folder):
    """The seconds of a processor and the bytes of memory that a command takes, where it is
    fastest."""
    return min(measured_once(words, folder) for _ in range(RUNS))


def measured_once(words, folder):
    """The same of one run."""
    with open(os.devnull, 'w') as nothing:
        process = subprocess.Popen(words, stdout=nothing, cwd=folder)
        _, status, usage = os.wait4(process.pid, 0)
    if status:
        sys.exit(f'published.py: {" ".join(words)} ended with status {status}')
    return usage.ru_utime + usage.ru_stime, usage.ru_maxrss * 1024


def write(folder, count):
    """References and citations of this count, as both read them."""
    works = count // 2
    citations = [citation(it, works) for it in range(count)]
    with open(f'{folder}/references.json', 'w', encoding='utf-8') as file:
        json.dump([work(it) for it in range(works)], file)
    with open(f'{folder}/citations.json', 'w', encoding='utf-8') as file:
        json.dump(citations, file)
    with open(f'{folder}/page.md', 'w', encoding='utf-8') as file:
        file.write('\n\n'.join(map(markdown, citations)))


def instructions(words, folder):
    """The instructions that a command executes."""
    command = ['valgrind', '--tool=callgrind', '--callgrind-out-file=/dev/null', *words]
    done = subprocess.run(command, cwd=folder, stdout=subprocess.DEVNULL, stderr=subprocess.PIPE, text=True)
    if done.returncode:
        sys.exit(f'published.py: {" ".join(words)} ended with status {done.returncode}')
    return int(re.search(r'Collected : (\d+)', done.stderr)[1])


def by_program(program, style, has_list):
    """The command of the program."""
    both = ['--with-bibliography'] if has_list else []
    return [program, 'cite', *both, '--style', style, 'references.json', 'citations.json']


def by_pandoc(style, has_list):
    """The command of pandoc."""
    alone = [] if has_list else ['-M', 'suppress-bibliography=true']
    return ['pandoc', '--citeproc', '--csl', style, '--bibliography', 'references.json', '-t', 'plain', *alone, 'page.md']


def times(program, style, has_list, folder, before):
    """The cells of the times and of the memory of both, and the time of the program."""
    ours = measured(by_program(program, style, has_list), folder)
    theirs = measured(by_pandoc(style, has_list), folder)
    growth = f' ({ours[0] / before:.1f} times)' if before else ''
    return [f'{ours[0]:.2f} s{growth}', f'{theirs[0]:.2f} s', f'{theirs[0] / ours[0]:.1f}',
            f'{ours[1] / 1e6:.0f} MB', f'{theirs[1] / 1e6:.0f} MB', f'{theirs[1] / ours[1]:.1f}'], ours[0]


def counts_of(program, style, has_list, folder, before):
    """The cell of the instructions of the program, and these."""
    ours = instructions(by_program(program, style, has_list), folder)
    growth = f' ({ours / before:.2f} times)' if before else ''
    return [f'{ours / 1e6:.0f} million{growth}'], ours


def rows(program, counts, measure):
    """Prints a row for each style, for citations alone and with the bibliography, and for each
    count."""
    for name in STYLES:
        for has_list in (False, True):
            before = None
            for count in counts:
                with tempfile.TemporaryDirectory() as folder:
                    write(folder, count)
                    cells, before = measure(program, f'{FOLDER}/{name}.csl', has_list, folder, before)
                cells = [name, 'both' if has_list else 'citations', str(count), *cells]
                print(f'| {" | ".join(cells)} |', flush=True)


def main(words):
    counts_instructions = words[:1] == ['--instructions']
    program, *counts = words[1:] if counts_instructions else words
    measure = counts_of if counts_instructions else times
    heads = ['gamhilon'] if counts_instructions else [
        'gamhilon', 'pandoc', 'its time, times ours', 'gamhilon', 'pandoc', 'its memory, times ours']
    heads = ['Style', 'What', 'Citations', *heads]
    print(f'| {" | ".join(heads)} |')
    print('|' + '---|' * len(heads))
    rows(os.path.abspath(program), [int(it) for it in counts] or [1600, 6400], measure)


if __name__ == '__main__':
    if not sys.argv[1:] or sys.argv[1:] == ['--instructions']:
        sys.exit(__doc__)
    main(sys.argv[1:])
