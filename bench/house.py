#!/usr/bin/env python3
"""house.py [-v]: prints how the crates read, in figures: how many `requires` above driver_writers are
about rings of macros and about the places of cites, how many clauses and definitions are wider than
100 columns, how many functions are longer than 40 lines, their contracts included, how many lines
the proofs have, by crate, how many public names and lines of pages have a word that
docs/GLOSSARY.md doesn't want, and how many lines of pages, comments and messages have a phrase that
CONTRIBUTING.md doesn't want. With -v each of these places is listed."""
import glob
import os
import re
import sys

ROOT = os.path.dirname(os.path.dirname(os.path.abspath(__file__)))
WIDTH, LENGTH = 100, 40
RINGS = re.compile(r'NoRing')
PLACES = re.compile(
    r'IsPlace\b|IsPlaced\b|ArePlaced\b|HasShapeOf\b|AreCites\w*|IsCitedBy\b|\bplaces\b|\bplace\b')
BRACKETS = {'{': 1, '}': -1, '(': 1, ')': -1}


def dependencies():
    """For each crate those of the repository that it names."""
    found = {}
    with open(ROOT + '/crates.txt') as file:
        for line in file:
            line = line.split('#')[0].strip()
            if line:
                name, below = line.split(':')
                found[name.split()[0]] = below.split()
    return {crate: [name for name in below if name in found] for crate, below in found.items()}


def above(crate, below):
    """The crates that stand on this one, also indirectly."""
    found = {other for other in below if crate in below[other]}
    while True:
        more = {other for other in below if found & {*below[other]}} | found
        if more == found:
            return found
        found = more


def files(crate, part, ending):
    for at, _, names in sorted(os.walk('%s/crates/%s/%s' % (ROOT, crate, part))):
        for name in sorted(names):
            if name.endswith(ending):
                yield os.path.join(at, name)


def lines_of(path):
    with open(path) as file:
        return file.read().splitlines()


def clauses(path):
    """Each clause of a file: its line, and its text in lines."""
    lines = lines_of(path)
    for at, line in enumerate(lines):
        if re.match(r'\s*(requires|ensures)\b', line):
            end, depth = at, 0
            while True:
                depth += sum(BRACKETS.get(letter, 0)
                             for letter in re.sub(r'"[^"]*"', '', lines[end]))
                if depth <= 0:
                    break
                end += 1
            yield at + 1, lines[at:end + 1]


def functions(path):
    """Each function of a file: its line, its name, and how many lines it has."""
    lines = lines_of(path)
    for at, line in enumerate(lines):
        found = re.match(r'(\s*)(?:pub(?:\(crate\))? )?fn (\w+)', line)
        if found:
            yield at + 1, found.group(2), length(lines, at, found.group(1))


def length(lines, at, indent):
    """How many lines the function has that begins at a line. A semicolon ends one without a body,
    as a trait may have it."""
    depth, has_body = 0, False
    for end in range(at, len(lines)):
        line = lines[end]
        depth += sum(BRACKETS.get(letter, 0) for letter in line)
        has_body |= line.startswith(indent) and line[len(indent)] != ' ' and line.endswith('{')
        if line == indent + '}' or not has_body and depth == 0 and line.endswith((';', '{}')):
            return end - at + 1
    return len(lines) - at


def unwanted_words():
    """The words that docs/GLOSSARY.md lists as not to be used, by what stands in their place."""
    whole = '\n'.join(lines_of(ROOT + '/docs/GLOSSARY.md'))
    section = whole.partition('## Words not to be used')[2]
    for words, instead in re.findall(r'^\| (\w[^|]*) \| ([^|]+) \|$', section, re.MULTILINE)[1:]:
        yield words.split(', '), instead


def names_that_stay():
    """The names of the original, which may have any word."""
    whole = '\n'.join(lines_of(ROOT + '/docs/GLOSSARY.md'))
    told = whole.partition('Names of the original stay:')[2].partition('\n\n')[0]
    return {*re.findall(r'`(\w+)`', told)}


def words_of(name):
    """The words of a name, in lower case with underscores around each: `_ring_place_`."""
    return '_%s_' % re.sub(r'(?<=[a-z0-9])(?=[A-Z])', '_', name).lower()


def public_names(crates):
    """Each public name of the crates, of the header and of the Python package, and its place."""
    item = r'\s*pub (?:const |fn |struct |enum |trait |type |mod )?(\w+)'
    sources = [(item, path) for crate in crates if not crate.startswith('test_')
               for path in files(crate, 'src', '.rt')]
    sources += [(r'\s*(?:def|class) ([A-Za-z]\w*)', path) for path in sorted(
        glob.glob(ROOT + '/embed/python/**/*.py', recursive=True)) if '/tests/' not in path]
    sources.append((r'.*\b(gamhilon_\w+)\(', ROOT + '/embed/gamhilon.h'))
    for pattern, path in sources:
        for at, line in enumerate(lines_of(path), 1):
            found = re.match(pattern, line)
            if found:
                yield found.group(1), (path, at)


def pages():
    """Each line of the pages but those of the glossary and of the map, and its place."""
    names = ['README.md', 'CONTRIBUTING.md', 'embed/README.md', 'embed/python/README.md']
    paths = ['%s/%s' % (ROOT, name) for name in names] + sorted(glob.glob(ROOT + '/docs/*.md'))
    for path in paths:
        for at, line in enumerate(lines_of(path), 1):
            if not path.endswith(('/GLOSSARY.md', '/MAP.md')):
                yield line, (path, at)


def strays(crates):
    """For each row of the words that are not to be used: the words, what stands in their place,
    and where names and pages have them."""
    stay = names_that_stay()
    names = [(name, place) for name, place in public_names(crates) if name not in stay]
    of_stay = re.compile(r'`(?:%s)`' % '|'.join(sorted(stay)))
    lines = [(of_stay.sub('', line), place) for line, place in pages()]
    for words, instead in unwanted_words():
        of_names = ['_%s_' % word for word in words if ' ' not in word]
        of_pages = [re.compile(r'\b%s\b' % word, re.IGNORECASE)
                    for word in words if '_' not in word]
        found = [place for name, place in names if any(word in words_of(name) for word in of_names)]
        found += [place for line, place in lines if any(word.search(line) for word in of_pages)]
        yield words, instead, found


def unwanted_phrases():
    """The phrases that CONTRIBUTING.md lists as not to be written, by what stands in their place."""
    section = '\n'.join(lines_of(ROOT + '/CONTRIBUTING.md')).partition('## English')[2].partition('\n## ')[0]
    for phrases, instead in re.findall(r'^\| (\w[^|]*) \| ([^|]+) \|$', section, re.MULTILINE)[1:]:
        yield phrases.split(', '), instead


def prose_of_pages():
    """Each line of the pages that isn't inside a block of code, without what stands in backquotes."""
    is_code = False
    for line, place in pages():
        is_code ^= line.startswith('```')
        if not is_code and not place[0].endswith('CONTRIBUTING.md') and not line.startswith('    '):
            yield re.sub(r'`[^`]*`', '', line), place


def prose_of_code(crates, pattern):
    """What a pattern finds on each line of the code of the crates, and its place."""
    for crate in crates:
        for path in files(crate, 'src', '.rt'):
            for at, line in enumerate(lines_of(path), 1):
                found = re.search(pattern, line)
                if found:
                    yield re.sub(r'`[^`]*`', '', found.group(1)), (path, at)


def stray_phrases(crates):
    """For each phrase that is not to be written: the phrases, what stands in their place, and where
    pages, comments and messages have them."""
    proses = [('pages', [*prose_of_pages()]), ('comments', [*prose_of_code(crates, r'//[/!]?(.*)')]),
              ('messages', [*prose_of_code(crates, r'^[^/]*?"([^"]* [^"]* [^"]*)"')])]
    for phrases, instead in unwanted_phrases():
        wanted = re.compile(r'\b(?:%s)\b' % '|'.join(phrases), re.IGNORECASE)
        for name, lines in proses:
            yield phrases, name, instead, [place for line, place in lines if wanted.search(line)]


def report(name, places, is_told):
    print('%6d %s' % (len(places), name))
    if is_told:
        for path, line in places:
            print('       %s:%d' % (os.path.relpath(path, ROOT), line))


def main():
    is_told = sys.argv[1:] == ['-v']
    if sys.argv[1:] not in ([], ['-v']):
        print(__doc__, file=sys.stderr)
        return 2
    below = dependencies()
    higher = above('driver_writers', below) - {'csl_writing'}
    rings, places, wide, long_functions, definitions, proofs = [], [], [], [], [], {}
    for crate in below:
        for path in files(crate, 'src', '.rt'):
            for line, text in clauses(path):
                if any(len(one) > WIDTH for one in text):
                    wide.append((path, line))
                is_required = text[0].lstrip().startswith('requires')
                if crate in higher and is_required and RINGS.search(' '.join(text)):
                    rings.append((path, line))
                elif crate in higher and is_required and PLACES.search(' '.join(text)):
                    places.append((path, line))
            long_functions += [(path, line) for line, _, count in functions(path) if count > LENGTH]
        for path in files(crate, 'specs', '.antt'):
            wide_lines = enumerate(lines_of(path), 1)
            definitions += [(path, at) for at, text in wide_lines
                            if len(text) > WIDTH and not text.startswith(('use ', 'pub use '))]
        proofs[crate] = sum(len(lines_of(path)) for path in files(crate, 'proofs', '.antt'))
    report('requires on rings of macros, above driver_writers', rings, is_told)
    report('requires on places of cites, above driver_writers', places, is_told)
    report('clauses wider than %d columns' % WIDTH, wide, is_told)
    report('lines of definitions wider than %d columns' % WIDTH, definitions, is_told)
    report('functions longer than %d lines' % LENGTH, long_functions, is_told)
    print('%6d lines of proofs' % sum(proofs.values()))
    for crate, count in sorted(proofs.items(), key=lambda pair: -pair[1]):
        if count:
            print('       %6d %s' % (count, crate))
    for words, instead, found in strays(below):
        report('times %s, for %s' % (', '.join(words), instead), found, is_told)
    for phrases, name, instead, found in stray_phrases(below):
        report('lines of %s with %s, for %s' % (name, ', '.join(phrases), instead), found, is_told)
    return 0


if __name__ == '__main__':
    sys.exit(main())
