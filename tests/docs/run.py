#!/usr/bin/env python3
"""run.py [PROGRAM]: holds README.md, CONTRIBUTING.md and docs/ to the tree, and runs what they
show.

Each file that a page names is there, and so is each crate, module, definition and function: every
word that stands in backquotes and looks like a name occurs in the code. docs/MAP.md is what map.py
makes. Each definition of docs/DEFINITIONS.md stands in specs/ of a crate that its section names.
docs/README.md and mkdocs.yml lead to each page, and mkdocs builds the site where it is installed.
With a built cite_run, each document of docs/TUTORIAL.md gives the output that stands below it. The
last line is 'N passed, M failed', and the exit status is 1 where one failed."""
import glob
import os
import re
import shutil
import subprocess
import sys
import tempfile

import map as map_page

ROOT = os.path.dirname(os.path.dirname(os.path.dirname(os.path.abspath(__file__))))
PAGES = ['README.md', 'CONTRIBUTING.md', 'CHANGELOG.md', 'embed/README.md', 'embed/python/README.md', *sorted(
    os.path.relpath(it, ROOT) for it in glob.glob(ROOT + '/docs/**/*.md', recursive=True))]
CODE = ('.rt', '.antt', '.edit', '.py', '.c', '.h', '.rs', '.json', '.toml', '.txt', '.pl', '.lua', '.csl')
# What stands for something else in a path.
STANDS_FOR = re.compile(r'[A-Z]{2,}|\bD\b|\bm\b|\.\.|\*')
MADE = ('out/', 'target/', 'build/')
# What docs/DIFFERENCES.md names of the original and of Rust.
OF_THE_ORIGINAL = {'src/csl/mod.rs', 'Cow', 'FnMut', 'citationberg::Formatting', 'is_english', 'renders_year_suffix_implicitly'}


def text_of(path):
    with open(f'{ROOT}/{path}', encoding='utf-8', errors='replace') as file:
        return file.read()


def tracked():
    """The files of the tree, without what is built."""
    found = subprocess.run(['git', 'ls-files', '--cached', '--others', '--exclude-standard'], cwd=ROOT, check=True,
                           stdout=subprocess.PIPE, text=True).stdout.splitlines()
    return [it for it in found if os.path.isfile(f'{ROOT}/{it}')]


def words_of_code(files):
    """Each name that the code has, and each name of a file or folder."""
    words = set()
    for path in files:
        words.update(re.split(r'[/.]', path))
        if path.endswith(CODE) and not path.startswith('docs/') or path in ('test', 'crates.txt'):
            words.update(re.findall(r'[^\W\d][\w-]*', text_of(path)))
    return words


def code_spans(page):
    """What stands in backquotes on a page, outside of its blocks."""
    prose = re.sub(r'^```.*?^```$', '', text_of(page), flags=re.MULTILINE | re.DOTALL)
    return re.findall(r'`([^`\n]+)`', prose)


def is_path(span):
    return re.fullmatch(r'[\w.@-]+(/[\w.@-]+)+/?', span) is not None and not STANDS_FOR.search(span)


def is_there(span, page):
    """Whether a path is there, from the root or from the page's folder."""
    folders = ('', 'docs/', f'{os.path.dirname(page)}/', 'tests/model/', 'embed/', 'embed/python/', 'embed/python/src/', 'crates/', 'crates/*/')
    return any(glob.glob(f'{ROOT}/{it}{span}') for it in folders) or any(it in span for it in MADE)


def lost_paths(page):
    """Paths in backquotes and links that lead to nothing."""
    links = [it.split('#')[0] for it in re.findall(r'\]\(([^)\s]+)\)', text_of(page)) if '://' not in it]
    spans = [it for it in code_spans(page) if is_path(it) and re.search(r'\.\w+$|/$', it)]
    return [it for it in [*links, *spans] if it and it not in OF_THE_ORIGINAL and not is_there(it, page)]


def names_of(span):
    """The names of the code that a span in backquotes consists of, where it looks like one."""
    if re.fullmatch(r'[a-z]+(_[a-z0-9]+)+|[A-Z][a-z]+([A-Z]\w*)*(\.\w+)*|\w+(::\w+)+', span) is None:
        return []
    return re.split(r'::|\.', span)


def lost_names(page, words):
    """Names in backquotes that the code doesn't have."""
    spans = [it for it in code_spans(page) if it not in OF_THE_ORIGINAL]
    return [it for it in spans if not all(name in words for name in names_of(it))]


def lost_definitions():
    """Definitions of docs/DEFINITIONS.md that stand in no crate that their section names."""
    lost = []
    for section in re.split(r'^## ', text_of('docs/DEFINITIONS.md'), flags=re.MULTILINE)[1:]:
        head, _, body = section.partition('\n')
        named = [it for it in re.findall(r'`(?:crates/)?(\w+)(?:/specs)?`', head) if os.path.isdir(f'{ROOT}/crates/{it}')]
        crates = named or os.listdir(ROOT + '/crates')
        for row in re.findall(r'^\|.*\|([^|]*)\|$', body, flags=re.MULTILINE):
            for name, part in re.findall(r'`([A-Z]\w+)(?:\.(\w+))?`', row):
                found = [it for crate in (crates, os.listdir(ROOT + '/crates')) for c in crate
                         for it in [f'crates/{c}/specs/{name}.antt'] if os.path.isfile(f'{ROOT}/{it}')]
                if found and part and not any(re.search(rf'\b{part}\b', text_of(it)) for it in found):
                    lost.append(f'{name}.{part}')
    return lost


def lost_of_map():
    """Modules that docs/MAP.md names and that aren't there, and lines of it that the script doesn't make."""
    named = [it for it in code_spans(map_page.PAGE) if re.fullmatch(r'\w+::\w+', it) and it.islower() and not it.startswith('c::')]
    lost = [it for it in named if not os.path.isfile('{}/crates/{}/src/{}.rt'.format(ROOT, *it.split('::')))]
    written, made = text_of(map_page.PAGE).splitlines(), map_page.page().splitlines()
    apart = [it for it in written if it not in made] + [it for it in made if it not in written]
    return lost + (apart or ['lines in another order'] * (written != made))


def lost_of_book():
    """Pages of docs/ that docs/README.md or the site doesn't lead to."""
    pages = [it[len('docs/'):] for it in PAGES if it.startswith('docs/') and it != 'docs/README.md']
    linked = re.findall(r'\]\(([^)]+\.md)\)', text_of('docs/README.md'))
    listed = re.findall(r'^ +- (\S+\.md)$', text_of('mkdocs.yml'), re.MULTILINE)
    return [f'{it} in {name}' for name, found in (('docs/README.md', linked), ('mkdocs.yml', listed))
            for it in pages if it not in found]


def wrong_site():
    """What mkdocs says of the pages, where it is installed and refuses them."""
    with tempfile.TemporaryDirectory() as folder:
        ran = subprocess.run(['mkdocs', 'build', '--strict', '--quiet', '--site-dir', folder], cwd=ROOT, stdout=subprocess.PIPE,
                             stderr=subprocess.STDOUT, text=True, check=False)
    return [ran.stdout] if ran.returncode else []


def shown_documents(page):
    """The documents of a page, each with the output that stands below it."""
    return re.findall(r'^```json\n(.*?)^```\n\n(?:[^`\n][^\n]*\n+)*^```text\n(.*?)^```$', text_of(page),
                      re.MULTILINE | re.DOTALL)


def wrong_outputs(program, page):
    """The documents of a page that print something else than it says."""
    wrong = []
    for number, (document, wanted) in enumerate(shown_documents(page), 1):
        ran = subprocess.run([program], input=document, stdout=subprocess.PIPE, stderr=subprocess.STDOUT, text=True, timeout=60,
                             check=False)
        if ran.stdout != wanted:
            wrong.append(f'document {number} prints\n{ran.stdout}and not\n{wanted}')
    return wrong


def checks(program):
    """Each check, as its name and what it found amiss."""
    words = words_of_code(tracked())
    for page in PAGES:
        yield f'{page}: paths', lost_paths(page)
        yield f'{page}: names', lost_names(page, words)
    yield 'docs/MAP.md: as tests/docs/map.py makes it', lost_of_map()
    yield 'docs/DEFINITIONS.md: definitions', lost_definitions()
    yield 'docs/README.md: pages', lost_of_book()
    if shutil.which('mkdocs'):
        yield 'mkdocs.yml: the site', wrong_site()
    if len(shown_documents('docs/TUTORIAL.md')) < 4:
        yield 'docs/TUTORIAL.md: documents', ['fewer than four']
    if program:
        yield 'docs/TUTORIAL.md: outputs', wrong_outputs(program, 'docs/TUTORIAL.md')


def main():
    passed = failed = 0
    for name, amiss in checks(sys.argv[1] if len(sys.argv) > 1 else None):
        passed, failed = passed + (not amiss), failed + bool(amiss)
        for it in sorted(set(amiss)):
            print(f'{name}: {it}')
    print(f'{passed} passed, {failed} failed')
    return 1 if failed else 0


if __name__ == '__main__':
    sys.exit(main())
