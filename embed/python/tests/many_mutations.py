"""many_mutations.py COUNT [--seed S] [--first N] [--case N]: pages, references and citations that
are changed by chance, by the filter and by `csl.render`.

    python many_mutations.py 25000 --seed 1

Each case ends in an answer or in an error of the package's own, takes at most two seconds of a
processor, and the process at most 1 GB. A case that does otherwise is told by its number, and
--case N runs that one alone, with its traceback. The last line is 'N passed, M failed', and the
exit status is 1 where a case failed. Needs the library; what reads .bib files and YAML, published
styles and pandoc are used where they are there.
"""
import argparse
import collections
import faulthandler
import importlib.util
import json
import os
import resource
import shutil
import subprocess
import sys
import tempfile
import threading
import time
from random import Random

HERE = os.path.dirname(os.path.abspath(__file__))
if __name__ == '__main__':
    sys.path.insert(0, os.path.normpath(f'{HERE}/../src'))

import changes  # noqa: E402
import known_page  # noqa: E402
import made_up_pages  # noqa: E402

import gamhilon  # noqa: E402
from gamhilon import csl, pandoc_filter, references, styles  # noqa: E402
from gamhilon._pandoc_metadata import FilterError  # noqa: E402

SECONDS, MEMORY = 2.0, 10 ** 9
OURS = (gamhilon.Refused, FilterError, csl.StyleMissing, csl.StyleRefused, csl.CitationRefused,
        csl.EntriesRefused, references.ReferencesError, references.ReaderMissing)
RECURSIONS = 20000  # (as the filter has them)
STACK, WATCH = 64 * 1024 * 1024, 60
READERS = {'CSL-JSON': None, 'BibLaTeX': None, 'YAML': 'yaml'}
NAMES = {'CSL-JSON': 'csl-json', 'BibLaTeX': 'biblatex', 'YAML': 'hayagriva'}


class Wrong(Exception):
    """What a case did that it may not."""


class Cases:
    """What is changed: a page of pandoc, references, citations; and in which styles they are
    written."""

    def __init__(self, folder):
        self.folder = folder
        self.works = known_page.read('works.json')
        self.texts = {form: self.text_of(file) for form, file in known_page.FORMS.items()
                      if READERS[form] is None or importlib.util.find_spec(READERS[form])}
        self.page = self.page_of_pandoc() if shutil.which('pandoc') else None
        published = [name for name in known_page.STYLES if name in csl.names()]
        self.styles = [*styles.names(), *published]
        self.citations = [[{'id': work['id'], 'locator': '4-6', 'label': 'chapter'},
                           {'id': 'harrow2019wind', 'prefix': 'see', 'suffix': ', <i>passim</i>'}]
                          for work in self.works]
        # (made_up_pages cites works of these names)
        known = [{**work, 'id': key} for work, key in zip(self.works, ('doe99', 'roe00', 'äh b'))]
        with open(f'{folder}/refs.json', 'w', encoding='utf-8') as file:
            json.dump([*known, *self.works], file)

    @staticmethod
    def text_of(file):
        with open(f'{known_page.FOLDER}/{file}', encoding='utf-8') as opened:
            return opened.read()

    @staticmethod
    def page_of_pandoc():
        words = ['pandoc', '-t', 'json', f'{known_page.FOLDER}/page.md']
        return json.loads(subprocess.run(words, capture_output=True, check=True).stdout)

    # The kinds of cases

    def made_up_page(self, random):
        return self.filtered(made_up_pages.page(random))

    def changed_page(self, random):
        """The page of 25 citations, of which one part of a few is another."""
        page = self.page or made_up_pages.page(random)
        meta = {'bibliography': made_up_pages.text('refs.json'),
                'csl': made_up_pages.text(random.choice(self.styles))}
        for name in random.sample(made_up_pages.FIELDS, random.choice([0, 0, 1, 3])):
            meta[name] = made_up_pages.meta(random)
        blocks = [block if random.random() < 0.7 else made_up_pages.block(random)
                  for block in page['blocks']]
        return self.filtered({**page, 'meta': meta, 'blocks': blocks})

    @staticmethod
    def filtered(page):
        """A page by the filter, in which no citation is left."""
        before = sys.getrecursionlimit()
        sys.setrecursionlimit(RECURSIONS)
        try:
            made = pandoc_filter.filtered(json.loads(json.dumps(page)), str)
            json.dumps(made)
        except (OSError, gamhilon.Refused) as error:
            # (the filter tells them with their words)
            raise FilterError(str(error)) from error
        except (csl.StyleMissing, csl.StyleRefused, csl.CitationRefused, csl.EntriesRefused,
                references.ReferencesError, references.ReaderMissing) as error:
            raise Wrong(f'{type(error).__name__}, of which the filter knows nothing') from error
        finally:
            sys.setrecursionlimit(before)
        if any(block.get('t') == 'Cite' for block in parts_of(made['blocks'])):
            raise Wrong('a citation is left')

    def changed_references(self, random):
        """The text of a file of references."""
        form = random.choice(list(self.texts))
        begin = random.choice([0, random.randrange(len(self.texts[form]))])
        text = changes.of_text(random, self.texts[form][begin:begin + 4000])
        read = references.loads(text, form=NAMES[form])
        self.rendered(random, read.items, [[{'id': item['id']}] for item in read.items])

    def changed_items(self, random):
        """Items of CSL-JSON."""
        items = changes.of_value(random, random.sample(self.works, random.randrange(1, 6)))
        if isinstance(items, str):
            # (a text alone would be the path of a file)
            items = [items]
        ids = [item['id'] for item in items if isinstance(item, dict) and 'id' in item] \
            if isinstance(items, list) else []
        self.rendered(random, items, [[{'id': key}] for key in ids])

    def changed_citations(self, random):
        citations = random.sample(self.citations, random.randrange(1, 6))
        self.rendered(random, self.works, changes.of_value(random, citations))

    def rendered(self, random, items, citations):
        """Citations in a style, each of which has a text."""
        made = csl.render(random.choice(self.styles), items, citations,
                          locale=random.choice([None, None, 'de', 'xx']))
        count = 0 if citations is None else len(citations)
        if len(made.citations) != count:
            raise Wrong(f'{len(made.citations)} citations of {count}')
        for warned in made.warnings:
            str(warned)
        for citation in made.answer.citations:
            for write in (gamhilon.to_html, gamhilon.to_markdown, gamhilon.to_latex):
                write(citation)
        gamhilon.bibliography_to_html(made.answer.bibliography)

    def case(self, seed, number):
        """Runs a case, and gives its kind and how it ended. Raises what is no error of ours, and
        Wrong."""
        random = Random(f'{seed} {number}')
        kinds = (self.made_up_page, self.changed_page, self.changed_references, self.changed_items,
                 self.changed_citations)
        kind = kinds[number % len(kinds)]
        began = time.process_time()
        try:
            kind(random)
            ended = 'answered'
        except gamhilon.OutOfMemory as error:
            raise Wrong('memory was refused') from error
        except OURS as error:
            str(error)
            ended = type(error).__name__
        seconds = time.process_time() - began
        if seconds > SECONDS:
            raise Wrong(f'it took {seconds:.1f} s')
        if memory() > MEMORY:
            raise Wrong(f'the process took {memory() / 1e6:.0f} MB')
        return kind.__name__, ended, seconds


def parts_of(value):
    """The objects in a part of pandoc's document."""
    left = [value]
    while left:
        part = left.pop()
        if isinstance(part, dict):
            yield part
        left.extend(part.values() if isinstance(part, dict) else
                    part if isinstance(part, list) else [])


def memory():
    """The most memory that this process had, in bytes."""
    return resource.getrusage(resource.RUSAGE_SELF).ru_maxrss * 1024


def run(count, seed, tell=print, first=0, watches=False):
    """Runs cases, tells how they end, and gives the numbers of those that fail. Where it watches,
    the process ends, with a traceback, where one takes a minute."""
    failed, ends, slowest = [], collections.Counter(), (0.0, None)
    with tempfile.TemporaryDirectory() as folder:
        before = os.getcwd()
        cases = Cases(folder)
        os.chdir(folder)
        try:
            for number in range(first, first + count):
                if watches:
                    faulthandler.dump_traceback_later(WATCH, exit=True)
                try:
                    kind, ended, seconds = cases.case(seed, number)
                    ends[kind, ended] += 1
                    slowest = max(slowest, (seconds, number))
                except Exception as error:
                    failed.append(number)
                    tell(f'case {number} of seed {seed}: {type(error).__name__}: {error}')
                if (number + 1) % 1000 == 0:
                    tell(f'{number + 1 - first} cases, {len(failed)} failed')
        finally:
            faulthandler.cancel_dump_traceback_later()
            os.chdir(before)
    for (kind, ended), times in sorted(ends.items()):
        tell(f'{kind}: {ended} {times}')
    tell(f'the slowest took {slowest[0]:.2f} s, case {slowest[1]}; '
         f'the most memory was {memory() / 1e6:.0f} MB')
    return failed


def main():
    words = argparse.ArgumentParser(description='Changes pages, references and citations.')
    words.add_argument('count', type=int, metavar='COUNT')
    words.add_argument('--seed', type=int, default=1)
    words.add_argument('--first', type=int, metavar='N', default=0, help='the first case (0)')
    words.add_argument('--case', type=int, metavar='N', help='the case N alone')
    said = words.parse_args()
    if said.case is not None:
        with tempfile.TemporaryDirectory() as folder:
            cases = Cases(folder)
            os.chdir(folder)
            try:
                print(*cases.case(said.seed, said.case))
            finally:
                os.chdir(HERE)
        OUTCOME.append(0)
        return
    failed = run(said.count, said.seed, first=said.first, watches=True)
    print(f'{said.count - len(failed)} passed, {len(failed)} failed')
    OUTCOME.append(1 if failed else 0)


OUTCOME = []
"""The exit status of `main`, which has a thread of its own for its stack; none where it broke
off."""

if __name__ == '__main__':
    threading.stack_size(STACK)
    worker = threading.Thread(target=main)
    worker.start()
    worker.join()
    sys.exit(OUTCOME[0] if OUTCOME else 1)
