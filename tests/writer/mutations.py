"""Styles, items and citations that are made of others by changes, drawn by a seed. The program
answers each, or refuses it with a status and a line of docs/WRITER.md."""
import copy
import json
import os
import random
import sys

HERE = os.path.dirname(os.path.abspath(__file__))
sys.path[1:1] = [os.path.join(os.path.dirname(HERE), name) for name in ('styles', 'references')]

from items import mutated_documents as mutated_items
from mutated import mutated_documents as mutated_styles

STATUSES = (0, 2, 4)
VALUES = [None, True, False, 0, 1, -1, 1.5, 10 ** 20, '', 'a', '12', '12-14', 'p. 12, § 3', 'ch. 1', '<i>x</i>', '“x”', [], {}, ['a'], '\u0301', '\0',
          'page', 'chapter', 'darwin', 'x' * 300]
KEYS = ['id', 'locator', 'label', 'prefix', 'suffix', 'suppress-author', 'author-only', 'hidden', 'note', 'other']


def changed(draw, citations):
    """Changes a citation, a cite, or a member of a cite."""
    kind = draw.randrange(8)
    if kind == 0 and citations:
        citations.append(copy.deepcopy(draw.choice(citations)))
    elif kind == 1:
        citations.insert(draw.randint(0, len(citations)), draw.choice(VALUES))
    lists = [it for it in citations if isinstance(it, list)]
    if not lists:
        return
    citation = draw.choice(lists)
    if kind == 2:
        citation.insert(draw.randint(0, len(citation)), copy.deepcopy(draw.choice(VALUES)))
    elif kind == 3 and citation:
        citation.append(copy.deepcopy(draw.choice(citation)))
    cites = [it for it in citation if isinstance(it, dict)]
    if cites:
        cite = draw.choice(cites)
        if draw.randrange(6) == 0:
            cite.pop(draw.choice(list(cite) or ['id']), None)
        else:
            cite[draw.choice(KEYS)] = copy.deepcopy(draw.choice(VALUES))


def mutated_citations(base, count, seed):
    draw = random.Random(seed)
    for _ in range(count):
        citations = copy.deepcopy(base)
        for _ in range(draw.randint(1, 4)):
            changed(draw, citations)
        yield json.dumps(citations, ensure_ascii=draw.randrange(2) == 0).encode(errors='surrogatepass')


def mutated_files(styles, references, citations, count, seed):
    """As many triples of files, in which one is changed: a style, items or citations, in turn."""
    draw = random.Random(seed)
    changed_ones = [mutated_styles(styles, count, seed), mutated_items([references], count, seed), mutated_citations(citations, count, seed)]
    usual = [json.dumps(references).encode(), json.dumps(citations).encode()]
    for number in range(count):
        files = [draw.choice(styles), *usual]
        files[number % 3] = next(changed_ones[number % 3])
        yield files


def is_told(status, out, error):
    """Whether an answer comes, with warnings at most, or one line says why none does, behind the
    warnings; or a line for each cite of an item that isn't there."""
    lines = error.splitlines()
    if status == 0:
        return all(': warning: ' in line for line in lines)
    causes = [line for line in lines if ': warning: ' not in line]
    return (status in STATUSES and not out and bool(causes) and lines[len(lines) - len(causes):] == causes
            and (len(causes) < 2 or all(': there is no item `' in line for line in causes)))
