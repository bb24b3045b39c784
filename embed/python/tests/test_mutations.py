"""Whatever pages, references and citations say ends in an answer or in an error of the package's
own (many_mutations.py, which tries more of them)."""
import os
import subprocess
import sys

import many_mutations
from conftest import SOURCE


def test_whatever_is_changed_ends_in_an_answer_or_in_an_error_of_ours(cites):
    words = [sys.executable, many_mutations.__file__, '250', '--seed', '62']
    done = subprocess.run(words, env={**os.environ, 'PYTHONPATH': SOURCE}, capture_output=True,
                          text=True, timeout=300)
    said = done.stdout.splitlines()
    assert (said[-1:], done.returncode) == (['250 passed, 0 failed'], 0), (said, done.stderr)
    kinds = [line.split(':')[0] for line in said if ': answered' in line]
    assert kinds == ['changed_citations', 'changed_items', 'changed_page', 'changed_references',
                     'made_up_page']


def test_a_case_that_does_otherwise_is_told(cites, monkeypatch):
    monkeypatch.setattr(many_mutations, 'SECONDS', -1.0)
    said = []
    assert many_mutations.run(2, 62, said.append) == [0, 1]
    assert said[0].startswith('case 0 of seed 62: Wrong: it took ')
