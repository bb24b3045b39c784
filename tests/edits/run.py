#!/usr/bin/env python3
"""run.py [CRATE..] [CRATE/EDIT..]: tries the edits of this folder, all or those of these crates
(`proved` stands for those that tests notice), and notes in tried.txt the tree on which each was
refused.
run.py --named: the same of the bodies of named.txt.
run.py --stale: tries those of named.txt of which tried.txt has another tree than this one, and
notes nothing.
run.py --applied: only looks whether each edit can be applied, which takes no prover. It doesn't
tell whether what comes of it compiles, or is refused: that is known of those of which tried.txt has
this tree, and it tells how many they are.
run.py --gate LOG: looks whether each edit of crates/*/must-fail was refused in the run of `rt ci`
whose output is LOG.

The tree is copied, with the edits that are asked for in place of those of the gate, and `rt ci`
tries them, the crates side by side: it takes over what an earlier run on this machine proved, and
goes on where one was stopped. (Where `rt ci` takes no names, they are tried over the libraries that
it left in this tree: built.py.) An edit passes where a goal of the crate refuses it: not where it
can't be applied or compiled, nor where a proof file only names what it took away, nor by a limit of
the prover, since none of these says anything of a contract. edits.py says what an edit is, and
proved.py how those are tried that all contracts allow.
The last line is 'N passed, M failed', and the exit status is 1 where one failed."""
import os
import re
import shutil
import subprocess
import sys
import tempfile

import built
import proved
from edits import PROVED, ROOT, Tree, crate_of, edits_here, edits_of_gate, named, record, records, why_not_applied

TOLD = re.compile(r'rt: must-fail (\w+)/([\w.-]+)\.edit: (.*)')
REFUSED = 'refused, as it must be'
# What rt says where the refusal says little of a contract.
SAYS_LITTLE = (REFUSED + ' (only because a proof file', REFUSED + ' (only by a limit')


def refused_by(line):
    """The edit that a line of rt says was refused by a goal, or None."""
    told = TOLD.match(line)
    if told and told[3].startswith(REFUSED) and not told[3].startswith(SAYS_LITTLE):
        return '%s/%s' % (told[1], told[2])
    return None


def gate(log):
    """Whether the gate's edits were all refused, as one test."""
    wanted = set(edits_of_gate())
    with open(log, encoding='utf-8', errors='replace') as lines:
        left = wanted - set(map(refused_by, lines))
    for key in sorted(left):
        print('crates/%s/must-fail/%s.edit: not refused by a goal' % tuple(key.split('/')))
    print('%d of the %d edits of the gate were refused by a goal' % (len(wanted) - len(left), len(wanted)))
    return (0, len(left)) if left else (1, 0)


def of_this_tree(wanted):
    """Those of the edits of which tried.txt has the tree as it stands."""
    tree, known = Tree(), records()
    return [key for key, path in wanted.items() if path and known.get(key) == tree.sum_of(key, path)]


def named_edits():
    """The paths of the edits of named.txt."""
    every = {**edits_of_gate(), **edits_here()}
    return {key: every.get(key) for keys in named().values() for key in keys}


def applied():
    """How many edits can be applied, and how many can't."""
    whys = {key: why_not_applied(key, path) for key, path in edits_here().items()}
    whys.update({key: 'named.txt names it, and it is not there' for key, path in named_edits().items() if not path})
    for key, why in whys.items():
        if why:
            print('%s: %s' % (key, why))
    failed = sum(why is not None for why in whys.values())
    if not failed:
        fresh = len(of_this_tree(edits_here()))
        print('%d edits can be applied; of %d of them it is known that they are refused on this tree' % (len(whys), fresh))
    return len(whys) - failed, failed


def copy_with_edits(to, wanted):
    """Copies the crates to the folder, with these edits in place of the gate's."""
    shutil.copytree(ROOT + '/crates', to + '/crates', ignore=shutil.ignore_patterns('out', 'must-fail'))
    for name in ('crates.txt', 'HANDLES'):
        shutil.copyfile('%s/%s' % (ROOT, name), '%s/%s' % (to, name))
    for key, path in wanted.items():
        folder = '%s/crates/%s/must-fail' % (to, crate_of(key))
        os.makedirs(folder, exist_ok=True)
        shutil.copy(path, folder)
    # (it is the top of a repository)
    os.mkdir(to + '/.git')


def lines_of_copy(wanted):
    """What `rt ci` says of these edits in a copy of the tree."""
    # (under CI rt takes no names, since that would be no gate: here it tries edits in a copy)
    environment = {name: value for name, value in os.environ.items() if name != 'CI'}
    with tempfile.TemporaryDirectory(prefix='edits-') as copy:
        copy_with_edits(copy, wanted)
        ran = subprocess.Popen(['rt', 'ci', *sorted({crate_of(it) for it in wanted})], cwd=copy, text=True, errors='replace', env=environment,
                               stdin=subprocess.DEVNULL, stdout=subprocess.PIPE, stderr=subprocess.STDOUT)
        yield from ran.stdout
        ran.wait()


def refused_by_prover(wanted):
    """Those of the edits that the prover refuses, with its words printed."""
    refused = set()
    for line in lines_of_copy(wanted) if built.takes_names() else built.lines_of_rt(wanted):
        print(line, end='', flush=True)
        refused.add(refused_by(line))
    return refused & set(wanted)


def tried(wanted):
    """Tries these edits, and gives the checksums of those that were refused, and which others there
    are."""
    tree = Tree()
    by_tests = {key: path for key, path in wanted.items() if crate_of(key) == PROVED}
    by_prover = {key: path for key, path in wanted.items() if key not in by_tests}
    if None in wanted.values():
        sys.exit('run.py: named.txt names edits that are not there')
    sums = {key: tree.sum_of(key, path) for key, path in wanted.items()}
    refused = set()
    if by_prover:
        refused |= refused_by_prover(by_prover)
    refused |= {key for key, path in by_tests.items() if proved.is_noticed(key, path)}
    left = set(wanted) - refused
    for key in sorted(left):
        print('%s: not refused by a goal, not noticed by a test, or not tried' % key)
    return {key: sums[key] for key in refused}, left


def noted(wanted):
    """Tries these edits, and notes which were refused."""
    refused, left = tried(wanted)
    record(refused, left)
    return len(refused), len(left)


def stale():
    """Tries those of the named bodies that were not refused on this tree."""
    wanted = named_edits()
    fresh = of_this_tree(wanted)
    refused, left = tried({key: path for key, path in wanted.items() if key not in fresh})
    print('%d of the %d edits of the named bodies had been refused on this tree' % (len(fresh), len(wanted)))
    if refused or left:
        print('note: ./test named tries the others once more, and notes this tree in tests/edits/tried.txt')
    return len(fresh) + len(refused), len(left)


def asked_for(words):
    """The edits of these crates, or of these names."""
    every = edits_here()
    lacking = set(words) - set(every) - set(map(crate_of, every))
    if lacking:
        sys.exit('run.py: there are no edits %s' % ', '.join(sorted(lacking)))
    return {key: path for key, path in every.items() if not words or {key, crate_of(key)} & set(words)}


def main(words):
    if words[:1] == ['--gate'] and len(words) == 2:
        passed, failed = gate(words[1])
    elif words == ['--applied']:
        passed, failed = applied()
    elif words == ['--named']:
        passed, failed = noted(named_edits())
    elif words == ['--stale']:
        passed, failed = stale()
    else:
        passed, failed = noted(asked_for(words))
    print('%d passed, %d failed' % (passed, failed))
    return 1 if failed else 0


if __name__ == '__main__':
    sys.exit(main(sys.argv[1:]))
