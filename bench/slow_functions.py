#!/usr/bin/env python3
"""slow_functions.py CRATE [COUNT]: which functions a first `rt check --jobs 1` of a crate spent its
time on, and how much of it on the part of the borrow checker, which grows with what a function owns
at each place where it may leave.

It reads when each file of crates/CRATE/out/incremental was written: the time since the one before
is counted for the function that the file is about. So it tells something only of a check from
nothing, by one job, with nothing kept before it."""
import os
import sys

ROOT = os.path.dirname(os.path.dirname(os.path.abspath(__file__)))


def written(folder):
    """The files below a folder, each with when it was written, in that order."""
    found = []
    for at, _, names in os.walk(folder):
        found += [(os.stat(os.path.join(at, name)).st_mtime, name) for name in names]
    return sorted(found)


def function_of(name):
    """The function that a file is about: the parts behind its name are the prover's own, and begin
    with a capital letter."""
    parts = name.split('.')[:-1]
    while len(parts) > 1 and (parts[-1] == 'decls' or parts[-1][:1].isupper()):
        parts.pop()
    return '.'.join(parts) or name


def by_function(files):
    """The seconds for each function, and those for what it owns."""
    spent = {}
    for (before, _), (at, name) in zip(files, files[1:]):
        what = function_of(name)
        whole, owned = spent.get(what, (0, 0))
        spent[what] = whole + at - before, owned + (at - before if '.Lts' in name else 0)
    return spent


def main():
    if len(sys.argv) < 2:
        print(__doc__, file=sys.stderr)
        return 2
    files = written('%s/crates/%s/out/incremental' % (ROOT, sys.argv[1]))
    if not files:
        print('no check of %s has left anything: (cd crates/%s && rt check --jobs 1)' % (sys.argv[1], sys.argv[1]), file=sys.stderr)
        return 1
    spent = by_function(files)
    for what, (whole, owned) in sorted(spent.items(), key=lambda it: -it[1][0])[: int(sys.argv[2]) if len(sys.argv) > 2 else 20]:
        print('%7.1f s, of which %6.1f for what it owns: %s' % (whole, owned, what))
    print('%7.1f s in all' % sum(whole for whole, _ in spent.values()))
    return 0


if __name__ == '__main__':
    sys.exit(main())
