"""How edits are tried where `rt ci` takes no names of crates (rattle-kit-13b): by the functions of
that rt, over the libraries that a whole `rt ci` left in crates/*/out of this tree."""
import collections
import importlib.machinery
import importlib.util
import os
import shutil
import subprocess
import sys
from concurrent.futures import ThreadPoolExecutor

from edits import ROOT, crate_of

# A check takes 1 to 4 GB.
AT_ONCE = 3


def takes_names():
    """Whether `rt ci` takes the names of crates."""
    told = subprocess.run(['rt', 'version'], stdin=subprocess.DEVNULL, stdout=subprocess.PIPE, text=True)
    return not told.stdout.startswith('rattle-kit-13b ')


def rt_as_module():
    """The toolchain's command rt, set up as its `ci` sets itself up."""
    path = os.path.realpath(shutil.which('rt'))
    loader = importlib.machinery.SourceFileLoader('rt', path)
    made = importlib.util.module_from_spec(importlib.util.spec_from_loader('rt', loader))
    loader.exec_module(made)
    made.rtlib.Crate = made.Crate
    made.Crate.cuts_libraries = True
    made.Crate.allowed = made.handles_of(ROOT)
    made.rtlib.guarded()
    return made


def lines_of_crate(rt, crate, paths):
    """What rt says of each of these edits of a crate."""
    lacking = [it.name for it in crate.below() if not os.path.isdir(it.rlib)]
    if lacking:
        return ['%s: its library %s is not built: run rt ci' % (crate.name, lacking[0])]
    return [text for _, text in rt.must_fail_all(crate, paths, ['--jobs', '1'])]


def lines_of_rt(wanted):
    """What rt says of each of these edits, by their paths, the crates side by side."""
    sys.dont_write_bytecode = True
    rt, by_crate = rt_as_module(), collections.defaultdict(list)
    for key, path in wanted.items():
        by_crate[crate_of(key)].append(path)
    crates = [it for it in rt.rtlib.crates_below(ROOT) if it.name in by_crate]
    with ThreadPoolExecutor(AT_ONCE) as pool:
        for lines in pool.map(lambda it: lines_of_crate(rt, it, by_crate[it.name]), crates):
            yield from ('rt: %s\n' % it for it in lines)
