"""The wrong bodies that have to be refused, and on which tree each was refused last.

An edit of CRATE/NAME is tests/edits/CRATE/NAME.edit or, where the gate tries it,
crates/CRATE/must-fail/NAME.edit: a line `file: PATH` in its crate, and pairs of lines `old: TEXT`,
which stands there once, and `new: TEXT`. The edits of tests/edits/proved are of crates/, are
allowed by all contracts, and tell by lines `shown: ..` which tests have to notice them (proved.py).

tried.txt has a line for each edit that was refused: CRATE/NAME and a checksum of the edit and of
what it was tried on, which is src/ and specs/ of its crate and of all crates below that one (of an
edit of proved: of the programs that show it)."""
import collections
import glob
import hashlib
import os

HERE = os.path.dirname(os.path.abspath(__file__))
ROOT = os.path.dirname(os.path.dirname(HERE))
PROVED = 'proved'
NAMED, TRIED = HERE + '/named.txt', HERE + '/tried.txt'
HEAD = '# Which edits were refused, and the checksum of the tree on which each was refused last. `./test edits` and `./test named` write it.\n'
# The pairs are of a file, the text that stands there once, and the text in its place.
Edit = collections.namedtuple('Edit', 'pairs shown')


def text_of(path):
    with open(path, encoding='utf-8') as file:
        return file.read()


def edits_in(pattern, crate_at):
    """The path of each edit, by CRATE/NAME."""
    paths = [it for it in sorted(glob.glob(pattern)) if not it.endswith('.md')]
    return {'%s/%s' % (it.split('/')[crate_at], os.path.basename(it).removesuffix('.edit')): it for it in paths}


def edits_of_gate():
    return edits_in(ROOT + '/crates/*/must-fail/*', -3)


def edits_here():
    return edits_in(HERE + '/*/*.edit', -2)


def crate_of(key):
    return key.split('/')[0]


def lines_of(path):
    """What stands before and behind the first colon of each line that is no comment."""
    rows = [it.split(':', 1) for it in text_of(path).split('\n') if it and not it.startswith('#')]
    return [(it[0], it[1].removeprefix(' ')) for it in rows if len(it) == 2]


def named():
    """The bodies that have to be refused on each tree that lands, each with its edits."""
    return {name: keys.split() for name, keys in lines_of(NAMED)}


def edit_of(path):
    """What an edit says, or why it says nothing."""
    pairs, shown, file, old = [], [], None, None
    for word, text in lines_of(path):
        if word == 'file':
            file = text.strip()
        elif word == 'shown':
            shown.append(text.split())
        elif word == 'old':
            old = text
        elif word == 'new':
            if file is None or old is None:
                raise ValueError("a 'new:' line stands before any 'file:' or 'old:' line")
            pairs.append((file, old, text))
            old = None
    if not pairs:
        raise ValueError("it has no 'old:' and 'new:' pair")
    return Edit(pairs, shown)


def edited(edit, folder):
    """The texts of the files that the edit changes, by their paths in the folder."""
    texts = {}
    for file, old, new in edit.pairs:
        if file not in texts:
            texts[file] = text_of('%s/%s' % (folder, file))
        if texts[file].count(old) != 1:
            raise ValueError("an 'old:' text is in %s %d times, and not once" % (file, texts[file].count(old)))
        texts[file] = texts[file].replace(old, new)
    return texts


def folder_of(key, root=ROOT):
    """The folder to which the paths of an edit lead."""
    return root + '/crates' if crate_of(key) == PROVED else '%s/crates/%s' % (root, crate_of(key))


def why_not_applied(key, path):
    """Why an edit can't be applied to the tree as it stands, or None."""
    try:
        edit = edit_of(path)
        edited(edit, folder_of(key))
    except (OSError, ValueError) as error:
        return '%s: %s' % (os.path.relpath(error.filename, ROOT), error.strerror) if isinstance(error, OSError) else str(error)
    if (crate_of(key) == PROVED) != bool(edit.shown):
        return "it has a 'shown:' line, or lacks one"
    return None


# What was tried


class Tree:
    """The checksums of the crates of a repository."""

    def __init__(self, root=ROOT):
        self.root, self.sums = root, {}
        rows = [it.split(':', 1) for it in text_of(root + '/crates.txt').split('\n') if it and not it.startswith('#')]
        self.below = {names.split()[0]: below.split() for names, below in rows}

    def own_sum(self, crate):
        if crate not in self.sums:
            total = hashlib.sha256()
            for part in ('src', 'specs'):
                folder = '%s/crates/%s/%s' % (self.root, crate, part)
                for path in sorted(os.path.join(at, it) for at, _, names in os.walk(folder) for it in names):
                    with open(path, 'rb') as file:
                        total.update(repr((os.path.relpath(path, self.root), file.read())).encode())
            self.sums[crate] = total.hexdigest()
        return self.sums[crate]

    def closed(self, crates):
        """The crates and all below them."""
        found, left = set(), list(crates)
        while left:
            crate = left.pop()
            if crate in self.below and crate not in found:
                found.add(crate)
                left += self.below[crate]
        return sorted(found)

    def sum_of(self, key, path):
        """The checksum of an edit and of what it is tried on."""
        tops = {it[0] for it in edit_of(path).shown} or {crate_of(key)}
        total = hashlib.sha256(text_of(path).encode())
        for crate in self.closed(tops):
            total.update(('%s %s\n' % (crate, self.own_sum(crate))).encode())
        return total.hexdigest()[:20]


def records():
    """The checksum of the tree on which each edit was refused last."""
    return dict(it.split() for it in text_of(TRIED).split('\n') if it and not it.startswith('#')) if os.path.exists(TRIED) else {}


def record(refused, others):
    """Notes the checksums of the edits that were refused, and forgets those of the others that were
    tried, or that are no more."""
    known = {**records(), **refused}
    every = {**edits_of_gate(), **edits_here()}
    kept = sorted(it for it in known if it in every and it not in others)
    with open(TRIED, 'w', encoding='utf-8') as file:
        file.write(HEAD + ''.join('%s %s\n' % (it, known[it]) for it in kept))
