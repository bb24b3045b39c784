"""debian.py: the package for Debian and what is made of it, by dpkg-deb, of the files of a release.
One build makes one package, byte for byte."""
from __future__ import annotations

import gzip
import hashlib
import os
import platform
import re
import subprocess
import tempfile
from typing import Dict, List, Sequence

import release

ARCHITECTURES = {'x86_64': 'amd64'}
MAINTAINER = 'Gamhilon maintainers <maintainers@users.noreply.gamhilon.example>'
CONTROL = '''\
Package: gamhilon
Version: {version}
Architecture: {architecture}
Maintainer: {maintainer}
Installed-Size: {size}
{depends}Suggests: citation-style-language-locales, citation-style-language-styles
Section: text
Priority: optional
Description: citations and bibliographies in styles of CSL 1.0.2
 gamhilon writes citations and reference lists that always agree with each
 other, by style files of the Citation Style Language. It has four styles built
 in, and finds those of citation-style-language-styles by their names.
 .
 The package has the programs with a man page and completions for bash, zsh
 and fish, and the library in C with its header and styles.
 .
 Built of {note}.
'''
# ldconfig has the library found.
TRIGGERS = 'activate-noawait ldconfig\n'
COPYRIGHT = '''\
Format: https://www.debian.org/doc/packaging-manuals/copyright-format/1.0/
Upstream-Name: gamhilon
Comment:
{comment}

Files: *
Copyright: {holder}
License: Expat or Apache-2.0

Files: usr/share/gamhilon/styles/*
Copyright: {holder}
License: CC0-1.0

License: Expat
{mit}

License: Apache-2.0
 The text is /usr/share/common-licenses/Apache-2.0 on Debian.

License: CC0-1.0
 The text is /usr/share/common-licenses/CC0-1.0 on Debian.
'''
# Which package has the libraries that programs ask for.
PACKAGES = {'libc.so.6': 'libc6', 'libm.so.6': 'libc6', 'libdl.so.2': 'libc6',
            'libpthread.so.0': 'libc6', 'librt.so.1': 'libc6', 'ld-linux-x86-64.so.2': 'libc6',
            'libgcc_s.so.1': 'libgcc-s1'}
# Debian's zsh looks elsewhere for what packages bring.
MOVED = {'share/zsh/site-functions/': 'share/zsh/vendor-completions/'}


def make(version: str, compiler: Sequence[str], note: release.Note) -> str:
    """Writes the package into out/, and gives its name. Raises OSError where a program isn't
    built, or the package can't be."""
    if platform.machine() not in ARCHITECTURES:
        raise OSError(f'a package is for {", ".join(ARCHITECTURES)} alone')
    architecture = ARCHITECTURES[platform.machine()]
    name = f'gamhilon_{version}_{architecture}.deb'
    found = files(release.files(version, compiler, release.PROGRAMS))
    with tempfile.TemporaryDirectory(dir=release.HERE, prefix='.out-') as folder:
        for path, data in found.items():
            release.put(f'{folder}/{path}', data, release.mode(path[len('usr/'):]))
        for path, target in release.links(version).items():
            os.symlink(target, f'{folder}/usr/{path}')
        needs = dependencies([f'{folder}/{path}' for path in found if is_linked(path)],
                             release.soname(version))
        control = CONTROL.format(version=version, architecture=architecture, size=size_of(found),
                                 maintainer=MAINTAINER, depends=needs and f'Depends: {needs}\n',
                                 note=release.about(note))
        sums = ''.join(f'{hashlib.md5(data).hexdigest()}  {path}\n'
                       for path, data in sorted(found.items()))
        for part, text in (('control', control), ('md5sums', sums), ('triggers', TRIGGERS)):
            release.put(f'{folder}/DEBIAN/{part}', text.encode(), release.FILE_MODE)
        at_a_fixed_time(folder)
        pack(folder, f'{release.OUT}/{name}')
    return name


def files(found: Dict[str, bytes]) -> Dict[str, bytes]:
    """The files of the package by their paths, of those of a release."""
    packaged = {}
    for path, data in found.items():
        for before, now in MOVED.items():
            path = path.replace(before, now)
        if path.startswith('share/man/'):
            path, data = f'{path}.gz', gzip.compress(data, mtime=0)
        packaged[f'usr/{path}'] = data
    packaged['usr/share/doc/gamhilon/copyright'] = copyright_text().encode()
    return packaged


def copyright_text() -> str:
    """What the licences say, in the form of Debian."""
    comment = release.read(f'{release.ROOT}/LICENSE').decode().split('\n\n')[1]
    mit = release.read(f'{release.ROOT}/LICENSE-MIT').decode().split('\n\n')
    holder = mit[1].replace('Copyright (c) ', '')
    return COPYRIGHT.format(comment=field(comment), holder=holder, mit=field('\n\n'.join(mit[2:])))


def field(text: str) -> str:
    """The lines of a text, as a field of Debian's has them."""
    return '\n'.join(f' {line or "."}' for line in text.rstrip('\n').split('\n'))


def is_linked(path: str) -> bool:
    """Whether a file is a program or a shared object."""
    return path.startswith('usr/bin/') or '.so.' in path


def size_of(found: Dict[str, bytes]) -> int:
    """The size of all files, in KiB."""
    return sum(-(-len(data) // 1024) for data in found.values())


def dependencies(paths: List[str], soname: str) -> str:
    """The packages that have what some programs and shared objects ask for beside a library of
    their own: none where they are static. Raises OSError where no package is known to."""
    told = ''.join(subprocess.run(['objdump', '-p', path], env={**os.environ, 'LC_ALL': 'C'},
                                  capture_output=True, text=True).stdout for path in paths)
    needed = set(re.findall(r'^\s+NEEDED\s+(\S+)$', told, re.MULTILINE)) - {soname}
    unknown = sorted(needed - set(PACKAGES))
    if unknown:
        raise OSError(f'no package is known to have {", ".join(unknown)}')
    minor = max(map(int, re.findall(r'\bGLIBC_2\.(\d+)', told)), default=17)
    names = sorted({PACKAGES[name] for name in needed})
    return ', '.join(f'{name} (>= 2.{minor})' if name == 'libc6' else name for name in names)


def at_a_fixed_time(folder: str) -> None:
    """Sets the times and rights of all that is in a folder, and its own."""
    for place, _, names in os.walk(folder, topdown=False):
        for path in [*(f'{place}/{name}' for name in names), place]:
            if os.path.isdir(path):
                os.chmod(path, 0o755)
            os.utime(path, (release.TIME, release.TIME), follow_symlinks=False)


def pack(folder: str, path: str) -> None:
    """Has dpkg-deb make a package of a folder."""
    # (of two versions of xz the same package wouldn't come)
    words = ['dpkg-deb', '--root-owner-group', '-Zgzip', '--build', folder, path]
    environment = {**os.environ, 'LC_ALL': 'C', 'SOURCE_DATE_EPOCH': str(release.TIME)}
    done = subprocess.run(words, env=environment, capture_output=True, text=True)
    if done.returncode:
        raise OSError(f'dpkg-deb: {done.stderr.strip()}')
