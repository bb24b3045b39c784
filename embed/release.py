"""release.py: the archive of a release, of what build.py has built: the programs with a man page
and completions, the library, the header, the files for pkg-config and CMake, styles, a locale file,
the licences, and a list of checksums, which names the commit and the toolchain that proved it. The
same files can be installed below a folder, or be a package for Debian (debian.py)."""
from __future__ import annotations

import gzip
import hashlib
import io
import os
import platform
import re
import subprocess
import sys
import tarfile
from typing import Dict, List, Mapping, Optional, Sequence

HERE = os.path.dirname(os.path.abspath(__file__))
ROOT = os.path.dirname(HERE)
OUT = f'{HERE}/out'
PROGRAMS = ('cite_run', 'gamhilon')
CALLERS = {'gamhilon-print': 'print.c', 'gamhilon-cite': 'cite.c'}
STYLES = f'{ROOT}/examples/styles'
WORDS = f'{ROOT}/crates/style_english/src/words.rt'
# What comes with the program `gamhilon`, made by man.py.
PAGES = {'share/man/man1/gamhilon.1': 'man/gamhilon.1',
         'share/bash-completion/completions/gamhilon': 'completions/gamhilon.bash',
         'share/zsh/site-functions/_gamhilon': 'completions/_gamhilon',
         'share/fish/vendor_completions.d/gamhilon.fish': 'completions/gamhilon.fish'}
LICENSES = ('LICENSE', 'LICENSE-MIT', 'LICENSE-APACHE')
SUMS, RELEASED = 'SHA256SUMS', ('.tar.gz', '.whl', '.deb')
TIME = 1767225600  # the first of January 2026, so that what is built once makes one archive
LIBRARY, PROGRAM_MODE, FILE_MODE = 'libgamhilon', 0o755, 0o644
# The commit and the toolchain, by these names, where they are known.
Note = Mapping[str, Optional[str]]


def read(path: str) -> bytes:
    with open(path, 'rb') as file:
        return file.read()


def program(name: str) -> str:
    """Where the program of a crate is built."""
    return f'{ROOT}/crates/{name}/out/{name}'


def missing_programs() -> List[str]:
    """The programs that aren't built."""
    return [name for name in PROGRAMS if not os.path.exists(program(name))]


def filled(name: str, version: str) -> bytes:
    """A template of c/, with the version."""
    return read(f'{HERE}/c/{name}.in').replace(b'@VERSION@', version.encode())


def pkg_config(version: str) -> bytes:
    """The file for pkg-config, which stands in lib/pkgconfig."""
    text = filled('gamhilon.pc', version).decode()
    for field, folder in (('libdir', '..'), ('includedir', '../../include')):
        assert f'{field}=${{pcfiledir}}\n' in text
        text = text.replace(f'{field}=${{pcfiledir}}\n', f'{field}=${{pcfiledir}}/{folder}\n')
    return text.encode()


def compiled_caller(compiler: Sequence[str], source: str) -> bytes:
    """A program of c/, linked with the library."""
    path = f'{OUT}/{source}.part'
    done = subprocess.run([*compiler, '-O2', f'-I{HERE}', '-o', path, f'{HERE}/c/{source}',
                           f'{OUT}/{LIBRARY}.a'])
    if done.returncode:
        sys.exit(f'release.py: {compiler[0]} ended with status {done.returncode}')
    made = read(path)
    os.remove(path)
    return made


def english_locale() -> bytes:
    """The locale file of American English, whose words the library has built in."""
    found = re.search(rb'r#"(.*?)"#', read(WORDS), re.DOTALL)
    assert found is not None
    return found.group(1)


def shared_files() -> Dict[str, bytes]:
    """Styles and the locale file, by their paths."""
    found = {'share/gamhilon/locales/locales-en-US.xml': english_locale()}
    for name in sorted(os.listdir(STYLES)):
        if name.endswith('.csl'):
            found[f'share/gamhilon/styles/{name}'] = read(f'{STYLES}/{name}')
    return found


def files(version: str, compiler: Sequence[str], programs: Sequence[str]) -> Dict[str, bytes]:
    """The files of the archive, by their paths in it, but for the links and the checksums. Raises
    OSError where a program isn't built."""
    found = {f'bin/{name}': read(program(name)) for name in programs}
    found.update({f'bin/{name}': compiled_caller(compiler, source)
                  for name, source in CALLERS.items()})
    if 'gamhilon' in programs:
        found.update({path: read(f'{HERE}/{name}') for path, name in PAGES.items()})
    found.update({'include/gamhilon.h': read(f'{OUT}/gamhilon.h'),
                  'lib/pkgconfig/gamhilon.pc': pkg_config(version), **shared_files()})
    for name in (f'{LIBRARY}.a', soname(version)):
        found[f'lib/{name}'] = read(f'{OUT}/{name}')
    for name in ('gamhilon-config.cmake', 'gamhilon-config-version.cmake'):
        found[f'lib/cmake/gamhilon/{name}'] = filled(name, version)
    return found


def links(version: str) -> Dict[str, str]:
    """The links of the archive, with what they lead to."""
    return {f'lib/{LIBRARY}.so': soname(version)}


def soname(version: str) -> str:
    """The name of the shared object, which stays as long as the calls do."""
    return f'{LIBRARY}.so.{version.split(".")[0]}'


def mode(path: str) -> int:
    """Who may do what with a file."""
    return PROGRAM_MODE if path.startswith('bin/') else FILE_MODE


def about(note: Note) -> str:
    """The commit and the toolchain, in words."""
    return '; '.join(f'{name} {said or "unknown"}' for name, said in note.items())


def checksums(found: Mapping[str, bytes], version: str, note: Note) -> bytes:
    """The list of checksums, as `sha256sum --check` reads it."""
    lines = [f'# gamhilon {version}; {about(note)}\n']
    lines += [f'{hashlib.sha256(data).hexdigest()}  {path}\n'
              for path, data in sorted(found.items())]
    return ''.join(lines).encode()


def entry_of(path: str, rights: int = FILE_MODE) -> tarfile.TarInfo:
    """What an archive says of a file, of nobody and at a fixed time."""
    entry = tarfile.TarInfo(path)
    entry.mode, entry.mtime = rights, TIME
    return entry


def packed(stem: str, found: Mapping[str, bytes], linked: Mapping[str, str]) -> bytes:
    """The archive of these files and links, in one folder."""
    tar = io.BytesIO()
    with tarfile.open(fileobj=tar, mode='w', format=tarfile.GNU_FORMAT) as archive:
        for path, data in sorted(found.items()):
            entry = entry_of(f'{stem}/{path}', mode(path))
            entry.size = len(data)
            archive.addfile(entry, io.BytesIO(data))
        for path, target in linked.items():
            entry = entry_of(f'{stem}/{path}', 0o777)
            entry.type, entry.linkname = tarfile.SYMTYPE, target
            archive.addfile(entry)
    return gzip.compress(tar.getvalue(), mtime=0)


def make(version: str, compiler: Sequence[str], note: Note) -> str:
    """Writes the archive into out/, and gives its name. Raises OSError where a program isn't
    built."""
    stem = f'gamhilon-{version}-linux-{platform.machine()}'
    found = files(version, compiler, PROGRAMS)
    found.update({name: read(f'{ROOT}/{name}') for name in LICENSES})
    found[SUMS] = checksums(found, version, note)
    name = f'{stem}.tar.gz'
    with open(f'{OUT}/{name}', 'wb') as file:
        file.write(packed(stem, found, links(version)))
    return name


def sum_up(version: str, note: Note) -> None:
    """Writes the checksum of each archive, wheel and package in out/."""
    names = [name for name in os.listdir(OUT) if name.endswith(RELEASED)]
    with open(f'{OUT}/{SUMS}', 'wb') as file:
        file.write(checksums({name: read(f'{OUT}/{name}') for name in names}, version, note))


def install(version: str, compiler: Sequence[str], prefix: str) -> List[str]:
    """Puts what is built below a folder, as the archive has it, and the licences into its
    share/doc. Gives the paths. A program that isn't built is left out. Raises OSError where a file
    can't be written."""
    missing = missing_programs()
    found = files(version, compiler, [name for name in PROGRAMS if name not in missing])
    found.update({f'share/doc/gamhilon/{name}': read(f'{ROOT}/{name}') for name in LICENSES})
    for path, data in found.items():
        put(f'{prefix}/{path}', data, mode(path))
    for path, target in links(version).items():
        if os.path.lexists(f'{prefix}/{path}'):
            os.remove(f'{prefix}/{path}')
        os.symlink(target, f'{prefix}/{path}')
    return sorted([*found, *links(version)])


def put(path: str, data: bytes, rights: int) -> None:
    """Writes a file, whole or not at all: what runs of an older one stays as it is."""
    os.makedirs(os.path.dirname(path), exist_ok=True)
    with open(f'{path}.part', 'wb') as file:
        file.write(data)
    os.chmod(f'{path}.part', rights)
    os.replace(f'{path}.part', path)
