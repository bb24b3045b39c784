#!/usr/bin/env python3
"""build.py: builds the library that programs in C, Python, Rust and others link or load, in out/:
libgamhilon.a, libgamhilon.so.0 (and libgamhilon.so, which leads to it), gamhilon.h, gamhilon.pc for
pkg-config, and gamhilon_build.json, which tells the commit and the toolchain.

It has `rt lib` prove and compile crates/gamhilon_c first, over what earlier checks kept, and needs
a C compiler (CC, or cc) with its binutils.
    --after-ci      take the libraries that `rt ci` left, and prove and compile crates/gamhilon_c
                    alone over them
    --archive FILE  take this archive as it is, as out/libgamhilon.a of another machine; no
                    toolchain is needed
    --wheel         build the Python package's wheel too, in out/, with the program gamhilon: the
                    one that is built with --after-ci or --archive (without one the wheel has none,
                    and a line says so), else the one that `rt run` proves and builds first
    --wheel-only    build the wheel of what is in out/ and the program that is built, and nothing
                    else
    --release       build the wheel, the archive of a release (release.py), and with dpkg-deb the
                    package for Debian (debian.py), in out/; with --after-ci of the programs that
                    `rt ci` built, else of those that `rt run` proves and builds first
    --deb           build the package for Debian of what is in out/ and the programs that are built,
                    and nothing else
    --install FOLDER  put what is in out/ and the programs that are built below a folder, such as
                    /usr/local, as the archive of a release has it, and nothing else
It tells each step, and during a proof how far that is.
"""
import importlib
import json
import os
import re
import shutil
import subprocess
import sys
import tempfile
import time

HERE = os.path.dirname(os.path.abspath(__file__))
ROOT = os.path.dirname(HERE)
OUT = f'{HERE}/out'
CRATE = f'{ROOT}/crates/gamhilon_c'
ARCHIVE = f'{CRATE}/out/libgamhilon_c.a'
NOTE = 'gamhilon_build.json'
PAUSE = 30
EXPORTS = [
    'gamhilon_cite',
    'gamhilon_find_cite_fault',
    'gamhilon_read_references',
    'gamhilon_drive',
    'gamhilon_find_driven_fault',
    'gamhilon_find_fault',
    'gamhilon_check_limits',
    'gamhilon_render_text',
    'gamhilon_render_json',
    'gamhilon_find_ring',
    'gamhilon_session_open',
    'gamhilon_session_set_style',
    'gamhilon_session_put_items',
    'gamhilon_session_remove_items',
    'gamhilon_session_set_citations',
    'gamhilon_session_answer',
    'gamhilon_session_whole',
    'gamhilon_session_warnings',
    'gamhilon_session_error',
    'gamhilon_session_close',
    'gamhilon_status_text',
    'gamhilon_version',
]


def tell(message):
    print(f'build.py: {message}', flush=True)


def ran(*words, where=HERE):
    """Runs a command, and ends with its status where that isn't 0."""
    check_status(words[0], subprocess.run(words, cwd=where).returncode)


def run_and_tell(crate, *words, **how):
    """Runs a command that proves a crate, in its folder, and tells now and then how far it is."""
    began, below = time.monotonic(), libraries_below(crate)
    process = subprocess.Popen(words, cwd=f'{ROOT}/crates/{crate}', **how)
    while True:
        try:
            return check_status(words[0], process.wait(PAUSE))
        except subprocess.TimeoutExpired:
            done = sum(os.path.exists(f'{ROOT}/crates/{name}/out/rlib/{name}.rlib/format')
                       for name in below)
            minutes, seconds = divmod(round(time.monotonic() - began), 60)
            at_work = ', '.join(crates_at_work())
            tell(f'{minutes} min {seconds} s: {done} of {len(below)} libraries stand'
                 + (f', {at_work} at work' if at_work else ''))


def check_status(name, status):
    if status:
        sys.exit(f'build.py: {name} ended with status {status}')


def crates_at_work():
    """The crates of this repository that a prover or a compiler works on, as its words tell (on
    Linux)."""
    found = set()
    for number in os.listdir('/proc') if os.path.isdir('/proc') else []:
        try:
            is_here = os.readlink(f'/proc/{number}/cwd').startswith(f'{ROOT}/crates/')
            with open(f'/proc/{number}/cmdline', 'rb') as file:
                words = file.read().decode(errors='replace').split('\0')
        except OSError:
            continue
        if is_here and '--crate-name' in words[:-1]:
            found.add(words[words.index('--crate-name') + 1])
    return sorted(found)


def told(*words):
    """The first line that a command prints, or None where it fails or isn't there."""
    try:
        done = subprocess.run(words, cwd=ROOT, capture_output=True, text=True)
    except OSError:
        return None
    return (done.stdout.splitlines() or [''])[0] if done.returncode == 0 else None


def kit():
    """The folder of the toolchain, of which rt stands in bin/; None where there is no rt."""
    rt = shutil.which('rt')
    return rt and os.path.dirname(os.path.dirname(os.path.realpath(rt)))


def libraries_below(name):
    """The crates of this repository that a crate stands on and the kit's that it names, by
    crates.txt."""
    uses = {}
    with open(f'{ROOT}/crates.txt', encoding='utf-8') as file:
        for line in file:
            head, found, tail = line.partition('#')[0].partition(':')
            if found:
                uses[head.split()[0]] = tail.split()
    below = []
    for use in uses[name]:
        if use in uses:
            below += [name for name in [*libraries_below(use), use] if name not in below]
    return below


def compile_after_ci(kit_folder):
    """Proves and compiles the crate over the libraries that `rt ci` proved: `rt lib` would prove
    those once more."""
    folders = {name: f'{ROOT}/crates/{name}/out/rlib' for name in libraries_below('gamhilon_c')}
    with open(f'{ROOT}/crates.txt', encoding='utf-8') as file:
        own = next(line.partition(':')[2].split()
                   for line in file if line.startswith('gamhilon_c '))
    words = ['--crate-name', 'gamhilon_c', 'src/lib.rt', '--crate-type', 'staticlib']
    words += ['--extern', f'std={kit_folder}/rlibs/std.rlib', '-L',
              f'dependency={kit_folder}/rlibs']
    for name in own:
        words += ['--extern', f'{name}={folders.get(name, f"{kit_folder}/rlibs")}/{name}.rlib']
    for folder in folders.values():
        words += ['-L', f'dependency={folder}']
    words += ['--antt-project', f'{kit_folder}/rattle/logic/antt-project.json', '--logic-built',
              f'{kit_folder}/logic_built']
    words += ['--jobs', '2', '--links', 'gamhilon_c=', '--toolchain', f'{kit_folder}/toolchain',
              '--backend', 'llvm']
    os.makedirs(os.path.dirname(ARCHIVE), exist_ok=True)
    tell('proving and compiling crates/gamhilon_c, over the libraries that rt ci left')
    run_and_tell('gamhilon_c', f'{kit_folder}/bin/rattle', 'build', *words, '-o', ARCHIVE)


def version():
    """The version of the library, as the header has it."""
    with open(f'{HERE}/gamhilon.h', encoding='utf-8') as file:
        return re.search(r'#define GAMHILON_VERSION "(.+)"', file.read()).group(1)


def note_of(archive):
    """The commit and the toolchain: of what is built here, or those noted beside an archive; None
    where nothing tells."""
    if archive == ARCHIVE:
        changed = told('git', 'status', '--porcelain', 'crates', 'crates.txt')
        commit = told('git', 'rev-parse', 'HEAD')
        return {'commit': commit and commit + (' and changes' if changed else ''),
                'toolchain': told('rt', 'version')}
    try:
        with open(f'{os.path.dirname(archive)}/{NOTE}', encoding='utf-8') as file:
            return json.load(file)
    except (OSError, ValueError):
        return {'commit': None, 'toolchain': None}


def written(path, text):
    with open(path, 'w', encoding='utf-8') as file:
        file.write(text)


def defines(archive, name):
    """Whether an archive has a function of its own by this name, as the archives have that were
    built here."""
    done = subprocess.run(['nm', '--defined-only', archive], capture_output=True, text=True)
    return any(line.split()[-1:] == [name] for line in done.stdout.splitlines())


def link(archive, kit_folder, folder, note):
    """One object that shows the exports alone, as an archive and as a shared object, in a
    folder."""
    about = '; '.join(f'{name} {said}' for name, said in note.items() if said)
    words = compiler()
    whole = ['-Wl,--whole-archive', archive, '-Wl,--no-whole-archive']
    libraries = [f'{kit_folder}/c/liblibc_c.a'] if kit_folder else []
    if not defines(archive, 'gamhilon_version'):
        ran(*words, '-O2', '-fPIC', f'-I{HERE}', f'-DGAMHILON_ABOUT="{about}"', '-c', '-o',
            f'{folder}/about.o', f'{HERE}/c/about.c')
        whole.append(f'{folder}/about.o')
    ran(*words, '-r', '-nostdlib', '-o', f'{folder}/gamhilon.o', *whole, *libraries)
    ran('objcopy', *[f'--keep-global-symbol={name}' for name in EXPORTS], f'{folder}/gamhilon.o')
    ran('ar', 'rcs', f'{folder}/libgamhilon.a', 'gamhilon.o', where=folder)
    soname = f'libgamhilon.so.{version().split(".")[0]}'
    own = [f'-Wl,-soname,{soname}', '-Wl,--gc-sections', '-Wl,-z,defs', '-Wl,-z,relro,-z,now']
    ran(*words, '-shared', '-o', f'{folder}/{soname}', f'{folder}/gamhilon.o', *own)
    os.symlink(soname, f'{folder}/libgamhilon.so')


def compiler():
    """The C compiler, and the options that CC has."""
    words = os.environ.get('CC', '').split() or ['cc']
    if not shutil.which(words[0]):
        sys.exit(f'build.py: there is no C compiler {words[0]}: set CC')
    return words


def build(archive, kit_folder):
    """Links the archive, and puts all that was built into out/ once it is there."""
    tell(f'linking {os.path.relpath(archive)}')
    with tempfile.TemporaryDirectory(dir=HERE, prefix='.out-') as folder:
        note = note_of(archive)
        link(archive, kit_folder, folder, note)
        for name in ('gamhilon.o', 'about.o'):
            if os.path.exists(f'{folder}/{name}'):
                os.remove(f'{folder}/{name}')
        shutil.copy(f'{HERE}/gamhilon.h', folder)
        with open(f'{HERE}/c/gamhilon.pc.in', encoding='utf-8') as file:
            written(f'{folder}/gamhilon.pc', file.read().replace('@VERSION@', version()))
        written(f'{folder}/{NOTE}', json.dumps(note) + '\n')
        shutil.rmtree(OUT, ignore_errors=True)
        os.chmod(folder, 0o755)
        shutil.copytree(folder, OUT, symlinks=True)
    tell(f'built {os.path.relpath(OUT)}/libgamhilon.a and libgamhilon.so')


def build_wheel():
    """The wheel of the Python package, in out/, of the library that is there and the program that
    is built, if it is."""
    sys.path.insert(0, f'{HERE}/python')
    try:
        import gamhilon_wheel
        name = gamhilon_wheel.build_wheel(OUT)
    except ImportError as error:
        sys.exit(f'build.py: no wheel: {error} (Python 3.11 or later has what it takes)')
    except OSError as error:
        sys.exit(f'build.py: no wheel: {error}')
    tell(f'built {os.path.relpath(OUT)}/{name}')


def build_programs(names):
    """Has `rt run` prove and build programs: of a document, and by styles."""
    for name in names:
        words = ['--', '--version'] if name == 'gamhilon' else []
        tell(f'rt run proves and builds crates/{name}')
        with open(f'{ROOT}/crates/cite_run/stdin', 'rb') as example:
            run_and_tell(name, 'rt', 'run', *words, stdin=example, stdout=subprocess.DEVNULL)


def beside(name):
    """A module that stands beside this file: release or debian."""
    if HERE not in sys.path:
        sys.path.insert(0, HERE)
    return importlib.import_module(name)


def build_release(makers):
    """The archive of a release or the package for Debian, by the modules that make them, in out/,
    of the library that is there and the built programs."""
    try:
        with open(f'{OUT}/{NOTE}', encoding='utf-8') as file:
            note = json.load(file)
        for maker in makers:
            name = beside(maker).make(version(), compiler(), note)
            tell(f'built {os.path.relpath(OUT)}/{name}')
        beside('release').sum_up(version(), note)
    except OSError as error:
        sys.exit(f'build.py: no release: {error}')


def build_all_of_a_release():
    """The archive of a release, and the package for Debian where there is dpkg-deb."""
    if shutil.which('dpkg-deb'):
        return build_release(['release', 'debian'])
    tell('left out: the package for Debian: there is no dpkg-deb')
    build_release(['release'])


def install(folder):
    """Puts what is built below a folder."""
    release = beside('release')
    for name in release.missing_programs():
        tell(f'left out: the program {name}, which is not built (--release builds it)')
    try:
        paths = release.install(version(), compiler(), os.path.abspath(folder))
    except OSError as error:
        sys.exit(f'build.py: not installed: {error}')
    tell(f'installed {len(paths)} files below {folder}')


def main(words):
    if words == ['--wheel-only']:
        return build_wheel()
    if words == ['--deb']:
        return build_release(['debian'])
    if words[:1] == ['--install'] and len(words) == 2:
        return install(words[1])
    with_release = '--release' in words
    with_wheel = with_release or '--wheel' in words
    words = [word for word in words if word not in ('--wheel', '--release')]
    if with_release and words[:1] == ['--archive']:
        sys.exit('build.py: no release of an archive: the toolchain builds the programs beside it')
    kit_folder, archive = kit(), ARCHIVE
    if words[:1] == ['--archive'] and len(words) == 2:
        archive = os.path.abspath(words[1])
        if not os.path.isfile(archive):
            sys.exit(f'build.py: there is no archive {words[1]}')
    elif words and words != ['--after-ci']:
        sys.exit(__doc__)
    elif not kit_folder:
        sys.exit('build.py: there is no rt in the PATH: the toolchain builds the archive, '
                 'or --archive names one')
    elif words:
        compile_after_ci(kit_folder)
    else:
        count = len(libraries_below('gamhilon_c'))
        tell(f'rt lib proves and compiles crates/gamhilon_c, over {count} libraries, and keeps '
             'what it proved; from nothing that takes half an hour to an hour')
        run_and_tell('gamhilon_c', 'rt', 'lib')
    if with_wheel and not words:
        build_programs(['cite_run', 'gamhilon'] if with_release else ['gamhilon'])
    build(archive, kit_folder)
    if with_wheel:
        build_wheel()
    if with_release:
        build_all_of_a_release()


if __name__ == '__main__':
    try:
        main(sys.argv[1:])
    except KeyboardInterrupt:
        sys.exit(130)
