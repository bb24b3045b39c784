"""What is built and how it is installed: the library, the Python package, its wheel, the archive of
a release, the package for Debian, the program's pages, and callers in C and Rust."""
import glob
import json
import os
import subprocess
import sys
import tarfile

import build
import debian
import release
from checks import (EMBED, OUT, ROOT, first_example, has_tool, hold, left_out, printed, ran, read)

sys.path.append(f'{EMBED}/python/tests')

import known_page  # noqa: E402


def try_building(folder):
    """What build.py makes, as callers in C and Rust use it."""
    try_exports()
    try_about(folder)
    try_callers(folder)
    try_cmake(folder)
    try_pages()


def try_packages(folder):
    """The Python package, its wheel, the archive of a release, and the package for Debian."""
    try_package(folder)
    try_wheel(folder)
    try_release(folder)


def note():
    """The commit and the toolchain that built the library."""
    return json.loads(read(f'{OUT}/gamhilon_build.json'))


def try_exports():
    """What build.py makes, and that it leaves that alone where it can't build."""
    before = sorted(os.listdir(OUT))
    done = ran(sys.executable, f'{EMBED}/build.py', '--archive', 'nofile.a')
    hold(done.returncode == 1 and b'nofile.a' in done.stderr,
         'an archive that is not there is told')
    hold(sorted(os.listdir(OUT)) == before, 'out/ stays where there is no archive')
    shown = ran('nm', '-D', '--defined-only', f'{OUT}/libgamhilon.so').stdout.decode().split()[2::3]
    hold(sorted(shown) == sorted(build.EXPORTS),
         f'the shared object shows its exports alone: {shown}')
    soname = release.soname(build.version())
    hold(soname in ran('objdump', '-p', f'{OUT}/libgamhilon.so').stdout.decode(),
         f'the name of the shared object is {soname}')


def try_about(folder):
    """The version and the texts of the statuses."""
    lines = ran(f'{folder}/about').stdout.decode().splitlines()
    hold(lines[0] == f'{build.version()} {build.version()}', 'the version of the header')
    hold(lines[1].startswith(build.version())
         and all(value in lines[1] for value in note().values() if value),
         'the version of the library')
    hold(len(lines) == 15 and len(set(lines[2:])) == 11 and lines[3] == lines[11] == lines[14],
         'each status has a text of its own, and others one')


def try_cmake(folder):
    """pkg-config, and the CMake example."""
    if not (has_tool('pkg-config', 'gamhilon.pc') and has_tool('cmake', 'the CMake example')):
        return
    environment = {**os.environ, 'PKG_CONFIG_PATH': OUT}
    told = ran('pkg-config', '--cflags', '--libs', 'gamhilon',
               env=environment).stdout.decode().split()
    hold(told == [f'-I{OUT}', f'-L{OUT}', '-lgamhilon'], f'gamhilon.pc: {told}')
    for words in (['-S', f'{EMBED}/c', '-B', f'{folder}/cmake'], ['--build', f'{folder}/cmake']):
        made = ran('cmake', *words, env=environment)
        hold(made.returncode == 0, f'cmake {words[0]}: {made.stderr.decode()[-600:]}')
    first, text = first_example()
    hold(ran(f'{folder}/cmake/print', input=first).stdout == text, 'the program that CMake built')


def try_pages():
    """The man page and the completions, which are what the built program says of itself."""
    if 'gamhilon' in release.missing_programs():
        left_out.append('the man page and the completions: there is no built gamhilon')
        return
    made = ran(sys.executable, f'{EMBED}/man.py', '--check', release.program('gamhilon'))
    hold(made.returncode == 0, f'man.py --check: {(made.stdout + made.stderr).decode()[-1200:]}')


# The Python package

def try_package(folder):
    """`pip install embed/python`, and then a document in a process that knows nothing of this
    folder."""
    if ran(sys.executable, '-m', 'pip', '--version').returncode:
        left_out.append('installing the Python package: there is no pip')
        return
    made = ran(sys.executable, '-m', 'pip', 'install', '-q', '--no-index', '--target',
               f'{folder}/site', f'{EMBED}/python')
    hold(made.returncode == 0, f'pip install: {made.stderr.decode()[-600:]}')
    words = ('import gamhilon, sys; sys.stdout.write(gamhilon.print_document(sys.stdin.read())); '
             'print(gamhilon.__file__)')
    how = {'cwd': folder, 'env': {'PYTHONPATH': f'{folder}/site', 'PATH': os.environ['PATH']}}
    first, text = first_example()
    done = ran(sys.executable, '-c', words, input=first, **how)
    hold(done.stdout == text + f'{folder}/site/gamhilon/__init__.py\n'.encode(),
         'the installed package')


def try_wheel(folder):
    """The wheel in a fresh virtual environment, used as its user would."""
    made = ran(sys.executable, f'{EMBED}/build.py', '--archive', f'{OUT}/libgamhilon.a', '--wheel',
               env={**os.environ, 'PATH': without_rt(folder)})
    hold(made.returncode == 0,
         f'build.py --archive --wheel, with no toolchain: {made.stderr.decode()[-600:]}')
    wheels = glob.glob(f'{OUT}/*.whl')
    hold(len(wheels) == 1, f'one wheel: {wheels}')
    how = installed(f'{folder}/venv', wheels)
    if how is None:
        return
    _, text = first_example()
    try_program_of_the_wheel(f'{folder}/venv/bin/gamhilon', how)
    hold(ran('python', '-m', 'gamhilon', 'render', f'{ROOT}/examples/first.json',
             **how).stdout == text, 'python3 -m gamhilon render, from the wheel')
    told = ran('python', '-m', 'gamhilon', '--version', **how).stdout.decode()
    hold(all(str(value or 'unknown') in told for value in note().values()),
         f'the version of the wheel: {told}')
    if has_tool('pandoc', 'the filter from the wheel'):
        try_filter(folder, wheels, how)


def try_program_of_the_wheel(path, how):
    """The command `gamhilon` that the wheel puts into an environment: the program, or none."""
    if 'gamhilon' in release.missing_programs():
        left_out.append('the program of the wheel: there is no built gamhilon')
        hold(not os.path.lexists(path), 'a wheel without the program installs no gamhilon')
        return
    program = release.program('gamhilon')
    hold(read(path) == read(program), 'the gamhilon of the wheel is the program')
    _, text = first_example()
    for words, wanted in ((['--version'], ran(program, '--version').stdout),
                          (['render', f'{ROOT}/examples/first.json'], text)):
        hold(ran('gamhilon', *words, **how).stdout == wanted,
             f'gamhilon {words[0]}, from the wheel')


def installed(place, wheels, *words):
    """What has programs run in a virtual environment that has the wheel and nothing else, or what
    words of venv let it see; None where venv makes none."""
    if ran(sys.executable, '-m', 'venv', *words, place).returncode:
        left_out.append(
            'the wheel in a fresh virtual environment: venv makes none (Debian: python3-venv)')
        return None
    how = {'cwd': place, 'env': {'PATH': f'{place}/bin:{os.environ["PATH"]}'}}
    made = ran(f'{place}/bin/pip', 'install', '-q', '--no-index', '--disable-pip-version-check',
               *wheels, **how)
    hold(made.returncode == 0, f'pip install of the wheel: {made.stderr.decode()[-600:]}')
    return how


def try_filter(folder, wheels, how):
    """The filter of the wheel: a page of a line, and the page of 25 citations."""
    with open(f'{how["cwd"]}/refs.json', 'w', encoding='utf-8') as file:
        file.write('[{"id": "doe99", "title": "On Order", "author": [{"family": "Doe"}], '
                   '"issued": {"date-parts": [[1999]]}}]')
    words = ['pandoc', '--filter', 'gamhilon-pandoc', '-M', 'bibliography=refs.json', '-t',
             'plain']
    hold(ran(*words, input=b'[@doe99, p. 4]', **how).stdout.startswith(b'(Doe 1999, p. 4)\n'),
         'gamhilon-pandoc, from the wheel')
    if not os.path.isdir(known_page.PUBLISHED):
        left_out.append('the page of 25 citations: there are no published styles (Debian: '
                        'citation-style-language-styles)')
        return
    if not ran('pandoc', '--version').stdout.startswith(b'pandoc 2.17'):
        left_out.append('the page of 25 citations: what pandoc writes is known of 2.17')
        return
    hold_page('CSL-JSON', how)
    hold_page('BibLaTeX', how)
    reader = installed(f'{folder}/venv_with_reader', wheels, '--system-site-packages')
    if reader is None or ran('python', '-c', 'import yaml', **reader).returncode:
        left_out.append('the page of 25 citations of YAML: this Python has no yaml')
    else:
        hold_page('YAML', reader)


def hold_page(form, how):
    """Holds the page of 25 citations to pandoc's, by the filter of a wheel: each form in a style of
    its own. (All forms in all styles are held by the tests of the package, without a wheel.)"""
    style = dict(zip(known_page.FORMS, known_page.STYLES))[form]
    parts, found = known_page.differing(style, form, 'gamhilon-pandoc', env=how['env'])
    hold((parts, list(found)) == (known_page.told(style, form)[0],
                                  list(known_page.told(style, form)[1])),
         f'the page of 25 citations from the wheel, {style} of {form}: {list(found)} differ')


# A release

def try_release(folder):
    """The archive of a release, used as its user would."""
    missing = release.missing_programs()
    if missing:
        left_out.append(f'the archive of a release: there is no built {missing[0]}')
        return
    name = release.make(build.version(), build.compiler(), note())
    with tarfile.open(f'{OUT}/{name}') as archive:
        archive.extractall(folder)
    place = f'{folder}/{name[:-len(".tar.gz")]}'
    done = ran('sha256sum', '--check', '--strict', '--quiet', 'SHA256SUMS', cwd=place)
    hold(done.returncode == 0, f'the checksums of a release: {done.stderr.decode()}')
    about = read(f'{place}/SHA256SUMS').decode().splitlines()[0]
    hold(all(str(value or 'unknown') in about for value in note().values()),
         f'what proved a release: {about}')
    try_programs(place, 'of a release')
    made = ran(sys.executable, f'{EMBED}/build.py', '--install', f'{folder}/usr')
    hold(made.returncode == 0, f'build.py --install: {made.stderr.decode()[-600:]}')
    try_programs(f'{folder}/usr', 'that is installed')
    if has_tool('dpkg-deb', 'the package for Debian'):
        try_package_for_debian(folder)


def try_package_for_debian(folder):
    """The package for Debian, unpacked where nothing else is. (What it has in detail is held by the
    tests of the Python package, of programs that stand in for the built ones.)"""
    place, name = f'{folder}/debian', debian.make(build.version(), build.compiler(), note())
    for words in (['-x', place], ['-e', f'{place}/DEBIAN']):
        done = ran('dpkg-deb', words[0], f'{OUT}/{name}', words[1])
        hold(done.returncode == 0, f'dpkg-deb {words[0]}: {done.stderr.decode()}')
    done = ran('md5sum', '--check', '--strict', '--quiet', 'DEBIAN/md5sums', cwd=place)
    hold(done.returncode == 0, f'the checksums of the package for Debian: {done.stderr.decode()}')
    told = ran('dpkg-deb', '-f', f'{OUT}/{name}', 'Description').stdout.decode()
    hold(all(str(value or 'unknown') in told for value in note().values()),
         f'what proved the package for Debian: {told}')
    try_programs(f'{place}/usr', 'of the package for Debian')


def try_programs(place, which):
    """The programs in a folder, with the styles and the locale that stand beside them."""
    first, text = first_example()
    for program in ('cite_run', 'gamhilon-print'):
        hold(ran(f'{place}/bin/{program}', input=first).stdout == text, f'{program} {which}')
    shared = f'{place}/share/gamhilon'
    files = [*sorted(glob.glob(f'{shared}/styles/*.csl')), *glob.glob(f'{shared}/locales/*.xml')]
    done = ran(f'{place}/bin/gamhilon', 'check', *files)
    hold(done.returncode == 0 and not done.stderr and done.stdout.count(b'\n') == 5,
         f'the styles and the locale {which}: {done.stderr.decode()}')
    works = [f'{ROOT}/examples/styles/{name}.json' for name in ('references', 'citations')]
    style = f'{shared}/styles/author-date.csl'
    done = ran(f'{place}/bin/gamhilon', 'cite', '--style', style, *works)
    hold(done.stdout.startswith(b'(Darwin 1859, p. 84)\n'), f'gamhilon {which}: {done.stderr}')
    done = ran(f'{place}/bin/gamhilon-cite', style, *works)
    hold(done.returncode == 0 and b'Darwin' in done.stdout, f'gamhilon-cite {which}')


def without_rt(folder):
    """A PATH in which there is all but the toolchain."""
    os.makedirs(f'{folder}/bin', exist_ok=True)
    for entry in reversed(os.environ['PATH'].split(':')):
        for name in os.listdir(entry) if os.path.isdir(entry) else []:
            at = f'{folder}/bin/{name}'
            if name not in ('rt', 'rattle'):
                if os.path.lexists(at):
                    os.remove(at)
                os.symlink(f'{entry}/{name}', at)
    return f'{folder}/bin'


# Callers in C and Rust

def compile_crate(folder):
    """The crate of Rust, with no network, and its tests. Gives its program, or none where there is
    no cargo."""
    if not has_tool('cargo', 'the crate in Rust'):
        return None
    environment = {**os.environ, 'CARGO_TARGET_DIR': f'{folder}/target'}
    for words in (['build', '--release'], ['test']):
        made = ran('cargo', *words, '--offline', '--quiet', cwd=f'{EMBED}/rust', env=environment,
                   timeout=600)
        hold(made.returncode == 0,
             f'cargo {words[0]}: {(made.stdout + made.stderr).decode()[-1200:]}')
    missing = ran('cargo', 'build', '--offline', '--quiet', cwd=f'{EMBED}/rust',
                  env={**environment, 'GAMHILON_LIB_DIR': folder})
    hold(missing.returncode != 0 and b'embed/build.py' in missing.stderr,
         'the crate tells where the library is missing')
    return f'{folder}/target/release/gamhilon-print'


def try_callers(folder):
    """The callers in C and in Rust, as programs."""
    programs = {'c/print.c': f'{folder}/print', 'rust': compile_crate(folder)}
    for name, program in programs.items():
        if program:
            try_answers(folder, name, program)
            try_words(name, program)
            try_streams(name, program)
    for words, status in ((['--help'], 0), ([], 64), (['a', 'b'], 64)):
        done = ran(f'{folder}/cite', *words)
        told = done.stdout if status == 0 else done.stderr
        hold(done.returncode == status and told.startswith(b'usage: cite STYLE.csl'),
             f'c/cite.c {words}: status {done.returncode}')


def try_answers(folder, name, program):
    """What a caller prints of a document, of standard input and of a file."""
    first, text = first_example()
    path = f'{ROOT}/examples/first.json'
    hold(ran(program, input=first).stdout == text, f'{name}: examples/first.json')
    for words, how in (([path], {}), (['-'], {'input': first})):
        hold(ran(program, *words, **how).stdout == text, f'{name}: {words}')
        answer = ran(program, '--json', *words, **how).stdout
        hold(answer[:1] == b'{' and printed(json.loads(answer)).encode() == text,
             f'{name}: JSON of {words}')
    wrong = f'{folder}/wrong.json'
    with open(wrong, 'w', encoding='utf-8') as file:
        file.write('{"styles": {"s": 5}}')
    done = ran(program, wrong)
    hold(done.returncode == 2 and done.stdout == b'' and done.stderr.count(b'\n') == 1
         and all(word in done.stderr for word in (wrong.encode(), b'/styles/s', b'an object')),
         f'{name}: what is no document: {done.stderr.decode()}')
    done = ran(program, f'{folder}/nowhere.json')
    hold(done.returncode == 1 and b'nowhere.json' in done.stderr, f'{name}: no file')


def try_words(name, program):
    """What a caller says of itself, and of words that make no command."""
    for words, status in ((['--help'], 0), (['--json', '--help'], 0), (['a', 'b'], 64),
                          (['--jsn'], 64)):
        done = ran(program, *words, input=b'')
        told = done.stdout if status == 0 else done.stderr
        hold(done.returncode == status and told.startswith(b'usage: ') and b'[FILE]' in told,
             f'{name} {words}: status {done.returncode}, {told.decode()}')


def try_streams(name, program):
    """Output that is full, and a folder for input."""
    first, _ = first_example()
    with open('/dev/full', 'wb') as full:
        done = subprocess.run([program], input=first, stdout=full, stderr=subprocess.PIPE,
                              timeout=60)
    hold(done.returncode == 1 and done.stderr.count(b'\n') == 1,
         f'{name}: output that is full is status 1')
    folder = os.open(EMBED, os.O_RDONLY)
    done = ran(program, stdin=folder)
    os.close(folder)
    hold(done.returncode == 1 and done.stderr.count(b'\n') == 1,
         f'{name}: a folder for input is status 1')
