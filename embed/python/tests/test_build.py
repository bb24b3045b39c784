"""build.py, over a toolchain that stands in for rt and makes an archive of a few lines of C."""
import contextlib
import gzip
import importlib.util
import os
import re
import shutil
import signal
import subprocess
import sys
import tarfile
import zipfile
from pathlib import Path
from xml.etree import ElementTree

import pytest
from conftest import PROJECT, ROOT, heed_interrupts
from stand_ins import put_program

pytestmark = pytest.mark.skipif(not all(map(shutil.which, ('cc', 'objcopy', 'ar', 'nm'))),
                                reason='there is no C compiler')

CALLS = ('check_limits', 'cite', 'drive', 'find_cite_fault', 'find_driven_fault', 'find_fault',
         'find_ring', 'render_json', 'render_text')
RT = '''#!/bin/sh
if [ "$1" = version ]; then echo kit-1; exit; fi
if [ "$1" = run ]; then mkdir -p out; cp /bin/cat "out/$(basename "$PWD")"; exit; fi
mkdir -p ../one/out/rlib/one.rlib out
sleep {} > /dev/null 2>&1
touch ../one/out/rlib/one.rlib/format
sleep {} > /dev/null 2>&1
cp {} out/libgamhilon_c.a
exit {}
'''


CMAKE = '''cmake_minimum_required(VERSION 3.13)
project(callers C)
find_package(gamhilon 0.3 REQUIRED)
add_executable(shared {0})
target_link_libraries(shared PRIVATE gamhilon::gamhilon)
add_executable(static {0})
target_link_libraries(static PRIVATE gamhilon::static)
'''
AGAIN = '''import importlib, json, os, sys
os.umask(0o77)
with open('out/gamhilon_build.json') as file:
    note = json.load(file)
for name in sys.argv[1:]:
    importlib.import_module(name).make('0.3.0', ['cc'], note)
'''
PAGES = (('man/gamhilon.1', 'share/man/man1/gamhilon.1'),
         ('completions/gamhilon.bash', 'share/bash-completion/completions/gamhilon'),
         ('completions/_gamhilon', 'share/zsh/site-functions/_gamhilon'),
         ('completions/gamhilon.fish', 'share/fish/vendor_completions.d/gamhilon.fish'))


@pytest.fixture
def tree(tmp_path, monkeypatch):
    """A repository of which build.py builds the library, and what makes its rt end after a while,
    with a status."""
    root, kit = tmp_path / 'repository', tmp_path / 'kit'
    for name in ('build.py', 'release.py', 'debian.py', 'gamhilon.h', 'c/about.c', 'c/print.c',
                 'c/cite.c', 'c/gamhilon.pc.in', 'c/gamhilon-config.cmake.in',
                 'c/gamhilon-config-version.cmake.in', *(name for name, _ in PAGES)):
        (root / 'embed' / name).parent.mkdir(parents=True, exist_ok=True)
        shutil.copy(f'{PROJECT}/../{name}', root / 'embed' / name)
    shutil.copytree(PROJECT, root / 'embed' / 'python',
                    ignore=shutil.ignore_patterns('__pycache__'))
    for name in ('LICENSE', 'LICENSE-MIT', 'LICENSE-APACHE'):
        shutil.copy(f'{ROOT}/{name}', root)
    shutil.copytree(f'{PROJECT}/../org', root / 'embed' / 'org')
    shutil.copytree(f'{ROOT}/examples/styles', root / 'examples' / 'styles')
    for name in ('gamhilon_c', 'cite_run', 'gamhilon', 'style_english/src'):
        (root / 'crates' / name).mkdir(parents=True)
    shutil.copy(f'{ROOT}/crates/style_english/src/words.rt',
                root / 'crates' / 'style_english' / 'src')
    (root / 'crates' / 'cite_run' / 'stdin').write_text('{}')
    crates = ('one: json\ntwo: one\ngamhilon_c staticlib: two  # the library\n'
              'cite_run: two\ngamhilon: two\n')
    (root / 'crates.txt').write_text(crates)
    (tmp_path / 'a.c').write_text(''.join(f'int gamhilon_{call}(void) {{ return 0; }}\n'
                                          for call in CALLS))
    for words in (['cc', '-c', '-fPIC', '-o', 'a.o', 'a.c'], ['ar', 'rcs', 'a.a', 'a.o'],
                  ['ar', 'rcs', 'liblibc_c.a']):
        subprocess.run(words, cwd=tmp_path, check=True)
    (kit / 'bin').mkdir(parents=True)
    (kit / 'c').mkdir()
    shutil.copy(tmp_path / 'liblibc_c.a', kit / 'c')
    monkeypatch.setenv('PATH', f'{kit / "bin"}{os.pathsep}{os.environ["PATH"]}')

    def rt(first=0.0, second=0.0, status=0):
        (kit / 'bin' / 'rt').write_text(RT.format(first, second, tmp_path / 'a.a', status))
        (kit / 'bin' / 'rt').chmod(0o755)
        return root
    return rt


def build_of(root, monkeypatch):
    """build.py of a repository, as a module."""
    spec = importlib.util.spec_from_file_location('build_of_a_copy', root / 'embed' / 'build.py')
    module = importlib.util.module_from_spec(spec)
    spec.loader.exec_module(module)
    monkeypatch.chdir(root)
    for name in ('gamhilon_wheel', 'release', 'debian', 'build_of_a_copy'):
        monkeypatch.delitem(sys.modules, name, raising=False)
    monkeypatch.setattr(sys, 'path', list(sys.path))
    return module


def program_of_the_wheel():
    """The program in the wheel of out/, or None where it has none."""
    name, = [name for name in os.listdir('embed/out') if name.endswith('.whl')]
    with zipfile.ZipFile(f'embed/out/{name}') as archive:
        place = 'gamhilon-0.3.0.data/scripts/gamhilon'
        return archive.read(place) if place in archive.namelist() else None


def test_it_tells_what_it_does_and_how_far_it_is(tree, monkeypatch, capfd):
    build = build_of(tree(0.5, 1.0), monkeypatch)
    monkeypatch.setattr(build, 'PAUSE', 0.3)
    build.main(['--wheel'])
    lines = capfd.readouterr().out.splitlines()
    assert lines[0] == ('build.py: rt lib proves and compiles crates/gamhilon_c, over 2 libraries, '
                        'and keeps what it proved; from nothing that takes half an hour to an hour')
    assert 'build.py: rt run proves and builds crates/gamhilon' in lines
    assert not any('cite_run' in line for line in lines)
    told = [line for line in lines if 'libraries stand' in line]
    assert re.fullmatch('build.py: 0 min [0-9]+ s: 0 of 2 libraries stand', told[0])
    assert re.fullmatch('build.py: 0 min [0-9]+ s: 1 of 2 libraries stand', told[-1])
    assert lines[-3:-1] == ['build.py: linking crates/gamhilon_c/out/libgamhilon_c.a',
                            'build.py: built embed/out/libgamhilon.a and libgamhilon.so']
    assert lines[-1].startswith('build.py: built embed/out/gamhilon-0.3.0-py3-none-')
    assert sorted(name for name in os.listdir('embed/out') if not name.endswith('.whl')) == [
        'gamhilon.h', 'gamhilon.pc', 'gamhilon_build.json', 'libgamhilon.a', 'libgamhilon.so',
        'libgamhilon.so.0']
    # (the stand-in of the toolchain builds it as that)
    with open('/bin/cat', 'rb') as file:
        assert program_of_the_wheel() == file.read()



def test_a_proof_that_fails_is_told_by_its_status(tree, monkeypatch):
    build = build_of(tree(status=3), monkeypatch)
    with pytest.raises(SystemExit, match='rt ended with status 3'):
        build.main([])
    assert not os.path.exists('embed/out')


def test_the_wheel_alone_is_made_of_what_was_built(tree, tmp_path, monkeypatch, capfd):
    """Of the library, which may be that of another machine, and the program, if it is there."""
    build = build_of(tree(), monkeypatch)
    with pytest.raises(SystemExit,
                       match='^build.py: no wheel: .*libgamhilon.so is not there: build it first'):
        build.main(['--wheel-only'])
    build.main(['--archive', str(tmp_path / 'a.a'), '--wheel'])
    told = capfd.readouterr().out.splitlines()
    assert told[2:-1] == ['gamhilon_wheel: left out: the program gamhilon, which is not built; the '
                          'wheel installs no command of this name']
    assert told[-1].startswith('build.py: built embed/out/gamhilon-0.3.0-py3-none-')
    assert program_of_the_wheel() is None and not os.path.exists('crates/gamhilon/out')
    shutil.rmtree('crates')
    os.makedirs('crates/gamhilon/out')
    put_program(Path('crates/gamhilon/out/gamhilon'))
    os.remove('embed/out/gamhilon_build.json')
    build.main(['--wheel-only'])
    assert capfd.readouterr().out.startswith('build.py: built embed/out/gamhilon-')
    assert b'the program' in program_of_the_wheel()
    name, = [name for name in os.listdir('embed/out') if name.endswith('.whl')]
    with zipfile.ZipFile(f'embed/out/{name}') as archive:
        assert archive.read('gamhilon/gamhilon_build.json') == b'{}\n'
        assert 'gamhilon/references/by_library.py' in archive.namelist()


@pytest.fixture
def release(tree, monkeypatch, tmp_path):
    """The folder of a release, and that of what was built."""
    root = tree()
    build_of(root, monkeypatch).main(['--release'])
    name, = [name for name in os.listdir('embed/out') if name.endswith('.tar.gz')]
    with tarfile.open(f'embed/out/{name}') as archive:
        archive.extractall(tmp_path / 'installed')
    return tmp_path / 'installed' / name[:-len('.tar.gz')], root / 'embed' / 'out'


def test_a_release_has_checksums_that_tell_what_proved_it(release):
    folder, out = release
    for place, count in ((folder, 22), (out, 3 if shutil.which('dpkg-deb') else 2)):
        about, *sums = (place / 'SHA256SUMS').read_text().splitlines()
        assert re.fullmatch('# gamhilon 0.3.0; commit .*; toolchain kit-1', about)
        assert len(sums) == count
        subprocess.run(['sha256sum', '--check', '--strict', '--quiet', 'SHA256SUMS'], cwd=place,
                       check=True)


def test_a_release_has_programs_and_a_library_that_callers_find(release, tmp_path):
    folder, _ = release
    for name in ('cite_run', 'gamhilon'):
        done = subprocess.run([folder / 'bin' / name], input=b'{}', capture_output=True)
        assert done.stdout == b'{}'
    for name in ('gamhilon-print', 'gamhilon-cite'):
        assert os.access(folder / 'bin' / name, os.X_OK)
    assert os.readlink(folder / 'lib' / 'libgamhilon.so') == 'libgamhilon.so.0'
    environment = {**os.environ, 'PKG_CONFIG_PATH': str(folder / 'lib' / 'pkgconfig')}
    if shutil.which('pkg-config'):
        told = subprocess.run(['pkg-config', '--cflags', '--libs', 'gamhilon'], env=environment,
                              capture_output=True, text=True, check=True).stdout.split()
        places = [os.path.normpath(word[2:]) for word in told[:2]]
        assert places == [str(folder / 'include'), str(folder / 'lib')]
    if shutil.which('cmake'):
        (tmp_path / 'CMakeLists.txt').write_text(CMAKE.format(f'{PROJECT}/../c/print.c'))
        for words in (['-S', '.', '-B', 'made', f'-DCMAKE_PREFIX_PATH={folder}'],
                      ['--build', 'made']):
            subprocess.run(['cmake', *words], cwd=tmp_path, check=True, capture_output=True)
        assert (tmp_path / 'made' / 'shared').exists() and (tmp_path / 'made' / 'static').exists()


def test_a_release_has_styles_and_a_locale(release):
    folder, _ = release
    shared = folder / 'share' / 'gamhilon'
    for name in ('author-date', 'labels', 'notes', 'numeric'):
        with open(f'{ROOT}/examples/styles/{name}.csl', 'rb') as file:
            assert (shared / 'styles' / f'{name}.csl').read_bytes() == file.read()
    locale = ElementTree.parse(shared / 'locales' / 'locales-en-US.xml').getroot()
    assert locale.tag == '{http://purl.org/net/xbiblio/csl}locale'
    assert locale.get('{http://www.w3.org/XML/1998/namespace}lang') == 'en-US'


def test_a_release_has_a_man_page_and_completions(release):
    folder, _ = release
    for name, path in PAGES:
        with open(f'{PROJECT}/../{name}', 'rb') as file:
            assert (folder / path).read_bytes() == file.read()
        assert (folder / path).stat().st_mode & 0o777 == 0o644


def files_below(folder):
    return {str(path.relative_to(folder)) for path in folder.rglob('*') if not path.is_dir()}


def test_what_is_built_is_installed_as_a_release_has_it(release, tmp_path, capfd):
    folder, out = release
    words = [sys.executable, 'build.py', '--install', str(tmp_path / 'usr')]
    # (what is there already is replaced)
    for _ in range(2):
        subprocess.run(words, cwd=out.parent, check=True)
    told = capfd.readouterr().out.splitlines()[-1]
    assert told == f'build.py: installed 23 files below {tmp_path / "usr"}'
    texts = {'SHA256SUMS', 'LICENSE', 'LICENSE-MIT', 'LICENSE-APACHE'}
    installed = files_below(tmp_path / 'usr')
    assert installed == files_below(folder) - texts | {
        f'share/doc/gamhilon/{name}' for name in texts - {'SHA256SUMS'}}
    for name in installed & files_below(folder):
        one, other = tmp_path / 'usr' / name, folder / name
        assert one.read_bytes() == other.read_bytes() and one.stat().st_mode == other.stat().st_mode


def test_a_program_that_is_not_built_is_left_out_where_one_installs(release, tmp_path, capfd):
    _, out = release
    shutil.rmtree(out.parents[1] / 'crates' / 'gamhilon' / 'out')
    words = [sys.executable, 'build.py', '--install', str(tmp_path / 'usr')]
    subprocess.run(words, cwd=out.parent, check=True)
    assert 'left out: the program gamhilon, which is not built' in capfd.readouterr().out
    assert sorted(os.listdir(tmp_path / 'usr' / 'bin')) == ['cite_run', 'gamhilon-cite',
                                                            'gamhilon-print']
    assert not any((tmp_path / 'usr' / path).exists() for _, path in PAGES)
    done = subprocess.run([*words[:-1], '/dev/null'], cwd=out.parent, capture_output=True)
    assert done.returncode == 1 and done.stderr.startswith(b'build.py: not installed: ')


def test_one_build_makes_one_release(release):
    _, out = release
    makers = {'release': '.tar.gz', 'debian': '.deb'}
    if not shutil.which('dpkg-deb'):
        del makers['debian']
    paths = [path for suffix in makers.values() for path in out.glob(f'*{suffix}')]
    first = [path.read_bytes() for path in paths]
    assert len(first) == len(makers)
    # (files that are made at another time, by another user, with other rights)
    subprocess.run([sys.executable, '-c', AGAIN, *makers], cwd=out.parent, check=True)
    assert [path.read_bytes() for path in paths] == first


def test_a_release_without_dpkg_deb_has_no_package(tree, monkeypatch, capfd):
    build = build_of(tree(), monkeypatch)
    which = shutil.which
    monkeypatch.setattr(shutil, 'which', lambda name: None if name == 'dpkg-deb' else which(name))
    build.main(['--release'])
    told = capfd.readouterr().out
    assert 'build.py: left out: the package for Debian: there is no dpkg-deb\n' in told
    assert sorted(name.rpartition('.')[2] for name in os.listdir('embed/out')
                  if name.startswith('gamhilon-')) == ['gz', 'whl']


@pytest.fixture
def package(release):
    """The package for Debian, the folder of the release, and that of what was built."""
    if not shutil.which('dpkg-deb'):
        pytest.skip('there is no dpkg-deb')
    folder, out = release
    path, = out.glob('*.deb')
    return path, folder, out


def dpkg_deb(*words):
    return subprocess.run(['dpkg-deb', *words], capture_output=True, text=True, check=True).stdout


def test_a_package_tells_what_it_is_and_needs(package):
    path, folder, _ = package
    assert path.name == 'gamhilon_0.3.0_amd64.deb'
    fields = dict(re.findall(r'^([A-Z][\w-]+): (.*)$', dpkg_deb('-f', str(path)), re.MULTILINE))
    assert (fields['Package'], fields['Version'], fields['Architecture']) == ('gamhilon', '0.3.0',
                                                                              'amd64')
    # (the programs stand in for those of the toolchain: of the C library)
    assert re.fullmatch(r'libc6 \(>= 2\.[0-9]+\)', fields['Depends'])
    assert re.fullmatch(r'.+ <.+@.+>', fields['Maintainer'])
    assert 500 > int(fields['Installed-Size']) > sum(
        path.stat().st_size for path in (folder / 'bin').iterdir()) // 1024
    told = dpkg_deb('-I', str(path))
    assert 'toolchain kit-1.' in told
    assert all(f' {part}' in told for part in ('control', 'md5sums', 'triggers'))


def test_a_package_has_the_files_of_a_release(package, tmp_path):
    path, folder, _ = package
    dpkg_deb('-x', str(path), str(tmp_path / 'root'))
    dpkg_deb('-e', str(path), str(tmp_path / 'control'))
    packaged = {name: tmp_path / 'root' / name for name in files_below(tmp_path / 'root')}
    sums = (tmp_path / 'control' / 'md5sums').read_text().splitlines()
    links = {'usr/lib/libgamhilon.so'}
    assert {line.split('  ')[1] for line in sums} == set(packaged) - links
    subprocess.run(['md5sum', '--check', '--strict', '--quiet', tmp_path / 'control' / 'md5sums'],
                   cwd=tmp_path / 'root', check=True)
    released = {f'usr/{name}': folder / name for name in files_below(folder)}
    for name in ('SHA256SUMS', 'LICENSE', 'LICENSE-MIT', 'LICENSE-APACHE'):
        del released[f'usr/{name}']
    page = released.pop('usr/share/man/man1/gamhilon.1')
    completions = released.pop('usr/share/zsh/site-functions/_gamhilon')
    released['usr/share/zsh/vendor-completions/_gamhilon'] = completions
    more = {'usr/share/man/man1/gamhilon.1.gz', 'usr/share/doc/gamhilon/copyright'}
    assert set(packaged) == set(released) | more
    for name, path in released.items():
        assert packaged[name].read_bytes() == path.read_bytes()
        assert packaged[name].stat().st_mode == path.stat().st_mode
    zipped = packaged['usr/share/man/man1/gamhilon.1.gz'].read_bytes()
    assert gzip.decompress(zipped) == page.read_bytes()
    assert os.readlink(packaged['usr/lib/libgamhilon.so']) == 'libgamhilon.so.0'
    copyright_text = packaged['usr/share/doc/gamhilon/copyright'].read_text()
    assert 'Copyright: 2026 The Gamhilon maintainers\n' in copyright_text
    assert ' Permission is hereby granted, free of charge' in copyright_text


def test_all_in_a_package_is_of_root_and_of_one_time(package):
    path, _, _ = package
    rows = [row.split(maxsplit=5) for row in dpkg_deb('-c', str(path)).splitlines()]
    assert {owner for _, owner, *_ in rows} == {'root/root'}
    assert {(day, time) for _, _, _, day, time, _ in rows} == {('2026-01-01', '00:00')}
    rights = {name: rights for rights, *_, name in rows}
    assert rights['./'] == rights['./usr/share/man/man1/'] == 'drwxr-xr-x'
    assert rights['./usr/bin/gamhilon'] == '-rwxr-xr-x'
    assert rights['./usr/lib/libgamhilon.so.0'] == '-rw-r--r--'


def test_a_package_is_made_anew_of_what_is_built(package):
    path, _, out = package
    first = path.read_bytes()
    path.unlink()
    done = subprocess.run([sys.executable, 'build.py', '--deb'], cwd=out.parent, check=True,
                          capture_output=True, text=True)
    assert done.stdout == 'build.py: built out/gamhilon_0.3.0_amd64.deb\n'
    assert path.read_bytes() == first
    subprocess.run(['sha256sum', '--check', '--strict', '--quiet', 'SHA256SUMS'], cwd=out,
                   check=True)
    shutil.rmtree(out.parents[1] / 'crates' / 'gamhilon' / 'out')
    done = subprocess.run([sys.executable, 'build.py', '--deb'], cwd=out.parent,
                          capture_output=True, text=True)
    assert done.returncode == 1 and done.stderr.startswith('build.py: no release: ')


def test_what_a_package_needs_is_read_off_its_programs(package, tmp_path):
    _, _, out = package
    (tmp_path / 'one.c').write_text('int one(void) { return 1; }\n')
    (tmp_path / 'main.c').write_text('int one(void);\nint main(void) { return one(); }\n')
    for words in (['cc', '-shared', '-fPIC', '-Wl,-soname,libone.so.1', '-o', 'libone.so', 'one.c'],
                  ['cc', '-o', 'main', 'main.c', './libone.so']):
        subprocess.run(words, cwd=tmp_path, check=True)
    words = ('import debian, sys; print(debian.dependencies(sys.argv[2:], sys.argv[1]))')

    def needs(own, *paths):
        return subprocess.run([sys.executable, '-c', words, own, *paths], cwd=out.parent,
                              capture_output=True, text=True)

    assert needs('libone.so.1', tmp_path / 'main').stdout.startswith('libc6 (>= 2.')
    done = needs('libtwo.so.1', tmp_path / 'main')
    assert done.returncode == 1 and 'no package is known to have libone.so.1' in done.stderr
    # (of what is no program of its own nothing is asked for, as of one that is static)
    subprocess.run(['cc', '-c', 'one.c'], cwd=tmp_path, check=True)
    assert needs('libone.so.1', tmp_path / 'one.o').stdout == '\n'


def test_words_that_are_none_are_told(tree, monkeypatch):
    build = build_of(tree(), monkeypatch)
    for words in (['--weel'], ['--wheel-only', '--wheel']):
        with pytest.raises(SystemExit, match='--wheel-only'):
            build.main(words)


def test_an_interrupt_has_no_traceback(tree):
    root = tree(900)
    build = root / 'embed' / 'build.py'
    build.write_text(build.read_text().replace('PAUSE = 30\n', 'PAUSE = 0.2\n'))
    process = subprocess.Popen([sys.executable, build], cwd=root, stdout=subprocess.PIPE,
                               stderr=subprocess.PIPE, start_new_session=True,
                               preexec_fn=heed_interrupts)
    try:
        assert b'rt lib' in process.stdout.readline()
        # (it tells how far it is once it waits for the toolchain)
        assert b'libraries stand' in process.stdout.readline()
        os.killpg(process.pid, signal.SIGINT)
        # (a machine that does much else may leave it no time for minutes)
        assert process.wait(timeout=600) == 130
    finally:
        # (what of the made-up toolchain outlives it would hold the pipe open)
        with contextlib.suppress(ProcessLookupError):
            os.killpg(process.pid, signal.SIGKILL)
        _, error = process.communicate(timeout=600)
    assert error == b''
