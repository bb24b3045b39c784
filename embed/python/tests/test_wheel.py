"""The wheel, from a library and a program that stand in for the built ones."""
import base64
import configparser
import email
import hashlib
import json
import os
import re
import shutil
import stat
import subprocess
import sys
import zipfile

import pytest
from conftest import PROJECT, ROOT
from stand_ins import put_program

from gamhilon import _library

sys.path.insert(0, PROJECT)
import gamhilon_wheel  # noqa: E402

pytestmark = pytest.mark.skipif(not shutil.which('cc') or not shutil.which('objdump'),
                                reason='there is no C compiler')


@pytest.fixture
def wheel(tmp_path, monkeypatch):
    """A wheel with a library that calls a function of glibc 2.34, a program, and a note."""
    out = tmp_path / 'out'
    out.mkdir()
    (tmp_path / 'a.c').write_text('#include <pthread.h>\n'
                                  'int f(void) { return pthread_detach(pthread_self()); }\n')
    subprocess.run(['cc', '-shared', '-fPIC', '-o', str(out / 'libgamhilon.so'),
                    str(tmp_path / 'a.c')], check=True)
    (out / 'gamhilon_build.json').write_text(json.dumps({'commit': 'c0ffee', 'toolchain': 'kit-1'}))
    put_program(tmp_path / 'gamhilon')
    monkeypatch.setattr(gamhilon_wheel, 'OUT', str(out))
    monkeypatch.setattr(gamhilon_wheel, 'PROGRAM', str(tmp_path / 'gamhilon'))
    name = gamhilon_wheel.build_wheel(str(tmp_path))
    return tmp_path / name


def commands_of(archive):
    """The names of the console scripts of a wheel."""
    info = f'gamhilon-{gamhilon_wheel.version()}.dist-info'
    points = configparser.ConfigParser()
    points.read_string(archive.read(f'{info}/entry_points.txt').decode())
    return list(points['console_scripts'])


def test_its_tag_tells_the_glibc_that_the_library_and_the_program_ask_for(wheel):
    version, python, abi, platform = wheel.name[:-len('.whl')].split('-')[1:]
    asked = subprocess.run(['objdump', '-T', str(wheel.parent / 'out' / 'libgamhilon.so')],
                           capture_output=True,
                           text=True).stdout
    assert (python, abi) == ('py3', 'none') and platform.startswith('manylinux_2_')
    assert f'GLIBC_2.{platform.split("_")[2]}' in asked or platform.split('_')[2] == '17'
    with zipfile.ZipFile(wheel) as archive:
        told = archive.read(f'gamhilon-{version}.dist-info/WHEEL').decode()
        assert f'Tag: py3-none-{platform}\n' in told
    (wheel.parent / 'gamhilon').write_bytes(b'GLIBC_2.17\0GLIBC_2.99\0')
    assert gamhilon_wheel.tag().startswith('py3-none-manylinux_2_99_')


# What each Linux of a manylinux tag has beside glibc's own (PEP 600, auditwheel's policies).
EVERYWHERE = {'libc.so.6', 'libm.so.6', 'libdl.so.2', 'librt.so.1', 'libpthread.so.0',
              'libgcc_s.so.1', 'ld-linux-x86-64.so.2'}


def test_what_is_built_needs_what_each_linux_has(built):
    binaries = [_library.path(), *filter(os.path.exists, [gamhilon_wheel.PROGRAM])]
    for binary in binaries:
        told = subprocess.run(['objdump', '-p', binary], capture_output=True, text=True).stdout
        needed = {line.split()[1] for line in told.splitlines() if line.split()[:1] == ['NEEDED']}
        assert 'libc.so.6' in needed and needed <= EVERYWHERE
        versions = re.findall(r'\b(?:GLIBCXX|CXXABI|GCC)_[\d.]+', told)
        assert versions == [] and 'RUNPATH' not in told and 'RPATH' not in told


def test_it_has_the_program_and_no_other_command_of_that_name(wheel):
    place = f'gamhilon-{gamhilon_wheel.version()}.data/scripts/gamhilon'
    with zipfile.ZipFile(wheel) as archive:
        assert archive.read(place) == (wheel.parent / 'gamhilon').read_bytes()
        rights = {entry.filename: entry.external_attr >> 16 for entry in archive.infolist()}
        assert rights.pop(place) == stat.S_IFREG | 0o755
        assert set(rights.values()) == {stat.S_IFREG | 0o644}
        record, = [name for name in archive.namelist() if name.endswith('.dist-info/RECORD')]
        assert f'\n{place},sha256=' in archive.read(record).decode()
        assert commands_of(archive) == ['gamhilon-pandoc']


def test_without_the_program_it_has_no_command_of_that_name(wheel, tmp_path, capsys):
    (tmp_path / 'gamhilon').unlink()
    capsys.readouterr()
    name = gamhilon_wheel.build_wheel(str(tmp_path))
    assert capsys.readouterr().out == (
        'gamhilon_wheel: left out: the program gamhilon, which is not built; the wheel installs no '
        'command of this name\n')
    with zipfile.ZipFile(tmp_path / name) as archive:
        assert not any('.data/' in path for path in archive.namelist())
        assert commands_of(archive) == ['gamhilon-pandoc']


def test_it_has_what_a_user_needs(wheel):
    with zipfile.ZipFile(wheel) as archive:
        names = archive.namelist()
        info = next(name.split('/')[0] for name in names if '.dist-info/' in name)
        for name in ('__init__.py', '__main__.py', 'py.typed', 'libgamhilon.so',
                     'gamhilon_build.json',
                     'csl/__init__.py', 'gamhilon.css', 'tex/gamhilon.sty',
                     'org/oc-gamhilon.el'):
            assert f'gamhilon/{name}' in names
        for name in ('author-date', 'labels', 'notes', 'numeric'):
            with open(f'{ROOT}/examples/styles/{name}.csl', 'rb') as file:
                assert archive.read(f'gamhilon/style_files/{name}.csl') == file.read()
        assert not any('__pycache__' in name or name.endswith('.pyc') for name in names)
        for name in ('LICENSE', 'LICENSE-MIT', 'LICENSE-APACHE'):
            with open(f'{ROOT}/{name}', 'rb') as file:
                assert archive.read(f'{info}/{name}') == file.read()
        entry_points = archive.read(f'{info}/entry_points.txt').decode()
        assert 'gamhilon-pandoc = gamhilon.pandoc_filter:main' in entry_points
        assert '[mkdocs.plugins]\ngamhilon = gamhilon.mkdocs_plugin:CitationPlugin\n' \
            in entry_points
        assert '[markdown.extensions]\ngamhilon = gamhilon.python_markdown:' in entry_points
        for line in archive.read(f'{info}/RECORD').decode().splitlines():
            name, checksum, size = line.rsplit(',', 2)
            if checksum:
                data = archive.read(name)
                told = base64.urlsafe_b64encode(hashlib.sha256(data).digest()).rstrip(b'=').decode()
                assert (checksum, size) == (f'sha256={told}', str(len(data)))
        assert len(archive.read(f'{info}/RECORD').decode().splitlines()) == len(names)


def test_it_says_what_pyproject_says(wheel):
    with zipfile.ZipFile(wheel) as archive:
        info = f'gamhilon-{gamhilon_wheel.version()}.dist-info'
        said = email.message_from_bytes(archive.read(f'{info}/METADATA'))
        for name in said.get_all('License-File'):
            assert f'{info}/{name}' in archive.namelist()
    assert said['Name'] == 'gamhilon' and said['Version'] == gamhilon_wheel.version()
    assert said['Author'] == 'Gamhilon maintainers'
    assert said['Requires-Python'] == '>=3.8' and said['License'] == 'MIT OR Apache-2.0'
    assert 'License :: OSI Approved :: MIT License' in said.get_all('Classifier')
    assert said.get_all('Project-URL')[1] == 'The original, https://github.com/typst/hayagriva'
    assert said.get_payload().startswith('# Gamhilon for Python\n\nCitations and')


def test_one_library_and_one_program_make_one_wheel(wheel, tmp_path):
    other = tmp_path / 'other'
    other.mkdir()
    gamhilon_wheel.build_wheel(str(other))
    assert (other / wheel.name).read_bytes() == wheel.read_bytes()


def test_its_version_tells_the_commit_and_the_toolchain(wheel, tmp_path):
    with zipfile.ZipFile(wheel) as archive:
        archive.extractall(tmp_path / 'site')
    words = ('import gamhilon; print(gamhilon.version()); print(gamhilon.version().commit); '
             'print(gamhilon.styles.path("notes"))')
    how = {'cwd': tmp_path, 'env': {'PYTHONPATH': str(tmp_path / 'site')}}
    done = subprocess.run([sys.executable, '-c', words], capture_output=True, text=True, **how)
    version = gamhilon_wheel.version()
    assert done.stdout == (f'gamhilon {version} (commit c0ffee, proved by kit-1)\nc0ffee\n'
                           f'{tmp_path}/site/gamhilon/style_files/notes.csl\n')


def test_a_library_that_is_not_there_is_told(tmp_path, monkeypatch):
    monkeypatch.setattr(gamhilon_wheel, 'OUT', str(tmp_path))
    with pytest.raises(FileNotFoundError, match='embed/build.py'):
        gamhilon_wheel.build_wheel(str(tmp_path))
