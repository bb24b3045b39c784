"""Builds the wheel of the package: its files, the shared library, the program `gamhilon`, the
styles of examples/styles, its licence, and a note of the build.

It is the build backend of pyproject.toml (PEP 517), which has all that it says of the package but
the version, and on Python 3.11 or later it needs nothing from a package registry. The library and
the note of its build are ../out/libgamhilon.so and ../out/gamhilon_build.json, which ../build.py
makes; the program is that of ../../crates/gamhilon, as `rt run` or `rt ci` built it. A wheel is
made without the program where that isn't built, and then installs no command `gamhilon`.
"""
import base64
import hashlib
import os
import platform
import re
import stat
import zipfile

try:
    import tomllib
except ImportError:  # before Python 3.11
    import tomli as tomllib

HERE = os.path.dirname(os.path.abspath(__file__))
ROOT = os.path.normpath(f'{HERE}/../..')
OUT = os.path.normpath(f'{HERE}/../out')
SOURCE = f'{HERE}/src'
STYLES = f'{ROOT}/examples/styles'
PROGRAM = f'{ROOT}/crates/gamhilon/out/gamhilon'
NAME = 'gamhilon'
SUFFIXES = ('.py', '.css', '.sty', '.typed')
LICENSES = ('LICENSE', 'LICENSE-MIT', 'LICENSE-APACHE')
LEFT_OUT = (f'gamhilon_wheel: left out: the program {NAME}, which is not built; the wheel installs '
            'no command of this name')
WHEEL = """Wheel-Version: 1.0
Generator: gamhilon_wheel
Root-Is-Purelib: false
Tag: {tag}
"""


def read(path):
    with open(path, 'rb') as file:
        return file.read()


def version():
    """The package's version, which stands in it once."""
    text = read(f'{SOURCE}/{NAME}/_version.py').decode()
    return re.search(r"^__version__ = '(.+)'$", text, re.MULTILINE).group(1)


def project():
    """What pyproject.toml says of the package."""
    with open(f'{HERE}/pyproject.toml', 'rb') as file:
        return tomllib.load(file)['project']


def metadata():
    """The metadata of the package, and its readme (Metadata 2.1)."""
    said = project()
    fields = [('Metadata-Version', '2.1'), ('Name', said['name']), ('Version', version()),
              ('Summary', said['description']), *(('Author', it['name']) for it in said['authors']),
              ('Keywords', ','.join(said['keywords'])),
              ('License', said['license']['text']), ('Requires-Python', said['requires-python']),
              *(('License-File', name) for name in LICENSES),
              *(('Classifier', classifier) for classifier in said['classifiers']),
              *(('Project-URL', f'{label}, {url}') for label, url in said['urls'].items()),
              ('Description-Content-Type', 'text/markdown')]
    lines = [f'{field}: {value}\n' for field, value in fields]
    return ''.join(lines).encode() + b'\n' + read(f'{HERE}/{said["readme"]}')


def entry_points():
    """The commands of the package, and where other programs find its extensions."""
    said = project()
    groups = {'console_scripts': said['scripts'], **said['entry-points']}
    texts = ['\n'.join([f'[{group}]', *(f'{name} = {place}' for name, place in points.items()), ''])
             for group, points in groups.items()]
    return '\n'.join(texts).encode()


def glibc_of(binary):
    """The lowest glibc that has all that a library or a program asks for: the number after 2."""
    asked = re.findall(rb'\bGLIBC_2\.(\d+)', read(binary))
    return max(map(int, asked), default=17)


def tag():
    """The wheel's tag: any Python 3, and Linux on this kind of processor with a glibc that has what
    the library and the program ask for."""
    binaries = [f'{OUT}/libgamhilon.so', *([PROGRAM] if has_program() else [])]
    glibc = max(17, *map(glibc_of, binaries))
    return f'py3-none-manylinux_2_{glibc}_{platform.machine()}'


def has_program():
    """Whether the program is built."""
    return os.path.exists(PROGRAM)


def path_of_program():
    """The path of the program in the wheel: installers put it on PATH from there (PEP 427)."""
    return f'{NAME}-{version()}.data/scripts/{NAME}'


def files():
    """What the wheel has, by its path in it, but for its record."""
    library, note = f'{OUT}/libgamhilon.so', f'{OUT}/gamhilon_build.json'
    if not os.path.exists(library):
        raise FileNotFoundError(f'{library} is not there: build it first, by embed/build.py')
    found = {}
    for folder, _, names in os.walk(f'{SOURCE}/{NAME}'):
        for name in names:
            if name.endswith(SUFFIXES):
                path = os.path.join(folder, name)
                found[os.path.relpath(path, SOURCE)] = read(path)
    for name in sorted(os.listdir(STYLES)):
        if name.endswith('.csl'):
            found[f'{NAME}/style_files/{name}'] = read(f'{STYLES}/{name}')
    found[f'{NAME}/org/oc-gamhilon.el'] = read(f'{ROOT}/embed/org/oc-gamhilon.el')
    found[f'{NAME}/libgamhilon.so'] = read(library)
    found[f'{NAME}/gamhilon_build.json'] = read(note) if os.path.exists(note) else b'{}\n'
    if has_program():
        found[path_of_program()] = read(PROGRAM)
    info = f'{NAME}-{version()}.dist-info'
    found[f'{info}/METADATA'] = metadata()
    found[f'{info}/WHEEL'] = WHEEL.format(tag=tag()).encode()
    found[f'{info}/entry_points.txt'] = entry_points()
    for name in LICENSES:
        found[f'{info}/{name}'] = read(f'{ROOT}/{name}')
    return found


def record(found):
    """The record of the files, with their checksums (PEP 376)."""
    info = f'{NAME}-{version()}.dist-info'
    rows = [f'{path},sha256={checksum(data)},{len(data)}\n' for path, data in found.items()]
    return ''.join([*rows, f'{info}/RECORD,,\n']).encode()


def checksum(data):
    """The checksum of a file, as a record has it."""
    return base64.urlsafe_b64encode(hashlib.sha256(data).digest()).rstrip(b'=').decode()


def entry_of(name):
    """What the archive says of a file: who may do what with it, and a fixed date, so that one
    library and one program make one wheel."""
    entry = zipfile.ZipInfo(name, (2026, 1, 1, 0, 0, 0))
    rights = 0o755 if name == path_of_program() else 0o644
    entry.external_attr = (stat.S_IFREG | rights) << 16
    return entry


def build_wheel(wheel_directory, config_settings=None, metadata_directory=None):
    """Writes the wheel into the folder, and gives its name (PEP 517, PEP 427). Prints a line where
    it is without the program."""
    found = files()
    if not has_program():
        print(LEFT_OUT, flush=True)
    found[f'{NAME}-{version()}.dist-info/RECORD'] = record(found)
    wheel = f'{NAME}-{version()}-{tag()}.whl'
    with zipfile.ZipFile(os.path.join(wheel_directory, wheel), 'w',
                         zipfile.ZIP_DEFLATED) as archive:
        for name in sorted(found):
            archive.writestr(entry_of(name), found[name], zipfile.ZIP_DEFLATED)
    return wheel
