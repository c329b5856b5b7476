"""Builds the wheel of this folder, with the standard library alone, so `pip install ./python` needs
no network. A program that a checkout has built, or that PBISING_PROGRAM names, goes into the wheel.
"""
import base64
import hashlib
import os
import re
import sysconfig
import tarfile
import zipfile
from pathlib import Path

HERE = Path(__file__).resolve().parent
PROGRAM = HERE.parent / 'crates' / 'compile_program' / 'out' / 'compile_program'
VERSION = re.search(r"__version__ = '(.*)'", (HERE / 'pbising' / '__init__.py').read_text())[1]
INFO = f'pbising-{VERSION}.dist-info'
METADATA = f"""Metadata-Version: 2.1
Name: pbising
Version: {VERSION}
Summary: QUBO and Ising models of MaxSAT, 0-1 programs and polynomials
Requires-Python: >=3.9
Provides-Extra: fast
Requires-Dist: numpy; extra == 'fast'
Description-Content-Type: text/markdown

"""


def get_requires_for_build_wheel(config_settings=None):
    """Nothing is needed."""
    return []


get_requires_for_build_sdist = get_requires_for_build_editable = get_requires_for_build_wheel


def build_wheel(wheel_directory, config_settings=None, metadata_directory=None):
    """The package, and the program where there is one."""
    files = {f'pbising/{path.name}': path.read_bytes()
             for path in sorted((HERE / 'pbising').iterdir()) if path.suffix in ('.py', '.typed')}
    program = Path(os.environ.get('PBISING_PROGRAM') or PROGRAM)
    if program.is_file():
        files['pbising/compile_program'] = program.read_bytes()
    return _wheel(wheel_directory, files, program.is_file())


def build_editable(wheel_directory, config_settings=None, metadata_directory=None):
    """A line that leads to this folder."""
    return _wheel(wheel_directory, {'pbising.pth': f'{HERE}\n'.encode()}, False)


def build_sdist(sdist_directory, config_settings=None):
    """This folder."""
    name = f'pbising-{VERSION}.tar.gz'
    with tarfile.open(Path(sdist_directory) / name, 'w:gz') as archive:
        for path in sorted(HERE.rglob('*')):
            if path.is_file() and path.suffix in ('.py', '.md', '.toml', '.typed'):
                archive.add(path, f'pbising-{VERSION}/{path.relative_to(HERE)}')
    return name


def _wheel(folder, files, with_program):
    """Writes a wheel of some files."""
    tag = 'py3-none-any'
    if with_program:
        tag = 'py3-none-' + re.sub(r'[-.]', '_', sysconfig.get_platform())
    readme = (HERE / 'README.md').read_text(encoding='utf-8')
    files = {**files, f'{INFO}/METADATA': (METADATA + readme).encode(),
             f'{INFO}/WHEEL': f'Wheel-Version: 1.0\nGenerator: pbising\n'
                              f'Root-Is-Purelib: {str(not with_program).lower()}\n'
                              f'Tag: {tag}\n'.encode(),
             f'{INFO}/entry_points.txt': b'[console_scripts]\npbising = pbising.cli:main\n'}
    rows = [f'{name},sha256={_digest(data)},{len(data)}\n' for name, data in files.items()]
    files[f'{INFO}/RECORD'] = ''.join([*rows, f'{INFO}/RECORD,,\n']).encode()
    name = f'pbising-{VERSION}-{tag}.whl'
    with zipfile.ZipFile(Path(folder) / name, 'w', zipfile.ZIP_DEFLATED) as archive:
        for path, data in files.items():
            entry = zipfile.ZipInfo(path)
            mode = 0o755 if path.endswith('/compile_program') else 0o644
            entry.external_attr = (0o100000 | mode) << 16
            entry.compress_type = zipfile.ZIP_DEFLATED
            archive.writestr(entry, data)
    return name


def _digest(data):
    return base64.urlsafe_b64encode(hashlib.sha256(data).digest()).rstrip(b'=').decode()
