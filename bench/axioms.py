#!/usr/bin/env python3
"""Lists the functions of C whose contracts the proof of the program assumes, and compares them with the
ones below.

    axioms.py

It checks the program once more over the libraries that `rt ci` leaves, and reads what the kit says. Nothing
checks the contract of such a function. Ends with 1 where one is reached that is not listed here, or one
that is listed is reached no longer.
"""
import re
import shutil
import subprocess
import sys
from pathlib import Path

TOP = Path(__file__).resolve().parent.parent
PROGRAM = 'compile_program'
ASSUMED = '''
libc::chdir libc::chmod libc::chown libc::close libc::fchmod libc::fdatasync libc::flock libc::fsync
libc::ftruncate libc::futimens libc::getcwd libc::heap::rattle_alloc libc::heap::rattle_dealloc
libc::heap::rattle_realloc libc::lchown libc::link libc::lseek libc::mkdir libc::net::bind libc::pipe2
libc::read libc::readlink libc::realpath libc::rename libc::rmdir libc::statx libc::symlink libc::unlink
libc::write os::c::fcntl os::c::getdents64 os::c::open os::c::rattle_arg os::c::rattle_env
os::c::rattle_env_at os::c::rattle_errno os::c::rattle_open_dir_at os::c::rattle_set_errno os::c::unlinkat
'''


def below(name, lines):
    """The crates that a crate names, of the lines of crates.txt."""
    return next(line.split(':')[1].split() for line in lines if line.split(':')[0].split()[:1] == [name])


def words(kit):
    """The words of a check of the program."""
    lines = [line for line in (TOP / 'crates.txt').read_text().splitlines() if ':' in line]
    library = '{}/crates/{}/out/rlib/{}.rlib'.format
    named = [f'--extern={name}={library(TOP, name, name)}' for name in below(PROGRAM, lines)]
    found = [f'-Ldependency={path}' for path in TOP.glob('crates/*/out/rlib')]
    return [f'{kit}/bin/rattle', 'check', '--crate-name', PROGRAM, 'src/main.rt', '--list-axioms',
            f'--extern=std={kit}/rlibs/std.rlib', f'-Ldependency={kit}/rlibs', *named, *found,
            '--antt-project', f'{kit}/rattle/logic/antt-project.json', '--logic-built', f'{kit}/logic_built',
            '--links', f'{PROGRAM}=']


def reached(text):
    """The functions that a check reached."""
    return set(re.findall(r'^  (\w+(?:::\w+)+) +reached$', text, re.M))


def main():
    kit = Path(shutil.which('rt')).resolve().parent.parent
    done = subprocess.run(words(kit), cwd=TOP / 'crates' / PROGRAM, stdout=subprocess.PIPE,
                          stderr=subprocess.STDOUT, text=True, check=False)
    if 'logic=proved' not in done.stdout:
        sys.exit(f'the program is not proved:\n{done.stdout[-2000:]}')
    found, listed = reached(done.stdout), set(ASSUMED.split())
    for name in sorted(found ^ listed):
        print(f'{name} is {"reached, and not listed" if name in found else "listed, and not reached"}')
    print(f'{len(found)} functions of C are assumed')
    sys.exit(found != listed)


if __name__ == '__main__':
    main()
