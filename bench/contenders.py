"""The contenders of the benchmark: each is bench/work.c, built in a temporary folder with what makes a map of it (bench/map.h)."""
import shutil
import subprocess
from collections import namedtuple
from pathlib import Path

HERE = Path(__file__).resolve().parent
ROOT = HERE.parent
LIBRARY, C_PORT, RUST_PORT = 'the library', 'the C port', 'the Rust port'
WARNED = ['cc', '-std=c11', '-Wall', '-Wextra', '-Werror', f'-I{ROOT}/include']
COMPILE = [*WARNED, '-D_GNU_SOURCE', '-O2', f'-I{HERE}', HERE / 'work.c']
# Those from Debian: the package that has the header, the contender's source, its name where it is not there, what is linked, and what the compiler is told.
DEBIAN = [
    ('libsqlite3-dev', 'sqlite.c', 'SQLite', '-lsqlite3'),
    ('liblmdb-dev', 'lmdb.c', 'LMDB', '-llmdb'),
    ('libdb5.3-dev', 'berkeley.c', 'Berkeley DB, with its locks', '-ldb-5.3', '-DLOCKED=1'),
    ('libdb5.3-dev', 'berkeley.c', 'Berkeley DB, without its locks', '-ldb-5.3', '-DLOCKED=0'),
    ('libtdb-dev', 'tdb.c', 'tdb', '-ltdb'),
    ('libgdbm-dev', 'gdbm.c', 'GDBM', '-lgdbm'),
]

# A contender: its name, what it locks, and its program; None where it could not be had.
Contender = namedtuple('Contender', 'name locks program')


class Failed(Exception):
    """What ended the run; the message says what."""


def output(*words, **more):
    """What a command prints; where it fails, that it did, with what it said."""
    try:
        return subprocess.run([str(word) for word in words], check=True, text=True, capture_output=True, **more).stdout
    except FileNotFoundError:
        raise Failed(f'there is no {words[0]}') from None
    except subprocess.CalledProcessError as failed:
        raise Failed(f'{failed.stderr.strip() or failed.stdout.strip()}\n{Path(words[0]).name} ended with {failed.returncode}') from None


def install(package):
    """Installs a Debian package: whether that went well."""
    try:
        stands = subprocess.run(['dpkg-query', '-W', '-f', '${Status}', package], capture_output=True, text=True)
        if stands.stdout != 'install ok installed':
            output('apt-get', 'update', '-qq')
            output('apt-get', 'install', '-y', '-qq', package)
    except (Failed, FileNotFoundError):
        return False
    return True


def need(command, package):
    """Sees to a command that the benchmark cannot do without."""
    if not shutil.which(command) and not (install(package) and shutil.which(command)):
        raise Failed(f'{command} is needed, and Debian’s package {package} cannot be installed')


def built(room, name, *words):
    """A contender's program, and its own words for its name and for what it locks."""
    program = room / name
    output(*COMPILE, *words, '-o', program)
    return Contender(*output(program, 'name').splitlines(), program)


def archive():
    """The library's archive as tests/staticlib builds it, which says on standard error what it does."""
    built_now = subprocess.run([ROOT / 'tests/staticlib'], stdout=subprocess.PIPE, text=True)
    if built_now.returncode != 0:
        raise Failed('tests/staticlib built no library')
    return built_now.stdout.split()[-1]


def library(room, given=None):
    """The library: the archive given, else its own."""
    return built(room, 'library', f'-DNAME="{LIBRARY}"', HERE / 'bead.c', given or archive())


def c_port(room):
    """The C port, compiled as tests/comparison/build.rs does."""
    output(*WARNED, '-O3', '-c', HERE / 'port.c', '-o', room / 'c_port.o')
    return built(room, 'c-port', f'-DNAME="{C_PORT}"', HERE / 'bead.c', room / 'c_port.o')


def rust_port(room):
    output('cargo', 'build', '-j1', '--offline', '--locked', '--release', '--quiet', '--lib', '--manifest-path', ROOT / 'tests/port/Cargo.toml', '--target-dir', room / 'cargo')
    return built(room, 'rust-port', f'-DNAME="{RUST_PORT}"', HERE / 'bead.c', room / 'cargo/release/libbead_port.a')


def standard(room, kind):
    """One of Rust's own maps: hash or tree."""
    archive = room / f'lib{kind}.a'
    output('rustc', '--edition', '2021', '-C', 'opt-level=3', '-C', 'panic=abort', '--crate-type', 'staticlib', '--cfg', kind, HERE / 'std_maps.rs', '-o', archive)
    return built(room, kind, archive)


def debian(room, package, source, name, linked, *told):
    if not install(package):
        return Contender(f'{name} (its package {package} did not install)', '', None)
    return built(room, '-'.join([Path(source).stem, *told]), *told, HERE / source, linked)


def every(room, given, say):
    """All contenders, in the table's order."""
    say('building the contenders')
    indexes = [library(room, given), c_port(room), rust_port(room)]
    return indexes + [standard(room, kind) for kind in ('hash', 'tree')] + [debian(room, *kind) for kind in DEBIAN]
