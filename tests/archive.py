"""archive.py CRATE: builds a static library over the libraries that `rt ci` has just proved in this checkout.

`rt ci` leaves them in crates/NAME/out/rlib for its own use: `rt lib` would prove each of them again, since it takes only
what the commands of a crate's folder kept. The words that the compiler is given are those of `rt lib`, by rt's own
source; it proves the crate itself from nothing over the libraries' statements, as `rt ci` does."""
import os
import subprocess
import sys
from pathlib import Path

sys.dont_write_bytecode = True
from toolchain import loaded

ROOT = Path(__file__).resolve().parent.parent


def main(name):
    os.chdir(ROOT)
    rt = loaded('rtlib.py')
    crate = next(it for it in rt.crates_below(str(ROOT)) if it.name == name)
    lacking = [it.name for it in crate.below() if not os.path.isdir(it.rlib)]
    if lacking:
        sys.exit(f'archive: rt ci has left no library of {" ".join(lacking)}')
    os.makedirs(f'{crate.folder}/out', exist_ok=True)
    words = [*crate.words(['--jobs', '2'], keeps=False), '--toolchain', f'{rt.KIT}/toolchain', '--backend', 'llvm']
    return subprocess.run([rt.RATTLE, 'build', *words, '-o', f'out/lib{name}.a'], cwd=crate.folder).returncode


if __name__ == '__main__':
    sys.exit(main(sys.argv[1]))
