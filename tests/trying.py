"""Tries must-fail edits one at a time over what is proved of their crate, and gives all that the check says: `rt ci` prints of each edit one line alone."""
import os
import shutil
import sys
import tempfile
from contextlib import contextmanager
from pathlib import Path

sys.dont_write_bytecode = True
from toolchain import loaded

ROOT = Path(__file__).resolve().parent.parent


def crates():
    """The crates by their names, as rt has them."""
    os.chdir(ROOT)
    rt = loaded('rt')
    rt.rtlib.guarded()
    known = {it.name: it for it in rt.rtlib.crates_below(str(ROOT))}
    for crate in known.values():
        # What a library's build says; where it fails, `rt check` says it again.
        crate.out = open(os.devnull, 'w', encoding='utf-8')
    return rt, known


def lanes(rt, crate):
    """How many checks of the crate fit the processors and the memory at once."""
    return max(1, min(rt.processors(), int(0.8 * rt.free() / rt.need(crate))))


@contextmanager
def proved(rt, crate, jobs=1):
    """A folder with what a check of the crate as it stands proved, begun with what rt check kept; None where it is not proved."""
    room = tempfile.mkdtemp(prefix='tests-edits-')
    try:
        seed, kept = f'{room}/seed', f'{crate.folder}/out/incremental'
        if os.path.isdir(kept):
            rt.linked(kept, seed)
        else:
            os.mkdir(seed)
        yield None if rt.checked(crate, {}, ['--jobs', str(jobs)], seed).returncode else room
    finally:
        shutil.rmtree(room, ignore_errors=True)


def tried(rt, crate, edit, room):
    """What the check of a crate with an edit ends with, and all that it says; the reason why, where the edit does not fit."""
    texts, why = rt.read_edit(str(edit), crate.folder)
    if why:
        return None, why
    over = f'{room}/{Path(edit).stem}'
    try:
        rt.linked(f'{room}/seed', over)
        ran = rt.checked(crate, texts, ['--jobs', '1'], over)
        return ran.returncode, ran.stdout
    finally:
        shutil.rmtree(over, ignore_errors=True)
