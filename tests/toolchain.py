"""The kit's own scripts as modules: rt, and rtlib.py, which says how a crate is checked and built."""
import importlib.machinery
import importlib.util
import shutil
import sys
from pathlib import Path


def loaded(name):
    """A script of the folder in which the command rt stands, as a module."""
    path = Path(shutil.which('rt') or sys.exit('the Rattle kit is missing: its command rt is not on the PATH')).resolve().parent / name
    loader = importlib.machinery.SourceFileLoader(path.stem, str(path))
    module = importlib.util.module_from_spec(importlib.util.spec_from_loader(path.stem, loader))
    sys.modules[path.stem] = module
    loader.exec_module(module)
    return module
