"""A crate as the toolchain's own compiler is given it: for checks and for a library that `rt` has no command for.

Both lean on what `rt` left of the crates below in crates/*/out, which is up to date right behind `rt ci`.
"""
import subprocess
import sys
from functools import cache
from importlib.machinery import SourceFileLoader
from importlib.util import module_from_spec, spec_from_loader
from pathlib import Path

ROOT = Path(__file__).resolve().parents[1]


@cache
def rtlib():
    """The part of `rt` that reads crates.txt."""
    guide = subprocess.run(["rt", "doc"], capture_output=True, text=True, check=True).stdout.strip()
    loader = SourceFileLoader("rtlib", str(Path(guide).parent / "bin/rtlib.py"))
    module = module_from_spec(spec_from_loader("rtlib", loader))
    written, sys.dont_write_bytecode = sys.dont_write_bytecode, True
    loader.exec_module(module)
    sys.dont_write_bytecode = written
    return module


def is_built(library):
    """Whether the library lies in out/ as `rt ci` left it, with no stamp, or is by its stamp of the text that is there now."""
    rlib = Path(library.rlib)
    return rlib.is_dir() and (not (rlib.parent / "stamp").exists() or library.is_built())


@cache
def crate(name):
    """The crate; ends the program where a library below it is not built."""
    found = rtlib().Crate(str(ROOT / "crates" / name), str(ROOT), {})
    missing = [it.name for it in found.below() if not is_built(it)]
    if missing:
        sys.exit(f"{name} leans on {', '.join(missing)}, of which nothing is built, or something older: run rt ci, or rt check in crates/{name}")
    return found


def rattle(verb, name, *words, folder=None, jobs=1):
    """Runs `rattle check` or `rattle build` of a crate, or of its text in another folder; its status, and what it printed."""
    it = crate(name)
    command = [rtlib().RATTLE, verb, *it.words(["--jobs", str(jobs)], keeps=False), *words]
    ran = subprocess.run(command, cwd=folder or it.folder, stdin=subprocess.DEVNULL, stdout=subprocess.PIPE, stderr=subprocess.STDOUT, text=True, errors="replace")
    return ran.returncode, ran.stdout
