#!/usr/bin/env python3
"""Makes the library for C, target/staticlib/libfringewell.a, of crates/fringewell_c.

usage: tools/make/library.py             by `rt lib`, which proves what has changed of it and of the crates below
       tools/make/library.py --behind-ci    over the libraries that `rt ci` has left, in seconds; for the gate, right behind `rt ci`
"""
import re
import shutil
import subprocess
import sys
from pathlib import Path

ROOT = Path(__file__).resolve().parents[2]
sys.path.insert(0, str(ROOT / "tools"))
import kit

CRATE = "fringewell_c"
ARCHIVE = ROOT / "target/staticlib/libfringewell.a"


def by_rt():
    """Its status, what was said, and the archive."""
    folder = ROOT / "crates" / CRATE
    ran = subprocess.run(["rt", "lib"], cwd=folder, stdout=subprocess.PIPE, stderr=subprocess.STDOUT, text=True)
    return ran.returncode, ran.stdout, folder / f"out/lib{CRATE}.a"


def behind_ci():
    made = ARCHIVE.with_suffix(".new")
    status, said = kit.rattle("build", CRATE, "--toolchain", f"{kit.rtlib().KIT}/toolchain", "--backend", "llvm", "-o", str(made), jobs=2)
    return status, said, made


def main():
    if sys.argv[1:] not in ([], ["--behind-ci"]):
        sys.exit(__doc__)
    ARCHIVE.parent.mkdir(parents=True, exist_ok=True)
    status, said, made = behind_ci() if sys.argv[1:] else by_rt()
    if status:
        sys.exit(f"{said}\nno library was made")
    shutil.copyfile(made, ARCHIVE)
    if sys.argv[1:]:
        made.unlink()
    verdict = re.findall(r"^logic=proved .*", said, re.M)[-1]
    assumed = re.findall(r" ((?:foreign|axioms)=\S+)", verdict)
    if assumed:
        sys.exit(f"the library for C assumes something: {' '.join(assumed)}")
    print(f"{ARCHIVE.relative_to(ROOT)}: {verdict}")


if __name__ == "__main__":
    main()
