#!/usr/bin/env python3
"""Plants wrong bodies in a crate over libraries that stand built, without proving what is below it once more.

    tools/plant_over.py LIBRARIES CRATE [FLAGS OF rt plant]

LIBRARIES is the top of a clone in which `rt ci` ran (it leaves each proved library in crates/NAME/out/rlib). It says what `rt plant` says, which in a
fresh clone would prove all crates below first: only the crate itself is checked here, as tools/check_over.py does it.
"""
import importlib.machinery
import os
import shutil
import subprocess
import sys
import types

import check_over


def load_plant():
    """The kit's own program, as a module."""
    kit = os.path.dirname(subprocess.check_output(["rt", "doc"], text=True).split()[0])
    module = types.ModuleType("rt_plant")
    module.__file__ = f"{kit}/bin/rt-plant"
    importlib.machinery.SourceFileLoader(module.__name__, module.__file__).exec_module(module)
    return module


def lend(crates, libraries, name):
    """Libraries that aren't in this clone are copied to where `rt plant` looks for them."""
    for use in check_over.below(crates, name):
        here = check_over.place(check_over.ROOT, use)
        if not os.path.isdir(here):
            shutil.copytree(check_over.place(libraries, use), here)


def main():
    if len(sys.argv) < 3:
        sys.exit(__doc__)
    libraries, name, *flags = sys.argv[1:]
    crates = check_over.read_crates()
    lend(crates, os.path.abspath(libraries), name)
    folder = os.path.join(check_over.ROOT, "crates", name)
    plant = load_plant()

    def check(*_):
        words, rattle = check_over.words_of(crates, check_over.ROOT, name, ["--jobs", "2"])
        ran = subprocess.run([rattle, "check", *words], cwd=folder, stdin=subprocess.DEVNULL, stdout=subprocess.PIPE, stderr=subprocess.STDOUT, text=True, errors="replace")
        print(ran.stdout)
        return ran.returncode

    plant.rt.main = check
    os.chdir(folder)
    return plant.main(name, *flags)


if __name__ == "__main__":
    sys.exit(main())
