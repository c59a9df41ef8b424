"""What the scripts take from inside the toolchain, since `rt` has no words for it: its own module
`rtlib`, its compiler of C, and where it keeps a library. A toolchain that moves one of these is
told of by name.

    python3 .ci/toolchain.py WORD..   what `rt WORD..` does, but for a check and a refusal

`rt try` begins a check too, which only gives a hint on names and takes as long as the run: here it
is replaced by `true`. C code may define `malloc`, which `rt` refuses of what is proved.
"""

import os
import shutil
import subprocess
import sys

from common import ROOT, below, stop, write

# What is used of rtlib, and of each crate that it knows.
OF_RTLIB = ("RATTLE", "crates_below", "main", "stop_on_taken_names")
OF_A_CRATE = ("is_built", "is_program", "rlib", "stamp")


def kit():
    """Returns the folder of the toolchain's kit."""
    page = subprocess.run(["rt", "doc"], capture_output=True, text=True, check=True).stdout
    return os.path.dirname(page.strip())


def clang():
    """Returns the compiler of C that `rt` uses."""
    path = os.path.join(kit(), "toolchain", "bin", "clang")
    if not os.path.exists(path):
        stop(f"this toolchain has no {path}")
    return path


def there(it, names):
    """Returns it, or stops if it has none of a name."""
    if lacking := [name for name in names if not hasattr(it, name)]:
        stop(f"this toolchain has moved {', '.join(lacking)}, which .ci/toolchain.py takes")
    return it


def rtlib():
    """Returns the module of which `rt` is made."""
    sys.path.insert(0, os.path.join(kit(), "bin"))
    try:
        import rtlib as found
    except ImportError:
        stop(f"this toolchain has no {kit()}/bin/rtlib.py")
    return there(found, OF_RTLIB)


def is_there(crate):
    """Returns whether `rt ci` has built the library in this checkout."""
    return os.path.exists(f"{ROOT}/crates/{crate}/out/rlib/{crate}.rlib/format")


def take_libraries(folder):
    """Copies the libraries that `rt ci` built into a copy of the repository, with the stamp by
    which `rt` knows their texts."""
    for it in rtlib().crates_below(folder):
        if not there(it, OF_A_CRATE).is_program and all(map(is_there, below(it.name))):
            taken = os.path.join(it.folder, "out", "rlib")
            shutil.copytree(os.path.join(ROOT, "crates", it.name, "out", "rlib"), taken)
            write(os.path.join(taken, "stamp"), it.stamp())
            if not it.is_built():
                stop(f"this toolchain does not take {taken} for the library {it.name}")


if __name__ == "__main__":
    inside = rtlib()
    inside.RATTLE, inside.stop_on_taken_names = "true", id
    sys.exit(inside.main(*sys.argv[1:]))
