"""What the scripts share: reading the repository's files, a scratch copy of crates that runs
unproved, and runs in which each request for memory is refused in turn."""

import functools
import os
import re
import shutil
import subprocess
import sys
from concurrent.futures import ThreadPoolExecutor

sys.dont_write_bytecode = True
sys.stdout.reconfigure(line_buffering=True)
ROOT = os.path.abspath(os.path.join(os.path.dirname(os.path.abspath(__file__)), os.pardir))
SCRIPT = os.path.basename(sys.argv[0])
QUIET = {
    "stdin": subprocess.DEVNULL,
    "stdout": subprocess.PIPE,
    "stderr": subprocess.STDOUT,
    "text": True,
}


def stop(why):
    sys.exit(f"{SCRIPT}: {why}")


@functools.cache
def read(path):
    """Returns the text of a file. Its path is absolute or relative to the repository."""
    try:
        with open(os.path.join(ROOT, path), encoding="utf-8") as it:
            return it.read()
    except OSError as error:
        stop(f"{os.path.relpath(os.path.join(ROOT, path), ROOT)} cannot be read: {error.strerror}")


def write(path, text):
    os.makedirs(os.path.dirname(path), exist_ok=True)
    with open(path, "w", encoding="utf-8") as it:
        it.write(text)


def crates():
    """Returns the libraries that each crate of crates.txt lists, in the order of that file."""
    rows = re.findall(r"^(\w+):(.*)$", read("crates.txt"), re.M)
    return {name: listed.split() for name, listed in rows}


def libraries():
    """Returns the crates that are libraries: those that have no program and are not of a user."""
    names = [it for it in crates() if not it.startswith("user_")]
    return [it for it in names if os.path.exists(f"{ROOT}/crates/{it}/src/lib.rt")]


def counted(what, number):
    """Returns the number of things that a script has met. Stops if .ci/counts, which names each
    such number, has another one, so that none goes unseen."""
    wanted = dict(re.findall(r"^(.+): (\d+)$", read(".ci/counts"), re.M)).get(what, "none")
    if wanted != str(number):
        stop(f"{what}: here are {number}, .ci/counts has {wanted}. If it is meant, change that.")
    return number


def below(*names):
    """Returns these crates and those of the repository that they depend on."""
    found, left = set(), [*names]
    while left:
        name = left.pop()
        found.add(name)
        left += [it for it in crates()[name] if it in crates() and it not in found]
    return [it for it in crates() if it in found]


def copy_crates(folder, names, also=""):
    """Copies crates into the folder, and writes its crates.txt with their lines and others."""
    for it in names:
        shutil.copytree(
            os.path.join(ROOT, "crates", it),
            os.path.join(folder, "crates", it),
            ignore=shutil.ignore_patterns("out"),
        )
    lines = [f"{it}: {' '.join(crates()[it])}\n" for it in names]
    write(os.path.join(folder, "crates.txt"), "".join(lines) + also)


def errors_of(said):
    """Returns the errors of the source in what a check printed, except those for a law without a
    proof: a check reports such a law as an error in the source, and continues."""
    row = r"^(?:so far: )?(?:\./)?(src/\S+:\d+:\d+: error(?!: `\w+-value`).*)"
    return re.findall(row, said, re.M)


def write_heap(folder, head=""):
    """Writes heap.c into the folder of a crate, whose program then has that heap."""
    write(os.path.join(folder, "c", "heap.c"), head + read(".ci/heap.c"))


def unproved(folder, *words, given=""):
    """Runs `rt try` with these words in the folder of a crate, without its check, on this input, and
    returns what its program prints. The interpreter would run the program first, and slowly: it is
    stopped at once."""
    how = {"input": given, "capture_output": True, "text": True, "cwd": folder}
    how["env"] = {**os.environ, "RT_ALLOW_C": "1"}
    words = ["try", "--steps", "1", "--seconds", "600", *words]
    ran = subprocess.run([sys.executable, f"{ROOT}/.ci/toolchain.py", *words], **how)
    errors = errors_of(ran.stderr)
    if errors or "runners=1" not in ran.stderr or "memory are not freed" in ran.stderr:
        said = "\n".join([*errors[:9], ran.stdout[-2000:], ran.stderr[-2000:]])
        stop(f"{os.path.basename(folder)} does not run:\n{said}")
    return ran.stdout


def passes(said):
    """Returns what each of the runs has printed of a program that runs in turn with heap.c, and the
    status of each but the last one, in which no request is refused."""
    parts = re.split(r"^ *-- request \d+ is refused: status (\d+)\n", said, flags=re.M)
    return parts[::2], [*map(int, parts[1::2])]


def in_threads(call, items):
    """Returns the result of the call for each item. Several calls run at the same time."""
    with ThreadPoolExecutor(len(os.sched_getaffinity(0))) as threads:
        return list(threads.map(call, items))
