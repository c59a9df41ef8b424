"""Builds a proved program and its reference implementation. Also says in Python what `ne_runs` must
do, as the description of its modes and faults has it."""

import glob
import os
import re
import shutil
import subprocess
import sys

sys.dont_write_bytecode = True
HERE = os.path.dirname(os.path.abspath(__file__))
LIMIT = 1_048_576


def numbers_of(words, usage):
    """Returns the numbers that the words write. If a word is not a number of at least 1, the
    program ends and prints its usage."""
    if not all(re.fullmatch(r"[1-9]\d*", word, re.ASCII) for word in words):
        sys.exit(f"usage: {usage}")
    return [int(word) for word in words]


def separate(folder, name, home, listed=()):
    """Writes a repository of the libraries and of the crate of this name, a program, into this
    folder, and returns its root. The program's files are those of the folder `home` here. They have
    the ending `.txt`, since each `.rt` file of this repository belongs to a crate that the gate
    proves. If no crates are listed that the program stands on, these are all the libraries,
    `indexmap` and `serde_json`."""
    root = os.path.join(folder, "port")
    with open(os.path.join(HERE, os.pardir, "crates.txt"), encoding="utf-8") as it:
        lines = re.findall(r"^(?:ne_(?!runs)|nonempty_)\w+: .*$", it.read(), re.M)
    names = [it.partition(":")[0] for it in lines]
    sources = [(os.path.join(HERE, os.pardir, "crates", it), it, ("out",)) for it in names]
    sources.append((os.path.join(HERE, home), f"{name}/src", ()))
    for source, crate, left_out in sources:
        for at, folders, files in os.walk(source):
            folders[:] = [it for it in folders if it not in left_out]
            to = os.path.join(root, "crates", crate, os.path.relpath(at, source))
            os.makedirs(to, exist_ok=True)
            for it in (it for it in files if it.endswith((".txt", ".rt", ".antt"))):
                shutil.copy2(os.path.join(at, it), os.path.join(to, it.removesuffix(".txt")))
    with open(os.path.join(root, "crates.txt"), "w", encoding="utf-8") as it:
        listed = listed or [*names, "indexmap", "serde_json"]
        it.write("\n".join([*lines, f"{name}: {' '.join(listed)}", ""]))
    return root


def build(name="ne_runs", status=2, root=os.path.join(HERE, os.pardir)):
    """Proves and builds the program of the crate of this name, and returns its path. `status` is
    the exit status of a run without words and without input. If rt waits for another rt that works
    in this copy, its line that says so is printed at once."""
    crate = os.path.join(root, "crates", name)
    how = {
        "cwd": crate,
        "stdin": subprocess.DEVNULL,
        "stdout": subprocess.DEVNULL,
        "stderr": subprocess.PIPE,
    }
    # without words, a program that takes one prints its usage and ends with status 2
    said = b""
    with subprocess.Popen(["rt", "run"], **how) as run:
        for line in run.stderr:
            said += line
            if line.startswith(b"rt: waiting"):
                print(line.decode(errors="replace"), end="", file=sys.stderr, flush=True)
    if run.returncode != status or status == 2 and f"usage: {name} ".encode() not in said:
        sys.exit(
            "the program is not proved, or not built:\n" + said.decode(errors="replace")[-2000:]
        )
    return os.path.abspath(os.path.join(crate, "out", name))


def built_reference(folder, name):
    """Builds a program's reference implementation, with its modules, beside the Rust crate in this
    folder, and returns its path."""
    if not os.path.exists(os.path.join(folder, "Cargo.toml")):
        sys.exit(f"{folder} has no Cargo.toml: compare/README.md says how it is made")
    programs = os.path.join(folder, "src", "bin")
    os.makedirs(programs, exist_ok=True)
    for path in glob.glob(os.path.join(HERE, f"{name}*.rs")):
        shutil.copy(path, programs)
    subprocess.run(
        ["cargo", "build", "--release", "--offline", "--quiet", "--bin", name],
        cwd=folder,
        check=True,
    )
    return os.path.abspath(os.path.join(folder, "target", "release", name))


def ends(numbers):
    return [[len(numbers), numbers[0], numbers[-1]]]


def stats(numbers):
    return [[min(numbers), max(numbers), sum(numbers)]]


def runs(numbers, same, place=0):
    """Returns the runs. A number continues a run if it is the same as the run's first number, or,
    if the place is -1, as its last."""
    rows = []
    for number in numbers:
        if rows and same(rows[-1][place], number):
            rows[-1].append(number)
        else:
            rows.append([number])
    return rows


def equal(numbers):
    return runs(numbers, lambda m, n: m == n)


def parity(numbers):
    return runs(numbers, lambda m, n: m % 2 == n % 2)


def distinct(numbers):
    return [list(dict.fromkeys(numbers))]


def is_near(m, n):
    return abs(m - n) <= 1


def near(numbers):
    return runs(numbers, is_near)


def chain(numbers):
    return runs(numbers, is_near, -1)


MODES = {
    "ends": ends,
    "stats": stats,
    "equal": equal,
    "parity": parity,
    "distinct": distinct,
    "near": near,
    "chain": chain,
}


def number(line):
    is_good = 1 <= len(line) <= 9 and all(byte in b"0123456789" for byte in line)
    return int(line) if is_good else None


def wanted(words, given):
    """Returns the status, the standard output and the standard error that are expected."""
    if len(words) != 1 or words[0] not in MODES:
        return 2, b"", b"usage: ne_runs MODE\n"
    if len(given) > LIMIT:
        return 2, b"", b"input too long\n"
    lines = given.split(b"\n")
    if lines[-1] == b"":
        lines.pop()
    numbers = [number(line) for line in lines]
    if None in numbers:
        return 2, b"", b"bad line %d\n" % (numbers.index(None) + 1)
    if not numbers:
        return 1, b"", b"Given collection was empty\n"
    rows = MODES[words[0]](numbers)
    return 0, "".join(" ".join(map(str, row)) + "\n" for row in rows).encode(), b""


def ran(program, words, given):
    """Returns the status, the standard output and the standard error of the program."""
    done = subprocess.run([program, *words], input=given, capture_output=True)
    return done.returncode, done.stdout, done.stderr
