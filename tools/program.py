"""The crates of the program, which of them are proved, and whether the program was made from the sources that are here.

All of it is decided by what files contain, never by their times: a checkout, a copy and an archive set those anew.

Usage: python3 tools/program.py [COMPILER]   (exit status 0 if the program was made from these sources, by that one)

A library is proved if the sum in crates/NAME/out/rlib/stamp is the one that `rt` computes of its sources, its line of
crates.txt, the libraries below it and the toolchain; so rt takes it in whatever checkout it was proved. Of the program,
rt keeps such a sum only if LLVM compiled it and no compiler was named. So tools/build writes a record beside each
program that it makes: the sums of the program and of all sources, the compiler, the toolchain, and what the check said
at its end. bin/custody asks for it at each start. Hence this file imports little, and needs no rt for it.
"""

import contextlib
import fcntl
import hashlib
import os
import sys

TOP = os.path.dirname(os.path.dirname(os.path.realpath(__file__)))
PROGRAM = "custody"
SOURCES = ("src", "specs", "proofs")
COMPILERS = ("rattle", "llvm")
OUT = f"{TOP}/crates/{PROGRAM}/out"
MADE = f"{OUT}/{PROGRAM}"
RECORD = f"{MADE}.made"


def lines():
    """The lines of crates.txt that list a crate, by its name."""
    with open(f"{TOP}/crates.txt", encoding="utf-8") as file:
        listed = [line.rstrip("\n") for line in file if line.strip() and not line.startswith("#")]
    return {line.partition(":")[0].split()[0]: line for line in listed}


def uses(line, listed):
    """The crates of this repository that the crate of a line uses."""
    return [word for word in line.partition(":")[2].split() if word in listed]


def crates_below(*names):
    """The lines of these crates and of all that they use, each after those that it uses."""
    listed, found = lines(), {}

    def find(name):
        """Adds a crate, after those below it."""
        if name not in found:
            for other in uses(listed[name], listed):
                find(other)
            found[name] = listed[name]

    for name in names:
        find(name)
    return found


def files_of(name):
    """The sources of a crate, in an order that depends on their names alone."""
    for part in SOURCES:
        for folder, folders, files in os.walk(f"{TOP}/crates/{name}/{part}"):
            folders.sort()
            yield from (f"{folder}/{file}" for file in sorted(files))


def sum_of(path):
    """The SHA-256 of a file."""
    with open(path, "rb") as file:
        return hashlib.file_digest(file, "sha256").hexdigest()


def sources_sum():
    """The SHA-256 of all that the program is made from, but the toolchain."""
    total = hashlib.sha256()
    for name, line in crates_below(PROGRAM).items():
        total.update(f"{line}\n".encode())
        for path in files_of(name):
            with open(path, "rb", buffering=0) as file:
                text = file.read()
            total.update(f"{path[len(TOP):]} {len(text)}\n".encode() + text)
    return total.hexdigest()


def record(path=RECORD):
    """What a record says, by the first word of each line; nothing if there is none."""
    try:
        with open(path, encoding="utf-8") as file:
            return dict(line.rstrip("\n").split(" ", 1) for line in file)
    except FileNotFoundError:
        return {}


def write_record(**said):
    """Writes the record of the program that was just made."""
    with open(f"{RECORD}.new", "w", encoding="utf-8") as file:
        file.write("".join(f"{word} {value}\n" for word, value in said.items()))
    os.replace(f"{RECORD}.new", RECORD)


def is_made(compiler=None):
    """Whether the program is there, was made from the sources that are here, and by this compiler, if one is named."""
    said = record()
    if not said or compiler not in (None, said["compiler"]) or not os.access(MADE, os.X_OK):
        return False
    return said["sources"] == sources_sum() and said["program"] == sum_of(MADE)


@contextlib.contextmanager
def alone(folders, say):
    """Keeps a second build out of these folders, and every other rt of the crates that are in them."""
    with contextlib.ExitStack() as held:
        for folder in sorted(map(str, folders)):
            place = os.open(folder, os.O_RDONLY)
            held.callback(os.close, place)
            try:
                fcntl.flock(place, fcntl.LOCK_EX | fcntl.LOCK_NB)
            except BlockingIOError:
                say(f"{PROGRAM}: waiting for another build or check in {folder}")
                fcntl.flock(place, fcntl.LOCK_EX)
        yield


def library_of(name):
    """Where the library of a crate is, with its stamp and what its check said at its end."""
    return f"{TOP}/crates/{name}/out/rlib"


def verdict_in(text):
    """What a check says at its end, of all that it printed: the last line, and those about axioms before it; nothing if
    rt took a library as it was."""
    return "; ".join(line for line in text.splitlines() if line.startswith(("axioms ", "logic=")))


def keep_verdict(name, said):
    """Puts it beside a library. rt removes both when it proves the crate anew."""
    if said:
        with open(f"{library_of(name)}/verdict", "w", encoding="utf-8") as file:
            file.write(f"{said}\n")


def kit():
    """The module of the toolchain that `rt` is made of. Its stamps are computed once for each crate, and not once for
    each way that leads to it: a fifth of a second for all libraries of the program, in place of half a minute."""
    import functools
    import importlib.machinery
    import importlib.util
    import shutil

    path = os.path.join(os.path.dirname(os.path.realpath(shutil.which("rt"))), "rtlib.py")
    loader = importlib.machinery.SourceFileLoader("rtlib", path)
    module = importlib.util.module_from_spec(importlib.util.spec_from_loader("rtlib", loader))
    sys.modules["rtlib"] = module
    loader.exec_module(module)
    module.Crate.stamp = functools.cache(module.Crate.stamp)
    return module


def proved(names):
    """Those of the libraries that rt would take as they are. rt has no command that only says so: `rt lib` proves what
    it does not take, and needs up to four seconds of a processor to find out. None if there is no toolchain, or its
    module is another one: then tools/build asks rt for each."""
    try:
        rtlib, known = kit(), {}
        for name in names:
            folder = f"{TOP}/crates/{name}"
            if folder not in known:
                known[folder] = rtlib.Crate(folder, TOP, known)
        return {name for name in names if known[f"{TOP}/crates/{name}"].is_built()}
    except (AttributeError, ImportError, OSError, TypeError):
        return None


if __name__ == "__main__":
    sys.exit(0 if is_made(*sys.argv[1:]) else 1)
