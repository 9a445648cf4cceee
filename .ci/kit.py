"""The kit's `rt`, whose parts the scripts beside this file call, and what tells whether something was made of the sources that
stand here."""
import functools
import hashlib
import importlib.machinery
import importlib.util
import os
import subprocess
import sys

sys.dont_write_bytecode = True
TOP = os.path.dirname(os.path.dirname(os.path.abspath(__file__)))
KNOWN = {}  # the libraries by their folders


@functools.cache
def rt_library():
    """The library of the kit's `rt`."""
    kit = os.path.dirname(subprocess.run(["rt", "doc"], capture_output=True, text=True, check=True).stdout.strip())
    loader = importlib.machinery.SourceFileLoader("rtlib", f"{kit}/bin/rtlib.py")
    library = importlib.util.module_from_spec(importlib.util.spec_from_loader("rtlib", loader))
    sys.modules["rtlib"] = library
    loader.exec_module(library)
    # Each asks the same of the crates below, once for each way to them.
    library.Crate.stamp = functools.cache(library.Crate.stamp)
    library.Crate.below = functools.cache(library.Crate.below)
    library.guarded()
    return library


def crate_of(name):
    """The crate of that name. A library is one value, however many depend on it."""
    return rt_library().Crate(f"{TOP}/crates/{name}", TOP, KNOWN)


def bytes_of(file):
    """The bytes of a file, none where it isn't there."""
    try:
        with open(file, "rb") as it:
            return it.read()
    except FileNotFoundError:
        return b""


def write(file, text):
    with open(file, "w", encoding="utf-8") as it:
        it.write(text)


def sources_sum(name, *parts):
    """The checksum of all that a program is made from, or of these folders of its crates, as `.ci/made-from` prints it."""
    return subprocess.run(["sh", f"{TOP}/.ci/made-from", name, *parts], capture_output=True, text=True, check=True).stdout


def made_from(crate):
    """The checksum of what a crate is proved from: the kit, its files, and the libraries of the crates below it. Where they
    stand and when they were written tells it nothing."""
    library = rt_library()
    made = hashlib.sha256(repr((crate.said, bytes_of(f"{library.KIT}/WHAT"))).encode())
    for file in [*(f"{it.rlib}/format" for it in crate.below()), *library.files_of(crate.folder)]:
        made.update(repr((file.removeprefix(TOP), bytes_of(file))).encode())
    return made.hexdigest()


def stamp_of(crate):
    return f"{os.path.dirname(crate.rlib)}/made-from"


@functools.cache
def is_built_by_rt(crate):
    return os.path.isfile(f"{os.path.dirname(crate.rlib)}/stamp") and crate.is_built()


def is_proved(crate):
    """Whether `./prove` has proved the library as it stands, or `rt` has and all below it."""
    if not os.path.isfile(stamp_of(crate)):
        return all(is_built_by_rt(it) for it in [crate, *crate.below()])
    return bytes_of(stamp_of(crate)).decode() == made_from(crate)


def unproved(crates):
    """The libraries that are to be proved, of a list in which each stands behind those that it uses: those that are not proved,
    and all that depend on one of these."""
    todo = []
    for crate in crates:
        if not is_proved(crate) or any(it in todo for it in crate.below()):
            todo.append(crate)
    return todo
