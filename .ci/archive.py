#!/usr/bin/env python3
"""Puts the proved static library for C and Rust with its headers into a folder: archive.py [--proved | --gate] FOLDER.

    FOLDER/lib/libacpins.a              as LLVM compiles it
    FOLDER/lib/rattle/libacpins.a       as Rattle's own compiler does
    FOLDER/lib/pkgconfig/acpins.pc
    FOLDER/include/*.h
    FOLDER/share/acpins/*.c             the library's memory from malloc, or from a block of the caller

What is not proved as it stands is proved first, as by `./prove library`; with --proved nothing is proved, and the status is 1 then. With
--gate a library of the repository that has no stamp counts as proved: the gate, which ran just before, has left it.
"""
import glob
import os
import shutil
import signal
import subprocess
import sys

sys.dont_write_bytecode = True
from kit import TOP, crate_of, made_from, stamp_of, write  # noqa: E402
from prove import archive_of, is_fresh, prove_targets  # noqa: E402

FOLDERS = {"llvm": "lib", "rattle": "lib/rattle"}  # the folder of what each compiler makes
PKG_CONFIG = """prefix=${pcfiledir}/../..
libdir=${prefix}/lib
includedir=${prefix}/include
heapdir=${prefix}/share/acpins

Name: acpins
Description: What ACPI tables DSDT and SSDT load to, without running any of their code
Version: VERSION
Libs: -L${libdir} -lacpins
Cflags: -I${includedir}
"""


def note_gate(crates):
    """Writes the stamps of the libraries that the gate has proved."""
    for crate in crates:
        has_stamp = os.path.exists(stamp_of(crate)) or os.path.exists(f"{os.path.dirname(crate.rlib)}/stamp")
        if os.path.isdir(crate.rlib) and not has_stamp:
            write(stamp_of(crate), made_from(crate))


def version():
    ran = subprocess.run(["sh", f"{TOP}/.ci/version"], stdout=subprocess.PIPE, text=True, check=True)
    return ran.stdout.strip()


def put(folder):
    """Puts all files into the folder."""
    headers, sources = (glob.glob(f"{TOP}/bindings/c/*.{it}") for it in "hc")
    for file, below in [*((it, "include") for it in headers), *((it, "share/acpins") for it in sources)]:
        os.makedirs(f"{folder}/{below}", exist_ok=True)
        shutil.copyfile(file, f"{folder}/{below}/{os.path.basename(file)}")
    for backend, below in FOLDERS.items():
        os.makedirs(f"{folder}/{below}", exist_ok=True)
        shutil.copyfile(archive_of(backend), f"{folder}/{below}/libacpins.a")
    os.makedirs(f"{folder}/lib/pkgconfig", exist_ok=True)
    write(f"{folder}/lib/pkgconfig/acpins.pc", PKG_CONFIG.replace("VERSION", version()))


def main():
    how, folder = (sys.argv[1:] if len(sys.argv) == 3 else ["", *sys.argv[1:]]) if 2 <= len(sys.argv) <= 3 else ("?", "")
    if how not in ("", "--proved", "--gate"):
        sys.exit("usage: archive.py [--proved | --gate] FOLDER")
    signal.signal(signal.SIGINT, signal.SIG_DFL)
    crate, folder = crate_of("acpins_c"), os.path.abspath(folder)
    if how == "--gate":
        note_gate(crate.below())
    if not is_fresh(crate):
        if how == "--proved":
            sys.exit("the library is not proved as it stands; ./prove library proves it")
        prove_targets(["library"], len(os.sched_getaffinity(0)))
    put(folder)


if __name__ == "__main__":
    main()
