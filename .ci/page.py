#!/usr/bin/env python3
"""Puts the page acpins.html, with the proved program in it, into a file: page.py [--proved | --gate] FILE

The page needs no other file, and makes no request: styles, scripts and the WebAssembly module (.ci/wasm.py) stand in it. What is not
proved as it stands is proved first, as by `./prove page`; with --proved nothing is proved, and the status is 1 then. With --gate a library
of the repository that has no stamp counts as proved: the gate, which ran just before, has left it.
"""
import base64
import glob
import hashlib
import os
import re
import signal
import sys
import tempfile

sys.dont_write_bytecode = True
from archive import note_gate, version  # noqa: E402
from kit import TOP, bytes_of, crate_of, write  # noqa: E402
from prove import is_fresh, lowered_page, prove_targets, sum_file  # noqa: E402
from wasm import SOURCES, make_module  # noqa: E402

EXPORTED = "acpins_run"


def text_of(name):
    return bytes_of(f"{SOURCES}/{name}").decode()


def module_sum(crate):
    """The checksum of what the module is made from: the proved crate, and what is beside it."""
    beside = [*sorted(glob.glob(f"{SOURCES}/**/*.[ch]", recursive=True)), *sorted(glob.glob(f"{TOP}/bindings/c/*.[ch]")), f"{TOP}/.ci/wasm.py"]
    made = hashlib.sha256(bytes_of(sum_file(crate)))
    for it in beside:
        made.update(bytes_of(it))
    return made.hexdigest()


def module_of(crate):
    """The bytes of the WebAssembly module of the proved crate."""
    module = f"{crate.folder}/out/{crate.name}.wasm"
    if bytes_of(f"{module}.made-from").decode() != module_sum(crate):
        write(f"{module}.made-from", "")
        with tempfile.TemporaryDirectory() as room:
            make_module(lowered_page(crate), EXPORTED, room, module)
        write(f"{module}.made-from", module_sum(crate))
    return bytes_of(module)


def page_with(module):
    """The page with this module in it."""
    parts = {"STYLE": text_of("style.css"), "MODULE_JS": text_of("module.js"), "PAGE_JS": text_of("page.js"), "VERSION": version()}
    parts["MODULE"] = base64.b64encode(module).decode()
    return re.sub(r"@(\w+)@", lambda it: parts[it[1]].rstrip("\n"), text_of("acpins.html"))


def main():
    how, file = (sys.argv[1:] if len(sys.argv) == 3 else ["", *sys.argv[1:]]) if 2 <= len(sys.argv) <= 3 else ("?", "")
    if how not in ("", "--proved", "--gate"):
        sys.exit("usage: page.py [--proved | --gate] FILE")
    signal.signal(signal.SIGINT, signal.SIG_DFL)
    crate, file = crate_of("acpins_browser"), os.path.abspath(file)
    if how == "--gate":
        note_gate(crate.below())
    if not is_fresh(crate):
        if how == "--proved":
            sys.exit("the page is not proved as it stands; ./prove page proves it")
        prove_targets(["page"], len(os.sched_getaffinity(0)))
    page = page_with(module_of(crate))
    os.makedirs(os.path.dirname(file), exist_ok=True)
    write(file, page)


if __name__ == "__main__":
    main()
