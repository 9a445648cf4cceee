"""Makes a WebAssembly module of a static library that is proved and lowered for x86-64.

Neither of the kit's compilers has Rattle's heap on wasm64. So the crate is proved and lowered as for x86-64: `rattle build` hands an LLVM
module to the clang of its toolchain folder, which here is a folder of our own, whose clang keeps the module beside. That module names its
processor in two lines and in a few attributes. With those of wasm64 in their place the kit's clang compiles it, together with the library's
heap in C, and the kit's linker makes one module of both, which imports nothing.

    crate ── rattle build (proof, lowering) ──► module.bc ── other target ──► library.o ─┐
    bindings/page/heap.c, wide.c ── clang ──────────────────────────────────► their .o ──┴─ ld.lld ──► module.wasm

Both targets have pointers of 8 bytes, the same byte order, sizes and alignments. The stack is the first thing in memory and grows down: one
that overflows reaches below address 0, where each access traps.
"""
import os
import re
import subprocess
import sys

sys.dont_write_bytecode = True
from kit import TOP, rt_library, write  # noqa: E402

SOURCES = f"{TOP}/bindings/page"
PARTS = ("heap", "wide")  # what the module has beside the library
STACK_BYTES = 4 << 20  # more than a depth of 1,024 takes
TRIPLE = "wasm64-unknown-unknown"
LAYOUT = "e-m:e-p:64:64-p10:8:8-p20:8:8-i64:64-i128:128-n32:64-S128-ni:1:10:20"
# As the kit's own build for wasm64 calls its clang.
FOR_WASM = f"""--target={TRIPLE} -mcpu=lime1 -mllvm -expand-div-rem-bits=64 -mllvm -expand-fp-convert-bits=64 -ffunction-sections
-fdata-sections -mllvm -trap-unreachable -mllvm -disable-machine-licm -mllvm -disable-postra-machine-licm -mllvm
-sink-common-insts=false --no-default-config -no-canonical-prefixes -fintegrated-cc1 -fno-crash-diagnostics""".split()
OF_C = ["-ffreestanding", "-nostdinc", "-Wall", "-Wextra", "-Werror", "-O2", f"-I{SOURCES}/include", f"-I{TOP}/bindings/c"]
OF_X86 = re.compile(r' "(?:probe-stack|stack-probe-size|target-cpu|tune-cpu|target-features)"="[^"]*"')
KEEPING = """#!/bin/sh
for word; do case $word in module.bc) cp module.bc '{kept}' || exit 1 ;; esac; done
exec '{kit}/toolchain/bin/clang' "$@"
"""


def call(*words):
    ran = subprocess.run(words, stdout=subprocess.PIPE, stderr=subprocess.STDOUT, text=True, errors="replace")
    if ran.returncode:
        sys.exit(f"{ran.stdout}wasm: {os.path.basename(words[0])} ended with {ran.returncode}")
    return ran.stdout


def keeping_toolchain(room, kept):
    """A folder as the kit's toolchain, whose clang keeps the LLVM module that it is given."""
    kit = rt_library().KIT
    os.makedirs(f"{room}/bin")
    for it in ("lib", "bin/ld.lld", "bin/llvm-ar"):
        os.symlink(f"{kit}/toolchain/{it}", f"{room}/{it}")
    write(f"{room}/bin/clang", KEEPING.format(kit=kit, kept=kept))
    os.chmod(f"{room}/bin/clang", 0o755)
    return room


def lower(crate, jobs, room, kept):
    """Proves a static library and keeps its LLVM module. The status, as that of a crate's `compile`."""
    words = crate.words(["--jobs", str(jobs)]) + ["--backend", "llvm", "--toolchain", keeping_toolchain(f"{room}/toolchain", kept)]
    return crate.call(rt_library().RATTLE, "build", *words, "-o", f"{room}/library.a")


def retarget(text):
    """The text of an LLVM module for x86-64 as one for wasm64."""
    text = re.sub(r"^target datalayout = .*$", f'target datalayout = "{LAYOUT}"', text, flags=re.M)
    text = re.sub(r"^target triple = .*$", f'target triple = "{TRIPLE}"', text, flags=re.M)
    text = re.sub(r"^attributes .*$", lambda it: OF_X86.sub("", it[0]), text, flags=re.M)
    text = re.sub(r"^(attributes #\d+ = \{) \}$", r'\1 "none" }', text, flags=re.M)
    if "@llvm.x86" in text or re.search(r' asm (?!sideeffect "", "~\{memory\}")', text):
        sys.exit("wasm: the module has instructions of x86-64")
    return text


def make_module(lowered, exported, room, out):
    """Makes the WebAssembly module of an LLVM module, with this export."""
    tools = f"{rt_library().KIT}/toolchain/bin"
    text = call(f"{tools}/clang", "-S", "-emit-llvm", "-Xclang", "-disable-llvm-passes", "-x", "ir", lowered, "-o", "-")
    write(f"{room}/library.ll", retarget(text))
    call(f"{tools}/clang", *FOR_WASM, "-O3", "-c", "-x", "ir", f"{room}/library.ll", "-o", f"{room}/library.o")
    for it in PARTS:
        call(f"{tools}/clang", *FOR_WASM, *OF_C, "-c", f"{SOURCES}/{it}.c", "-o", f"{room}/{it}.o")
    words = ["-flavor", "wasm", "-mwasm64", "--no-entry", "--stack-first", "-z", f"stack-size={STACK_BYTES}", "--gc-sections", "--strip-all"]
    words += ["--fatal-warnings", f"--export={exported}", "-o", out, f"{room}/library.o", *(f"{room}/{it}.o" for it in PARTS)]
    call(f"{tools}/ld.lld", *words)
