#!/usr/bin/env python3
"""Proves crates, side by side where none depends on the other, and builds what they are for: prove.py [survey|run|library|page]..

    run       the program acpins: crates/acpins/out/acpins, and acpins-static where the host's C library is an archive
    survey    the program acpins-survey: crates/acpins_survey/out/acpins_survey, and acpins_survey-static
    library   the static library for C and Rust: crates/acpins_c/out/llvm/libacpins.a and out/rattle/libacpins.a
    page      what the page acpins.html has in it: crates/acpins_browser/out/module.bc, a module of LLVM

Without an argument it makes all four. Every minute it says on standard error what is being proved, how much is done and about how
long it still takes, by the processor minutes of each crate in .ci/minutes.txt and how fast this machine is. It may be ended at any
time: a crate that was proved as it stands, over what it depends on now, is not proved again. The crates are proved by the kit's own
`rt`, whose parts this script calls, since one `rt` keeps every other out of the folders that it reads, and as its gate does it:
whole, with no work kept for a later edit, over the statements of the crates below and not their proofs.
"""
import os
import shutil
import signal
import subprocess
import sys
import tempfile
import time
from concurrent.futures import FIRST_COMPLETED, ThreadPoolExecutor, wait

sys.dont_write_bytecode = True
from kit import TOP, bytes_of, crate_of, made_from, rt_library, sources_sum, stamp_of, unproved, write  # noqa: E402
from wasm import lower  # noqa: E402

CRATES = {"run": "acpins", "survey": "acpins_survey", "library": "acpins_c", "page": "acpins_browser"}  # the crate of each argument
BACKENDS = ("llvm", "rattle")  # the compilers of the library
LINES_A_MINUTE = 400  # of a crate whose minutes nobody has recorded
START = time.monotonic()


def say(text):
    print(f"prove: {text}", file=sys.stderr, flush=True)


def so_far():
    seconds = time.monotonic() - START
    return f"{seconds:.0f} s" if seconds < 120 else f"{seconds / 60:.0f} minutes"


# ---- How long it takes


def additions():
    """How many seconds 20 million additions take here."""
    def once():
        begun, number = time.perf_counter(), 0
        for _ in range(1_000_000):
            number += 1
        return time.perf_counter() - begun

    return 20 * min(once() for _ in range(5))


def recorded():
    """The processor minutes of each crate in the table, scaled to this machine."""
    rows = [it.split() for it in bytes_of(f"{TOP}/.ci/minutes.txt").decode().splitlines() if not it.startswith("#")]
    table = {name: float(number) for name, number in rows}
    scale = additions() / table.pop("additions", 5)
    return {name: number * scale for name, number in table.items()}


class Schedule:
    """The crates that are left, those that are being proved since when, and what is recorded of them."""

    def __init__(self, crates):
        minutes = recorded()
        self.minutes = {it.name: minutes.get(it.name, it.count(rb"\n") / LINES_A_MINUTE) for it in crates}
        self.crates, self.left, self.running = crates, list(crates), {}
        self.above = {it: [other for other in crates if it in other.deps] for it in crates}
        self.whole, self.first = sum(self.minutes.values()), self.estimate(1)
        self.left.sort(key=lambda it: -self.chain(it))

    def rest(self, crate):
        """How many minutes of the crate are left."""
        minutes = self.minutes[crate.name]
        if crate in self.left:
            return minutes
        return max(minutes - (time.monotonic() - self.running[crate]) / 60, minutes / 10) if crate in self.running else 0

    def chain(self, crate, known=None):
        """The minutes of the longest chain of crates that begins with this one and goes up."""
        known = {} if known is None else known
        if crate not in known:
            known[crate] = self.rest(crate) + max((self.chain(it, known) for it in self.above[crate]), default=0)
        return known[crate]

    def estimate(self, processors):
        """How many minutes so many processors take for what is left."""
        known = {}
        return max(sum(map(self.rest, self.crates)) / processors, max((self.chain(it, known) for it in self.crates), default=0))

    def begin(self, crate):
        self.left.remove(crate)
        self.running[crate] = time.monotonic()

    def end(self, crate):
        del self.running[crate]

    def report(self, processors):
        """Says how far it is. What went slower than was reckoned, as on a busy machine, goes on so."""
        done = self.whole - sum(map(self.rest, self.crates))
        ahead, spent = self.estimate(processors), (time.monotonic() - START) / 60
        reckoned = max(done / processors, spent / 3)
        names = ", ".join(it.name for it in self.running)
        say(f"{100 * done / self.whole:.0f} % done, about {max(1, ahead * max(1, spent / reckoned)):.0f} minutes left; proving {names}")


# ---- Proofs


def prove(crate, jobs, niceness):
    """The status of the library's proof, and what it said. It leaves the processors to those that are less nice."""
    # On Linux this is of the calling thread alone, and of what it starts.
    os.nice(niceness)
    begun = made_from(crate)
    shutil.rmtree(os.path.dirname(crate.rlib), ignore_errors=True)
    os.makedirs(os.path.dirname(crate.rlib))
    with tempfile.TemporaryFile("w+", errors="replace") as crate.out:
        words = crate.words(["--jobs", str(jobs)], keeps=False)
        status = crate.prove(["build", *words, "--statements", "-o", crate.rlib])
        crate.out.seek(0)
        said = crate.out.read()
    # After an edit meanwhile nobody knows which text was proved.
    if not status and begun == made_from(crate):
        write(stamp_of(crate), begun)
    return status, said


def build_program(crate, jobs, niceness):
    """The same of a program, which is compiled and linked."""
    os.nice(niceness)
    kit, made, begun = rt_library().KIT, f"{crate.folder}/out/{crate.name}", sources_sum(crate.name)
    words = ["--target", "x86_64-unknown-linux-gnu", "--toolchain", f"{kit}/toolchain", "-o", made, f"{made}.o"]
    os.makedirs(os.path.dirname(made), exist_ok=True)
    for program in (made, f"{made}-static"):
        write(f"{program}.made-from", "")
    with tempfile.TemporaryFile("w+", errors="replace") as crate.out:
        status = crate.compile(["--jobs", str(jobs)], f"{made}.o")
        status = status or crate.call(f"{kit}/bin/rattle-link", *words, f"{kit}/c/libos_c.a", f"{kit}/c/liblibc_c.a")
        crate.out.seek(0)
        said = crate.out.read()
    if not status:
        link_static(made)
        keep_sum(crate.name, made, begun)
    return status, said


def link_static(made):
    """Links a program without a loader, where the host has what that takes."""
    linked = subprocess.run(["sh", f"{TOP}/link-static", f"{made}.o", f"{made}-static"], stdin=subprocess.DEVNULL)
    if linked.returncode and os.path.exists(f"{made}-static"):
        os.remove(f"{made}-static")


def keep_sum(name, made, sources):
    """Writes beside the programs what they were made from, if that is what stands there now."""
    for program in (made, f"{made}-static"):
        if os.path.exists(program) and sources == sources_sum(name):
            write(f"{program}.made-from", sources)


def archive_of(backend):
    return f"{TOP}/crates/acpins_c/out/{backend}/libacpins.a"


def lowered_page(crate):
    return f"{crate.folder}/out/module.bc"


def made_files(crate):
    """The files for which a static library is proved."""
    return [lowered_page(crate)] if crate.name == CRATES["page"] else [archive_of(it) for it in BACKENDS]


def sum_file(crate):
    """The file with the checksum of what these were made from."""
    return f"{crate.folder}/out/made-from"


def build_page(crate, jobs, niceness):
    """The same of the page."""
    os.nice(niceness)
    os.makedirs(f"{crate.folder}/out", exist_ok=True)
    begun = made_from(crate)
    write(sum_file(crate), "")
    with tempfile.TemporaryFile("w+", errors="replace") as crate.out, tempfile.TemporaryDirectory() as room:
        status = lower(crate, jobs, room, lowered_page(crate))
        crate.out.seek(0)
        said = crate.out.read()
    if not status and begun == made_from(crate):
        write(sum_file(crate), begun)
    return status, said


def protect(archive):
    """Names the section of tables with references, which only a linker writes, so that the host's linker makes it read-only."""
    tool = shutil.which("objcopy")
    if tool:
        subprocess.run([tool, "-D", "--rename-section", ".data=.data.rel.ro", archive], check=True)


def build_archives(crate, jobs, niceness):
    """The same of the library, by both compilers."""
    os.nice(niceness)
    begun, status, said = made_from(crate), 0, ""
    os.makedirs(f"{crate.folder}/out", exist_ok=True)
    write(sum_file(crate), "")
    for backend in BACKENDS:
        os.makedirs(os.path.dirname(archive_of(backend)), exist_ok=True)
        with tempfile.TemporaryFile("w+", errors="replace") as crate.out:
            status = status or crate.compile(["--jobs", str(jobs), "--backend", backend], archive_of(backend))
            crate.out.seek(0)
            said += crate.out.read()
    if not status:
        protect(archive_of("rattle"))
    if not status and begun == made_from(crate):
        write(sum_file(crate), begun)
    return status, said


def is_fresh(crate):
    """Whether what the crate is for was made from what stands there now."""
    if unproved(crate.below()):
        return False
    if crate.is_static:
        return all(map(os.path.isfile, made_files(crate))) and bytes_of(sum_file(crate)).decode() == made_from(crate)
    made = f"{crate.folder}/out/{crate.name}"
    return os.path.isfile(made) and bytes_of(f"{made}.made-from").decode() == sources_sum(crate.name)


def maker_of(crate):
    if crate.name == CRATES["page"]:
        return build_page
    return build_program if crate.is_program else build_archives if crate.is_static else prove


def fail(crate, said):
    sys.stderr.write(said)
    say(f"{crate.name} is not proved, or not built")
    sys.stderr.flush()
    os._exit(1)


def prove_all(schedule, processors):
    """Proves what is left, at most as many crates at once as there are processors. The one with the longest chain behind it may use all
    of them, the next one all but one, and so on: several jobs of a crate do some work twice, of a small one most of it."""
    ranked, running, told = list(schedule.left), {}, time.monotonic()
    while schedule.left or running:
        waiting = [*schedule.left, *schedule.running]
        ready = [it for it in schedule.left if not any(dep in waiting for dep in it.below())]
        for crate in ready[: processors - len(running)]:
            rank = ranked.index(crate)
            ahead = sum(ranked.index(it) < rank for it in running.values())
            jobs = max(1, processors - ahead) if crate.is_large() else 1
            schedule.begin(crate)
            # A thread of its own, which has the priority of its crate.
            with_priority = ThreadPoolExecutor(1)
            running[with_priority.submit(maker_of(crate), crate, jobs, min(rank, 19))] = crate
            with_priority.shutdown(wait=False)
        for ended in wait(running, timeout=max(0, told + 60 - time.monotonic()), return_when=FIRST_COMPLETED).done:
            crate, (status, said) = running.pop(ended), ended.result()
            if status:
                fail(crate, said)
            schedule.end(crate)
        if time.monotonic() - told >= 60:
            told = time.monotonic()
            schedule.report(processors)


def prove_targets(names, processors):
    """Proves what the targets depend on, and makes them. Meanwhile no other run of `rt` or of this script works in the crates' folders."""
    targets = [crate_of(CRATES[it]) for it in names]
    libraries = list(dict.fromkeys(below for it in targets for below in it.below()))
    held = rt_library().lock([*libraries, *targets])
    todo = unproved(libraries) + [it for it in targets if not is_fresh(it)]
    if todo:
        schedule = Schedule(todo)
        say(f"{len(todo)} crates, about {max(1, schedule.estimate(processors)):.0f} minutes on {processors} processors")
        prove_all(schedule, processors)
    for it in targets:
        say(f"{it.name} is proved and built, {so_far()}")
    for it in held:
        os.close(it)


def main():
    names = list(dict.fromkeys(sys.argv[1:])) or list(CRATES)
    if any(it not in CRATES for it in names):
        sys.exit("usage: ./prove [survey|run|library|page]..")
    signal.signal(signal.SIGINT, signal.SIG_DFL)
    prove_targets(names, len(os.sched_getaffinity(0)))


if __name__ == "__main__":
    main()
