#!/usr/bin/env python3
"""Runs the gate, and writes down what its proofs take: times.py FILE COMMAND..

Its lines go on to standard output as they come. FILE gets, in seconds since its start, when each crate was proved and when the gate
ended, and how many processor minutes the proofs took: of each crate, of all, and along the longest chain of crates that wait for one
another. The processor minutes of each crate that was proved from nothing go into .ci/minutes.txt, from which `./prove` reckons how long it
takes; those of crates that were kept stay as they are.
"""
import glob
import os
import re
import subprocess
import sys
import threading
import time

sys.dont_write_bytecode = True
from kit import TOP, bytes_of, crate_of, write  # noqa: E402
from prove import additions  # noqa: E402

TABLE = f"{TOP}/.ci/minutes.txt"
HEAD = """# Processor minutes of each crate's proof from nothing, by one job, as `./test --all` measured them, or as estimated where it
# has not proved a crate from nothing yet; `additions` is how many seconds 20 million additions of Python took there.
"""
TICKS = os.sysconf("SC_CLK_TCK")


class Proofs(threading.Thread):
    """Looks every second at the proofs that run, and keeps the processor seconds of each crate's."""

    def __init__(self):
        super().__init__(daemon=True)
        self.seconds = {}

    def look(self, process):
        words = bytes_of(f"{process}/cmdline").split(b"\0")
        is_proof = words[0].endswith(b"/rattle") and words[1] in (b"build", b"check") and b"--test" not in words
        if not is_proof or b"--crate-name" not in words:
            return
        name = words[words.index(b"--crate-name") + 1].decode()
        fields = bytes_of(f"{process}/stat").decode().rpartition(")")[2].split()
        # Its own, and those of the processes that it has started and awaited.
        self.seconds[name] = max(self.seconds.get(name, 0), sum(map(int, fields[11:15])) / TICKS)

    def run(self):
        while True:
            for process in glob.glob("/proc/[0-9]*"):
                try:
                    self.look(process)
                except (OSError, IndexError, ValueError):
                    pass  # it has ended meanwhile
            time.sleep(1)


def put_minutes(measured):
    """Puts the minutes of these crates into the table, scaled to the machine that the others were measured on."""
    rows = [it.split() for it in bytes_of(TABLE).decode().splitlines() if not it.startswith("#")]
    table, here = {name: float(number) for name, number in rows}, additions()
    scale = table.setdefault("additions", here) / here
    table |= {name: seconds / 60 * scale for name, seconds in measured.items() if os.path.isdir(f"{TOP}/crates/{name}")}
    table = {name: number for name, number in table.items() if name == "additions" or os.path.isdir(f"{TOP}/crates/{name}")}
    write(TABLE, HEAD + "".join(f"{name} {number:.1f}\n" for name, number in sorted(table.items())))


def lines_of(minutes):
    """What the proofs of these crates took, in lines: of each, of all, and along the longest chain."""

    def chain(crate):
        below = max(map(chains.get, crate.below()), default=0)
        return minutes.get(crate.name, 0) + below

    chains = {}
    for crate in map(crate_of, sorted(minutes)):
        for it in [*crate.below(), crate]:
            chains[it] = chain(it)
    words = [f"{name} {number:.1f}" for name, number in sorted(minutes.items(), key=lambda it: -it[1])]
    for at in range(0, len(words), 6):
        yield f"processor minutes: {', '.join(words[at : at + 6])}\n"
    yield f"processor minutes of all: {sum(minutes.values()):.0f}; along the longest chain: {max(chains.values(), default=0):.0f}\n"


def main():
    file, *command = sys.argv[1:]
    start, told, proved, proofs = time.time(), [], [], Proofs()
    proofs.start()
    gate = subprocess.Popen(command, stdout=subprocess.PIPE, stderr=subprocess.STDOUT, text=True, errors="replace")
    for line in gate.stdout:
        print(line, end="", flush=True)
        found = re.match(r"rt: (\w+)(: its tests are)? proved", line)
        if found:
            told.append(f"{time.time() - start:7.0f} s  {found[1]}{'  its tests' if found[2] else ''} proved\n")
            proved += [] if found[2] else [found[1]]
    status = gate.wait()
    seconds = {name: proofs.seconds[name] for name in proved if name in proofs.seconds}
    told.append(f"{time.time() - start:7.0f} s  the gate ended\n")
    told += lines_of({name: number / 60 for name, number in seconds.items()})
    write(file, "".join(told))
    put_minutes(seconds)
    sys.exit(status)


if __name__ == "__main__":
    main()
