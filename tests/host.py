"""Runs of built programs over files in a folder of their own, with steps of the host that fail."""
import os
import subprocess
import sys
import tempfile

sys.dont_write_bytecode = True
from worked import OUT, Answer  # noqa: E402

TOP = os.path.dirname(os.path.dirname(os.path.abspath(__file__)))
FAILED = 9  # the descriptor on which a step that failed is told
LONGEST = 60  # seconds after which a run is ended


class Host:
    """A folder for the files of a run, and the programs."""

    def __init__(self, room, preloaded):
        self.folder = tempfile.mkdtemp(dir=room)
        self.preloaded = preloaded
        self.failed = os.open(f"{self.folder}/failed", os.O_RDWR | os.O_CREAT | os.O_TRUNC, 0o600)
        os.dup2(self.failed, FAILED)
        os.mkdir(f"{self.folder}/run")

    def answer(self, program, words, files, step="", is_short=False):
        """What the program answers over these files, and whether the step failed."""
        room = f"{self.folder}/run"
        for name in os.listdir(room):
            os.remove(f"{room}/{name}")
        for name, data in files.items():
            with open(f"{room}/{name}", "wb") as handle:
                handle.write(data)
        env = {"STEP": step} if step else {}
        env.update({"SHORT": "1"} if is_short else {})
        if env and program in self.preloaded:
            env["LD_PRELOAD"] = self.preloaded[program]
        os.ftruncate(FAILED, 0)
        how = {"cwd": room, "env": env, "stdin": subprocess.DEVNULL, "stdout": subprocess.PIPE, "stderr": subprocess.PIPE}
        ran = subprocess.run([program, *words], timeout=LONGEST, close_fds=False, **how)
        written = None
        if os.path.exists(f"{room}/{OUT}"):
            with open(f"{room}/{OUT}", "rb") as handle:
                written = handle.read()
        more = sorted({*os.listdir(room)} - {*files, OUT})
        return Answer(ran.returncode, ran.stdout, ran.stderr, written, more), os.fstat(FAILED).st_size > 0


def make_steps(room, static):
    """The programs with an object whose steps fail: the object to be preloaded, and programs into which it is linked."""
    kit = os.path.dirname(subprocess.run(["rt", "doc"], capture_output=True, text=True, check=True).stdout.strip())
    clang = [f"{kit}/toolchain/bin/clang", "-fPIC", "-O1", f"{TOP}/tests/steps.c"]
    subprocess.run([*clang, "-shared", "-nostdlib", "-fuse-ld=lld", "-o", f"{room}/steps.so"], check=True)
    subprocess.run([*clang, "-c", "-o", f"{room}/steps.o"], check=True)
    linked = []
    for number, made in enumerate(static):
        program = f"{room}/static-{number}"
        words = ["sh", f"{TOP}/link-static", made, program, "-Wl,-z,muldefs", f"{room}/steps.o"]
        subprocess.run(words, check=True)
        linked.append(program)
    return linked
