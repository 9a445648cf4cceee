"""Runs of several kinds over built programs, in processes side by side."""
import multiprocessing
import os
import resource
import shutil
import sys
import tempfile

sys.dont_write_bytecode = True
from host import TOP, Host, make_steps  # noqa: E402


def parts(rows):
    """The rows in parts, which processes take one after another."""
    return [rows[it : it + 4] for it in range(0, len(rows), 4)]


def work(task):
    function, program, part = task
    return [it for it in function(HOST, program, part)]


def start(room, preloaded):
    global HOST
    HOST = Host(room, preloaded)


def run_all(kinds, room, programs, preloaded):
    """How many kinds of runs passed, and how many failed."""
    passed = failed = 0
    with multiprocessing.Pool(initializer=start, initargs=(room, preloaded)) as pool:
        for title, function, rows in kinds():
            for program in programs:
                found = [it for part in pool.imap(work, [(function, program, it) for it in rows]) for it in part]
                wrong = [it for it in found if it]
                for it in wrong[:5]:
                    print(f"  {it[:600]}")
                print(f"{os.path.relpath(program, TOP)}: {title}: {len(found)} runs, {len(wrong)} wrong", flush=True)
                passed, failed = passed + (not wrong), failed + bool(wrong)
    return passed, failed


def main(kinds):
    """Runs `kinds()`, of which each has a title, a function and its parts, by the words ROOM PROGRAM.. [-- OBJECT..]."""
    room, *words = sys.argv[1:]
    at = words.index("--") if "--" in words else len(words)
    dynamic, static = [os.path.abspath(it) for it in words[:at]], words[at + 1 :]
    resource.setrlimit(resource.RLIMIT_CORE, (0, 0))
    folder = tempfile.mkdtemp(dir=room)
    programs = dynamic + make_steps(folder, static)
    passed, failed = run_all(kinds, folder, programs, {it: f"{folder}/steps.so" for it in dynamic})
    shutil.rmtree(folder)
    print(f"{passed} passed, {failed} failed")
    sys.exit(1 if failed else 0)
