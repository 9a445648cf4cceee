"""Runs that write a file OUT: what stands in its place then, and what stays there when it can't be written."""
import os
import resource
import shutil
import signal
import stat
import subprocess
import sys

sys.dont_write_bytecode = True
from worked import rows_of  # noqa: E402

OLD = b"old"
REFUSED = "acpins: {}: cannot be written\n"


class Place:
    """A folder with a table in the file `a`, in which a program is run."""

    def __init__(self, folder, program):
        row = next(it for it in rows_of("steps") if it.words[0] == "rewrite" and it.words[1] == it.words[2])
        self.folder, self.program, self.written = folder, program, row.answer.written
        shutil.rmtree(folder, ignore_errors=True)
        os.mkdir(folder)
        self.put("a", row.before)

    def path(self, name):
        return f"{self.folder}/{name}"

    def put(self, name, data=OLD, mode=0o644):
        with open(self.path(name), "wb") as handle:
            handle.write(data)
        os.chmod(self.path(name), mode)

    def get(self, name):
        with open(self.path(name), "rb") as handle:
            return handle.read()

    def mode(self, name):
        return stat.S_IMODE(os.stat(self.path(name)).st_mode)

    def rewrite(self, out, **how):
        """The status of `rewrite OUT a`, and what stands on standard output and standard error."""
        streams = {"stdin": subprocess.DEVNULL, "stdout": subprocess.PIPE, "stderr": subprocess.PIPE, **how}
        ran = subprocess.run([self.program, "rewrite", out, "a"], cwd=self.folder, env={}, **streams)
        return ran.returncode, ran.stdout, ran.stderr

    def is_written(self, out, name, **how):
        """Whether that writes the table to the file of this name, and leaves no other."""
        before = {*os.listdir(self.folder), name}
        return self.rewrite(out, **how) == (0, b"", b"") and self.get(name) == self.written and {*os.listdir(self.folder)} == before

    def is_refused(self, out, **how):
        """Whether that is refused, and leaves no file."""
        before = os.listdir(self.folder)
        return self.rewrite(out, **how) == (1, b"", REFUSED.format(out).encode()) and sorted(os.listdir(self.folder)) == sorted(before)


def limited(action):
    """How a run may write no more than 40 bytes to a file, and what the signal that says so does."""

    def start():
        signal.signal(signal.SIGXFSZ, action)
        resource.setrlimit(resource.RLIMIT_FSIZE, (40, 40))

    return {"preexec_fn": start, "restore_signals": False}


def is_new_file(place):
    umask = os.umask(0o022)
    is_right = place.is_written("out", "out") and place.mode("out") == 0o644
    os.umask(umask)
    return is_right


def keeps_permissions(place):
    place.put("out", mode=0o640)
    return place.is_written("out", "out") and place.mode("out") == 0o640


def follows_links(place):
    os.mkdir(place.path("below"))
    place.put("below/out")
    os.symlink("below/out", place.path("first"))
    os.symlink(place.path("first"), place.path("second"))
    os.symlink("../second", place.path("below/third"))
    is_done = place.rewrite("below/third") == (0, b"", b"") and place.get("below/out") == place.written
    are_links = all(os.path.islink(place.path(it)) for it in ("first", "second", "below/third"))
    return is_done and are_links and sorted(os.listdir(place.path("below"))) == ["out", "third"]


def follows_a_link_to_nothing(place):
    os.symlink("out", place.path("link"))
    return place.is_written("link", "out") and os.path.islink(place.path("link"))


def refuses_links_in_a_ring(place):
    os.symlink("second", place.path("first"))
    os.symlink("first", place.path("second"))
    return place.is_refused("first")


def writes_a_pipe(place):
    return place.rewrite("/dev/stdout") == (0, place.written, b"")


def writes_a_pipe_with_a_name(place):
    os.mkfifo(place.path("pipe"))
    with subprocess.Popen(["cat", place.path("pipe")], stdout=subprocess.PIPE) as reader:
        ran = place.rewrite("pipe")
        said = reader.communicate(timeout=60)[0]
    return ran == (0, b"", b"") and said == place.written and stat.S_ISFIFO(os.stat(place.path("pipe")).st_mode)


def writes_the_file_of_standard_output(place):
    with open(place.path("out"), "wb") as handle:
        ran = place.rewrite("/dev/stdout", stdout=handle)
        is_same = os.fstat(handle.fileno()).st_ino == os.stat(place.path("out")).st_ino
    return ran == (0, None, b"") and is_same and place.get("out") == place.written


def refuses_a_full_device(place):
    return place.is_refused("/dev/full")


def refuses_a_folder(place):
    os.mkdir(place.path("out"))
    return place.is_refused("out")


def keeps_what_is_too_large_to_replace(place):
    place.put("out")
    return place.is_refused("out", **limited(signal.SIG_IGN)) and place.get("out") == OLD


def keeps_what_a_killed_run_would_replace(place):
    place.put("out")
    killed = place.rewrite("out", **limited(signal.SIG_DFL))
    is_kept = place.get("out") == OLD
    return killed == (-signal.SIGXFSZ, b"", b"") and is_kept and place.is_written("out", "out")


KINDS = [
    is_new_file, keeps_permissions, follows_links, follows_a_link_to_nothing, refuses_links_in_a_ring, writes_a_pipe,
    writes_a_pipe_with_a_name, writes_the_file_of_standard_output, refuses_a_full_device, refuses_a_folder,
    keeps_what_is_too_large_to_replace, keeps_what_a_killed_run_would_replace,
]


def runs_places(host, program, _):
    """What is wrong of the places of written files."""
    for kind in KINDS:
        is_right = kind(Place(f"{host.folder}/place", program))
        yield None if is_right else f"a written file: {kind.__name__} is not so"
