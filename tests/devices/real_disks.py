"""Disks and folders that fail for real: a full one, a limit of the file's size, files and folders that may not be changed, a folder that is gone.
A keeper that fails is status 5, or a response 503 where the register was opened before; nothing is lost, and what is sent again acts once."""
import contextlib
import os
import resource
import shutil
import signal
import subprocess
import tempfile

import checks
from checks import check
from clients.messages import at_most
from devices.crashes import NO_STRACE, ended, is_traced, served, traced
from devices.journal_file import TWO, called, journal, kept
from models.journal_openings import ENTRIES, JOURNAL, ROWS, faults_of_a_front, faults_of_the_rest, gates
from rows import histories

NOBODY = 65_534
PAGE = 4096


def opened(folder, **settings):
    """`batch` in a folder."""
    return subprocess.Popen([checks.PROGRAM, "batch"], stdin=subprocess.PIPE, stdout=subprocess.PIPE, cwd=folder, **{"stderr": subprocess.DEVNULL, **settings})


def faults_of_a_run(folder, child, mended, wanted_faults=1):
    """What is wrong about a run whose disk fails until it is mended behind a 503, or behind an opening that failed, which ends the run."""
    with at_most(120, child):
        answered, failed, wrong = served(child, mended)
        status, left = ended(child)
    if status == 5 and not (answered or failed):
        mended()
    elif (status, left, answered, failed) != (5 if failed else 0, b"", len(ROWS), wanted_faults if failed else 0):
        wrong.append(("ended", status, left, answered, failed))
    return wrong + faults_of_a_front(folder, answered) + faults_of_the_rest(folder, answered)


@contextlib.contextmanager
def small_disk(pages):
    """A file system of so many pages, in memory; none where nothing may be mounted."""
    with tempfile.TemporaryDirectory() as place:
        line = ["mount", "-t", "tmpfs", "-o", f"size={pages * PAGE}", "tmpfs", place]
        try:
            mounted = subprocess.run(line, capture_output=True, timeout=60).returncode == 0
        except OSError:
            mounted = False
        if not mounted:
            yield None
            return
        try:
            yield place
        finally:
            subprocess.run(["umount", place], check=True, timeout=60)


def full_disks():
    """A disk that is full once so many pages of the journal are there: none, a few, and in the midst of a large record. Then room is made."""
    for free in (0, 1, 2, 10, 20):
        with small_disk(64) as place:
            if place is None:
                checks.skip("a full disk", "nothing may be mounted here; a limit of the file's size stands in for it")
                return
            folder, filling = os.path.join(place, "desk"), os.path.join(place, "filling")
            os.mkdir(folder)
            with open(filling, "wb") as out, contextlib.suppress(OSError):
                out.write(bytes((64 - free) * PAGE))
            wrong = faults_of_a_run(folder, opened(folder), lambda: os.path.exists(filling) and os.remove(filling))
            check(f"a disk that is full but for {free} pages", wrong, [])


def full_to_the_end():
    """A disk on which no room is made while the run lasts: each command that would be kept is answered 503 and the front stands still, the run ends
    with 5, and the next one goes on once there is room. An opening that finds no room ends with 5 as well."""
    for free in (0, 2, 10, 20):
        with small_disk(64) as place:
            if place is None:
                checks.skip("a disk that stays full", "nothing may be mounted here")
                return
            folder, filling = os.path.join(place, "desk"), os.path.join(place, "filling")
            os.mkdir(folder)
            with open(filling, "wb") as out, contextlib.suppress(OSError):
                out.write(bytes((64 - free) * PAGE))
            child = opened(folder)
            with at_most(120, child):
                answered, failed, wrong = served(child)
                status, left = ended(child)
            if (status, left, failed) != (5, b"", 4 if answered else 0):
                wrong.append(("ended", status, left, answered, failed))
            os.remove(filling)
            wrong += faults_of_a_front(folder, answered) + faults_of_the_rest(folder, answered)
            check(f"a disk that stays full but for {free} pages", wrong, [])


def limited(limit, handled):
    """What a process does before it becomes the program: its files may not become longer, and a write past that is a fault, or ends it."""
    def limit_size():
        resource.setrlimit(resource.RLIMIT_FSIZE, (limit, resource.RLIM_INFINITY))
        signal.signal(signal.SIGXFSZ, signal.SIG_IGN if handled else signal.SIG_DFL)
    return limit_size


def raised(child):
    """Lets the files of a process be of any length."""
    with contextlib.suppress(ProcessLookupError):
        resource.prlimit(child.pid, resource.RLIMIT_FSIZE, (resource.RLIM_INFINITY,) * 2)


def limits():
    """Lengths of a file at which something is cut short: its beginning, each part of the first records, and the large one."""
    whole = journal(*(bytes(4) + entry for entry in ENTRIES))
    places = gates(whole)
    return [0, 5, *(place + more for place in places[:3] for more in (0, 1, 3, 30)), places[-3] + 1000, places[-3] + 70_000, places[-1]]


def limited_files():
    """A file that may not become longer than so many bytes: the write that reaches past is cut short. A fault is mended, and a kill comes back."""
    for limit in limits():
        with checks.folder() as folder:
            child = opened(folder, preexec_fn=limited(limit, True))
            check(f"a file of at most {limit} bytes", faults_of_a_run(folder, child, lambda: raised(child)), [])
        with checks.folder() as folder:
            child = opened(folder, preexec_fn=limited(limit, False))
            with at_most(120, child):
                answered, failed, wrong = served(child)
                status, left = ended(child)
            check(f"a file of more than {limit} bytes is a kill", (status, left, failed, wrong), (-signal.SIGXFSZ, b"", 0, []))
            wrong = faults_of_a_front(folder, answered) + faults_of_the_rest(folder, answered)
            check(f"what is left of a file of {limit} bytes", wrong, [])


def another_file():
    """Behind a failed sync the name leads to another file: nothing is asked of it, and once it leads back what is sent again acts once."""
    if not is_traced():
        checks.skip("a name that leads to another file", NO_STRACE)
        return
    with checks.folder() as folder, tempfile.TemporaryDirectory(dir=os.path.dirname(folder)) as elsewhere:
        there, away = os.path.join(folder, JOURNAL), os.path.join(elsewhere, JOURNAL)
        copies = []

        def led_elsewhere():
            if not copies:
                copies.append(kept(folder))
                os.rename(there, away)
                shutil.copy(away, there)
            else:
                check("the other file", kept(folder), copies[0])
                os.rename(away, there)

        child = traced(folder, "/dev/null", "-e", "inject=fsync:error=EIO:when=9")
        check("a name that leads to another file", faults_of_a_run(folder, child, led_elsewhere, 2), [])


# What somebody may do to the file: another magic, a length past the limit, no gate at the end, an end within the first record.
DAMAGES = [lambda data: b"B" + data[1:], lambda data: data[:9] + b"\xff" + data[10:], lambda data: data[:-1], lambda data: data[:20]]


def damaged_meanwhile():
    """Behind a failed sync somebody damages the file: the command that opens it again gets 503 and changes nothing, questions are answered, and once
    the bytes are back what is sent again acts once. Where they do not come back the run ends with 5, and the next one with 6."""
    if not is_traced():
        checks.skip("a file that is damaged meanwhile", NO_STRACE)
        return
    for number, damage in enumerate(DAMAGES, 1):
        for back in (True, False):
            with checks.folder() as folder:
                path, kept_so = os.path.join(folder, JOURNAL), []

                def touched():
                    kept_so.append(kept(folder))
                    if len(kept_so) == 1:
                        put(path, damage(kept_so[0]))
                    elif len(kept_so) == 2 and back:
                        put(path, kept_so[0])

                child = traced(folder, "/dev/null", "-e", "inject=fsync:error=EIO:when=9")
                if back:
                    wrong = faults_of_a_run(folder, child, touched, 2)
                else:
                    with at_most(120, child):
                        answered, failed, wrong = served(child, touched)
                        status, left = ended(child)
                    if (status, left, failed) != (5, b"", 4) or answered == 0 or called(folder, "check")[0] != 6:
                        wrong.append(("ended", status, left, answered, failed))
                if set(kept_so[1:]) != {damage(kept_so[0])} or not back and kept(folder) != damage(kept_so[0]):
                    wrong.append(("the file", [len(data) for data in kept_so]))
                check(f"a file that is damaged meanwhile, {number}, and comes back {back}", wrong, [])


def put(path, data):
    """Writes a file anew, in its place."""
    with open(path, "r+b") as out:
        out.write(data)
        out.truncate()


def as_somebody():
    """How a program is run by somebody whom modes of files keep out, which they do not do with root."""
    return {"user": NOBODY, "group": NOBODY, "extra_groups": []} if os.getuid() == 0 else {}


def refused(folder, name, program=None, **settings):
    """An opening that fails: status 5, nothing is written, and one line on standard error says that the journal failed."""
    for word in ("check", "batch"):
        done = subprocess.run([program or checks.PROGRAM, word], input=histories.FRONT, capture_output=True, cwd=folder, timeout=60, **settings)
        check(f"{name}, {word}", (done.returncode, done.stdout, done.stderr), (5, b"", checks.SAID[5]))


def kept_out():
    """A file that may only be read, one that may not be read, and none in a folder that may not be changed."""
    with tempfile.TemporaryDirectory() as place:
        os.chmod(place, 0o755)
        program = shutil.copy(checks.PROGRAM, place)
        os.chmod(program, 0o755)
        for name, file, mode, of_folder in [("a file that may only be read", TWO, 0o444, 0o777), ("a file that may not be read", TWO, 0o222, 0o777),
                                            ("no file in a folder that may not be changed", None, None, 0o555)]:
            folder = tempfile.mkdtemp(dir=place)
            if file is not None:
                with open(os.path.join(folder, JOURNAL), "wb") as out:
                    out.write(file)
                os.chmod(os.path.join(folder, JOURNAL), mode)
            os.chmod(folder, of_folder)
            refused(folder, name, program, **as_somebody())
            os.chmod(folder, 0o777)
            check(f"{name}, afterwards", kept(folder), file)


def read_only_disk():
    """A journal on a file system that may only be read."""
    with small_disk(4) as place:
        if place is None:
            checks.skip("a disk that may only be read", "nothing may be mounted here")
            return
        with open(os.path.join(place, JOURNAL), "wb") as out:
            out.write(TWO)
        subprocess.run(["mount", "-o", "remount,ro", place], check=True, timeout=60)
        refused(place, "a disk that may only be read")
        check("a disk that may only be read, afterwards", kept(place), TWO)


def folder_gone():
    """A working folder that is removed."""
    for word in ("check", "batch"):
        with tempfile.TemporaryDirectory() as place:
            folder = os.path.join(place, "desk")
            os.mkdir(folder)
            line = ["sh", "-c", f'rmdir "$1"; exec "$2" {word}', "sh", folder, checks.PROGRAM]
            done = subprocess.run(line, input=histories.FRONT, capture_output=True, cwd=folder, timeout=60)
            check(f"a folder that is gone, {word}", (done.returncode, done.stdout, done.stderr), (5, b"", checks.SAID[5]))
