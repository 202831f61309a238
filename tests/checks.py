"""What all checks share: where things are, a run of a program over a pipe, and the count of what passed."""
import os
import subprocess
import sys
import tempfile

TOP = os.path.dirname(os.path.dirname(os.path.abspath(__file__)))
PROGRAM = os.path.join(TOP, "crates", "lawdesk", "out", "lawdesk")
DESK = os.path.join(TOP, "crates", "desk_trial", "out", "desk_trial")
TRIAL = os.path.join(TOP, "crates", "journal_trial", "out", "journal_trial")
TURNS = os.path.join(TOP, "crates", "turn_trial", "out", "turn_trial")
TABLES = os.path.join(TOP, "crates", "table_trial", "out", "table_trial")
GATES = os.path.join(TOP, "crates", "serving_trial", "out", "serving_trial")
SCRIPT = os.path.join(TOP, "lawdesk")

passed = 0
failed = 0
skipped = []


# What the program says on standard error beside a status, but for the usage at 2 and a journal that another process holds.
SAID = {
    3: b"lawdesk: standard input could not be read\n",
    4: b"lawdesk: standard output could not be written\n",
    5: b"lawdesk: the journal lawdesk.jnl could not be opened, read or written\n",
    7: b"lawdesk: there was not enough memory\n",
    8: b"lawdesk: the port could not be listened at, or a connection could not be had\n",
}
HELD = b"lawdesk: another process holds lawdesk.jnl\n"
# The same of the other register, and of both.
UNKEPT_TABLE = b"lawdesk: lawdesk.db could not be opened, read or written, or another process holds it\n"
UNMOVED = b"lawdesk: lawdesk.jnl or lawdesk.db could not be opened, read or written, or another process holds it\n"


def check(name, got, want):
    """Counts one check, and shows what differs."""
    global passed, failed
    if got == want:
        passed += 1
    else:
        failed += 1
        print(f"{name}: got {str(got)[:300]}, wanted {str(want)[:300]}")


def skip(what, why):
    """Notes a part that is left out on this machine; the last lines of tests/run name it."""
    skipped.append(f"skipped: {what}, since {why}")


def folder():
    """A folder for a run that is emptied afterwards, in memory where the machine has such a place: two syncs a command take long on a disk."""
    place = "/dev/shm"
    return tempfile.TemporaryDirectory(dir=place if os.path.isdir(place) and os.access(place, os.W_OK) else None)


def read(*path):
    with open(os.path.join(TOP, *path), "rb") as file:
        return file.read()


def run(words, given, **settings):
    """The status of a run over a pipe, and what it wrote."""
    done = subprocess.run([PROGRAM] + words, input=given, stdout=subprocess.PIPE, stderr=subprocess.PIPE, timeout=60, **settings)
    return done.returncode, done.stdout


def said_over_a_folder(line, **settings):
    """A run whose standard input is a folder, which can't be read: its status, what it wrote, and what it said on standard error."""
    folder = os.open(TOP, os.O_RDONLY)
    done = subprocess.run(line, stdin=folder, capture_output=True, timeout=60, **settings)
    os.close(folder)
    return done.returncode, done.stdout, done.stderr


def over_a_folder(line, **settings):
    """The status of a run whose standard input is a folder, and what it wrote."""
    return said_over_a_folder(line, **settings)[:2]


def said_to_a_full_device(line, given, **settings):
    """The status of a run whose standard output takes nothing, and what it said on standard error."""
    with open("/dev/full", "wb") as full:
        done = subprocess.run(line, input=given, stdout=full, stderr=subprocess.PIPE, timeout=60, **settings)
    return done.returncode, done.stderr


def to_a_full_device(line, given, **settings):
    """The status of a run whose standard output takes nothing."""
    return said_to_a_full_device(line, given, **settings)[0]


def end():
    """The last lines: what was left out, and how many checks passed. Ends with 1 where one has failed."""
    for line in skipped:
        print(line)
    print(f"{passed} passed, {failed} failed")
    sys.exit(1 if failed else 0)
