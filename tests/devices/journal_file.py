"""`batch` and `check` over a journal file in the working folder: what lasts from run to run, what a kill leaves, and each damage of a file.
What is wanted is reckoned from docs/JOURNAL.md and docs/ENTRY.md."""
import datetime
import json
import os
import signal
import subprocess
import tempfile

import checks
from checks import check, to_a_full_device
from clients.messages import at_most, check_written, response
from models import entry_bytes, failing_keepers
from rows import held, histories, wide

JOURNAL = "lawdesk.jnl"
MAGIC = b"AKNLAW01"
NEW = MAGIC + b"\x00"


def called(folder, word, given=b""):
    """The status of a run of one word in a folder, and what it wrote."""
    done = subprocess.run([checks.PROGRAM, word], input=given, stdout=subprocess.PIPE, stderr=subprocess.DEVNULL, cwd=folder, timeout=60)
    return done.returncode, done.stdout


def kept(folder):
    """The bytes of the journal in a folder, or none."""
    path = os.path.join(folder, JOURNAL)
    if not os.path.exists(path):
        return None
    with open(path, "rb") as file:
        return file.read()


def journal(*payloads):
    """A file of these payloads."""
    return MAGIC + b"".join(b"\x01" + len(data).to_bytes(4, "big") + data for data in payloads) + b"\x00"


def entries_of(rows):
    """How many entries a history makes: its accepted commands, each counted once."""
    bodies = (json.loads(given.split(b"\r\n\r\n", 1)[1]) for given, wanted in rows if wanted.startswith(b"HTTP/1.1 201 "))
    return len({(body["drafter"], body["request"]) for body in bodies})


def runs_of_one_request():
    """Each request of a history by a run of its own is answered as all of them by one, and the register is that of them all."""
    for name, rows in [*histories.HISTORIES.items(), *wide.HISTORIES.items(), *held.HISTORIES.items()]:
        with checks.folder() as folder:
            for given, wanted in rows:
                check_written(f"{name}, a run for each request", called(folder, "batch", given), (0, wanted))
            laws = max((k for k in range(1, 40) for _, wanted in rows if wanted == response(201, f'{{"law":{k}}}')), default=0)
            check(f"{name}, checked", called(folder, "check"), (0, f"entries {entries_of(rows)} law {laws}\n".encode()))
            check(f"{name}, the files", os.listdir(folder), [JOURNAL])


def today():
    return (datetime.datetime.now(datetime.timezone.utc).date() - datetime.date(1, 1, 1)).days + 1


def bytes_of_entries():
    """The file is the entries that were accepted, each of the day on which it was."""
    with checks.folder() as folder:
        before = today()
        called(folder, "batch", b"".join(given for given, _ in histories.REPEATED))
        files = [journal(failing_keepers.of_entry(failing_keepers.ENACT, 1, 1, day=day)) for day in range(before, today() + 1)]
        check("the file of one entry", kept(folder) in files, True)


EXAMPLE = journal(failing_keepers.EXAMPLE)
CAPITAL = journal(failing_keepers.CAPITAL)
TWO = journal(failing_keepers.ENACTED, failing_keepers.RECORDED)
NEEDLESS = journal(b"\x02" + failing_keepers.EXAMPLE[1:])
MIXED = journal(failing_keepers.ENACTED, failing_keepers.RECORDED, failing_keepers.BY_PROVISION)
DAMAGED = '{"byte":%s,"damaged":"journal","place":%d}\n'
ORDER = '{"damaged":"order","number":1,"rule":8}\n'
ENTRY = '{"byte":65,"damaged":"entry","number":1,"place":2}\n'
OF_NO_NEED = '{"byte":2,"damaged":"entry","number":1,"place":0}\n'


def opened(entries_count, file):
    return 0, f"entries {entries_count} law {entries_count}\n", file


def cut(file, place):
    """What an opening says of the first bytes of a file, and what it leaves."""
    begun = file[:place]
    if place <= 9:
        return opened(0, NEW)
    gate, count = 8, 0
    while gate < place and begun[gate] == 1:
        end = gate + 5 + int.from_bytes(begun[gate + 1:gate + 5], "big") if place >= gate + 5 else place
        if end >= place:
            return 6, DAMAGED % ("null", place), begun
        gate, count = end, count + 1
    return opened(count, begun)


FILES = [
    ("no file", None, opened(0, NEW)),
    *((f"{len(file)} bytes of anything", file, opened(0, NEW)) for file in (b"", b"\x00", b"AKNLAW01", b"\xff" * 9, MAGIC + b"\x01", NEW)),
    ("a gate that is closed by another byte", MAGIC + b"\x07", opened(0, MAGIC + b"\x07")),
    ("another magic", b"AKNLAW02\x00\x00", (6, DAMAGED % (50, 7), b"AKNLAW02\x00\x00")),
    ("another first byte", b"\x00" * 10, (6, DAMAGED % (0, 0), b"\x00" * 10)),
    ("a length of nothing", NEW[:8] + b"\x01\x00\x00\x00\x00\x00", (6, DAMAGED % (0, 9), NEW[:8] + b"\x01\x00\x00\x00\x00\x00")),
    ("a length past the limit", MAGIC + b"\x01\x01\x00\x00\x01", (6, DAMAGED % (1, 9), MAGIC + b"\x01\x01\x00\x00\x01")),
    ("a capital in a name", CAPITAL, (6, ENTRY, CAPITAL)),
    ("a withdrawal of nothing", EXAMPLE, (6, ORDER, EXAMPLE)),
    ("a withdrawal in the second format", NEEDLESS, (6, OF_NO_NEED, NEEDLESS)),
    ("entries of both formats", MIXED, opened(3, MIXED)),
    ("a withdrawal of nothing, of which a byte is cut", EXAMPLE[:41], (6, DAMAGED % ("null", 41), EXAMPLE[:41])),
    ("bytes behind the closed gate", TWO + b"\xff" * 5, opened(2, TWO)),
    ("a record behind the closed gate", TWO + EXAMPLE[8:], opened(2, TWO)),
    ("a gate that is closed behind the first", TWO[:8] + b"\x02" + TWO[9:], opened(0, TWO[:8] + b"\x02")),
]
CUT = [(f"{place} bytes of two entries", TWO[:place], cut(TWO, place)) for place in range(len(TWO) + 1)]


def opened_files():
    """What `check` says of each file and leaves of it, and that `batch` over it answers, or ends with the same line and reads nothing."""
    for name, file, (status, line, left) in FILES + CUT:
        with checks.folder() as folder:
            if file is not None:
                with open(os.path.join(folder, JOURNAL), "wb") as out:
                    out.write(file)
            check(f"{name}, checked", (*called(folder, "check"), kept(folder)), (status, line.encode(), left))
    for name, file, (status, line, left) in FILES:
        with checks.folder() as folder:
            if file is not None:
                with open(os.path.join(folder, JOURNAL), "wb") as out:
                    out.write(file)
            told = line.encode() if status else response(200, '{"front":%s}' % line.split()[1])
            check(f"{name}, asked", (*called(folder, "batch", histories.FRONT), kept(folder)), (status, told, left))
            check(f"{name}, to a full device", to_a_full_device([checks.PROGRAM, "batch"], histories.FRONT, cwd=folder), 4)


def kills():
    """A kill behind each response: what was acknowledged is there, and nothing but what was sent."""
    rows = histories.GROWING[:28]
    for count in range(1, len(rows) + 1):
        with tempfile.TemporaryDirectory() as folder:
            child = subprocess.Popen([checks.PROGRAM, "batch"], stdin=subprocess.PIPE, stdout=subprocess.PIPE, stderr=subprocess.DEVNULL, cwd=folder)
            with at_most(60, child):
                child.stdin.write(b"".join(given for given, _ in rows[:count]))
                child.stdin.flush()
                got = child.stdout.read(sum(len(wanted) for _, wanted in rows[:count]))
                child.send_signal(signal.SIGKILL)
                child.wait()
            check_written(f"a kill behind response {count}", (0, got), (0, b"".join(wanted for _, wanted in rows[:count])))
            check(f"what a kill behind response {count} leaves", called(folder, "check"), (0, f"entries {count} law {count}\n".encode()))


def no_file():
    """A journal that can't be opened is a fault of the keeper."""
    with checks.folder() as folder:
        os.mkdir(os.path.join(folder, JOURNAL))
        for words in (["check"], ["batch"], ["report", "unapplied", "2011-01-01"], ["report", "dangling", "2011-01-01"]):
            done = subprocess.run([checks.PROGRAM, *words], input=histories.FRONT, capture_output=True, cwd=folder, timeout=60)
            got = done.returncode, done.stdout, done.stderr
            check(f"a folder as the journal, {words[0]}", got, (5, b"", checks.SAID[5]))


def held_file():
    """One process holds the journal: a second one ends with 5, says why, and asks nothing of the file; afterwards it is free."""
    with tempfile.TemporaryDirectory() as folder:
        first = subprocess.Popen([checks.PROGRAM, "batch"], stdin=subprocess.PIPE, stdout=subprocess.PIPE, stderr=subprocess.DEVNULL, cwd=folder)
        with at_most(60, first):
            first.stdin.write(histories.FRONT)
            first.stdin.flush()
            first.stdout.read(1)
            for words in (["check"], ["batch"], ["report", "unapplied", "2011-01-01"], ["report", "dangling", "2011-01-01"]):
                done = subprocess.run([checks.PROGRAM, *words], input=histories.FRONT, capture_output=True, cwd=folder, timeout=60)
                got = done.returncode, done.stdout, done.stderr
                check(f"a second {words[0]}", got, (5, b"", checks.HELD))
            first.stdin.close()
            first.stdout.read()
            check("the first", first.wait(), 0)
        check("a check afterwards", called(folder, "check"), (0, b"entries 0 law 0\n"))
