"""The register in `lawdesk.db` of the working folder: requests, reports and connections over it by `sql`, and a journal that is moved to it.
What is wanted is reckoned from docs/JOURNAL.md ("The register in SQLite"), and Python's own SQLite makes and reads the files."""
import contextlib
import os
import resource
import shutil
import signal
import sqlite3
import subprocess

import checks
from checks import check
from clients import request_streams
from clients.messages import at_most, batch, check_written, over_a_table
from clients.served_desks import desk, said
from devices import kept_journals
from devices.journal_file import DAMAGED, JOURNAL, journal, kept
from models import failing_keepers
from models.followers import counted, framed
from models.journal_openings import payloads, undated
from rows import dossiers, draft_forms, drafts, histories

TABLE = "lawdesk.db"
MAKE = "CREATE TABLE entry (number INTEGER PRIMARY KEY, payload BLOB NOT NULL) STRICT"
ONE, TWO = failing_keepers.ENACTED, failing_keepers.RECORDED
THREE = failing_keepers.of_entry(failing_keepers.recorded("sec_2"), 3, 3)


def run(folder, *words, given=b"", **settings):
    """The status of a run in a folder, and what it wrote."""
    done = subprocess.run([checks.PROGRAM, *words], input=given, stdout=subprocess.PIPE, stderr=subprocess.DEVNULL, cwd=folder, timeout=900, **settings)
    return done.returncode, done.stdout


@contextlib.contextmanager
def copied(folder):
    """Another SQLite over a copy of the table in a folder, since its opening makes good what was torn, and its end takes the log away; none where
    there is no file."""
    if not os.path.isfile(os.path.join(folder, TABLE)):
        yield None
        return
    with checks.folder() as copy:
        for name in (TABLE, TABLE + "-wal", TABLE + "-journal"):
            if os.path.exists(os.path.join(folder, name)):
                shutil.copyfile(os.path.join(folder, name), os.path.join(copy, name))
        base = sqlite3.connect(os.path.join(copy, TABLE))
        try:
            yield base
        finally:
            base.close()


def rows_of(folder):
    """The rows of the table in a folder; none where there is no table, or no whole file yet."""
    with copied(folder) as base:
        try:
            return base and base.execute("SELECT number, payload FROM entry ORDER BY number").fetchall()
        except sqlite3.DatabaseError:
            return None


def is_whole(folder):
    """Whether another SQLite finds no fault in a file, which is none yet where it is being made."""
    with copied(folder) as base:
        try:
            return base is None or base.execute("PRAGMA integrity_check").fetchall() == [("ok",)]
        except sqlite3.DatabaseError:
            return False


def made(folder, rows, make=MAKE):
    """A table of these rows, made by another program."""
    base = sqlite3.connect(os.path.join(folder, TABLE))
    with base:
        base.execute(make)
        if rows:
            base.executemany("INSERT INTO entry (number, payload) VALUES (?, ?)", rows)
    base.close()


def numbered(*payloads):
    return list(enumerate(payloads, 1))


def placed(folder, *payloads):
    """A journal of these payloads in a folder."""
    with open(os.path.join(folder, JOURNAL), "wb") as out:
        out.write(journal(*payloads))


def streams_over_a_table():
    """Each row of `batch` over a table, by the bytes that it is answered by over the journal: streams, drafts, and devices that fail."""
    with over_a_table():
        for name, given, wanted in request_streams.streams():
            check_written(f"{name}, over a table", batch(given), wanted)
        drafts.histories()
        drafts.queries()
        draft_forms.draft_rows()
        request_streams.devices()


def kept_journals_moved():
    """Journals that an earlier build wrote are moved to a table, which gives the same answers; and a copy that `follow` makes is the same table."""
    for name in kept_journals.NAMES:
        file, asked, told = kept_journals.parts(name, "asked")
        rows = numbered(*payloads(file))
        with checks.folder() as folder:
            with open(os.path.join(folder, JOURNAL), "wb") as out:
                out.write(file)
            check(f"{name}, moved", (run(folder, "move"), rows_of(folder), kept(folder)), ((0, b"moved %d\n" % len(rows)), rows, file))
            check_written(f"{name}, asked over a table", run(folder, "sql", "batch", given=asked), (0, told))
            for words, status, written in kept_journals.runs(name):
                check(f"{name}, {words} over a table", run(folder, "sql", *words), (status, written))
            check(f"{name}, exported from a table", run(folder, "sql", "export", "0"), (0, framed(payloads(file))))
            check(f"{name}, the rows behind the questions", rows_of(folder), rows)
        with checks.folder() as folder:
            check(f"{name}, followed into a table", run(folder, "sql", "follow", given=framed(payloads(file))), counted(len(rows), len(rows)))
            check(f"{name}, the rows that follow", rows_of(folder), rows)


def histories_over_a_table():
    """Each history is answered over the table as over the journal, and its entries are the journal's. Its journal is moved to a table, which gives
    the same answers to the same commands."""
    for name, rows in histories.HISTORIES.items():
        given = b"".join(request for request, _ in rows)
        with checks.folder() as folder, checks.folder() as moved:
            over_journal = run(folder, "batch", given=given)
            check_written(f"{name}, over a table", run(folder, "sql", "batch", given=given), over_journal)
            told = run(folder, "check")
            check(f"{name}, checked over a table", run(folder, "sql", "check"), told)
            entries, found = payloads(kept(folder) or b""), rows_of(folder)
            check(f"{name}, the rows", [(number, undated(payload)) for number, payload in found], numbered(*map(undated, entries)))
            check(f"{name}, the table is whole", is_whole(folder), True)
            placed(moved, *entries)
            check(f"{name}, moved", (run(moved, "move"), rows_of(moved)), ((0, b"moved %d\n" % len(entries)), numbered(*entries)))
            check(f"{name}, moved again", (run(moved, "move"), run(moved, "sql", "check")), ((0, b"moved 0\n"), told))
            check_written(f"{name}, again over what was moved", run(moved, "sql", "batch", given=given * 2), run(folder, "batch", given=given * 2))
            check(f"{name}, nothing was added", (rows_of(moved), kept(moved)), (numbered(*entries), journal(*entries)))


MOVES = [
    # name, the journal's payloads, the table's rows or no table, status and line, the rows afterwards
    ("to no table", [ONE, TWO, THREE], None, (0, "moved 3\n"), numbered(ONE, TWO, THREE)),
    ("to an empty table", [ONE, TWO, THREE], [], (0, "moved 3\n"), numbered(ONE, TWO, THREE)),
    ("to a table that has the first", [ONE, TWO, THREE], numbered(ONE), (0, "moved 2\n"), numbered(ONE, TWO, THREE)),
    ("to a table that has all", [ONE, TWO, THREE], numbered(ONE, TWO, THREE), (0, "moved 0\n"), numbered(ONE, TWO, THREE)),
    ("of nothing", [], None, (0, "moved 0\n"), []),
    ("to a table with another payload", [ONE, TWO, THREE], numbered(b"other"), (11, '{"differs":1}\n'), numbered(b"other")),
    ("to a table with another second payload", [ONE, TWO, THREE], numbered(ONE, THREE), (11, '{"differs":2}\n'), numbered(ONE, THREE)),
    ("to a table that goes on", [ONE, TWO], numbered(ONE, TWO, THREE), (11, '{"differs":3}\n'), numbered(ONE, TWO, THREE)),
    ("of nothing to a table with payloads", [], numbered(ONE), (11, '{"differs":1}\n'), numbered(ONE)),
    ("to a table with a gap", [ONE, TWO], [(1, ONE), (3, TWO)], (6, DAMAGED % ("null", 2)), [(1, ONE), (3, TWO)]),
]


def moves():
    """A journal is moved to a table: what it lacks is put in, and neither is changed where they differ or one is damaged."""
    for name, payloads_kept, rows, (status, line), left in MOVES:
        with checks.folder() as folder:
            placed(folder, *payloads_kept)
            if rows is not None:
                made(folder, rows)
            check(f"a move {name}", (*run(folder, "move"), rows_of(folder), kept(folder)), (status, line.encode(), left, journal(*payloads_kept)))
            if status == 0:
                check(f"a move {name}, again", run(folder, "move"), (0, b"moved 0\n"))
                check(f"a move {name}, checked", run(folder, "sql", "check"), (0, f"entries {len(left)} law {len(left)}\n".encode()))
    with checks.folder() as folder:
        made(folder, numbered(ONE))
        with open(os.path.join(folder, JOURNAL), "wb") as out:
            out.write(b"AKNLAW02\x00\x00")
        check("a move of a damaged journal", (*run(folder, "move"), rows_of(folder)), (6, (DAMAGED % (50, 7)).encode(), numbered(ONE)))
        with open("/dev/full", "wb") as full:
            done = subprocess.run([checks.PROGRAM, "move"], stdout=full, stderr=subprocess.PIPE, cwd=folder, timeout=60)
        check("its line to a full device", (done.returncode, done.stderr), (4, checks.SAID[4]))
    with checks.folder() as folder:
        placed(folder, TWO)
        made(folder, numbered(ONE))
        with open("/dev/full", "wb") as full:
            done = subprocess.run([checks.PROGRAM, "move"], stdout=full, stderr=subprocess.PIPE, cwd=folder, timeout=60)
        check("a difference to a full device", (done.returncode, done.stderr, rows_of(folder)), (4, checks.SAID[4], numbered(ONE)))


def words():
    """Words behind `sql` that are no form, or that open no register: no file is made."""
    for given in (["move", "now"], ["sql"], ["sql", "move"], ["sql", "sql", "check"], ["sql", "chek"], ["check", "sql"]):
        with checks.folder() as folder:
            check(f"the words {given}", (*run(folder, *given), os.listdir(folder)), (2, b"", []))
    for given, source in ((["text", "2011-01-01"], dossiers.dossier()), (["generate", "7", "12"], b"")):
        with checks.folder() as folder:
            wanted = run(folder, *given, given=source)
            check(f"sql {given}", (*run(folder, "sql", *given, given=source), os.listdir(folder)), (*wanted, []))
            check(f"{given} is answered", wanted[0], 0)


def served():
    """A table that is served: a history by one connection, its rows, and the same again by another run, which adds none."""
    rows = histories.CORRECTED
    given, wanted = (b"".join(parts) for parts in zip(*rows))
    with checks.folder() as folder:
        for time in ("once", "again"):
            with desk(1, folder, before=("sql",)) as one:
                check(f"a history that is sent {time} to a table that is served", said(one.connected(), given), (wanted, True))
                check(f"a second run while it is served {time}", run(folder, "sql", "check"), (5, b""))
                check(f"its end {time}", one.ended(), (0, b"front 3\n"))
            check(f"the rows of a table that was served {time}", [number for number, _ in rows_of(folder)], [1, 2, 3])
        check("a table that was served, checked", (run(folder, "sql", "check"), kept(folder)), ((0, b"entries 3 law 3\n"), None))


def backups():
    """The two ways of a backup that docs/JOURNAL.md has, and a restored one, each of which has all entries and goes on; so does the file that another
    SQLite has opened in between."""
    rows, more = histories.GROWING[:20], histories.GROWING[20:28]
    given, told = b"".join(given for given, _ in more), b"".join(wanted for _, wanted in more)
    with checks.folder() as folder, checks.folder() as both, checks.folder() as single:
        check("twenty commands", run(folder, "sql", "batch", given=b"".join(given for given, _ in rows))[0], 0)
        entries = rows_of(folder)
        for name in (TABLE, TABLE + "-wal"):
            shutil.copyfile(os.path.join(folder, name), os.path.join(both, name))
        base, copy = (sqlite3.connect(os.path.join(place, TABLE)) for place in (folder, single))
        base.backup(copy)
        base.close()
        copy.close()
        for name, place in (("both files, copied", both), ("a backup by another SQLite", single), ("what another SQLite has opened", folder)):
            check(f"{name}, checked", (run(place, "sql", "check"), rows_of(place)), ((0, b"entries 20 law 20\n"), entries))
            check_written(f"{name}, goes on", run(place, "sql", "batch", given=given), (0, told))
            check(f"{name}, in the end", (len(rows_of(place)), rows_of(place)[:20], is_whole(place)), (28, entries, True))
        for name in (TABLE, TABLE + "-wal", TABLE + "-shm"):
            if os.path.exists(os.path.join(folder, name)):
                os.remove(os.path.join(folder, name))
        shutil.copyfile(os.path.join(single, TABLE), os.path.join(folder, TABLE))
        shutil.copyfile(os.path.join(single, TABLE + "-wal"), os.path.join(folder, TABLE + "-wal"))
        check("a backup that is restored", (run(folder, "sql", "check"), rows_of(folder)), ((0, b"entries 28 law 28\n"), rows_of(single)))


def file_of_a_table():
    """The file that the desk makes keeps a log beside it and has pages of 4,096 bytes, as another SQLite reads it."""
    with checks.folder() as folder:
        check("a file that is made", run(folder, "sql", "check"), (0, b"entries 0 law 0\n"))
        with copied(folder) as base:
            found = [base.execute(f"PRAGMA {name}").fetchone()[0] for name in ("journal_mode", "page_size")]
        check("how the file is kept", found, ["wal", 4096])


def memory_of_an_opening(rows=60, size=1 << 20):
    """An opening takes no more memory than its table and 64 MiB: once the library has checked the rows, they are read one at a time."""
    most = rows * size + (64 << 20)
    with checks.folder() as folder:
        made(folder, numbered(ONE, *[bytes(size)] * rows))
        got = run(folder, "sql", "check", preexec_fn=lambda: resource.setrlimit(resource.RLIMIT_AS, (most, most)))
        check("an opening in little memory", got, (6, b'{"byte":0,"damaged":"entry","number":2,"place":0}\n'))


def kills():
    """A kill behind each response: what was acknowledged is there, for `sql check` and for another SQLite."""
    rows = histories.GROWING[:28]
    for count in range(1, len(rows) + 1, 3):
        with checks.folder() as folder:
            child = subprocess.Popen([checks.PROGRAM, "sql", "batch"], stdin=subprocess.PIPE, stdout=subprocess.PIPE, stderr=subprocess.DEVNULL, cwd=folder)
            with at_most(60, child):
                child.stdin.write(b"".join(given for given, _ in rows[:count]))
                child.stdin.flush()
                child.stdout.read(sum(len(wanted) for _, wanted in rows[:count]))
                child.send_signal(signal.SIGKILL)
                child.wait()
            check(f"a kill behind response {count}", run(folder, "sql", "check"), (0, f"entries {count} law {count}\n".encode()))
            check(f"the table behind it {count}", (len(rows_of(folder)), is_whole(folder)), (count, True))
