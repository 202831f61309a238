"""Tables in `lawdesk.db` that are damaged, files that are no table, and files, disks and other programs that keep the desk out: each with its status
and its lines on both streams, and the file as it was. Python's own SQLite makes the files."""
import contextlib
import os
import shutil
import sqlite3
import subprocess
import sys
import tempfile

import checks
from checks import check
from clients.messages import at_most, command
from clients.served_desks import free_port
from devices.crashes import ended, served
from devices.journal_file import DAMAGED
from devices.real_disks import PAGE, as_somebody, limited, raised, small_disk
from devices.sql_tables import JOURNAL, ONE, TABLE, THREE, TWO, made, numbered, placed, rows_of, run
from models.journal_openings import ENTRIES, ROWS, entered, told, undated
from rows import histories
from rows.dossiers import repeal
from rows.register import record

MOST = 16_777_216
FORMS = (["sql", "check"], ["sql", "batch"], ["sql", "report", "unapplied", "2011-01-01"], ["sql", "report", "dangling", "2011-01-01"],
         ["sql", "export", "0"], ["sql", "follow"], ["sql", "serve", "PORT", "1"], ["move"])
# Another program that makes statements, says so, and holds the file until its input ends.
HOLDER = """import sqlite3, sys
held = sqlite3.connect("lawdesk.db", isolation_level=None)
for statement in sys.argv[1:]:
    held.execute(statement).fetchall()
print("held", flush=True)
sys.stdin.read()
"""


def file_of(folder):
    """The bytes of the file; none where there is none."""
    path = os.path.join(folder, TABLE)
    if not os.path.isfile(path):
        return None
    with open(path, "rb") as file:
        return file.read()


def end_of_each(name, folder, status, line=b"", program=None, **settings):
    """Each form that opens the table ends so and says so, and the file is left as it is."""
    before = file_of(folder)
    for form in FORMS:
        words = [word if word != "PORT" else str(free_port()) for word in form]
        said = {5: checks.UNMOVED if form == ["move"] else checks.UNKEPT_TABLE}.get(status, b"")
        done = subprocess.run([program or checks.PROGRAM, *words], input=histories.FRONT, capture_output=True, cwd=folder, timeout=60, **settings)
        check(f"{name}, {' '.join(form)}", (done.returncode, done.stdout, done.stderr), (status, line, said))
    check(f"{name}, the file is as it was", file_of(folder) == before, True)


DAMAGES = [
    # name, rows, the number that the first wrong one should have
    ("a gap", [(1, ONE), (3, TWO)], 2),
    ("a gap further on", [(1, ONE), (2, TWO), (4, THREE)], 3),
    ("a gap to the largest number", [(1, ONE), ((1 << 63) - 1, TWO)], 2),
    ("a number 0", [(0, ONE), (1, TWO)], 1),
    ("a negative number", [(-1, ONE), (1, TWO)], 1),
    ("no first row", [(2, ONE)], 1),
    ("an empty payload", [(1, ONE), (2, b""), (3, TWO)], 2),
    ("a payload of one byte over the limit", [(1, ONE), (2, bytes(MOST + 1))], 2),
]


def damages():
    """The first row that is not the entry of its number is the damage; nothing is changed. A payload of the most bytes is none, and is moved."""
    for name, rows, place in DAMAGES:
        with checks.folder() as folder:
            made(folder, rows)
            end_of_each(name, folder, 6, (DAMAGED % ("null", place)).encode())
            check(f"{name}, the rows", rows_of(folder) == rows, True)
    with checks.folder() as folder:
        placed(folder, bytes(MOST))
        check("a payload of the most bytes is moved", (run(folder, "move"), run(folder, "move")), ((0, b"moved 1\n"), (0, b"moved 0\n")))
        check("it is there whole", rows_of(folder) == numbered(bytes(MOST)), True)
        status, line = run(folder, "sql", "check")
        check("it is no entry", (status, line[:27]), (6, b'{"byte":0,"damaged":"entry"'))


def written(folder, data):
    with open(os.path.join(folder, TABLE), "wb") as out:
        out.write(data)


def patched(change):
    """A table of three rows of which somebody changed bytes."""
    def make(folder):
        made(folder, numbered(ONE, TWO, THREE))
        written(folder, change(file_of(folder)))
    return make


def linked(folder):
    made(folder, numbered(ONE))
    os.link(os.path.join(folder, TABLE), os.path.join(folder, "another"))


OTHERS = [
    ("a text as the table", lambda folder: written(folder, b"no database, but a text of some length\n" * 40)),
    ("a short text as the table", lambda folder: written(folder, b"none\n")),
    ("a page of zeros as the table", lambda folder: written(folder, bytes(PAGE))),
    ("a folder as the table", lambda folder: os.mkdir(os.path.join(folder, TABLE))),
    ("a table with another column", lambda folder: made(folder, [], "CREATE TABLE entry (number INTEGER PRIMARY KEY, bytes BLOB) STRICT")),
    ("a page that is damaged", patched(lambda data: data[:PAGE] + b"\xff" * 8 + data[PAGE + 8:])),
    ("a file that was cut short", patched(lambda data: data[:PAGE + 100])),
    ("a file with a second name", linked),
]


def other_files():
    """A file that is no database or that is damaged as one, another table of the name, and a file with a second name. A database without a table of the
    name gets one, and keeps what it has."""
    for name, make in OTHERS:
        with checks.folder() as folder:
            make(folder)
            end_of_each(name, folder, 5)
    with checks.folder() as folder:
        made(folder, [], "CREATE TABLE note (text TEXT)")
        check("no table of the name", run(folder, "sql", "check"), (0, b"entries 0 law 0\n"))
        check("it was made", rows_of(folder), [])
        check("a command behind it", run(folder, "sql", "batch", given=histories.ENACTED_ALONE)[0], 0)
        base = sqlite3.connect(os.path.join(folder, TABLE))
        check("the other table", base.execute("SELECT count(*), (SELECT count(*) FROM entry) FROM note").fetchall(), [(0, 1)])
        base.close()
    with checks.folder() as folder:
        written(folder, b"")
        check("an empty file", (run(folder, "sql", "check"), rows_of(folder)), ((0, b"entries 0 law 0\n"), []))


def torn_by_another():
    """What another SQLite leaves beside the file when it is killed in the midst of a transaction: the desk is kept out until that one has opened it."""
    with checks.folder() as folder, checks.folder() as left:
        made(folder, numbered(ONE))
        base = sqlite3.connect(os.path.join(folder, TABLE), isolation_level=None)
        for statement in ("PRAGMA cache_size = 1", "BEGIN", "CREATE TABLE note (text BLOB)"):
            base.execute(statement)
        base.executemany("INSERT INTO note VALUES (?)", [(bytes(3000),)] * 200)
        for name in (TABLE, TABLE + "-journal"):
            shutil.copyfile(os.path.join(folder, name), os.path.join(left, name))
        base.execute("ROLLBACK")
        base.close()
        end_of_each("a transaction that was torn", left, 5)
        check("the rows, by another SQLite", opened_once(left), [(1, ONE)])
        check("then", run(left, "sql", "check"), (0, b"entries 1 law 1\n"))


def opened_once(folder):
    base = sqlite3.connect(os.path.join(folder, TABLE))
    found = base.execute("SELECT number, payload FROM entry").fetchall()
    base.close()
    return found


@contextlib.contextmanager
def holding(folder, statements):
    """Another program that has made these statements, and has the file open."""
    other = subprocess.Popen([sys.executable, "-c", HOLDER, *statements], stdin=subprocess.PIPE, stdout=subprocess.PIPE, cwd=folder)
    with at_most(60, other):
        other.stdout.readline()
        yield
        other.stdin.close()
        other.wait()
    other.stdout.close()


HOLDS = [
    ("a transaction that writes", ["BEGIN IMMEDIATE"]),
    ("a transaction that keeps out readers", ["BEGIN EXCLUSIVE"]),
    ("a transaction that reads", ["BEGIN", "SELECT number FROM entry"]),
    ("the mode of a log", ["PRAGMA journal_mode = WAL", "SELECT number FROM entry"]),
]


def held():
    """One process has the file at a time: the desk is refused where another program or another desk has it, and keeps out another program; the file
    is free afterwards."""
    for name, statements in HOLDS:
        with checks.folder() as folder:
            made(folder, numbered(ONE))
            with holding(folder, statements):
                end_of_each(f"another program has {name}", folder, 5)
            check(f"behind {name}", (run(folder, "sql", "check"), rows_of(folder)), ((0, b"entries 1 law 1\n"), numbered(ONE)))
    with checks.folder() as folder:
        made(folder, numbered(ONE))
        first = subprocess.Popen([checks.PROGRAM, "sql", "batch"], stdin=subprocess.PIPE, stdout=subprocess.PIPE, stderr=subprocess.DEVNULL, cwd=folder)
        with at_most(60, first):
            first.stdin.write(histories.FRONT)
            first.stdin.flush()
            first.stdout.read(1)
            end_of_each("another desk has it", folder, 5)
            check("another program beside a desk", refusal_of_another(folder), "database is locked")
            first.stdin.close()
            first.stdout.read()
            check("the first desk", first.wait(), 0)
        check("after both", (run(folder, "sql", "check"), rows_of(folder)), ((0, b"entries 1 law 1\n"), numbered(ONE)))


def refusal_of_another(folder):
    """What another SQLite says of a file that it may not read."""
    base = sqlite3.connect(os.path.join(folder, TABLE), timeout=0)
    try:
        return base.execute("SELECT count(*) FROM entry").fetchall()
    except sqlite3.OperationalError as error:
        return str(error)
    finally:
        base.close()


def faults_of_rows(folder, answered):
    """What is wrong about a table where so many requests had been answered: it has to hold the entries of all of them, and perhaps that of the next
    one; and about the rest of the requests, of which each acts once."""
    found = [undated(payload) for _, payload in rows_of(folder) or []]
    wrong = []
    if len(found) not in (entered(answered), entered(answered + 1)) or found != ENTRIES[:len(found)]:
        wrong.append(("rows", len(found), "and not", entered(answered)))
    checked = run(folder, "sql", "check")
    if checked != told(len(found)):
        wrong.append(("check", checked, "and not", told(len(found))))
    given, wanted = (b"".join(row[k] for row in ROWS[answered:]) for k in (0, 1))
    if run(folder, "sql", "batch", given=given) != (0, wanted):
        wrong.append("sent again")
    if rows_of(folder) is None or [(number, undated(payload)) for number, payload in rows_of(folder)] != numbered(*ENTRIES):
        wrong.append("the rows in the end")
    return wrong


def faults_of_a_run(folder, mended, behind_fault=None, **settings):
    """What is wrong about a run whose disk takes no more until it is mended: behind a 503, or once the run has ended."""
    child = subprocess.Popen([checks.PROGRAM, "sql", "batch"], stdin=subprocess.PIPE, stdout=subprocess.PIPE, stderr=subprocess.PIPE, cwd=folder, **settings)
    with at_most(120, child):
        answered, failed, wrong = served(child, (lambda: behind_fault(child)) if behind_fault else lambda: None)
        status, left = ended(child)
        said = child.stderr.read()
    # It was not opened; or each command was answered, one at the second time; or none from the first fault on.
    runs = [(0, 0), (len(ROWS), 1)] if behind_fault else [(0, 0), (answered, 4)]
    whole = (answered, failed) == (len(ROWS), 0)
    if (status, left, said) != ((0, b"", b"") if whole else (5, b"", checks.UNKEPT_TABLE)) or not whole and (answered, failed) not in runs:
        wrong.append(("ended", status, left, said, answered, failed))
    mended()
    return wrong + faults_of_rows(folder, answered)


def full_disks():
    """A disk that is full but for so many pages, until room is made behind the first 503, or once the run has ended; and one that has a table already."""
    for free in (0, 1, 2, 3, 8, 20, 70, 80):
        for soon in (True, False):
            with small_disk(400) as place:
                if place is None:
                    checks.skip("a full disk with a table", "nothing may be mounted here; a limit of the file's size stands in for it")
                    return
                folder, filling = os.path.join(place, "desk"), os.path.join(place, "filling")
                os.mkdir(folder)
                with open(filling, "wb") as out, contextlib.suppress(OSError):
                    out.write(bytes((400 - free) * PAGE))

                def emptied(_=None):
                    if os.path.exists(filling):
                        os.remove(filling)

                check(f"a disk that is full but for {free} pages, mended soon {soon}", faults_of_a_run(folder, emptied, emptied if soon else None), [])
    with small_disk(64) as place:
        folder, filling = os.path.join(place, "desk"), os.path.join(place, "filling")
        os.mkdir(folder)
        made(folder, numbered(ONE, TWO))
        before = file_of(folder)
        with open(filling, "wb") as out, contextlib.suppress(OSError):
            out.write(bytes(64 * PAGE))
        status, line = run(folder, "sql", "check")
        check("a table on a full disk, checked", (status, line) in ((0, b"entries 2 law 2\n"), (5, b"")), True)
        check("a table on a full disk, a command", run(folder, "sql", "batch", given=command(record("eve", 1, repeal("sec_3"))))[0], 5)
        check("a table on a full disk, the file", file_of(folder) == before, True)
        os.remove(filling)
        check("a table on a disk with room", (run(folder, "sql", "check"), rows_of(folder)), ((0, b"entries 2 law 2\n"), numbered(ONE, TWO)))


def limited_files():
    """Files that may have so many bytes: a write beyond is a fault, and is mended behind the first, or once the run has ended."""
    for most in (0, 100, 4_096, 8_192, 20_000, 40_000, 300_000):
        for soon in (True, False):
            with checks.folder() as folder:
                wrong = faults_of_a_run(folder, lambda: None, raised if soon else None, preexec_fn=limited(most, True))
                check(f"files of at most {most} bytes, mended soon {soon}", wrong, [])


def kept_out():
    """A file that may only be read or only be written, none in a folder that may not be changed, a disk that may only be read, and a folder that is gone."""
    with tempfile.TemporaryDirectory() as place:
        os.chmod(place, 0o755)
        program = shutil.copy(checks.PROGRAM, place)
        os.chmod(program, 0o755)
        for name, rows, mode, of_folder in [("a table that may only be read", numbered(ONE), 0o444, 0o777),
                                            ("a table that may not be read", numbered(ONE), 0o222, 0o777),
                                            ("no table in a folder that may not be changed", None, None, 0o555),
                                            ("a table in a folder that may not be changed", numbered(ONE), 0o666, 0o555)]:
            folder = tempfile.mkdtemp(dir=place)
            if rows is not None:
                made(folder, rows)
                os.chmod(os.path.join(folder, TABLE), mode)
            os.chmod(folder, of_folder)
            end_of_each(name, folder, 5, program=program, **as_somebody())
            os.chmod(folder, 0o777)
            check(f"{name}, afterwards", rows_of(folder), rows)
    with small_disk(16) as disk:
        if disk is None:
            checks.skip("a table on a disk that may only be read", "nothing may be mounted here")
        else:
            made(disk, numbered(ONE))
            subprocess.run(["mount", "-o", "remount,ro", disk], check=True, timeout=60)
            end_of_each("a disk that may only be read", disk, 5)
            check("a disk that may only be read, afterwards", (os.listdir(disk), rows_of(disk)), ([TABLE], numbered(ONE)))
    with tempfile.TemporaryDirectory() as place:
        folder = os.path.join(place, "desk")
        os.mkdir(folder)
        line = ["sh", "-c", 'rmdir "$1"; exec "$2" sql check', "sh", folder, checks.PROGRAM]
        done = subprocess.run(line, capture_output=True, cwd=folder, timeout=60)
        check("a folder that is gone, sql check", (done.returncode, done.stdout, done.stderr), (5, b"", checks.UNKEPT_TABLE))
