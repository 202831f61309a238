"""Crashes of `sql batch` and `move` over lawdesk.db. `sql batch` of twenty commands is killed at any of its calls of the system, from the one that
opens the file on: what was answered is there afterwards, with at most the command that came next, for `sql check` and for another SQLite, and the
rest is sent again and acts once. A move is killed at random moments and made again until it says that nothing was moved. `tests/crash sql` makes more."""
import concurrent.futures
import os
import random
import re
import signal
import subprocess
import tempfile
import time

import checks
from checks import check
from clients.messages import at_most
from devices.crashes import NO_STRACE, is_traced
from devices.journal_file import journal, kept
from devices.sql_tables import TABLE, is_whole, numbered, placed, rows_of, run
from models.journal_openings import payloads, undated
from rows import histories

ROWS = histories.GROWING[:28]
TWENTY = 20
CALL = re.compile(r"^(?:\d+ +)?(\w+)\(")


def given_of(rows):
    return b"".join(given for given, _ in rows)


def wanted_of(rows):
    return b"".join(wanted for _, wanted in rows)


def traced(folder, begun, output, *words):
    """`sql batch` of twenty commands behind the first so many, from a file, under strace: its status and what it wrote."""
    line = ["strace", "-D", "-o", output, *words, checks.PROGRAM, "sql", "batch"]
    with tempfile.TemporaryFile() as source:
        source.write(given_of(ROWS[begun:begun + TWENTY]))
        source.seek(0)
        child = subprocess.Popen(line, stdin=source, stdout=subprocess.PIPE, stderr=subprocess.DEVNULL, cwd=folder)
        with at_most(120, child):
            written, _ = child.communicate()
    return child.returncode, written


def begin(folder, begun):
    """A table that has the first so many commands, or none."""
    if begun:
        run(folder, "sql", "batch", given=given_of(ROWS[:begun]))


def recorded(begun):
    """Each call of a whole run from the one that opens the file on: its name, and which of that name it is."""
    with checks.folder() as folder, tempfile.NamedTemporaryFile("r") as output:
        begin(folder, begun)
        check(f"twenty commands behind {begun} under strace", traced(folder, begun, output.name), (0, wanted_of(ROWS[begun:begun + TWENTY])))
        counts, found = {}, []
        for line in output:
            call = CALL.match(line)
            if call:
                name = call[1]
                counts[name] = counts.get(name, 0) + 1
                if found or f'{TABLE}"' in line:
                    found.append((begun, name, counts[name]))
    return [point for point in found if point[1] != "exit_group"]


def expected():
    """The rows of all commands, without their days, as the journal has the entries."""
    with checks.folder() as folder:
        run(folder, "batch", given=given_of(ROWS))
        return numbered(*map(undated, payloads(kept(folder))))


def undated_rows(folder):
    """The rows that another SQLite finds, without their days."""
    return [(number, undated(payload)) for number, payload in rows_of(folder) or []]


def fault_of(point, entries):
    """What is wrong about a run that is killed at a call, about what it left, and about the run behind it."""
    begun, name, number = point
    fronts = [wanted_of(ROWS[begun:begun + count]) for count in range(TWENTY + 1)]
    with checks.folder() as folder:
        begin(folder, begun)
        status, written = traced(folder, begun, "/dev/null", "-e", f"inject={name}:signal=KILL:when={number}")
        if written not in fronts:
            return [("written", written)]
        answered = begun + fronts.index(written)
        wrong = [] if status == -signal.SIGKILL else [("ended", status)]
        left = undated_rows(folder)
        if left not in (entries[:answered], entries[:answered + 1]):
            return wrong + [("left", len(left), "and not", answered)]
        if answered and not is_whole(folder):
            wrong.append("the table is not whole")
        told = run(folder, "sql", "check")
        if told != (0, b"entries %d law %d\n" % (len(left), len(left))):
            wrong.append(("check", told))
        again = run(folder, "sql", "batch", given=given_of(ROWS[answered:]))
        if (again, undated_rows(folder)) != ((0, wanted_of(ROWS[answered:])), entries):
            wrong.append(("again", again[0], len(undated_rows(folder))))
        return wrong


def at_each_call(count=None, seed=None):
    """A kill at each call of twenty commands, over no table and over one that has the eight before them; or at so many of the calls, drawn."""
    if not is_traced():
        checks.skip("kills of `sql batch` at each call of the system", NO_STRACE)
        return
    points, entries = recorded(0) + recorded(8), expected()
    check(f"calls of twenty commands, {len(points)}", len(points) >= 500, True)
    if count:
        points = random.Random(seed).sample(points, count)
    with concurrent.futures.ThreadPoolExecutor(os.cpu_count()) as pool:
        for (begun, name, number), wrong in zip(points, pool.map(lambda point: fault_of(point, entries), points)):
            check(f"sql batch behind {begun} commands, a kill at call {number} of {name}", wrong, [])


def at_some_calls():
    """A kill at 120 of these calls."""
    at_each_call(120, time.time_ns() % 1_000_000_000)


def move_killed(moved, moments):
    """A move that is killed after each of these times and made again, until it ends, and once more. Gives what is wrong, and how many rows a kill has
    left each time."""
    with checks.folder() as folder:
        placed(folder, *moved)
        wrong, stops = [], []
        for seconds in moments:
            child = subprocess.Popen([checks.PROGRAM, "move"], stdout=subprocess.DEVNULL, stderr=subprocess.DEVNULL, cwd=folder)
            try:
                child.wait(seconds)
            except subprocess.TimeoutExpired:
                child.kill()
            if child.wait() == 0:
                break
            left = rows_of(folder) or []
            if child.wait() != -signal.SIGKILL or left != numbered(*moved[:len(left)]) or left and not is_whole(folder):
                wrong.append(("left", child.wait(), len(left)))
            stops.append(len(left))
        before = len(rows_of(folder) or [])
        ended = [run(folder, "move"), run(folder, "move")]
        if ended != [(0, b"moved %d\n" % (len(moved) - before)), (0, b"moved 0\n")]:
            wrong.append(("again", ended))
        if rows_of(folder) != numbered(*moved) or not is_whole(folder) or kept(folder) != journal(*moved):
            wrong.append("the lists")
        return wrong, stops


def moves_killed(count=24, size=2_000, seed=None):
    """So many kills of moves of so many payloads, at moments that are drawn, up to eight of each move."""
    seed = time.time_ns() % 1_000_000_000 if seed is None else seed
    draw = random.Random(seed)
    moved = [b"%d of a register that is moved, with some bytes of its own: %d" % (number, number * 7919) for number in range(size)]
    with checks.folder() as folder:
        placed(folder, *moved)
        began = time.perf_counter()
        check(f"a move of {size}", run(folder, "move"), (0, b"moved %d\n" % size))
        taken = time.perf_counter() - began
    stops = []
    with concurrent.futures.ThreadPoolExecutor(max(1, os.cpu_count() // 2)) as pool:
        for _ in range(count):
            if len(stops) >= count:
                break
            drawn = [[draw.uniform(0, taken) for _ in range(8)] for _ in range(max(1, min(8, (count - len(stops)) // 3)))]
            for moments, (wrong, stopped) in zip(drawn, pool.map(lambda moments: move_killed(moved, moments), drawn)):
                check(f"a move killed after {', '.join(f'{moment:.3f}' for moment in moments)} s, of seed {seed}", wrong, [])
                stops += stopped
    amid = sum(0 < left < size for left in stops)
    print(f"{len(stops)} kills of moves of {size} entries, of seed {seed}; {amid} of them amid the entries")
    check("moves that were stopped on the way", amid > 0, True)
