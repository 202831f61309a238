"""Calls of the system that fail in turn, each one of a run and none left out: the reads of standard input, the writes to standard output and
the calls on the journal, each alone and with all behind it. What was written are the responses to the requests that were read whole, or a front of
them, and each 201 among them is in the journal when it is opened again."""
import collections
import concurrent.futures
import contextlib
import fcntl
import itertools
import os
import random
import re
import subprocess
import tempfile
import time

import checks
from checks import check
from clients.messages import at_most, closed, refused
from devices import torn_journals
from devices.crashes import NO_STRACE, OF_A_FILE, calls_of, ended, is_traced, recorded, served, traced
from devices.journal_file import kept
from models.journal_openings import JOURNAL, KEEPER_FAILED, called, faults_of_a_front, faults_of_the_rest
from rows import mixed

OF_STREAM = {"read": re.compile(r"^read\(0[,<]"), "write": re.compile(r"^write\(1[,<]")}
STATUS = {"read": 3, "write": 4}
ERRORS = {"read": ("EIO", "EAGAIN", "EINTR", "ECONNRESET"), "write": ("EIO", "EAGAIN", "EINTR", "ENOSPC", "EPIPE")}
SIZE = 1 << 20

# A call of a stream: which of those of its name the process makes it is, and how many of the stream come before it.
Point = collections.namedtuple("Point", "name number before error later")


def pieces(given, size):
    return [given[place:place + size] for place in range(0, len(given), size)]


@contextlib.contextmanager
def piped(parts):
    """A pipe of which each read takes one of these pieces, and the next none (pipe(2), O_DIRECT). No piece goes past the end of a request, since
    what a read has no room for would be gone."""
    source, sink = os.pipe2(os.O_DIRECT)
    with open(source, "rb") as out:
        fcntl.fcntl(sink, fcntl.F_SETPIPE_SZ, SIZE)
        for part in parts:
            os.write(sink, part)
        os.close(sink)
        yield out


def over_pieces(folder, words, parts, *strace):
    """A run whose input comes in these pieces: its status, what it wrote, and what it said on standard error."""
    with piped(parts) as source:
        line = ["strace", "-D", "-e", "trace=" + ",".join(("read", "write", *OF_A_FILE)), *strace, checks.PROGRAM, *words]
        done = subprocess.run(line, stdin=source, capture_output=True, cwd=folder, timeout=60)
    return done.returncode, done.stdout, done.stderr


def made_calls(words, parts, begun):
    """Which calls of each name are those of a stream, in a run in which none fails, and the run."""
    numbers, counts = {name: [] for name in OF_STREAM}, collections.Counter()
    with new_folder(begun) as folder, tempfile.NamedTemporaryFile("r") as noted:
        ended_so = over_pieces(folder, words, parts, "-o", noted.name)
        for line in noted:
            name = line.partition("(")[0]
            counts[name] += 1
            if name in OF_STREAM and OF_STREAM[name].match(line):
                numbers[name].append(counts[name])
    return numbers, ended_so


def numbers_of(words, parts, begun):
    """The same of a run that ends with 0, and what it writes."""
    numbers, (status, written, said) = made_calls(words, parts, begun)
    check(f"{words} with no call that fails", (status, said), (0, b""))
    return numbers, written


@contextlib.contextmanager
def new_folder(begun=None):
    """A folder with a journal of these bytes, or none."""
    with checks.folder() as folder:
        if begun is not None:
            with open(os.path.join(folder, JOURNAL), "wb") as out:
                out.write(begun)
        yield folder


def points_of(numbers, errors):
    """Each call of a stream with each error, alone and with all behind it, and one behind the last, which is none."""
    for name, found in numbers.items():
        behind = found[-1] + 1 if found else None
        for before, number in enumerate(found + ([behind] if behind else [])):
            for error in errors[name]:
                for later in (False, True):
                    yield Point(name, number, before, error, later)


def failing(folder, words, parts, point):
    """A run of which that call fails."""
    return over_pieces(folder, words, parts, "-o", "/dev/null", "-e",
                       f"inject={point.name}:error={point.error}:when={point.number}" + "+" * point.later)


def said_at(point):
    """What is said on standard error beside the status; nothing where that can't be written either."""
    return b"" if point.name == "write" and point.later else checks.SAID[STATUS[point.name]]


def shown(what, point):
    return f"{what}, {point.name} {point.before + 1} fails with {point.error}" + " and all behind it" * point.later


def in_turn(what, made, points):
    """Counts each point as a check."""
    with concurrent.futures.ThreadPoolExecutor(os.cpu_count()) as pool:
        for point, wrong in zip(points, pool.map(made, points)):
            check(shown(what, point), wrong, [])


def streams_of_requests():
    """Standard input and output of `batch`."""
    for what, rows, size, errors in [("three requests", mixed.THREE, 37, ERRORS),
                                     (f"{len(mixed.MIXED)} requests", mixed.MIXED, 79, {"read": ("EIO",), "write": ("EIO",)})]:
        parted = [pieces(row[0], size) for row in rows]
        parts, ends = sum(parted, []), list(itertools.accumulate(map(len, parted)))
        numbers, written = numbers_of(["batch"], parts, None)
        check(f"{what}: the responses, the reads and the writes", (written == b"".join(row[1] for row in rows), *map(len, numbers.values())),
              (True, len(parts) + 1, len(rows)))

        def fault_of(point):
            """What is wrong about a run of which this call fails, and about the journal behind it."""
            whole = sum(end <= point.before for end in ends)
            told, done = (whole, whole) if point.name == "read" else (point.before, point.before + 1)
            wanted = (STATUS[point.name], b"".join(row[1] for row in rows[:told]), said_at(point))
            if point.number > numbers[point.name][-1]:
                wanted, told, done = (0, written, b""), len(rows), len(rows)
            with checks.folder() as folder:
                got = failing(folder, ["batch"], parts, point)
                wrong = [] if got == wanted else [("got", got[0], len(got[1]), got[2], "and not", wanted[0], len(wanted[1]), wanted[2])]
                return wrong + faults_of_a_front(folder, done, rows, 0) + faults_of_the_rest(folder, told, rows)

        in_turn(what, fault_of, list(points_of(numbers, errors)))


def faults_together():
    """The sync of the first entry fails, and then the stream, or what comes behind it is no request. The first request gets 503, the next acts. A
    stream that fails goes before the journal, and that before the refusal."""
    rows = mixed.THREE
    sync = [call for call in of_the_journal(recorded(rows=rows)) if call.name == "fsync"][-1]
    front = [KEEPER_FAILED, *(row[1] for row in rows[1:])]
    whole = [row[0] for row in rows]
    for what, parts, name, place, wanted in [
            ("a part of a request comes", [*whole, b"GET /fr"], None, 0, (5, [*front, closed(9)], checks.SAID[5])),
            ("another method comes", [*whole, mixed.OTHER_METHOD], None, 0, (5, [*front, refused(7, "POST")], checks.SAID[5])),
            ("a read fails", whole, "read", -1, (3, front, checks.SAID[3])),
            ("a read fails behind a part of a request", [*whole, b"GET /fr"], "read", -1, (3, front, checks.SAID[3])),
            ("a write fails", whole, "write", 1, (4, front[:1], checks.SAID[4])),
            ("the write of the refusal fails", [*whole, b"GET /fr"], "write", -1, (4, front, checks.SAID[4]))]:
        numbers = made_calls(["batch"], parts, None)[0]
        words = ["-o", "/dev/null", "-e", f"inject=fsync:error=EIO:when={sync.number}"]
        if name:
            words += ["-e", f"inject={name}:error=EIO:when={numbers[name][place]}"]
        with checks.folder() as folder:
            status, written, said = over_pieces(folder, ["batch"], parts, *words)
            wrong = faults_of_a_front(folder, len(rows), rows, 0)
        check(f"a sync fails, and {what}", (status, written, said, wrong), (wanted[0], b"".join(wanted[1]), wanted[2], []))


def whole_journal():
    """The journal that the requests make."""
    with checks.folder() as folder:
        called(folder, "batch", b"".join(row[0] for row in mixed.MIXED))
        return kept(folder)


def streams_of_other_forms():
    """Standard input and output of the forms that answer once: nothing is written."""
    file = whole_journal()
    dossier = checks.read("examples", "repeal.json")
    for words, given, begun in [(["text", "2011-01-01"], dossier, None), (["check"], b"", file), (["generate", "0", "9"], b"", None),
                                (["report", "unapplied", "2011-01-01"], b"", file), (["report", "dangling", "2011-01-01"], b"", file)]:
        parts = pieces(given, 97)
        numbers, written = numbers_of(words, parts, begun)

        def fault_of(point):
            wanted = (STATUS[point.name], b"", said_at(point)) if point.number <= numbers[point.name][-1] else (0, written, b"")
            with new_folder(begun) as folder:
                got = failing(folder, words, parts, point)
                return [value for value in (got, kept(folder)) if value not in (wanted, begun)]

        in_turn(" ".join(words), fault_of, list(points_of(numbers, ERRORS)))


def of_the_journal(calls):
    return [call for call in calls if call.name in OF_A_FILE]


def injected(calls, place, later):
    """The words by which the call at a place of a run fails; or it, and each on the journal behind it."""
    if not later:
        return ["-e", f"inject={calls[place].name}:error=EIO:when={calls[place].number}"]
    words = []
    for name in sorted({call.name for call in calls}):
        before = [call.number for call in calls[:place] if call.name == name]
        first = before[-1] + 1 if before else min(call.number for call in calls if call.name == name)
        words += ["-e", f"inject={name}:error=EIO:when={first}+"]
    return words


def fault_of_a_disk(rows, words, later):
    """What is wrong about a run of requests of which calls on the journal fail, each 503 being sent again: what is sent again acts once where one
    call fails alone, and where all fail it goes on to be a 503."""
    with checks.folder() as folder:
        child = traced(folder, "/dev/null", *words)
        with at_most(120, child):
            answered, failed, wrong = served(child, rows=rows)
            status, left = ended(child)
        failed_so = (5, answered, 4, b"") if later else (5, len(rows), 1, b"")
        if (status, answered, failed, left) not in [(5, 0, 0, b""), (0, len(rows), 0, b""), failed_so]:
            wrong.append(("ended", status, answered, failed, left))
        return wrong + faults_of_a_front(folder, answered, rows) + faults_of_the_rest(folder, answered, rows)


def disks():
    """The calls on the journal, of `batch`."""
    for what, rows in [("three requests", mixed.THREE), (f"{len(mixed.MIXED)} requests", mixed.MIXED)]:
        calls = of_the_journal(recorded(rows=rows))
        runs = [(place, later) for place in range(len(calls)) for later in (False, True)]
        with concurrent.futures.ThreadPoolExecutor(os.cpu_count()) as pool:
            wrongs = pool.map(lambda run: fault_of_a_disk(rows, injected(calls, *run), run[1]), runs)
            for (place, later), wrong in zip(runs, wrongs):
                check(f"{what}, call {place + 1} on the journal, {calls[place].name}, fails" + " and all behind it" * later, wrong, [])
        beyond = fault_of_a_disk(rows, ["-e", f"inject=fsync:error=EIO:when={calls[-1].number + 1000}"], False)
        check(f"{what}, no call on the journal fails", beyond, [])


def images_of_disks(seed=None, most=48):
    """What a crash may leave at each moment of a run of which a call on the journal fails, alone or with all behind it: each image is opened and has
    each entry whose 201 was written, perhaps one more. Over the three requests each run and each moment; over the commands of the stream so many runs
    and six moments of each, which are drawn, or each of both where `most` is none (`tests/crash images`)."""
    seed = time.time_ns() % 1_000_000_000 if seed is None else seed
    commands = [row for row in mixed.MIXED if row[0].startswith(b"POST /commands ")]
    with concurrent.futures.ThreadPoolExecutor(os.cpu_count()) as pool:
        for what, rows, drawn in (("three requests", mixed.THREE, None), (f"{len(commands)} commands", commands, most)):
            count = images_of_runs(pool, f"{what}, of seed {seed},", rows, random.Random(seed), drawn)
            print(f"{count} images of journals on which a call failed, {what}, seed {seed}")


def images_of_runs(pool, what, rows, draw, most):
    """The images of each run over these requests, or of so many and at some of their moments; how many they are."""
    whole_run, seen = recorded(rows=rows), set()
    *_, (last, _) = torn_journals.moments(whole_run)
    calls = of_the_journal(whole_run)
    runs = [(place, later) for place in range(len(calls)) for later in (False, True)]
    runs = draw.sample(runs, min(most, len(runs))) if most else runs

    def new_images(found):
        """The images of a run that no other run has left, with how many requests were answered by then."""
        moments = list(torn_journals.moments(found))
        for file, answered in draw.sample(moments, min(len(moments), 6)) if most else moments:
            for image in torn_journals.images(file, draw, 1):
                if (image, answered) not in seen:
                    seen.add((image, answered))
                    yield image, answered

    for (place, later), found in zip(runs, pool.map(lambda run: recorded(*injected(calls, *run), rows=rows), runs)):
        wrong = pool.map(lambda made: torn_journals.fault_of(*made, last.seen, rows), list(new_images(found)))
        check(f"{what} images where call {place + 1} on the journal, {calls[place].name}, fails" + " and all behind it" * later,
              [fault for fault in wrong if fault][:2], [])
    return len(seen)


def calls_of_a_form(words, begun):
    """The calls on the journal of a run of a form that answers once, and the run."""
    with new_folder(begun) as folder, tempfile.NamedTemporaryFile("r") as noted:
        got = over_a_journal(folder, words, "-o", noted.name, "-y", "-xx")
        return of_the_journal(calls_of(noted)), got


def over_a_journal(folder, words, *strace):
    """A run over a journal: its status, what it wrote, and what it said on standard error."""
    line = ["strace", "-D", "-e", "trace=" + ",".join(OF_A_FILE), *strace, checks.PROGRAM, *words]
    done = subprocess.run(line, stdin=subprocess.DEVNULL, capture_output=True, cwd=folder, timeout=60)
    return done.returncode, done.stdout, done.stderr


def disks_of_other_forms():
    """The calls on the journal, of `check` and of a report: where one fails nothing is written, and the file stays as it was."""
    file = whole_journal()
    for words in (["check"], ["report", "unapplied", "2011-01-01"], ["report", "dangling", "2011-01-01"]):
        calls, whole = calls_of_a_form(words, file)
        runs = [(place, later) for place in range(len(calls)) for later in (False, True)]

        def got(run):
            with new_folder(file) as folder:
                return over_a_journal(folder, words, "-o", "/dev/null", *injected(calls, *run)), kept(folder)

        with concurrent.futures.ThreadPoolExecutor(os.cpu_count()) as pool:
            for (place, later), (ended_so, left) in zip(runs, pool.map(got, runs)):
                allowed = ended_so in (whole, (5, b"", checks.SAID[5]), (5, b"", checks.HELD)) and left == file
                name = f"{words[0]}, call {place + 1} on the journal, {calls[place].name}, fails" + " and all behind it" * later
                check(name, allowed or (ended_so, left == file), True)


def each_in_turn():
    """Each call of a run fails in turn, alone and with all behind it."""
    if not is_traced():
        checks.skip("each call of the system that fails in turn", NO_STRACE)
        return
    streams_of_requests()
    streams_of_other_forms()
    faults_together()
    disks()
    images_of_disks()
    disks_of_other_forms()
