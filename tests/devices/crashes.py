"""Crashes of `batch` over a journal file: its calls of the system fail or it is killed at one of them, by strace, and it is killed at random
moments. Afterwards the journal holds what was acknowledged, perhaps one entry more and nothing else, and what was not answered is sent again
and acts once."""
import collections
import concurrent.futures
import os
import random
import re
import signal
import subprocess
import tempfile
import threading
import time

import checks
from clients.http_clients import next_response
from clients.messages import at_most, front, whole
from models.journal_openings import JOURNAL, KEEPER_FAILED, ROWS, entries, faults_of_a_front, faults_of_the_rest, of_law

# The calls by which a file is asked, and those of the standard streams, which are made while the file is at rest.
OF_A_FILE = ("openat", "flock", "statx", "fsync", "fdatasync", "fadvise64", "ftruncate", "pread64", "pwrite64")
OF_STREAMS = ("read", "write")
CALL = re.compile(r"^(?:\d+ +)?(\w+)\((.*)\) += (-?\d+|\?)")
# A call that fails once, one that fails and all of its name behind it, and a kill in the place of the call.
EFFECTS = {"fails with EIO": "error=EIO:when=%d", "fails with ENOSPC": "error=ENOSPC:when=%d", "fails with EIO from then on": "error=EIO:when=%d+",
           "is a kill": "signal=KILL:when=%d"}
KILL = "is a kill"
NO_STRACE = "strace is not installed, or may not trace"
STREAM = b"".join(given for given, _, _ in ROWS)
RESPONSES = b"".join(wanted for _, wanted, _ in ROWS)

# A call: how many of its name the process had made with it, and how many commands were answered before it.
Call = collections.namedtuple("Call", "name number arguments result answered of_journal")
# A crash: a call and what becomes of it, or a kill after so many seconds.
Point = collections.namedtuple("Point", "call number effect seed")


def is_traced():
    """Whether strace is there and may trace."""
    try:
        return subprocess.run(["strace", "-D", "-o", "/dev/null", "true"], capture_output=True, timeout=60).returncode == 0
    except OSError:
        return False


def traced(folder, output, *words):
    """`batch` in a folder under strace, which is no parent of it: its process and its status are the program's own."""
    line = ["strace", "-D", "-o", output, "-e", "trace=" + ",".join(OF_A_FILE + OF_STREAMS), *words, checks.PROGRAM, "batch"]
    return subprocess.Popen(line, stdin=subprocess.PIPE, stdout=subprocess.PIPE, stderr=subprocess.DEVNULL, cwd=folder)


def asked_front(child, answered, rows):
    """What is wrong about the front that is told behind a 503: the entry of which nobody knows is not counted."""
    laws = sum(map(of_law, entries(rows[:answered])))
    child.stdin.write(b"GET /front HTTP/1.1\r\nHost: a\r\n\r\n")
    child.stdin.flush()
    got = next_response(child.stdout)
    return [] if got in (front(laws), b"") else [("the front behind a 503", got, "and not", laws)]


def served(child, behind_fault=lambda: None, rows=ROWS):
    """Sends each request once the one before it is answered, and again behind a 503, until all are answered or the program has ended. Gives how
    many were answered, how many 503 came, and what is wrong."""
    answered, failed, wrong = 0, 0, []
    try:
        while answered < len(rows) and failed < 4:
            given, wanted, _ = rows[answered]
            child.stdin.write(given)
            child.stdin.flush()
            got = next_response(child.stdout)
            if got == KEEPER_FAILED:
                failed += 1
                behind_fault()
                wrong += asked_front(child, answered, rows)
            elif got == wanted:
                answered += 1
            else:
                wrong += [(f"request {answered + 1}", got, "and not", wanted)] if got else []
                break
    except BrokenPipeError:
        pass
    return answered, failed, wrong


def ended(child):
    """The status of a program that is given no more, and what it has still written."""
    try:
        child.stdin.close()
    except BrokenPipeError:
        pass
    left = child.stdout.read()
    child.stdout.close()
    return child.wait(), left


def bytes_of(arguments):
    """The bytes of the first string among the arguments of a call."""
    found = re.search(r'"((?:\\x[0-9a-f]{2})*)"', arguments)
    return bytes.fromhex(found[1].replace("\\x", "")) if found else b""


def of_journal(name, arguments):
    """Whether a call is on a handle of the journal, or opens it."""
    handle = re.match(r"(?:AT_FDCWD|\d+)<((?:\\x[0-9a-f]{2})*)>", arguments)
    path = bytes_of(arguments) if name == "openat" else bytes.fromhex(handle[1].replace("\\x", "")) if handle else b""
    return os.path.basename(path) == JOURNAL.encode()


def calls_of(output):
    """The calls that strace has noted, from the opening of the journal on."""
    counts, answered = collections.Counter(), 0
    calls = []
    for line in output:
        found = CALL.match(line)
        if not found:
            continue
        name, arguments = found[1], found[2]
        counts[name] += 1
        if calls or of_journal(name, arguments):
            calls.append(Call(name, counts[name], arguments, int(found[3]), answered, of_journal(name, arguments)))
            answers = name == "write" and not bytes_of(arguments).startswith((KEEPER_FAILED[:12], b"HTTP/1.1 200"))
            answered += answers
    return calls


def recorded(*words, rows=ROWS):
    """The calls of a run over all requests."""
    with checks.folder() as folder, tempfile.NamedTemporaryFile("r") as output:
        child = traced(folder, output.name, "-y", "-xx", "-s", "200000", *words)
        with at_most(120, child):
            served(child, rows=rows)
            ended(child)
        return calls_of(output)


def points(calls):
    """Each call with each effect that it is to have."""
    for call in calls:
        for effect in (KILL,) if call.name in OF_STREAMS else EFFECTS:
            yield call.name, call.number, effect


def run_to_a_crash(folder, point):
    """Runs the stream until it ends at the point. Gives how many commands were answered, and what is wrong."""
    draw = random.Random(point.seed)
    if point.call is None:
        return killed_some_time(folder, point.number)
    inject = f"inject={point.call}:" + EFFECTS[point.effect] % point.number
    child = traced(folder, "/dev/null", "-e", inject)
    with at_most(120, child):
        answered, failed, wrong = served(child, draw.choice([lambda: None, child.kill]))
        status, left = ended(child)
    allowed = (-signal.SIGKILL,) if point.effect == KILL else (0, 5, -signal.SIGKILL)
    if status not in allowed or left or (status == 0 and (failed or answered < len(ROWS))):
        wrong.append(("ended", status, left, answered, failed))
    return answered, wrong


def killed_some_time(folder, seconds):
    """All commands at once, and a kill after so many seconds."""
    child = subprocess.Popen([checks.PROGRAM, "batch"], stdin=subprocess.PIPE, stdout=subprocess.PIPE, stderr=subprocess.DEVNULL, cwd=folder)
    with at_most(seconds, child):
        try:
            whole(child.stdin.fileno(), STREAM)
        except BrokenPipeError:
            pass
        _, written = ended(child)
    ends = [0]
    for _, wanted, _ in ROWS:
        ends.append(ends[-1] + len(wanted))
    if written not in (RESPONSES[:end] for end in ends):
        return 0, [("written", written)]
    return ends.index(len(written)), []


def faults_at(point):
    """What is wrong about a crash at a point, and about what comes after it."""
    with checks.folder() as folder:
        answered, wrong = run_to_a_crash(folder, point)
        wrong += faults_of_a_front(folder, answered)
        return wrong + faults_of_the_rest(folder, answered)


def drawn(count, seed):
    """So many points: three quarters are calls that have an effect, as long as there are as many, and the others kills at random moments."""
    draw = random.Random(seed)
    found = list(points(recorded())) if is_traced() else []
    if not found:
        checks.skip("faults and kills at calls of the system", NO_STRACE)
    chosen = draw.sample(found, min(len(found), count * 3 // 4))
    with checks.folder() as folder:
        started = time.perf_counter()
        killed_some_time(folder, 60)
        taken = time.perf_counter() - started
    seeded = [Point(*point, draw.randrange(1 << 30)) for point in chosen]
    return seeded + [Point(None, draw.uniform(0, 1.2 * taken), KILL, 0) for _ in range(count - len(chosen))]


def crashes(count=200, seed=None):
    """So many crashes, each of which counts as one check."""
    seed = time.time_ns() % 1_000_000_000 if seed is None else seed
    print(f"{count} crashes of seed {seed}")
    drawn_points = drawn(count, seed)
    with concurrent.futures.ThreadPoolExecutor(os.cpu_count()) as pool:
        for point, wrong in zip(drawn_points, pool.map(faults_at, drawn_points)):
            what = f"call {point.number} of {point.call} {point.effect}" if point.call else f"a kill after {point.number:.6f} seconds"
            checks.check(f"crashes of seed {seed}, {what}", wrong, [])
