"""`follow` of frames for three commits that is killed at each of its calls of the system, or of which one fails: what was committed by then is
there, with at most the payloads of the next commit, and `follow` run again ends with the leader's file."""
import collections
import concurrent.futures
import os
import signal
import subprocess
import tempfile

import checks
from checks import check
from clients.messages import at_most
from devices.crashes import NO_STRACE, OF_A_FILE, OF_STREAMS, calls_of, is_traced
from devices.journal_file import JOURNAL, called, journal, kept
from models.followers import TOGETHER, acts, counted, framed
from models.journal_openings import payloads

# How many payloads there are behind each commit.
COMMITTED = [TOGETHER, 2 * TOGETHER, 2 * TOGETHER + 20]
ALL = COMMITTED[-1]
SENT = acts(ALL)
FRAMES = framed(SENT)
EFFECTS = {"is a kill": "signal=KILL:when=%d", "fails with EIO": "error=EIO:when=%d", "fails with EIO from then on": "error=EIO:when=%d+"}
KILL = "is a kill"

# A call of the run, with how many payloads were synced before it, how many there are once the next commit is, and how many bytes of the input
# were read.
Point = collections.namedtuple("Point", "name number added next taken")


def traced(folder, output, *words):
    """`follow` of the frames, from a file, under strace: its status, what it wrote, and what it said."""
    line = ["strace", "-D", "-o", output, "-e", "trace=" + ",".join(OF_A_FILE + OF_STREAMS), *words, checks.PROGRAM, "follow"]
    with tempfile.TemporaryFile() as source:
        source.write(FRAMES)
        source.seek(0)
        child = subprocess.Popen(line, stdin=source, stdout=subprocess.PIPE, stderr=subprocess.PIPE, cwd=folder)
        with at_most(60, child):
            written, said = child.communicate()
    return child.returncode, written, said


def points_of(calls):
    """The calls of a run, each with what came before it. A gate is opened by a write of one byte, and counts once it is synced."""
    coming, added, taken, opens = [*COMMITTED, ALL], 0, 0, False
    for call in calls:
        yield Point(call.name, call.number, added, coming[0], taken)
        if call.name == "pwrite64":
            opens = call.arguments.rsplit(", ", 2)[-2] == "1"
        elif call.name in ("fsync", "fdatasync") and opens:
            added, opens = coming.pop(0), False
        elif call.name == "read":
            taken += call.result


def recorded():
    """The points of a whole run. Reads count from the opening of the journal on; `follow` reads none of its input before."""
    with checks.folder() as folder, tempfile.NamedTemporaryFile("r") as output:
        ended = traced(folder, output.name, "-y", "-xx", "-s", "32")
        found = list(points_of(calls_of(output)))
        check("follow of the frames under strace", (ended, kept(folder)), ((*counted(ALL, ALL), b""), journal(*SENT)))
    synced = sorted({point.added for point in found})
    check("the syncs of three commits, and the bytes read", (synced, found[-1].taken), ([0, *COMMITTED], len(FRAMES)))
    return found


def endings(point, effect):
    """How a run may end on which that call has that effect: a tolerated fault of the journal, or the status of what has failed."""
    if effect == KILL:
        return [(-signal.SIGKILL, written, b"") for written in (b"", *([counted(ALL, ALL)[1]] if point.name == "write" else []))]
    if point.name == "read":
        return [(3, b"", checks.SAID[3])]
    if point.name == "write":
        return [(4, b"", said) for said in (checks.SAID[4], b"")]
    return [(5, b"", checks.SAID[5]), (5, b"", checks.HELD), (*counted(ALL, ALL), b"")]


def fault_of(point, effect):
    """What is wrong about a run on which that call has that effect, about what it left, and about the run behind it."""
    with checks.folder() as folder:
        ended = traced(folder, "/dev/null", "-e", f"inject={point.name}:" + EFFECTS[effect] % point.number)
        wrong = [] if ended in endings(point, effect) else [("ended", ended)]
        told, left = called(folder, "check"), payloads(kept(folder) or b"")
        allowed = {point.added, point.next} if ended[0] else {ALL}
        if effect != KILL and point.name == "read":
            allowed = {point.added}
        if left is None or len(left) not in allowed or left != SENT[:len(left)]:
            wrong.append(("left", left and len(left), "and not", allowed))
        elif told[0] or not told[1].startswith(b"entries %d " % len(left)):
            wrong.append(("check", told))
        else:
            again = traced(folder, "/dev/null")[:2], kept(folder), os.listdir(folder)
            if again != (counted(ALL, ALL - len(left), len(left)), journal(*SENT), [JOURNAL]):
                wrong.append(("again", again[0], again[2]))
        return wrong


def at_each_call():
    """A kill at each call; and each call on the journal, each read and the write fail, alone or with all of their name behind them."""
    if not is_traced():
        checks.skip("kills and faults of `follow` at each call of the system", NO_STRACE)
        return
    runs = [(point, effect) for point in recorded() for effect in EFFECTS]
    with concurrent.futures.ThreadPoolExecutor(os.cpu_count()) as pool:
        for (point, effect), wrong in zip(runs, pool.map(lambda run: fault_of(*run), runs)):
            check(f"follow, call {point.number} of {point.name} {effect}", wrong, [])
