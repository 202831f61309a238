"""The calls of the system by which `batch` reads requests and puts responses, as strace notes them: each response is put by one call, and none
is wanting when more is read."""
import re
import subprocess
import tempfile

import checks
from checks import check
from devices.crashes import NO_STRACE, is_traced
from models.requests_heard import heard
from models.journal_openings import ROWS
from clients.messages import at_most, cut_at, whole

CALL = re.compile(r'(read\(0|write\(1), "((?:\\x[0-9a-f]{2})*)", \d+\) += (-?\d+)')
STREAM = b"".join(given for given, _, _ in ROWS)
RESPONSES = [wanted for _, wanted, _ in ROWS]
# In one piece, in pieces of which most end inside a request, and a piece for each request.
WAYS = {
    "all at once": whole,
    "in pieces": cut_at(*range(97, len(STREAM), 97)),
    "one by one": cut_at(*(len(b"".join(given for given, _, _ in ROWS[:count])) for count in range(1, len(ROWS)))),
}


def calls_of_streams(write):
    """The reads of standard input and the writes to standard output, where the commands are sent so: (name, bytes, result)."""
    with checks.folder() as folder, tempfile.NamedTemporaryFile("r") as noted, tempfile.TemporaryFile() as out:
        line = ["strace", "-D", "-o", noted.name, "-xx", "-s", "10000000", "-e", "trace=read,write", checks.PROGRAM, "batch"]
        child = subprocess.Popen(line, stdin=subprocess.PIPE, stdout=out, stderr=subprocess.DEVNULL, cwd=folder)
        with at_most(120, child):
            write(child.stdin.fileno(), STREAM)
            child.stdin.close()
            child.wait()
        found = filter(None, map(CALL.match, noted))
        return [(call[1], bytes.fromhex(call[2].replace("\\x", "")), int(call[3])) for call in found]


def out_of_turn(calls):
    """What was read while a request that had come whole was not answered, and which responses were not put by one call."""
    come, put, wrong = b"", [], []
    for name, moved, result in calls:
        if result != len(moved):
            wrong.append((name, moved, "moved", result))
        elif name == "write(1":
            put.append(moved)
        else:
            requests = sum(not isinstance(member, int) for member in heard(come))
            if requests != len(put):
                wrong.append(("a read behind", requests, "requests and", len(put), "responses"))
            come += moved
    if come != STREAM or put != RESPONSES:
        wrong.append(("read", len(come), "written", [len(response) for response in put]))
    return wrong


def in_turn():
    """Each response is put by one call, and before more is read than what the request came with."""
    if not is_traced():
        checks.skip("the calls that read and answer", NO_STRACE)
        return
    for way, write in WAYS.items():
        check(f"the calls that read and answer, {way}", out_of_turn(calls_of_streams(write)), [])
