"""`batch` behind a socket: curl sends its requests there, their bytes are handed on as they come, and curl gets the responses as they were
written. Python's http.client reads the responses too."""
import http.client
import io
import json
import os
import re
import shutil
import socket
import subprocess
import tempfile
import threading

import checks
from checks import check
from clients.messages import REFUSALS, at_most, compact, whole
from rows.histories import ENACTED, PARTS
from rows.register import FIRST, ONE, SECOND, SECTIONS, THIRD, answer, enact

LIMIT = 8_388_608
DAY = ONE + "/eng@2010-06-01"
JSON = ["-H", "Content-Type: application/json", "--data-binary"]


def refusal(number):
    name, status = REFUSALS[number]
    return status, {"http": number, "name": name}


def padded(line, length):
    """A command of so many bytes."""
    return line + " " * (length - len(line))


# What is sent to one desk after another, and how its run ends. A row is (words for curl, where {url} is that of the desk; what is sent by its
# standard input; the statuses and objects that come back).
STAYS = [
    (["{url}/front"], "", [(200, {"front": 0})]),
    ([*JSON, "@-", "{url}/commands"], ENACTED, [(201, {"law": 1})]),
    ([*JSON, "@-", "{url}/commands"], ENACTED, [(201, {"law": 1})]),
    (["{url}/front", "{url}/front"], "", [(200, {"front": 1})] * 2),
    (["-G", "--data-urlencode", f"expression={DAY}", "-d", "viewpoint=1", "{url}/text"], "",
     [(200, json.loads(answer("[]", f"{FIRST},{SECOND},{THIRD}", "2010-06-01", 1)))]),
    (["-G", "--data-urlencode", f"expression={DAY}/~sec_2", "-d", "reading=efficacy", "{url}/text"], "",
     [(200, json.loads(answer("[]", SECOND, "2010-06-01", 1, "efficacy", "/~sec_2")))]),
    (["-G", "--data-urlencode", f"expression={DAY}/~s\u00e9c_1", "{url}/text"], "", [(400, {"form": 3, "http": 8, "name": "BadForm", "place": 0})]),
    (["-G", "--data-urlencode", f"expression={PARTS}/eng@", "{url}/text"], "", [(404, {"kept": PARTS, "name": "UnknownWork", "query": 1})]),
    (["{url}/"], "", [refusal(6)]),
    (["-x", "{url}", "http://desk.example/front"], "", [refusal(6)]),
    (["-X", "DELETE", "{url}/text"], "", [refusal(7)]),
    (["-T", "-", "-H", "Content-Length: 2", "-H", "Transfer-Encoding:", "{url}/commands"], "{}", [refusal(7)]),
    (["-F", "drafter=ada", "{url}/commands"], "", [(400, {"form": 1, "http": 8, "name": "BadForm", "place": 0})]),
    ([*JSON, "@-", "{url}/commands"], enact("ada", 2, body=SECTIONS), [(409, {"kept": 1, "name": "WorkExists", "rule": 4})]),
    (["--expect100-timeout", "0.1", *JSON, "@-", "{url}/commands"], padded(enact("ada", 3, PARTS, FRBRdate="2000-01-01"), LIMIT),
     [(201, {"law": 2})]),
    (["--compressed", "-A", "", "-H", "Accept:", "{url}/front"], "", [(200, {"front": 2})]),
]
SESSIONS = [
    (STAYS, 0),
    ([(["-0", "{url}/front"], "", [(200, {"front": 0})])], 0),
    ([(["-H", "Connection: close", "{url}/none"], "", [refusal(6)])], 0),
    ([([*JSON, "@-", "{url}/commands"], padded(ENACTED, LIMIT + 1), [refusal(4)])], 1),
    ([(["-X", "POST", "{url}/commands"], "", [refusal(3)])], 1),
    ([(["-H", "Transfer-Encoding: chunked", *JSON, "@-", "{url}/commands"], ENACTED, [refusal(5)])], 1),
    ([(["-H", "X: " + "x" * 17_000, "{url}/front"], "", [refusal(2)])], 1),
    ([(["-H", "Host:", "{url}/front"], "", [refusal(1)])], 1),
]


def handed_on(connection, pipe):
    """Hands on what comes by a connection, until it ends. What comes when nobody reads any more is passed over."""
    reads = True
    while given := connection.recv(65_536):
        try:
            if reads:
                whole(pipe, given)
        except BrokenPipeError:
            reads = False


def next_response(stream):
    """The bytes of the response that comes next."""
    written = b""
    while not written.endswith(b"\r\n\r\n"):
        line = stream.readline()
        if not line:
            return written
        written += line
    length = re.search(rb"\r\nContent-Length: ([0-9]+)\r\n", written)
    return written + stream.read(int(length[1]) if length else 0)


class Connection:
    """Bytes as http.client takes them."""

    def __init__(self, written):
        self.written = written

    def makefile(self, mode):
        return io.BytesIO(self.written)


def parsed(written):
    """The status and the object of a response, as http.client reads it, and whether its fields are those of all responses."""
    try:
        response = http.client.HTTPResponse(Connection(written))
        response.begin()
        fits = response.getheader("Content-Type") == "application/json" and (response.getheader("Allow") is not None) == (response.status == 405)
        return response.status, json.loads(response.read()), fits
    except (http.client.HTTPException, ValueError) as error:
        return repr(error), written[:100], False


def exchanged(words, given, count, listening, child):
    """What curl tells of so many responses, and these responses."""
    url = "http://127.0.0.1:%d" % listening.getsockname()[1]
    line = ["curl", "-q", "-s", "--http1.1", "-w", "\n%{http_code}\n", *(word.replace("{url}", url) for word in words)]
    with tempfile.TemporaryFile() as source:
        source.write(given.encode())
        source.seek(0)
        curl = subprocess.Popen(line, stdin=source, stdout=subprocess.PIPE, env={"PATH": os.environ["PATH"]})
    connection, _ = listening.accept()
    with connection:
        handing = threading.Thread(target=handed_on, args=(connection, child.stdin.fileno()))
        handing.start()
        written = []
        for _ in range(count):
            written.append(next_response(child.stdout))
            connection.sendall(written[-1])
        connection.shutdown(socket.SHUT_WR)
        told = curl.communicate(timeout=60)[0]
        handing.join(60)
    return told.decode().split("\n")[:-1], written


def session(rows, status):
    """One desk, and all that curl sends to it."""
    with checks.folder() as folder, socket.create_server(("127.0.0.1", 0)) as listening:
        listening.settimeout(60)
        child = subprocess.Popen([checks.PROGRAM, "batch"], stdin=subprocess.PIPE, stdout=subprocess.PIPE, stderr=subprocess.DEVNULL, cwd=folder)
        with at_most(120, child):
            for words, given, wanted in rows:
                told, written = exchanged(words, given, len(wanted), listening, child)
                name = "curl " + " ".join(words)[:60]
                check(name, told, [part for code, value in wanted for part in (compact(value), str(code))])
                check(f"{name}, by http.client", [parsed(message) for message in written], [(code, value, True) for code, value in wanted])
            child.stdin.close()
            left = child.stdout.read()
            check(f"the end after {name}", (child.wait(), left), (status, b""))


def real_clients():
    if not shutil.which("curl"):
        checks.skip("real clients", "curl is not installed")
        return
    for rows, status in SESSIONS:
        session(rows, status)
