"""`serve` over real connections of this machine: its statuses, one stream a connection with the responses that `batch` gives to it, curl, and
Python's http.client."""
import concurrent.futures
import http.client
import json
import os
import shutil
import socket
import subprocess

import checks
from checks import check
from clients import http_clients
from clients.messages import at_most, check_written, closed, command, compact, get, head
from clients.request_streams import told
from clients.served_desks import HOST, LATE, WORKERS, Desk, desk, free_port, half_closed, received, reset, said
from devices.journal_file import EXAMPLE, JOURNAL, TWO, called, kept
from rows import histories, mixed, queries, refusals, wide
from rows.register import ONE, TWO as OTHER_ACT, enact

ANY_PORT_OF_THIS_MACHINE = {"0100007F"}


def each_worker():
    """One request by each of four connections: each is answered, the program ends once all have had theirs, and the line tells the front."""
    with desk(1) as served:
        check("the addresses at which it listens", served.addresses, ANY_PORT_OF_THIS_MACHINE)
        for number in range(1, WORKERS + 1):
            check(f"connection {number} of four", said(served.connected(), histories.FRONT), (histories.FRONT_0, True))
        check("the end behind four connections", served.ended(), (0, b"front 0\n"))


def as_many_as_said():
    """It runs as long as one connection is left, and serves no more than it says."""
    with desk(3) as served:
        for _ in range(3 * WORKERS - 1):
            said(served.connected(), histories.FRONT)
        check("with one connection left", served.runs(), True)
        check("the last connection", said(served.connected(), mixed.THREE[0][0]), (mixed.THREE[0][1], True))
        check("the end behind the last", served.ended(), (0, b"front 1\n"))
        with socket.socket() as late:
            check("a connection behind the end", late.connect_ex((HOST, served.port)) != 0, True)


def words():
    """Ports and counts that are none end with 2, and touch no file."""
    for line in ("serve", "serve 8080", "serve 0 1", "serve 8080 0", "serve 65536 1", "serve 8080 1000001", "serve 08080 1", "serve 8080 01",
                 "serve -1 1", "serve 8080 -1", "serve +8080 1", "serve 8080 1 1", "serve 127.0.0.1:8080 1", "serve http 1", "serve 8080 1.0"):
        with checks.folder() as folder:
            done = subprocess.run([checks.PROGRAM, *line.split()], stdin=subprocess.DEVNULL, capture_output=True, cwd=folder, timeout=LATE)
            check(f"the words {line}", (done.returncode, done.stdout, done.stderr != b"", os.listdir(folder)), (2, b"", True, []))


def run(folder, port, sink=subprocess.PIPE):
    """A desk that is to end by itself: its status, what it wrote, and what it said on standard error."""
    line = [checks.PROGRAM, "serve", str(port), "1"]
    child = subprocess.Popen(line, stdin=subprocess.DEVNULL, stdout=sink, stderr=subprocess.PIPE, cwd=folder)
    with at_most(LATE, child):
        written, notice = child.communicate()
    return child.returncode, written, notice


def port_in_use():
    """A port at which another listens ends with 8: what was opened is closed, and its line written. What is opened goes first: 6, then 5."""
    with socket.create_server((HOST, 0)) as other, checks.folder() as folder:
        port = other.getsockname()[1]
        check("a port in use", (*run(folder, port), kept(folder)), (8, b"front 0\n", checks.SAID[8], b"AKNLAW01\x00"))
        placed(folder, TWO)
        check("a port in use, over two entries", run(folder, port)[:2], (8, b"front 2\n"))
        placed(folder, EXAMPLE)
        check("a port in use, over a damaged file", run(folder, port)[:2], (6, b'{"damaged":"order","number":1,"rule":8}\n'))
        os.remove(os.path.join(folder, JOURNAL))
        os.mkdir(os.path.join(folder, JOURNAL))
        check("a port in use, over a folder", run(folder, port), (5, b"", checks.SAID[5]))


def placed(folder, file):
    with open(os.path.join(folder, JOURNAL), "wb") as out:
        out.write(file)


def journals():
    """A journal that is damaged is not served; one that is has what was acknowledged, and is served again by another run."""
    with checks.folder() as folder:
        placed(folder, EXAMPLE)
        check("a damaged file", (*run(folder, free_port()), kept(folder)), (6, b'{"damaged":"order","number":1,"rule":8}\n', b"", EXAMPLE))
        with open("/dev/full", "wb") as full:
            check("a damaged file, to a full device", run(folder, free_port(), full), (4, None, checks.SAID[4]))
    with checks.folder() as folder:
        with desk(2, folder) as served:
            given, wanted = told(histories.CORRECTED)
            check("a history of commands", said(served.connected(), given), (wanted, True))
            file = kept(folder)
            check("the end", (served.ended(), kept(folder)), ((0, b"front 3\n"), file))
        check("a check behind it", called(folder, "check"), (0, b"entries 3 law 3\n"))
        with desk(1, folder) as served:
            check("the commands again, of another run", said(served.connected(), given), (wanted, True))
            check("the end of that", (served.ended(), kept(folder)), ((0, b"front 3\n"), file))
    with checks.folder() as folder, open("/dev/full", "wb") as full:
        served = Desk(folder, 1, sink=full)
        with at_most(LATE, served.child):
            served.listens()
            check("a line to a full device", served.ended()[0], 4)


def held_file():
    """A journal that is served is held, and one that another process holds is not served."""
    with checks.folder() as folder, desk(1, folder) as served:
        check("a second desk", run(folder, free_port()), (5, b"", checks.HELD))
        check("a check beside it", called(folder, "check")[0], 5)
        check("the end of the first", served.ended(), (0, b"front 0\n"))
        check("a check behind it", called(folder, "check"), (0, b"entries 0 law 0\n"))


def streams():
    """Each stream of requests on a connection of its own: what comes back is what `batch` writes of it, and the connection then ends. Nothing of a
    stream that is closed touches another connection."""
    rows = [(name, given, wanted) for name, (given, wanted, _) in histories.SHORT.items()]
    rows += [(name, *told(table)) for name, table in [*histories.HISTORIES.items(), ("limits and provisions", wide.NAMED)] if table is not histories.LARGEST]
    rows += [("requests of every kind", b"".join(row[0] for row in mixed.MIXED), b"".join(row[1] for row in mixed.MIXED))]
    for name, given, wanted in rows:
        with desk(1) as served:
            check_written(f"{name}, over a connection", said(served.connected(), given)[::-1], (True, wanted))
            if len(given) < 200:
                check_written(f"{name}, over a connection, byte by byte", bytewise(served.connected(), given)[::-1], (True, wanted))
            check(f"the end behind {name}", served.ended()[0], 0)


def bytewise(connection, given):
    """Sends each byte by a call of its own, which the connection does not hold back. Gives what comes back."""
    with connection:
        try:
            for place in range(len(given)):
                connection.sendall(given[place:place + 1])
            half_closed(connection)
        except ConnectionError:  # the stream was closed before its end
            pass
        return received(connection)


def refused_amid_a_body():
    """A body that is too long is refused before it comes. Who sends all of it all the same, in pieces, has the response whole and the end behind it."""
    given = head("POST /commands HTTP/1.1", "Host: a", "Content-Length: 12582912")
    with desk(2) as served:
        for size in (1 << 10, 1 << 16):
            connection, left = served.connected(), 12 << 20
            with connection:
                try:
                    connection.sendall(given)
                    while left:
                        left -= connection.send(bytes(min(size, left)))
                    half_closed(connection)
                    got = received(connection)
                except ConnectionError as broken:
                    got = str(broken), left
                check(f"a body that is too long, in pieces of {size} bytes", got, (closed(4), True))
        check("the end behind bodies that are too long", served.ended(), (0, b"front 0\n"))


def refusal_rows():
    """What is refused, and what just is not, each on a connection of its own to one desk; behind it stands a request, which is answered where the
    stream goes on. A client that is still sending when the stream is closed may find its connection broken, but never anything else."""
    tables = ((refusals.CLOSED, False), (refusals.ON, True), (refusals.LAST, False))
    rows = [(name, given, wanted, goes_on) for table, goes_on in tables for name, given, wanted in table]
    with desk(-(-len(rows) // WORKERS)) as served:
        for name, given, wanted, goes_on in rows:
            behind = b"" if wanted == closed(9) else histories.FRONT
            whole = wanted + (histories.FRONT_0 if goes_on else b"")
            try:
                got, came_to_its_end = said(served.connected(), given + behind)
            except ConnectionError:
                continue
            check_written(f"{name}, over a connection", (True, got), (True, whole if came_to_its_end else got if whole.startswith(got) else whole))
        check("the end behind what is refused", served.ended()[0], 0)


def query_rows():
    """Questions and commands that are refused or answered, on one connection behind the act, and each on one of its own."""
    begun, reply = queries.ENACTED_FIRST
    questions = [row for row in queries.ROWS if row[1].startswith(b"GET ")]
    with desk(-(-(len(questions) + 1) // WORKERS)) as served:
        check_written("the act of the queries", said(served.connected(), begun)[::-1], (True, reply))
        for name, given, wanted in questions:
            check_written(f"{name}, over a connection", said(served.connected(), given)[::-1], (True, wanted))
        check("the end behind queries", served.ended()[0], 0)


def by_curl():
    """What curl sends by a connection of its own each time, and several requests by one connection that it keeps."""
    if not shutil.which("curl"):
        checks.skip("curl and `serve`", "curl is not installed")
        return
    for rows, _ in http_clients.SESSIONS:
        with desk(-(-len(rows) // WORKERS)) as served:
            url = f"http://{HOST}:{served.port}"
            for words, given, wanted in rows:
                served.left -= 1
                done = curl([word.replace("{url}", url) for word in words], given)
                check("curl " + " ".join(words)[:60], done, [part for code, value in wanted for part in (compact(value), str(code))])
            check("the end behind curl", served.ended()[0], 0)
    with desk(1) as served:
        url = f"http://{HOST}:{served.port}"
        words = ["-w", "%{num_connects} %{http_code}\n", f"{url}/front", f"{url}/none", f"{url}/text?x=1", "-X", "DELETE", f"{url}/front"]
        served.left -= 1
        got = subprocess.run(["curl", "-q", "-s", "--http1.1", "-o", "/dev/null", "-o", "/dev/null", "-o", "/dev/null", "-o", "/dev/null", *words],
                             capture_output=True, timeout=LATE).stdout.decode().split("\n")
        check("connections that curl makes for four requests", got[:4], ["1 405", "0 404", "0 405", "0 405"])
        check("the end behind a connection that is kept", served.ended()[0], 0)


def curl(words, given):
    """What curl tells of its responses."""
    done = subprocess.run(["curl", "-q", "-s", "--http1.1", "-w", "\n%{http_code}\n", *words], input=given.encode(), capture_output=True, timeout=60,
                          env={"PATH": os.environ["PATH"]})
    return done.stdout.decode().split("\n")[:-1]


def by_http_client():
    """Python's http.client keeps its connection for all requests, and makes another where the desk closes it."""
    rows = [
        ("GET", "/front", None, {}, 200, {"front": 0}),
        ("POST", "/commands", histories.ENACTED, {}, 201, {"law": 1}),
        ("POST", "/commands", histories.ENACTED, {}, 201, {"law": 1}),
        ("POST", "/commands", enact("ada", 2), {}, 409, {"kept": 1, "name": "WorkExists", "rule": 4}),
        ("GET", f"/text?expression={OTHER_ACT}/eng@2010-06-01", None, {}, 404, {"kept": OTHER_ACT, "name": "UnknownWork", "query": 1}),
        ("PUT", "/front", "x", {}, 405, {"http": 7, "name": "WrongMethod"}),
        ("GET", "/none", None, {}, 404, {"http": 6, "name": "NoRoute"}),
        ("GET", "/draft?drafter=ada", None, {}, 200, {"draft": []}),
        ("GET", "/front", None, {"Connection": "close"}, 200, {"front": 1}),
        ("GET", "/front", None, {}, 200, {"front": 1}),
        ("POST", "/commands", None, {"Content-Length": "8388609"}, 413, {"http": 4, "name": "BodyTooLong"}),
        ("GET", f"/text?expression={ONE}/eng@2010-06-01&viewpoint=2", None, {}, 409, {"kept": 1, "name": "ViewpointAhead", "query": 2}),
    ]
    with desk(1) as served:
        client, ports = http.client.HTTPConnection(HOST, served.port, timeout=LATE), []
        for method, target, body, fields, status, value in rows:
            client.request(method, target, body, fields)
            ports.append(client.sock.getsockname()[1])
            answer = client.getresponse()
            got = answer.status, json.loads(answer.read())
            check(f"http.client, {method} {target[:40]} {fields}", got, (status, value))
        check("the connections that it made", [ports.index(port) for port in ports], [0] * 9 + [9] * 2 + [11])
        client.close()
        served.left -= 3
        check("the end behind http.client", served.ended(), (0, b"front 1\n"))


def four_at_once():
    """Four connections are served at the same time: each is answered while the other three are open and silent."""
    with desk(1) as served:
        connections = [served.connected() for _ in range(WORKERS)]
        for number in (3, 1, 2, 0, 0, 2):
            connections[number].sendall(histories.FRONT)
            got = connections[number].recv(len(histories.FRONT_0), socket.MSG_WAITALL)
            check(f"connection {number + 1} beside three others", got, histories.FRONT_0)
        connections[1].sendall(command(histories.ENACTED))
        check("a command beside three others", connections[1].recv(1 << 16), histories.REPEATED[0][1])
        connections[1].sendall(histories.FRONT)
        check("its own command is seen", connections[1].recv(1 << 16).endswith(b'{"front":1}'), True)
        for connection in connections:
            connection.close()
        check("the end behind four at once", served.ended(), (0, b"front 1\n"))


def pipelined():
    """Requests that come in one piece by one connection, many at a time, are answered in their order, and so by each of four at once."""
    rows = [row[:2] for row in mixed.MIXED]
    front = [(get("/front"), histories.response(200, '{"front":11}'))]
    given, wanted = told(rows + front * 400)
    with desk(2) as served:
        check("requests of every kind in one piece", said(served.connected(), given), (wanted, True))
        many, fronts = told(front * 500)
        with concurrent.futures.ThreadPoolExecutor(WORKERS) as pool:
            for number, got in enumerate(pool.map(lambda _: said(served.connected(), many), range(WORKERS)), 1):
                check(f"five hundred requests in one piece, connection {number}", got, (fronts, True))
        check("the end behind pipelined requests", served.ended(), (0, b"front 11\n"))
    with desk(1) as served:
        last = head("GET /front HTTP/1.0")
        check("what stands behind the last request", said(served.connected(), last + histories.FRONT * 9), (histories.FRONT_0_LAST, True))
        connection = served.connected()
        connection.sendall(histories.FRONT * 100)
        reset(connection)
        check("the end behind a connection that is broken", served.ended(), (0, b"front 0\n"))
