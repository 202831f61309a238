"""Hostile peers of a desk that is served: silent ones, one byte at a time, resets, heads and bodies without end, peers that read nothing, two hundred
connections at once. The others are served meanwhile, the memory of the desk stays, and it ends as it would without them."""
import atexit
import concurrent.futures
import contextlib
import random
import socket
import threading
import time

import checks
from checks import check
from clients.messages import closed, get, head
from clients.served_desks import WORKERS, Desk, desk, received, reset, said
from rows.histories import FRONT, FRONT_0

MIB = 1 << 20
LARGEST = 8_388_608
# How long a peer may be silent before its connection ends, and how much later that may be.
SILENCE, LATER = 30, 10
WAITING = 200
ANSWERED = (FRONT_0, True)


def others(served, name, count=8):
    """So many connections one after another, each of which is answered."""
    got = [said(served.connected(), FRONT) for _ in range(count)]
    check(f"{count} connections beside {name}", got, [ANSWERED] * count)


def memory(served, line="VmRSS"):
    """What a desk has in memory."""
    with open(f"/proc/{served.child.pid}/status") as status:
        return next(int(row.split()[1]) for row in status if row.startswith(line + ":")) * 1024


def silent_ones():
    """Three peers that say nothing, or a part of a request and nothing more, hold a worker each; the fourth serves all others."""
    with desk(50) as served, contextlib.ExitStack() as stack:
        held = [stack.enter_context(served.connected()) for _ in range(3)]
        for connection, given in zip(held, (b"", b"GET /fr", head("POST /commands HTTP/1.1", "Host: a", "Content-Length: 9") + b"{")):
            connection.sendall(given)
        others(served, "three silent peers", 40)
        held[1].sendall(FRONT[7:])
        check("a silent peer that speaks again", held[1].recv(1 << 16), FRONT_0)
        for connection in held:
            connection.close()
        check("the end behind silent peers", served.ended(), (0, b"front 0\n"))


def bytes_alone():
    """Three peers send a byte at a time, for as long as the others are served."""
    given = FRONT * 4 + get("/front", "Connection: close")
    wanted = FRONT_0 * 4 + FRONT_0.replace(b"200 OK\r\n", b"200 OK\r\nConnection: close\r\n")

    def slowly(connection):
        for place in range(len(given)):
            connection.sendall(given[place:place + 1])
            time.sleep(0.002)
        with connection:
            return received(connection)

    with desk(40) as served, concurrent.futures.ThreadPoolExecutor(3) as pool:
        slow = [pool.submit(slowly, served.connected()) for _ in range(3)]
        others(served, "three slow peers", 30)
        check("others were served before the slow peers", [one.done() for one in slow], [False] * 3)
        check("what slow peers get", [one.result() for one in slow], [(wanted, True)] * 3)
        check("the end behind slow peers", served.ended(), (0, b"front 0\n"))


def resets(count=60):
    """Connections that break at once, in a request, behind requests, or while many responses are on their way."""
    draw = random.Random(7)
    given = [b"", FRONT[:9], FRONT, FRONT * 30, FRONT * 3000, FRONT + head("POST /commands HTTP/1.1", "Host: a", "Content-Length: 5000") + b"{" * 100]
    with desk(2 + count // 2) as served:
        for number in range(count):
            connection = served.connected()
            with contextlib.suppress(ConnectionError, TimeoutError):
                connection.settimeout(0.1)
                connection.sendall(draw.choice(given))
                if draw.random() < 0.5:
                    connection.recv(draw.choice([1, 100, 10_000]))
            reset(connection)
            if number % 20 == 19:
                others(served, f"{number + 1} broken ones", 2)
        check("the end behind resets", served.ended(), (0, b"front 0\n"))


def without_end():
    """Heads that go on and on are refused at their limit, and lines without an end, too; bodies that are announced and do not come end their
    connection alone."""
    line = b"GET /front HTTP/1.1\r\nHost: a\r\n"
    endless = {"fields": line + b"A: b\r\n" * 4000, "one field": line + b"A: " + b"b" * 20_000, "a target": b"GET /" + b"f" * 20_000,
               "no line": b"x" * 20_000, "many fields": line + b"A:\r\n" * 64 + b"\r\n"}
    with desk(12) as served:
        for name, given in endless.items():
            wanted = closed(1 if name == "many fields" else 2)
            with served.connected() as connection:
                with contextlib.suppress(ConnectionError):
                    connection.sendall(given)
                written, ended = received(connection)
            check(f"a head without end, {name}", written == wanted or (written, ended), True)
        with served.connected() as connection:
            connection.sendall(b"\r\n" * 50_000 + FRONT)
            check("many empty lines before a request", connection.recv(1 << 16), FRONT_0)
        body = head("POST /commands HTTP/1.1", "Host: a", f"Content-Length: {LARGEST}")
        check("a body that ends early", said(served.connected(), body + b"{" * 1000), (closed(9), True))
        check("a body one past the limit", said(served.connected(), body.replace(b"388608", b"388609"), False), (closed(4), True))
        others(served, "them")
        check("the end behind heads without end", served.ended(), (0, b"front 0\n"))


def unread():
    """Three peers ask and ask, and read nothing; the fourth worker serves the others."""
    with desk(40) as served, contextlib.ExitStack() as stack:
        held = [stack.enter_context(served.connected()) for _ in range(3)]
        for connection in held:
            connection.settimeout(0.3)
            with contextlib.suppress(TimeoutError):
                for _ in range(2000):
                    connection.sendall(FRONT * 1000)
        others(served, "three peers that read nothing", 20)
        for connection in held:
            reset(connection)
        others(served, "none of them")
        check("the end behind peers that read nothing", served.ended(), (0, b"front 0\n"))


def waiting():
    """Two hundred connections while each worker is held: none is refused, and once the workers are free each is answered."""
    with desk((WAITING + WORKERS) // WORKERS) as served, contextlib.ExitStack() as stack:
        held = [stack.enter_context(served.connected()) for _ in range(WORKERS)]
        for connection in held:
            connection.sendall(FRONT)
            connection.recv(len(FRONT_0), socket.MSG_WAITALL)
        with concurrent.futures.ThreadPoolExecutor(WAITING) as pool:
            asked = [pool.submit(lambda: said(served.connected(), FRONT)) for _ in range(WAITING)]
            time.sleep(0.3)
            check("those who wait are not answered yet", sum(one.done() for one in asked), 0)
            for connection in held:
                connection.close()
            check("each of two hundred is answered", [one.result() for one in asked].count(ANSWERED), WAITING)
        served.left = 0
        check("the end behind two hundred", served.ended(), (0, b"front 0\n"))


def memory_stays():
    """What the desk has in memory does not grow with the connections that it served, nor with large bodies that came before."""
    body = head("POST /commands HTTP/1.1", "Host: a", f"Content-Length: {LARGEST}") + b"[" * (LARGEST - 1)
    with desk(100) as served:
        peaks = []
        for _ in range(3):
            connections = [served.connected() for _ in range(WORKERS)]
            with concurrent.futures.ThreadPoolExecutor(WORKERS) as pool:
                got = list(pool.map(lambda connection: said(connection, body), connections))
            check("four large bodies that end early", got, [(closed(9), True)] * WORKERS)
            peaks.append(memory(served, "VmHWM"))
        # (how many of four are held at once is the machine's matter, so the bound is what all four take)
        check("the peak of twelve large bodies, four at a time", peaks[-1] < WORKERS * LARGEST + 16 * MIB or peaks, True)
        others(served, "large bodies", 100)
        before = memory(served)
        others(served, "two hundred before", 200)
        check("the memory behind two hundred connections", memory(served) - before < 2 * MIB or (before, memory(served)), True)
        check("the end behind large bodies", served.ended(), (0, b"front 0\n"))


class Silent:
    """A desk whose four workers are held by silent peers, and how long it took until each connection ended. It is made first and asked last, so
    that nobody waits for it."""

    def __init__(self):
        self.folder = checks.folder()
        self.desk = Desk(self.folder.name, 2)
        atexit.register(self.desk.child.kill)
        self.desk.listens()
        self.ends, self.begun = [], time.monotonic()
        self.threads = [threading.Thread(target=self.wait, args=(given,), daemon=True) for given in (b"", b"GET /fr", FRONT, FRONT * 2 + b"POST ")]
        for thread in self.threads:
            thread.start()

    def wait(self, given):
        with self.desk.connected() as connection:
            connection.settimeout(SILENCE + 2 * LATER)
            connection.sendall(given)
            written = received(connection)[0]
            self.ends.append((time.monotonic() - self.begun, written.count(b"HTTP/1.1 ")))


SILENTS = []


def silent_from_here():
    """Four peers are silent from here on, each behind what it has said."""
    SILENTS.append(Silent())


def silent_until_here():
    """A peer that is silent for 30 seconds is no longer served; its worker serves the next."""
    silent = SILENTS.pop()
    next_one = silent.desk.connected()
    check("a connection behind silent ones", said(next_one, FRONT), ANSWERED)
    for thread in silent.threads:
        thread.join(SILENCE + LATER)
    in_time = [seconds for seconds, _ in silent.ends if SILENCE - 1 <= seconds <= SILENCE + LATER]
    check("how long each of four silent peers was served", in_time if len(in_time) == WORKERS else silent.ends, in_time)
    check("what silent peers were told", sorted(count for _, count in silent.ends), [0, 0, 1, 2])
    check("the end behind silent ones", silent.desk.ended(), (0, b"front 0\n"))
    silent.folder.cleanup()
