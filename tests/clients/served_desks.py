"""A desk that `serve` has at a port of this machine: its start, connections to it, and its end once all its connections were had."""
import contextlib
import errno
import os
import socket
import struct
import subprocess
import time

import checks

HOST = "127.0.0.1"
WORKERS = 4
LATE = 20


def free_port():
    """A port at which nothing listens."""
    with socket.socket() as probe:
        probe.bind((HOST, 0))
        return probe.getsockname()[1]


def listening():
    """The addresses and ports at which this machine listens, as the kernel has them."""
    found = set()
    for name in ("tcp", "tcp6"):
        path = f"/proc/net/{name}"
        if os.path.exists(path):
            with open(path) as table:
                for line in list(table)[1:]:
                    words = line.split()
                    address, port = words[1].split(":")
                    if words[3] == "0A":
                        found.add((address, int(port, 16)))
    return found


class Desk:
    """A desk that serves so many connections with each of its workers."""

    def __init__(self, folder, connections, sink=subprocess.PIPE, before=(), **settings):
        self.port = free_port()
        self.left = WORKERS * connections
        line = [checks.PROGRAM, *before, "serve", str(self.port), str(connections)]
        self.child = subprocess.Popen(line, stdin=subprocess.DEVNULL, stdout=sink, stderr=subprocess.DEVNULL, cwd=folder, **settings)

    def listens(self):
        """Waits until it listens, and gives the addresses at which it does."""
        late = time.monotonic() + LATE
        while time.monotonic() < late and self.child.poll() is None:
            found = {address for address, port in listening() if port == self.port}
            if found:
                return found
            time.sleep(0.005)
        return set()

    def connected(self):
        """A connection, which is one of those that the desk has to serve."""
        self.left -= 1
        made = socket.create_connection((HOST, self.port), LATE)
        made.setsockopt(socket.IPPROTO_TCP, socket.TCP_NODELAY, 1)
        return made

    def runs(self):
        return self.child.poll() is None

    def ended(self):
        """Makes the connections that are left, and says nothing by them. Gives the status, and what was written to standard output."""
        try:
            for _ in range(self.left):
                self.connected().close()
        except OSError:
            pass
        try:
            written = self.child.communicate(timeout=LATE)[0]
        except subprocess.TimeoutExpired:
            self.child.kill()
            return "no end", self.child.communicate()[0]
        return self.child.returncode, written


@contextlib.contextmanager
def desk(connections, folder=None, **settings):
    """A desk that listens, in a folder of its own or in this one."""
    with contextlib.ExitStack() as stack:
        made = Desk(folder or stack.enter_context(checks.folder()), connections, **settings)
        try:
            made.addresses = made.listens()
            yield made
        finally:
            made.child.kill()
            made.child.communicate()


def received(connection, count=None):
    """What comes back, to the end or until so many responses came, and whether it came to its end."""
    written = b""
    while count is None or not holds(written, count):
        try:
            piece = connection.recv(1 << 16)
        except (ConnectionError, TimeoutError):
            return written, False
        if not piece:
            return written, True
        written += piece
    return written, False


def holds(written, count):
    """Whether so many responses are there whole."""
    place = 0
    for _ in range(count):
        end = written.find(b"\r\n\r\n", place)
        if end < 0:
            return False
        length = written.rfind(b"\r\nContent-Length: ", place, end)
        place = end + 4 + int(written[length + 18:written.index(b"\r\n", length + 2)])
        if place > len(written):
            return False
    return True


def half_closed(connection):
    """Says that there is no more, where the peer has not closed or broken the connection before."""
    try:
        connection.shutdown(socket.SHUT_WR)
    except OSError as wrong:
        if wrong.errno not in (errno.ENOTCONN, errno.EPIPE, errno.ECONNRESET):
            raise


def said(connection, given, half_closes=True):
    """Sends what is given, says that there is no more, and gives what comes back."""
    with connection:
        connection.sendall(given)
        if half_closes:
            half_closed(connection)
        return received(connection)


def reset(connection):
    """Breaks a connection."""
    connection.setsockopt(socket.SOL_SOCKET, socket.SO_LINGER, struct.pack("ii", 1, 0))
    connection.close()
