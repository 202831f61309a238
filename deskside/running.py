"""A desk that runs, and is asked over one stream: a `lawdesk batch` of its own in a folder, or a `lawdesk serve` at a port of this machine.

Requests go in turn. What got no response is sent once more on a new stream; a command names its request number, so that it acts once."""
import re
import select
import socket
import subprocess
import threading

import desk

HOST = "127.0.0.1"
STATUS = re.compile(rb"HTTP/1\.1 ([0-9]{3}) [^\r\n]*\r\n")
LONGEST_LINE = 16_384


class NoDesk(Exception):
    """What answers is no desk."""


class Running:
    """What both have in common. `opened` gives a new stream, `why` says in words what an error means, and `end` closes."""

    seconds = None

    def __init__(self):
        self.turn, self.link, self.reader = threading.Lock(), None, None

    def ask(self, method, target, body=b""):
        """The status and the body of a response."""
        head = f"{method} {target} HTTP/1.1\r\nHost: desk\r\n" + (f"Content-Length: {len(body)}\r\n" if method == "POST" else "")
        with self.turn:
            if self.link is not None and self.is_over():
                self.end()
            for _ in range(2):
                try:
                    return self.asked(head.encode() + b"\r\n" + body)
                except TimeoutError:
                    # (closed, so that what comes late answers no other question)
                    self.end()
                    raise desk.Failed(5, f"{self} gave no answer in {self.seconds} seconds") from None
                except NoDesk:
                    self.end()
                    raise desk.Failed(5, f"{self} gave an answer that is none of a desk") from None
                except (OSError, EOFError) as error:
                    why = self.why(error)
                    self.end()
        raise desk.Failed(5, why)

    def is_over(self):
        """Whether the stream was closed, or says something unasked."""
        watch = select.poll()
        watch.register(self.link, select.POLLIN)
        return bool(watch.poll(0))

    def asked(self, request):
        if self.link is None:
            self.link = self.opened()
            self.link.settimeout(self.seconds)
            self.reader = self.link.makefile("rb")
        self.link.sendall(request)
        status, body, is_last = self.response()
        if is_last:
            self.end()
        return status, body

    def response(self):
        """The status and the body of the response that comes, and whether the stream is closed behind it."""
        status, fields = STATUS.fullmatch(self.line()), {}
        while status and (line := self.line()) != b"\r\n":
            name, _, value = line.partition(b":")
            fields[name.lower()] = value.strip()
        length = fields.get(b"content-length", b"")
        if not status or not length.isdigit() or fields.get(b"content-type") != b"application/json":
            raise NoDesk
        body = self.reader.read(int(length))
        if len(body) < int(length):
            raise EOFError
        return int(status[1]), body, fields.get(b"connection") == b"close"

    def line(self):
        found = self.reader.readline(LONGEST_LINE)
        if len(found) == LONGEST_LINE:
            raise NoDesk
        if not found.endswith(b"\n"):
            raise EOFError
        return found

    def end(self):
        for it in (self.reader, self.link):
            if it is not None:
                it.close()
        self.reader = self.link = None


class Batch(Running):
    """A `lawdesk batch` in a folder, which has the register while it runs. It takes its time: a long journal is read at its start."""

    def __init__(self, folder):
        super().__init__()
        self.folder, self.ran = folder, None

    def __str__(self):
        return f"the desk in {self.folder}"

    def opened(self):
        ours, its = socket.socketpair()
        with its:
            self.ran = subprocess.Popen([desk.PROGRAM, "batch"], cwd=self.folder, stdin=its, stdout=its, stderr=subprocess.PIPE)
        return ours

    def why(self, error):
        if self.ran is None:
            return f"{self} could not be started: {error}"
        try:
            status = self.ran.wait(1)
        except subprocess.TimeoutExpired:
            return f"{self} closed its stream"
        said = self.ran.stderr.read().decode(errors="replace").strip()
        return f"{self} ended, and again when it was started anew (status {status}{': ' if said else ''}{said})"

    def end(self):
        super().end()
        if self.ran is not None:
            self.ran.kill()
            self.ran.wait()
            self.ran.stderr.close()
            self.ran = None


class Served(Running):
    """A `lawdesk serve` at a port of this machine: one connection that is kept, and made anew where the desk closed it."""

    def __init__(self, port, seconds=60):
        super().__init__()
        self.port, self.seconds = port, seconds

    def __str__(self):
        return f"the desk at {HOST}:{self.port}"

    def opened(self):
        return socket.create_connection((HOST, self.port), self.seconds)

    def why(self, error):
        if isinstance(error, ConnectionRefusedError):
            return f"nothing listens at {HOST}:{self.port}"
        return f"{self} closed the connection before it answered, and again when it was asked anew"


def at(address):
    """The desk at an address as 127.0.0.1:8080. None of another machine is asked: what goes there and back would stand open to others."""
    found = re.fullmatch(re.escape(HOST) + r":([1-9][0-9]{0,4})", address)
    if not found or int(found[1]) > 65535:
        raise ValueError(f"'{address}' is no desk that may be asked: --desk wants {HOST} and a port, as {HOST}:8080")
    return Served(int(found[1]))
