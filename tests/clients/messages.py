"""Requests and responses of a stream as bytes, and a run of `lawdesk batch` over a stream that comes whole, byte by byte or cut."""
import contextlib
import fcntl
import json
import os
import select
import subprocess
import tempfile
import termios
import threading

import checks

PHRASES = {200: "OK", 201: "Created", 400: "Bad Request", 404: "Not Found", 405: "Method Not Allowed", 409: "Conflict",
           411: "Length Required", 413: "Content Too Large", 431: "Request Header Fields Too Large", 501: "Not Implemented"}
REFUSALS = {1: ("BadHead", 400), 2: ("HeadTooLong", 431), 3: ("LengthMissing", 411), 4: ("BodyTooLong", 413), 5: ("TransferCoding", 501),
            6: ("NoRoute", 404), 7: ("WrongMethod", 405), 9: ("Truncated", 400)}


def head(line, *fields):
    """A head of these lines."""
    return "".join(text + "\r\n" for text in (line, *fields, "")).encode()


def get(target, *fields):
    return head(f"GET {target} HTTP/1.1", "Host: a", *fields)


def post(target, body, *fields):
    return head(f"POST {target} HTTP/1.1", "Host: a", f"Content-Length: {len(body)}", *fields) + body


def command(line, *fields):
    """A command that is posted, from its JSON."""
    return post("/commands", line.encode(), *fields)


def response(status, body, allow=None, last=False):
    """The bytes of a response with this body; after the last one the stream is closed."""
    lines = [f"HTTP/1.1 {status} {PHRASES[status]}"]
    if allow:
        lines.append(f"Allow: {allow}")
    if last:
        lines.append("Connection: close")
    lines += [f"Content-Length: {len(body.encode())}", "Content-Type: application/json", "", body]
    return "\r\n".join(lines).encode()


def refused(number, allow=None, last=False):
    """The response to a request that is refused as such."""
    name, status = REFUSALS[number]
    return response(status, f'{{"http":{number},"name":"{name}"}}', allow, last)


def closed(number):
    """The response to what is no request: the stream is closed."""
    return refused(number, last=True)


def bad_form(rule, place=0, last=False):
    """The response to a query or a body with a fault of its form."""
    return response(400, f'{{"form":{rule},"http":8,"name":"BadForm","place":{place}}}', last=last)


def front(number, last=False):
    return response(200, f'{{"front":{number}}}', last=last)


def compact(value):
    """JSON as the desk writes it."""
    return json.dumps(value, ensure_ascii=False, separators=(",", ":"), sort_keys=True)


def drained(pipe):
    """Waits until all that was written to a pipe has been read, or nobody reads it any more."""
    unread, closed_pipe = bytearray(4), select.poll()
    closed_pipe.register(pipe, 0)
    while True:
        fcntl.ioctl(pipe, termios.FIONREAD, unread)
        if not any(unread):
            return
        if closed_pipe.poll(0):
            raise BrokenPipeError
        os.sched_yield()


def whole(pipe, given):
    """Writes a stream by one call, or as few as the pipe takes."""
    while given:
        given = given[os.write(pipe, given):]


def bytewise(pipe, given):
    """Writes each byte by a call of its own; the pipe keeps them apart, and so a read takes one of them (pipe(2), O_DIRECT)."""
    fcntl.fcntl(pipe, fcntl.F_SETFL, fcntl.fcntl(pipe, fcntl.F_GETFL) | os.O_DIRECT)
    for place in range(len(given)):
        os.write(pipe, given[place:place + 1])


def cut_at(*places):
    """Writes a stream in pieces that end at these places, in ascending order, each after the one before it has been read."""
    def write(pipe, given):
        begin = 0
        for place in places:
            whole(pipe, given[begin:place])
            drained(pipe)
            begin = place
        whole(pipe, given[begin:])
    return write


@contextlib.contextmanager
def at_most(seconds, child):
    """Kills a program that runs longer."""
    late = threading.Timer(seconds, child.kill)
    late.start()
    try:
        yield
    finally:
        late.cancel()


# The words of a run over a stream of requests.
WORDS = ["batch"]


@contextlib.contextmanager
def over_a_table():
    """Until its end, a stream of requests is one over the register in SQLite."""
    WORDS.insert(0, "sql")
    try:
        yield
    finally:
        WORDS.remove("sql")


def batch(given, write=whole):
    """The status of `batch` in an empty folder over a stream that is written so, and what it wrote."""
    with checks.folder() as folder, tempfile.TemporaryFile() as out:
        child = subprocess.Popen([checks.PROGRAM, *WORDS], stdin=subprocess.PIPE, stdout=out, stderr=subprocess.DEVNULL, cwd=folder)
        with at_most(120, child):
            try:
                write(child.stdin.fileno(), given)
            except BrokenPipeError:  # the stream was closed before its end
                pass
            child.stdin.close()
            status = child.wait()
        out.seek(0)
        return status, out.read()


def check_written(name, got, want):
    """Counts one check of a status and of what was written, and shows where that differs first."""
    (status, written), (status_wanted, wanted) = got, want
    if written == wanted:
        checks.check(name, status, status_wanted)
        return
    ends = (i for i, (a, b) in enumerate(zip(written, wanted)) if a != b)
    place = next(ends, min(len(written), len(wanted)))
    begin = max(0, place - 80)
    checks.check(f"{name}, byte {place} of what was written", (status, written[begin:place + 60]), (status_wanted, wanted[begin:place + 60]))
