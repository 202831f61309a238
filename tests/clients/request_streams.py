"""Streams of requests over pipes, devices and folders: histories of a register, and refusals."""
import socket
import struct
import subprocess
import tempfile

import checks
from checks import SAID, check, said_over_a_folder, said_to_a_full_device, to_a_full_device
from clients.messages import WORDS, at_most, batch, bytewise, check_written, closed, cut_at, drained
from rows import held, histories, queries, refusals, wide


def short_streams():
    """Each in one piece, byte by byte, and cut at each place."""
    for name, (given, wanted, status) in histories.SHORT.items():
        check_written(name, batch(given), (status, wanted))
        check_written(f"{name}, byte by byte", batch(given, bytewise), (status, wanted))
        wrong = [place for place in range(1, len(given)) if batch(given, cut_at(place)) != (status, wanted)]
        check(f"{name}, cut at each place", wrong, [])


def told(rows):
    """The bytes of a history, and what is to be written."""
    return b"".join(given for given, _ in rows), b"".join(wanted for _, wanted in rows)


def whole_histories():
    """Each in one piece, and byte by byte; of the longest so the heads and the ends of bodies."""
    for name, rows in [*histories.HISTORIES.items(), *wide.HISTORIES.items(), *held.HISTORIES.items()]:
        given, wanted = told(rows)
        check_written(name, batch(given), (0, wanted))
        by_bytes = cut_at(*near_ends(rows)) if rows in (histories.LARGEST, wide.WIDEST) else bytewise
        check_written(f"{name}, byte by byte", batch(given, by_bytes), (0, wanted))


def cut_histories():
    """Each cut once at each place: the history is sent many times in one stream, and at another place each time. Of the two long ones many
    places are cut each time, and of the longest those in heads and at the ends of bodies."""
    for name, rows in histories.HISTORIES.items():
        given, wanted = told(rows)
        places = near_ends(rows) if rows is histories.LARGEST else list(range(1, len(given)))
        rounds = len(places) if len(given) < 2000 else 20
        check_written(f"{name}, cut at each place", batch(given * rounds, cut_again(len(given), places, rounds)), (0, wanted * rounds))


def full_register():
    """A register that is filled to its last law entry, in one stream: by commands on one act, and on many. What a command costs does not
    grow with the entries of its act."""
    for name, an_act in (("one act", 65_536), ("many acts", 500)):
        given, wanted = told(list(histories.full(an_act)))
        check_written(f"a full register of {name}", batch(given), (0, wanted))


def near_ends(rows):
    """The places of a history that are in heads, or within 20 bytes of the ends of a body."""
    places, begin = [], 0
    for given, _ in rows:
        behind_head = given.index(b"\r\n\r\n") + 20
        places += [begin + place for place in range(1, len(given) + 1) if place < behind_head or place > len(given) - 20]
        begin += len(given)
    return places[:-1]


def cut_again(length, places, rounds):
    """Writes a stream of so many histories of that length, each in pieces, so that in all of them each of the places is cut once."""
    def write(pipe, given):
        for number in range(rounds):
            cut_at(*places[number::rounds])(pipe, given[number * length:(number + 1) * length])
            drained(pipe)
    return write


def refused():
    """What is refused, and what just is not: its name, the stream, and what is to come of it. Behind it stands a request, which is answered where the
    stream goes on."""
    for table, status, goes_on in ((refusals.CLOSED, 1, False), (refusals.ON, 0, True), (refusals.LAST, 0, False)):
        for name, given, wanted in table:
            behind = b"" if wanted == closed(9) else histories.FRONT
            yield name, given + behind, (status, wanted + (histories.FRONT_0 if goes_on else b""))


def refusal_rows():
    """Each refusal in one piece, and byte by byte where it is short or a head of about the limit."""
    for name, given, wanted in refused():
        check_written(f"refusals, {name}", batch(given), wanted)
        if len(given) < 2000 or name in refusals.ABOUT_THE_LIMIT:
            check_written(f"refusals, {name}, byte by byte", batch(given, bytewise), wanted)


def query_rows():
    """Questions and commands that are refused or answered, all in one stream, and each alone behind the act."""
    begun, reply = queries.ENACTED_FIRST
    given, wanted = told([(given, wanted) for _, given, wanted in queries.ROWS])
    check_written("all queries", batch(begun + given), (0, reply + wanted))
    for name, given, wanted in queries.ROWS:
        check_written(name, batch(begun + given), (0, reply + wanted))


def streams():
    """Each stream of these rows in one piece: its name, the stream, the status and what is to be written."""
    for name, (given, wanted, status) in histories.SHORT.items():
        yield name, given, (status, wanted)
    for name, rows in [*histories.HISTORIES.items(), *wide.HISTORIES.items(), *held.HISTORIES.items()]:
        given, wanted = told(rows)
        yield name, given, (0, wanted)
    yield from refused()
    begun, reply = queries.ENACTED_FIRST
    for name, given, wanted in queries.ROWS:
        yield name, begun + given, (0, reply + wanted)


def devices():
    """A sink that takes nothing ends a stream with 4, and a source that can't be read with 3, at once and before any other status."""
    with checks.folder() as folder:
        line, settings = [checks.PROGRAM, *WORDS], {"cwd": folder}
        check("requests to a full device", said_to_a_full_device(line, histories.FRONT, **settings), (4, SAID[4]))
        check("what is no request, to a full device", to_a_full_device(line, b"x\r\n\r\n", **settings), 4)
        check("nothing, to a full device", to_a_full_device(line, b"", **settings), 0)
        check("requests of a folder", said_over_a_folder(line, **settings), (3, b"", SAID[3]))
        check("requests of a folder, to a full device", folder_to_a_full_device(line, **settings), 3)
        check("responses that nobody reads", unread(line, **settings), 4)
        check("a response of which the first byte is read", first_byte_read(line, **settings), (4, b"H"))
        check("a connection that breaks", broken_connection(line, **settings), (3, histories.FRONT_0 * 2))


def folder_to_a_full_device(line, **settings):
    with open("/dev/full", "wb") as full:
        return subprocess.run(["sh", "-c", '"$@" < .', "sh", *line], stdout=full, timeout=60, **{"stderr": subprocess.DEVNULL, **settings}).returncode


def unread(line, **settings):
    """The status where nobody reads what is written."""
    child = subprocess.Popen(line, stdin=subprocess.PIPE, stdout=subprocess.PIPE, **{"stderr": subprocess.DEVNULL, **settings})
    child.stdout.close()
    child.stdin.write(histories.FRONT)
    child.stdin.close()
    return child.wait(60)


def first_byte_read(line, **settings):
    """The status where only the first byte is read of more than a pipe holds."""
    with tempfile.NamedTemporaryFile() as file:
        file.write(histories.FRONT * 10_000)
        file.flush()
        words = f"'{line[0]}' {' '.join(line[1:])} < '{file.name}' | head -c 1; exit ${{PIPESTATUS[0]}}"
        done = subprocess.run(["bash", "-c", words], capture_output=True, timeout=60, **settings)
    return done.returncode, done.stdout


def broken_connection(line, **settings):
    """The status where the requests come by a connection that is reset behind the second of them, and what was written."""
    with socket.create_server(("127.0.0.1", 0)) as listening:
        sender = socket.create_connection(listening.getsockname())
        receiver, _ = listening.accept()
    with receiver:
        child = subprocess.Popen(line, stdin=receiver, stdout=subprocess.PIPE, **{"stderr": subprocess.DEVNULL, **settings})
    with at_most(60, child):
        sender.sendall(histories.FRONT * 2)
        written = child.stdout.read(2 * len(histories.FRONT_0))
        sender.setsockopt(socket.SOL_SOCKET, socket.SO_LINGER, struct.pack("ii", 1, 0))
        sender.close()
        return child.wait(), written + child.stdout.read()
