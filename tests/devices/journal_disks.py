"""Calls of a journal over disks that fail, which the program `journal_trial` makes line by line. What is wanted was written by hand from
docs/JOURNAL.md, or is reckoned by tests/models/journal_calls.py, which knows nothing of the program."""
import os
import random
import subprocess
import time

import checks
from checks import TRIAL, check
from clients.messages import at_most
from models import failing_disks
from models.journal_calls import MAGIC, NEW, journal, on_memory, on_noted, word_of

# The entry of docs/ENTRY.md, of 28 bytes: its journal has 42.
ENTRY = bytes.fromhex("01036164610000000000000005000b34320000000404000000020001")
ONE = bytes.fromhex("414b4e4c41573031010000001c") + ENTRY + b"\0"
TWO = ONE[:41] + b"\1\0\0\0\x1c" + ENTRY + b"\0"
APPEND = f"append {ENTRY.hex()}"
FIRST = f"payload 41 {ENTRY.hex()}"
# A journal with the payload "ab".
AB = b"AKNLAW01\1\0\0\0\2ab\0"
BYTES_AB = f"bytes {AB.hex()}"
RECORD_AB = "payload 15 6162"

SETTLE = "lock open sync drop-pages sync-folder"
OPEN_NONE = f"{SETTLE} len read:0 cut:0 write:0 sync"
APPEND_AB = "write:9 sync write:8 sync"


def memory(data, failing="-", capacity=1_000, changes=100, effect=""):
    return f"memory {failing} {capacity} {changes} {word_of(data)} {effect}".rstrip()


def opened_as(data, want, *lines):
    """A journal on a disk in memory that holds these bytes, and what its opening says."""
    return memory(data), [("open", want), *lines]


def has_one(data):
    """Bytes that stand for the entry alone, and what is left of them."""
    return opened_as(data, "opened", ("bytes", f"bytes {ONE.hex()}"), ("record 8", FIRST), ("record 41", "end"))


def in_memory():
    yield "bytes behind the closed gate", has_one(ONE + b"\xff" * 5)
    yield "a record behind the closed gate", has_one(ONE + ONE[8:])
    yield "a file at rest", has_one(ONE)
    yield "an append", (memory(ONE), [
        (APPEND, "not ready"), ("record 8", "not ready"), ("open", "opened"), (APPEND, "appended 74"), ("bytes", f"bytes {TWO.hex()}"),
        ("record 41", f"payload 74 {ENTRY.hex()}"), ("record 74", "end"), ("append -", "no payload"), ("append 0", "no such line"),
        ("record x", "no such line"), ("image 256", "no such line"), ("calls", "no such line"), ("", "no such line")])
    # Opening makes three calls, an append four more: the write and the sync of the record, and those of its gate.
    for call, left in [(4, ONE), (5, ONE), (6, ONE), (7, TWO)]:
        yield f"call {call} fails", (memory(ONE, call), [
            ("open", "opened"), (APPEND, "failed"), (APPEND, "not ready"), ("record 8", "not ready"), ("open", "opened"),
            ("bytes", f"bytes {left.hex()}")])
    # A call that fails did a part of it all the same, or all: what is read then, what was last synced, and what an opening makes of it.
    frame = TWO[42:]
    for call, effect, seen, synced, left in [
            (4, 0, ONE, ONE, ONE), (4, 5, ONE + frame[:5], ONE, ONE), (4, 1000, ONE + frame, ONE, ONE), (4, "whole", ONE + frame, ONE, ONE),
            (5, 5, ONE + frame, ONE, ONE), (5, "whole", ONE + frame, ONE + frame, ONE), (6, 0, ONE + frame, ONE + frame, ONE),
            (6, 1, TWO, ONE + frame, TWO), (6, "whole", TWO, ONE + frame, TWO), (7, 5, TWO, ONE + frame, TWO), (7, "whole", TWO, TWO, TWO)]:
        yield f"call {call} fails and did {effect}", (memory(ONE, call, effect=effect), [
            ("open", "opened"), (APPEND, "failed"), ("bytes", f"bytes {seen.hex()}"), ("image 0", f"image {synced.hex()}"), ("record 8", "not ready"),
            ("open", "opened"), ("bytes", f"bytes {left.hex()}")])
    # Opening syncs, asks for the length, reads, and cuts off what stands behind the closed gate; a write past the capacity brings what fits.
    for effect, left in [(2, 3), ("whole", 0), (9, 0)]:
        yield f"a cut that fails and did {effect}", (memory(ONE + b"\xff" * 5, 4, effect=effect), [
            ("open", "failed"), ("bytes", f"bytes {(ONE + bytes([255]) * left).hex()}"), ("open", "opened"), ("bytes", f"bytes {ONE.hex()}")])
    for effect, room in [("whole", 20), (30, 20), (3, 3)]:
        yield f"a write past the capacity that did {effect}", (memory(ONE, "-", 20, effect=effect), [
            ("open", "opened"), (APPEND, "failed"), ("bytes", f"bytes {(ONE + frame[:room]).hex()}"), ("open", "opened"),
            ("bytes", f"bytes {ONE.hex()}")])
    # An append writes 34 bytes and makes four changes; opening syncs.
    for capacity, changes, want in [(33, 5, "failed"), (34, 4, "failed"), (34, 5, "appended 74")]:
        yield f"room for {capacity} bytes and {changes} changes", (memory(ONE, "-", capacity, changes), [("open", "opened"), (APPEND, want)])
    for length in range(10):
        yield f"{length} bytes of a journal", opened_as(ONE[:length], "opened", ("bytes", f"bytes {NEW.hex()}"), ("record 8", "end"))
    for length in range(10, 42):
        yield f"cut to {length} bytes", opened_as(ONE[:length], f"damaged {length} none", ("bytes", f"bytes {ONE[:length].hex()}"))
    for place in range(8):
        yield f"another magic from byte {place} on", opened_as(ONE[:place] + b"2" * 10, f"damaged {place} 50")
    for length, want in [("00000000", "damaged 9 0"), ("01000001", "damaged 9 1"), ("ffffffff", "damaged 9 255"),
                         ("01000000", "damaged 14 none"), ("00000001", "damaged 14 none")]:
        yield f"a length of {length}", opened_as(MAGIC + b"\1" + bytes.fromhex(length) + b"\0", want)


def images():
    """What a crash may leave of an append whose record was not synced, and of one whose gate was not: 256 images each."""
    frame = TWO[42:]
    unsynced = [ONE, ONE + frame, *(ONE + bytes([pick]) * len(frame) for pick in range(2, 256))]
    gates = [ONE + frame, TWO, *(ONE[:41] + bytes([pick]) + frame for pick in range(2, 256))]
    for call, left in [(5, unsynced), (7, gates)]:
        yield f"images where call {call} fails", (memory(ONE, call), [
            ("open", "opened"), (APPEND, "failed"), *((f"image {pick}", f"image {image.hex()}") for pick, image in enumerate(left))])
    for pick, image in enumerate(unsynced):
        yield f"the image of a record, with {pick}", has_one(image)
    for pick, image in enumerate(gates):
        if pick == 1:
            yield "the image of a gate that is open", opened_as(image, "opened", ("bytes", f"bytes {TWO.hex()}"))
        else:
            yield f"the image of a gate, with {pick}", opened_as(image, "opened", ("bytes", f"bytes {image[:42].hex()}"), ("record 41", "end"))


def by_the_system():
    """Which calls of the system are made, in which order, over a file that is empty at first or has the bytes "ab"."""
    yield "a file is settled before it is read", ("noted 0 9 -", [
        ("calls", "calls"), ("open", "opened"), ("calls", f"calls {OPEN_NONE}"), ("held", "not held"), ("bytes", f"bytes {NEW.hex()}"),
        ("image 0", "no such line")])
    yield "a record is synced before its gate is opened", ("noted 0 9 -", [
        ("open", "opened"), ("append 6162", "appended 15"), ("calls", f"calls {OPEN_NONE} {APPEND_AB}"), ("bytes", BYTES_AB)])
    yield "a file at rest is left alone", (f"noted 0 9 {NEW.hex()}", [
        ("open", "opened"), ("calls", f"calls {SETTLE} len read:0"), ("open", "opened"), ("calls", f"calls {SETTLE} len read:0 sync len read:0")])
    # The sync of the record fails: its bytes stand in the cache, and no later sync would write them.
    yield "a failed sync is settled from the device", ("noted 12 9 -", [
        ("open", "opened"), ("append 6162", "failed"), ("calls", f"calls {OPEN_NONE} write:9 sync"), ("append 6162", "not ready"),
        ("record 8", "not ready"), ("open", "opened"), ("calls", f"calls {OPEN_NONE} write:9 sync {SETTLE} len read:0"),
        ("bytes", f"bytes {NEW.hex()}"), ("record 8", "end")])
    yield "nothing is asked between a failed sync and the next", ("bare noted 6 9 6162", [
        ("sync", "done"), ("sync", "failed"), ("len", "failed"), ("read 0 2", "failed"), ("write 0 63", "failed"), ("cut 0", "failed"),
        ("calls", f"calls {SETTLE} sync"), ("sync", "done"), ("read 0 2", "read 6162"), ("calls", f"calls {SETTLE} sync {SETTLE} read:0")])
    yield "nothing is asked between a failed opening and the next", ("bare noted 2 9 6162", [
        ("len", "failed"), ("len", "failed"), ("calls", "calls lock open"), ("sync", "done"), ("len", "length 2"),
        ("calls", f"calls lock open {SETTLE} len")])
    yield "a write of nothing at once", ("bare noted 0 0 -", [("write 0 6162", "failed"), ("calls", f"calls {SETTLE} write:0")])
    yield "places and lengths at their end", ("bare noted 0 9 6162", [
        ("read 9223372036854775808 2", "read "), ("write 9223372036854775807 63", "failed"), ("write 9223372036854775808 63", "failed"),
        ("calls", f"calls {SETTLE}")])
    for piece in (1, 2, 5):
        yield f"{piece} bytes at once", (f"noted 0 {piece} -", [
            ("open", "opened"), ("append 6162", "appended 15"), ("bytes", BYTES_AB), ("open", "opened"), ("record 8", RECORD_AB),
            ("record 15", "end")])


def one_that_fails():
    """Each call of an opening (ten of them) and of an append (four) fails once: one answer says so, and all is as it was to be afterwards."""
    for failing in range(1, 15):
        first = ["failed", "not ready"] if failing <= 10 else ["opened", "failed"]
        yield f"call {failing} of the system fails", (f"noted {failing} 9 -", [
            ("open", first[0]), ("append 6162", first[1]), ("open", "opened"), ("append 6162", "appended 15"), ("bytes", BYTES_AB)])


LONG = ["open", "append 6162", "append 63", "open", "record 8", "record 15", "append 64656667", "open", "append 63", "bytes"]


def reckoned():
    """Each call of a longer session fails once, in memory and of the system; and random sessions, in which some fail."""
    for failing in range(1, 60):
        yield f"call {failing} fails, reckoned", on_memory(LONG, b"", [failing])
        yield f"call {failing} of the system fails, reckoned", on_noted([*LONG, "calls"], b"", failing)
        yield f"call {failing} of the system fails, a byte at a time", on_noted([*LONG, "calls"], ONE + b"\1\2\3", failing, 1)
    seed = time.time_ns() % 1_000_000_000
    draw = random.Random(seed)
    for number in range(400):
        lines = [draw.choice(["open", "open", "append 61", "append 6263", f"record {draw.choice([8, 9, 14, 15, 41])}", "bytes",
                              f"image {draw.randrange(256)}"]) for _ in range(draw.randrange(2, 30))]
        begun = draw.choice([b"", NEW, AB, ONE + b"\xff", ONE[:-1], MAGIC + draw.randbytes(5)])
        failing, effect = sorted(draw.sample(range(1, 40), draw.randrange(4))), draw.choice([None, 0, 1, 7, "whole"])
        yield f"random session {number} of seed {seed}", on_memory(["open", *lines], begun, failing, 200, draw.randrange(50), effect)


def given(lines):
    """The status of the program, and what it writes of each of these lines."""
    done = subprocess.run([TRIAL], input="".join(line + "\n" for line in lines).encode(), stdout=subprocess.PIPE, timeout=120)
    return done.returncode, done.stdout.decode().split("\n")[:-1]


def told(name, session):
    """Counts a session as one check, and shows the first line that differs."""
    first, lines = session
    status, got = given([first, *(line for line, _ in lines)])
    wrong = [(line, got_line) for (line, want), got_line in zip(lines, got) if got_line != want][:1]
    check(f"{name}, {first[:60]}", (status, len(got), wrong), (0, len(lines), []))


def sessions():
    for rows in (in_memory, images, by_the_system, one_that_fails, reckoned):
        for name, session in rows():
            told(name, session)
    for first in ("", "memory", "memory - 1", "memory x 1 1 -", "memory - 1 1 - some", "noted 1", "noted 0 9 0", "named .", "bare memory - 1 1 -", "open"):
        check(f"the first line {first}", given([first, "open"]), (0, ["no such line"]))
    check("no line", given([]), (0, []))


def failing_in_turn():
    """Each call of a disk fails, alone or with all behind it, and did nothing, a part or all of what it was asked: what is answered, and that
    each image which a crash may leave has what was acknowledged."""
    for name, first, lines, wrong in failing_disks.sessions():
        told(name, (first, lines))
        check(f"{name}: what a crash leaves", wrong[:3], [])


def reads():
    """Opening reads each byte once, and reading all payloads once more at most. Records end before, at and behind the end of a piece of 64 KiB."""
    for size in (20_000, 40_000, 65_526, 65_531, 65_536, 70_000):
        payload = b"\7" * size
        data = journal(*[payload] * 10)
        places = [8 + k * (size + 5) for k in range(11)]
        lines = ["open", "given", *(f"record {place}" for place in places), "given"]
        status, got = given([f"noted 0 4294967295 {data.hex()}", *lines])
        records = [*(f"payload {place} {payload.hex()}" for place in places[1:]), "end"]
        scanned, read = (int(line.split()[1]) for line in (got[1], got[-1]))
        check(f"ten payloads of {size} bytes", (status, got[0], got[2:-1] == records), (0, "opened", True))
        check(f"what is read of {size} bytes", (scanned <= len(data) + 100, read <= 2 * len(data) + 200), (True, True))


def in_folder(folder, lines):
    done = subprocess.run([TRIAL], input="".join(line + "\n" for line in lines).encode(), stdout=subprocess.PIPE, timeout=60, cwd=folder)
    return done.returncode, done.stdout.decode().split("\n")[:-1]


def real_file():
    """A real file with a payload that is longer than a piece and bytes behind its closed gate is opened, appended to, and read back."""
    payload = b"\7" * 70_000
    with checks.folder() as folder:
        path = os.path.join(folder, "law.jnl")
        with open(path, "wb") as out:
            out.write(journal(payload) + b"\1" * 20)
        check("a real file", in_folder(folder, ["named . law.jnl", "open", "append 6162"]), (0, ["opened", "appended 70020"]))
        with open(path, "rb") as file:
            check("what a real file has", file.read() == journal(payload, b"ab"), True)
        lines = ["named . law.jnl", "open", "record 8", "record 70013", "record 70020", "bytes"]
        want = ["opened", f"payload 70013 {payload.hex()}", "payload 70020 6162", "end", "no such line"]
        check("a real file is read back", in_folder(folder, lines) == (0, want), True)
        lines = ["bare named . law.jnl", "len", "read 0 9", "write 70021 636465", "cut 70023", "sync", "read 70019 9", "len", "held"]
        want = ["length 70021", "read 414b4e4c4157303101", "done", "done", "done", "read 62006364", "length 70023", "not held"]
        check("a real file is written and cut", in_folder(folder, lines), (0, want))
        check("a new file", in_folder(folder, ["named . new.jnl", "open", "record 8"]), (0, ["opened", "end"]))
        check("the files", sorted(os.listdir(folder)), ["law.jnl", "new.jnl"])


def refused_syncs():
    """A sync that the system refuses is told, of the file and of its folder."""
    with checks.folder() as folder:
        check("a file that can't be synced", in_folder(folder, ["bare named . /dev/null", "sync", "held"]), (0, ["failed", "not held"]))
        check("a folder that can't be synced", in_folder(folder, ["bare named /dev/null law.jnl", "sync", "held"]), (0, ["failed", "not held"]))


def asked(child, line):
    """What a program that is running writes of a line."""
    child.stdin.write(line + b"\n")
    child.stdin.flush()
    return child.stdout.readline().decode().rstrip("\n")


def held_file():
    """A file is held by one disk, from its opening until that is let go; another is told so."""
    with checks.folder() as folder:
        first, second = (subprocess.Popen([TRIAL], stdin=subprocess.PIPE, stdout=subprocess.PIPE, cwd=folder) for _ in range(2))
        with at_most(60, first), at_most(60, second):
            for child in (first, second):
                child.stdin.write(b"bare named . law.jnl\n")
            check("the first disk", (asked(first, b"sync"), asked(first, b"held")), ("done", "not held"))
            check("the second disk", (asked(second, b"sync"), asked(second, b"held"), asked(second, b"len")), ("failed", "held", "failed"))
            first.stdin.close()
            check("the first disk is let go", (first.stdout.read(), first.wait()), (b"", 0))
            check("the second disk afterwards", (asked(second, b"sync"), asked(second, b"held")), ("done", "not held"))
            second.stdin.close()
            check("the second disk is let go", (second.stdout.read(), second.wait()), (b"", 0))
