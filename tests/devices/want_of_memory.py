"""Want of memory and a full register over a journal file: 7 loses nothing that was acknowledged, what was answered 500 is not there, and the last
byte of a register is refused as a rule says."""
import os
import random
import resource
import subprocess
import time

import checks
from checks import check
from clients.messages import check_written, command, response
from devices.crashes import RESPONSES, STREAM
from devices.journal_file import MAGIC
from models import entry_bytes
from models.journal_openings import ENTRIES, JOURNAL, ROWS, called, entered, faults_of_a_front, faults_of_the_rest, told
from rows import dossiers, register

NO_MEMORY = (b"HTTP/1.1 500 Internal Server Error\r\nConnection: close\r\nContent-Length: 18\r\nContent-Type: application/json\r\n\r\n"
             b'{"fault":"memory"}')
PAGE = 4096
MOST = 1 << 34
ENDS = [sum(len(wanted) for _, wanted, _ in ROWS[:count]) for count in range(len(ROWS) + 1)]


def within(size, words, given, folder):
    """The status of a run that may have so many bytes of addresses, and what it wrote. What it says on standard error is that of its status."""
    def limit():
        resource.setrlimit(resource.RLIMIT_AS, (size, size))
    done = subprocess.run([checks.PROGRAM, *words], input=given, capture_output=True, cwd=folder, preexec_fn=limit, timeout=60)
    check_said(size, words, done)
    return done.returncode, done.stdout


def check_said(size, words, done):
    """Counts a check only where what a run said is not what belongs to its status, since a search makes many runs. Of one that could not
    even start, the system says something."""
    said = {0: b"", 2: dossiers.of_words("no command is given"), 7: checks.SAID[7]}
    wanted = said.get(done.returncode, done.stderr)
    if done.stderr != wanted:
        check(f"what {words} says with {size} bytes of addresses", (done.returncode, done.stderr), (done.returncode, wanted))


def least(holds):
    """The least number of pages at which something holds, or none."""
    low, high = 0, MOST // PAGE
    if not holds(high * PAGE):
        return None
    while low < high:
        middle = (low + high) // 2
        low, high = (low, middle) if holds(middle * PAGE) else (middle + 1, high)
    return low


def answered_before(status, written):
    """How many commands were answered by what was written, or None where that is no front of the responses with a 500 behind it at most."""
    if status == 0:
        return len(ROWS) if written == RESPONSES else None
    front = written.removesuffix(NO_MEMORY)
    return ENDS.index(len(front)) if len(front) in ENDS and RESPONSES.startswith(front) else None


def fault_of(size):
    """What is wrong about a stream and a check with so much memory, and about what comes after them."""
    with checks.folder() as folder:
        status, written = within(size, ["batch"], STREAM, folder)
        answered = answered_before(status, written)
        if status not in (0, 7) or answered is None:
            return status, written
        said = within(size, ["check"], b"", folder)
        if said not in ((7, b""), told(entered(answered))):
            return "check", said
        return (faults_of_a_front(folder, answered, more=0) + faults_of_the_rest(folder, answered)) or None


def little_memory(count=60):
    """As much memory as the program needs to start, as much as answers the whole stream, and some sizes between them."""
    def ends(words, given, wanted):
        """Whether a run in a new folder ends so, by its memory."""
        def holds(size):
            with checks.folder() as folder:
                return wanted(*within(size, words, given, folder))
        return holds

    first = least(ends([], b"", lambda status, _: status in (2, 7)))
    starts = least(ends(["batch"], b"", lambda status, _: status == 0))
    whole = starts and least(ends(["batch"], STREAM, lambda *got: got == (0, RESPONSES)))
    if not (first and whole):
        checks.skip("want of memory", "the program takes no limit of its memory")
        return
    seed = time.time_ns() % 1_000_000_000
    print(f"memory of seed {seed}: {first} pages to start, {starts} to open, {whole} for the stream")
    sizes = sorted({first, starts, whole, *random.Random(seed).sample(range(first, whole + 1), min(count, whole - first + 1))})
    for pages in sizes:
        check(f"{pages} pages of memory, seed {seed}", fault_of(pages * PAGE), None)


# An act of nearly 8 MiB. Sixty-four of them leave less than two to a register.
CONTENT = "c" * 16_384


def acts(most):
    """The payloads of acts that leave room for less than one provision more, and how many bytes they take so far."""
    size, number, count = 0, 1, 510
    while count:
        nodes = [entry_bytes.node(str(k), content=CONTENT) for k in range(1, count + 1)]
        parts = entry_bytes.command(1, entry_bytes.act(nodes, f"/akn/gb/act/2010-05-01/{number:02}"))
        payload = entry_bytes.spelled(entry_bytes.entry(parts, number, number))
        if size + len(payload) > most:
            count = min(count - 1, (most - size) // len(CONTENT))
            continue
        size, number = size + len(payload), number + 1
        yield payload, size


def full_register():
    """A journal of half a gigabyte: the last bytes are entered, what takes one more is refused, and an entry too many is damage."""
    with checks.folder() as folder:
        path = os.path.join(folder, JOURNAL)
        with open(path, "wb") as out:
            out.write(MAGIC)
            for number, (payload, size) in enumerate(acts(register.MOST), 1):
                out.write(b"\x01" + len(payload).to_bytes(4, "big") + payload)
            place = out.tell()
            out.write(b"\x00")
        work = "/akn/gb/act/2010-05-01/01"
        left = register.MOST - size
        (fits, taken), (more, taken_more) = register.filling(left - 2, work), register.filling(left - 1, work)
        check("what fills the register", (taken, taken_more), (left - 2, left - 1))
        full = response(409, register.refused(17, register.MOST))
        rows = [
            (register.record("ada", 1000, more, work=work), full),
            (register.record("ada", 1000, fits, work=work), response(201, register.law(number + 1))),
            (register.withdraw("ada", 1001, f"{number + 1}.1"), full),
            (register.record("ada", 1001, dossiers.repeal(), work=work), full),
            (register.record("ada", 1000, fits, work=work), response(201, register.law(number + 1))),
        ]
        given, wanted = b"".join(command(line) for line, _ in rows), b"".join(answer for _, answer in rows)
        check_written("a register that is filled over a journal", called(folder, "batch", given), (0, wanted))
        check("the register that is full", called(folder, "check"), (0, f"entries {number + 1} law {number + 1}\n".encode()))
        last = entry_bytes.spelled(entry_bytes.entry(entry_bytes.command(4, entry_bytes.id_("id", number + 1, 1)), number + 2, 1001))
        with open(path, "r+b") as out:
            out.seek(place + 5 + left)
            out.write(b"\x01" + len(last).to_bytes(4, "big") + last + b"\x00")
        said = f'{{"damaged":"order","number":{number + 2},"rule":17}}\n'.encode()
        check("an entry behind a full register", called(folder, "check"), (6, said))
