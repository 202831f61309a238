"""`export` and `follow` over journal files, pipes and devices: what the one writes and the other takes, and what both make of a file that is
damaged or held, of a disk, an input and an output that fail, and that `follow` run again goes on where it stood."""
import concurrent.futures
import os
import subprocess

import checks
from checks import check, over_a_folder, to_a_full_device
from clients.messages import at_most, bytewise, whole
from devices.journal_file import CUT, FILES, JOURNAL, called, journal, kept
from models.followers import LONG, ONE, TOGETHER, acts, counted, frame, framed
from rows import followers, histories

NONE, FILE = journal(), journal(*ONE)


def ended(folder, words, given=b""):
    """The status of a run in a folder, what it wrote, and what it said on standard error."""
    done = subprocess.run([checks.PROGRAM, *words], input=given, capture_output=True, cwd=folder, timeout=60)
    return done.returncode, done.stdout, done.stderr


def placed(folder, file):
    """Puts the bytes of a journal into a folder, or none."""
    if file is not None:
        with open(os.path.join(folder, JOURNAL), "wb") as out:
            out.write(file)


def over(file, words, given=b""):
    """A run over a journal of these bytes, or none: its status, what it wrote, and the file that it left."""
    with checks.folder() as folder:
        placed(folder, file)
        status, written, _ = ended(folder, words, given)
        return status, written, kept(folder)


def rows():
    """Each row of what a follower is sent."""
    tables = [followers.TAKEN, followers.of_no_frames(), followers.cut(), followers.CONFLICTS, followers.of_payloads(), followers.of_broken_fields()]
    found = [row for table in tables for row in table]
    with concurrent.futures.ThreadPoolExecutor(os.cpu_count()) as pool:
        runs = pool.map(lambda row: over(journal(*row[1]) if row[1] else None, ["follow"], row[2]), found)
        for (name, _, _, wanted, after), got in zip(found, runs):
            check(f"follow, {name}", got, (*wanted, journal(*after)))


def exported():
    """`export` writes the frames above a number and leaves the file as it was; what a `follow` then holds is the same file."""
    for name, payloads in (("a short register", ONE), ("a long one", LONG)):
        file, count = journal(*payloads), len(payloads)
        for above in {*range(min(count, 4)), count - 1, count, count + 1, 1 << 32, (1 << 64) - 1}:
            check(f"export {above} of {name}", over(file, ["export", str(above)]), (0, framed(payloads, above), file))
        frames = over(file, ["export", "0"])[1]
        check(f"follow of {name}", over(None, ["follow"], frames), (*counted(count, count), file))
    for name, file in (("no file", None), ("a register without entries", NONE)):
        check(f"export of {name}", over(file, ["export", "0"]), (0, b"", NONE))
    for above in ("0", "9"):
        check(f"export {above} does not read its input", over(FILE, ["export", above], b"\x00" * 10)[:2], (0, framed(ONE, int(above))))


def a_register_that_is_served():
    """What `batch` kept is followed, and the follower answers as its leader does."""
    rows = histories.CORRECTED
    with checks.folder() as leader, checks.folder() as follower:
        called(leader, "batch", b"".join(given for given, _ in rows))
        file = kept(leader)
        status, frames, _ = ended(leader, ["export", "1"])
        check("the frames of two entries", (status, frames.count(b"\x4c" + bytes(7)), frames[:9]), (0, 2, b"\x4c" + bytes(7) + b"\x02"))
        check("a follower without the first", ended(follower, ["follow"], frames)[:2], counted(0, 0, 0, 2))
        check("a follower of the frames", ended(follower, ["follow"], ended(leader, ["export", "0"])[1])[:2], counted(3, 3))
        check("the file of the follower", kept(follower), file)
        check("a check of the follower", called(follower, "check"), (0, b"entries 3 law 3\n"))
        check("what the follower answers", called(follower, "batch", b"".join(given for given, _ in rows)), (0, b"".join(row[1] for row in rows)))


def words():
    """Words that are neither form end with 2, write nothing and touch no file."""
    for line in ("export", "export 01", "export -1", "export +1", "export 1.0", "export 18446744073709551616", "export 0 0", "export ada",
                 "export ''", "follow 0", "follow follow", "follow -v"):
        with checks.folder() as folder:
            status, written, said = ended(folder, [word.strip("'") for word in line.split()])
            check(f"the words {line}", (status, written, said != b"", os.listdir(folder)), (2, b"", True, []))


def opened_files():
    """Each file as `check` finds it: `export` and `follow` write the same line where it is damaged, and leave it alike. The last of the entries may
    be the one that is damaged; nothing is exported of the others."""
    for name, file, (status, line, left) in FILES + CUT[::4]:
        ends = (status, line.encode(), left) if status else (0, None, left)
        for words in (["export", "0"], ["follow"]):
            got = over(file, words)
            check(f"{name}, {words[0]}", got if status else (got[0], None, got[2]), ends)
    last = journal(*ONE, b"\x00")
    line = b'{"byte":0,"damaged":"entry","number":4,"place":0}\n'
    for words in (["export", "0"], ["export", "3"], ["export", "9"], ["follow"]):
        check(f"a damaged last entry, {' '.join(words)}", over(last, words, framed(ONE)), (6, line, last))


def failing_streams():
    """An input that can't be read ends with 3, an output that takes nothing with 4; what was added before is there."""
    with checks.folder() as folder:
        check("follow over a folder", over_a_folder([checks.PROGRAM, "follow"], cwd=folder), (3, b""))
        check("what it leaves", kept(folder), NONE)
    for name, file, words, given, left in [
            ("the count", None, ["follow"], framed(ONE), FILE), ("a refusal", None, ["follow"], framed(ONE) + b"\n", FILE),
            ("a conflict", FILE, ["follow"], frame(1, ONE[1]), FILE), ("a damage", FILE[:-1], ["follow"], b"", FILE[:-1]),
            ("a damage that is not exported", FILE[:-1], ["export", "0"], b"", FILE[:-1]), ("frames", FILE, ["export", "0"], b"", FILE),
            ("the last frame", FILE, ["export", "2"], b"", FILE)]:
        with checks.folder() as folder:
            placed(folder, file)
            check(f"{name} to a full device", (to_a_full_device([checks.PROGRAM, *words], given, cwd=folder), kept(folder)), (4, left))
    with checks.folder() as folder:
        placed(folder, FILE)
        got = to_a_full_device([checks.PROGRAM, "export", "3"], b"", cwd=folder)
        check("no frame to a full device", got, 0)


def closed_pipe():
    """`export` into a pipe that nobody reads ends with 4."""
    with checks.folder() as folder:
        placed(folder, journal(*LONG))
        source, sink = os.pipe()
        os.close(source)
        status = subprocess.run([checks.PROGRAM, "export", "0"], stdin=subprocess.DEVNULL, stdout=sink, stderr=subprocess.DEVNULL, cwd=folder,
                                timeout=60).returncode
        os.close(sink)
        check("export into a closed pipe", (status, kept(folder)), (4, journal(*LONG)))


def slow_pipes():
    """Frames that come a byte at a time, and a large one that comes in pieces, are taken as if they came whole."""
    for name, payloads, write in (("each byte alone", ONE, bytewise), ("as it comes", LONG, whole)):
        with checks.folder() as folder:
            child = subprocess.Popen([checks.PROGRAM, "follow"], stdin=subprocess.PIPE, stdout=subprocess.PIPE, stderr=subprocess.DEVNULL, cwd=folder)
            with at_most(60, child):
                write(child.stdin.fileno(), framed(payloads))
                child.stdin.close()
                got = child.stdout.read()
                check(f"frames, {name}", (child.wait(), got, kept(folder)), (*counted(len(payloads), len(payloads)), journal(*payloads)))


def held_file():
    """A journal that another process holds, or that is a folder, ends with 5 and stays as it is; once it is free, `follow` goes on."""
    with checks.folder() as folder:
        placed(folder, journal(ONE[0]))
        first = subprocess.Popen([checks.PROGRAM, "batch"], stdin=subprocess.PIPE, stdout=subprocess.PIPE, stderr=subprocess.DEVNULL, cwd=folder)
        with at_most(60, first):
            first.stdin.write(histories.FRONT)
            first.stdin.flush()
            first.stdout.read(1)
            for words in (["follow"], ["export", "0"]):
                check(f"{words[0]} of a held file", ended(folder, words, framed(ONE)), (5, b"", checks.HELD))
            first.stdin.close()
            first.stdout.read()
            first.wait()
        check("the held file", kept(folder), journal(ONE[0]))
        check("follow of a free file", ended(folder, ["follow"], framed(ONE))[:2], counted(3, 2, 1))
    with checks.folder() as folder:
        os.mkdir(os.path.join(folder, JOURNAL))
        for words in (["follow"], ["export", "0"]):
            check(f"{words[0]} of a folder", ended(folder, words, framed(ONE)), (5, b"", checks.SAID[5]))


def held_by_a_follower():
    """While `follow` waits for frames it holds the file: another `follow` ends with 5. Of what came by then the first 256 are there, and the others
    once the input ends."""
    sent = acts(TOGETHER + 9)
    with checks.folder() as folder:
        child = subprocess.Popen([checks.PROGRAM, "follow"], stdin=subprocess.PIPE, stdout=subprocess.PIPE, stderr=subprocess.DEVNULL, cwd=folder)
        with at_most(60, child):
            child.stdin.write(framed(sent[:-1]))
            child.stdin.flush()
            path = os.path.join(folder, JOURNAL)
            while not os.path.exists(path) or kept(folder) != journal(*sent[:TOGETHER]):
                if child.poll() is not None:
                    break
            check("a second follow", ended(folder, ["follow"], framed(ONE)), (5, b"", checks.HELD))
            child.stdin.write(framed(sent, len(sent) - 1))
            child.stdin.close()
            got = child.stdout.read()
            check("the first follow", (child.wait(), got, kept(folder)), (*counted(len(sent), len(sent)), journal(*sent)))
