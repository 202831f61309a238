"""The program over real pipes, devices and folders, over pipes that do not wait, and to files that may not become longer."""
import os
import resource
import signal
import subprocess
import tempfile

import checks
from checks import PROGRAM, SAID, SCRIPT, check, read, run, said_over_a_folder, said_to_a_full_device
from rows import dossiers, histories


def slow_pipe():
    """A pipe through which the dossier comes byte by byte."""
    slow = subprocess.Popen([PROGRAM, "text", "2011-01-01"], stdin=subprocess.PIPE, stdout=subprocess.PIPE, stderr=subprocess.DEVNULL)
    for byte in read("examples", "repeal.json"):
        slow.stdin.write(bytes([byte]))
        slow.stdin.flush()
    slow.stdin.close()
    got = slow.stdout.read()
    check("a pipe, byte by byte", (slow.wait(60), got), (0, read("tests", "rows", "expected", "repeal-2011-01-01.out")))


def largest_input():
    """An input of exactly the limit, whose last byte is the last of the dossier, and one of a byte more: nothing is cut, and no
    length is refused but past the limit."""
    given = read("examples", "repeal.json").rstrip()
    for length, want in [
        (dossiers.LIMIT - 1, (0, read("tests", "rows", "expected", "repeal-2011-01-01.out"))),
        (dossiers.LIMIT, (0, read("tests", "rows", "expected", "repeal-2011-01-01.out"))),
        (dossiers.LIMIT + 1, (10, dossiers.form(9))),
        (2 * dossiers.LIMIT, (10, dossiers.form(9))),
    ]:
        check(f"an input of {length} bytes", run(["text", "2011-01-01"], given.rjust(length)), want)


def closed_pipes():
    """A pipe that nobody reads, and one of which only the first byte is read."""
    large = dossiers.dossier(dossiers.act(body=dossiers.sections(500, "c" * 16000)))
    closed = subprocess.Popen([PROGRAM, "text", "2011-01-01"], stdin=subprocess.PIPE, stdout=subprocess.PIPE, stderr=subprocess.DEVNULL)
    closed.stdout.close()
    closed.stdin.write(large)
    closed.stdin.close()
    check("a pipe that nobody reads", closed.wait(60), 4)

    with tempfile.NamedTemporaryFile() as file:
        file.write(large)
        file.flush()
        line = f"'{PROGRAM}' text 2011-01-01 < '{file.name}' | head -c 1; exit ${{PIPESTATUS[0]}}"
        head = subprocess.run(["bash", "-c", line], capture_output=True, timeout=60)
    check("the first byte alone is read", (head.returncode, head.stdout), (4, b"{"))


def failing_devices():
    line = [PROGRAM, "text", "2011-01-01"]
    check("a full device", said_to_a_full_device(line, read("examples", "repeal.json")), (4, SAID[4]))
    check("a folder as standard input", said_over_a_folder(line), (3, b"", SAID[3]))


def over_a_pipe_that_waits_not(words, given, ended):
    """A run whose standard input is a pipe in non-blocking mode that has these bytes, and has ended or not."""
    source, sink = os.pipe()
    os.set_blocking(source, False)
    os.write(sink, given)
    if ended:
        os.close(sink)
    with checks.folder() as folder:
        done = subprocess.run([PROGRAM, *words], stdin=source, capture_output=True, cwd=folder, timeout=60)
    for end in [source] if ended else [source, sink]:
        os.close(end)
    return done.returncode, done.stdout, done.stderr


def to_a_pipe_that_waits_not(words, given):
    """A run whose standard output is a pipe in non-blocking mode from which nothing is read until the run has ended."""
    source, sink = os.pipe()
    os.set_blocking(sink, False)
    with checks.folder() as folder, tempfile.TemporaryFile() as file:
        file.write(given)
        file.seek(0)
        done = subprocess.run([PROGRAM, *words], stdin=file, stdout=sink, stderr=subprocess.PIPE, cwd=folder, timeout=60)
    os.close(sink)
    with open(source, "rb") as out:
        return done.returncode, out.read(), done.stderr


def pipes_that_wait_not():
    """A descriptor in non-blocking mode is read as long as something is there, and written to while there is room. Then the status is that of a
    stream which fails, and what was written answers what was read."""
    dossier, answer = read("examples", "repeal.json"), read("tests", "rows", "expected", "repeal-2011-01-01.out")
    text = ["text", "2011-01-01"]
    check("a dossier in a pipe that waits not", over_a_pipe_that_waits_not(text, dossier, True), (0, answer, b""))
    check("a dossier in a pipe that waits not and has not ended", over_a_pipe_that_waits_not(text, dossier, False), (3, b"", SAID[3]))
    check("nothing in a pipe that waits not", over_a_pipe_that_waits_not(["batch"], b"", False), (3, b"", SAID[3]))
    for ended, wanted in ((True, (0, histories.FRONT_0 * 2, b"")), (False, (3, histories.FRONT_0 * 2, SAID[3]))):
        check(f"requests in a pipe that waits not, ended {ended}", over_a_pipe_that_waits_not(["batch"], histories.FRONT * 2, ended), wanted)
    part = histories.FRONT * 2 + histories.FRONT[:9]
    check("a part of a request in a pipe that waits not", over_a_pipe_that_waits_not(["batch"], part, False), (3, histories.FRONT_0 * 2, SAID[3]))
    check("an answer to a pipe that waits not", to_a_pipe_that_waits_not(text, dossier), (0, answer, b""))
    status, written, said = to_a_pipe_that_waits_not(["batch"], histories.FRONT * 10_000)
    front = (histories.FRONT_0 * 10_000).startswith(written)
    check("more responses than a pipe takes that waits not", (status, said, front, len(written) > 4096), (4, SAID[4], True, True))
    large = dossiers.dossier(dossiers.act(body=dossiers.sections(500, "c" * 1000)))
    whole = run(["text", "2010-05-01"], large)[1]
    status, written, said = to_a_pipe_that_waits_not(["text", "2010-05-01"], large)
    front = whole.startswith(written)
    check("a longer answer than a pipe takes that waits not", (status, said, front, len(written) > 4096), (4, SAID[4], True, True))


def to_a_file_of_at_most(limit, handled, program=PROGRAM):
    """A run whose standard output is a file that may have so many bytes: its status, and what the file has."""
    def limit_size():
        resource.setrlimit(resource.RLIMIT_FSIZE, (limit, limit))
        signal.signal(signal.SIGXFSZ, signal.SIG_IGN if handled else signal.SIG_DFL)

    with tempfile.TemporaryFile() as file:
        settings = {"stdout": file, "stderr": subprocess.DEVNULL, "preexec_fn": limit_size, "timeout": 60}
        done = subprocess.run([program, "text", "2011-01-01"], input=read("examples", "repeal.json"), **settings)
        file.seek(0)
        return done.returncode, file.read()


def files_of_a_limit():
    """Standard output is a file that may not become longer: what fits of the answer is there. The script ignores the signal; where nobody does, it
    ends the run."""
    answer = read("tests", "rows", "expected", "repeal-2011-01-01.out")
    for limit in (0, 1, 100, len(answer) - 1, len(answer)):
        fits = limit == len(answer)
        check(f"an answer to a file of at most {limit} bytes", to_a_file_of_at_most(limit, True), (0 if fits else 4, answer[:limit]))
        by_script = to_a_file_of_at_most(limit, False, SCRIPT)
        check(f"an answer to a file of at most {limit} bytes, by the script", by_script, (0 if fits else 4, answer[:limit]))
        status = to_a_file_of_at_most(limit, False)[0]
        check(f"an answer to a file of more than {limit} bytes is a kill", status, 0 if fits else -signal.SIGXFSZ)
