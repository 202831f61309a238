"""Sessions of a desk over a keeper in memory, which the program `desk_trial` answers line by line."""
import subprocess
import tempfile
import time

from checks import DESK, check, over_a_folder, to_a_full_device
from models import entry_bytes, failing_desks, failing_keepers as keepers_that_fail
from rows import dossiers, held, register


def told(name, lines):
    """What a desk tells of each line, given one after another through a pipe. What is accepted counts as one check."""
    wanted = []
    with tempfile.TemporaryFile() as out:
        child = subprocess.Popen([DESK], stdin=subprocess.PIPE, stdout=out)
        try:
            for line, want in lines:
                child.stdin.write(line.encode() + b"\n")
                wanted.append((line, want))
            child.stdin.close()
        except BrokenPipeError:
            pass
        status = child.wait(120)
        out.seek(0)
        got = out.read().decode().split("\n")
    check(f"{name}: the status, and how many lines", (status, len(got) - 1, got[-1]), (0, len(wanted), ""))
    accepted = []
    for number, ((line, want), line_got) in enumerate(zip(wanted, got), 1):
        if want.startswith(('{"law"', '{"draft"')):
            accepted.append((number, line_got) if line_got != want else None)
        else:
            check(f"{name}, line {number}, {line[:60]}", line_got, want)
    check(f"{name}: what is accepted", [found for found in accepted if found], [])


def small_registers():
    for name, lines in register.SESSIONS.items():
        told(name, lines)


def full_register():
    """A register that is filled to its last law entry and its last byte."""
    told("a full register", register.full())


def ends():
    """An input of nothing, one without a last line feed, one that is no text, and streams that fail."""
    for given, want in [(b"", b""), (b"front", b"law 0 entries 0\n"), (b"\xff\n{\xff\n", b"no such line\n" + dossiers.form(1))]:
        done = subprocess.run([DESK], input=given, stdout=subprocess.PIPE, timeout=60)
        check(f"a register is given {given}", (done.returncode, done.stdout), (0, want))
    check("a register over a full device", to_a_full_device([DESK], b"front\n"), 4)
    check("a register over a folder as standard input", over_a_folder([DESK]), (3, b""))


def touched_line(works):
    """The line of works that a command touches, each with its day."""
    return " ".join(["touched", *(f"{uri} {day}" for uri, day in works)])


def touched_works():
    """The works that law entries touch, asked before each comes; then of one that came, of one that is refused, and of no command."""
    for name, wanted in held.TOUCHED.items():
        lines = []
        for number, (line, _) in enumerate(held.STORIES[name][0], 1):
            lines += [(f"touched {line}", touched_line(wanted[number]))] if number in wanted else []
            lines.append((line, register.law(number)))
        refused = register.withdraw("ada", len(lines) + 1, "9.9")
        told(f"touched works, {name}", [*lines, (f"touched {line}", "none"), (f"touched {refused}", "none"), ("touched {", "no such line")])


def lines_of(given):
    """The status of `desk_trial`, and the line that it writes of each of these."""
    with tempfile.TemporaryFile() as source, tempfile.TemporaryFile() as out:
        source.writelines(line.encode() + b"\n" for line in given)
        source.seek(0)
        status = subprocess.run([DESK], stdin=source, stdout=out, timeout=120).returncode
        out.seek(0)
        return status, out.read().decode().split("\n")[:-1]


def entries_as_bytes():
    """Each field of each command and each kind of edit broken once, in both formats, each front of long entries, and formats without need."""
    rows = list(entry_bytes.table())
    status, got = lines_of(given for _, given, _ in rows)
    check("entries as bytes: the status, and how many lines", (status, len(got)), (0, len(rows)))
    for (name, _, want), line_got in zip(rows, got):
        check(f"entries as bytes, {name}", line_got, want)


def random_entries():
    """Random entries of all commands, and as many with one byte changed, cut or doubled: what is taken is its own spelling, and the rest has its
    fault where the reader has it."""
    seed = time.time_ns() % 1_000_000_000
    trips = list(entry_bytes.trips(seed))
    status, got = lines_of(given for given, _ in trips)
    wrong = [line for (line, want), line_got in zip(trips, got) if line_got != want]
    check(f"random entries of seed {seed}", (status, len(got), wrong[:1]), (0, len(trips), []))
    mutants = list(entry_bytes.mutated(seed))
    status, got = lines_of(entry_bytes.line(data) for data in mutants)
    wrong = [data.hex() for data, line_got in zip(mutants, got) if line_got != entry_bytes.told(data)]
    check(f"random bytes of seed {seed}", (status, len(got), wrong[:1]), (0, len(mutants), []))


def spelled_entries():
    """Entries of a register are spelled as the list of their fields."""
    told("entries that were accepted", entry_bytes.SPELLED)


def failing_keepers():
    """A desk whose keeper fails at each of its calls, and what is opened of payloads that are damaged."""
    for name, (lines, end) in keepers_that_fail.SESSIONS.items():
        status, got = lines_of(line for line, _ in lines)
        check(f"{name}: the status, and how many lines", (status, len(got)), (0, len(lines) + len(end)))
        for number, (want, line_got) in enumerate(zip([want for _, want in lines] + end, got), 1):
            check(f"{name}, line {number}", line_got, want)


def keepers_in_turn():
    """A desk each call of whose keeper fails, alone or with all behind it, and that keeps what a failed append brought or not, or finds damage
    later: what it answers, and what is kept."""
    for name, lines, end in failing_desks.sessions():
        status, got = lines_of(line for line, _ in lines)
        wanted = [(line, want) for line, want in lines if want is not None] + [("", want) for want in end]
        wrong = [(line, line_got) for (line, want), line_got in zip(wanted, got) if line_got != want]
        check(name, (status, len(got), wrong[:1]), (0, len(wanted), []))
