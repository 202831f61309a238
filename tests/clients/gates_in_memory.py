"""A register in memory that is served over four gates in memory, which the program `serving_trial` answers line by line: what is written to each
link, a gate that fails, and links that wait for each other, so that no worker comes to its end unless all four work at the same time."""
import subprocess

from checks import GATES, check
from clients.messages import command, front, response
from rows import histories
from rows.register import SECTIONS, enact, law

FRONT, FRONT_0 = histories.FRONT, histories.FRONT_0
# A gate that is to fail at its first call, `listen`.
REFUSING = (FRONT, "1")
# (a link looks 100,000,000 times for others before it fails)
LATE = 120


def line_of(connections, meeting, gates):
    """The line of gates with one link each: the bytes that it has, or these and the numbers of the calls of the gate that fail."""
    gates = [gate if isinstance(gate, tuple) else (gate, "-") for gate in gates]
    return " ".join([str(connections), str(meeting), *(f"{failing}/{given.hex()}" for given, failing in gates)])


def told_of(front, ended, written):
    """The line that is told: of each link what was written, with None where a read of it failed before anything was."""
    return " ".join([f"front {front}", ended, *("-!" if it is None else it.hex() or "-" for it in written)])


def told(lines):
    """What the program tells of these lines, and its status."""
    given = "".join(line + "\n" for line in lines).encode()
    done = subprocess.run([GATES], input=given, stdout=subprocess.PIPE, timeout=LATE)
    return done.returncode, done.stdout.decode()


def one(name, connections, meeting, gates, *wanted):
    check(f"gates in memory: {name}", told([line_of(connections, meeting, gates)]), (0, told_of(*wanted) + "\n"))


def another(number):
    """A command of a drafter of his own, who enacts an act of his own."""
    return command(enact(f"drafter{number}", 1, f"/akn/gb/act/2010-05-01/{number}", body=SECTIONS))


def rows():
    """One request over each of four gates, and what is made of a gate that fails, of a link that is wanting, and of a command."""
    one("one request each", 1, 0, [FRONT] * 4, 0, "served", [FRONT_0] * 4)
    one("the second does not listen", 1, 0, [FRONT, REFUSING, FRONT, FRONT], 0, "failed", [FRONT_0, b"", FRONT_0, FRONT_0])
    one("the third gives none", 1, 0, [FRONT, FRONT, (FRONT, "2"), FRONT], 0, "failed", [FRONT_0, FRONT_0, b"", FRONT_0])
    one("more than there are", 2, 0, [FRONT] * 4, 0, "failed", [FRONT_0] * 4)
    one("none is to be given", 0, 0, [FRONT] * 4, 0, "served", [b""] * 4)
    one("nothing comes", 1, 0, [b""] * 4, 0, "served", [b""] * 4)
    one("a request that is cut", 1, 0, [FRONT, FRONT[:8], FRONT, b""], 0, "served", [FRONT_0, histories.TRUNCATED, FRONT_0, b""])
    given, wanted = histories.accepted(histories.ENACTED, law(1))
    one("a command, and what is asked behind it", 1, 0, [given + FRONT + given, b"", b"", b""], 1, "served",
        [wanted + front(1) + wanted, b"", b"", b""])
    lines = ["", "1", "1 0", "1 0 -/", "1 0 -/ -/ -/", "1 0 -/ -/ -/ -/g", "1 0 x/ -/ -/ -/", "1 0 - - - -", "1 5 -/ -/ -/ -/",
             "1000001 0 -/ -/ -/ -/"]
    check("gates in memory: lines of no such form", told(lines), (0, "no such line\n" * len(lines)))


def meeting():
    """Links none of which gives its last byte before all four have begun: each has its response. Where the fourth does not listen, the others wait
    for it in vain, and each of their reads fails."""
    one("four that meet", 1, 4, [FRONT] * 4, 0, "served", [FRONT_0] * 4)
    one("three that wait for a fourth", 1, 4, [FRONT, FRONT, FRONT, REFUSING], 0, "failed", [None, None, None, b""])
    status, lines = told([line_of(1, 4, [another(number) for number in range(1, 5)])])
    words = lines.split()
    check("gates in memory: commands at once", (status, words[:3]), (0, ["front", "4", "served"]))
    check("gates in memory: their numbers", sorted(words[3:]), sorted(response(201, law(number)).hex() for number in range(1, 5)))
