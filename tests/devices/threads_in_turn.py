"""Callers that take turns at one list in real threads, which the program `turn_trial` answers line by line."""
import subprocess
import time

from checks import TURNS, check
from models import turn_courses


def turned():
    """Each edge of the form of a line, each order in which passes are joined, turns in which callers fall asleep, and one run of many turns,
    whose seed stands in the name of its check."""
    rows = turn_courses.EDGES + list(turn_courses.orders())
    seed = time.time_ns() % 1_000_000_000
    for name, lines in [("turns", rows), ("slow turns", [turn_courses.asleep()]), (f"turns of seed {seed}", [turn_courses.many(seed)])]:
        given = "".join(line + "\n" for line, _ in lines).encode()
        try:
            done = subprocess.run([TURNS], input=given, stdout=subprocess.PIPE, timeout=120)
        except subprocess.TimeoutExpired:
            check(f"{name}: an end within two minutes", "none", "an end")
            continue
        got = done.stdout.decode().split("\n")
        check(f"{name}: the status, and how many lines", (done.returncode, len(got) - 1, got[-1]), (0, len(lines), ""))
        for (line, want), line_got in zip(lines, got):
            check(f"{name}, {line[:60]}", line_got, want)
