"""The versions of a work by day: what a table of it costs, made or revised from a touched day on, and what it gives on each day, beside a
replay from scratch. The days and the orders of `ROWS` are told by `desk_trial`, and what they cost is reckoned by `table_model`, from
docs/MODEL.md; `table_trial` makes and revises the tables themselves.
"""
import json
import subprocess
import tempfile
import time

from checks import TABLES, check, over_a_folder, to_a_full_device
from models import table_histories
from models.table_costs import cost
from rows import held
from rows.dossiers import force, form, node, repeal, to
from rows.histories import CHANGES, CORRECTED_CHANGE, PARTS, lettered
from rows.register import FIRST, ONE, SECOND, SECTIONS, THIRD, again, answer, correct, enact, law, record, refused, restore, withdraw
from rows.sessions import lines_of


def told_orders(commands, work, viewpoint, reading):
    """The breakpoints of a work at a viewpoint, each with the ids that bear then."""
    _, got = lines_of([*commands, f"days {work} {viewpoint}"])
    days = got[-1].split()[1:]
    _, got = lines_of([*commands, *(f"order {work}/eng@{day} {viewpoint} {reading}" for day in days)])
    return [(day, line.split()[1:]) for day, line in zip(days, got[len(commands):])]


# Forty sections, changed a section a time; the fifth change is then withdrawn, and the tenth corrected.
GROWING = [
    enact("ada", 1, PARTS, FRBRdate="2000-01-01", force={"from": "2000-02-01"},
          body=[node(num=str(k), content=f"Text {k}.") for k in range(1, 41)]),
    *(record("ada", j + 1, lettered(j), work=PARTS) for j in CHANGES),
    withdraw("ada", 27, "6.1"),
    correct("ada", 28, "11.1", lettered(CORRECTED_CHANGE, "Rule")),
]

# A repeal that begins to have force early, and is withdrawn: it touches the day from which that is counted, and not its own start.
EARLY = [
    enact("ada", 1, body=[node(num=str(k)) for k in (1, 2, 3)]),
    record("ada", 2, repeal("sec_3", "2011-06-01")),
    record("ada", 3, force(destination=to("2.1"), on="2011-01-01", date="2011-01-01")),
    withdraw("ada", 4, "2.1"),
]

REPEALED = "/akn/gb/act/2001-05-01/7"

# Three repeals, of which the second is withdrawn; and one more that comes first once its start is set back.
DRAWN = [
    enact("ada", 1, REPEALED, FRBRdate="2001-05-01", force={"from": "2001-06-01"}, body=[node(num=str(k)) for k in (1, 2, 3)]),
    *(record("ada", k, repeal(f"sec_{k - 1}", f"{2000 + k}-01-01"), work=REPEALED) for k in (2, 3, 4)),
    withdraw("ada", 5, "3.1"),
]
SET_BACK = [
    *DRAWN[:-1],
    record("ada", 5, force(destination=to("4.1"), on="2004-01-01", date="2001-07-01"), work=REPEALED),
]

# Each with its commands, the work, the viewpoint, the touched day and the cost from it.
ROWS = [
    ("a history that grows, made", GROWING, PARTS, 26, "0001-01-01", 25),
    ("one change withdrawn", GROWING, PARTS, 27, "2002-01-01", 21),
    ("one change corrected", GROWING, PARTS, 28, "2004-01-01", 16),
    ("an early repeal, made", EARLY, ONE, 3, "0001-01-01", 1),
    ("an early repeal withdrawn", EARLY, ONE, 4, "2011-01-01", 0),
    ("the drawn act, made", DRAWN, REPEALED, 4, "0001-01-01", 3),
    ("the drawn act, 3.1 withdrawn", DRAWN, REPEALED, 5, "2003-01-01", 1),
    ("the drawn act, 4.1 set back", SET_BACK, REPEALED, 5, "2004-01-01", 3),
]


def costs():
    for name, commands, work, viewpoint, touched, want in ROWS:
        for reading in ("force", "efficacy"):
            orders = told_orders(commands, work, viewpoint, reading)
            check(f"the cost of {name}, {reading}", cost(orders, touched), want)
        both = sum(cost(told_orders(commands, work, viewpoint, reading), touched) for reading in ("force", "efficacy"))
        check(f"the cost of {name}, as a command of a desk", both, 2 * want)
    for name, wanted in held.COSTS.items():
        for number, want in wanted.items():
            commands = [line for line, _ in held.STORIES[name][0][:number]]
            got = sum(cost(told_orders(commands, work, number, reading), day)
                      for work, day in held.TOUCHED[name][number] for reading in held.READINGS)
            check(f"the cost of law entry {number} of {name}, of all works that it touches", got, want)


def agreements():
    """Before the touched day of an entry what bears is what bore without it, on each breakpoint of either and on the days beside it."""
    for name, commands, work, viewpoint, touched, _ in ROWS:
        if touched == "0001-01-01":
            continue
        for reading in ("force", "efficacy"):
            days = {day for v in (viewpoint - 1, viewpoint) for day, _ in told_orders(commands, work, v, reading)}
            days = sorted(day for day in days if day < touched)
            lines = [f"order {work}/eng@{day} {v} {reading}" for day in days for v in (viewpoint - 1, viewpoint)]
            _, got = lines_of([*commands, *lines])
            got = got[len(commands):]
            check(f"what bore before {name}, {reading}", got[::2], got[1::2])


def at(reply, touched="none", spent=0):
    """The line of a command that is accepted."""
    return f"{reply} touched {touched} cost {spent}"


TWO_LEFT = answer('["2.1"]', f"{FIRST},{SECOND}", "2011-02-01", 3)
ALL_THREE = answer("[]", f"{FIRST},{SECOND},{THIRD}", "2011-02-01", 4)

# Lines for `table_trial`, each with the line that is wanted of it.
SESSIONS = {
    "an early repeal": [
        ("same", "no table"),
        (f"make {ONE} force", "none"),
        (enact("ada", 1, body=SECTIONS), at(law(1))),
        ("at 2011-02-01", "no table"),
        (f"make {ONE} force", "rows 1 cost 0"),
        (record("ada", 2, repeal("sec_3", "2011-06-01")), at(law(2), "2011-06-01", 1)),
        (record("ada", 3, force(destination=to("2.1"), on="2011-01-01", date="2011-01-01")), at(law(3), "2011-01-01", 1)),
        ("rows 2010-12-31", "rows 1"),
        ("rows 2011-01-01", "rows 2"),
        ("rows 2011-06-01", "rows 3"),
        ("at 2011-02-01", TWO_LEFT),
        ("replay 2011-02-01", TWO_LEFT),
        ("same", "same 3"),
        (withdraw("ada", 4, "2.1"), at(law(4), "2011-01-01")),
        ("at 2011-02-01", ALL_THREE),
        ("replay 2011-02-01", ALL_THREE),
        ("same", "same 2"),
        ("at 2010-04-30", '{"kept":"2010-05-01","name":"NotYetEnacted","query":3}'),
        (withdraw("ada", 5, "2.1"), refused(9, 4)),
        (withdraw("ada", 4, "2.1"), again(law(4))),
        (restore("ada", 5, "2.1"), at(law(5), "2011-01-01", 1)),
        (record("ada", 6, force(destination={"wId": "sec_1"})), at(law(6))),
        ("same", "same 4"),
        ("rows 2012-01-01", "rows 3"),
        (f"make {ONE} efficacy", "rows 4 cost 1"),
        ("at", "no such line"),
        ("at 2011-02-30", "no such line"),
        ("until 2011-02-01", "no such line"),
        (f"make {ONE}", "no such line"),
        (f"make {ONE} often", "no such line"),
        ("make act force", "no such line"),
        ("{", form(1).decode().strip()),
    ],
    "a history that grows, loses one change and has one corrected": [
        (GROWING[0], at(law(1))),
        *((line, at(law(k), f"{2001 + (k - 2) // 3}-01-01")) for k, line in enumerate(GROWING[1:26], 2)),
        (f"make {PARTS} force", "rows 10 cost 25"),
        ("scratch", "versions 10 steps 133"),
        ("same", "same 10"),
        (GROWING[26], at(law(27), "2002-01-01", 21)),
        ("same", "same 10"),
        (GROWING[27], at(law(28), "2004-01-01", 16)),
        ("same", "same 10"),
    ],
    "the drawn act, 3.1 withdrawn": [
        (DRAWN[0], at(law(1))),
        (f"make {REPEALED} force", "rows 1 cost 0"),
        (DRAWN[1], at(law(2), "2002-01-01", 1)),
        (DRAWN[2], at(law(3), "2003-01-01", 1)),
        (DRAWN[3], at(law(4), "2004-01-01", 1)),
        (DRAWN[4], at(law(5), "2003-01-01", 1)),
        ("same", "same 3"),
    ],
    "the drawn act, 4.1 set back": [
        *((line, at(law(k), touched)) for k, (line, touched) in enumerate(zip(DRAWN[:4], ["none", "2002-01-01", "2003-01-01", "2004-01-01"]), 1)),
        (f"make {REPEALED} force", "rows 4 cost 3"),
        (SET_BACK[4], at(law(5), "2004-01-01", 3)),
        ("same", "same 5"),
        ("rows 9999-12-31", "rows 4"),
    ],
}


def tabled(lines):
    """The status of `table_trial`, and the line that it writes of each of these."""
    with tempfile.TemporaryFile() as source, tempfile.TemporaryFile() as out:
        source.writelines(line.encode() + b"\n" for line in lines)
        source.seek(0)
        status = subprocess.run([TABLES], stdin=source, stdout=out, timeout=120).returncode
        out.seek(0)
        return status, out.read().decode().split("\n")[:-1]


def made_and_revised():
    """Tables that are made, and revised with each command."""
    for name, lines in SESSIONS.items():
        status, got = tabled(line for line, _ in lines)
        check(f"{name}: the status, and how many lines", (status, len(got)), (0, len(lines)))
        for number, ((line, want), line_got) in enumerate(zip(lines, got), 1):
            check(f"{name}, line {number}, {line[:60]}", line_got, want)


def names_in_order(line, order):
    """Whether an answer names these ids, those applied and those unapplied each in their order."""
    if line == '{"kept":"2010-05-01","name":"NotYetEnacted","query":3}':
        return True
    answer = json.loads(line)
    applied, unapplied = answer["applied"], [entry["id"] for entry in answer["unapplied"]]
    return applied == [id for id in order if id not in unapplied] and unapplied == [id for id in order if id not in applied]


def random_histories(seed=None, count=table_histories.HISTORIES):
    """After each command of random histories the table gives what a replay gives about each breakpoint, in both readings; the touched day,
    the cost, the rows and the ids that bear are those that are reckoned here."""
    seed = time.time_ns() % 1_000_000_000 if seed is None else seed
    print(f"{count} histories of seed {seed}")
    for reading in ("force", "efficacy"):
        lines = table_histories.histories(seed, reading, count)
        status, got = tabled(line for line, _ in lines)
        name = f"histories of seed {seed}, {reading}"
        check(f"{name}: the status, and how many lines", (status, len(got)), (0, len(lines)))
        wrong = [(line, line_got, want) for (line, want), line_got in zip(lines, got)
                 if not (names_in_order(line_got, want) if isinstance(want, list) else line_got == want)]
        check(f"{name}: {len(lines)} lines", wrong[:1], [])
        pairs = [(line, got[k], got[k + 1]) for k, (line, _) in enumerate(lines) if line.startswith("at ")]
        check(f"{name}: {len(pairs)} answers by the table and by a replay", [pair for pair in pairs if pair[1] != pair[2]][:1], [])


def ends():
    """An input of nothing, one without a last line feed, and streams that fail."""
    for given, want in [(b"", b""), (b"same", b"no table\n"), (b"\xff", b"no such line\n")]:
        done = subprocess.run([TABLES], input=given, stdout=subprocess.PIPE, timeout=60)
        check(f"a table is given {given}", (done.returncode, done.stdout), (0, want))
    check("a table over a full device", to_a_full_device([TABLES], b"same\n") != 0, True)
    check("a table over a folder as standard input", over_a_folder([TABLES])[0] != 0, True)
