"""Sessions of a desk over a keeper that fails: lines that `desk_trial` is given, each with the line that it is to write, and the two lines
that it writes at the end: what is kept, and what an opening says of it. What is expected is reckoned here from docs/DESK.md,
docs/REFUSALS.md and docs/ENTRY.md: what a fault leaves, and what the next command makes of it.

The keeper counts its calls from 1. To open it with no payload takes two, of which the second finds that there is none; so the k-th append
is call k + 2, where none has failed before. Each payload that it is given at first takes two more.
"""
from models import entry_bytes
from rows import dossiers
from rows.register import SECTIONS, add, again, draft, enact, front, law, record, refused, withdraw

FAULT = '{"fault":"keeper"}'
DAMAGE = '{"byte":null,"damaged":"journal","place":0}'
FIRST_APPEND = 3
COMMANDS = 41


def opened(count, laws=None):
    return f"entries {count} law {count if laws is None else laws}"


def kept(*payloads):
    return " ".join(["kept", *(data.hex() for data in payloads)])


def open_line(failing=(), days=(), payloads=()):
    words = [",".join(str(n) for n in failing), ",".join(days), ",".join(data.hex() for data in payloads)]
    return "open " + " ".join(word or "-" for word in words)


def damage_line(failing):
    """The first line of a keeper that tells damage in the place of each failure once it was opened."""
    return "damage" + open_line(failing)[4:]


def keep_line(failing=()):
    """The first line of a keeper that keeps the payload of an append that fails."""
    return "keep" + open_line(failing)[4:]


def of_entry(parts, law_number, request, name="ada", day=1, format_=1):
    return entry_bytes.spelled(entry_bytes.entry(parts, law_number, request, name, day, format_))


ENACT = entry_bytes.command(1, entry_bytes.act(entry_bytes.THREE))


def recorded(wid="sec_1", place=1, names=None):
    return entry_bytes.command(2, entry_bytes.work("work"), entry_bytes.listed("modifications", [entry_bytes.repealed(wid, place, names)]))


def command_line(k, request=None):
    """The k-th command of a session: an act, and then a record a time."""
    return enact("ada", request or k, body=SECTIONS) if k == 1 else record("ada", request or k, dossiers.repeal("sec_1", place=k))


def payload(k, number=None, request=None):
    """The entry that it becomes."""
    return of_entry(ENACT if k == 1 else recorded(place=k), number or k, request or k)


def accepted(first, last):
    return [(command_line(k), law(k)) for k in range(first, last + 1)]


def stands(count, *marks):
    """So many entries are there, and these commands have left a mark; `marks` are pairs of a request and the entries that stood."""
    told = "marks" + "".join(f" ada {request} {entries_then}" for request, entries_then in marks)
    return [front(count, count), ("marks", told)]


def closing(count):
    """All other commands, and the repeat of some."""
    return accepted(count + 1, COMMANDS) + [(command_line(k), again(law(k))) for k in (1, count, COMMANDS)] + [front(COMMANDS, COMMANDS)]


ALL = [kept(*(payload(k) for k in range(1, COMMANDS + 1))), opened(COMMANDS)]


def failing_once(k):
    """The append of the k-th command fails, and the command is sent again."""
    return ([(open_line([FIRST_APPEND + k - 1]), opened(0))] + accepted(1, k - 1) + [(command_line(k), FAULT)] + stands(k - 1, (k, k - 1))
            + [(command_line(k), law(k))] + stands(k, (k, k - 1)) + closing(k)), ALL


def failing_twice(k, second):
    """The append of the k-th command fails, and then the second of the calls behind it: the opening that finds out what was kept (1), its
    look at the end of the list (2), or the next append (3)."""
    calls = [FIRST_APPEND + k - 1, FIRST_APPEND + k - 1 + second]
    return ([(open_line(calls), opened(0))] + accepted(1, k - 1) + [(command_line(k), FAULT), (command_line(k), FAULT)]
            + stands(k - 1, (k, k - 1), (k, k - 1)) + [(command_line(k), law(k))] + stands(k, (k, k - 1), (k, k - 1)) + closing(k)), ALL


def another_first(k):
    """The append of the k-th command fails, and another command comes before it is sent again, which finds that it was not kept."""
    lines = ([(open_line([FIRST_APPEND + k - 1]), opened(0))] + accepted(1, k - 1) + [(command_line(k), FAULT)]
             + [(command_line(k + 1, k + 100), law(k)), front(k, k), (command_line(k), law(k + 1)), front(k + 1, k + 1),
                ("marks", f"marks ada {k} {k - 1}")])
    return lines, [kept(*(payload(j) for j in range(1, k)), payload(k + 1, k, k + 100), payload(k, k + 1)), opened(k + 1)]


# What an opening says of payloads: the example of docs/ENTRY.md is a withdrawal of an id that is not recorded.
EXAMPLE = bytes.fromhex("01036164610000000000000005000b34320000000404000000020001")
CAPITAL = EXAMPLE[:2] + b"A" + EXAMPLE[3:]
ENACTED = payload(1)
RECORDED = of_entry(recorded("sec_3"), 2, 2)
DRAFTED = entry_bytes.command(6, entry_bytes.work("work"), entry_bytes.repealed("sec_1"))
WIDE = of_entry(entry_bytes.command(1, entry_bytes.act(entry_bytes.THREE, limit=8192)), 1, 1, format_=2)
BY_PROVISION = of_entry(recorded("sec_1", names="sec_9"), 3, 3, format_=2)
NEEDLESS = of_entry(recorded("sec_3", names=""), 2, 2, format_=2)


def of_sections(count):
    return entry_bytes.command(1, entry_bytes.act([entry_bytes.node(str(k)) for k in range(1, count + 1)], limit=8192))


DAMAGES = [
    ("a capital in a name", [CAPITAL], '{"byte":65,"damaged":"entry","number":1,"place":2}'),
    ("a withdrawal of nothing", [EXAMPLE], '{"damaged":"order","number":1,"rule":8}'),
    ("one entry", [ENACTED], opened(1)),
    ("two entries", [ENACTED, RECORDED], opened(2)),
    ("a draft entry", [ENACTED, of_entry(DRAFTED, 0, 2)], opened(2, 1)),
    ("an entry twice", [ENACTED, ENACTED], '{"damaged":"order","number":2,"rule":1}'),
    ("a request number used again", [ENACTED, of_entry(recorded("sec_3"), 2, 1)], '{"damaged":"order","number":2,"rule":1}'),
    ("a work enacted again", [ENACTED, of_entry(ENACT, 2, 2)], '{"damaged":"order","number":2,"rule":4}'),
    ("a law number left out", [ENACTED, of_entry(recorded("sec_3"), 3, 2)], '{"damaged":"order","number":2,"rule":0}'),
    ("a law entry with no number", [of_entry(ENACT, 0, 1)], '{"damaged":"order","number":1,"rule":0}'),
    ("a draft entry with a number", [ENACTED, of_entry(DRAFTED, 2, 2)], '{"damaged":"order","number":2,"rule":0}'),
    ("a record of no work", [of_entry(recorded("sec_3"), 1, 1)], '{"damaged":"order","number":1,"rule":3}'),
    ("a front of an entry", [ENACTED, RECORDED[:-1]],
     f'{{"byte":{RECORDED[-5]},"damaged":"entry","number":2,"place":{len(RECORDED) - 5}}}'),
    ("a byte left over", [ENACTED + b"\x07"], f'{{"byte":7,"damaged":"entry","number":1,"place":{len(ENACTED)}}}'),
    ("the first of two damages", [EXAMPLE, CAPITAL], '{"damaged":"order","number":1,"rule":8}'),
    ("a wide act, and an entry of each format", [WIDE, RECORDED, BY_PROVISION], opened(3)),
    ("the second format without need", [b"\x02" + EXAMPLE[1:]], '{"byte":2,"damaged":"entry","number":1,"place":0}'),
    ("the second format without need, behind others", [ENACTED, NEEDLESS], '{"byte":2,"damaged":"entry","number":2,"place":0}'),
    ("a front of an entry in the second format", [ENACTED, BY_PROVISION[:-1]],
     f'{{"byte":{BY_PROVISION[-5]},"damaged":"entry","number":2,"place":{len(BY_PROVISION) - 5}}}'),
    ("an act of 8,193 sections", [of_entry(of_sections(8193), 1, 1, format_=2)], '{"damaged":"order","number":1,"rule":5}'),
    ("an act of 8,192 sections", [of_entry(of_sections(8192), 1, 1, format_=2)], opened(1)),
    ("a third format", [b"\x03" + EXAMPLE[1:]], '{"byte":3,"damaged":"entry","number":1,"place":0}'),
]


def damages():
    """What an opening says of each list of payloads, and what it says again; the payloads stay."""
    for name, payloads, want in DAMAGES:
        yield "opening " + name, ([(open_line(payloads=payloads), want)], [kept(*payloads), want])


# The day of an entry is the one that the clock gives once it is known what became of an older one: no day is asked for by a command that
# fails before. 2011-05-01 is 734258.
DAYS = ("2011-05-01", "2011-05-02", "2011-05-03", "2011-05-04", "2011-05-05")
SECOND_DAY, FIFTH_DAY = of_entry(ENACT, 1, 1, day=734259), of_entry(recorded("sec_3"), 2, 3, day=734262)
CLOCK = ([
    (open_line([FIRST_APPEND, FIRST_APPEND + 1], DAYS), opened(0)),
    (command_line(1), FAULT),
    (command_line(1), FAULT),
    (command_line(1), law(1)),
    ("bytes 1", entry_bytes.taken(SECOND_DAY)),
    (command_line(1), again(law(1))),
    (withdraw("ada", 2, "9.9"), refused(8, "9.9")),
    (record("ada", 3, dossiers.repeal("sec_3")), law(2)),
    ("bytes 2", entry_bytes.taken(FIFTH_DAY)),
], [kept(SECOND_DAY, FIFTH_DAY), opened(2)])

# Each entry of a register, of all eight commands and in both formats, is read from its bytes, and its command sent again: a repeat is one whose
# values are all equal.
SPELLED = [bytes.fromhex(want[6:]) for given, want in entry_bytes.SPELLED if given.startswith("bytes ") and want.startswith("entry ")]
SENT = [(given, again(want)) for given, want in entry_bytes.SPELLED if given.startswith("{") and want.startswith(('{"law"', '{"draft"'))]
READ = [(open_line(payloads=SPELLED), opened(16, 11)), *SENT, *((f"bytes {k}", entry_bytes.taken(data)) for k, data in enumerate(SPELLED, 1)),
        (record("ada", 1, dossiers.repeal("sec_1")), refused(1, 1)), front(11, 16)]

SESSIONS = {
    "an append that fails": ([(open_line([FIRST_APPEND]), opened(0)), (command_line(1), FAULT), front(0, 0), (command_line(1), law(1)),
                              (command_line(1), again(law(1))), front(1, 1)], [kept(ENACTED), opened(1)]),
    "an append that fails, and is kept": ([
        (keep_line([FIRST_APPEND]), opened(0)), (command_line(1), FAULT), front(0, 0), (command_line(1), law(1)), (command_line(1), again(law(1))),
        front(1, 1)], [kept(ENACTED), opened(1)]),
    "what a failed append kept, found by another command": ([
        (keep_line([FIRST_APPEND + 1]), opened(0)), (command_line(1), law(1)), (command_line(2), FAULT), front(1, 1), (command_line(3), law(3)),
        (command_line(2), again(law(2))), front(3, 3), ("marks", "marks ada 2 1")], [kept(payload(1), payload(2), payload(3)), opened(3)]),
    "what a failed append kept, found at the end": ([(keep_line([FIRST_APPEND]), opened(0)), (command_line(1), FAULT), front(0, 0)],
                                                    [kept(ENACTED), opened(1)]),
    "damage that a second opening finds": ([
        (damage_line([FIRST_APPEND, FIRST_APPEND + 1]), opened(0)), (command_line(1), FAULT), (command_line(1), FAULT), *stands(0, (1, 0), (1, 0)),
        (command_line(1), law(1)), (command_line(1), again(law(1))), front(1, 1)], [kept(ENACTED), opened(1)]),
    "damage of a payload that is found behind a second opening": ([
        (damage_line([FIRST_APPEND, FIRST_APPEND + 2]), opened(0)), (command_line(1), FAULT), (command_line(2, 9), FAULT), *stands(0, (1, 0), (9, 0)),
        (command_line(1), law(1)), front(1, 1)], [kept(ENACTED), opened(1)]),
    "damage behind the first opening": ([(damage_line([2]), DAMAGE)], [kept(), opened(0)]),
    "a first opening that fails": ([(damage_line([1]), FAULT)], [kept(), opened(0)]),
    "damage at the end": ([(damage_line([3, 5]), opened(0)), front(0, 0)], [FAULT, DAMAGE]),
    "an opening that fails": ([(open_line([1]), FAULT)], [kept(), opened(0)]),
    "a load that fails": ([(open_line([2]), FAULT)], [kept(), opened(0)]),
    "a load that fails behind a payload": ([(open_line([5], payloads=[ENACTED]), FAULT)], [kept(ENACTED), opened(1)]),
    "an end that fails": ([(open_line([3]), opened(0)), front(0, 0)], [FAULT, opened(0)]),
    "the day of an entry": CLOCK,
    "what is kept is what was accepted": ([
        (open_line(payloads=[ENACTED]), opened(1)), (record("ada", 2, dossiers.repeal("sec_3")), law(2)),
        (add("ada", 3, dossiers.repeal("sec_1")), draft(1)), (withdraw("ada", 4, "9.9"), refused(8, "9.9"))],
        [kept(ENACTED, RECORDED, of_entry(DRAFTED, 0, 3)), opened(3, 2)]),
    "entries that are read": (READ, [kept(*SPELLED), opened(16, 11)]),
    "a walk": ([("walk - - " + ",".join(data.hex() for data in (ENACTED, CAPITAL)), "payloads 2")], []),
    "payloads that are entries": ([("read - - " + ",".join(data.hex() for data in (ENACTED, CAPITAL)), "entries 1")], []),
}
SESSIONS.update(damages())
SESSIONS.update({f"the first line {line}": ([(line, "no such line"), front(0, 0)], []) for line in (
    "open", "open -", "open - -", "open x - -", "open - 2011-13-01 -", "open - - 0", "keep", "keep x - -", "damage", "damage x - -", "walk",
    "reopen")})
SESSIONS.update({f"append {k} fails": failing_once(k) for k in range(1, 41)})
SESSIONS.update({f"append {k} fails, and call {s} behind it": failing_twice(k, s) for k in (1, 2, 40) for s in (1, 2, 3)})
SESSIONS.update({f"append {k} fails, and another command comes": another_first(k) for k in (2, 7)})
