"""Sessions of a desk over a keeper each of whose calls fails in turn, alone or with all behind it, and that keeps what the failed append brought
or not, or tells damage in the place of each failure once it was opened. What a line is to write is reckoned here, from docs/DESK.md and
docs/MODEL.md alone, and so is what is kept at the end.

Who sends the lines sends a command again, at most so often, while it is answered by a fault; so each command acts once.
"""
import json

from models import entry_bytes
from rows import dossiers, register
from rows.register import ONE, again, draft, law, refused

FAULT = '{"fault":"keeper"}'
DAMAGE = '{"byte":null,"damaged":"journal","place":0}'
MANNERS = {"open": "not kept", "keep": "kept", "damage": "not kept, and damage is told"}
UNKNOWN = f'{{"kept":"{ONE}","name":"UnknownWork","query":1}}'
DAY = "2011-02-01"
SECTIONS = 40


class Failed(Exception):
    """A call of the keeper failed."""


class Keeper:
    """Payloads in memory. Each call from a number on fails, or that call alone; a failed append keeps its payload all the same, or does not."""

    def __init__(self, first, goes_on, keeps):
        self.payloads, self.made, self.first, self.goes_on, self.keeps = [], 0, first, goes_on, keeps
        self.failed = []

    def call(self):
        self.made += 1
        if self.made == self.first or self.goes_on and self.made > self.first:
            self.failed.append(self.made)
            raise Failed

    def open(self):
        """An opening, and a walk over the list to its end."""
        for _ in range(len(self.payloads) + 2):
            self.call()

    def look(self, place):
        """An opening again, and the payload at a place, or none at the end."""
        self.call()
        self.call()
        return self.payloads[place] if place < len(self.payloads) else None

    def append(self, payload):
        try:
            self.call()
        except Failed:
            self.payloads += [payload] * self.keeps
            raise
        self.payloads.append(payload)


class Register:
    """What a register knows: an act of many sections, and repeals of some of them."""

    def __init__(self):
        self.entries, self.laws, self.items, self.mods, self.drafted = [], 0, 0, {}, {}

    def enter(self, step):
        """Takes a command, and gives its reply."""
        word, *rest = step.change
        self.entries.append(step.request)
        if word in ("add", "drop"):
            return draft(self.change_draft(word, *rest))
        self.laws += 1
        if word == "record":
            self.mods[f"{self.laws}.1"] = [(self.laws, rest[0])]
        elif word == "file":
            for place, section in enumerate(self.drafted.values(), 1):
                self.mods[f"{self.laws}.{place}"] = [(self.laws, section)]
            self.drafted = {}
        elif word != "enact":
            self.mods[rest[0]].append((self.laws, rest[1]))
        return law(self.laws)

    def change_draft(self, word, value):
        if word == "drop":
            del self.drafted[value]
            return value
        self.items += 1
        self.drafted[self.items] = value
        return self.items

    def applied(self, viewpoint):
        """The ids of the repeals that bear at a viewpoint, with their sections; one that is withdrawn has none."""
        known = {id: [section for number, section in said if number <= viewpoint][-1:] for id, said in self.mods.items()}
        return [(id, found[0]) for id, found in known.items() if found and found[0]]

    def answer(self, viewpoint, more=()):
        """The line of an answer, with a draft's repeals behind the others."""
        applied = [*self.applied(viewpoint), *((f"{viewpoint}.{place}", section) for place, section in enumerate(more, 1))]
        gone = {section for _, section in applied}
        body = ",".join(printed(number) for number in range(1, SECTIONS + 1) if f"sec_{number}" not in gone)
        ids = ",".join(f'"{id}"' for id, _ in applied)
        return register.answer(f"[{ids}]", body, DAY, viewpoint)

    def asked(self, viewpoint):
        if not self.laws:
            return UNKNOWN
        return self.answer(viewpoint) if viewpoint <= self.laws else f'{{"kept":{self.laws},"name":"ViewpointAhead","query":2}}'

    def previewed(self):
        if not self.laws:
            return UNKNOWN
        return self.answer(self.laws + 1, self.drafted.values()) if self.drafted else self.answer(self.laws)


def printed(number):
    return (f'{{"bears":true,"children":[],"content":"S{number}.","eId":"sec_{number}","element":"section","heading":"","num":"{number}",'
            '"refs":[]}')


class Step:
    """A line, and what it is: a command that is accepted, with what it changes and the fields of its entry; one that is refused, with its line;
    or a question, with what answers it."""

    def __init__(self, line, change=None, request=0, fields=None, line_refused=None, answers=None):
        self.line, self.change, self.request, self.fields = line, change, request, fields
        self.line_refused, self.answers = line_refused, answers


def command(request, line, change, *fields):
    return Step(line, change, request, fields)


def entry_of(step, laws, request):
    is_draft = step.change[0] in ("add", "drop")
    return entry_bytes.spelled(entry_bytes.entry(entry_bytes.command(*step.fields), 0 if is_draft else laws, request, "ada", 1))


def asked(viewpoint):
    return Step(register.ask(DAY, viewpoint), answers=lambda known: known.asked(viewpoint))


def previewed():
    return Step(f"preview ada {register.ask(DAY, 1, word='')[1:]}", answers=lambda known: known.previewed())


def stood():
    return Step("front", answers=lambda known: f"law {known.laws} entries {len(known.entries)}")


def rule(line, want):
    """A command that changes nothing: a rule refuses it, or it is a repeat."""
    return Step(line, None, json.loads(line)["request"], line_refused=want)


def recorded(request, number):
    mod = dossiers.repeal(f"sec_{number}")
    fields = entry_bytes.work("work"), entry_bytes.listed("modifications", [entry_bytes.repealed(f"sec_{number}")])
    return command(request, register.record("ada", request, mod), ("record", f"sec_{number}"), 2, *fields)


ENACT = command(1, register.enact("ada", 1, body=[dossiers.node(num=str(n), content=f"S{n}.") for n in range(1, SECTIONS + 1)]), ("enact",), 1,
                entry_bytes.act([entry_bytes.node(str(n), content=f"S{n}.") for n in range(1, SECTIONS + 1)]))
ID = entry_bytes.id_("id", 2, 1)
DRAFTED = entry_bytes.work("work"), entry_bytes.repealed("sec_1")
FILE = command(9, register.file("ada", 9, 5), ("file",), 8, entry_bytes.work("work"), entry_bytes.u32("seen", 5))
FIRST_THREE = [ENACT, recorded(2, 3), asked(2)]
# All commands, questions, a preview, a repeat, and a body that is none.
STREAM = [
    stood(), asked(1), previewed(), *FIRST_THREE,
    command(3, register.correct("ada", 3, "2.1", dossiers.repeal("sec_2")), ("correct", "2.1", "sec_2"), 3, ID, entry_bytes.repealed("sec_2")),
    asked(3),
    command(4, register.withdraw("ada", 4, "2.1"), ("withdraw", "2.1", None), 4, ID),
    rule(register.withdraw("ada", 20, "9.9"), refused(8, "9.9")),
    asked(4),
    command(5, register.restore("ada", 5, "2.1"), ("restore", "2.1", "sec_2"), 5, ID),
    command(6, register.add("ada", 6, dossiers.repeal("sec_1")), ("add", "sec_1"), 6, *DRAFTED),
    previewed(),
    command(7, register.drop("ada", 7, 1), ("drop", 1), 7, entry_bytes.u32("item", 1)),
    previewed(),
    command(8, register.add("ada", 8, dossiers.repeal("sec_1")), ("add", "sec_1"), 6, *DRAFTED),
    previewed(), FILE, previewed(),
    rule(FILE.line, again(law(6))),
    Step("{", answers=lambda known: dossiers.form(1).decode().rstrip("\n")),
    *(recorded(request, request) for request in range(21, 33)),
    stood(), asked(1), asked(6), asked(18), previewed(),
    rule(ENACT.line, again(law(1))),
    *(recorded(request, request) for request in range(33, 39)),
    asked(24), stood(),
]


class Desk:
    """A desk over a keeper, as docs/DESK.md has it."""

    def __init__(self, keeper):
        self.keeper, self.known, self.payloads, self.pending, self.marks, self.replies = keeper, Register(), [], None, [], {}

    def told(self, step):
        if step.answers:
            return step.answers(self.known)
        if step.line == "marks":
            return "marks" + "".join(f" ada {request} {count}" for request, count in self.marks)
        try:
            is_found = self.settle()
            return self.judged(step, is_found)
        except Failed:
            self.marks.append((step.request, len(self.payloads)))
            return FAULT

    def settle(self):
        """Finds out what became of the entry that is pending, and says whether it was kept."""
        if self.pending is None:
            return False
        step, payload = self.pending
        found = self.keeper.look(len(self.payloads))
        self.pending = None
        if found == payload:
            self.take(step, payload)
        return found == payload

    def judged(self, step, is_found):
        """The line of a command, which says that it is a repeat unless an entry was added in this call, one that was found counted, too."""
        if step.line_refused:
            return step.line_refused
        if step.request in self.replies:
            reply = self.replies[step.request]
            return reply if is_found else again(reply)
        payload = entry_of(step, self.known.laws + 1, step.request)
        self.pending = step, payload
        self.keeper.append(payload)
        self.pending = None
        return self.take(step, payload)

    def take(self, step, payload):
        self.payloads.append(payload)
        self.replies[step.request] = self.known.enter(step)
        return self.replies[step.request]


def opened(desk):
    return f"entries {len(desk.payloads)} law {desk.known.laws}"


def after_end(keeper, line, fault):
    try:
        keeper.open()
        return line
    except Failed:
        return fault


def lines_of(desk, steps, times):
    """The lines that are sent, with what is to be written of each: a command is sent again while a fault answers it, at most so often."""
    for step in steps:
        for _ in range(times):
            want = desk.told(step)
            yield step.line, want
            if want != FAULT:
                break
            for question in (stood(), Step("marks")):
                yield question.line, desk.told(question)


def kept_by(desk, keeper):
    """What an opening finds at the end."""
    known, payloads = desk.known, keeper.payloads
    if desk.pending is not None and len(payloads) > len(desk.payloads):
        known.enter(desk.pending[0])
    return "kept " + " ".join(data.hex() for data in payloads) if payloads else "kept", f"entries {len(payloads)} law {known.laws}"


def session(steps, first, goes_on, manner):
    """A session in which a call of the keeper fails, or each from that one on until all lines are sent: the lines, what is written at the end,
    and whether a call failed. What is opened later and fails is a fault all the same where damage is told; an opening of its own shows it."""
    keeper = Keeper(first, goes_on, manner == "keep")
    later = DAMAGE if manner == "damage" else FAULT
    desk = Desk(keeper)
    try:
        keeper.open()
        lines = [("", "entries 0 law 0"), *lines_of(desk, steps, 2 if goes_on else 3)]
    except Failed:
        lines = [("", FAULT if keeper.made == 1 else later), *((step.line, None) for step in steps)]
    keeper.goes_on = False
    kept, found = kept_by(desk, keeper)
    end = [after_end(keeper, kept, FAULT), after_end(keeper, found, later)]
    words = ",".join(str(number) for number in keeper.failed) or "-"
    lines[0] = f"{manner} {words} - -", lines[0][1]
    return lines, end, bool(keeper.failed)


def sessions():
    """Each call of the keeper until one is left that none of a session makes."""
    for name, steps in (("three requests", FIRST_THREE), ("a stream", STREAM)):
        for manner, told in MANNERS.items():
            for goes_on in (False, True):
                first, has_failed = 0, True
                while has_failed:
                    first += 1
                    lines, end, has_failed = session(steps, first, goes_on, manner)
                    how = f"{'with all later' if goes_on else 'alone'}, {told}"
                    yield f"{name}, call {first} of the keeper fails, {how}", lines, end
