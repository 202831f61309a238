"""Streams of requests with the entries that they make, and what an opening makes of a journal file, reckoned from docs/JOURNAL.md."""
import os

from devices.journal_file import JOURNAL, MAGIC, called, kept
from models import entry_bytes
from rows import dossiers, histories
from rows.register import SECTIONS, TWO, add, correct, draft, drop, enact, file, law, record, restore, withdraw

KEEPER_FAILED = b'HTTP/1.1 503 Service Unavailable\r\nContent-Length: 18\r\nContent-Type: application/json\r\n\r\n{"fault":"keeper"}'


def undated(payload):
    """An entry without its day, which stands behind its format, the drafter's name and the request."""
    place = 2 + payload[1] + 8
    return payload[:place] + payload[place + 4:]


def of_law(payload):
    """Whether an entry without its day is a law entry."""
    return payload[2 + payload[1] + 8:][:4] != bytes(4)


class Stream:
    """Requests in their order. A row is what is sent, the response that is to come, and the entry that it makes, without its day, or none."""

    def __init__(self):
        self.rows, self.laws, self.used = [], 0, {}

    def accepted(self, make, parts, drafter="ada", item=None, format_=1):
        """A command under the drafter's next number that becomes a law entry, or one of a draft with this reply."""
        request = self.used[drafter] = self.used.get(drafter, 0) + 1
        self.laws += item is None
        payload = entry_bytes.spelled(entry_bytes.entry(parts, 0 if item else self.laws, request, drafter, format_=format_))
        reply = draft(item) if item else law(self.laws)
        self.rows.append((*histories.accepted(make(drafter, request), reply), undated(payload)))

    def again(self):
        """The same command, which gets its first reply."""
        self.rows.append((*self.rows[-1][:2], None))

    def broken(self, line, rule, kept):
        self.rows.append((*histories.broken(line, rule, kept), None))

    def asked(self, *rows):
        """Requests that make no entry, each with its response."""
        self.rows.extend((given, wanted, None) for given, wanted in rows)


def a_round(stream, drafter, place):
    """A modification from its record to its restoring, which is corrected to one of a provision, and a draft of three items of which one is dropped,
    one of a provision."""
    stream.accepted(lambda who, n: record(who, n, dossiers.repeal("sec_1", place=place)),
                    entry_bytes.command(2, entry_bytes.work("work"), entry_bytes.listed("modifications", [entry_bytes.repealed("sec_1", place)])))
    number = stream.laws
    by_id = entry_bytes.id_("id", number, 1)
    stream.accepted(lambda who, n: correct(who, n, f"{number}.1", dossiers.repeal("sec_2", place=place, provision="sec_9")),
                    entry_bytes.command(3, by_id, entry_bytes.repealed("sec_2", place, "sec_9")), format_=2)
    stream.accepted(lambda who, n: withdraw(who, n, f"{number}.1"), entry_bytes.command(4, by_id))
    stream.again()
    stream.broken(withdraw("ada", 1000, f"{number}.1"), 9, stream.laws)
    stream.accepted(lambda who, n: restore(who, n, f"{number}.1"), entry_bytes.command(5, by_id))
    item = entry_bytes.command(6, entry_bytes.work("work"), entry_bytes.repealed("sec_3", place))
    by_provision = entry_bytes.command(6, entry_bytes.work("work"), entry_bytes.repealed("sec_3", place, "sec_9"))
    stream.accepted(lambda who, n: add(who, n, dossiers.repeal("sec_3", place=place)), item, drafter, 1)
    stream.accepted(lambda who, n: drop(who, n, 1), entry_bytes.command(7, entry_bytes.u32("item", 1)), drafter, 1)
    stream.accepted(lambda who, n: add(who, n, dossiers.repeal("sec_3", place=place, provision="sec_9")), by_provision, drafter, 2, 2)
    stream.again()
    seen = stream.laws
    stream.accepted(lambda who, n: file(who, n, seen), entry_bytes.command(8, entry_bytes.work("work"), entry_bytes.u32("seen", seen)), drafter)


def sixty():
    """Sixty commands, of which 43 are accepted, in both formats: one, of a wide act, makes a record of more than 64 KiB."""
    stream = Stream()
    stream.accepted(lambda who, n: enact(who, n, body=SECTIONS), entry_bytes.command(1, entry_bytes.act(entry_bytes.THREE)))
    stream.broken(withdraw("ada", 1, "9.9"), 1, 1)
    for place, drafter in enumerate(("bob", "cyd", "dan", "eve", "fay"), 1):
        a_round(stream, drafter, place)
    large = "c" * 16_000
    nodes = [entry_bytes.node(str(k), content=large) for k in range(1, 6)]
    stream.accepted(lambda who, n: enact(who, n, TWO, body=dossiers.sections(5, large), nodeLimit=8192),
                    entry_bytes.command(1, entry_bytes.act(nodes, TWO, limit=8192)), format_=2)
    stream.broken(enact("ada", 1000, TWO), 4, stream.laws)
    stream.accepted(lambda who, n: record(who, n, dossiers.repeal("sec_1")),
                    entry_bytes.command(2, entry_bytes.work("work"), entry_bytes.listed("modifications", [entry_bytes.repealed("sec_1")])))
    return stream.rows


def entries(rows):
    """The entries that a stream makes."""
    return [payload for _, _, payload in rows if payload]


ROWS = sixty()
ENTRIES = entries(ROWS)


def gates(data):
    """The places of all gates of a file; the last one is closed. None where it is damaged."""
    if len(data) <= 9:
        return [8]
    if data[:8] != MAGIC:
        return None
    places = [8]
    while places[-1] < len(data) and data[places[-1]] == 1:
        size = int.from_bytes(data[places[-1] + 1:places[-1] + 5], "big")
        if not 1 <= size <= 1 << 24:
            return None
        places.append(places[-1] + 5 + size)
    return places if places[-1] < len(data) else None


def payloads(data):
    """The payloads of a file, or None where it is damaged."""
    places = gates(data)
    return places and [data[place + 5:behind] for place, behind in zip(places, places[1:])]


def told(count, rows=ROWS):
    """What `check` says of the first entries of a stream."""
    return 0, f"entries {count} law {sum(map(of_law, entries(rows)[:count]))}\n".encode()


def entered(answered, rows=ROWS):
    """How many entries the first requests of a stream have made."""
    return sum(payload is not None for _, _, payload in rows[:answered])


def faults_of_a_front(folder, answered, rows=ROWS, more=1):
    """What is wrong about a journal where so many requests had been answered: it has to hold the entries of all of them, and perhaps that of
    the next one, or of none where there is to be no more; and nothing else."""
    data = kept(folder)
    said = called(folder, "check")
    found = payloads(kept(folder) or b"")
    if found is None:
        return [("damaged", said, data)]
    found = list(map(undated, found))
    wrong = []
    allowed = {entered(answered, rows), entered(answered + more, rows)}
    if len(found) not in allowed or found != entries(rows)[:len(found)]:
        wrong.append(("entries", len(found), "and not", allowed))
    if said != told(len(found), rows):
        wrong.append(("check", said, "and not", told(len(found), rows)))
    return wrong


def faults_of_the_rest(folder, answered, rows=ROWS):
    """What is wrong about the requests that were not answered, sent again from the first of them: each acts once, and all entries are there."""
    given, wanted = (b"".join(parts) for parts in list(zip(*rows[answered:]))[:2]) if answered < len(rows) else (b"", b"")
    got = called(folder, "batch", given)
    wrong = [] if got == (0, wanted) else [("sent again", got, "and not", wanted)]
    found = payloads(kept(folder) or b"")
    if found is None or list(map(undated, found)) != entries(rows):
        wrong.append(("entries in the end", found and len(found), "and not", len(entries(rows))))
    if os.listdir(folder) != [JOURNAL]:
        wrong.append(("files", os.listdir(folder)))
    return wrong
