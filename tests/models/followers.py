"""What a follower makes of frames and what is written of it, reckoned anew from the rules of docs/PROTOCOL.md; and lists of payloads of
legal registers, by which a leader is grown."""
from models import entry_bytes
from models.journal_openings import ENTRIES

REFUSALS = {1: "BadFrame", 2: "Conflict", 3: "BadEntry", 4: "NotAccepted"}
LARGEST = 1 << 24


def frame(number, payload, mark=b"\x4c", size=None):
    """A frame; the size is that of the payload, or another."""
    return mark + number.to_bytes(8, "big") + (len(payload) if size is None else size).to_bytes(4, "big") + payload


def framed(payloads, above=0):
    """The frames of all payloads whose numbers are above this one."""
    return b"".join(frame(number, payload) for number, payload in enumerate(payloads, 1) if number > above)


def counted(length, added=0, known=0, gaps=0):
    """How a run ends that took the input to its end: its status and what it writes."""
    return 0, f"length {length} added {added} known {known} gaps {gaps}\n".encode()


def refused(rule, number):
    """How a run ends that refuses a frame."""
    return 12, f'{{"follow":{rule},"name":"{REFUSALS[rule]}","number":{number}}}\n'.encode()


def taken(held, messages):
    """What a follower that holds so many of its leader's payloads makes of messages of that leader, by their numbers: how many it then holds,
    and how the run ends."""
    added = known = gaps = 0
    for number in messages:
        if number == held + 1:
            held, added = held + 1, added + 1
        elif number <= held:
            known += 1
        else:
            gaps += 1
    return held, counted(held, added, known, gaps)


def dated(payload, day):
    """An entry without its day, with one."""
    place = 2 + payload[1] + 8
    return payload[:place] + day.to_bytes(4, "big") + payload[place:]


# The payloads of a long legal register, of all eight commands.
LONG = [dated(payload, 734_138 + place) for place, payload in enumerate(ENTRIES)]


def of(parts, law, request, name="ada", day=734_258, format_=1):
    return entry_bytes.spelled(entry_bytes.entry(parts, law, request, name, day, format_))


def enacted(iri=entry_bytes.WORK, law=1, request=1, nodes=None, limit=None, **rest):
    return of(entry_bytes.command(1, entry_bytes.act(entry_bytes.THREE if nodes is None else nodes, iri, limit=limit)), law, request, **rest)


def recorded(wid="sec_3", law=2, request=2, place=1, iri=entry_bytes.WORK, names=None, **rest):
    mods = entry_bytes.listed("modifications", [entry_bytes.repealed(wid, place, names)])
    return of(entry_bytes.command(2, entry_bytes.work("work", iri), mods), law, request, **rest)


def corrected(law=3, request=3, of_law=2, **rest):
    return of(entry_bytes.command(3, entry_bytes.id_("id", of_law, 1), entry_bytes.repealed("sec_2")), law, request, **rest)


def withdrawn(law=3, request=3, of_law=2, **rest):
    return of(entry_bytes.command(4, entry_bytes.id_("id", of_law, 1)), law, request, **rest)


def filed(law, request, seen, **rest):
    return of(entry_bytes.command(8, entry_bytes.work("work"), entry_bytes.u32("seen", seen)), law, request, **rest)


def acts(count):
    """The payloads of a register of so many acts."""
    return [enacted(f"/akn/gb/act/2010-05-01/{number}", number, number) for number in range(1, count + 1)]


# How many frames `follow` gives its register together, at most.
TOGETHER = 256

# Short registers: an act, a repeal and its correction; another act; and a wide act, a repeal by a provision and its correction to one by none.
ONE = [enacted(), recorded(), corrected()]
BOTH = [enacted(limit=8192, format_=2), recorded(names="sec_9", format_=2), corrected()]
OTHER = [enacted("/akn/gb/act/2010-05-01/8")]
