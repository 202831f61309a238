"""Frames that a follower is sent, what it says of them and what it then holds: each field of a frame broken, frames cut at each byte, those of a
second leader, and payloads that no register takes at their place. What is wanted was written by hand, from docs/PROTOCOL.md and docs/RULES.md.

A row is (name, the payloads held before, what is sent, (the status and what is written), the payloads held afterwards).
"""
from models import entry_bytes
from models.failing_keepers import CAPITAL, EXAMPLE
from models.followers import BOTH, LARGEST, ONE, OTHER, TOGETHER
from models.followers import acts, corrected, counted, enacted, filed, frame, framed, recorded, refused, withdrawn

FIRST = frame(1, ONE[0])
# More acts than are added together, and fewer, of 128,000 bytes each, that are 2.4 MiB.
MANY = acts(2 * TOGETHER + 20)
WIDE = [enacted(f"/akn/gb/act/2010-05-01/{k}", k, k, [entry_bytes.node(str(n), content="a" * 16_000) for n in range(1, 9)]) for k in range(1, 21)]

# Frames of which none is refused.
TAKEN = [
    ("no frame", [], b"", counted(0), []),
    ("all frames", [], framed(ONE), counted(3, 3), ONE),
    ("all frames again", ONE, framed(ONE), counted(3, 0, 3), ONE),
    ("two frames of which the first is missing", [], framed(ONE, 1), counted(0, 0, 0, 2), []),
    ("the frames 1, 1, 3, 2", [], b"".join(frame(k, ONE[k - 1]) for k in (1, 1, 3, 2)), counted(2, 2, 1, 1), ONE[:2]),
    ("the third frame behind them", ONE[:2], frame(3, ONE[2]), counted(3, 1), ONE),
    ("each frame twice, the last first", [], b"".join(frame(k, ONE[k - 1]) for k in (3, 2, 1, 3, 2, 1)), counted(2, 2, 1, 3), ONE[:2]),
    ("the largest number", ONE[:1], frame((1 << 64) - 1, ONE[0]), counted(1, 0, 0, 1), ONE[:1]),
    ("numbers that are one and two past the next", ONE[:1], frame(3, ONE[1]) + frame(4, ONE[1]), counted(1, 0, 0, 2), ONE[:1]),
    ("a number whose low half is that of the next", ONE[:1], frame((1 << 32) + 2, ONE[1]), counted(1, 0, 0, 1), ONE[:1]),
    ("bytes that are no entry, past a gap", ONE[:1], frame(3, b"\x00") + frame(2, ONE[1]), counted(2, 1, 0, 1), ONE[:2]),
    ("frames of both formats", [], framed(BOTH), counted(3, 3), BOTH),
    ("frames of both formats again", BOTH, framed(BOTH), counted(3, 0, 3), BOTH),
    ("frames of the second format behind those of the first", ONE, frame(4, recorded("sec_1", 4, 4, names="a", format_=2)), counted(4, 1),
     [*ONE, recorded("sec_1", 4, 4, names="a", format_=2)]),
    ("more frames than are added together", [], framed(MANY), counted(len(MANY), len(MANY)), MANY),
    ("the last of them alone", MANY[:TOGETHER], framed(MANY), counted(len(MANY), len(MANY) - TOGETHER, TOGETHER), MANY),
    ("frames of more bytes than are added together", [], framed(WIDE), counted(len(WIDE), len(WIDE)), WIDE),
    ("a payload of the largest length, past a gap", [], frame(2, bytes(LARGEST)) + FIRST, counted(1, 1, 0, 1), ONE[:1]),
]

# Frames that are none, whatever stands behind them, and those whose payload is not there whole. A refusal tells the place in the stream, and not
# the number that stands in the frame.
NO_FRAMES = [
    *((f"the mark {mark:#04x}", frame(1, ONE[0], bytes([mark]))) for mark in (0x00, 0x01, 0x4b, 0x4d, 0x6c, 0xcc, 0xff)),
    ("the number 0", frame(0, ONE[0])),
    ("the length 0", frame(1, b"")),
    ("the length 0 and a payload", frame(1, ONE[0], size=0)),
    ("a length one past the largest", frame(1, ONE[0], size=LARGEST + 1)),
    ("a length one past the largest, and as many bytes", frame(1, bytes(LARGEST + 1))),
    ("the greatest length", frame(1, ONE[0], size=0xFFFF_FFFF)),
    ("a byte that is no mark", b"\n"),
]
NOT_WHOLE = [
    ("a length one more than there is", frame(1, ONE[0], size=len(ONE[0]) + 1)),
    ("the largest length and fewer bytes", frame(1, ONE[0], size=LARGEST)),
]


def of_no_frames():
    """Each of them alone, behind frames, and in front of one where it does not take that for its payload; and one behind many frames."""
    yield "no frame, behind more frames than are added together", [], framed(MANY) + b"\n", refused(1, len(MANY) + 1), MANY
    for name, given in NO_FRAMES:
        yield f"{name}, in front", [], given + FIRST, refused(1, 1), []
    for name, given in NO_FRAMES + NOT_WHOLE:
        yield f"{name}, alone", [], given, refused(1, 1), []
        yield f"{name}, behind a frame", [], FIRST + given, refused(1, 2), ONE[:1]
        yield f"{name}, behind one that is known and one past a gap", ONE[:1], FIRST + frame(3, ONE[2]) + given, refused(1, 3), ONE[:1]


def cut():
    """The first bytes of three frames, to each length."""
    stream, ends = framed(ONE), [len(framed(ONE[:k])) for k in range(4)]
    for size in range(len(stream)):
        whole = sum(end <= size for end in ends) - 1
        ended = counted(whole, whole) if size in ends else refused(1, whole + 1)
        yield f"{size} bytes of three frames", [], stream[:size], ended, ONE[:whole]


# What stands behind a frame that is refused is not read.
CONFLICTS = [
    ("another act under the number 1", ONE[:1], frame(1, OTHER[0]) + framed(ONE), refused(2, 1), ONE[:1]),
    ("another second entry", ONE, frame(3, ONE[2]) + frame(2, recorded("sec_1")) + framed(ONE), refused(2, 2), ONE),
    ("a second leader's frames", ONE[:2], frame(4, ONE[2]) + framed(OTHER), refused(2, 1), ONE[:2]),
    ("the same command on another day", ONE, frame(1, enacted(day=734_259)), refused(2, 1), ONE),
    ("a front of a known entry", ONE, frame(2, ONE[1][:-1]), refused(2, 2), ONE),
    ("a known entry and a byte", ONE, frame(2, ONE[1] + b"\x00"), refused(2, 2), ONE),
    ("the same act with another limit", ONE, frame(1, BOTH[0]), refused(2, 1), ONE),
    ("the same repeal by a provision", ONE, frame(2, BOTH[1]), refused(2, 2), ONE),
    ("bytes that are no entry, under a known number", ONE, frame(3, b"\x00"), refused(2, 3), ONE),
    ("a known entry under the number of another", ONE, frame(2, ONE[0]), refused(2, 2), ONE),
    ("another act, behind more frames than are added together", [], framed(MANY) + frame(TOGETHER, OTHER[0]), refused(2, TOGETHER), MANY),
    ("another act, of those that are not added yet", [], framed(MANY) + frame(len(MANY), OTHER[0]), refused(2, len(MANY)), MANY),
    ("a frame that was added by the same run", [], FIRST + frame(1, OTHER[0]) + frame(2, ONE[1]), refused(2, 1), ONE[:1]),
]
NOT_ENTRIES = [
    ("a byte", b"\x00"),
    ("a capital in a name", CAPITAL),
    ("an entry and a byte", ONE[1] + b"\x00"),
    ("an entry without its last byte", ONE[1][:-1]),
    ("another format", b"\x03" + ONE[1][1:]),
    ("the byte of the second format", b"\x02" + ONE[1][1:]),
    ("the second format without need", recorded(names="", format_=2)),
    ("the second format without its byte", b"\x01" + BOTH[1][1:]),
    ("the largest length", bytes(LARGEST)),
]
NOT_ACCEPTED = [
    ("a withdrawal of nothing", [], EXAMPLE, 1),
    ("a law number that is not the next", [], enacted(law=2), 1),
    ("an act without a law number", [], enacted(law=0), 1),
    ("a modification of an act that is not there", [], recorded(law=1), 1),
    ("the law number of the entry before", ONE[:1], recorded(law=1), 2),
    ("a request number that is used", ONE[:1], recorded(request=1), 2),
    ("an entry once more", ONE[:1], ONE[0], 2),
    ("the same command once more, as the next law entry", ONE[:1], enacted(law=2), 2),
    ("an act that is enacted", ONE[:1], enacted(law=2, request=2), 2),
    ("an entry whose predecessor is missing", ONE[:1], corrected(law=2, request=2), 2),
    ("an entry two past the last, as the next", ONE[:1], withdrawn(law=3), 2),
    ("a second withdrawal", ONE + [withdrawn(4, 4)], withdrawn(5, 5), 5),
    ("a filing of nothing", ONE[:1], filed(2, 2, 1), 2),
    ("a wide act that is enacted as a plain one was", ONE[:1], enacted(law=2, request=2, limit=8192, format_=2), 2),
    ("a tree with two sections 1", [], enacted(nodes=[entry_bytes.node("1"), entry_bytes.node("1")]), 1),
]


def of_payloads():
    """Payloads that are no entries, and entries that may not stand there. Frames stand before them and behind."""
    yield "a byte behind more frames than are added together", [], framed(MANY) + frame(len(MANY) + 1, b"\x00"), refused(3, len(MANY) + 1), MANY
    for name, payload in NOT_ENTRIES:
        yield name, ONE[:1], FIRST + frame(2, payload) + framed(ONE), refused(3, 2), ONE[:1]
    for name, held, payload, number in NOT_ACCEPTED:
        yield name, held, framed(held) + frame(number, payload) + framed(held + ONE), refused(4, number), held
        yield f"{name}, behind frames that are added", [], framed(held) + frame(number, payload), refused(4, number), held


def of_broken_fields():
    """An entry of each command with a field of it broken, every third of all ways, as the first frame."""
    for kind, fields in [*entry_bytes.ENTRIES.items(), *entry_bytes.SECOND.items()]:
        for name, line, _ in list(entry_bytes.broken(fields))[::3]:
            payload = bytes.fromhex(line.removeprefix("decode "))
            yield f"{kind}, {name}", [], frame(1, payload) + FIRST, refused(3, 1), []
