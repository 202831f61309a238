"""Each limit at its number and one past it, as a file that is the program's standard input; fronts of a dossier; and heads that contradict
themselves. `tests/limits FOLDER` leaves the files there. A row is (name, words, what the file has, status, what is written, or None where that is
an answer which other rows compare)."""
import json
import os
import subprocess

import checks
from checks import check
from clients.messages import closed, command, front, get, post, response
from rows import dossiers, refusals
from rows.dossiers import act, dossier, inserted, nested, node, refs, renumbered, repeal, sections, substituted
from rows.histories import ENACTED, accepted, broken
from rows.register import SECTIONS, add, draft, enact, law, record

TEXT, BATCH = ["text", "2010-05-01"], ["batch"]
LINE = json.dumps({"act": act(body=SECTIONS), "modifications": []}, separators=(",", ":")).encode()
STACK = 256


def answered(name, given):
    """A dossier that is answered."""
    return name, TEXT, given, 0, None


def refused(name, given, rule, kept):
    return name, TEXT, given, 9, dossiers.refused(rule, kept)


def no_dossier(name, given, rule=1, place=0):
    return name, TEXT, given, 10, dossiers.form(rule, place)


def stream(name, rows):
    """Requests that are answered to the last."""
    return name, BATCH, b"".join(given for given, _ in rows), 0, b"".join(wanted for _, wanted in rows)


def ending(name, given, number):
    """A request after which nothing is heard."""
    return name, BATCH, given + refusals.lines(), 1, closed(number)


def dossier_rows():
    yield answered("nodes 12 deep", dossier(act(body=nested(12))))
    yield refused("nodes 13 deep", dossier(act(body=nested(13))), 5, 2)
    yield refused("nodes 62 deep, 126 levels of JSON", dossier(act(body=nested(62))), 5, 2)
    yield no_dossier("nodes 63 deep, 128 levels of JSON", dossier(act(body=nested(63))))
    yield no_dossier("nodes 64 deep", dossier(act(body=nested(64))))
    yield no_dossier("a million lists one in another", b"[" * 1_000_000)
    yield no_dossier("a million objects one in another", b'{"act":' * 1_000_000)
    yield answered("4,096 nodes", dossier(act(body=sections(4096))))
    yield refused("4,097 nodes", dossier(act(body=sections(4097))), 5, 3)
    yield answered("8,192 nodes of a wide act", dossier(act(body=sections(8192), nodeLimit=8192)))
    yield refused("8,193 nodes of a wide act", dossier(act(body=sections(8193), nodeLimit=8192)), 5, 3)
    yield answered("4,096 nodes in a payload", dossier(act(nodeLimit=8192), [inserted([node("part", children=sections(4095))])]))
    yield refused("4,097 nodes in a payload", dossier(act(nodeLimit=8192), [inserted([node("part", children=sections(4096))])]), 5, 3)
    yield answered("a provision of 512 letters", dossier(mods=[repeal(provision="a" * 512)]))
    yield no_dossier("a provision of 513 letters", dossier(mods=[repeal(provision="a" * 513)]), 3, 1)
    yield answered("a content of 16,384 bytes", dossier(act(body=sections(1, "c" * 16_384))))
    yield refused("a content of 16,385 bytes", dossier(act(body=sections(1, "c" * 16_385))), 5, 4)
    yield answered("a heading of 16,384 bytes", dossier(act(body=[node(heading="h" * 16_384)])))
    yield refused("a heading of 16,385 bytes", dossier(act(body=[node(heading="h" * 16_385)])), 5, 4)
    yield answered("16 refs", dossier(act(body=refs(16))))
    yield refused("17 refs", dossier(act(body=refs(17))), 6, 0)
    yield answered("64 nodes side by side in a payload", dossier(mods=[inserted(sections(64))]))
    yield refused("65 nodes side by side in a payload", dossier(mods=[inserted(sections(65))]), 6, 1)
    yield answered("64 pairs of a renumbering", dossier(mods=[renumbered([f"sec_{k}" for k in range(64)])]))
    yield refused("65 pairs of a renumbering", dossier(mods=[renumbered([f"sec_{k}" for k in range(65)])]), 6, 1)
    yield answered("a text of 16,384 bytes", dossier(mods=[substituted("n" * 16_384, old="o")]))
    yield refused("a text of 16,385 bytes", dossier(mods=[substituted("n" * 16_385, old="o")]), 6, 1)
    yield answered("512 ids of a dossier", dossier(mods=[repeal()] * 512))
    yield refused("513 ids of a dossier", dossier(mods=[repeal()] * 513), 15, 512)
    yield answered("a dossier of 8,388,608 bytes", dossiers.padded(dossiers.LIMIT))
    yield no_dossier("a dossier of 8,388,609 bytes", dossiers.padded(dossiers.LIMIT + 1), 9)


def register_rows():
    """What a register takes: ids of a work, items of a draft, drafters, items of a record."""
    recorded = [accepted(record("ada", 2 + k, *[repeal()] * 64), law(2 + k)) for k in range(8)]
    yield stream("512 ids of a work", [accepted(ENACTED, law(1)), *recorded])
    yield stream("513 ids of a work", [accepted(ENACTED, law(1)), *recorded, broken(record("ada", 10, repeal()), 15, 512)])
    yield stream("65 modifications of a record", [accepted(ENACTED, law(1)), broken(record("ada", 2, *[repeal()] * 65), 6, 0)])
    added = [accepted(add("ada", 2 + k), draft(k + 1)) for k in range(64)]
    yield stream("64 items of a draft", [accepted(ENACTED, law(1)), *added])
    yield stream("65 items of a draft", [accepted(ENACTED, law(1)), *added, broken(add("ada", 66), 14, 64)])
    crowd = [accepted(add(f"d{k}", 1), draft(1)) for k in range(1, 256)]
    yield stream("256 drafters", [accepted(enact("d0", 1), law(1)), *crowd])
    yield stream("257 drafters", [accepted(enact("d0", 1), law(1)), *crowd, broken(add("d256", 1), 2, 256)])


def request_rows():
    limit = refusals.LIMIT
    yield stream("a head of 16,384 bytes", [(refusals.of_length(refusals.HEAD), front(0))])
    yield ending("a head of 16,385 bytes", refusals.of_length(refusals.HEAD + 1), 2)
    yield stream("64 fields", [(refusals.fields(64), front(0))])
    yield ending("65 fields", refusals.fields(65), 1)
    yield stream("a body of 8,388,608 bytes", [(get("/front", f"Content-Length: {limit}") + b" " * limit, front(0))])
    yield ending("a body of 8,388,609 bytes", get("/front", f"Content-Length: {limit + 1}") + b" " * (limit + 1), 4)
    whole = ENACTED.encode().ljust(limit)
    yield stream("a command of 8,388,608 bytes", [(post("/commands", whole), response(201, law(1))), (get("/front"), front(1))])
    yield ending("a command of 8,388,609 bytes", refusals.sent(f"Content-Length: {limit + 1}", body=whole + b" "), 4)
    yield ending("two Content-Length fields", refusals.sent("Content-Length: 2", "Content-Length: 2", body=b"{}"), 1)
    yield ending("a Content-Length and a Transfer-Encoding", refusals.sent("Content-Length: 2", "Transfer-Encoding: chunked", body=b"{}"), 5)
    yield stream("a body of 62 nodes one in another", [broken(enact("ada", 1, body=nested(62)), 5, 2)])
    yield stream("a body of 64 nodes one in another", [(command(enact("ada", 1, body=nested(64))), refusals.bad_form(1))])
    yield stream("a body of a million lists", [(post("/commands", b"[" * 1_000_000), refusals.bad_form(1))])


def fronts():
    """Each front of a dossier."""
    for length in range(len(LINE)):
        yield no_dossier(f"the first {length} bytes of a dossier", LINE[:length])


def rows():
    yield from dossier_rows()
    yield from register_rows()
    yield from request_rows()
    yield from fronts()
    yield answered("a dossier, of which these are the fronts", LINE)


def written_to(folder):
    """The rows, each with the file that it is written to."""
    for number, row in enumerate(rows(), 1):
        path = os.path.join(folder, f"{number:03} {row[0]}.{'http' if row[1] is BATCH else 'json'}")
        with open(path, "wb") as out:
            out.write(row[2])
        yield path, row


def at_their_number():
    """Each row from its file, in an empty folder. Nothing nests so deep that more than 256 KiB of the stack are wanted."""
    line = ["/bin/sh", "-c", f'ulimit -s {STACK}; exec "$@"', "sh", checks.PROGRAM]
    with checks.folder() as folder:
        for path, (name, words, _, status, written) in written_to(folder):
            with checks.folder() as place, open(path, "rb") as source:
                done = subprocess.run([*line, *words], stdin=source, capture_output=True, cwd=place, env={}, timeout=120)
            os.remove(path)
            check(name, (done.returncode, done.stdout if written is not None else None), (status, written))
