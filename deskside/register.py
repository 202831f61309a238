"""A register of a dossier, made for a moment: its reports are the desk's own."""
import csv
import io
import json
import tempfile

import desk


def commands(dossier, drafter="deskside"):
    """The commands that a dossier stands for."""
    yield {"drafter": drafter, "request": 1, "command": "enact", "act": dossier["act"]}
    for at, modification in enumerate(dossier["modifications"]):
        yield {"drafter": drafter, "request": at + 2, "command": "record", "work": dossier["act"]["FRBRuri"], "modifications": [modification]}


def post(command):
    body = json.dumps(command, ensure_ascii=False).encode()
    return b"POST /commands HTTP/1.1\r\nHost: desk\r\nContent-Length: %d\r\n\r\n" % len(body) + body


def statuses(stream):
    """The statuses and bodies of the responses in a stream."""
    found = []
    while stream:
        head, _, rest = stream.partition(b"\r\n\r\n")
        length = next((int(it.partition(b":")[2]) for it in head.split(b"\r\n") if it.lower().startswith(b"content-length:")), 0)
        found.append((int(head.split(b" ", 2)[1]), rest[:length]))
        stream = rest[length:]
    return found


def correspondence(dossier, first, second):
    """The rows of the desk's table of which provision of one day is which of another."""
    with tempfile.TemporaryDirectory(prefix="deskside-") as folder:
        status, wrote, said = desk.run(["batch"], b"".join(post(it) for it in commands(dossier)), folder)
        refused = next((it for it in statuses(wrote) if it[0] != 201), None)
        if status or refused:
            raise desk.Failed(status, refused[1].decode() if refused else said.strip())
        status, wrote, said = desk.run(["report", "correspondence", dossier["act"]["FRBRuri"], first, second], b"", folder)
        if status:
            raise desk.Failed(status, wrote.decode(errors="replace").strip() or said.strip())
    return list(csv.DictReader(io.StringIO(wrote.decode())))
