"""Streams of requests to an empty desk, each with the responses that are to come and the status of the run. They were written by hand,
from docs/PROTOCOL.md, docs/RULES.md and docs/FORMS.md.

A history of commands may be sent twice: each command has its own number, so the second time it is a repeat that gets its first reply,
and each question names its viewpoint.
"""
from urllib.parse import quote

from clients.messages import command, compact, get, head, response
from rows.dossiers import SOURCE, force, inserted, node, repeal, sections, substituted, to
from rows.register import (FIRST, NAMES, ONE, SECOND, SECTIONS, THIRD, TWO, add, answer, correct, draft, drop, enact, file, law, record, restore,
                      withdraw)

FRONT = b"GET /front HTTP/1.1\r\nHost: a\r\n\r\n"
FRONT_0 = b'HTTP/1.1 200 OK\r\nContent-Length: 11\r\nContent-Type: application/json\r\n\r\n{"front":0}'
FRONT_0_LAST = FRONT_0.replace(b"200 OK\r\n", b"200 OK\r\nConnection: close\r\n")
TRUNCATED = (b"HTTP/1.1 400 Bad Request\r\nConnection: close\r\nContent-Length: 29\r\nContent-Type: application/json\r\n\r\n"
             b'{"http":9,"name":"Truncated"}')
DELETED = (b"HTTP/1.1 405 Method Not Allowed\r\nAllow: GET\r\nContent-Length: 31\r\nContent-Type: application/json\r\n\r\n"
           b'{"http":7,"name":"WrongMethod"}')
QUERY_NAMES = ["", "UnknownWork", "ViewpointAhead", "NotYetEnacted", "OtherLanguage", "UnknownPortion"]
STATUS_OF_RULE = {**dict.fromkeys((1, 2, 4, *range(9, 18)), 409), **dict.fromkeys((5, 6, 7), 400), **dict.fromkeys((3, 8), 404)}
STATUS_OF_QUERY = {1: 404, 2: 409, 3: 404, 4: 404, 5: 404}


def accepted(line, reply):
    """A command, and the response that makes it known as accepted."""
    return command(line), response(201, reply)


def broken(line, rule, kept):
    """A command, and the rule that refuses it."""
    return command(line), response(STATUS_OF_RULE[rule], compact({"kept": kept, "name": NAMES[rule], "rule": rule}))


def text(expression, viewpoint=None, reading=None):
    """The target of a question."""
    keys = {"expression": expression, "viewpoint": viewpoint, "reading": reading}
    return "/text?" + "&".join(f"{key}={quote(str(value), safe='/@!~')}" for key, value in keys.items() if value is not None)


def asked(expression, line, viewpoint=None):
    """A question, and its answer."""
    return get(text(expression, viewpoint)), response(200, line)


def unanswered(expression, rule, kept, viewpoint=None):
    """A question, and the rule that refuses it."""
    line = compact({"kept": kept, "name": QUERY_NAMES[rule], "query": rule})
    return get(text(expression, viewpoint)), response(STATUS_OF_QUERY[rule], line)


ALL_THREE = f"{FIRST},{SECOND},{THIRD}"
AS_ENACTED = (b'{"applied":[],"bears":false,"body":[{"bears":false,"children":[],"content":"One.","eId":"sec_1","element":"section","heading":"",'
              b'"num":"1","refs":[]},{"bears":false,"children":[],"content":"Two two.","eId":"sec_2","element":"section","heading":"","num":"2",'
              b'"refs":[]},{"bears":false,"children":[],"content":"Three.","eId":"sec_3","element":"section","heading":"","num":"3","refs":[]}],'
              b'"expression":"/akn/gb/act/2010-05-01/7/eng@","reading":"force","unapplied":[],"viewpoint":1}').decode()
ENACTED = enact("ada", 1, body=SECTIONS)
ENACTED_ALONE = command(ENACTED)

WITHDRAWN = [
    accepted(ENACTED, law(1)),
    accepted(record("ada", 2, repeal("sec_3", "2011-06-01")), law(2)),
    accepted(record("ada", 3, force(destination=to("2.1"), on="2011-01-01", date="2011-01-01")), law(3)),
    accepted(withdraw("ada", 4, "2.1"), law(4)),
    asked(ONE + "/eng@2011-02-01", answer('["2.1"]', f"{FIRST},{SECOND}", "2011-02-01", 3), 3),
    asked(ONE + "/eng@2011-02-01", answer("[]", ALL_THREE, "2011-02-01", 4), 4),
    broken(withdraw("ada", 5, "2.1"), 9, 4),
]
CORRECTED = [
    accepted(ENACTED, law(1)),
    accepted(record("ada", 2, repeal("sec_3")), law(2)),
    accepted(correct("ada", 3, "2.1", repeal("sec_2")), law(3)),
    asked(ONE + "/eng@2011-01-01", answer('["2.1"]', f"{FIRST},{SECOND}", "2011-01-01", 2), 2),
    asked(ONE + "/eng@2011-01-01", answer('["2.1"]', f"{FIRST},{THIRD}", "2011-01-01", 3), 3),
    unanswered(ONE + "/eng@2011-01-01", 2, 3, 4),
]
REPEATED = [
    accepted(ENACTED, law(1)),
    accepted(ENACTED, law(1)),
    broken(enact("ada", 1, TWO, body=SECTIONS), 1, 1),
    broken(enact("ada", 2, body=SECTIONS), 4, 1),
]
PORTIONS = [
    accepted(ENACTED, law(1)),
    asked(ONE + "/eng@2010-06-01/~sec_2", answer("[]", SECOND, "2010-06-01", 1, portion="/~sec_2")),
    unanswered(ONE + "/eng@2010-06-01/~sec_9", 5, "sec_9"),
    unanswered(ONE + "/fra@2010-06-01", 4, "eng"),
    unanswered(TWO + "/eng@2010-06-01", 1, TWO),
    asked(ONE + "/eng@", AS_ENACTED),
]


def printed(element, num, content="", eid=None, wid=None, children=()):
    """A provision that bears, as an answer prints it."""
    word = {"section": "sec", "part": "part"}[element]
    shown = {"bears": True, "children": list(children), "content": content, "eId": eid or f"{word}_{num}", "element": element, "heading": "",
             "num": str(num), "refs": []}
    return {**shown, "wId": wid} if wid else shown


def answered(work, day, viewpoint, body, applied=(), unapplied=()):
    """An answer about an act that bears."""
    return compact({"applied": list(applied), "bears": True, "body": body, "expression": f"{work}/eng@{day}", "reading": "force",
                    "unapplied": list(unapplied), "viewpoint": viewpoint})


# An act of as many provisions as there may be, one of one more, and payloads.
LARGEST = [
    accepted(enact("ada", 1, body=sections(4096)), law(1)),
    broken(enact("ada", 2, TWO, body=sections(4097)), 5, 3),
    accepted(record("ada", 3, inserted([node(num="5000")])), law(2)),
    asked(ONE + "/eng@2011-01-01", answered(ONE, "2011-01-01", 2, [printed("section", k) for k in range(1, 4097)],
                                            unapplied=[{"cause": "TooManyNodes", "id": "2.1"}]), 2),
    broken(record("ada", 4, inserted(sections(1) + sections(1))), 5, 1),
]

# Forty sections in four parts, changed a section a time over nine years; one change is then withdrawn, and one corrected.
PARTS = "/akn/gb/act/2000-01-01/1"
CHANGES = range(1, 26)
WITHDRAWN_CHANGE, CORRECTED_CHANGE = 5, 10


def lettered(j, new="Law"):
    """The change of section j."""
    return substituted(new, f"sec_{j}", old="Text", source={"href": SOURCE, "place": j}, force={"from": f"{2001 + (j - 1) // 3}-01-01"})


def content(k, year, viewpoint):
    """What section k says in that year."""
    if k not in CHANGES or year < 2001 + (k - 1) // 3 or (viewpoint >= 27 and k == WITHDRAWN_CHANGE):
        return f"Text {k}."
    return f"Rule {k}." if viewpoint >= 28 and k == CORRECTED_CHANGE else f"Law {k}."


def of_parts(day, viewpoint, count):
    """The text on a day, of which so many changes are a part."""
    year = int(day[:4])
    sections_of = [[printed("section", k, content(k, year, viewpoint)) for k in range(10 * p - 9, 10 * p + 1)] for p in range(1, 5)]
    body = [printed("part", p, children=inner) for p, inner in enumerate(sections_of, 1)]
    applied = [f"{j + 1}.1" for j in CHANGES if not content(j, year, viewpoint).startswith("Text")]
    assert len(applied) == count, (day, viewpoint, applied)
    return asked(f"{PARTS}/eng@{day}", answered(PARTS, day, viewpoint, body, applied), viewpoint)


COUNTS = {"2000-06-01": (0, 0, 0), "2002-06-01": (6, 5, 5), "2004-01-01": (12, 11, 11), "2005-12-31": (15, 14, 14), "2010-01-01": (25, 24, 24)}
GROWING = [
    accepted(enact("ada", 1, PARTS, FRBRdate="2000-01-01", force={"from": "2000-02-01"}, body=[
        node("part", str(p), children=[node(num=str(k), content=f"Text {k}.") for k in range(10 * p - 9, 10 * p + 1)])
        for p in range(1, 5)]), law(1)),
    *(accepted(record("ada", j + 1, lettered(j), work=PARTS), law(j + 1)) for j in CHANGES),
    accepted(withdraw("ada", 27, "6.1"), law(27)),
    accepted(correct("ada", 28, "11.1", lettered(CORRECTED_CHANGE, "Rule")), law(28)),
    *(of_parts(day, viewpoint, count) for day, counts in COUNTS.items() for viewpoint, count in zip((26, 27, 28), counts)),
]

def full(an_act):
    """A register that is filled: with items of a draft, drafters, ids of a work and law entries, of which so many are on an act. Each rule
    that says so refuses what is one more, and beside them those that no other history has. (Rule 17 wants half a gigabyte; `desk_trial` is
    filled so.)"""
    yield accepted(ENACTED, law(1))
    yield accepted(record("ada", 2, repeal("sec_3")), law(2))
    yield accepted(record("ada", 3, force()), law(3))
    yield broken(restore("ada", 4, "2.1"), 10, "2.1")
    yield broken(correct("ada", 4, "2.1", force()), 11, "2.1")
    yield broken(record("ada", 4, force(destination=to("3.1"))), 11, "3.1")
    for k in range(1, 65):
        yield accepted(add("ada", 3 + k), draft(k))
    yield broken(add("ada", 68), 14, 64)
    yield accepted(drop("ada", 68, 64), draft(64))
    yield accepted(file("ada", 69, 3), law(4))
    for k in range(1, 256):
        yield accepted(add(f"d{k}", 1), draft(1))
    yield broken(add("d256", 1), 2, 256)
    for k in range(7):  # and there are 65 ids
        yield accepted(record("ada", 70 + k, *[repeal()] * (64 if k else 63)), law(5 + k))
    yield broken(record("ada", 77, repeal()), 15, 512)
    for first in range(12, 65_536, an_act):
        uri = f"/akn/gb/act/2010-05-01/{first}"
        yield accepted(enact("ada", 100 + first, uri), law(first))
        yield accepted(record("ada", 101 + first, repeal("sec_3"), work=uri), law(first + 1))
        for k in range(first + 2, min(first + an_act, 65_536)):
            yield accepted((restore if k % 2 else withdraw)("ada", 100 + k, f"{first + 1}.1"), law(k))
    yield broken(withdraw("ada", 77, f"{first + 1}.1"), 16, 65_535)
    yield get("/front"), response(200, '{"front":65535}')


HISTORIES = {"a repeal that is withdrawn": WITHDRAWN, "a repeal that is corrected": CORRECTED, "commands that are repeated": REPEATED,
             "portions and languages": PORTIONS, "forty sections over nine years": GROWING, "the largest act": LARGEST}

# Streams of a few requests: what is given, what is to be written, and the status.
SHORT = {
    "one request": (FRONT, FRONT_0, 0),
    "nothing": (b"", b"", 0),
    "empty lines": (b"\r\n" * 3, b"", 0),
    "a head that ends early": (b"GET /fr", TRUNCATED, 1),
    "a body that ends early": (head("POST /commands HTTP/1.1", "Host: a", "Content-Length: 3") + b"{}", TRUNCATED, 1),
    "two requests, of which the second closes": (FRONT + get("/front", "Connection: close") + b"xyz", FRONT_0 + FRONT_0_LAST, 0),
    "a method that a path has not": (head("DELETE /text HTTP/1.1", "Host: a") + FRONT, DELETED + FRONT_0, 0),
}
