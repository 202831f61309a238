"""Dossiers and requests that were changed at random: bytes put in, taken out and doubled, inputs cut off, values put in the place of others, lists
made long, what refers to a thing that is not there, and nesting. The status is one of those that input can have, what is written is of its
form, and neither memory nor time grows faster than the input."""
import collections
import concurrent.futures
import copy
import itertools
import json
import os
import random
import re
import time

import checks
from checks import check
from clients.messages import compact, post
from clients.random_streams import REQUESTS, changed
from devices import measured_runs
from models import requests_heard
from rows import dossiers, histories, mixed
from rows.dossiers import act, dossier, force, node, repeal, sections, substituted

DOSSIERS, STREAMS, LARGE = 2_000, 20_000, 40
MORE, TIMES = 64 << 20, 60
SLOWER, MOMENT = 10, 1.0
DAYS = ["2010-05-01", "2011-01-01", "2013-09-01", "1998-02-15", "9999-12-31"]
VALUES = [None, True, 0, 1, -1, 1.5, 65_535, 65_536, 1 << 64, "", "x", "body", "sec_1", "2.1", "9999.65535", "2011-02-30", "0001-01-01",
          "9999-12-31", "\u0000", "\U0001f4dc", "x" * 513, "x" * 16_385, [], {}, [[]], {"": None}, {"modification": "2.1"}, {"wId": "body"}]
STRING = re.compile(r'"(?:[^"\\]|\\.)*"')
OF_ITS_OWN = re.compile(r"\\u[dD][89a-fA-F]|\d{300}|[eE]\+?\d{3}")
FAULT = re.compile(rb'\{"form":([1-9]),"name":"(\w+)","place":(\d+)\}\n')
RULE = re.compile(rb'\{"kept":.*,"name":"(\w+)","(?:rule|query)":\d+\}\n', re.DOTALL)


def places(value, found=None):
    """Each object and list of a value, with each key and place of it."""
    found = [] if found is None else found
    members = value.items() if isinstance(value, dict) else enumerate(value) if isinstance(value, list) else ()
    for key, member in members:
        found.append((value, key))
        places(member, found)
    return found


def nested(value, depth):
    """A value in so many lists, or in provisions one in another."""
    for _ in range(depth):
        value = [value]
    return value


def by_key(values):
    """What stands at each key of some values: a list for each key."""
    found = {}
    for value in values:
        for inside, key in places(value):
            if isinstance(inside, dict):
                found.setdefault(key, []).append(inside[key])
    return found


def exchange(r, value, known):
    """Puts something in the place of what stands at a key of that name elsewhere, or more of it in a list: the form is kept as a rule."""
    inside, key = r.choice([place for place in places(value) if isinstance(place[0], dict) and place[1] in known])
    if isinstance(inside[key], list) and r.random() < 0.5:
        inside[key].extend(copy.deepcopy(r.choice(known[key])))
    else:
        inside[key] = copy.deepcopy(r.choice(known[key]))


def disturb(r, value):
    """One change of a value, in place, whatever becomes of its form."""
    (inside, key), (other, place) = (r.choice(places(value)) for _ in range(2))
    kind = r.randrange(8)
    if kind == 0:
        del inside[key]
    elif kind == 1:
        inside[key] = copy.deepcopy(other[place])
    elif kind == 2:
        inside[key], other[place] = copy.deepcopy(other[place]), copy.deepcopy(inside[key])
    elif kind == 3:
        inside[key] = nested(inside[key], r.choice([1, 2, 11, 12, 61, 62, 130]))
    elif kind == 4 and isinstance(inside, list):
        inside.extend(copy.deepcopy(inside[key]) for _ in range(r.choice([1, 1, 17, 65])))
    elif kind == 5 and isinstance(inside, dict):
        inside[r.choice(["x", "wId", "children", "new", "type", key.upper()])] = inside.pop(key)
    elif kind == 6 and isinstance(inside[key], str):
        inside[key] = r.choice(["", inside[key] * 2, inside[key][:-1], inside[key].upper(), inside[key] + "\u00e9"])
    else:
        inside[key] = copy.deepcopy(r.choice(VALUES))


def disturbed(r, value, known):
    """The text of a value with some changes: most of them keep the form, some do not, and a few are among its bytes."""
    value = copy.deepcopy(value)
    for _ in range(r.choice([1, 1, 2, 3, 8])):
        exchange(r, value, known)
    if r.random() < 0.3 and places(value):
        disturb(r, value)
    text = json.dumps(value, ensure_ascii=r.random() < 0.5).encode("utf-8", "surrogatepass")
    for _ in range(r.choice([0, 0, 0, 0, 0, 0, 0, 1, 1, 3])):
        text = changed(r, text) if text else text
    return text


def plain_dossiers():
    """Dossiers that are answered, or refused by a rule alone."""
    found = [json.loads(row["dossier"]) for row in json.loads(checks.read("tests", "rows", "dossiers.json")) if row["status"] != 10]
    names = sorted(os.listdir(os.path.join(checks.TOP, "examples")))
    found += [json.loads(checks.read("examples", name)) for name in names if name.endswith(".json")]
    return [value for value in found if isinstance(value, dict)]


def large_dossier(r):
    """A dossier of some hundred KiB: an act of many provisions, and what changes them."""
    body = [node("part", str(p), children=[node(num=f"{p}-{k}", content=f"The word of section {k}. " * r.randrange(1, 9)) for k in range(40)])
            for p in range(r.randrange(2, 60))]
    mods = [r.choice([repeal(f"sec_{r.randrange(60)}-{r.randrange(40)}", place=k), force(destination={"wId": "body"}),
                      substituted("letter", f"sec_{r.randrange(60)}-{r.randrange(40)}", old="word", occurrence=1),
                      substituted(sections(r.randrange(1, 30), "new"), f"part_{r.randrange(60)}")]) for k in range(r.randrange(300))]
    return {"act": act(body=body), "modifications": mods}


def levels(text):
    """How many lists and objects are open at once in a JSON text."""
    steps = (1 if bracket in "[{" else -1 for bracket in re.findall(r"[\[\]{}]", STRING.sub("", text)))
    return max(itertools.accumulate(steps), default=0)


def is_json(given):
    """Whether Python takes bytes as a JSON text that nests no deeper than 127; none where that may have a number past all doubles, or half of a
    surrogate, which are no JSON text here."""
    try:
        text = given.decode()
        json.loads(text, parse_constant=lambda word: 1 // 0, parse_int=len, parse_float=len)
    except (RecursionError, ValueError, ZeroDivisionError):
        return False
    return False if levels(text) > 127 else None if OF_ITS_OWN.search(text) else True


def fault_of_a_dossier(given, run):
    """What is wrong about a run over a dossier that was changed."""
    taken, json_there = FAULT.fullmatch(run.written), is_json(given)
    if run.memory > TIMES * len(given) + MORE:
        return "memory", run.memory
    if run.said or run.status not in (0, 9, 10):
        return run.status, run.said
    if run.status == 10:
        named = taken and dossiers.FORM_RULES[int(taken[1])].encode() == taken[2]
        return None if named and (json_there is None or json_there != (taken[1] == b"1")) else (run.written, json_there)
    if run.status == 9:
        return None if RULE.fullmatch(run.written) and json_there is not False else (run.written, json_there)
    right = json_there is not False and compact(json.loads(run.written)).encode() + b"\n" == run.written
    return None if right else (run.written[:80], json_there)


def slower(run, size, plain, of_size):
    """How many times as long a run takes as the plain one, where its input is no larger."""
    return run.seconds / (plain * max(1, size / of_size))


def of_dossiers(place, seed, count):
    """Runs over dossiers that were changed: what is wrong, how many times as long as the plain one the slowest takes and which that is, and how
    many ended with which status."""
    r, wrong, slowest, ends = random.Random(seed), [], (0,), collections.Counter()
    known = plain_dossiers()
    values = by_key(known)
    with measured_runs.runner(place, ["text", r.choice(DAYS), r.choice(["force", "efficacy"])]) as runner:
        for number in range(count):
            value = large_dossier(r) if number % (DOSSIERS // LARGE) == 0 else r.choice(known)
            given, whole = disturbed(r, value, values), json.dumps(value).encode()
            run, plain = runner.run(given), runner.run(whole)
            ends[run.status] += 1
            found = fault_of_a_dossier(given, run)
            if run.seconds > SLOWER * plain.seconds * max(1, len(given) / len(whole)) + MOMENT:
                found = "time", run.seconds, plain.seconds
            wrong += [(number, found, given[:300])] if found else []
            slowest = max(slowest, (slower(run, len(given), plain.seconds, len(whole)), len(given), run.seconds))
    return wrong, slowest, ends


def requests_known():
    """Requests of every kind, and what stands at each key of their bodies."""
    known = REQUESTS + [given for given, _, _ in mixed.MIXED]
    return known, by_key(json.loads(body) for given in known if (body := given.partition(b"\r\n\r\n")[2]).startswith(b'{"'))


def changed_request(r, given, values):
    """A request with its body or its target changed, or any of its bytes."""
    head, _, body = given.partition(b"\r\n\r\n")
    line = head.split(b" ", 2)
    if r.random() < 0.15 or len(line) < 3:
        return changed(r, given)
    if body.startswith(b'{"'):
        return post("/commands", disturbed(r, json.loads(body), values))
    target = re.sub(rb"[^!-~\x80-\xff]", b"", changed(r, line[1])) or b"/"
    return b" ".join([line[0], target, line[2]]) + b"\r\n\r\n" + body


def stream_of(r, known, values, most):
    """Requests of which each other one was changed, so many at most, up to one behind which nothing is heard."""
    stream, count = histories.ENACTED_ALONE, 0
    while count < most:
        stream += r.choice(known)
        given = changed_request(r, r.choice(known), values)
        stream, count = stream + given, count + 1
        if closes(given):
            break
    return stream


def closes(given):
    """Whether nothing is heard behind this, as far as it tells."""
    said = list(requests_heard.heard(given))
    return len(said) != 1 or isinstance(said[0], int) or said[0][2]


def of_streams(place, seed, count):
    """Runs over streams of requests, so many, of which some were changed."""
    r, wrong, slowest, ends = random.Random(seed), [], (0,), collections.Counter()
    known, values = requests_known()
    with measured_runs.runner(place, ["batch"]) as runner:
        plain = runner.run(b"".join(known))
        for _ in range(count):
            stream = stream_of(r, known, values, r.choice([1, 2, 4, 25]))
            run = runner.run(stream)
            ends[run.status] += 1
            found = requests_heard.fault_of(stream, run.status, run.written) or (run.said or None)
            if run.memory > TIMES * len(stream) + MORE:
                found = "memory", run.memory
            if run.seconds > SLOWER * plain.seconds + MOMENT:
                found = "time", run.seconds
            wrong += [(found, stream)] if found else []
            slowest = max(slowest, (slower(run, len(stream), plain.seconds, len(b"".join(known))), len(stream), run.seconds))
    return wrong, slowest, ends


def mutated(times=1, seed=None):
    """So many times two thousand dossiers and twenty thousand streams of requests."""
    seed = time.time_ns() % 1_000_000_000 if seed is None else seed
    with measured_runs.tools() as place, concurrent.futures.ProcessPoolExecutor(os.cpu_count()) as pool:
        if place is None:
            checks.skip("inputs that were changed, and what they take", measured_runs.NO_CC)
            return
        for what, made, count in (("dossiers", of_dossiers, DOSSIERS * times), ("streams", of_streams, STREAMS * times)):
            parts = 2 * os.cpu_count()
            seeds = [seed * 1000 + part for part in range(parts)]
            wrong, slowest, ends = zip(*pool.map(made, [place] * parts, seeds, [-(-count // parts)] * parts))
            ratio, size, seconds = max(slowest)
            runs = dict(sorted(sum(ends, collections.Counter()).items()))
            print(f"{count} {what} that were changed, of seed {seed}: runs of each status {runs}; the slowest, of {size} bytes, takes {seconds:.3f} s, "
                  f"{ratio:.1f} times as long as a plain one of its size")
            wrong = sum(wrong, [])
            check(f"{what} that were changed, of seed {seed}: how many are wrong, and the first", (len(wrong), wrong[:1]), (0, []))
