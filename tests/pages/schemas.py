"""The schemas docs/dossier.schema.json, command.schema.json and limits.schema.json against what the tables of these tests say of dossiers and
commands: what is taken, or refused by a rule, they take; what has a fault of form they refuse, but for what a schema can't say.

Their patterns are tried here by Python alone. Whatever needs a validator is given to that of Debian (python3-jsonschema), by
tests/pages/schema_errors.py.
"""
import datetime
import json
import os
import pathlib
import re
import subprocess
import sys

import checks
from checks import TOP, check, read, run
from clients.messages import batch, command
from models import bearing
from rows import dossiers, draft_forms, drafts, histories, register, reports, wide
from rows.dossiers import node

# The largest texts take seconds each, so of those with as many bytes only two are given to the validator.
LARGE = 100_000
LARGEST = {"4,096 sections", "8,192 sections in a wide act", "8,388,608 bytes"}


def schema(name):
    return json.loads(read("docs", f"{name}.schema.json"))


def bodies(stream):
    """What the POST requests of a stream bring."""
    for head, body in re.findall(rb"POST /commands[^\n]*\n(.*?)\r\n\r\n(.*?)(?=(?:GET|POST|DELETE) /|\Z)", stream, re.DOTALL):
        yield body.decode()


def is_quick(name, text):
    return len(text) < LARGE or name in LARGEST


def examples():
    """The dossiers and the commands of examples/, which are all taken or refused by a rule."""
    for name in sorted(os.listdir(os.path.join(TOP, "examples"))):
        if name.endswith(".json"):
            yield "dossier", name, read("examples", name).decode()
        if name.endswith(".http"):
            for body in bodies(read("examples", name)):
                yield "command", name, body


def taken_dossiers():
    """Dossiers that are answered, by the text or by a rule."""
    for row in json.loads(read("tests", "rows", "dossiers.json")):
        if row["status"] in (0, 9):
            yield row["name"], row["dossier"]
    for name, given in dossiers.FITS + wide.FITS:
        yield name, given.decode()
    for name, given, line in dossiers.COMMANDS + wide.COMMANDS:
        if b'"rule"' in line:
            yield name, given.decode()
    for name, given, _, _ in dossiers.REACHED + wide.REACHED:
        yield name, given.decode()
    table = json.loads(read("tests", "rows", "causes.json"))
    for number, (_, modifications, _) in enumerate(table["cases"], 1):
        # The texts of a case that stand for long ones are made long by tests/rows/answers.py; here the act of the table suffices.
        if '"times"' not in json.dumps(modifications):
            yield f"cause {number}", json.dumps({"act": table["act"], "modifications": modifications})
    yield from ((f"effects {k}", given) for k, given in enumerate(sorted({given.decode() for given, *_ in bearing.tables()}), 1))


def taken_commands():
    """Commands that are accepted, or refused by a rule."""
    for name, rows in register.SESSIONS.items():
        for line, reply in rows:
            if line.startswith("{") and not reply.startswith('{"form"'):
                yield name, line
    for name, rows in [*histories.HISTORIES.items(), *drafts.ROWS.items(), ("a full draft", drafts.FULL), ("provisions", wide.NAMED)]:
        for given, wanted in rows:
            for body in bodies(given) if b'"form"' not in wanted else ():
                yield name, body
    for name, modification in draft_forms.ROWS:
        yield name, register.add("ada", 3, modification)
        yield name + ", with every key", register.add("ada", 3, draft_forms.whole(modification))
    for name, commands, _, _ in reports.LIVES + reports.PAIRS + reports.LEFT_OVERS:
        for line in commands:
            yield name, line


def faulty():
    """What has a fault of form, though it is JSON and not too long: the kind, a name and the text."""
    for name, given, _ in dossiers.NAMES + dossiers.LEVELS + dossiers.SHAPES + wide.FORMS:
        yield "dossier", name, given.decode()
    for name, given, line in dossiers.COMMANDS:
        if b'"form"' in line:
            yield "dossier", name, given.decode()
    for line, reply in register.NO_COMMANDS:
        if reply.startswith('{"form"') and "NotJson" not in reply and "TooLong" not in reply:
            yield "command", line[:200], line
    for text in ("[]", "1", "null", '"act"'):
        yield "dossier", f"the dossier {text}", text
        yield "command", f"the command {text}", text
    yield "dossier", "a modification of two kinds", dossiers.dossier(mods=[{**dossiers.repeal(), **dossiers.force()}]).decode()


# Faults of form that a schema can't say: numbers that are whole but are not spelled so, a day that is not that of the IRI, and a line feed behind a
# name, which the patterns of Python pass over.
NOT_SAID = {"a day that is not the IRI's", "a day that is not in the IRI's year", "a place that is no whole number", "the limit 4096.0",
            "the limit 8.192e3", *(name for name, _, _ in wide.FORMS if "of a line feed" in name), register.enact("ada", 1, FRBRdate="2010-05-02")[:200]}
# Of the dossiers that rule 6 or rule 15 refuses, those whose fault no limit of length, number or range shows.
NO_LIMIT = {"a wId of 257 letters of two bytes", "one wId in two pairs", "a join of a section with itself"}

SOURCE = {"href": dossiers.SOURCE, "place": 1, "provision": "sec_9"}
PERIOD = {"from": "2011-01-01", "until": "2012-01-01"}
CHILD = node("paragraph", "a", heading="H", content="C", refs=[dossiers.IRI + "/eng@2011-01-01"], children=[])
SECTION = node(heading="H", content="One one.", refs=[dossiers.IRI + "/eng@/~sec_1"], children=[CHILD])


def modified(type, **rest):
    return {"textualMod": {"type": type, "source": SOURCE, "force": PERIOD, **rest}}


def bearing_on(kind, type, destination, **rest):
    return {kind: {"type": type, "source": SOURCE, "destination": destination, **rest}}


TARGET, ON, DATE = {"wId": "sec_1"}, "2011-01-01", "2011-02-01"
# A modification of each table of FORMS.md, with every key that the table has.
FULL = [
    modified("repeal", destination=TARGET),
    modified("substitution", destination=TARGET, new=[SECTION]),
    modified("substitution", destination=TARGET, old="one", occurrence=2, new="two"),
    modified("insertion", destination={"wId": "sec_1", "pos": "before"}, new=[SECTION]),
    modified("insertion", destination={"wId": "sec_1", "pos": "end"}, new="two"),
    modified("insertion", destination={"wId": "sec_1", "pos": "after"}, old="one", occurrence=1, new="two"),
    modified("renumbering", renumber=[{"wId": "sec_1", "num": "2"}]),
    modified("split", destination=TARGET, child="sec_1__para_a", num="1A", heading="H"),
    modified("split", destination=TARGET, old="one", occurrence=1, num="1A", heading="H"),
    modified("join", destination=TARGET, second="sec_2", separator=" "),
    bearing_on("forceMod", "endOfEnactment", {"wId": "body"}, on=ON, date=DATE),
    bearing_on("efficacyMod", "endOfEfficacy", {"modification": "2.1"}, on=ON, date=DATE),
    bearing_on("efficacyMod", "retroactivity", {"modification": "2.1"}, date=DATE),
    bearing_on("efficacyMod", "extraefficacy", {"wId": "sec_1"}, on=ON),
    bearing_on("efficacyMod", "inapplication", {"wId": "sec_1"}, on=ON, days=PERIOD),
]
WHOLE_ACT = dossiers.act(numbering=["section"], nodeLimit=8192, force=PERIOD, body=[SECTION])
DOSSIERS = [{"act": WHOLE_ACT, "modifications": []}] + [{"act": dossiers.act(body=[]), "modifications": [one]} for one in FULL]
ASKED = {"drafter": "ada", "request": 1}
REPEAL = FULL[0]
COMMANDS = [
    {**ASKED, "command": "enact", "act": dossiers.act()},
    {**ASKED, "command": "record", "work": dossiers.IRI, "modifications": [REPEAL]},
    {**ASKED, "command": "correct", "id": "2.1", "modification": REPEAL},
    {**ASKED, "command": "withdraw", "id": "2.1"},
    {**ASKED, "command": "restore", "id": "2.1"},
    {**ASKED, "command": "draftAdd", "work": dossiers.IRI, "modification": REPEAL},
    {**ASKED, "command": "draftDrop", "item": 1},
    {**ASKED, "command": "file", "work": dossiers.IRI, "seen": 2},
]
# The keys of all tables of modifications and of all commands, each with a value that it may have.
OF_OTHERS = {"modification": {key: value for one in FULL for inner in one.values() for key, value in inner.items()},
             "command": {key: value for one in COMMANDS for key, value in one.items()}, "dossier": {}}
# The keys that may be left out (those with `=` in the tables of FORMS.md, and what a split, an insertion and a substitution may have beside).
OPTIONAL = {"numbering", "nodeLimit", "provision", "until", "heading", "content", "refs", "children", "occurrence", "separator"}
# What a value is changed to under a key, so that its form is broken.
BROKEN = {
    "type": ["Repeal", "", None, 1], "pos": ["behind", None], "element": ["Section", "sec"], "command": ["repeal", None],
    "place": [-1, 65_536, "1", 1.5], "occurrence": [-1, 65_536, "1"], "request": [-1, 2**64, "1"], "item": [-1, 2**32, "1"], "seen": [-1, 2**32, "1"],
    "num": ["", "a" * 17, "a b", "\u00e9", 1], "FRBRlanguage": ["en", "ENG", "engl", 1], "drafter": ["", "Ada", "a" * 33, "a b", 1],
    "from": ["2011-1-1", "2011-02-29", "0000-01-01", 2011], "until": ["2011-13-01", None], "on": ["20110101"], "date": ["2011-04-31"],
    "FRBRdate": ["1900-02-29"], "FRBRuri": ["/akn/gb/act/2010-02-30/7", "/akn/GB/act/2010/7", "/akn/gb/act/2010"],
    "href": ["/akn/gb/act/2010", "akn/gb/act/2010/7", None], "work": ["/akn/gb/bill/2010/7", 1], "id": ["2", "02.1", "2.65536", "4294967296.1", 2.1],
    "modification": [1], "wId": [1, None], "content": [None, 1], "old": [1], "heading": [[]], "separator": [0], "second": [1], "child": [1],
    "act": [[]], "body": [{}, [1]], "modifications": [{}, [1]], "refs": ["x", [1], [dossiers.IRI]], "children": [1, [1]], "new": [1, None, [1]],
    "renumber": [{}, [1]], "numbering": ["section", ["sec"]], "nodeLimit": [5000, 4096.5, "8192", None], "provision": ["", "sec.9", "a" * 513, None, 9],
    "destination": ["sec_1"], "source": [[]], "force": ["2011-01-01"], "days": [[]], "textualMod": [[]], "forceMod": [1], "efficacyMod": ["x"],
}


def objects(value, place=()):
    """Each object in a value, with its place."""
    if isinstance(value, dict):
        yield place, value
    members = value.items() if isinstance(value, dict) else enumerate(value) if isinstance(value, list) else ()
    for key, member in members:
        yield from objects(member, (*place, key))


def changed(value, place, key, new):
    """A value in which the object at a place has something else under a key; nothing takes the key away."""
    whole = json.loads(json.dumps(value))
    inner = whole
    for step in place:
        inner = inner[step]
    if new is KeyError:
        del inner[key]
    else:
        inner[key] = new
    return json.dumps(whole)


def shown(found, key):
    """The key that is to be named where one is wanting, or one too many: a split has `child` or `old`, and `old` is named."""
    return "old" if found.get("type") == "split" and key == "child" else key


def mutated():
    """What is wrong in one place: the kind, a name, the text, the place of the object, and the key that is to be named."""
    wholes = [("dossier", one) for one in DOSSIERS] + [("command", one) for one in COMMANDS]
    for kind, whole in wholes:
        for place, found in objects(whole):
            where = "/".join(map(str, place))
            yield kind, f"{kind}, an unknown key in /{where}", changed(whole, place, "colour", "red"), place, "colour"
            for key in found:
                if key not in OPTIONAL:
                    yield kind, f"{kind}, no {key} in /{where}", changed(whole, place, key, KeyError), place, shown(found, key)
                for new in BROKEN[key]:
                    yield kind, f"{kind}, {key} {new!r} in /{where}", changed(whole, place, key, new), place, key
            if found is whole or "source" in found:
                for key, value in OF_OTHERS[kind if found is whole else "modification"].items():
                    if key not in found:
                        yield kind, f"{kind}, {key} of another table in /{where}", changed(whole, place, key, value), place, shown(found, key)


# Of an object that has exactly one of several keys, and has none, an error names only the place.
ONE_OF = ({"textualMod"}, {"forceMod"}, {"efficacyMod"}, {"wId"}, {"modification"})


def named(error, place, key):
    """Whether an error is at the key of the object at a place or within its value, or at the object and says that the key is wanting or one
    too many."""
    if error is None:
        return False
    at, message = tuple(error[0]), error[1]
    said = (f"{key!r} is a required property", f"Additional properties are not allowed ({key!r} was unexpected)")
    return at[:len(place) + 1] == (*place, key) or (at == place and message in said)


def refused_here():
    """What is changed in one place is refused by the program as well: each dossier with 10, and each command as a fault of its form."""
    for kind, name, text, _, _ in mutated():
        if kind == "dossier":
            check(f"{name}, by the program", run(["text", "2011-01-01"], text.encode())[0], 10)
    lines = [text for kind, _, text, _, _ in mutated() if kind == "command"]
    status, written = batch(b"".join(command(line) for line in lines))
    check("changed commands, by the program", (status, written.count(b'"name":"BadForm"'), written.count(b"HTTP/1.1 400 ")), (0, len(lines), len(lines)))


def interpreter():
    """A Python that has the validator: this one, or that of the system."""
    for python in (sys.executable, "/usr/bin/python3"):
        if os.path.exists(python) and subprocess.run([python, "-c", "import jsonschema"], capture_output=True, timeout=60).returncode == 0:
            return python
    return None


def errors(python, given):
    """The first error of each text by its schema."""
    line = [python, os.path.join(TOP, "tests", "pages", "schema_errors.py"), os.path.join(TOP, "docs")]
    done = subprocess.run(line, input=json.dumps(given).encode(), capture_output=True, timeout=600)
    return json.loads(done.stdout) if done.returncode == 0 else [[[], done.stderr.decode()[-300:]]] * len(given)


def described(inner, whole):
    """Whether a subschema says what its key is, itself or where it refers to."""
    for reference in [inner] + inner.get("allOf", []):
        if "description" in reference:
            return True
        if "$ref" in reference:
            file, _, name = reference["$ref"].partition("#/definitions/")
            return "description" in (schema(file.removesuffix(".schema.json")) if file else whole)["definitions"][name]
    return False


def texts():
    """Each key of both forms says what it is, no object takes an unknown key, and no key of an object is wanting."""
    for kind in ("dossier", "command"):
        whole = schema(kind)
        silent, loose = [], []
        for place, found in objects(whole):
            if place and place[-1] == "properties" and not {"if", "then", "else"} & set(place):
                silent += [(*place, key) for key, inner in found.items() if not described(inner, whole)]
            if "properties" in found and "type" in found and found.get("additionalProperties") is not False and "allOf" not in found:
                loose.append(place)
        check(f"keys of the {kind} without a word on them", silent, [])
        check(f"objects of the {kind} that take any key", loose, [])


def days_and_ids():
    """The patterns of a day, of a number of 16 and of 32 bits in an id, and those of a day in both IRIs, at each bound."""
    definitions = schema("dossier")["definitions"]
    day, work, id = (re.compile(definitions[name]["pattern"].removesuffix("$") + r"\Z") for name in ("day", "work", "id"))
    wrong = []
    for year in [0, 1, 3, 4, 96, 100, 200, 400, 1600, 1900, 1999, 2000, 2004, 2010, 2012, 2100, 2400, 9996, 9999]:
        for month in range(14):
            for number in range(33):
                text = f"{year:04}-{month:02}-{number:02}"
                try:
                    there = bool(datetime.date(year, month, number))
                except ValueError:
                    there = False
                if bool(day.match(text)) != there or bool(work.match(f"/akn/gb/act/{text}/7")) != there:
                    wrong.append(text)
    check("days by the patterns", wrong, [])
    bounds = [0, 1, 9, 10, 65_534, 65_535, 65_536, 99_999, 4_294_967_295, 4_294_967_296, 9_999_999_999]
    bounds += [k * 10**n + more for n in range(10) for k in range(1, 10) for more in (-1, 0, 1)]
    got = [(n, i) for n in bounds for i in (0, 1) if bool(id.match(f"{n}.{i}")) != (n < 2**32)]
    got += [(n, i) for n in (0, 1) for i in bounds if bool(id.match(f"{n}.{i}")) != (i < 2**16)]
    check("ids by the pattern", got, [])


def validated():
    """What is taken and refused by the schemas."""
    python = interpreter()
    if not python:
        checks.skip("dossiers and commands by the schemas", "python3-jsonschema is not installed")
        return
    taken = list(examples())
    taken += [("dossier", name, text) for name, text in taken_dossiers()] + [("command", name, text) for name, text in taken_commands()]
    taken += [("dossier", "a dossier with each key", json.dumps(one)) for one in DOSSIERS]
    taken += [("command", "a command", json.dumps(one)) for one in COMMANDS]
    taken = list({(kind, text): (kind, name, text) for kind, name, text in taken if is_quick(name, text)}.values())
    for (kind, name, _), error in zip(taken, errors(python, [(kind, text) for kind, _, text in taken])):
        check(f"{name} by the schema of a {kind}", error, None)
    wrong = list(faulty())
    refused = errors(python, [(kind, text) for kind, _, text in wrong])
    check("faults of form that the schemas take", {name for (_, name, _), error in zip(wrong, refused) if error is None}, NOT_SAID)
    rows = list(mutated())
    for (kind, name, _, place, key), error in zip(rows, errors(python, [(kind, text) for kind, _, text, _, _ in rows])):
        lone = name.split(", ")[1] == f"no {key} in /" + "/".join(map(str, place)) and {key} in ONE_OF
        got = bool(error) and tuple(error[0]) == place if lone else named(error, place, key)
        check(f"{name}: {error}", got, True)
    checked_limits(python)
    typed(python)


def typed(python):
    """The lines of docs/FORMS.md that call the validator: nothing is written where a dossier and a command have the form."""
    repeal = os.path.join(TOP, "examples", "repeal.json")
    with checks.folder() as folder:
        files = {"right.json": json.dumps(COMMANDS[1]), "wrong.json": json.dumps({**COMMANDS[1], "colour": "red"})}
        for name, text in files.items():
            with open(os.path.join(folder, name), "w") as out:
                out.write(text)
        base = ["--base-uri", pathlib.Path(TOP, "docs").as_uri() + "/"]
        rows = [([], repeal, "dossier", True)]
        rows += [(base, os.path.join(folder, name), "command", name == "right.json") for name in files]
        for words, file, name, fits in rows:
            line = [python, "-W", "ignore", "-m", "jsonschema", *words, "-i", file, f"docs/{name}.schema.json"]
            done = subprocess.run(line, capture_output=True, timeout=60, cwd=TOP)
            got = done.returncode, done.stdout, b"'colour'" in done.stderr
            check(f"jsonschema of {os.path.basename(file)}", got, (int(not fits), b"", not fits))


def checked_limits(python):
    """The limits: what is answered keeps them, and what rule 6 or rule 15 refuses breaks one, but for what no schema says."""
    fit = [text.decode() for name, text in dossiers.FITS + wide.FITS if is_quick(name, text)] + [text for kind, _, text in examples() if kind == "dossier"]
    told = [(line, reply) for rows in register.SESSIONS.values() for line, reply in rows if line.startswith("{") and len(line) < LARGE]
    fit += [line for line, reply in told if reply.startswith(('{"law"', '{"draft"'))]
    check("the limits of what is answered or accepted", [e for e in errors(python, [("limits", text) for text in fit]) if e], [])
    rows = [(name, text.decode()) for name, text, line in dossiers.COMMANDS if b'"rule":6' in line or b'"rule":15' in line]
    rows += [(line, line) for line, reply in told if '"rule":6' in reply]
    found = errors(python, [("limits", text) for _, text in rows])
    check("what the limits do not show", {name for (name, _), error in zip(rows, found) if error is None}, NO_LIMIT)
