"""Rows of dossiers, with the statuses and the bytes that the program gives of them."""
import json
import os
import subprocess

import checks
from checks import PROGRAM, SAID, TOP, check, over_a_folder, read, run, said_to_a_full_device
from models import bearing
from rows import dossiers, wide
from rows import spellings as written_forms


def examples():
    """The examples, each from a file as standard input; a name that ends in a reading asks for that."""
    for name in sorted(os.listdir(os.path.join(TOP, "tests", "rows", "expected"))):
        stem, efficacy, _ = name[: -len(".out")].partition("-efficacy")
        example, words = stem[:-11], ["text", stem[-10:]] + ["efficacy"] * bool(efficacy)
        with open(os.path.join(TOP, "examples", example + ".json"), "rb") as dossier:
            done = subprocess.run([PROGRAM] + words, stdin=dossier, stdout=subprocess.PIPE, timeout=60)
        want = read("tests", "rows", "expected", name)
        check(name, (done.returncode, done.stdout), (9 if b'"query"' in want else 0, want))


def rows():
    """Rows of a dossier, the words, and the status and the bytes that are wanted."""
    for row in json.loads(read("tests", "rows", "dossiers.json")):
        got = run(row["words"], row["dossier"].encode())
        check(row["name"], got, (row["status"], row["written"].encode()))


def words():
    """Words that are no form of the command line: status 2, which word is wrong and the usage on standard error, nothing read or written."""
    for line, said in dossiers.WRONG_WORDS:
        done = subprocess.run([PROGRAM] + line, input=dossiers.dossier(), capture_output=True, timeout=60)
        check(f"the words {line}", (done.returncode, done.stdout, done.stderr), (2, b"", dossiers.of_words(said)))


def checked():
    """`check` of a register that is new. Nothing is read, and `text` touches no file."""
    with checks.folder() as folder:
        check("a text", run(["text", "2011-01-01"], b"{", cwd=folder)[0], 10)
        check("the files of a text", os.listdir(folder), [])
        check("a check", run(["check"], b"", cwd=folder), (0, b"entries 0 law 0\n"))
        check("a check reads nothing", over_a_folder([PROGRAM, "check"], cwd=folder), (0, b"entries 0 law 0\n"))
        check("a check to a full device", said_to_a_full_device([PROGRAM, "check"], b"", cwd=folder), (4, SAID[4]))
        check("the files of a check", os.listdir(folder), ["lawdesk.jnl"])


def tables():
    """Each part of the form and each rule, kept and broken, and each limit at its number and one past it."""
    for name, given in dossiers.FITS + wide.FITS:
        check(name, run(["text", "2010-05-01"], given)[0], 0)
    for table in (dossiers.BYTES, dossiers.NAMES, dossiers.LEVELS, dossiers.SHAPES, wide.FORMS):
        for name, given, line in table:
            check(name, run(["text", "2010-05-01"], given), (10, line))
    for name, given, line in dossiers.COMMANDS + wide.COMMANDS:
        # The day is before that of the act: the rules of the commands come before those of the question.
        check(name, run(["text", "2010-04-30"], given), (10 if b'"form"' in line else 9, line))
    for name, given, applied, reasons in dossiers.REACHED + wide.REACHED:
        status, written = run(["text", "2011-01-01"], given)
        answer = json.loads(written)
        check(name, (status, answer["applied"], [u["cause"] for u in answer["unapplied"]]), (0, applied, reasons))


def spellings():
    """Each key twice, keys and texts by escapes, and numbers of every kind."""
    whole = run(["text", "2011-01-01"], json.dumps(written_forms.WHOLE).encode())
    check("an object of each form", whole[0], 0)
    for table in (written_forms.KEYS, written_forms.NUMBERS, written_forms.TEXTS):
        for name, given, line in table:
            check(name, run(["text", "2011-01-01"], given), whole if line is None else (10, line))
    for text, same in written_forms.CONTENTS:
        check(f"the content {text}", *(run(["text", "2011-01-01"], written_forms.of_content(it)) for it in (text, same)))


def spelled(value):
    """A value of a case, where a text of one letter many times stands as that letter and its number."""
    if isinstance(value, dict):
        if value.keys() == {"times", "of"}:
            return value["of"] * value["times"]
        return {key: spelled(member) for key, member in value.items()}
    return [spelled(member) for member in value] if isinstance(value, list) else value


def causes():
    """Each cause at each edit that it can hold back, and pairs of causes that hold at once: which modifications are unapplied on
    2011-01-01, and why. A case is about the small act, or about one of 4,096 sections."""
    table = json.loads(read("tests", "rows", "causes.json"))
    sections = [{"element": "section", "num": str(k)} for k in range(1, 4097)]
    sections[0]["content"] = "ab"
    acts = [table["act"], {**table["act"], "body": sections}]
    for number, (act, modifications, unapplied) in enumerate(table["cases"], 1):
        given = json.dumps({"act": acts[act], "modifications": spelled(modifications)}).encode()
        status, written = run(["text", "2011-01-01"], given)
        answer = json.loads(written)
        others = {f"{k}.1" for k in range(2, len(modifications) + 2)} - {u["id"] for u in unapplied}
        check(f"cause {number}", (status, answer["unapplied"], set(answer["applied"])), (0, unapplied, others))


def effects():
    """Each effect of force and efficacy alone, and each pair on one provision in either order, over the days round each bound."""
    for number, (given, reading, day, flags) in enumerate(bearing.tables(), 1):
        status, written = run(["text", day, reading], given)
        got = [node["bears"] for node in json.loads(written)["body"]] if status == 0 else written
        check(f"effects {number}: {reading} on {day}", (status, got), (0, flags))
