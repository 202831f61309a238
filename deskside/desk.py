"""Asks the desk: the program `lawdesk` decides every word."""
import json
import os
import subprocess

import forms

HERE = os.path.dirname(os.path.abspath(__file__))
# (another program may be named, as one that is installed)
PROGRAM = os.environ.get("LAWDESK") or os.path.join(os.path.dirname(HERE), "lawdesk")


class Failed(Exception):
    """The desk gave no answer: its status, and what it said."""

    def __init__(self, status, said):
        super().__init__(status, said)
        self.status, self.said = status, said

    def __str__(self):
        return self.said


def in_words(said):
    """What the desk said of a refusal, with its meaning before it where it has one here."""
    try:
        found = json.loads(said)
        words = forms.QUESTIONS.get(found["name"], "").format(found.get("kept")) or forms.BROKEN.get(found.get("form"), "")
    except (ValueError, TypeError, KeyError, AttributeError):
        return said
    return f"{words}: {said}" if words else said


def run(words, given=b"", folder=None):
    """Runs the desk, and gives its status, what it wrote, and what it said on standard error."""
    ran = subprocess.run([PROGRAM, *words], input=given, stdout=subprocess.PIPE, stderr=subprocess.PIPE, cwd=folder)
    return ran.returncode, ran.stdout, ran.stderr.decode(errors="replace")


def text(dossier, day, reading="force"):
    """The answer to a dossier (its bytes, or what becomes them) on a day, and the bytes of it."""
    given = dossier if isinstance(dossier, bytes) else json.dumps(dossier, ensure_ascii=False).encode()
    status, wrote, said = run(["text", day, reading], given)
    if status:
        raise Failed(status, wrote.decode(errors="replace").strip() or said.strip())
    return json.loads(wrote), wrote


def refusal(dossier, day):
    """The line of the first fault or rule that refuses a dossier, or None."""
    try:
        text(dossier, day)
    except Failed as error:
        if error.status not in (9, 10):
            raise
        return json.loads(error.said)
    return None


def provisions(answer):
    """The provisions of an answer, from the top, each with its wId and the eId above it."""
    stack = [(it, "") for it in reversed(answer["body"])]
    while stack:
        node, above = stack.pop()
        yield node, node.get("wId", node["eId"]), above
        stack += [(it, node["eId"]) for it in reversed(node["children"])]


def wids(answer):
    """The wIds of an answer by its eIds."""
    return {node["eId"]: wid for node, wid, _ in provisions(answer)}
