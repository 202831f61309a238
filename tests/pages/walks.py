"""Three walks of a newcomer from the top of README.md, each under five minutes: to an answer of his own act, to a request that is served, and
to what is promised of a crash. He reads 200 words a minute, and types the commands of the page as they stand."""
import json
import os
import re
import socket
import subprocess
import time

import checks
from checks import TOP, check, read
from clients.served_desks import free_port

LIMIT, WORDS_A_MINUTE = 300, 200
BLOCK = re.compile(r"^```sh\n(.*?)^```$(?:\n\n```text\n(.*?)^```$)?", re.DOTALL | re.MULTILINE)
# The gate is no command of a walk: it takes hours.
GATE = ".ci/run\n"


def page(*path):
    return read(*path).decode()


def seconds(text):
    """How long a text takes to be read."""
    return len(text.split()) * 60 / WORDS_A_MINUTE


def up_to(text, mark):
    """A page from its top to the end of the line that has a mark; or all of it, many times, where none has."""
    found = re.search(mark, text)
    return text[: text.find("\n", found.end())] if found else text * LIMIT


def typed(line, folder):
    """What a command gave in a folder, as it is typed at the top, and how many seconds it took."""
    began = time.monotonic()
    done = subprocess.run(["sh", "-c", line], stdin=subprocess.DEVNULL, capture_output=True, timeout=LIMIT, cwd=folder)
    return (done.returncode, done.stdout, done.stderr), time.monotonic() - began


def served(line, folder):
    """The same of a command that serves a port, at another port, which is asked for the front until the command has served all connections."""
    began, port = time.monotonic(), free_port()
    line = re.sub(r"serve \d+", f"serve {port}", line)
    child = subprocess.Popen(["sh", "-c", line], stdin=subprocess.DEVNULL, stdout=subprocess.PIPE, stderr=subprocess.PIPE, cwd=folder)
    while child.poll() is None and time.monotonic() - began < LIMIT:
        try:
            with socket.create_connection(("127.0.0.1", port), timeout=5) as peer:
                peer.sendall(b"GET /front HTTP/1.1\r\nHost: desk\r\nConnection: close\r\n\r\n")
                while peer.recv(4096):
                    pass
        except OSError:
            time.sleep(0.01)
    child.kill()
    written, said = child.communicate()
    return (child.returncode, written, said), time.monotonic() - began


def place():
    """A folder in which the commands of the page find the script and the examples."""
    folder = checks.folder()
    os.symlink(checks.SCRIPT, os.path.join(folder.name, "lawdesk"))
    os.symlink(os.path.join(TOP, "examples"), os.path.join(folder.name, "examples"))
    return folder


def commands():
    """Each block of commands in README.md, in order in one folder: it is done, and writes what the page shows of it, if it shows that."""
    blocks = [block for block in BLOCK.findall(page("README.md")) if block[0] != GATE]
    check("blocks of README.md", len(blocks) >= 3, True)
    with place() as folder:
        for number, (line, shown) in enumerate(blocks, 1):
            (status, written, said), _ = (served if " serve " in line else typed)(line, folder)
            check(f"README.md, block {number}", (status, said), (0, b""))
            if shown:
                check(f"what README.md shows of block {number}", written.decode().rstrip("\n"), shown.rstrip("\n"))


def first(form):
    """The first block of README.md that has a form of the command line, and the page from its top to the end of that block."""
    for found in BLOCK.finditer(page("README.md")):
        if f"./lawdesk {form} " in found[1]:
            return found[1], page("README.md")[: found.end()]
    return "false", page("README.md") * LIMIT


def own_act():
    """The example of the page with another number, another num and other words is an act of his own, and the command of the page answers it."""
    line, above = first("text")
    example = re.search(r"examples/\w+\.json", line)
    example = example[0] if example else "examples/repeal.json"
    dossier = json.loads(read(*example.split("/")))
    dossier["act"]["FRBRuri"] = dossier["act"]["FRBRuri"].rsplit("/", 1)[0] + "/4711"
    dossier["act"]["body"][0]["content"] = "The reeve keeps the sluice."
    dossier["act"]["body"].append({"element": "section", "num": "99", "content": "The miller pays him."})
    with place() as folder:
        with open(os.path.join(folder, "mine.json"), "w") as file:
            json.dump(dossier, file)
        (status, written, said), took = typed(line.replace(example, "mine.json"), folder)
    answer = json.loads(written) if status == 0 else {"expression": "", "body": []}
    told = answer["expression"].split("/eng@")[0], [node["content"] for node in answer["body"]][:: len(answer["body"]) - 1 or 1]
    wanted = dossier["act"]["FRBRuri"], ["The reeve keeps the sluice.", "The miller pays him."]
    check("an answer of one's own act", (status, told, said), (0, wanted, b""))
    check("a walk to an answer of one's own act", seconds(above) + took < LIMIT, True)


def served_request():
    """The command of the page serves a request of his own that is typed in the place of those of the example."""
    line, above = first("batch")
    with place() as folder:
        with open(os.path.join(folder, "mine.http"), "wb") as file:
            file.write(b"GET /front HTTP/1.1\r\nHost: desk\r\n\r\n")
        (status, written, said), took = typed(re.sub(r"examples/\w+\.http", "mine.http", line), folder)
    check("a request of one's own", (status, written.split(b"\r\n")[0], written[-11:], said), (0, b"HTTP/1.1 200 OK", b'{"front":0}', b""))
    check("a walk to a request that is served", seconds(above) + took < LIMIT, True)


def promise_of_a_crash():
    """README.md names docs/GUARANTEES.md, where a crash is spoken of not far from the top."""
    read_first = up_to(page("README.md"), r"docs/GUARANTEES\.md")
    then = up_to(page("docs", "GUARANTEES.md"), r"(?i)\bcrash")
    check("a walk to what is promised of a crash", seconds(read_first) + seconds(then) < LIMIT, True)
