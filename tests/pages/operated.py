"""The files of examples/ by which a desk is operated behind a proxy: the unit has words of the program, both name the same port, their limits are
those of the desk, and systemd and nginx take them, where they are installed."""
import os
import re
import shutil
import subprocess
import tempfile

import checks
from checks import check, read
from clients.served_desks import LATE
from clients.served_streams import placed
from devices.journal_file import EXAMPLE
from pages.manual import number

UNIT, PROXY = (read("examples", name).decode() for name in ("lawdesk.service", "nginx.conf"))


def port_of(text, pattern):
    """The only port that a file names so."""
    found = set(re.findall(pattern, text))
    return found.pop() if len(found) == 1 else found


def unit():
    """A desk that the unit starts over a damaged file says so and ends with 6, for which it is not started again."""
    program, *words = re.search(r"^ExecStart=(.*)$", UNIT, re.MULTILINE)[1].split()
    check("the unit's program", os.path.basename(program), os.path.basename(checks.SCRIPT))
    with checks.folder() as folder:
        placed(folder, EXAMPLE)
        done = subprocess.run([checks.PROGRAM, *words], stdin=subprocess.DEVNULL, capture_output=True, cwd=folder, timeout=LATE)
        check("the words of the unit, over a damaged file", (done.returncode, done.stdout), (6, b'{"damaged":"order","number":1,"rule":8}\n'))
    check("statuses that are not tried again", re.search(r"^RestartPreventExitStatus=(.*)$", UNIT, re.MULTILINE)[1], "2 6")
    if not shutil.which("systemd-analyze"):
        checks.skip("the unit as systemd reads it", "systemd-analyze is not installed")
        return
    with tempfile.TemporaryDirectory() as folder:
        path = os.path.join(folder, "lawdesk.service")
        with open(path, "w") as out:
            out.write(UNIT.replace(program, checks.SCRIPT))
        done = subprocess.run(["systemd-analyze", "verify", path], capture_output=True, timeout=60)
        check("the unit by systemd-analyze", (done.returncode, [line for line in done.stderr.splitlines() if b"lawdesk" in line]), (0, []))


def proxy():
    """The proxy passes on to the unit's port, and takes bodies as long as the desk does."""
    check("the port of the proxy and of the unit", port_of(PROXY, r"server 127\.0\.0\.1:([0-9]+) "), port_of(UNIT, r"serve ([0-9]+) "))
    body = int(re.search(r"client_max_body_size ([0-9]+);", PROXY)[1])
    check("the longest body of the proxy and of the desk", body, number("akn_json/src/reading/bytes.rt MAX_DOSSIER_BYTES"))
    missing = [tool for tool in ("nginx", "openssl") if not shutil.which(tool, path="/usr/sbin:" + os.environ["PATH"])]
    if missing:
        checks.skip("the proxy as nginx reads it", f"{missing[0]} is not installed")
        return
    with tempfile.TemporaryDirectory() as folder:
        key, certificate, whole = (os.path.join(folder, name) for name in ("key", "certificate", "nginx.conf"))
        words = ["-x509", "-newkey", "rsa:2048", "-nodes", "-keyout", key, "-out", certificate, "-days", "1", "-subj", "/CN=a"]
        subprocess.run(["openssl", "req", *words], capture_output=True, timeout=60, check=True)
        with open(whole, "w") as out:
            snippet = re.sub(r"(ssl_certificate) [^;]*", rf"\1 {certificate}", PROXY)
            out.write(f"pid {folder}/pid;\nerror_log {folder}/errors;\nevents {{}}\nhttp {{\n"
                      + re.sub(r"(ssl_certificate_key) [^;]*", rf"\1 {key}", snippet) + "}\n")
        done = subprocess.run(["nginx", "-t", "-q", "-c", whole], capture_output=True, timeout=60, env={"PATH": "/usr/sbin:" + os.environ["PATH"]})
        check("the proxy by nginx", (done.returncode, done.stderr), (0, b""))
