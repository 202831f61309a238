"""What is heard of a stream, reckoned anew from docs/PROTOCOL.md, and whether what was written are the responses to that."""
import json
import re
from urllib.parse import parse_qsl

from clients.messages import bad_form, closed, compact, front, refused

HEAD = 16_384
BODY = 8_388_608
TOKEN = rb"[!#$%&'*+.^_`|~0-9A-Za-z-]+"
REQUEST = re.compile(rb"(?:\r?\n)*(%s) ([!-~\x80-\xff]+) HTTP/1\.([01])\r?\n((?:%s:[\t -~\x80-\xff]*\r?\n)*)\r?\n" % (TOKEN, TOKEN))
FIELD = re.compile(rb"([^:\n]*):([^\n]*)\n")
RESPONSE = re.compile(rb"HTTP/1\.1 (\d{3}) [A-Z][A-Za-z ]*\r\n(?:Allow: (?:GET|POST)\r\n)?(Connection: close\r\n)?"
                      rb"Content-Length: (0|[1-9][0-9]*)\r\nContent-Type: application/json\r\n\r\n")
PATHS = {"/front": "GET", "/text": "GET", "/preview": "GET", "/draft": "GET", "/commands": "POST"}
STATUSES = {"/text": (200, 400, 404, 409), "/preview": (200, 400, 404), "/draft": (200, 400), "/commands": (201, 400, 404, 409)}


def values_of(fields, name):
    return [value for other, value in fields if other.lower() == name]


def framed(head):
    """What a head says: (method, target, whether the stream is closed after it, how long its body is), or the number of a refusal."""
    found = REQUEST.fullmatch(head)
    if not found:
        return 1
    method, target, minor, lines = found.groups()
    fields = [(name, value.strip(b"\r").strip(b" \t")) for name, value in FIELD.findall(lines)]
    hosts, lengths = len(values_of(fields, b"host")), values_of(fields, b"content-length")
    try:
        target = target.decode()
    except UnicodeDecodeError:
        return 1
    if len(fields) > 64 or hosts > 1 or (hosts == 0 and minor == b"1") or len(lengths) > 1:
        return 1
    if lengths and not re.fullmatch(rb"[0-9]{1,19}", lengths[0]):
        return 1
    if values_of(fields, b"transfer-encoding"):
        return 5
    if method == b"POST" and not lengths:
        return 3
    length = int(lengths[0]) if lengths else 0
    if length > BODY:
        return 4
    words = [word.strip(b" \t").lower() for value in values_of(fields, b"connection") for word in value.split(b",")]
    return method.decode(), target, minor == b"0" or b"close" in words, length


def heard(stream):
    """The members of a stream: (method, target, whether it is the last), or the number of a refusal."""
    place = 0
    while True:
        while stream.startswith(b"\r\n", place):
            place += 2
        if place == len(stream):
            return
        end = stream.find(b"\r\n\r\n", place, place + HEAD)
        if end < 0:
            yield 9 if len(stream) - place < HEAD else 2
            return
        said = framed(stream[place:end + 4])
        if isinstance(said, tuple):
            method, target, last, length = said
            place = end + 4 + length
            if place > len(stream):
                said = 9
        if not isinstance(said, tuple):
            yield said
            return
        yield method, target, last
        if last:
            return


def foreseen(method, target, last, laws):
    """The response, where the request and the number of law entries tell all of it."""
    path, _, query = target.partition("?")
    if path not in PATHS:
        return refused(6, last=last)
    if method != PATHS[path]:
        return refused(7, PATHS[path], last)
    if path == "/front":
        return bad_form(2, last=last) if parse_qsl(query, keep_blank_values=True) else front(laws, last)
    return None


def next_response(written):
    """The status, whether it closes, the object, and the bytes of the response in front; or None."""
    found = RESPONSE.match(written)
    if not found:
        return None
    length = int(found[3])
    body = written[found.end():found.end() + length]
    try:
        value = json.loads(body)
    except ValueError:
        return None
    if len(body) < length or compact(value).encode() != body:
        return None
    return int(found[1]), found[2] is not None, value, written[:found.end() + length]


def fault_of(stream, status, written):
    """What is wrong with what was written of a stream and with the status; None where all is right."""
    laws, ends = 0, 0
    for number, member in enumerate(heard(stream), 1):
        got = next_response(written)
        if got is None:
            return f"no response {number}"
        code, last, value, message = got
        if isinstance(member, int):
            wanted, ends = closed(member), 1
        else:
            wanted = foreseen(*member, laws)
        if wanted is not None and message != wanted:
            return f"response {number} is {message[:80]}, wanted {wanted[:80]}"
        if wanted is None and (code not in STATUSES[member[1].partition("?")[0]] or last != member[2]):
            return f"response {number} has {code}, closing {last}"
        laws = value["law"] if code == 201 and value.get("law", 0) > laws else laws
        written = written[len(message):]
    if written or status != ends:
        return f"status {status}, wanted {ends}, and {len(written)} bytes more"
    return None
