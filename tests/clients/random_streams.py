"""A million bytes and more of random streams, and of streams of requests in which bytes were changed."""
import random
import time

from checks import check
from clients.messages import batch
from models import requests_heard
from rows import histories, queries, refusals

RANDOM = 300_000
MUTATED = 900_000
ALPHABETS = [bytes(range(256)), b"\r\n", b"GET /front HTTP/1.1\r\nHost: a\r\n\r\n", b"\r\n: ,;=%&?/aA0\x00\x7f\xff"]
PARTS = [b"\r\n", b"\n", b"\r\n\r\n", b" ", b":", b"Host: b\r\n", b"Content-Length: 9\r\n", b"Connection: close\r\n", b"HTTP/1.0", b"POST", b"?",
         b"&", b"%", b"%ff", b"Transfer-Encoding: x\r\n", b"\x00", b"\xc3", b'"', b"{", b"}", b"1"]
REQUESTS = [given for rows in (histories.WITHDRAWN, histories.CORRECTED, histories.REPEATED, histories.PORTIONS) for given, _ in rows]
REQUESTS += [given for _, given, _ in queries.ROWS + refusals.ON if len(given) < 1000]


def random_streams(r):
    """Streams of random bytes, some of few kinds of bytes, some as long as a head may be."""
    left = RANDOM
    while left > 0:
        length = r.choice([r.randrange(100), r.randrange(2000), r.randrange(requests_heard.HEAD - 5, requests_heard.HEAD + 5)])
        alphabet = r.choice(ALPHABETS)
        left -= length
        yield bytes(r.choice(alphabet) for _ in range(length))


def changed(r, given):
    """A stream with a byte changed, taken out or doubled, a part put in, or its end cut off."""
    place = r.randrange(len(given))
    return r.choice([
        lambda: given[:place] + bytes([r.randrange(256)]) + given[place + 1:],
        lambda: given[:place] + given[place + 1:],
        lambda: given[:place] + given[place:place + r.randrange(1, 20)] + given[place:],
        lambda: given[:place] + r.choice(PARTS) + given[place:],
        lambda: given[:place] + r.choice(PARTS) + given[place:],
        lambda: given[:place],
    ])()


def mutated_streams(r):
    """Requests one after another, of which some were changed."""
    left = MUTATED
    while left > 0:
        requests = [histories.ENACTED_ALONE] + [r.choice(REQUESTS) for _ in range(r.randrange(1, 12))]
        stream = b"".join(changed(r, given) if r.random() < 0.25 else given for given in requests)
        left -= len(stream)
        yield stream


def noise():
    """Each stream ends with 0 or 1, and what was written are the responses to what is heard of it, and nothing else."""
    for name, streams in (("random", random_streams), ("mutated", mutated_streams)):
        seed = time.time_ns() % 1_000_000_000
        print(f"{name} streams of seed {seed}")
        wrong = []
        for stream in streams(random.Random(seed)):
            found = requests_heard.fault_of(stream, *batch(stream))
            if found:
                wrong.append((found, stream))
        check(f"{name} streams of seed {seed}", (len(wrong), wrong[:1]), (0, []))
