"""Requests that are refused, and such that just are not: each refusal on each of its conditions, each two neighbours in the order of
judgement that can hold at once, and each limit at its number and one past it. They were written by hand, from docs/PROTOCOL.md.

After the rows of CLOSED nothing is heard any more and the run ends with 1; after those of ON the stream goes on; after those of LAST
nothing is heard any more, since the client asked for it. A row is (name, what is sent, the response).

In the order of judgement - the head ends early, its limit, its form, a transfer coding, no length, the length's limit, the body ends early,
no route, another method, the form of query and body - these neighbours can't hold at once:

- a head that ends early has fewer bytes than the limit, and one past the limit has them all;
- where there is no length, none is too great, and no body ends early;
- a path that is none has no other method.
"""
from clients.messages import bad_form, closed, front, get, head, post, refused

LIMIT = 8_388_608
HEAD = 16_384
HOST = "Host: a"
HTML = b"<p>"


def lines(first="GET /front HTTP/1.1", *fields):
    """A head with a Host field, and with these."""
    return head(first, HOST, *fields)


def sent(*fields, body=b"", first="POST /commands HTTP/1.1"):
    """A head with these fields, and a body of which nothing else is said."""
    return lines(first, *fields) + body


def of_length(count, first="GET /front HTTP/1.1"):
    """A head of so many bytes."""
    short = lines(first, "X: ")
    return lines(first, "X: " + "x" * (count - len(short)))


def fields(count):
    """A head with so many fields."""
    return lines("GET /front HTTP/1.1", *(f"X{k}: y" for k in range(1, count)))


ENDS_EARLY = [
    ("one letter", b"G"),
    ("a part of a line", b"GET /fr"),
    ("a line", b"GET /front HTTP/1.1\r\n"),
    ("a head without its last line end", lines()[:-2]),
    ("a head without its last byte", lines()[:-1]),
    ("a CR alone", b"\r"),
    ("a LF alone", b"\n"),
    ("empty lines and a CR", b"\r\n\r\n\r"),
    ("lines that end in LF alone", b"GET /front HTTP/1.1\nHost: a\n\n"),
    ("no head in one byte less than the limit", b"x" * (HEAD - 1)),
    ("a head of the limit without its last byte", of_length(HEAD)[:-1]),
    # and the form of the head would be refused
    ("a part of no request", b"(\x00"),
    ("no request in one byte less than the limit", b"(" * (HEAD - 1)),
]

TOO_LONG = [
    ("no head in as many bytes as the limit", b"x" * HEAD),
    ("no head in 20,000 bytes", b"\x00" * 20_000),
    ("a head of one byte more than the limit", of_length(HEAD + 1)),
    ("a head of twice the limit", of_length(2 * HEAD)),
    ("a target that is too long", get("/" + "x" * HEAD)),
    ("a head that is too long, behind empty lines", b"\r\n" * 3 + of_length(HEAD + 1)),
    ("lines that end in LF alone, as many as the limit", b"a\n\n" * (HEAD // 3) + b"a"),
    # and the form of the head would be refused
    ("no request in as many bytes as the limit", b"(" * HEAD),
    ("a head that is too long and has no Host", head("GET /front HTTP/1.1", "X: " + "x" * HEAD)),
    ("a head that is too long with two Hosts", lines("GET /front HTTP/1.1", HOST, "X: " + "x" * HEAD)),
]

# Heads that are sent byte by byte, too.
ABOUT_THE_LIMIT = ("no head in one byte less than the limit", "no head in as many bytes as the limit", "a head of the limit",
                   "a head of one byte more than the limit")

# What the grammar of a request line and of fields does not have.
NO_HEAD = [
    ("no version", lines("GET /front")),
    ("no target", lines("GET HTTP/1.1")),
    ("no method", lines("/front HTTP/1.1")),
    ("two blanks in the line", lines("GET  /front HTTP/1.1")),
    ("two blanks before the version", lines("GET /front  HTTP/1.1")),
    ("a tab in the line", lines("GET\t/front HTTP/1.1")),
    ("a blank at the line's front", lines(" GET /front HTTP/1.1")),
    ("a blank at the line's end", lines("GET /front HTTP/1.1 ")),
    ("a blank in the target", lines("GET /fr ont HTTP/1.1")),
    ("HTTP/2.0", lines("GET /front HTTP/2.0")),
    ("HTTP/1.2", lines("GET /front HTTP/1.2")),
    ("HTTP/0.9", lines("GET /front HTTP/0.9")),
    ("HTTP/1.10", lines("GET /front HTTP/1.10")),
    ("http/1.1", lines("GET /front http/1.1")),
    ("a method with a parenthesis", lines("GE(T /front HTTP/1.1")),
    ("a control byte in the target", lines("GET /fr\x01ont HTTP/1.1")),
    ("a deletion in the target", lines("GET /fr\x7font HTTP/1.1")),
    ("a response", lines("HTTP/1.1 200 OK")),
    ("a field without a colon", lines("GET /front HTTP/1.1", "Accept")),
    ("a field without a name", lines("GET /front HTTP/1.1", ": x")),
    ("a blank before a colon", lines("GET /front HTTP/1.1", "Accept : x")),
    ("a blank in a field's name", lines("GET /front HTTP/1.1", "Ac cept: x")),
    ("a field that is folded", lines("GET /front HTTP/1.1", "Accept: x", " y")),
    ("a field that is folded by a tab", lines("GET /front HTTP/1.1", "Accept: x", "\ty")),
    ("a NUL in a field", lines("GET /front HTTP/1.1", "Accept: \x00")),
    ("a deletion in a field", lines("GET /front HTTP/1.1", "Accept: \x7f")),
    ("a CR in a field", lines("GET /front HTTP/1.1", "Accept: x\ry")),
    ("a name past ASCII", lines("GET /front HTTP/1.1", "Acc\u00e9pt: x")),
    ("a line of LF alone that ends the head", b"GET /front HTTP/1.1\r\nHost: a\r\n\nX: y\r\n\r\n"),
    ("65 fields", fields(65)),
    ("66 fields", fields(66)),
]

BAD_FIELDS = [
    ("no Host", head("GET /front HTTP/1.1")),
    ("no Host beside other fields", head("GET /front HTTP/1.1", "Hosts: a", "X-Host: a")),
    ("two Hosts", lines("GET /front HTTP/1.1", "Host: b")),
    ("one Host twice", lines("GET /front HTTP/1.1", HOST)),
    ("two Hosts in another case", lines("GET /front HTTP/1.1", "HOST: a")),
    ("three Hosts", lines("GET /front HTTP/1.1", HOST, HOST)),
    ("two Hosts in HTTP/1.0", lines("GET /front HTTP/1.0", HOST)),
    ("two lengths", sent("Content-Length: 2", "Content-Length: 3", body=b"{}")),
    ("one length twice", sent("Content-Length: 2", "Content-Length: 2", body=b"{}")),
    ("one length twice in another case", sent("Content-Length: 2", "content-length: 2", body=b"{}")),
    ("one length twice for a GET", lines("GET /front HTTP/1.1", "Content-Length: 0", "Content-Length: 0")),
    *((f"the length '{value}'", sent(f"Content-Length: {value}", body=b"{}")) for value in (
        "", "+2", "-2", "2,2", "2, 2", "2 2", "0x2", "2.0", "2e0", "\u0662", '"2"', "two", "2;", "00000000000000000002", "18446744073709551616")),
    ("no length for a GET either", lines("GET /front HTTP/1.1", "Content-Length: x")),
    ("a target that is no UTF-8", b"GET /fr\xff HTTP/1.1\r\nHost: a\r\n\r\n"),
    ("a query that is no UTF-8", b"GET /front?\xc3 HTTP/1.1\r\nHost: a\r\n\r\n"),
    ("a target that spells a surrogate", b"GET /\xed\xa0\x80 HTTP/1.1\r\nHost: a\r\n\r\n"),
]

# Each condition of the form, and a transfer coding, no length, a length that is too great, or a body that ends early beside it.
BAD_AND_MORE = [
    ("no version, and a coding", lines("GET /front", "Transfer-Encoding: chunked")),
    ("65 fields, one of them a coding", lines("GET /front HTTP/1.1", "Transfer-Encoding: chunked", *(f"X{k}: y" for k in range(63)))),
    ("no Host, and a coding", head("GET /front HTTP/1.1", "Transfer-Encoding: chunked")),
    ("two Hosts, and a coding", lines("GET /front HTTP/1.1", HOST, "Transfer-Encoding: chunked")),
    ("two lengths, and a coding", sent("Content-Length: 2", "Content-Length: 2", "Transfer-Encoding: chunked", body=b"{}")),
    ("a length that is none, and a coding", sent("Content-Length: x", "Transfer-Encoding: chunked")),
    ("no UTF-8, and a coding", b"GET /\xff HTTP/1.1\r\nHost: a\r\nTransfer-Encoding: chunked\r\n\r\n"),
    ("no Host, and no length", head("POST /commands HTTP/1.1")),
    ("two Hosts, and no length", lines("POST /commands HTTP/1.1", HOST)),
    ("no Host, and a great length", head("POST /commands HTTP/1.1", f"Content-Length: {LIMIT + 1}")),
    ("two great lengths", sent(f"Content-Length: {LIMIT + 1}", f"Content-Length: {LIMIT + 1}")),
    ("no Host, and a body that ends early", head("POST /commands HTTP/1.1", "Content-Length: 5") + b"{}"),
    ("no Host, and no route", head("GET /none HTTP/1.1")),
    ("no Host, and another method", head("DELETE /front HTTP/1.1")),
    ("no Host, and a bad query", head("GET /front?x HTTP/1.1")),
]

CODED = [
    *((f"the coding '{value}'", lines("GET /front HTTP/1.1", f"Transfer-Encoding: {value}")) for value in (
        "chunked", "Chunked", "gzip", "identity", "gzip, chunked", "", ",")),
    ("a coding in another case", lines("GET /front HTTP/1.1", "tRANSFER-eNCODING: chunked")),
    ("two codings", lines("GET /front HTTP/1.1", "Transfer-Encoding: gzip", "Transfer-Encoding: chunked")),
    ("a coding in HTTP/1.0", lines("GET /front HTTP/1.0", "Transfer-Encoding: chunked")),
    ("a chunked body", sent("Transfer-Encoding: chunked", body=b"2\r\n{}\r\n0\r\n\r\n")),
    ("a coding beside a length", sent("Transfer-Encoding: chunked", "Content-Length: 2", body=b"{}")),
    # and no length, or a great one, or a body that ends early, or what is judged later
    ("a coding, and no length", lines("POST /commands HTTP/1.1", "Transfer-Encoding: identity")),
    ("a coding, and a great length", sent("Transfer-Encoding: chunked", f"Content-Length: {LIMIT + 1}")),
    ("a coding, and a body that ends early", sent("Transfer-Encoding: chunked", "Content-Length: 5", body=b"{}")),
    ("a coding, and no route", lines("GET /none HTTP/1.1", "Transfer-Encoding: chunked")),
]

NO_LENGTH = [
    ("a command without a length", lines("POST /commands HTTP/1.1")),
    ("a command without a length in HTTP/1.0", lines("POST /commands HTTP/1.0")),
    ("a command without a length, and a body", sent(body=b"{}")),
    ("a field with a like name", sent("Content-Lengths: 2", "X-Content-Length: 2", body=b"{}")),
    # and no route, or another method, or a bad query
    ("a POST without a length, and no route", lines("POST /none HTTP/1.1")),
    ("a POST without a length, and another method", lines("POST /front HTTP/1.1")),
    ("a POST without a length, and a bad query", lines("POST /commands?x HTTP/1.1")),
]

GREAT_LENGTH = [
    ("a body of one byte more than the limit", sent(f"Content-Length: {LIMIT + 1}", body=b" " * (LIMIT + 1))),
    ("a great length with zeros in front", sent(f"Content-Length: {LIMIT + 1:019}")),
    ("the greatest length of 19 digits", sent("Content-Length: 9999999999999999999")),
    ("a great length for a GET", lines("GET /front HTTP/1.1", f"Content-Length: {LIMIT + 1}")),
    # and a body that ends early, no route, another method, a bad query
    ("a great length, and a body that ends early", sent(f"Content-Length: {LIMIT + 1}", body=b"{}")),
    ("a great length, and no route", lines("GET /none HTTP/1.1", f"Content-Length: {LIMIT + 1}")),
    ("a great length, and another method", lines("DELETE /front HTTP/1.1", f"Content-Length: {LIMIT + 1}")),
    ("a great length, and a bad query", lines("GET /front?x HTTP/1.1", f"Content-Length: {LIMIT + 1}")),
]

BODY_ENDS_EARLY = [
    ("a body without its last byte", sent("Content-Length: 3", body=b"{}")),
    ("no byte of a body", sent("Content-Length: 1")),
    ("a body of the limit without its last byte", sent(f"Content-Length: {LIMIT}", body=b" " * (LIMIT - 1))),
    ("a GET with a body that ends early", lines("GET /front HTTP/1.1", "Content-Length: 2") + b"{"),
    # and no route, another method, a bad query, a bad body
    ("a body that ends early, and no route", lines("GET /none HTTP/1.1", "Content-Length: 2") + b"{"),
    ("a body that ends early, and another method", lines("PUT /commands HTTP/1.1", "Content-Length: 2") + b"{"),
    ("a body that ends early, and a bad query", lines("GET /front?x HTTP/1.1", "Content-Length: 2") + b"{"),
    ("a body that ends early, and is no JSON", sent("Content-Length: 4", body=HTML)),
]

CLOSED = [(name, given, closed(number)) for number, table in (
    (9, ENDS_EARLY), (2, TOO_LONG), (1, NO_HEAD), (1, BAD_FIELDS), (1, BAD_AND_MORE), (5, CODED), (3, NO_LENGTH), (4, GREAT_LENGTH),
    (9, BODY_ENDS_EARLY)) for name, given in table]

NO_ROUTE = [
    *((f"the path {path}", get(path)) for path in (
        "/", "/fron", "/fronts", "/front/", "/Front", "//front", "/./front", "/%66ront", "/front%3F", "/front;x", "/front#x", "front", "*",
        "http://a/front", "?", "?/front", "/fr\u00e9", "/texts", "/command", "/commands/", "/commands/1", "/none?x", "/x?/front")),
    ("OPTIONS of all", lines("OPTIONS * HTTP/1.1")),
    ("CONNECT", lines("CONNECT a:80 HTTP/1.1")),
    ("HEAD of no path", lines("HEAD /none HTTP/1.1")),
    ("a POST to no path", post("/none", b"{}")),
    # and a bad query, or a bad body
    ("no path, and a bad query", get("/none?x=1&x=2")),
    ("no path, and a body that is no JSON", post("/none", HTML)),
]

OTHER_METHOD = [
    ("POST", "/front", "GET"), ("HEAD", "/front", "GET"), ("PUT", "/front", "GET"), ("get", "/front", "GET"), ("GETS", "/front", "GET"),
    ("OPTIONS", "/front", "GET"), ("DELETE", "/text", "GET"), ("POST", "/text", "GET"), ("HEAD", "/text", "GET"),
    ("!#$%&'*+-.^_`|~9", "/text", "GET"),
    ("GET", "/commands", "POST"), ("HEAD", "/commands", "POST"), ("PUT", "/commands", "POST"), ("post", "/commands", "POST"),
    ("PATCH", "/commands", "POST"),
    # and a bad query
    ("PUT", "/front?x", "GET"), ("POST", "/text", "GET"), ("POST", "/text?x=1", "GET"), ("GET", "/commands?x", "POST"),
]

# What is right with a query stands in queries.py, and with the body of a command in register.py.
BAD_FORM = [
    ("a query for the front", get("/front?x=1"), bad_form(2)),
    ("a command in the query", post("/commands?drafter=ada", b"{}"), bad_form(2)),
    ("an empty body", post("/commands", b""), bad_form(1)),
    ("a body that is no JSON", post("/commands", HTML), bad_form(1)),
    ("a body that has no keys", post("/commands", b"{}"), bad_form(2)),
    # the query is judged before the body
    ("a bad query, and a bad body", post("/commands?x", HTML), bad_form(2)),
]

# What is just no refusal: at a limit, or by a field that is not read.
RIGHT = [
    ("empty lines in front", b"\r\n" * 9000 + lines()),
    ("a LF in front", b"\n" + lines()),
    ("lines that end in LF alone, but the last", b"GET /front HTTP/1.1\nHost: a\r\n\r\n"),
    ("a head of the limit", of_length(HEAD)),
    ("a head of the limit behind empty lines", b"\r\n" * 9000 + of_length(HEAD)),
    ("64 fields", fields(64)),
    ("a length of 19 digits", lines("GET /front HTTP/1.1", f"Content-Length: {2:019}") + b"{}"),
    ("a length between blanks", lines("GET /front HTTP/1.1", "Content-Length:\t 2 \t") + b"{}"),
    ("a length without a blank", lines("GET /front HTTP/1.1", "Content-Length:2") + b"{}"),
    ("a body of the limit for a GET", lines("GET /front HTTP/1.1", f"Content-Length: {LIMIT}") + b" " * LIMIT),
    ("a body that is a request", lines("GET /front HTTP/1.1", f"Content-Length: {len(lines())}") + lines()),
    ("a Host of nothing", head("GET /front HTTP/1.1", "Host:")),
    ("a Host that is none", head("GET /front HTTP/1.1", "hOST: /\\ a b")),
    ("a field past ASCII", lines("GET /front HTTP/1.1", "X: \u00e9\t ~")),
    ("an empty query", get("/front?")),
    ("a query of no pairs", get("/front?&&")),
    *((f"the field {field}", lines("GET /front HTTP/1.1", field)) for field in (
        "Expect: 100-continue", "Content-Encoding: gzip", "If-Match: x", "Range: bytes=0-1", "Upgrade: h2c", "Accept: text/html", "TE: chunked",
        "Connection: keep-alive", "Connection:", "Connection: closed", "Connection: clo se", 'Connection: "close"', "Connection: close;",
        "Connection: x/close", "X-Connection: close", "Proxy-Connection: close")),
]

ON = ([(name, given, refused(6)) for name, given in NO_ROUTE]
      + [(f"{method} {path}", lines(f"{method} {path} HTTP/1.1", "Content-Length: 0"), refused(7, allow)) for method, path, allow in OTHER_METHOD]
      + [("another method, and a body that is no JSON", lines("PUT /commands HTTP/1.1", "Content-Length: 3") + HTML, refused(7, "POST"))]
      + BAD_FORM + [(name, given, front(0)) for name, given in RIGHT])

LAST = [
    *((f"the field {field}", lines("GET /front HTTP/1.1", field), front(0, last=True)) for field in (
        "Connection: close", "connection: CLOSE", "Connection:close", "Connection: keep-alive, close", "Connection: close,keep-alive",
        "Connection: x ,\tClose\t, y", "Connection: ,close,")),
    ("two Connection fields", lines("GET /front HTTP/1.1", "Connection: close", "Connection: keep-alive"), front(0, last=True)),
    ("two Connection fields in another order", lines("GET /front HTTP/1.1", "Connection: x", "Connection: close"), front(0, last=True)),
    ("HTTP/1.0", lines("GET /front HTTP/1.0"), front(0, last=True)),
    ("HTTP/1.0 without a Host", head("GET /front HTTP/1.0"), front(0, last=True)),
    ("HTTP/1.0 that would stay", lines("GET /front HTTP/1.0", "Connection: keep-alive"), front(0, last=True)),
    ("no path, and close", lines("GET /none HTTP/1.1", "Connection: close"), refused(6, last=True)),
    ("no path in HTTP/1.0", lines("GET /none HTTP/1.0"), refused(6, last=True)),
    ("another method, and close", lines("HEAD /front HTTP/1.1", "Connection: close"), refused(7, "GET", last=True)),
    ("a bad query, and close", get("/text", "Connection: close"), bad_form(2, last=True)),
    ("a bad body in HTTP/1.0", lines("POST /commands HTTP/1.0", "Content-Length: 2") + b"{}", bad_form(2, last=True)),
]
