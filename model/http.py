"""HTTP: what is read of a connection, and what is replied: FORMATS, "HTTP"."""

import re
from collections import namedtuple

from model.json_replies import asks_for_json, body_of
from model.refusals import Refused, refuse_if
from model.requests import BRANCH_COMMANDS, read_days, read_request

TEXT, FORBIDDEN = "text/plain; charset=utf-8", ("403 Forbidden", "forbidden\n")
MAX_HEAD, MAX_HEADERS, MAX_BODY = 16_384, 32, 8_388_608
# A head, with its headers as pairs of a name in small letters and a value, and where it ends
Head = namedtuple("Head", "method target headers end")

EMPTY_LINES = re.compile(rb"(?:\r?\n)*")
TOKEN = re.compile(rb"[!#$%&'*+.^_`|~0-9A-Za-z-]*")
TARGET = re.compile(rb"[\x21-\x7e\x80-\xff]*")
VALUE = re.compile(rb"[\t\x20-\x7e\x80-\xff]*")
HOST = re.compile(rb"(?:[lL][oO][cC][aA][lL][hH][oO][sS][tT]|127\.0\.0\.1|\[::1\])(?::[0-9]*)?")
LENGTH = re.compile(rb"0*([0-9]{1,7})")
# The reports that have a path, and the keys whose values are its further parts
PATHS = {
    "accounts": ["branch"],
    "balance": ["branch", "day"],
    "branches": [],
    "commodities": [],
    "journal": ["branch"],
    "register": ["branch"],
    "transfers": ["day"],
    "transit": ["day"],
}
COMMANDS_OF = re.compile("/commands/([^/]+)", re.S)
BAD_ESCAPE = re.compile(r"%(?![0-9A-Fa-f]{2})")
ESCAPE = re.compile(rb"%(..)")


class NoAnswer(Exception):
    """What is replied that is no answer: its status, and its body."""


class Cut(Exception):
    """The bytes end inside a request. If that is in its head, the shortest head that begins with them has so many bytes
    more, and inside a target it is not asked how many."""

    def __init__(self, missing=0):
        super().__init__(missing)
        self.missing = missing


def line_end(data, place, missing):
    """FORMATS, "HTTP": the place behind a line's end, CR LF or LF; behind that, so many bytes are missing at least."""
    if data.startswith((b"\n", b"\r\n"), place):
        return data.index(b"\n", place) + 1
    if data[place:] in (b"", b"\r"):
        raise Cut(1 + missing)
    raise Refused(44)


def word(pattern, data, place, end, missing):
    """A part of a head that has a byte at least, and the byte that ends it; and the place behind that byte."""
    found = pattern.match(data, place)
    if found.end() == len(data):
        raise Cut(missing + (1 if missing and not found[0] else 0))
    refuse_if(not found[0] or not data.startswith(end, found.end()), 44)
    return found[0], found.end() + 1


def read_version(data, place):
    """FORMATS, "HTTP": a head is that of HTTP/1.0 or HTTP/1.1."""
    version = data[place : place + 8]
    if len(version) < 8 and b"HTTP/1.1".startswith(version):
        raise Cut(8 - len(version) + 2)
    refuse_if(version not in (b"HTTP/1.0", b"HTTP/1.1"), 44)
    return line_end(data, place + 8, 1)


def read_head(data):
    """FORMATS, "HTTP": the head of a request (44)."""
    place = EMPTY_LINES.match(data).end()
    if data[place:] == b"\r":
        raise Cut(15)
    method, place = word(TOKEN, data, place, b" ", 13)
    target, place = word(TARGET, data, place, b" ", 0)
    try:
        method, target = method.decode(), target.decode()
    except UnicodeDecodeError:
        raise Refused(44) from None
    place = read_version(data, place)
    headers = []
    while data[place : place + 1] not in (b"", b"\r", b"\n"):
        refuse_if(len(headers) == MAX_HEADERS, 44)
        name, place = word(TOKEN, data, place, b":", 3)
        value = VALUE.match(data, place)
        place = line_end(data, value.end(), 1)
        headers.append((name.lower(), value[0].strip(b" \t")))
    return Head(method, target, headers, line_end(data, place, 0))


def read_whole_head(data):
    """RULES, "Limits": a head within its limit (44, also if the bytes end where no head within it could begin so)."""
    try:
        head = read_head(data)
    except Cut as cut:
        refuse_if(len(data) + cut.missing > MAX_HEAD, 44)
        raise
    refuse_if(head.end > MAX_HEAD, 44)
    return head


def values(head, name):
    """The values of all headers of a name."""
    return [value for other, value in head.headers if other == name]


def is_foreign(head):
    """FORMATS, "HTTP": whether one of the three headers is not missing, and not there once with one of its values."""
    hosts, origins, sites = values(head, b"host"), values(head, b"origin"), values(head, b"sec-fetch-site")
    return (
        bool(hosts and not (len(hosts) == 1 and HOST.fullmatch(hosts[0])))
        or bool(origins and not (len(hosts) == 1 and origins == [b"http://" + hosts[0]]))
        or bool(sites and sites not in ([b"same-origin"], [b"none"]))
    )


def read_body(head, data):
    """FORMATS, "HTTP": the body of a `POST` (44)."""
    lengths = values(head, b"content-length")
    refuse_if(len(lengths) != 1 or values(head, b"transfer-encoding"), 44)
    length = LENGTH.fullmatch(lengths[0])
    refuse_if(not length or int(length[1]) > MAX_BODY, 44)
    end = head.end + int(length[1])
    if len(data) < end:
        raise Cut
    return data[head.end : end]


def decoded(text):
    """FORMATS, "HTTP": a key or a value of a query without its escapes (44)."""
    refuse_if(BAD_ESCAPE.search(text), 44)
    try:
        return ESCAPE.sub(lambda it: bytes([int(it[1], 16)]), text.encode()).decode()
    except UnicodeDecodeError:
        raise Refused(44) from None


def read_query(query):
    """FORMATS, "HTTP": the keys of a register's query (44)."""
    pairs = [piece.partition("=") for piece in query.split("&")]
    refuse_if(any(not sign for _, sign, _ in pairs), 44)
    keys = {decoded(key): decoded(value) for key, _, value in pairs}
    refuse_if(len(keys) < len(pairs) or not {"account"} <= set(keys) <= {"account", "tag", "from"}, 44)
    return keys


def command_of(branch, text):
    """FORMATS, "HTTP": the request of a body, which has to be a command of the branch (44 comes before that)."""
    keys = read_request(text)
    if keys.get(BRANCH_COMMANDS.get(keys["do"])) != branch:
        raise NoAnswer(*FORBIDDEN)
    return keys


def report_asked(head):
    """FORMATS, "HTTP": the request of a path (44 for a date or a query that is none), if there is such a route."""
    path, _, query = head.target.partition("?")
    do, *parts = path[1:].split("/")
    if head.method != "GET" or path[:1] != "/" or do not in PATHS or len(parts) != len(PATHS[do]) or "" in parts:
        raise NoAnswer("404 Not Found", "not found\n")
    keys = read_query(query) if do == "register" else {}
    return read_days({"do": do, **dict(zip(PATHS[do], parts)), **keys})


def status_of(number):
    """FORMATS, "HTTP": the status of an answer; `number` is a refusal's, 0 or None."""
    if not number:
        return "200 OK"
    if number <= 18:
        return "422 Unprocessable Entity"
    return {43: "500 Internal Server Error", 44: "400 Bad Request"}.get(number, "409 Conflict")


def request_of(head, data):
    """FORMATS, "HTTP": the keys of the request that is asked for (44), if there is such a route."""
    path = head.target.partition("?")[0]
    branch = COMMANDS_OF.fullmatch(path)
    if (head.method, path) == ("POST", "/commands"):
        return read_request(read_body(head, data))
    if head.method == "POST" and branch:
        return command_of(branch[1], read_body(head, data))
    return report_asked(head)


def outcome(treasury, head, data):
    """FORMATS, "HTTP": what comes of a request with that head, as `perform` of `Treasury` answers it; and how many
    entries its branch has, if it is a dry run."""
    try:
        keys = request_of(head, data)
    except Refused as refused:
        return refused.number, refused.answer(), None, None
    book = treasury.branch_of(keys) if keys.get("dry-run") == "yes" else None
    return (*treasury.perform(keys), len(book.entries) if book else None)


def answer(treasury, data):
    """FORMATS, "HTTP": status, media type and body for the bytes of a connection."""
    try:
        head = read_whole_head(data)
        if is_foreign(head):
            raise NoAnswer(*FORBIDDEN)
        found = outcome(treasury, head, data)
    except NoAnswer as reason:
        return reason.args[0], TEXT, reason.args[1]
    except Refused as refused:
        return status_of(refused.number), TEXT, refused.answer()
    if asks_for_json(values(head, b"accept")):
        return status_of(found[0]), "application/json", body_of(*found)
    return status_of(found[0]), TEXT, found[1]


def reply(treasury, data):
    """FORMATS, "HTTP": all bytes of the reply; none if the request is cut off and could have become one."""
    try:
        status, kind, body = answer(treasury, data)
    except Cut:
        return b""
    body = body.encode()
    head = (
        f"HTTP/1.1 {status}\r\nContent-Type: {kind}\r\n"
        f"Content-Length: {len(body)}\r\nConnection: close\r\n\r\n"
    )
    return head.encode() + body
