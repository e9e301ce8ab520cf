"""HTTP/1.1 as a client sees it, to the byte: requests, and the responses to them, which have to be well-formed. To a
request of HTTP/1.0 they are of that version."""
import io
import re
from typing import NamedTuple

from server import HOST, connected

STATUS_LINE = re.compile(rb"HTTP/1\.[01] ([1-5][0-9][0-9]) [\x20-\x7e]*\r\n")
FIELD = re.compile(rb"([!#$%&'*+.^_`|~0-9A-Za-z-]+):[ \t]*([\x21-\x7e]?(?:[\x20-\x7e\t]*[\x21-\x7e])?)[ \t]*\r\n")
JSON = b"application/json; charset=utf-8"
HTML = b"text/html; charset=utf-8"
# No response of a test has a longer line, or more fields.
MOST_LINE, MOST_FIELDS = 8192, 64


class BadResponse(Exception):
    """What came is no response."""


class Response(NamedTuple):
    """A status, the fields by their names in small letters, and the body."""

    status: int
    fields: dict
    body: bytes

    def __str__(self):
        return f"{self.status} {self.body[:200]!r}"


def request(method, path, body=None, *fields):
    """The bytes of a request; with a body it says how long it is, and its host if the fields don't."""
    length = [] if body is None else [f"content-length: {len(body)}"]
    host = [] if values_of(fields, "host") else [f"host: {HOST}"]
    head = [f"{method} {path} HTTP/1.1", *host, *fields, *length]
    return "\r\n".join([*head, "", ""]).encode() + (body or b"")


def values_of(fields, name):
    """The values of the fields of this name, which is in small letters."""
    parted = [field.split(":", 1) for field in fields]
    return [value.strip() for known, value in parted if known.lower() == name]


def post(body, *fields):
    return request("POST", "/", body, *fields)


def chunked(pieces):
    """A request with a body in these pieces."""
    body = b"".join(b"%x\r\n%s\r\n" % (len(piece), piece) for piece in pieces if piece) + b"0\r\n\r\n"
    return request("POST", "/", None, "transfer-encoding: chunked") + body


def response_of(stream, method):
    """The next response in the stream of bytes, to a request by this method; `None` if the stream has ended."""
    line = stream.readline(MOST_LINE)
    if not line:
        return None
    found = STATUS_LINE.fullmatch(line)
    if not found:
        raise BadResponse(f"the line {line[:200]!r} is no status line")
    status, fields = int(found[1]), fields_of(stream)
    if fields.get(b"transfer-encoding") is not None:
        raise BadResponse("a response in chunks")
    size = 0 if method == "HEAD" or status < 200 or status in (204, 304) else size_of(fields)
    body = stream.read(size)
    if len(body) < size:
        raise BadResponse(f"of a body of {size} bytes came {len(body)}")
    return Response(status, fields, body)


def fields_of(stream):
    fields = {}
    for _ in range(MOST_FIELDS):
        line = stream.readline(MOST_LINE)
        if line == b"\r\n":
            return fields
        found = FIELD.fullmatch(line)
        name = found and found[1].lower()
        if not found or name in fields:
            raise BadResponse(f"the line {line[:200]!r} is no field, or comes twice")
        fields[name] = found[2]
    raise BadResponse("there are too many fields")


def size_of(fields):
    told = fields.get(b"content-length", b"")
    if not re.fullmatch(rb"[0-9]{1,9}", told):
        raise BadResponse(f"a response of the length {told!r}")
    return int(told)


class Client:
    """A connection on which requests are asked one after the other. After a response that says that it ends, the next
    request has one of its own."""

    def __init__(self, port, host=HOST):
        self.place = port, host
        self.open()

    def open(self):
        self.connection = connected(*self.place)
        self.stream = self.connection.makefile("rb")
        self.is_over = False

    def __enter__(self):
        return self

    def __exit__(self, *_):
        self.close()

    def close(self):
        self.stream.close()
        self.connection.close()

    def send(self, data):
        if self.is_over:
            self.close()
            self.open()
        self.connection.sendall(data)

    def next(self, method="GET"):
        response = response_of(self.stream, method)
        self.is_over = response is not None and response.fields.get(b"connection") == b"close"
        return response

    def ask(self, method, path, body=None, *fields):
        self.send(request(method, path, body, *fields))
        return self.next(method)

    def get(self, path):
        return self.ask("GET", path)

    def post(self, body):
        return self.ask("POST", "/", body)


def responses_in(data, may_be_bodiless):
    """All responses that the bytes are made of, some of which may answer `HEAD`, and so have no body."""
    stream, found = io.BytesIO(data), []
    while stream.tell() < len(data):
        behind = data.find(b"\r\n\r\n", stream.tell()) + 4
        is_bodiless = may_be_bodiless and (behind == len(data) or data.startswith(b"HTTP/1.", behind))
        found.append(response_of(stream, "HEAD" if is_bodiless else "GET"))
    return found
