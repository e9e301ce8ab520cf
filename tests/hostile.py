"""Requests that no honest client sends, by a seeded generator. No line in them changes a record or a weight."""
from web import post, request

LINES = [b'{"weights":null}', b'{"plan":[["get","/"]]}', b"hello", b"", b"\xff\xfe"]
LINES += [b'{"plan":' + b"[" * 200 + b"]" * 200 + b"}"]
METHODS = ["get", "G", "PATCH", "TRACE", "CONNECT", "OPTIONS", "PRI", "GET/", "G ET", "\x00", "GÉT", "X" * 3000, ""]
METHODS += [" GET"]
TARGETS = ["*", "nodes", "//", "/../nodes", "/%2e%2e", "/%zz", "/\x00", "/é", "/ nodes", "http://a/nodes", "http:///"]
TARGETS += ["a:80", "/nodes?" + "q" * 9000, "/" + "x" * 70000, "/nodes#x", "/#", "?", ""]
TARGETS += ["/nodes HTTP/1.1\r\nx: y\r\n\r\nGET /"]
VERSIONS = ["HTTP/1.0", "HTTP/1.2", "HTTP/0.9", "HTTP/2.0", "HTTP/1.1 ", "http/1.1", "HTTP/1", "", "HTTP/11"]
VERSIONS += ["HTTP/1.1\x0b"]
FIELDS = ["nocolon", "a : b", ": b", "a: \x00", "a: \x7f", "a: b\r\n folded: c", " a: b", "a\tb: c", "é: é", "a: \rb"]
FIELDS += ["host: b", "host: a b", "host: [::1", "host: a:99999999", "connection: close"]
FIELDS += ["origin: null", "origin: http://a", "origin: http://b\r\norigin: http://b"]
FIELDS += ["connection: upgrade, close, keep-alive", "upgrade: websocket\r\nconnection: upgrade"]
FIELDS += ["upgrade: h2c\r\nconnection: upgrade, http2-settings", "a: " + "b" * 20000, "expect: 100-continue"]
FIELDS += ["expect: 200-ok", "expect: ", "accept-encoding: " + "gzip," * 500, "range: bytes=0-9999999999"]
FIELDS += ["\r\n".join(f"a{number}: b" for number in range(count)) for count in (63, 64, 65, 500)]
LENGTHS = ["0", "1", "15", "17", "18", "4194304", "4194305", "99999999999999999999", "-1", "+5", "0x10", "1e3", "5, 5"]
LENGTHS += ["5,6", "", " ", "\xb2", "5\r\ncontent-length: 5", "5\r\ncontent-length: 6"]
LENGTHS += ["5\r\ntransfer-encoding: chunked"]
CODINGS = ["chunked", "gzip", "gzip, chunked", "chunked, chunked", "identity", "chunked;q=1", "CHUNKED", ""]
CODINGS += ["chunked\r\ncontent-length: 5"]
SIZES = ["5", "05", "5;a=b", "5;" + "a" * 20000, "ffffffff", "ffffffffffffffff", "fffffffffffffffff", "-1", "+5", "0x5"]
SIZES += ["", "g", "5 ", "1"]
TRAILERS = ["", "a: b\r\n", "content-length: 7\r\n", "a: " + "b" * 20000 + "\r\n", "nocolon\r\n"]
BEGINNINGS = [b"\x16\x03\x01\x02\x00\x01\x00\x01\xfc\x03\x03", b"SSH-2.0-x\r\n", b"PRI * HTTP/2.0\r\n\r\nSM\r\n\r\n"]
BEGINNINGS += [b"\r\n", b"\n", b"", b"\r\n" * 500, b"\x00" * 300, b"GET /nodes\r\n", b"GET /nodes HTTP/1.1\n\n"]
BEGINNINGS += [b"HTTP/1.1 200 OK\r\n\r\n", b"{}\n", b" "]


def hostile(random):
    """The bytes that a connection sends."""
    return b"".join(one(random) for _ in range(random.choice([1, 1, 1, 2, 3, 5])))


def one(random):
    strange = [strange_line, strange_field, strange_coding, strange_chunks, strange_body, strange_beginning]
    return random.choice([*strange, lying_length, mutilated, mutilated, honest])(random)


def honest(random):
    return random.choice(
        [
            request(random.choice(["GET", "HEAD"]), random.choice(["/", "/nodes", "/document", "/x"])),
            request("DELETE", "/nodes"),
            post(b"\n".join(random.choices(LINES, k=random.randrange(4)))),
        ]
    )


def strange_line(random):
    parts = ["GET", random.choice(["/", "/nodes"]), "HTTP/1.1"]
    for at, choices in random.sample([(0, METHODS), (1, TARGETS), (2, VERSIONS)], random.choice([1, 1, 2])):
        parts[at] = random.choice(choices)
    return encoded(f"{' '.join(parts)}\r\nhost: localhost\r\n\r\n")


def strange_field(random):
    line = f"{random.choice(['GET', 'GET', 'HEAD', 'PUT'])} /nodes HTTP/1.1"
    host = random.choice([["host: localhost"], ["host: localhost"], []])
    return encoded("\r\n".join([line, *host, *random.choices(FIELDS, k=random.randint(1, 3)), "", ""]))


def lying_length(random):
    head = f"POST / HTTP/1.1\r\nhost: localhost\r\ncontent-length: {random.choice(LENGTHS)}\r\n\r\n"
    return encoded(head) + random.choice(LINES)


def strange_coding(random):
    head = f"POST / HTTP/1.1\r\nhost: localhost\r\ntransfer-encoding: {random.choice(CODINGS)}\r\n\r\n"
    return encoded(head) + b"5\r\nhello\r\n0\r\n\r\n"


def strange_chunks(random):
    head = b"POST / HTTP/1.1\r\nhost: localhost\r\ntransfer-encoding: chunked\r\n\r\n"
    chunks = b"".join(strange_chunk(random) for _ in range(random.randrange(4)))
    last = random.choice([b"0\r\n", b"0\r\n", b"00000\r\n", b""])
    return head + chunks + last + encoded(random.choice(TRAILERS)) + b"\r\n"


def strange_chunk(random):
    ends = [b"\r\n", b"\r\n", b"\r\n", b"\n", b"", b"x"]
    return encoded(random.choice(SIZES)) + random.choice(ends) + b"hello" + random.choice(ends)


def strange_body(random):
    lines = random.choices(LINES, k=random.randrange(1, 5))
    long = b" " * random.choice([0, 10, 70_000, 1_048_577])
    fields = random.choice([[], ["expect: 100-continue"], ["origin: null"], ["content-type: text/html; charset=utf-7"]])
    return post(b"\n".join([*lines, long]), *fields)


def strange_beginning(random):
    return random.choice([random.choice(BEGINNINGS), random.randbytes(random.randint(1, 200))])


def mutilated(random):
    """An honest request, or another, with some bytes of it changed, left out, doubled, or put elsewhere."""
    data = random.choice([honest, honest, lying_length, strange_chunks])(random)
    for _ in range(random.choice([1, 1, 2, 3])):
        data = cut(random, data)
    return data


def cut(random, data):
    at, to = sorted(random.randrange(len(data) + 1) for _ in range(2))
    near = min(to, at + 6)
    junk = random.choice([b"\r", b"\n", b"\x00", b" ", b":", b"\xff", b"\r\n\r\n", random.randbytes(3)])
    return random.choice(
        [
            data[:to],
            data[:at] + data[near:],
            data[:near] + data[at:],
            data[:at] + junk + data[near:],
            data[:at] + junk + data[at:],
        ]
    )


def encoded(text):
    return text.encode("latin-1", "replace")
