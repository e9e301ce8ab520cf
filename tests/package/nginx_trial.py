"""The installed program behind nginx, by the file of the examples: on loopback, with a certificate made for it."""

from __future__ import annotations

import base64
import http.client
import json
import os
import re
import socket
import ssl
import subprocess
import time
from concurrent.futures import ThreadPoolExecutor
from contextlib import ExitStack
from pathlib import Path
from typing import NamedTuple

from looking import note_equal
from packages import Packages, called
from server import HOST, Server, free_port
from sweeps.program import Tally

SITE = "grove.example.org"
NAME, PASSWORD = "keeper", "a long word"
KNOWN = "Basic " + base64.b64encode(f"{NAME}:{PASSWORD}".encode()).decode()
# How long nginx may take to listen, and how long a round may take to reach a look that waits for it.
SECONDS, SOON = 30.0, 10.0
MOST_BODY = 4_194_304
# How many requests one address may have at once; and connections that ask so often, each, what isn't there.
AT_ONCE = 8
HURRIES, OFTEN = 4, 60
ADD, WEIGHTS = b'{"batch":[[["add","/a",1]]]}\n', b'{"weights":null}\n'
REFUSED = b'{"error":"origin"}\n'
# What is around the file: no more than it takes to run it in a folder.
AROUND = """daemon off;
pid {room}/nginx.pid;
error_log {room}/errors;
{user}
events {{ worker_connections 256; }}
http {{
    access_log off;
    client_body_temp_path {room}/client;
    proxy_temp_path {room}/proxy;
    fastcgi_temp_path {room}/fastcgi;
    uwsgi_temp_path {room}/uwsgi;
    scgi_temp_path {room}/scgi;
    include {room}/site.conf;
}}
"""
# Origins that aren't the site's.
NEARLY = [f"http://{SITE}", f"https://{SITE}.elsewhere.example", f"https://{SITE}:444", SITE]
ELSEWHERE = ["https://elsewhere.example", "null", "https://", *NEARLY]


class Came(NamedTuple):
    """A response."""

    status: int
    fields: http.client.HTTPMessage
    body: bytes


class Nginx:
    """nginx with the file of the examples before a server, for as long as it is entered."""

    def __init__(self, example: Path, room: Path, behind: int, rate: str = "20r/s"):
        self.room, self.behind, self.tls, self.plain = room, behind, free_port(), free_port()
        room.mkdir()
        put = {
            "listen      443 ssl;": f"listen {HOST}:{self.tls} ssl;",
            "listen      80;": f"listen {HOST}:{self.plain};",
            f"{HOST}:8080;": f"{HOST}:{behind};",
            "rate=20r/s;": f"rate={rate};",
            "/etc/nginx/grove.pem;": f"{room}/grove.pem;",
            "/etc/nginx/grove.key;": f"{room}/grove.key;",
            "/etc/nginx/grove.passwords;": f"{room}/grove.passwords;",
        }
        site = example.read_text(encoding="utf-8")
        self.unfound = [old for old in put if site.count(old) != 1]
        for old, new in put.items():
            site = site.replace(old, new)
        (room / "site.conf").write_text(site)
        user = "user root;" if os.geteuid() == 0 else ""
        (room / "nginx.conf").write_text(AROUND.format(room=room, user=user))
        self.words = ["nginx", "-p", str(room), "-c", str(room / "nginx.conf"), "-e", str(room / "errors")]

    def make_secrets(self) -> None:
        """A certificate that only the trial trusts, and a password, by the command that the file names."""
        files = ["-keyout", f"{self.room}/grove.key", "-out", f"{self.room}/grove.pem"]
        subject = ["-subj", f"/CN={SITE}", "-addext", f"subjectAltName=DNS:{SITE}"]
        called("openssl", "req", "-x509", "-newkey", "rsa:2048", "-nodes", "-days", "1", *files, *subject)
        hashed = called("openssl", "passwd", "-6", "-stdin", stdin=None, input=PASSWORD).stdout
        (self.room / "grove.passwords").write_text(f"{NAME}:{hashed}")

    def __enter__(self) -> Nginx:
        nothing = subprocess.DEVNULL
        self.started = subprocess.Popen(self.words, stdin=nothing, stdout=nothing, stderr=nothing)
        until = time.monotonic() + SECONDS
        while time.monotonic() < until and not self.is_listening():
            time.sleep(0.1)
        return self

    def is_listening(self) -> bool:
        try:
            socket.create_connection((HOST, self.tls), timeout=1).close()
        except OSError:
            return False
        return True

    def __exit__(self, *_: object) -> None:
        self.started.terminate()
        self.started.wait()

    def ask(self, method: str, path: str, body: bytes | None = None, /, **fields: str) -> Came:
        """By TLS, as somebody who knows the password, unless a field says something else."""
        return self.asked(method, path, body, {"authorization": KNOWN, **fields})

    def asked(self, method: str, path: str, body: bytes | None, fields: dict[str, str]) -> Came:
        connection = http.client.HTTPConnection(SITE, timeout=SECONDS)
        connection.sock = self.connected(ssl.create_default_context(cafile=self.room / "grove.pem"))
        try:
            connection.request(method, path, body, fields)
            response = connection.getresponse()
            return Came(response.status, response.headers, response.read())
        finally:
            connection.close()

    def sent(self, data: bytes) -> ssl.SSLSocket:
        """A connection that so much was sent over."""
        connection = self.connected(ssl.create_default_context(cafile=self.room / "grove.pem"))
        connection.sendall(data)
        return connection

    def connected(self, context: ssl.SSLContext) -> ssl.SSLSocket:
        connection = socket.create_connection((HOST, self.tls), timeout=SECONDS)
        return context.wrap_socket(connection, server_hostname=SITE)

    def plainly_asked(self, path: str) -> Came:
        connection = http.client.HTTPConnection(HOST, self.plain, timeout=SECONDS)
        try:
            connection.request("GET", path, headers={"host": SITE})
            response = connection.getresponse()
            return Came(response.status, response.headers, response.read())
        finally:
            connection.close()


def behind_nginx(packages: Packages, room: Path, tally: Tally) -> None:
    """Who is let in, with which lines, and how many at once."""
    examples = packages.prefix / "share/doc/grove/examples"
    words = ["page", "--tree", str(examples / "two-leaves.json"), "--port", str(free_port())]
    with Server(str(packages.prefix / "bin/grove"), words) as server:
        nginx = Nginx(examples / "nginx.conf", room / "nginx", server.port)
        nginx.make_secrets()
        note_equal(tally, "lines to put something else in", nginx.unfound, [])
        told = called(*nginx.words, "-t")
        is_well = told.returncode == 0 and "[warn]" not in told.stderr
        tally.note("nginx -t", None if is_well else told.stderr)
        with nginx:
            note_page(nginx, packages, tally)
            note_password(nginx, tally)
            note_origins(nginx, tally)
            note_hosts(nginx, tally)
            note_waiting(nginx, tally)
            note_crowd(nginx, tally)
        # At this rate a server that is slow is asked too often, too.
        nginx = Nginx(examples / "nginx.conf", room / "seldom", server.port, rate="1r/s")
        nginx.make_secrets()
        with nginx:
            note_hurry(nginx, tally)


def note_page(nginx: Nginx, packages: Packages, tally: Tally) -> None:
    """The page as the server has it, by TLS, in no frame; without TLS one is sent there."""
    came = nginx.ask("GET", "/")
    page = (packages.copy / "crates/grove_page/page/page.html").read_bytes()
    note_equal(tally, "GET /", (came.status, came.body == page), (200, True))
    told = came.fields.get_all("Content-Security-Policy")
    note_equal(tally, "its frames", told, ["frame-ancestors 'none'"])
    plain = nginx.plainly_asked("/nodes?after=1")
    wanted = (301, f"https://{SITE}/nodes?after=1")
    note_equal(tally, "without TLS", (plain.status, plain.fields["Location"]), wanted)
    old = ssl.SSLContext(ssl.PROTOCOL_TLS_CLIENT)
    old.check_hostname, old.verify_mode = False, ssl.CERT_NONE
    old.set_ciphers("ALL:@SECLEVEL=0")
    old.minimum_version = old.maximum_version = ssl.TLSVersion.TLSv1_1
    note_equal(tally, "TLS 1.1", is_connected(nginx, old), False)
    old.minimum_version = old.maximum_version = ssl.TLSVersion.TLSv1_2
    note_equal(tally, "TLS 1.2", is_connected(nginx, old), True)


def is_connected(nginx: Nginx, context: ssl.SSLContext) -> bool:
    try:
        nginx.connected(context).close()
    except ssl.SSLError:
        return False
    return True


def note_password(nginx: Nginx, tally: Tally) -> None:
    """A client without one sees nothing, and does nothing."""
    wrong = base64.b64encode(f"{NAME}:another".encode()).decode()
    known: list[dict[str, str]] = [{}, {"authorization": f"Basic {wrong}"}, {"origin": f"https://{SITE}"}]
    for fields in known:
        for method, path, body in (("GET", "/", None), ("GET", "/nodes", None), ("POST", "/", ADD)):
            came = nginx.asked(method, path, body, fields)
            note_equal(tally, f"{method} {path} with {fields}", (came.status, b"nodes" in came.body), (401, False))
    note_equal(tally, "what that left", record(nginx), 10)


def record(nginx: Nginx) -> int:
    """What the node /a has."""
    return int(json.loads(nginx.ask("GET", "/nodes").body)["nodes"][1]["record"])


def note_origins(nginx: Nginx, tally: Tally) -> None:
    """Lines of the site's own page and of no page are answered, and no others; a body has to be short enough."""
    own: list[dict[str, str]] = [{}, {"origin": f"https://{SITE}"}]
    for fields in own:
        came = nginx.ask("POST", "/", WEIGHTS, **fields)
        note_equal(tally, f"lines with {fields}", (came.status, came.body[:9]), (200, b'{"waits":'))
    for origin in [*ELSEWHERE, f"http://{HOST}:{nginx.behind}"]:
        came = nginx.ask("POST", "/", ADD, origin=origin)
        note_equal(tally, f"lines of {origin}", (came.status, came.body), (403, REFUSED))
    note_equal(tally, "what they left", record(nginx), 10)
    came = nginx.ask("POST", "/", WEIGHTS.ljust(MOST_BODY))
    note_equal(tally, "the longest body", came.status, 200)
    note_equal(tally, "a longer one", nginx.ask("POST", "/", WEIGHTS.ljust(MOST_BODY + 1)).status, 413)


def note_hosts(nginx: Nginx, tally: Tally) -> None:
    """A name that somebody else leads here is none of the site's."""
    for host in ("elsewhere.example", f"{SITE}.elsewhere.example", HOST):
        note_equal(tally, f"host {host}", nginx.ask("GET", "/nodes", host=host).status, 421)


def note_waiting(nginx: Nginx, tally: Tally) -> None:
    """A look that waits is answered once the round is done, and not when it may take no longer."""
    done = json.loads(nginx.ask("POST", "/", ADD).body)["round"]
    with ThreadPoolExecutor(1) as pool:
        looks = pool.submit(nginx.ask, "GET", f"/nodes?after={done}")
        time.sleep(1)
        began = time.monotonic()
        nginx.ask("POST", "/", ADD)
        came = looks.result()
    taken = time.monotonic() - began
    note_equal(tally, "a look that waits", (came.status, taken < SOON), (200, True))


def note_crowd(nginx: Nginx, tally: Tally) -> None:
    """One address has so many requests at once, which are begun here, and no further one."""
    begun = f"POST / HTTP/1.1\r\nhost: {SITE}\r\nauthorization: {KNOWN}\r\ncontent-length: 9\r\n\r\n"
    with ExitStack() as stack:
        for _ in range(AT_ONCE):
            stack.enter_context(nginx.sent(begun.encode()))
        is_told = any(nginx.ask("GET", "/nodes").status == 429 for _ in range(OFTEN))
    note_equal(tally, "one more at once is told so", is_told, True)


def note_hurry(nginx: Nginx, tally: Tally) -> None:
    """A client that asks too often gets 429, and is let in again later."""
    ask = f"GET /none HTTP/1.1\r\nhost: {SITE}\r\nauthorization: {KNOWN}\r\n"
    asks = (OFTEN - 1) * (ask + "\r\n") + ask + "connection: close\r\n\r\n"
    with ThreadPoolExecutor(HURRIES) as pool:
        came = list(pool.map(lambda _: statuses(nginx, asks.encode()), range(HURRIES)))
    note_equal(tally, "asked too often", set().union(*came), {b"404", b"429"})
    until = time.monotonic() + SECONDS
    while not (is_in := nginx.ask("GET", "/nodes").status == 200) and time.monotonic() < until:
        time.sleep(0.5)
    note_equal(tally, "let in later", is_in, True)


def statuses(nginx: Nginx, asks: bytes) -> set[bytes]:
    """Those of the responses to requests that are sent ahead."""
    with nginx.sent(asks) as connection:
        came = b"".join(iter(lambda: connection.recv(65536), b""))
    return set(re.findall(rb"HTTP/1\.1 (\d+) ", came))
