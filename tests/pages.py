"""What `grove page` has to answer, by docs/PAGE.md, over the store of store.py."""
import copy
import json
import re
from ipaddress import ip_address
from pathlib import Path
from urllib.parse import parse_qsl

from exposition import KIND as METRICS
from exposition import families_in
from hints import HINT, split_reply
from store import MOST_LINE, compact
from web import HOST, HTML, JSON, values_of

PAGE = Path(__file__).resolve().parents[1] / "crates/grove_page/page/page.html"
MOST_BODY, MOST_LINES = 4_194_304, 16_384
# After a longer body the connection ends.
MOST_KEPT = 65_536
# The methods of each path, as `allow` lists them.
LOOKS = {b"GET", b"HEAD"}
ALLOWED = {"/": {*LOOKS, b"POST"}, "/document": LOOKS, "/nodes": LOOKS, "/health": LOOKS, "/metrics": LOOKS}
HEALTHY = b'{"status":"ok"}\n'
# What each response with a type says against being framed, or taken for another one.
GUARDS = {b"x-content-type-options": b"nosniff", b"x-frame-options": b"DENY"}
# What the page has besides, and nothing else.
PAGE_GUARDS = {**GUARDS, b"content-security-policy": b"frame-ancestors 'none'"}


def lines_in(body):
    """The lines of a body: what stands after the last line feed is one unless it is empty."""
    lines = body.split(b"\n")
    return lines if lines[-1] else lines[:-1]


def nodes_text(store, waits=None, below="/"):
    """What `GET /nodes` has to answer, of the nodes at and below a path."""
    names = ("path", "record", "waits", "weight")
    each = zip(store.tree.paths, store.records, waits or [0] * len(store.records), store.tree.weights)
    told = [dict(zip(names, node)) for node in each if is_below(node[0], below)]
    return compact({"nodes": told, "round": store.rounds}) + b"\n"


def is_below(path, top):
    return path == top or path.startswith(top.rstrip("/") + "/")


def uncounted(text):
    """The same without the count of rounds."""
    return re.sub(rb',"round":[0-9]+}\n\Z', b"}\n", text)


def asked_in(query):
    """After which round and below which path a query asks for nodes, and whether it asks for hints; or `None` for one
    that asks nothing."""
    pairs = parse_qsl(query, keep_blank_values=True, encoding="utf-8", errors="replace")
    after, below, hints = ([value for name, value in pairs if name == wanted] for wanted in ("after", "below", "hints"))
    if max(map(len, (after, below, hints))) > 1:
        return None
    if after and not (re.fullmatch("[0-9]+", after[0]) and int(after[0]) < 2**64):
        return None
    return (int(after[0]) if after else None), (below[0] if below else "/"), bool(hints)


def document_text(store):
    """What `GET /document` has to answer."""
    each = zip(store.nodes, store.records, store.tree.weights)
    rows = [{**row, "value": record, "weight": weight} for row, record, weight in each]
    return compact({"nodes": rows, "version": 1}) + b"\n"


def after(store, lines):
    """Another store, which is what the lines leave of this one."""
    left = copy.deepcopy(store)
    for line in lines:
        left.fault_of(line, b"")
    return left


def is_from_here(fields):
    """Does no page send these fields, or one of the host that the request names?"""
    host = values_of(fields, "host") or [HOST]
    return values_of(fields, "origin") in ([], [f"http://{host[0]}"])


def is_known(host):
    """Is it an address or `localhost`, with or without a port?"""
    found = re.fullmatch(r"(\[[0-9A-Fa-f:.]+\]|[^:]*)(:[0-9]*)?", host)
    name = found[1].strip("[]") if found else ""
    try:
        return name.lower() == "localhost" or bool(ip_address(name))
    except ValueError:
        return False


def fault_of_response(store, row, response):
    """What is wrong with the response to a request of this method, path and body, and these fields; `None` if it is
    right. The store is then what that leaves."""
    method, target, body, *fields = row
    path, _, query = target.partition("?")
    if response is None:
        return "there is no response"
    hosts = values_of(fields, "host")
    if len(hosts) > 1 or not all(map(is_known, hosts)):
        return fault_of_plain(response, 421, {b"" if method == "HEAD" else b'{"error":"host"}\n'})
    if path not in ALLOWED:
        return fault_of_plain(response, 404, {b"" if method == "HEAD" else b'{"error":"not-found"}\n'})
    if method.encode() not in ALLOWED[path]:
        told = set(re.split(rb"[ \t]*,[ \t]*", response.fields.get(b"allow", b"")))
        fault = fault_of_plain(response, 405, {b'{"error":"method"}\n'})
        return fault or (None if told == ALLOWED[path] else f"{told} are allowed, and not {ALLOWED[path]}")
    if method == "POST" and not is_from_here(fields):
        return fault_of_plain(response, 403, {b'{"error":"origin"}\n'})
    if method == "POST":
        return fault_of_replies(store, body, response, query == "hints")
    if path == "/nodes":
        return fault_of_nodes(store, query, response, method)
    if path == "/metrics":
        return fault_of_metrics(response, method)
    return fault_of_look(response, text_at(store, path), HTML if path == "/" else JSON, method)


def fault_of_metrics(response, method):
    """What is counted depends on what was asked before: its form is looked at here."""
    fault = fault_of_plain(response, 200, {response.body}, METRICS)
    if fault or method == "HEAD":
        return fault or (f"a body: {response}" if response.body else None)
    return None if families_in(response.body.decode()) else "there is nothing"


def fault_of_nodes(store, query, response, method):
    asked = asked_in(query)
    if asked and asked[1] in store.tree.paths:
        return fault_of_look(response, nodes_text(store, below=asked[1]), JSON, method)
    wanted = b'{"error":"no-path"}\n' if asked else b'{"error":"query"}\n'
    if asked and asked[2] and method != "HEAD":
        plain, hint = split_reply(response.body.removesuffix(b"\n"))
        if not HINT.fullmatch(hint):
            return f"a hint is missing: {response}"
        response = response._replace(body=plain + b"\n")
    return fault_of_plain(response, 400, {b"" if method == "HEAD" else wanted})


def text_at(store, path):
    """What a look at the path has to show."""
    if path == "/":
        return PAGE.read_bytes()
    if path == "/health":
        return HEALTHY
    return document_text(store) if path == "/document" else nodes_text(store)


def fault_of_look(response, wanted, kind, method):
    if method == "HEAD":
        length = response.fields.get(b"content-length", b"%d" % len(wanted))
        is_well = response.body == b"" and length == b"%d" % len(wanted)
        wanted = b"" if is_well else b"nothing"
    return fault_of_plain(response, 200, {wanted}, kind)


def fault_of_plain(response, status, bodies, kind=JSON):
    if response.status != status or response.body not in bodies:
        return f"wanted {status} {min(bodies)[:200]!r}; came {response}"
    if not (PAGE_GUARDS if kind == HTML else GUARDS).items() <= response.fields.items():
        return f"it may be framed, or taken for another type: {response.fields}"
    told = response.fields.get(b"content-type")
    return None if told == kind or not response.body else f"wanted {kind!r}; came {told!r}"


def fault_of_replies(store, body, response, has_hints=False):
    """What is wrong with the replies to the lines of a body, in whose refusals hints are asked for or not."""
    if len(body) > MOST_BODY:
        return None if response.status == 413 else f"wanted 413; came {response}"
    told = response.fields.get(b"connection")
    if len(body) > MOST_KEPT and told != b"close":
        return f"after {len(body)} bytes the connection is said to stay"
    if body.count(b"\n") > MOST_LINES:
        return fault_of_plain(response, 413, {b'{"error":"lines"}\n'})
    lines, replies = lines_in(body), response.body.split(b"\n")
    if len(replies) != len(lines) + 1 or replies[-1]:
        return f"{len(lines)} lines have the replies {response}"
    for number, (line, reply) in enumerate(zip(lines, replies)):
        plain, hint = split_reply(reply) if has_hints else (reply, b"")
        is_hinted = bool(HINT.fullmatch(hint))
        fault = store.fault_of(line, plain)
        if fault or is_hinted != (has_hints and plain.startswith(b'{"error":') and len(line) <= MOST_LINE):
            return f"line {number}: {fault or f'a hint is missing, or too many: {reply[:200]!r}'}"
    is_refused = len(lines) == 1 and "error" in json.loads(replies[0])
    return fault_of_plain(response, 400 if is_refused else 200, {response.body})
