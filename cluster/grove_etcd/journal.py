"""What a worker logs: a line for each event on standard error, and counts of the events over HTTP."""
from __future__ import annotations

import logging
import os
import threading
from collections import Counter
from http.server import BaseHTTPRequestHandler, ThreadingHTTPServer
from typing import Callable

LOG = logging.getLogger("grove")
# Events without a line, since there are so many.
COUNTED = {"commit", "commit_failed", "stepped_back", "work"}
# Events with a line even without --verbose.
WARNED = {"work_failed", "set_aside", "lost", "stray", "no_thread"}
FORM = """\
# HELP grove_worker_events_total What happened to this worker, by event.
# TYPE grove_worker_events_total counter
"""
GAUGE = """\
# HELP {name} {about}
# TYPE {name} gauge
{name} {value:g}
"""


class Journal:
    def __init__(self) -> None:
        self.counts: Counter[str] = Counter()
        # What is at present so, by the name of its metric: what it is about, and how it is had.
        self.gauges: dict[str, tuple[str, Callable[[], float]]] = {}
        self.lock = threading.Lock()

    def log(self, event: str, **facts: object) -> None:
        with self.lock:
            self.counts[event] += 1
        level = logging.WARNING if event in WARNED else logging.INFO
        if event not in COUNTED and LOG.isEnabledFor(level):
            try:
                LOG.log(level, "%s", line_of(event, facts))
            except Exception:  # whatever the work has made of standard error
                """Nobody hears it."""

    def metrics(self) -> str:
        """In the text form of Prometheus."""
        with self.lock:
            counts = sorted(self.counts.items())
        events = "".join(f'grove_worker_events_total{{event="{event}"}} {count}\n' for event, count in counts)
        return FORM + events + "".join(
            GAUGE.format(name=name, about=about, value=value()) for name, (about, value) in sorted(self.gauges.items())
        )


def line_of(event: str, facts: dict[str, object]) -> str:
    return " ".join([event, *(f"{name}={quoted(str(value))}" for name, value in facts.items())])


def quoted(text: str) -> str:
    """On one line, and in quotes if it has a space."""
    plain = "".join(each if each.isprintable() else "?" for each in text)
    return '"' + plain.replace('"', "'") + '"' if " " in plain or not plain else plain


def log_to_standard_error(verbose: bool) -> None:
    """By a stream of its own, since work may close `sys.stderr`, or put another one in its place."""
    own = os.fdopen(os.dup(2), "w", errors="backslashreplace")
    logging.basicConfig(format="%(levelname)s %(message)s", level=logging.WARNING, stream=own)
    LOG.setLevel(logging.INFO if verbose else logging.WARNING)


def serve_metrics(journal: Journal, host: str, port: int) -> ThreadingHTTPServer:
    """Answers `GET /metrics`, in a thread that ends with the program."""

    class Metrics(BaseHTTPRequestHandler):
        def do_GET(self) -> None:
            is_known = self.path == "/metrics"
            content = journal.metrics().encode() if is_known else b"not found\n"
            self.send_response(200 if is_known else 404)
            self.send_header("Content-Type", "text/plain; version=0.0.4")
            self.send_header("Content-Length", str(len(content)))
            self.end_headers()
            self.wfile.write(content)

        def log_message(self, *_: object) -> None:
            """Requests for counts aren't logged."""

    server = ThreadingHTTPServer((host, port), Metrics)
    threading.Thread(target=server.serve_forever, daemon=True).start()
    return server
