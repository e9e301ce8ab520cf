"""Makes each call of a document on each document of a stream (documents.py), and writes the stream of answers."""

from __future__ import annotations

import sys

from pickbracken import NoMemory, Refused, document

CALLS = [
    document.plan,
    document.plan_document,
    document.check,
    document.judge,
    document.draw_svg,
    document.draw_text,
    document.audit,
]


def main() -> None:
    source, sink = sys.stdin.buffer, sys.stdout.buffer
    while length := source.read(8):
        read = source.read(int.from_bytes(length, "little"))
        for call in CALLS:
            try:
                status, text = 0, call(read).encode()
            except Refused as refused:
                status, text = 1, refused.text.encode()
            except NoMemory as why:
                status, text = 3, str(why).encode()
            sink.write(bytes([status]) + len(text).to_bytes(8, "little") + text)


if __name__ == "__main__":
    main()
