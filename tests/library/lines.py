"""Opens a store of a document, and writes its reply to each line of standard input:

    python3 lines.py DOC < LINES
"""

from __future__ import annotations

import sys
from pathlib import Path

from pickbracken import Store


def main() -> None:
    with Store(Path(sys.argv[1]).read_bytes()) as store:
        for line in sys.stdin.buffer:
            reply = store.answer(line.rstrip(b"\n"))
            assert store.last_reply() == reply
            sys.stdout.buffer.write(reply + b"\n")


if __name__ == "__main__":
    main()
