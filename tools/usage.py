"""What a tool here does when it is asked how it is called."""

from __future__ import annotations

import sys


def tell_usage(doc: str | None) -> None:
    """Prints what the tool's file begins with and ends it, if its arguments ask for that."""
    if {"-h", "--help"} & set(sys.argv[1:]):
        print((doc or "").strip())
        sys.exit(0)
