"""Where the package is."""
import sys
from pathlib import Path

sys.path.insert(0, str(Path(__file__).resolve().parents[3] / "cluster"))

from grove_etcd.etcdrpc import RequestOp  # noqa: E402
from grove_etcd.wire import unsized  # noqa: E402


def parsed(operation):
    """The message of an operation."""
    return RequestOp.FromString(unsized(operation))
