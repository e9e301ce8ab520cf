"""The ten lines of docs/SESSIONS.md, their tree, and single lines over it."""

from __future__ import annotations

from pathlib import Path

from case_file import read_case

TEN_LINES = read_case(Path(__file__).resolve().parents[1] / "cases/sessions/ten_lines.case")
TREE = TEN_LINES.files["tree.json"]
TEXT = TEN_LINES.connections[0].sends
REPLIES = TEN_LINES.connections[0].replies
ADD = b'{"batch":[[["add","/a",1]]]}\n'
GET = b'{"batch":[[["get","/a"]]]}\n'
WEIGHTS = b'{"weights":null}\n'
