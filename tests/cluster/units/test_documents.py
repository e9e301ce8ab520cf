"""Documents, as docs/FORMATS.md has them."""
import unittest

import here  # noqa: F401
from grove_etcd.documents import array_of, parsed, paths_of
from grove_etcd.refusals import Refused


class Documents(unittest.TestCase):
    def refusal(self, call, *words):
        with self.assertRaises(Refused) as told:
            call(*words)
        return str(told.exception)

    def test_numbers_are_whole_ones_of_64_bits(self):
        document = parsed(b'{"a":[-0,1.0,1e2,9223372036854775807,18446744073709551616,12]}')
        self.assertEqual([type(number) for number in document["a"]], [float, float, float, int, float, int])

    def test_what_is_no_json(self):
        for text in (
            b"{",
            b'{"a":NaN}',
            b'{"a":1e400}',
            b'{"a":"\\ud800"}',
            b"\xff",
            b'{"a":' + b"[" * 200 + b"]" * 200 + b"}",
        ):
            self.assertEqual(self.refusal(parsed, text), "bad-json")

    def test_values_may_nest_127_deep(self):
        parsed(b'{"a":' + b"[" * 126 + b"]" * 126 + b"}")
        self.assertEqual(self.refusal(parsed, b'{"a":' + b"[" * 127 + b"]" * 127 + b"}"), "bad-json")

    def test_the_whole(self):
        for text in (b"[]", b'{"version":3}', b'{"version":true}'):
            self.assertEqual(self.refusal(parsed, text), "shape whole")
        self.assertEqual(self.refusal(array_of, {}, "nodes"), "shape nodes")

    def test_paths(self):
        rows = [
            {"parent": parent, "name": name, "weight": 1}
            for parent, name in ((None, ""), (0, "a"), (1, "b"), (0, "c"))
        ]
        self.assertEqual(paths_of(rows), ["/", "/a", "/a/b", "/c"])

    def test_the_first_row_at_fault(self):
        root, child = {"parent": None, "name": "", "weight": 1}, {"parent": 0, "name": "a", "weight": 1}
        for rows, wanted in (
            ([], "tree empty"),
            ([root, {**child, "weight": True}], "shape nodes 1"),
            ([root, {**child, "value": None}], "shape nodes 1"),
            ([{**root, "parent": 0}], "row 0 bad-parent"),
            ([root, child, {**child, "parent": 1}, {**child, "parent": 2, "name": "B"}], "row 3 bad-name"),
            ([root, child, child], "row 2 twice-named"),
            ([root, {**child, "weight": 1001}], "row 1 bad-weight"),
            ([root, *({**child, "parent": above} for above in range(33))], "row 33 too-deep"),
        ):
            self.assertEqual(self.refusal(paths_of, rows), wanted)


if __name__ == "__main__":
    unittest.main()
