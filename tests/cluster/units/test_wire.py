"""Requests as they are serialized, beside the messages of the table."""
import unittest

from here import parsed
from grove_etcd import etcdrpc, wire
from grove_etcd.etcdrpc import Compare, DeleteRangeRequest, PutRequest, RangeRequest, RequestOp, TxnRequest

# Short and long ones, and one that is no text.
KEYS = ["a", "k" * 127, "k" * 128, "k" * 20_000, "a\udcff"]
REVISIONS = [1, 127, 128, 2**40]


def guard(compare):
    return Compare.FromString(wire.unsized(compare))


class Wire(unittest.TestCase):
    def test_reads(self):
        for key in KEYS:
            plain, end = wire.bytes_of(key), wire.bytes_of(wire.after(key)) if key.isascii() else None
            self.assertEqual(parsed(wire.reading(key)), RequestOp(request_range=RangeRequest(key=plain)))
            for revision in REVISIONS:
                wanted = RangeRequest(key=plain, revision=revision, keys_only=True)
                read = wire.reading(key, revision, keys_only=True)
                self.assertEqual(parsed(read), RequestOp(request_range=wanted))
                wanted.serializable = True
                self.assertEqual(parsed(wire.at_hand(read)), RequestOp(request_range=wanted))
            if end is None:
                continue
            wanted = RangeRequest(key=plain, range_end=end, limit=300, revision=7)
            self.assertEqual(parsed(wire.reading_below(key, 300, 7)), RequestOp(request_range=wanted))
            wanted = RangeRequest(key=plain, range_end=end, limit=1, keys_only=True, sort_order=2)
            self.assertEqual(parsed(wire.reading_last(key, wire.after(key), keys_only=True)).request_range, wanted)
            wanted = RangeRequest(key=plain, range_end=end, count_only=True, revision=9, serializable=True)
            self.assertEqual(RangeRequest.FromString(wire.counting(key, 9, True)), wanted)
            wanted = RangeRequest(key=plain, range_end=end, min_mod_revision=300, serializable=True)
            self.assertEqual(RangeRequest.FromString(wire.looking_back(key, wire.after(key), 300)), wanted)

    def test_changes(self):
        for key in KEYS:
            plain = wire.bytes_of(key)
            for value in ("", *KEYS):
                wanted = PutRequest(key=plain, value=wire.bytes_of(value))
                self.assertEqual(parsed(wire.putting(key, value)), RequestOp(request_put=wanted))
            wanted = DeleteRangeRequest(key=plain)
            self.assertEqual(parsed(wire.deleting(key)), RequestOp(request_delete_range=wanted))
            wanted = DeleteRangeRequest(key=plain, range_end=b"z")
            self.assertEqual(parsed(wire.deleting_from(key, "z")), RequestOp(request_delete_range=wanted))

    def test_guards(self):
        for key in KEYS:
            plain = wire.bytes_of(key)
            for at in (0, *REVISIONS):
                wanted = Compare(result=etcdrpc.EQUAL, target=etcdrpc.MOD, key=plain, mod_revision=at)
                self.assertEqual(guard(wire.unchanged(key, at)), wanted)
                wanted.result = etcdrpc.LESS
                self.assertEqual(guard(wire.put_before(key, at)), wanted)
            wanted = Compare(result=etcdrpc.GREATER, target=etcdrpc.VERSION, key=plain, version=0)
            self.assertEqual(guard(wire.present(key)), wanted)
            wanted = Compare(result=etcdrpc.NOT_EQUAL, target=etcdrpc.VALUE, key=plain, value=b"x")
            self.assertEqual(guard(wire.other_than(key, "x")), wanted)

    def test_transactions(self):
        guards, puts, reads = [wire.absent("a")], [wire.putting("a", "b" * 200)], [wire.reading("a"), wire.reading("b")]
        wanted = TxnRequest(compare=list(map(guard, guards)))
        wanted.success.extend(map(parsed, puts))
        wanted.failure.extend(map(parsed, reads))
        self.assertEqual(TxnRequest.FromString(wire.request_of(guards, puts, reads)), wanted)
        within = RequestOp(request_txn=wanted)
        self.assertEqual(parsed(wire.choosing(guards, puts, reads)), within)
        both = TxnRequest(success=[within, RequestOp(request_txn=TxnRequest())])
        parts = [wire.Branches(guards, puts, reads), wire.Branches([], [], [])]
        self.assertEqual(TxnRequest.FromString(wire.request_of_all(parts)), both)


if __name__ == "__main__":
    unittest.main()
