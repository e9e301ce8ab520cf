"""Groups that share a transaction."""
import unittest
from concurrent.futures import Future
from dataclasses import replace

import here  # noqa: F401
from grove_etcd import etcdrpc
from grove_etcd.refusals import Failed
from grove_etcd.sharing import MOST_BYTES, MOST_PARTS, MOST_SHARED, Commits, Part, Sent, together
from grove_etcd.wire import absent, putting, reading


def part(*about, guards=1, value="x", inner=0):
    key = min(about, default="none")
    reads = [reading(key)]
    return Part([absent(key)] * guards, [putting(key, value)], reads, reads, frozenset(about), inner)


class Taken(unittest.TestCase):
    def taken(self, *parts):
        sent = Sent()
        return [sent.take(each, Future()) for each in parts]

    def test_those_with_nothing_in_common_are(self):
        self.assertEqual(self.taken(part("a"), part("b", "c"), part("c"), part("d")), [True, True, False, True])

    def test_so_many_are(self):
        self.assertEqual(self.taken(*(part(str(each)) for each in range(10))), [True] * MOST_PARTS + [False] * 2)

    def test_one_that_says_nothing_of_itself_goes_alone(self):
        self.assertEqual(self.taken(part("a"), part()), [True, False])
        self.assertEqual(self.taken(part(), part("a")), [True, False])

    def test_one_that_is_large_goes_alone(self):
        most = part("b", guards=MOST_SHARED)
        self.assertEqual(self.taken(part("a"), most, part("c", guards=MOST_SHARED, inner=1)), [True, True, False])
        long = "x" * (MOST_BYTES // 2)
        self.assertEqual(self.taken(part("b", value=long), part("c", value=long)), [True, False])


class Member:
    """Refuses what several share, if it is to; the guards of parts at `held` don't hold."""

    def __init__(self, refuses=False, held=()):
        self.refuses, self.held, self.made = refuses, held, []

    def make(self, request):
        self.made.append(request)
        if self.refuses and len(self.made) == 1:
            raise Failed("too many operations")
        from grove_etcd.wire import done

        asked = etcdrpc.TxnRequest.FromString(request)
        return done(self.answer(asked))

    def answer(self, asked):
        holds = not any(each.key.decode() in self.held for each in asked.compare)
        answer = etcdrpc.TxnResponse(succeeded=holds)
        answer.header.revision = 7
        for each in asked.success if holds else asked.failure:
            one = answer.responses.add()
            if each.WhichOneof("request") == "request_txn":
                one.response_txn.CopyFrom(self.answer(each.request_txn))
            elif each.WhichOneof("request") == "request_range":
                pair = one.response_range.kvs.add()
                pair.key, pair.value = each.request_range.key, b"read"
            else:
                one.response_put.SetInParent()
        return answer


class Made(unittest.TestCase):
    def test_each_is_made_by_its_own_guards_and_reads(self):
        members = Member(held=["b"])
        dones = list(Commits(members).make_all([part("a"), part("b"), part("c")]))
        self.assertEqual([done.succeeded for done in dones], [True, False, True])
        self.assertEqual([list(done.found.entries) for done in dones], [["a"], ["b"], ["c"]])
        self.assertEqual(([done.found.revision for done in dones], len(members.made)), ([7, 7, 7], 1))

    def test_if_etcd_refuses_it_each_is_made_by_itself(self):
        members = Member(refuses=True)
        dones = list(Commits(members).make_all([part("a"), part("b")]))
        self.assertEqual(([done.succeeded for done in dones], len(members.made)), ([True, True], 3))

    def test_one_that_reads_only_its_own_is_there_once(self):
        own = replace(part("a"), then=[], otherwise=[], own=[reading("a")])
        members = Member(held=["a"])
        dones = list(Commits(members).make_all([own, part("b"), own]))
        self.assertEqual([done.succeeded for done in dones], [False, True, False])
        self.assertEqual([list(done.found.entries) for done in dones], [["a"], ["b"], ["a"]])
        self.assertEqual(len(etcdrpc.TxnRequest.FromString(members.made[0]).success), 4)
        alone = list(Commits(members).make_all([own]))
        self.assertEqual([(done.succeeded, list(done.found.entries)) for done in alone], [(False, ["a"])])

    def test_what_is_read_comes_after_all_changes(self):
        asked = etcdrpc.TxnRequest.FromString(together([part("a"), part("b")])).success
        kinds = [[each.WhichOneof("request") for each in one.request_txn.success] for one in asked]
        self.assertEqual(kinds, [["request_put"], ["request_put"], ["request_range"], ["request_range"]])


if __name__ == "__main__":
    unittest.main()
