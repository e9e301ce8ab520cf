"""Stores inside the process."""

import gc
import json
import threading
import unittest
from typing import Any, List, Tuple, Union, cast

from pickbracken import Access, Closed, NoMemory, Refused, Reply, Store, Tree, document

from test_kept import STOCK, resident

ADD = '{"batch":[[["add","/a",1]]]}'
LONG = b" " * 1_048_577


class Stores(unittest.TestCase):
    def test_lines_are_answered_in_turn(self) -> None:
        with Store(STOCK) as store:
            self.assertEqual(store.last_reply(), b"")
            for number in range(1, 4):
                wanted = b'{"places":[0],"replies":[[%d]],"round":%d}' % (10 + number, number)
                self.assertEqual(store.answer(ADD if number % 2 else ADD.encode()), wanted)
                self.assertEqual(store.last_reply(), wanted)

    def test_requests_are_those_of_a_client(self) -> None:
        with Store(STOCK) as store:
            told = store.batch([Access.get("/a"), Access.set("/b", 3)], [Access.take("/b", 4)])
            self.assertEqual((told.places, told.replies, told.round), ((0, 1), ((10, Reply.STORED), (Reply.SHORT,)), 1))
            accesses = [Access.get("/a"), Access.add("/b", 1).lasting(2)]
            self.assertEqual(store.check(accesses, store.plan(accesses)), store.plan(accesses).cost)
            self.assertEqual(store.weights(), ((5, 1, 1), (0, 0, 0)))
            self.assertEqual(store.reweigh(), 1)
            self.assertEqual(store.weights(), ((3, 1, 1), (0, 0, 0)))

    def test_refusals_change_nothing(self) -> None:
        with Store(STOCK) as store:
            refused: List[Tuple[Union[bytes, str], str]] = [("", "bad-json"), ("{}", "shape"), (LONG, "long-line")]
            for line, name in refused:
                self.assertEqual(json.loads(store.answer(line)), {"error": name})
            with self.assertRaises(Refused) as caught:
                store.batch([Access.add("/a", 1)], [Access.get("/c")])
            self.assertEqual(caught.exception.name, "no-path")
            self.assertEqual(store.batch([Access.get("/a")]).round, 1)

    def test_a_long_reply_comes_whole_and_once(self) -> None:
        with Store(STOCK) as store:
            told = store.batch(*([Access.add("/a", 1)] * 64 for _ in range(128)))
            self.assertEqual(told.replies[-1][-1], 10 + 64 * 128)
            self.assertGreater(len(store.last_reply()), 16_384)
            self.assertEqual(store.batch([Access.get("/a")]).replies, ((10 + 64 * 128,),))

    def test_documents_that_are_refused_open_no_store(self) -> None:
        heavy = Tree.from_paths({"/": 1001})
        documents: List[Union[Tree, bytes, str]] = [b"{", "[]", heavy]
        for opened_from, name in zip(documents, ("bad-json", "shape", "bad-weight")):
            with self.assertRaises(Refused) as caught:
                Store(opened_from)
            self.assertEqual(caught.exception.name, name)

    def test_what_is_no_text_is_a_type_error(self) -> None:
        strange: List[Any] = [None, 7, {}, bytearray(b"{}")]
        with Store(STOCK) as store:
            for it in strange:
                for call in (Store, store.answer, document.plan):
                    with self.assertRaises(TypeError) as caught:
                        call(it)
                    self.assertEqual(str(caught.exception), f"bytes are needed, and not {type(it).__name__}")
            with self.assertRaises(TypeError):
                document.judge(cast(Any, "{}"))

    def test_a_closed_store_says_so(self) -> None:
        store = Store(STOCK.document())
        store.close()
        store.close()
        for call in (lambda: store.answer(ADD), store.last_reply, store.weights):
            with self.assertRaises(Closed):
                call()

    def test_threads_take_turns(self) -> None:
        came: List[int] = []
        with Store(STOCK) as store:

            def add_often() -> None:
                came.extend(json.loads(store.answer(ADD))["replies"][0][0] for _ in range(200))

            threads = [threading.Thread(target=add_often) for _ in range(4)]
            for thread in threads:
                thread.start()
            for thread in threads:
                thread.join()
        self.assertEqual(sorted(came), list(range(11, 811)))

    def test_no_memory_is_an_error_of_its_own(self) -> None:
        self.assertTrue(issubclass(NoMemory, MemoryError))


class Memory(unittest.TestCase):
    """Ten thousand lines, and stores that are opened and closed, or dropped, leave the process's memory as it was."""

    MOST = 2 << 20

    def test_stores_keep_nothing_more(self) -> None:
        with Store(STOCK) as kept:

            def each() -> None:
                kept.answer(ADD)
                kept.plan([Access.get("/a"), Access.get("/b")])
                with Store(STOCK) as store:
                    store.answer(ADD)
                Store(STOCK)

            for _ in range(500):
                each()
            gc.collect()
            before = resident()
            for _ in range(10_000):
                each()
            gc.collect()
            self.assertLess(resident() - before, self.MOST)


if __name__ == "__main__":
    unittest.main()
