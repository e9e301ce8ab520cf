"""Calls without gRPC, beside a member that answers as it is told."""
import socket
import struct
import threading
import time
import unittest
from contextlib import suppress

import here  # noqa: F401
from grove_etcd import brief
from grove_etcd.brief import ALL, CALL, DATA, HEADERS, LAST, PADDED, PING, SETTINGS, WHOLE, NoAnswer, frame

BLOCK = b"\x88"
AWAY, RESET = 7, 3


def packed(message):
    return struct.pack(">BI", 0, len(message)) + message


class Answering:
    """A member of one call. It reads the request, and then sends these frames."""

    def __init__(self, *frames):
        self.frames, self.came = frames, b""
        self.listening = socket.create_server(("127.0.0.1", 0))
        self.thread = threading.Thread(target=self.run)
        self.thread.start()

    @property
    def address(self):
        return f"127.0.0.1:{self.listening.getsockname()[1]}"

    def run(self):
        connection, _ = self.listening.accept()
        with connection, suppress(OSError):
            while not self.came.endswith(packed(b"asked")):
                self.came += connection.recv(65536)
            for each in self.frames:
                connection.sendall(each)
                time.sleep(0.01)
            while more := connection.recv(65536):
                self.came += more

    def __enter__(self):
        return self

    def __exit__(self, *_):
        self.thread.join()
        self.listening.close()


def came(*frames, seconds=2.0, metadata=()):
    """The answer, or that there is none; and what the member has received."""
    with Answering(*frames) as member:
        try:
            answer = brief.answer(member.address, "/kv/Range", b"asked", seconds, metadata)
        except (NoAnswer, OSError) as why:
            answer = type(why).__name__
    return answer, member.came


HEAD, TAIL = frame(HEADERS, WHOLE, CALL, BLOCK), frame(HEADERS, WHOLE | LAST, CALL, BLOCK)


class Brief(unittest.TestCase):
    def test_a_message_is_the_answer(self):
        whole = frame(DATA, 0, CALL, packed(b"told"))
        self.assertEqual(came(HEAD, whole, TAIL)[0], b"told")
        self.assertEqual(came(frame(SETTINGS, 0, ALL, b"") + HEAD + whole + TAIL)[0], b"told")
        empty = frame(DATA, 0, CALL, packed(b""))
        self.assertEqual(came(HEAD, empty, TAIL)[0], b"")

    def test_it_may_come_in_parts_and_be_padded(self):
        long = bytes(range(256)) * 300
        content = packed(long)
        parts = [content[start : start + 7000] for start in range(0, len(content), 7000)]
        frames = [frame(DATA, PADDED, CALL, b"\x03" + part + b"\0\0\0") for part in parts]
        whole = b"".join([HEAD, *frames, TAIL])
        self.assertEqual(came(whole[:5], whole[5:9000], whole[9000:])[0], long)

    def test_whatever_else_comes_is_no_answer(self):
        part = frame(DATA, 0, CALL, packed(b"told")[:-1])
        squeezed = frame(DATA, 0, CALL, b"\1" + packed(b"told")[1:])
        for frames in ([TAIL], [HEAD, part, TAIL], [HEAD, squeezed, TAIL], [frame(RESET, 0, CALL, b"\0\0\0\1")]):
            self.assertEqual(came(*frames)[0], "NoAnswer")
        self.assertEqual(came(frame(AWAY, 0, ALL, b"\0" * 8))[0], "NoAnswer")
        self.assertEqual(came(HEAD, frame(DATA, LAST, CALL, packed(b"told")[:-1]))[0], "NoAnswer")

    def test_it_is_not_waited_for_longer_than_it_is_told(self):
        begun = time.monotonic()
        self.assertEqual(came(seconds=0.2)[0], "TimeoutError")
        pings = [frame(PING, 0, ALL, b"12345678")] * 60
        self.assertEqual(came(*pings, seconds=0.2)[0], "TimeoutError")
        self.assertLess(time.monotonic() - begun, 5)

    def test_what_has_to_be_acknowledged_is(self):
        frames = frame(SETTINGS, 0, ALL, b"\0\3\0\0\0\x64"), frame(PING, 0, ALL, b"12345678"), HEAD
        answer, sent = came(*frames, frame(DATA, 0, CALL, packed(b"told")), metadata=[("token", "t" * 300)])
        self.assertEqual(answer, b"told")
        self.assertTrue(sent.endswith(frame(SETTINGS, LAST, ALL, b"") + frame(PING, LAST, ALL, b"12345678")))
        self.assertTrue(sent.startswith(brief.PREFACE))
        self.assertIn(b"\0\5token\x7f\xad\x01" + b"t" * 300, sent)

    def test_without_an_answer_grpc_is_asked_from_then_on(self):
        asked = []

        def by_grpc():
            return lambda request, seconds, metadata: asked.append((request, seconds, metadata)) or "told"

        with Answering(TAIL) as member:
            call = brief.Call(member.address, "/kv/Range", None, bytes.decode, by_grpc)
            told = [call(b"asked", 1.0, (("token", "t"),)) for _ in range(2)]
        self.assertEqual((told, asked), (["told"] * 2, [(b"asked", 1.0, (("token", "t"),))] * 2))

    def test_what_is_too_long_is_left_for_grpc(self):
        call = brief.Call("127.0.0.1:1", "/kv/Range", None, bytes.decode, lambda: lambda request, _, metadata: "told")
        self.assertEqual(call(b"a" * 20_000, 1.0), "told")


if __name__ == "__main__":
    unittest.main()
