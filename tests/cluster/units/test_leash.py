"""The timer that kills a process, each in a child that has one of its own."""
import os
import select
import signal
import subprocess
import sys
import time
import unittest
from unittest import mock

import here  # noqa: F401
from grove_etcd import leash
from grove_etcd.leash import Leash, length_of, now
from grove_etcd.refusals import Failed

# After a timer, in seconds: how long the child goes on if it isn't killed.
SHORT, LONG = 0.2, 30.0


def child(body):
    """How the child ended: the signal that killed it, or 0; and after how long."""
    begun = time.monotonic()
    process = os.fork()
    if not process:
        try:
            body()
        finally:
            os._exit(0 if sys.exc_info()[0] is None else 1)
    status = os.waitpid(process, 0)[1]
    return os.WTERMSIG(status) if os.WIFSIGNALED(status) else -os.WEXITSTATUS(status), time.monotonic() - begun


def armed(body, seconds=SHORT):
    """A leash that is armed for so many seconds, and what is done with it."""

    def whole():
        with Leash() as it:
            it.arm(now() + seconds)
            body(it)

    return child(whole)


class Leashes(unittest.TestCase):
    def need_killed(self, came, least=SHORT):
        self.assertEqual(came[0], signal.SIGKILL)
        self.assertTrue(least <= came[1] < LONG, came)

    def test_it_kills_at_its_time(self):
        self.need_killed(armed(lambda _: time.sleep(LONG)))

    def test_it_kills_one_that_was_stopped(self):
        self.need_killed(armed(lambda _: os.kill(os.getpid(), signal.SIGSTOP)))

    def test_it_kills_whatever_signals_are_ignored_or_blocked(self):
        def body(_):
            signal.pthread_sigmask(signal.SIG_BLOCK, signal.valid_signals())
            time.sleep(LONG)

        self.need_killed(armed(body))

    def test_it_is_put_off_and_set_sooner(self):
        def later(it):
            it.put_off(now() + LONG)
            time.sleep(3 * SHORT)

        def sooner(it):
            it.put_off(now() + SHORT)
            time.sleep(LONG)

        self.assertEqual(armed(later)[0], 0)
        self.need_killed(armed(sooner, LONG))

    def test_what_is_disarmed_stays_so(self):
        def body(it):
            it.disarm()
            it.put_off(now() + SHORT)
            it.pull()
            time.sleep(3 * SHORT)

        self.assertEqual(armed(body)[0], 0)

    def test_it_is_armed_again(self):
        def body(it):
            it.disarm()
            it.arm(now() + SHORT)
            time.sleep(LONG)

        self.need_killed(armed(body, LONG))

    def test_a_time_that_has_passed_kills_at_once(self):
        self.need_killed(armed(lambda _: os._exit(3), -LONG), 0)
        self.need_killed(armed(lambda it: it.put_off(now()) or os._exit(3), LONG), 0)
        self.need_killed(armed(lambda it: it.pull() or os._exit(3), LONG), 0)

    def test_it_ends_with_its_context(self):
        def body():
            with Leash() as it:
                it.arm(now() + SHORT)
            it.put_off(now() + SHORT)
            time.sleep(3 * SHORT)

        self.assertEqual(child(body)[0], 0)

    def test_two_are_independent(self):
        def body(it):
            with Leash() as other:
                other.arm(now() + LONG)
                it.disarm()
                time.sleep(3 * SHORT)
                other.put_off(now() + SHORT)
                time.sleep(LONG)

        self.need_killed(armed(body))

    def test_a_program_that_it_starts_ends_with_it_by_setpriv(self):
        """The program has the end of a pipe."""
        here, there = os.pipe()
        words = ["setpriv", "--pdeathsig", "KILL", "sleep", str(LONG)]
        self.need_killed(armed(lambda _: subprocess.run(words, pass_fds=[there], check=False)))
        os.close(there)
        self.assertEqual(select.select([here], [], [], LONG / 2)[0], [here])
        self.assertEqual(os.read(here, 1), b"")
        os.close(here)

    def test_another_process_has_none(self):
        """A fork takes no timer with it, so it can't arm one that it doesn't have."""

        def body(it):
            came = child(lambda: it.put_off(now() + LONG))
            os._exit(0 if came[0] == -1 else 3)

        self.assertEqual(armed(body, LONG)[0], 0)


class Others(unittest.TestCase):
    def test_it_ends_before_others_are_out_of_patience(self):
        for patience, wanted in ((5, 4.45), (2, 1.75), (0.1, 0.05), (0.01, 0.005)):
            self.assertAlmostEqual(length_of(patience), wanted)

    def test_where_there_is_no_such_timer(self):
        with mock.patch.object(leash, "ctypes") as calls:
            calls.CDLL.return_value = object()
            self.assertRaisesRegex(Failed, "this system", Leash)
        with mock.patch.object(leash.os, "getpid", return_value=1):
            self.assertRaisesRegex(Failed, "process 1", Leash)

    def test_where_there_are_no_more(self):
        import resource

        def body():
            resource.setrlimit(resource.RLIMIT_SIGPENDING, (0, 0))
            try:
                Leash()
            except Failed:
                os._exit(3)

        self.assertEqual(child(body)[0], -3)


if __name__ == "__main__":
    unittest.main()
