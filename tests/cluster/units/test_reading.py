"""The keys by which nobody has begun a job, as a worker reads them."""
import unittest

import here  # noqa: F401

from grove_etcd.journal import Journal
from grove_etcd.keys import MOST_KEY, Keys
from grove_etcd.reading import Reader
from grove_etcd.wire import Entry, deleting

KEYS = Keys("reading")


class Written(list):
    """Members that note what is written."""

    def write(self, changes):
        self.extend(changes)


class Noted(unittest.TestCase):
    def setUp(self):
        self.written = Written()
        self.reader = Reader(self.written, KEYS, Journal())

    def note(self, *keys):
        return self.reader.note({key: Entry("/a", put_at, put_at, 1) for put_at, key in enumerate(keys, 1)})

    def test_the_oldest_comes_first(self):
        self.assertEqual(list(self.note(KEYS.fresh(9, "b.0"), KEYS.fresh(3, "c.0"))), ["c.0", "b.0"])

    def test_a_key_that_is_too_long_is_deleted(self):
        most, more = (KEYS.whole("q") + "x" * (length - len(KEYS.whole("q"))) for length in (MOST_KEY, MOST_KEY + 1))
        self.assertEqual([each.key for each in self.note(most, more).values()], [most])
        self.assertEqual(self.written, [deleting(more)])

    def test_a_second_key_of_one_job_deletes_none(self):
        """Somebody else may have put it."""
        self.assertEqual(list(self.note(KEYS.fresh(3, "b.0"), KEYS.fresh(9, "b.0"))), ["b.0"])
        self.assertEqual(self.written, [])


if __name__ == "__main__":
    unittest.main()
