"""Modules that a program loads once it uses them."""
import subprocess
import sys
import unittest
from pathlib import Path

TOP = Path(__file__).resolve().parents[3]

SEEN = """
import sys
sys.path.insert(0, "cluster")
from grove_etcd import command_line
from grove_etcd.connecting import loaded
def seen():
    return [name for name in ("asyncio.events", "grpc._cython.cygrpc", "grpc.aio._call") if name in sys.modules]
before, _, after = seen(), loaded(), seen()
import asyncio, grpc.aio
later = asyncio.run(asyncio.sleep(0, "ran")), grpc.aio.Channel.__name__, asyncio is sys.modules["asyncio"]
print(before, after, *later)
"""


class Later(unittest.TestCase):
    def test_what_is_loaded_later_is_there_for_who_imports_it(self):
        ran = subprocess.run([sys.executable, "-c", SEEN], cwd=TOP, capture_output=True, text=True, check=False)
        self.assertEqual((ran.stdout, ran.stderr), ("[] ['grpc._cython.cygrpc'] ran Channel True\n", ""))


if __name__ == "__main__":
    unittest.main()
