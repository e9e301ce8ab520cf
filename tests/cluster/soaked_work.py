"""Work for `work --work soaked_work:perform`: takes some milliseconds, fails now and then, ends its process seldom, and
always fails for some jobs, whose names tell."""
import os
import sys
import time
from random import Random
from zlib import crc32

RANDOM = Random(time.time_ns())
# Of accesses, the share that fails at a try, that leaves by SystemExit, and that ends the process; one job in so many
# always fails.
FAILS, LEAVES, ENDS, ALWAYS = 0.03, 0.005, 0.001, 60
SECONDS = 0.02


def always_fails(name):
    return crc32(name.encode()) % ALWAYS == 0


def perform(_access, _record, token):
    time.sleep(RANDOM.uniform(0, SECONDS))
    if always_fails(token.partition("/")[0]):
        raise RuntimeError("it always fails " + "x" * 10_000)
    luck = RANDOM.random()
    if luck < ENDS:
        os._exit(9)
    if luck < LEAVES:
        sys.exit("it leaves")
    if luck < FAILS:
        raise ValueError("it fails")
