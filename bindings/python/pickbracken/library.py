"""The calls of the shared library, as include/grove.h has them."""

from __future__ import annotations

import ctypes
import mmap
import os
import weakref
from array import array
from enum import Enum
from functools import lru_cache
from pathlib import Path
from struct import Struct
from typing import Any, Callable, Iterator, List, Mapping, NoReturn, Optional, Sequence, Tuple

from .accesses import MOST_ACCESSES, Access
from .faults import Closed, NoMemory, OtherVersion, Refused, fault_text
from .version import __version__, packed, unpacked

DONE, REFUSED, ROOM, MEMORY, CLOSED = 0, 1, 2, 3, 4
# The file that tools/library makes, and the name by which a system has it.
FILE, SONAME = "libgrove.so", "libgrove.so.0"
# The room that a text is given at first; and what is kept of it for the next, if there was more in it.
FIRST_ROOM, KEPT_ROOM = 1 << 24, 1 << 20
# So large is the block by which glibc learns to keep free memory.
LARGE_BLOCK = 1 << 22
# A step is two numbers of 32 bits, and a row of a flow six of 64, the first of which has its node in its lower half.
STEP, ROW, NODE = 2, 6, 0xFFFF_FFFF
# A node of a part of a tree is three numbers of 32 bits.
PART = 3
# What is told of a plan that was made: its cost, how many steps and rows it has, and the place of a fault.
PLANNED = Struct("QIII4x")
planned_in = PLANNED.unpack_from


class Told(ctypes.Structure):
    """How a call ended, and how long its text is."""

    _fields_ = [("status", ctypes.c_uint32), ("length", ctypes.c_size_t)]


class Handle(ctypes.Structure):
    """What a tree or a store is kept by. It's changed by the calls below alone, and is never copied."""

    _fields_ = [("held", ctypes.c_void_p)]


class Checked(ctypes.Structure):
    """What a call says of a plan that it was given."""

    _fields_ = [("cost", ctypes.c_uint64), ("fault", ctypes.c_uint32), ("place", ctypes.c_uint32)]


class Command(Enum):
    """A command, by the library's call for it."""

    PLAN = "grove_c_plan"
    PLAN_DOCUMENT = "grove_c_plan_document"
    CHECK = "grove_c_check"
    JUDGE = "grove_c_judge"
    DRAW_SVG = "grove_c_draw_svg"
    DRAW_TEXT = "grove_c_draw_text"
    AUDIT = "grove_c_audit"


class Kept(Enum):
    """A call with a handle, which takes a text and says another."""

    OPEN = "grove_c_tree_open"
    OPEN_STORE = "grove_c_store_open"
    ANSWER = "grove_c_store_answer"


class Close(Enum):
    """A call with a handle that takes no text, and says none."""

    TREE = "grove_c_tree_close"
    STORE = "grove_c_store_close"


# The call with a handle that takes no text, and says one.
REPLY = "grove_c_store_reply"
# The calls over numbers. What they take stands in arrays, which are handed over as they are, with their lengths.
BUILD, REWEIGH = "grove_c_tree_build", "grove_c_tree_reweigh"
PLAN_NODES, PLAN_PART = "grove_c_tree_plan_nodes", "grove_c_plan_part"
CHECK_NODES, JUDGE_NODES = "grove_c_tree_check_nodes", "grove_c_tree_judge_nodes"
OVER_NUMBERS = (BUILD, REWEIGH, PLAN_NODES, CHECK_NODES, JUDGE_NODES)
VERSION = "grove_c_version"


def places() -> Iterator[Path]:
    """Where the library may be: as GROVE_LIBRARY says, or beside this file, or where tools/library puts it."""
    folder = os.environ.get("GROVE_LIBRARY")
    if folder:
        yield Path(folder)
        return
    here = Path(__file__).resolve()
    yield here.parent
    if len(here.parents) > 3:
        yield here.parents[3] / "out/library"


@lru_cache(maxsize=None)
def loaded() -> ctypes.CDLL:
    """The library, with the types of its calls, if it's of this package's version. It's loaded as the first call is
    made."""
    library = typed(found())
    version: int = getattr(library, VERSION)()
    if version != packed(__version__):
        raise OtherVersion(unpacked(version), __version__)
    keep_heap()
    return library


def keep_heap() -> None:
    """Has glibc keep what a large plan frees for the next one. It gives the system back what is free at the heap's end,
    but for twice as much as the largest block had that was ever freed. (Nobody writes to this one.)"""
    bytes(LARGE_BLOCK)


def found() -> ctypes.CDLL:
    """The library in the first of the places that has it, or else the system's, unless a place is named."""
    folders = list(places())
    for folder in folders:
        for name in (FILE, SONAME):
            if (folder / name).exists():
                return ctypes.CDLL(str(folder / name))
    if not os.environ.get("GROVE_LIBRARY"):
        try:
            return ctypes.CDLL(SONAME)
        except OSError:
            pass
    looked = " and no ".join(str(folder / FILE) for folder in folders)
    raise OSError(f"there is no {looked}: tools/library makes it")


def typed(library: ctypes.CDLL) -> ctypes.CDLL:
    """The library, whose calls know what they take and give."""
    handle, text = ctypes.POINTER(Handle), [ctypes.c_char_p, ctypes.c_size_t]
    said = [ctypes.c_void_p, ctypes.c_size_t]
    try:
        declare(library, VERSION, [], ctypes.c_uint32)
    except AttributeError:
        raise OtherVersion("earlier than 0.2.0", __version__) from None
    for command in Command:
        declare(library, command.value, [*text, *said], Told)
    for kept in Kept:
        declare(library, kept.value, [handle, *text, *said], Told)
    declare(library, REPLY, [handle, *said], Told)
    for close in Close:
        declare(library, close.value, [handle], None)
    for name in OVER_NUMBERS:
        # (What they take has its type already. To have it looked at once more takes as long as a short plan.)
        declare(library, name, None, ctypes.c_uint32)
    # (What this takes is new each time, so it has no type yet.)
    declare(library, PLAN_PART, [*[ctypes.c_void_p, ctypes.c_size_t] * 5, ctypes.c_void_p], ctypes.c_uint32)
    return library


def declare(library: ctypes.CDLL, name: str, takes: Optional[List[Any]], gives: Any) -> None:
    call = getattr(library, name)
    call.argtypes, call.restype = takes, gives


def call_of(name: str) -> Any:
    """A call of the library. While it goes on, Python's other threads do."""
    return getattr(loaded(), name)


def checked(text: object) -> bytes:
    """What a call takes, if it is that."""
    if not isinstance(text, bytes):
        raise TypeError(f"bytes are needed, and not {type(text).__name__}")
    return text


# ---- texts


def say(command: Command, document: bytes) -> str:
    """What a command says of a document."""
    call, document = call_of(command.value), checked(document)
    return text_of(lambda text, room: call(document, len(document), text, room))


def say_kept(kept: Kept, handle: Handle, text: bytes) -> str:
    """What a call with a handle says of a text, which it may be asked again. Its caller has the handle alone."""
    call = call_of(kept.value)
    return text_of(lambda said, room: call(ctypes.byref(handle), text, len(text), said, room))


def answer(handle: Handle, line: bytes) -> bytes:
    """The reply of the store that a handle holds to a line, which has its effect once. Its caller has the handle
    alone."""
    call, reply = call_of(Kept.ANSWER.value), call_of(REPLY)
    by = ctypes.byref(handle)
    return bytes_of(lambda text, room: call(by, line, len(line), text, room), lambda *room: reply(by, *room))


def last_reply(handle: Handle) -> bytes:
    """The last reply of the store that a handle holds, once more."""
    call = call_of(REPLY)
    return bytes_of(lambda text, room: call(ctypes.byref(handle), text, room))


def close(call: Close, handle: Handle) -> None:
    """Lets go what a handle holds, if it holds anything."""
    call_of(call.value)(ctypes.byref(handle))


def close_after(owner: object, call: Close, handle: Handle) -> None:
    """Has what a handle holds let go once nobody has its owner. If there is no library, this says so."""
    loaded()
    # (At the end of the process another thread may be in a call.)
    weakref.finalize(owner, close, call, handle).atexit = False


# Makes a call with a buffer and its length, which gives what it told.
Call = Callable[[Any, int], Any]


class Room:
    """A buffer for a text. Its pages take memory only once something is written to them."""

    def __init__(self, size: int) -> None:
        self.pages = mmap.mmap(-1, size, flags=mmap.MAP_PRIVATE | mmap.MAP_ANONYMOUS)
        self.text: Any = (ctypes.c_char * size).from_buffer(self.pages)
        self.size = size


# The buffers that no call has.
ROOMS: List[Room] = []


def text_of(call: Call) -> str:
    return bytes_of(call).decode()


def bytes_of(call: Call, again: Optional[Call] = None) -> bytes:
    """What a call says. Where its text has no room, that is had once more, by the other call if there is one."""
    room = ROOMS.pop() if ROOMS else Room(FIRST_ROOM)
    told = call(room.text, room.size)
    if told.status == ROOM:
        ROOMS.append(room)
        larger = Room(told.length)
        return bytes_by((again or call)(larger.text, larger.size), larger.text)
    try:
        return bytes_by(told, room.text)
    finally:
        if told.length > KEPT_ROOM:
            room.pages.madvise(mmap.MADV_DONTNEED)
        ROOMS.append(room)


def bytes_by(told: Told, text: Any) -> bytes:
    """The text of a call that had room for it."""
    said: bytes = text[: told.length]
    if told.status != DONE:
        fail(told.status, said.decode())
    return said


def fail(status: int, fault: str) -> NoReturn:
    """Raises what a call ended with that isn't done."""
    if status == REFUSED:
        raise Refused(fault)
    if status == MEMORY:
        raise NoMemory("memory")
    if status == CLOSED:
        raise Closed("it is closed")
    raise AssertionError(f"there is no status {status}")


# ---- numbers

# The cost of a plan, its steps, and the rows of its flow, all in numbers.
Settled = Tuple[int, "array[int]", "array[int]"]
# What a call over numbers takes: an address or a length, as it's handed over.
Given = Any
SIZES: List[Given] = [ctypes.c_size_t.from_param(size) for size in range(MOST_ACCESSES + 1)]


def short(count: int) -> array[int]:
    """So many numbers of 32 bits."""
    return array("I", bytes(4 * count))


def long(count: int) -> array[int]:
    """So many numbers of 64 bits."""
    return array("Q", bytes(8 * count))


def at(numbers: array[int]) -> Given:
    """Where an array begins, as long as somebody has it and nobody changes its length."""
    return ctypes.c_void_p.from_param(numbers.buffer_info()[0])


def count_of(numbers: array[int], each: int = 1) -> Given:
    """How many items of so many numbers an array has."""
    return ctypes.c_size_t.from_param(len(numbers) // each)


def room_for(nodes: int, accesses: int, wants_flow: bool = True) -> Tuple[array[int], array[int]]:
    """Arrays for the steps and the rows of any settled plan: it locks no node twice, and each row has another node."""
    return short(STEP * (2 * nodes + accesses)), long(ROW * nodes if wants_flow else 0)


def room_for_planned() -> array[int]:
    return short(PLANNED.size // 4)


class TreeCalls:
    """The calls over numbers by a handle that holds the tree of these paths, whose numbers are given, too, with arrays
    for what goes in and comes out. Their caller has all of this alone."""

    def __init__(self, handle: Handle, number_of: Mapping[str, int], paths: Sequence[str]) -> None:
        close_after(self, Close.TREE, handle)
        self.number_of, self.paths = number_of, paths
        self.plans, self.checks, self.judges = call_of(PLAN_NODES), call_of(CHECK_NODES), call_of(JUDGE_NODES)
        self.nodes, self.lengths = short(MOST_ACCESSES), short(MOST_ACCESSES)
        self.steps, self.rows = room_for(len(paths), MOST_ACCESSES)
        self.planned, self.checked = room_for_planned(), Checked()
        by, nodes, lengths = ctypes.byref(handle), at(self.nodes), at(self.lengths)
        buffers = at(self.steps), count_of(self.steps, STEP), at(self.rows), count_of(self.rows, ROW)
        # What each call takes of a list, by its length, and what else it takes to make a plan.
        self.lists = [(by, nodes, size, lengths, size) for size in SIZES]
        self.planning = [(*given, *buffers, at(self.planned)) for given in self.lists]

    def put(self, accesses: Sequence[Access]) -> int:
        """Puts the nodes and the lengths of a list where calls have them, and gives how many there are."""
        number_of, nodes, lengths = self.number_of, self.nodes, self.lengths
        place = 0
        try:
            for access in accesses:
                nodes[place] = number_of[access.path]
                lengths[place] = access.length
                place += 1
        except (IndexError, KeyError):
            raise Refused("limit list" if len(accesses) > MOST_ACCESSES else f"no-path list {place}") from None
        return place

    def plan(self, accesses: Sequence[Access]) -> Settled:
        """The settled plan of a list, and its flow."""
        status = self.plans(*self.planning[self.put(accesses)])
        cost, steps, rows, place = planned_in(self.planned)
        if status:
            fail(status, f"shape list {place}")
        return cost, self.steps[: STEP * steps], self.rows[: ROW * rows]

    def check(self, count: int, steps: array[int], rows: array[int]) -> int:
        """What the steps cost, if the rows prove them least."""
        plan, flow = (at(steps), count_of(steps, STEP)), (at(rows), count_of(rows, ROW))
        return self.told(self.checks(*self.lists[count], *plan, *flow, ctypes.byref(self.checked)))

    def judge(self, count: int, steps: array[int]) -> int:
        """What the steps cost, if they are legal."""
        plan = at(steps), count_of(steps, STEP)
        return self.told(self.judges(*self.lists[count], *plan, ctypes.byref(self.checked)))

    def told(self, status: int) -> int:
        told = self.checked
        if status:
            fail(status, fault_text(told.fault, told.place, told.cost, self.paths))
        cost: int = told.cost
        return cost


def plan_part(part: array[int], nodes: array[int], lengths: array[int], wants_flow: bool = False) -> Settled:
    """The settled plan of accesses of these places of a part of a tree, and its flow if that is wanted. A node of the
    part is three numbers: its own in the whole tree, the place of its parent in the part, and its weight."""
    count, planned = len(part) // PART, room_for_planned()
    steps, rows = room_for(count, len(nodes), wants_flow)
    at_part, at_steps, at_rows, at_planned = [numbers.buffer_info()[0] for numbers in (part, steps, rows, planned)]
    given = at_part, count, *nodes.buffer_info(), *lengths.buffer_info()
    status = call_of(PLAN_PART)(*given, at_steps, len(steps) // STEP, at_rows, len(rows) // ROW, at_planned)
    cost, step_count, row_count, place = planned_in(planned)
    if status:
        fail(status, f"shape {place}")
    del steps[STEP * step_count :], rows[ROW * row_count :]
    return cost, steps, rows


def build(handle: Handle, parents: array[int], weights: array[int]) -> None:
    """Has a handle hold the tree of nodes with these parents and weights."""
    by, tree = ctypes.byref(handle), (at(parents), count_of(parents), at(weights), count_of(weights))
    status = call_of(BUILD)(by, *tree)
    if status:
        fail(status, "shape nodes")


def reweigh(handle: Handle, waits: array[int]) -> array[int]:
    """The new weights of the nodes of the tree that a handle holds, by how often each was waited for. The tree has them
    from now on."""
    weights, changed, count = short(len(waits)), ctypes.c_uint32(), count_of(waits)
    status = call_of(REWEIGH)(ctypes.byref(handle), at(waits), count, at(weights), count, ctypes.byref(changed))
    if status:
        fail(status, "shape waits")
    return weights
