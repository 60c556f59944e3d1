"""Proportionate-fair plans (Algorithm PF) from the proved library, by ctypes.

A task of weight (e, p) is due e of every p slots. `Planner` keeps a ledger, a slot and how many slots each task got, and plans
on from it:

    >>> planner = Planner(2, [(2, 3), (2, 3), (2, 3)])
    >>> [planner.next_row() for _ in range(3)]
    [[0, 1], [0, 2], [1, 2]]

A number that isn't below the number of weights is an idle task's. The library is libpfx.so, in the folder that the variable
PFX_LIB names, or else beside this file, or in examples/embed/out, where examples/embed/build puts it, or in release.
"""

import ctypes
import os
from ctypes import POINTER, byref, c_size_t, c_uint16, c_uint32, c_uint64

NAMES = {
    11: "NoTasks",
    12: "TooManyTasks",
    13: "BadWorkers",
    14: "BadWeight",
    16: "HyperperiodTooLarge",
    17: "Overload",
    21: "TooManyUrgent",
    22: "TooFewEligible",
    23: "SlotLimit",
    24: "OutOfRange",
    25: "WrongSum",
    26: "BadLedger",
    57: "NoRoom",
    90: "NoMemory",
}

# The refusals that name a task.
NAMING = (14, 16, 24)


class Refused(Exception):
    """A refusal: its number in the product's table, its name, and the task that it names, or None."""

    def __init__(self, number, task=None):
        self.number = number
        self.name = NAMES.get(number, "unknown")
        self.task = task
        super().__init__(f"{number} {self.name}" + ("" if task is None else f" task={task}"))


class _Weight(ctypes.Structure):
    _fields_ = [("e", c_uint32), ("p", c_uint32)]


class _Set(ctypes.Structure):
    _fields_ = [("hyper", c_uint32), ("idle", c_uint32), ("load", c_uint64)]


def _load():
    here = os.path.dirname(os.path.abspath(__file__))
    top = os.path.join(here, "..")
    folders = [os.environ.get("PFX_LIB"), here, os.path.join(top, "examples", "embed", "out"), os.path.join(top, "release")]
    paths = [os.path.join(folder, "libpfx.so") for folder in folders if folder]
    library = ctypes.CDLL(next((path for path in paths if os.path.exists(path)), paths[0]))
    weights = [c_uint32, POINTER(_Weight), c_size_t]
    ledger = [c_uint64, POINTER(c_uint64), c_size_t]
    row = [POINTER(c_uint16), c_size_t]
    library.pfx_total.argtypes = [*weights, POINTER(c_size_t)]
    library.pfx_set.argtypes = [*weights, POINTER(_Set), POINTER(c_uint16)]
    library.pfx_check.argtypes = [*weights, *ledger, POINTER(c_uint16)]
    library.pfx_next.argtypes = [*weights, *ledger, *row]
    library.pfx_plan.argtypes = [*weights, c_size_t, POINTER(c_uint64), POINTER(c_uint64), c_size_t, *row, POINTER(c_size_t)]
    for name in ("pfx_total", "pfx_set", "pfx_check", "pfx_next", "pfx_plan"):
        getattr(library, name).restype = c_uint32
    return library


_library = _load()


def _fits(value, bits, what):
    # ctypes would cut a number that doesn't fit, and the library would see another one.
    number = int(value)
    if not 0 <= number < 1 << bits:
        raise OverflowError(f"{what} isn't from 0 to 2^{bits} - 1: {number}")
    return number


def _weights(weights):
    pairs = [(_fits(e, 32, "a weight's e"), _fits(p, 32, "a weight's p")) for e, p in weights]
    return (_Weight * len(pairs))(*pairs), len(pairs)


def _refuse(number, task):
    if number:
        raise Refused(number, task.value if number in NAMING else None)


class Planner:
    """A set of weights on so many workers, and a ledger of it: the slot, and what each task got (`allocs`, idle tasks too).

    The ledger is that before slot 0, unless a slot and allocations are given. `Refused` tells why the set or the ledger is none.
    One thread at a time may use a planner.
    """

    def __init__(self, workers, weights, slot=0, allocs=None):
        self._workers = _fits(workers, 32, "the workers")
        self._weights, self._count = _weights(weights)
        shown, task = _Set(), c_uint16()
        _refuse(_library.pfx_set(self._workers, self._weights, self._count, byref(shown), byref(task)), task)
        #: The hyperperiod in slots; how many idle tasks there are; the weights sum to load / hyper.
        self.hyper, self.idle, self.load = shown.hyper, shown.idle, shown.load
        given = [0] * (self._count + self.idle) if allocs is None else [_fits(a, 64, "an allocation") for a in allocs]
        self._slot = c_uint64(_fits(slot, 64, "the slot"))
        self._allocs, self._total = (c_uint64 * len(given))(*given), len(given)
        number = _library.pfx_check(
            self._workers, self._weights, self._count, self._slot, self._allocs, self._total, byref(task)
        )
        _refuse(number, task)

    @property
    def slot(self):
        """The slot to come."""
        return self._slot.value

    @property
    def allocs(self):
        """How many slots each task got, idle ones last."""
        return list(self._allocs)

    def peek(self):
        """The row of the slot to come; the ledger stays."""
        row = (c_uint16 * self._workers)()
        number = _library.pfx_next(
            self._workers, self._weights, self._count, self._slot, self._allocs, self._total, row, self._workers
        )
        _refuse(number, c_uint16())
        return list(row)

    def plan(self, slots):
        """The rows of so many slots, and the refusal behind them: None where all were made. The ledger goes along."""
        slots = _fits(slots, 48, "the slots")
        rows, made = (c_uint16 * (slots * self._workers))(), c_size_t()
        number = _library.pfx_plan(
            self._workers, self._weights, self._count, slots, byref(self._slot), self._allocs, self._total,
            rows, len(rows), byref(made),
        )
        m = self._workers
        return [list(rows[i * m : i * m + m]) for i in range(made.value)], (Refused(number) if number else None)

    def next_row(self):
        """The row of the slot to come; the ledger goes on by it."""
        rows, refused = self.plan(1)
        if refused:
            raise refused
        return rows[0]

    def rows(self, block=256):
        """Goes over the rows from here on, planned so many at a time: the ledger stands at the end of the block.

        Ends by a `Refused` at the slot that has no row."""
        while True:
            rows, refused = self.plan(block)
            yield from rows
            if refused:
                raise refused
