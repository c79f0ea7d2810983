"""Reads a grid file, carves it in slices, and writes the points of the body's surface: what carve_grid.c does, over libwattlerugby.so.

    LD_LIBRARY_PATH=PREFIX/lib python3 examples/carve_grid.py samples/torus-1.grid points.xyz

Python 3 and its own library suffice. Calls have their symbols' names here, to which the header maps the plain ones; the header also says what
each call does, and what each number that it refuses with means. The status is 0 where the points were written, 1 where a call refused, 2 where
a file or the library could not be read, or the points not written.
"""

import sys
from ctypes import CDLL, POINTER, Structure, c_bool, c_double, c_int32, c_size_t, c_uint8, c_uint16, c_uint32, c_uint64

SLICE = 250  # examinations in one call
MOST_POINTS = 500  # points in one call
GONE = 0


class Sides(Structure):
    _fields_ = [("a", c_size_t), ("b", c_size_t), ("c", c_size_t)]


class Record(Structure):
    _fields_ = [("sides", Sides), ("allowed", c_uint16), ("openings", c_uint32), ("removals", c_uint64), ("examinations", c_uint64),
                ("euler", c_int32), ("finished", c_uint8)]


class Read(Structure):
    _fields_ = [("refusal", c_uint8), ("sides", Sides), ("allowed", c_uint16)]


class Next(Structure):
    """What begin and finish answer."""
    _fields_ = [("refusal", c_uint8), ("next", Record)]


class Carved(Structure):
    _fields_ = [("refusal", c_uint8), ("examined", c_uint32), ("removed", c_uint32), ("pending", c_bool), ("face", c_uint32),
                ("next", Record)]


class Opened(Structure):
    _fields_ = [("refusal", c_uint8), ("index", c_size_t), ("k", c_uint32), ("m", c_uint32), ("face", c_uint32), ("next", Record)]


class Points(Structure):
    _fields_ = [("refusal", c_uint8), ("count", c_size_t), ("next", c_size_t)]


def lent(element):
    """A buffer as a call takes it: a pointer and a length."""
    return [POINTER(element), c_size_t]


BYTES, NUMBERS, DOUBLES = lent(c_uint8), lent(c_int32), lent(c_double)

# each call's symbol, what it answers and what it takes
CALLS = {
    "wattlerugby_read_6": (Read, BYTES + NUMBERS),
    "wattlerugby_begin_8": (Next, [Sides, c_uint16] + NUMBERS + BYTES + NUMBERS + BYTES),
    "wattlerugby_carve_9": (Carved, [Record] + NUMBERS + BYTES + BYTES + [c_uint32]),
    "wattlerugby_open_9": (Opened, [Record] + NUMBERS + BYTES + BYTES),
    "wattlerugby_finish": (Next, [Record] + NUMBERS + BYTES),
    "wattlerugby_points": (Points, [Record] + NUMBERS + BYTES + [c_size_t] + DOUBLES),
}


def library():
    found = CDLL("libwattlerugby.so.1")
    for symbol, (answer, takes) in CALLS.items():
        call = getattr(found, symbol)
        call.restype, call.argtypes = answer, takes
    return found


class Refused(Exception):
    pass


def done(call, answer):
    if answer.refusal != 0:
        raise Refused(f"{call}: refused {answer.refusal}")
    return answer


class Grid:
    """A record with the buffers that belong to it. No voxel is marked."""

    def __init__(self, lib, data):
        self.lib = lib
        file = (c_uint8 * len(data)).from_buffer_copy(data)
        n = voxels(data)
        values = (c_int32 * n)()
        read = done("read", lib.wattlerugby_read_6(file, len(data), values, n))
        self.n, self.dist, self.status, self.marks = n, (c_int32 * n)(), (c_uint8 * n)(), (c_uint8 * n)()
        begun = lib.wattlerugby_begin_8(read.sides, read.allowed, values, n, self.marks, n, self.dist, n, self.status, n)
        self.record = done("begin", begun).next

    def carve(self, limit):
        n = self.n
        carved = done("carve", self.lib.wattlerugby_carve_9(self.record, self.dist, n, self.marks, n, self.status, n, limit))
        self.record = carved.next
        return carved

    def open(self):
        n = self.n
        opened = self.lib.wattlerugby_open_9(self.record, self.dist, n, self.marks, n, self.status, n)
        self.record = opened.next
        return opened

    def finish(self):
        self.record = done("finish", self.lib.wattlerugby_finish(self.record, self.dist, self.n, self.status, self.n)).next

    def filled(self):
        """Counted before finish: after it the filled voxels are negative like the inside."""
        return sum(status != GONE and dist >= 0 for status, dist in zip(self.status, self.dist))

    def points(self):
        some, position = (c_double * (3 * MOST_POINTS))(), 0
        while position < 3 * self.n:
            found = self.lib.wattlerugby_points(self.record, self.dist, self.n, self.status, self.n, position, some, len(some))
            done("points", found)
            for i in range(0, 3 * found.count, 3):
                yield some[i], some[i + 1], some[i + 2]
            position = found.next


def voxels(data):
    """How many values a file needs. Of a header that read is going to refuse it may be any number: here 0."""
    sides = data[2:5]
    fit = len(sides) == 3 and all(3 <= side <= 64 for side in sides)
    return sides[0] * sides[1] * sides[2] if fit else 0


def carve_to_the_end(grid):
    """The standard loop. Gives the number that ended it, the last open's."""
    while True:
        carved = grid.carve(SLICE)
        pending = "some pending" if carved.pending else "nothing pending"
        print(f"carve: examined {carved.examined}, removed {carved.removed}, {pending}")
        if carved.pending:
            continue
        opened = grid.open()
        if opened.refusal != 0:
            return opened.refusal
        print(f"open: voxel {opened.index}, k {opened.k}, m {opened.m}, face {opened.face}")


def carve_file(lib, name, points_name):
    with open(name, "rb") as file:
        grid = Grid(lib, file.read())
    print(f"ended by {carve_to_the_end(grid)}")
    print(f"filled: {grid.filled()}")
    grid.finish()
    r = grid.record
    print(f"openings {r.openings} of {r.allowed}, removals {r.removals}, examinations {r.examinations}, Euler number {r.euler}")
    lines = [f"{x} {y} {z}\n" for x, y, z in grid.points()]
    with open(points_name, "w") as out:
        out.writelines(lines)
    print(f"points: {len(lines)}")


def main(words):
    if len(words) != 2:
        print("usage: carve_grid.py GRID POINTS", file=sys.stderr)
        return 2
    try:
        carve_file(library(), *words)
        return 0
    except Refused as refused:
        print(refused)
        return 1
    except OSError as wrong:
        print(f"carve_grid.py: {wrong}", file=sys.stderr)
        return 2


if __name__ == "__main__":
    sys.exit(main(sys.argv[1:]))
