"""Buffers of every sort: whatever is lent, the call reads and writes what a list of the same bytes would hold."""
import ctypes
import io
import mmap
import tempfile
import unittest
from array import array

from balanced import LengthError, Plan
from balanced.loans import Loans

try:
    from _testbuffer import ND_WRITABLE, ndarray  # CPython's own buffers with more dimensions
except ImportError:
    ndarray = None

PLAN = Plan([2, 11, 15, 10])
LANES = 6
MESSAGE = bytes(range(60, 120))
SHARES = bytes(PLAN.encode(LANES, MESSAGE))


def mapped(data):
    area = mmap.mmap(-1, len(data))
    area[:] = data
    return area


def mapped_file(data):
    """A file that is mapped, and can be read alone."""
    with tempfile.TemporaryFile() as file:
        file.write(data)
        file.flush()
        return mmap.mmap(file.fileno(), len(data), access=mmap.ACCESS_READ)


def spread(data, step):
    """The bytes with gaps between them, or backwards."""
    room = bytearray(b"\xaa" * (len(data) * abs(step)))
    view = memoryview(room)[::step]
    view[:] = data
    return view


def half_words(data):
    """Every second item of two bytes."""
    items = array("H", bytes(2 * len(data)))
    view = memoryview(items)[::2]
    view[:] = memoryview(data).cast("H")
    return view


def shifted(data):
    """Bytes that start at an odd address."""
    room = bytearray(b"\xaa" + data)
    return memoryview(room)[1:]


def table(data, order):
    """Items with two indices, of which the first or the second moves first."""
    rows = ndarray(list(data), shape=[len(data) // 6, 6], flags=ND_WRITABLE)
    if order == "C":
        return rows
    columns = [data[row * 6 + column] for column in range(6) for row in range(len(data) // 6)]
    return ndarray(columns, shape=[len(data) // 6, 6], strides=[1, len(data) // 6], flags=ND_WRITABLE)


WRITABLE = {
    "bytearray": bytearray,
    "a class of bytearray": type("Bytes", (bytearray,), {}),
    "memoryview": lambda data: memoryview(bytearray(data)),
    "array of bytes": lambda data: array("B", data),
    "array of half words": lambda data: array("H", data),
    "mapped memory": mapped,
    "array of C": lambda data: (ctypes.c_uint8 * len(data))(*data),
    "characters": lambda data: memoryview(bytearray(data)).cast("c"),
    "two dimensions": lambda data: memoryview(bytearray(data)).cast("B", (2, len(data) // 2)),
    "buffer of a file": lambda data: io.BytesIO(data).getbuffer(),
    "odd address": shifted,
    "every second byte": lambda data: spread(data, 2),
    "every fifth byte": lambda data: spread(data, 5),
    "backwards": lambda data: spread(data, -1),
    "backwards with gaps": lambda data: spread(data, -3),
    "every second half word": half_words,
}
if ndarray is not None:
    WRITABLE["rows"] = lambda data: table(data, "C")
    WRITABLE["columns"] = lambda data: table(data, "F")
READ_ONLY = {
    "bytes": bytes,
    "a class of bytes": type("Bytes", (bytes,), {}),
    "memoryview of bytes": memoryview,
    "part of bytes": lambda data: memoryview(b"\xaa" + data + b"\xaa")[1:-1],
    "every second byte of bytes": lambda data: memoryview(bytes(x for byte in data for x in (byte, 0)))[::2],
    "mapped file": mapped_file,
    "every second byte of a mapped file": lambda data: memoryview(mapped_file(spread(data, 2).obj))[::2],
    "read-only view": lambda data: memoryview(bytearray(data)).toreadonly(),
}


def held(buffer):
    return memoryview(buffer).tobytes()


class Sorts(unittest.TestCase):
    def each(self, test, *kinds):
        for kind in kinds:
            for name, make in kind.items():
                with self.subTest(sort=name):
                    test(make)

    @unittest.skipIf(ndarray is None, "Python has no _testbuffer: no buffers of two dimensions with gaps")
    def test_two_dimensions(self):
        self.assertIn("columns", WRITABLE)

    def test_sorts_hold_the_bytes(self):
        self.each(lambda make: self.assertEqual(held(make(SHARES)), SHARES), WRITABLE, READ_ONLY)

    def test_read(self):
        def test(make):
            self.assertEqual(PLAN.encode(LANES, make(MESSAGE)), SHARES)
            self.assertIsNone(PLAN.belongs(LANES, make(SHARES)))

        self.each(test, WRITABLE, READ_ONLY)

    def test_written(self):
        def test(make):
            into = make(bytes(len(SHARES)))
            self.assertIs(PLAN.encode(LANES, MESSAGE, into), into)
            self.assertEqual(held(into), SHARES)

        self.each(test, WRITABLE)

    def test_changed(self):
        def test(make):
            wrong = bytearray(SHARES)
            wrong[20] ^= 1
            shares = make(bytes(wrong))
            self.assertEqual(PLAN.correct(LANES, shares), 1)
            self.assertEqual(held(shares), SHARES)
            self.assertEqual(PLAN.update(LANES, 0, 0, MESSAGE[0], MESSAGE[0] ^ 1, shares), PLAN.d)
            self.assertIsNone(PLAN.belongs(LANES, shares))

        self.each(test, WRITABLE)

    def test_refused(self):
        """Nothing of what is lent is changed, copied or not."""

        def test(make):
            into = make(bytes(range(len(SHARES))))
            with self.assertRaises(LengthError):
                PLAN.encode(LANES, MESSAGE[1:], into)
            self.assertEqual(held(into), bytes(range(len(SHARES))))

        self.each(test, WRITABLE)

    def test_read_only(self):
        def test(make):
            for call in (
                lambda buffer: PLAN.encode(LANES, MESSAGE, buffer),
                lambda buffer: PLAN.update(LANES, 0, 0, MESSAGE[0], 5, buffer),
                lambda buffer: PLAN.correct(LANES, buffer),
            ):
                buffer = make(SHARES)
                with self.assertRaisesRegex(TypeError, "shares is written to, and this .* is read-only"):
                    call(buffer)
                self.assertEqual(held(buffer), SHARES)

        self.each(test, READ_ONLY)

    def test_gaps_stay(self):
        """What stands between the bytes of a view with gaps is not touched: node 3 is rebuilt in its place."""
        shares = bytearray(SHARES)
        shares[3::15] = bytes(LANES)
        nodes = list(range(5, 15))
        left = bytes(shares[15 * lane + node] for lane in range(LANES) for node in nodes)
        PLAN.rebuild(LANES, nodes, left, 3, memoryview(shares)[3::15])
        self.assertEqual(shares, SHARES)

    def test_empty(self):
        empty = [b"", bytearray(), memoryview(b""), array("B"), (ctypes.c_uint8 * 0)(), memoryview(b"abc")[3:], memoryview(bytearray(4))[4::2]]
        for buffer in empty:
            with self.subTest(sort=type(buffer)):
                for call in (
                    lambda: PLAN.encode(1, buffer), lambda: PLAN.belongs(1, buffer), lambda: PLAN.find_update(buffer, buffer),
                    lambda: PLAN.mends(buffer), lambda: PLAN.recover(1, buffer, buffer),
                    lambda: PLAN.encode(1, MESSAGE[:10], bytearray()), lambda: PLAN.correct(1, bytearray()),
                ):
                    self.assertRaises(LengthError, call)


    def test_null(self):
        """A view of nothing, at a pointer that is null, is lent at one that is not."""
        view = ctypes.pythonapi.PyMemoryView_FromMemory
        view.restype, view.argtypes = ctypes.py_object, (ctypes.c_void_p, ctypes.c_ssize_t, ctypes.c_int)
        with Loans() as loans:
            start, length = loans.lend("message", view(None, 0, 0x100), False)
            self.assertEqual((bool(start.address), length), (True, 0))


class Overlaps(unittest.TestCase):
    def test_in_place(self):
        """The same buffer is read and written."""
        buffer = bytearray(SHARES)
        by_node = PLAN.to_nodes(LANES, SHARES)
        self.assertEqual(PLAN.to_nodes(LANES, buffer, buffer), by_node)
        self.assertEqual(PLAN.to_lanes(LANES, memoryview(buffer), memoryview(buffer)).tobytes(), SHARES)

    def test_every_offset(self):
        """A message and its shares stand in one buffer, at every distance."""
        before = bytes(90) + MESSAGE + bytes(90)
        for at in range(151):
            buffer = bytearray(before)
            view = memoryview(buffer)
            PLAN.encode(LANES, view[90:150], view[at:at + 90])
            self.assertEqual(buffer, before[:at] + SHARES + before[at + 90:])

    def test_nodes_in_what_is_written(self):
        nodes = bytes(range(10))
        buffer = bytearray(nodes + SHARES[:10] + bytes(10))
        view = memoryview(buffer)
        PLAN.recover(1, view[:10], view[10:20], view[5:15])
        self.assertEqual(view[5:15].tobytes(), MESSAGE[::LANES])

    def test_read_twice(self):
        """A buffer that is only read may be lent twice; no copy is needed."""
        self.assertEqual(repr(PLAN.find_update(SHARES[:15], SHARES[:15])), "Unchanged()")

    def test_refused(self):
        """A call that overlaps and is refused changes nothing."""
        buffer = bytearray(range(len(SHARES)))
        with self.assertRaises(LengthError):
            PLAN.encode(LANES, memoryview(buffer)[:59], buffer)
        self.assertEqual(buffer, bytes(range(len(SHARES))))

    def test_backwards(self):
        """A view with gaps over the buffer that is read."""
        buffer = bytearray(SHARES)
        PLAN.to_nodes(LANES, buffer, memoryview(buffer)[::-1])
        self.assertEqual(buffer[::-1], PLAN.to_nodes(LANES, SHARES))


class Types(unittest.TestCase):
    def test_no_buffer(self):
        for wrong in ("text", None, 5, 2.0, [1, 2], object()):
            for call in (
                lambda: PLAN.encode(1, wrong), lambda: PLAN.belongs(1, wrong), lambda: PLAN.correct(1, wrong), lambda: PLAN.mends(wrong),
                lambda: PLAN.find_update(wrong, bytes(15)), lambda: PLAN.find_update(bytes(15), wrong),
                lambda: PLAN.to_lanes(1, wrong), lambda: PLAN.to_nodes(1, wrong), lambda: PLAN.update(1, 0, 0, 0, 0, wrong),
                lambda: PLAN.recover(1, range(10), wrong), lambda: PLAN.rebuild(1, range(10), wrong, 0),
            ):
                self.assertRaisesRegex(TypeError, f"is a buffer of bytes, not {type(wrong).__name__}", call)
        for wrong in ("text", 5, [1, 2]):
            self.assertRaisesRegex(TypeError, "shares is a buffer of bytes", PLAN.encode, LANES, MESSAGE, wrong)

    def test_no_number(self):
        for wrong in ("1", None, 1.0, b"\1", [1]):
            shares = bytearray(SHARES)
            for call in (
                lambda: PLAN.encode(wrong, MESSAGE), lambda: PLAN.encode(wrong, MESSAGE, shares), lambda: PLAN.belongs(wrong, shares),
                lambda: PLAN.update(LANES, wrong, 0, 0, 1, shares), lambda: PLAN.update(LANES, 0, 0, wrong, 1, shares),
                lambda: PLAN.rebuild(1, range(10), SHARES[:10], wrong), lambda: PLAN.recover(1, [wrong] * 10, SHARES[:10]),
            ):
                self.assertRaises(TypeError, call)
            self.assertEqual(shares, SHARES)

    def test_no_nodes(self):
        for wrong in ("0123456789", None, 5, [0.0] * 10):
            self.assertRaises(TypeError, PLAN.recover, 1, wrong, SHARES[:10])
            self.assertRaises(TypeError, Plan, wrong)

    def test_nodes_of_every_sort(self):
        nodes, left = list(range(5, 15)), SHARES[5:15]
        for sort in (bytes(nodes), bytearray(nodes), tuple(nodes), range(5, 15), array("I", nodes), memoryview(bytes(nodes)), iter(nodes)):
            self.assertEqual(PLAN.recover(1, sort, left), MESSAGE[::LANES])


class Held(unittest.TestCase):
    def test_held_while_lent(self):
        buffer = bytearray(10)
        with Loans() as loans:
            loans.lend("shares", buffer, True)
            self.assertRaises(BufferError, buffer.append, 0)
        buffer.append(0)

    def test_free_afterwards(self):
        """No call holds on to a buffer, whatever comes of it."""
        buffer = bytearray(SHARES)
        PLAN.belongs(LANES, buffer)
        PLAN.to_lanes(LANES, buffer, buffer)
        self.assertRaises(LengthError, PLAN.encode, LANES, b"", buffer)
        self.assertRaises(TypeError, PLAN.find_update, buffer, None)
        self.assertRaises(TypeError, PLAN.update, LANES, "0", 0, 0, 0, buffer)
        read_only = memoryview(buffer).toreadonly()
        self.assertRaises(TypeError, PLAN.correct, LANES, read_only)
        read_only.release()
        buffer.clear()
