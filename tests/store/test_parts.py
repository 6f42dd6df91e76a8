"""Small parts: progress, work in order, carrying bytes on other records, the layout of blocks."""
import io
import threading
import time
import unittest

import support  # noqa: F401
import balanced
import share_reader
from imagestore import carrier, layout, pipeline, progress
from imagestore.errors import UsageError


class Terminal(io.StringIO):
    def isatty(self):
        return True


class Progress(unittest.TestCase):
    def test_only_on_a_terminal(self):
        silent = io.StringIO()
        bar = progress.Bar(silent)
        bar("put", 1, 2)
        bar.clear()
        self.assertEqual(silent.getvalue(), "")
        shown = Terminal()
        bar = progress.Bar(shown)
        bar("put", 1, 4)
        self.assertIn("put [#######", shown.getvalue())
        self.assertIn(" 25 %", shown.getvalue())
        bar("put", 2, 4)  # too soon to be shown
        self.assertNotIn("50 %", shown.getvalue())
        bar("put", 4, 4)
        self.assertTrue(shown.getvalue().endswith("\r"))


class Pipeline(unittest.TestCase):
    def test_order_and_bound(self):
        """Results come in order, and never more items are under way than a few."""
        under_way, most, lock = [0], [0], threading.Lock()

        def items():
            for item in range(50):
                with lock:
                    under_way[0] += 1
                    most[0] = max(most[0], under_way[0])
                yield item

        def work(item):
            time.sleep(0.001 * (item % 3))
            return item * item

        found = []
        for result in pipeline.in_order(work, items(), 4):
            with lock:
                under_way[0] -= 1
            found.append(result)
        self.assertEqual(found, [item * item for item in range(50)])
        self.assertLessEqual(most[0], 5)

    def test_a_failure_is_handed_on(self):
        def work(item):
            if item == 7:
                raise ValueError("seven")
            return item

        with self.assertRaisesRegex(ValueError, "seven"):
            list(pipeline.in_order(work, range(100), 3))


class Carrying(unittest.TestCase):
    def test_records_that_carry_no_bytes(self):
        for record in ([3, 1, 1, 0, 16, 4, 2], [1, 7, 3, 6, 3]):
            with self.assertRaisesRegex(UsageError, "do not carry bytes"):
                carrier.check(balanced.Plan(record))

    def test_blocks(self):
        """A block holds as many bytes as fit, the last one has as few lanes as hold the rest, and all of them come back."""
        for n, k in ((15, 10), (2, 1), (6, 5), (253, 100), (12, 4)):
            plan = balanced.Plan(carrier.choose(n, k))
            for lanes in (1, 2, 5, 100):
                most = carrier.capacity(plan, lanes)
                self.assertEqual(most, share_reader.capacity(plan.record, lanes))
                self.assertLessEqual(plan.carried_len(most), plan.message_len(lanes))
                self.assertGreater(plan.carried_len(most + 1), plan.message_len(lanes))
                for size in {size for size in (1, 2, most // 2, most - 1, most) if 0 < size <= most}:
                    fewest = carrier.fewest_lanes(plan, size)
                    self.assertLessEqual(plan.carried_len(size), plan.message_len(fewest))
                    self.assertTrue(fewest == 1 or plan.carried_len(size) > plan.message_len(fewest - 1))
                    data = bytes(i * i % 256 for i in range(size))
                    message = carrier.carry(plan, lanes, data)
                    self.assertEqual(len(message), plan.message_len(lanes))
                    self.assertEqual(carrier.uncarry(plan, message, size), data)


class Layouts(unittest.TestCase):
    def test_blocks_cover_the_image(self):
        plan = balanced.Plan([2, 11, 15, 10])
        for lanes in (1, 7, 64):
            for length in (0, 1, 9, 10, 11, 10 * lanes, 10 * lanes + 1, 35 * lanes, 40 * lanes - 1):
                one = layout.Layout(plan, lanes, length, "image")
                self.assertEqual(sum(one.size(block) for block in range(one.blocks)), length)
                place = one.place(0)
                for block in range(one.blocks):
                    self.assertEqual(one.place(block), place)
                    self.assertEqual(one.start(block), block * 10 * lanes)
                    self.assertTrue(0 <= 10 * one.lanes_of(block) - one.size(block) < 10)
                    place += one.share_len(block) + 4
                self.assertEqual(one.file_len, place)
                self.assertEqual([block for batch in one.batches(3) for block in batch], list(range(one.blocks)))


if __name__ == "__main__":
    unittest.main()
