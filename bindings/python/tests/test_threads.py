"""Calls in many threads at once give what they give one after the other."""
import unittest
from concurrent.futures import ThreadPoolExecutor

from balanced import LanesError, Plan

PLAN = Plan([2, 2, 255, 120])
MESSAGES = [bytes((i * i + block) % 256 for i in range(120 * 64)) for block in range(24)]
NODES = list(range(135, 255))


def trip(message):
    """A block through the calls; one call of each trip is refused."""
    shares = PLAN.encode(64, message)
    shares[7] ^= 1
    try:
        PLAN.encode(0, message, shares)
    except LanesError:
        PLAN.correct(64, shares)
    left = b"".join(shares[255 * lane + 135:255 * lane + 255] for lane in range(64))
    return bytes(shares), bytes(PLAN.recover(64, NODES, left))


class Threads(unittest.TestCase):
    def test_at_once(self):
        alone = [trip(message) for message in MESSAGES]
        self.assertEqual([message for _, message in alone], MESSAGES)
        with ThreadPoolExecutor(8) as threads:
            self.assertEqual(list(threads.map(trip, MESSAGES)), alone)
