"""Calls in words, read strictly.

A line is a name and the record's bytes, then words with the numbers that they stand for, in base ten, each after one space. `message`,
`nodes`, `shares`, `before`, `after`, `symbols`, `missing`, `share`, `rows` and `bytes` stand for up to 64 bytes, `room`, the length of the buffer that is
written, for a number up to 64, and every other word for a number below 2^32. A word that stands nowhere is missing; one that stands
further on has an unknown word before it.
"""
import re

LISTS = {"message", "nodes", "shares", "before", "after", "symbols", "missing", "share", "rows", "bytes"}
MOST = 64


class NotRead(Exception):
    """What makes a line no call."""


class Line:
    def __init__(self, line):
        self.words = line.split(" ")

    def take(self, count, most):
        """The numbers in front of the line: at most `count`, each at most `most`."""
        numbers = []
        while self.words and re.fullmatch("[0-9]+", self.words[0]):
            if len(numbers) == count:
                raise NotRead("too many numbers")
            numbers.append(int(self.words.pop(0)))
            if numbers[-1] > most:
                raise NotRead("number too large")
        return numbers

    def argument(self, word):
        if self.words[:1] != [word]:
            raise NotRead("unknown word" if word in self.words[1:] else f"{word} is missing")
        self.words.pop(0)
        if word in LISTS:
            return bytes(self.take(MOST, 255))
        numbers = self.take(1, 2**32 - 1)
        if not numbers:
            raise NotRead(f"{word} has no number")
        if word == "room" and numbers[0] > MOST:
            raise NotRead("too much room")
        return numbers[0]


def read_line(line, calls, no_record=()):
    """The call's name, the record, and the arguments in the order of calls[name]. Lines of calls in `no_record` have no record."""
    rest = Line(line)
    name = rest.words.pop(0)
    if name not in calls:
        raise NotRead("unknown call")
    record = [] if name in no_record else rest.take(MOST, 255)
    arguments = [rest.argument(word) for word in calls[name]]
    if rest.words:
        raise NotRead("unknown word")
    return name, record, arguments


def is_comment(line):
    return not line or line.startswith("#")
