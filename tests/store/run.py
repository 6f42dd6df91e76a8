"""Runs the tests of the store, all or those that are named, a class at a time on each core, and says why tests were left out."""
import io
import os
import sys
import time
import unittest
from concurrent.futures import ProcessPoolExecutor, as_completed


def classes(tests, found):
    """The tests by their class."""
    for test in tests:
        if isinstance(test, unittest.TestSuite):
            classes(test, found)
        else:
            found.setdefault(f"{type(test).__module__}.{type(test).__qualname__}", []).append(test.id())
    return found


def run(names):
    """What came of some tests: how many, the faults in words, the reasons of those that were left out, the seconds."""
    begun, out = time.monotonic(), io.StringIO()
    result = unittest.TextTestRunner(out, buffer=True).run(unittest.TestLoader().loadTestsFromNames(names))
    faults = "" if result.wasSuccessful() else out.getvalue()
    return result.testsRun, faults, [reason for _, reason in result.skipped], time.monotonic() - begun


def main(names):
    loader = unittest.TestLoader()
    groups = classes(loader.loadTestsFromNames(names) if names else loader.discover("."), {})
    count, failed, reasons = 0, 0, []
    with ProcessPoolExecutor(max_workers=os.cpu_count(), max_tasks_per_child=None) as pool:
        waiting = {pool.submit(run, tests): name for name, tests in groups.items()}
        for done in as_completed(waiting):
            ran, faults, left_out, seconds = done.result()
            count, failed, reasons = count + ran, failed + bool(faults), reasons + left_out
            print(f"{waiting[done]}: {ran} tests, {seconds:.1f} s" + (f"\n{faults}" if faults else ""), flush=True)
    for reason in sorted(set(reasons)):
        print(f"left out: {reason}")
    print(f"store: {count} tests, {failed} classes with faults, {len(reasons)} tests left out")
    return 1 if failed else 0


if __name__ == "__main__":
    sys.exit(main(sys.argv[1:]))
