"""A bar on the terminal while a command works; elsewhere nothing is printed."""
import sys
import time

WIDTH = 30


class Bar:
    def __init__(self, out=None):
        self.out = out or sys.stderr
        self.shown, self.last, self.on = "", 0.0, self.out.isatty()

    def __call__(self, word, done, total):
        """Shows how much is done, ten times a second at most; the bar goes away with the last part."""
        now = time.monotonic()
        if not self.on or (now - self.last < 0.1 and done < total):
            return
        self.last = now
        if done >= total:
            return self.clear()
        filled = WIDTH * done // total
        self.write(f"{word} [{'#' * filled}{'.' * (WIDTH - filled)}] {100 * done // total:3} %")

    def write(self, text):
        print("\r" + text.ljust(len(self.shown)), end="", file=self.out, flush=True)
        self.shown = text

    def clear(self):
        if self.shown:
            print("\r" + " " * len(self.shown) + "\r", end="", file=self.out, flush=True)
            self.shown = ""
