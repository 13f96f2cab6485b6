"""The proved program, and how its values are said."""

import os
import signal
import subprocess
import sys
import tempfile
import time
from fractions import Fraction

HOME = os.path.dirname(os.path.dirname(os.path.dirname(os.path.realpath(__file__))))


def say(text):
    print(f"ask: {text}", file=sys.stderr)


def is_built():
    """Whether the proved program stands and was built from these sources."""
    return subprocess.run(["sh", "-c", ". scripts/built.sh && is_built"], cwd=HOME, stderr=subprocess.DEVNULL, check=False).returncode == 0


class Program:
    """The proved program, where it was built from these sources."""

    def __init__(self):
        if not is_built():
            say("the program is not built from these sources yet: ./ask prove proves and builds it, in about half an hour")
            raise SystemExit(70)
        self.running = []

    def start(self, command, text):
        process = subprocess.Popen([os.path.join(HOME, "out", "suit"), command], cwd=HOME, stdin=subprocess.PIPE,
                                   stdout=subprocess.PIPE, stderr=subprocess.DEVNULL, start_new_session=True)
        try:
            process.stdin.write(text.encode())
            process.stdin.close()
        except BrokenPipeError:
            pass
        process.stdin = None
        self.running.append(process)
        return process

    def run(self, process, deadline):
        """What the process wrote and its status, or nothing where the time is over."""
        try:
            left = None if deadline is None else max(0.01, deadline - time.monotonic())
            written, _ = process.communicate(timeout=left)
            self.running.remove(process)
            return written.decode("ascii", "replace"), process.returncode
        except subprocess.TimeoutExpired:
            self.end(process)
            return None

    def end(self, process):
        if process in self.running:
            self.running.remove(process)
        try:
            os.killpg(process.pid, signal.SIGKILL)
        except ProcessLookupError:
            pass
        process.wait()

    def end_all(self):
        for process in list(self.running):
            self.end(process)


def value_in(answer):
    return Fraction(answer.split("value ", 1)[1].split("\n", 1)[0])


def rounded(value, goal):
    """A value as players say it: the percentage rounded to two decimals, or the number of tricks."""
    scaled = value if goal == "tricks" else value * 100
    hundredths = (scaled.numerator * 200 + scaled.denominator) // (2 * scaled.denominator)
    number = f"{hundredths // 100}.{hundredths % 100:02}"
    return f"{number} tricks" if goal == "tricks" else f"{number}%"


def goal_in_words(goal):
    return "tricks" if goal == "tricks" else f"{goal} trick" + ("" if goal == "1" else "s")
