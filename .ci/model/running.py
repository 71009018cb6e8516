"""Runs the program on schedules, and compares what it prints."""

import os
import random
import subprocess
import tempfile

from .image import DEFAULT_IMAGE, make_image


def randbytes(count, seed):
    """Bytes that no rule makes."""
    return random.Random(seed).randbytes(count)


# The files that schedules may name: the image of a flash without a flash line, further images, and other files.
FILES = {
    "base.img": DEFAULT_IMAGE,
    "other.img": make_image(bytes(range(100, 121)), (3, 4, 5), 6, 0x10),
    "app.img": make_image(randbytes(1928, 1), (1, 2, 3)),
    "next.img": make_image(randbytes(1200, 2), (1, 2, 4), 9),
    "big.img": make_image(randbytes(65464, 3), (2, 0, 0)),
    "empty": b"",
    "text": b"abc",
    "parts": randbytes(1100, 4),
    "long": bytes(16385),
}


class Runner:
    """A folder with the files, in which the program is run."""

    def __init__(self, program):
        self.program = os.path.abspath(program)
        self.folder = tempfile.TemporaryDirectory()
        for name, held in FILES.items():
            with open(os.path.join(self.folder.name, name), "wb") as file:
                file.write(held)

    def __enter__(self):
        return self

    def __exit__(self, *_):
        self.folder.cleanup()

    def run(self, schedule):
        """What the program prints for a schedule; where its status isn't 0, that and its errors instead."""
        with open(os.path.join(self.folder.name, "schedule"), "w", encoding="utf-8") as file:
            file.write(schedule)
        words = [self.program, "replay", "schedule"]
        done = subprocess.run(words, cwd=self.folder.name, capture_output=True, check=False)
        printed = done.stdout.decode("utf-8", "replace")
        if done.returncode == 0 and not done.stderr:
            return printed
        return f"{printed}status {done.returncode}, errors {done.stderr[:500]!r}\n"


def difference(due, printed):
    """The first line in which two transcripts differ."""
    for number, (wanted, got) in enumerate(zip(due.split("\n"), printed.split("\n")), 1):
        if wanted != got:
            return f"line {number}: due '{wanted[:300]}', printed '{got[:300]}'"
    return "one transcript ends before the other"


def report(passed, failed):
    """Prints the counts, and gives the status to end with."""
    print(f"{passed} passed, {failed} failed")
    return 1 if failed or not passed else 0
