"""Viewers of a share or of a relay that cost little, and a picture for them."""

import gzip
import os
import shutil
import subprocess

from callgrind import HERE
from peers import connected

RAW, HEXTILE = (0,), (5, 0)
# A viewer that lists CopyRect draws the cursor by itself: else libvncserver looks for one.
COPIES = (1, -239, *HEXTILE)


class Crowd:
    """Viewers of a share, by processes that are no part of this one, and how many updates they have
    had when they were last asked."""

    program = None
    updates = 0

    def __init__(self, share, count, encodings=RAW, does="changes"):
        words = [self.program, str(share.port), str(count), does, *map(str, encodings)]
        connected(share.port).close()
        self.run = subprocess.Popen(words, stdin=subprocess.PIPE, stdout=subprocess.PIPE, text=True,
                                    bufsize=1)
        assert self.run.stdout.readline() == "ready\n", words

    def looks_for(self, x, y, colour):
        self.run.stdin.write(f"{x} {y} {colour}\n")
        assert self.run.stdout.readline() == "armed\n"

    def found(self):
        """When the last viewer showed what they look for, in seconds."""
        time, self.updates = map(int, self.run.stdout.readline().split())
        return time / 1e9

    def leaves(self):
        self.run.kill()
        self.run.wait()


def built(room, name, *libraries):
    """A program of `peer` in C, or nothing where it cannot be had."""
    words = ["cc", "-O2", "-o", os.path.join(room, name), os.path.join(HERE, "peer", name + ".c")]
    if not shutil.which("cc") or subprocess.run([*words, *libraries], check=False,
                                                stderr=subprocess.DEVNULL).returncode:
        return None
    return words[3]


def picture(width, height):
    """The rows of a picture of windows, red, green and blue of each place."""
    rows = [bytearray(3 * width) for _ in range(height)]
    with gzip.open(os.path.join(HERE, "office.fills.gz"), "rt") as fills:
        for line in fills:
            x, y, w, h = map(int, line.split()[1:5])
            data = bytes.fromhex(line.split()[5]) * min(w, max(0, width - x))
            for row in rows[y:y + h]:
                row[3 * x:3 * x + len(data)] = data
    return rows
