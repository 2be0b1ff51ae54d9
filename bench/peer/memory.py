"""The largest memory of servers and viewers, in MiB, for one whole update in Raw at rgb888."""
import os
import subprocess
import sys
import time

from peers import free_port


class Peak:
    """A program at work, of which the largest memory is reported."""

    def __init__(self, room, name, words, text=b""):
        self.file = os.path.join(room, name)
        command = [os.path.join(room, "peak"), self.file, *words]
        quiet = {"stdout": subprocess.DEVNULL, "stderr": subprocess.DEVNULL}
        self.process = subprocess.Popen(command, stdin=subprocess.PIPE, **quiet)
        self.process.stdin.write(text)
        self.process.stdin.close()

    def told(self):
        """Waits for its end. Nothing where it failed."""
        if self.process.wait() != 0:
            return None
        with open(self.file) as file:
            return int(file.read()) / 1024


def of_ours(bench, width, height):
    """`serve` and `view` at work together; nothing where there is no program."""
    if not bench.program:
        return None, None
    words = [bench.program, "serve", "--port", str(free_port()), "--connections", "1"]
    port = words[3]
    server = Peak(bench.room, "serve", [*words, "--width", width, "--height", height])
    for _ in range(100):
        time.sleep(0.1)
        words = [bench.program, "view", "--port", port, "--encodings", "raw"]
        viewer = Peak(bench.room, "view", words).told()
        if viewer is not None:
            return server.told(), viewer
    server.process.kill()
    sys.exit("table.py: nothing was served")


def of_peer(bench, width, height):
    """The peer's server, and its viewer on what that server sent."""
    script = f"""screen {width} {height}
settle
fill 0 0 {width} {height} 306090
request full 0 0 {width} {height}
compose
"""
    sent = os.path.join(bench.room, "memory.sent")
    served = Peak(bench.room, "server.peak", [bench.server, "asked", sent], script.encode()).told()
    words = [bench.client, width, height, sent, "32", "45"]
    seen = Peak(bench.room, "client.peak", words).told()
    os.remove(sent)
    return served, seen


def shown(peak):
    return "-" if peak is None else f"{peak:.1f}"


def row(bench, size):
    """A row of the table."""
    width, height = map(str, size)
    ours, theirs = of_ours(bench, width, height), of_peer(bench, width, height)
    cells = " | ".join(f"{shown(a)} / {shown(b)}" for a, b in zip(ours, theirs))
    return f"| {size[0]:,} by {size[1]:,} | {cells} |"
