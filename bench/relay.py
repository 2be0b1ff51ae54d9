#!/usr/bin/env python3
"""What a relay costs: `rfb relay` beside `x11vnc -reflect`, both of a share, and under callgrind.

    bench/relay.py [PROGRAM] [--once]

A table of what is measured from outside, by eight viewers that cost little (`peer/crowd.c`): it
needs a C compiler, and x11vnc for its other columns. There are 25 steps in a second, whether
viewers are shown each of them or not; where the share could not draw so many it says how many there
were. Then instructions, which need valgrind: a viewer types a character, which the server draws,
and each viewer gets its update and asks again; some rounds less fewer, over the difference.
"""

import os
import random
import shutil
import statistics
import subprocess
import sys
import tempfile
import time

import callgrind
from crowd import COPIES, RAW, Crowd, built, picture
from messages import key
from peers import connected, free_port
from relaying import Relay
from sharing import Share, viewers

sys.path.insert(0, os.path.join(callgrind.HERE, "peer"))
from scripts import letter

ONCE = callgrind.ONCE
WIDTH, HEIGHT = SIZE = (64, 48) if ONCE else (1920, 1080)
PACE = 25
STEPS = 4 if ONCE else 10 * PACE
LINES = 3 if ONCE else 100


class Reflector(Share):
    """A run of `x11vnc -reflect` of a server."""

    command = "x11vnc"

    def __init__(self, port):
        self.port = free_port()
        words = ["-reflect", f"127.0.0.1:{port}", "-rfbport", str(self.port), "-localhost", "-nopw",
                 "-nocursor", "-forever", "-q"]
        quiet = {name: subprocess.DEVNULL for name in ("stdin", "stdout", "stderr")}
        self.run = subprocess.Popen([self.command, *words], **quiet)
        self.begun.append(self)


# ---- what is drawn

def pixels(rows, x, y, w, h):
    data = b"".join(row[3 * x:3 * (x + w)] for row in rows[y:y + h])
    return b"pixels %d %d %d %d\n" % (x, y, w, h) + data + b"\n"


def filled(*line):
    return f"fill {' '.join(map(str, line))}\n".encode()


def moves(rows, step):
    """A window is moved there and back, and what it leaves is drawn again."""
    w, h = WIDTH * 5 // 12, HEIGHT * 5 // 9
    left, top = WIDTH // 20, HEIGHT // 20
    count = min((WIDTH - w - left) // 8, (HEIGHT - h - top) // 6)

    def place(step):
        at = step % (2 * count)
        at = min(at, 2 * count - at)
        return left + 8 * at, top + 6 * at

    (x, y), (nx, ny) = place(step), place(step + 1)
    return (f"copy {nx} {ny} {w} {h} {x} {y}\n".encode()
            + pixels(rows, x, y if ny > y else ny + h, w, 6)
            + pixels(rows, x if nx > x else nx + w, max(y, ny), 8, h - 6))


def scrolls(rows, step):
    """A text moves up by a line, and the next one is written below it."""
    w, h, line = WIDTH * 2 // 3, HEIGHT * 5 // 6, 16
    drawn = [f"scroll 0 0 {w} {h} 0 -{line}", f"fill 0 {h - line} {w} {line} ffffff"]
    for at in range(min(80, w // 10) - step % 5):
        drawn += letter(10 * at + 1, h - line + 1)
    return "".join(line + "\n" for line in drawn).encode()


def films(rows, step, noise=[]):
    """Frames of which each differs everywhere."""
    w, h = WIDTH // 3, HEIGHT * 4 // 9
    noise[:] = noise or [random.Random(5).randbytes(3 * (w * h + PACE))]
    at = 3 * (step % PACE)
    data = noise[0][at:at + 3 * w * h]
    return f"pixels {w} {h // 2} {w} {h}\n".encode() + data + b"\n"


def marked(step):
    """A colour that is the same whether red or blue is first, and not black."""
    return "%02x%02x%02x" % (step % 251 + 1, step // 251, step % 251 + 1)


# ---- from outside

class Chain:
    """A share, what relays it, and eight viewers of that."""

    def __init__(self, relay, does="changes", encodings=COPIES, count=8):
        self.rows = picture(*SIZE)
        self.share = Share(hears=["errors"])
        self.reader = subprocess.Popen(["cat"], stdin=self.share.run.stdout,
                                       stdout=subprocess.DEVNULL)
        self.share.say(f"screen {WIDTH} {HEIGHT}\n")
        self.share.say(pixels(self.rows, 0, 0, *SIZE))
        connected(self.share.port).close()
        self.relay = relay(self.share.port)
        self.crowd = Crowd(self.relay, count, encodings, does)

    def draws(self, lines, step):
        """Draws these lines as one scene."""
        self.share.say(b"hold\n" + lines + filled(WIDTH - 1, HEIGHT - 1, 1, 1, marked(step))
                       + b"show\n")

    def shows(self, lines, step):
        """Draws them, and waits until all viewers show it. It tells how long that took."""
        self.crowd.looks_for(WIDTH - 1, HEIGHT - 1, marked(step))
        start = time.monotonic()
        self.draws(lines, step)
        return self.crowd.found() - start

    def ends(self):
        self.crowd.leaves()
        for each in self.relay, self.share:
            each.stops()
        self.reader.wait()


def work(draw, **more):
    """Processor seconds of a second of steps, the updates that a viewer had, and how many steps
    there were if these were fewer."""
    def row(relay, **own):
        chain = Chain(relay, **own, **more)
        chain.shows(b"", 0)
        before, had, start = chain.relay.ticks(), chain.crowd.updates, time.monotonic()
        for step in range(STEPS):
            chain.draws(draw(chain.rows, step), step + 1)
            time.sleep(max(0, start + (step + 1) / PACE - time.monotonic()))
        pace = STEPS / (time.monotonic() - start)
        chain.shows(b"", STEPS + 1)
        taken = time.monotonic() - start
        seconds = (chain.relay.ticks() - before) / 100 / taken
        updates = (chain.crowd.updates - had) / 8 / taken
        chain.ends()
        told = f"{seconds:.2f}; {updates:.1f}"
        return told if pace > PACE - 1 else f"{told} of {pace:.1f}"
    return row


def memory(relay, **own):
    """What is resident beside eight viewers, and the most that was."""
    chain = Chain(relay, **own, encodings=RAW)
    for step in range(3):
        chain.shows(filled(0, 0, *SIZE, marked(step + 7)), step)
    with open(f"/proc/{chain.relay.run.pid}/status") as status:
        most = next(int(line.split()[1]) for line in status if line.startswith("VmHWM"))
    now = chain.relay.memory()
    chain.ends()
    return f"{now / 1024:.1f}; {most / 1024:.1f}"


def delay(relay, **own):
    """From an owner's line to the pixel at the last viewer, in milliseconds: the median."""
    chain = Chain(relay, **own)
    times = []
    for step in range(LINES):
        times.append(chain.shows(b"", step))
        time.sleep(0.003)
    chain.ends()
    return f"{1000 * statistics.median(times):.2f}"


def idle(relay, **own):
    """Processor seconds of ten in which nothing happens."""
    chain = Chain(relay, **own)
    time.sleep(0.1 if ONCE else 1)
    before = chain.relay.ticks()
    time.sleep(0.1 if ONCE else 10)
    seconds = (chain.relay.ticks() - before) / 100
    chain.ends()
    return f"{seconds:.2f}"


ROWS = [
    ("a window of 800 by 600 is moved", work(moves)),
    ("a text of 1,280 by 900 scrolls", work(scrolls)),
    ("a video of 640 by 480", work(films)),
    ("the same, to viewers that list Raw alone", work(films, encodings=RAW)),
    ("resident, and the most that was, in MiB", memory),
    ("a line to its pixel at the last viewer, median, in ms", delay),
    ("processor seconds of ten, idle", idle),
]


def table():
    with tempfile.TemporaryDirectory() as room:
        Crowd.program = built(room, "crowd")
        if not Crowd.program:
            print("there is no C compiler here: no table")
            return
        has_peer = shutil.which(Reflector.command)
        if not has_peer:
            print("there is no x11vnc here: two columns are empty")
        print("| Processor seconds; updates | `rfb relay` | `x11vnc -reflect` | its format |\n"
              "|---|---|---|---|")
        for name, row in ROWS:
            cells = [row(Relay)]
            for does in "changes", "own":
                cells.append(row(Reflector, does=does) if has_peer else "-")
            print(f"| {name} | {' | '.join(cells)} |", flush=True)


# ---- instructions

ROUNDS = (1, 2) if ONCE else (20, 100)


class Counted(Relay):
    runner = callgrind.RUNNER


def instructions(rounds, count):
    share = Share()
    share.say(f"screen {WIDTH} {HEIGHT}\nfill 0 0 {WIDTH} {HEIGHT} ffffff\n")
    connected(share.port).close()
    relay = Counted(share.port)
    good = viewers(relay, count)
    for viewer in good:
        viewer.ask(0)
        viewer.update()
        viewer.ask()
    for k in range(rounds):
        x, y = 10 * (k % (WIDTH // 10)), 16 * (k // (WIDTH // 10))
        good[0].send(key(97))
        share.tells(b"key 0 down 97", k + 1)
        good[0].send(key(97, 0))
        share.tells(b"key 0 up 97", k + 1)
        share.say("hold\n" + "".join(line + "\n" for line in letter(x, y)) + "show\n")
        for viewer in good:
            viewer.update()
            assert viewer.at(x + 1, y + 3) == (0, 0, 0)
            viewer.ask()
    share.quits()
    relay.run.wait(60)
    for thread in relay.threads:
        thread.join()
    return callgrind.collected(relay.errors)


def instructions_of_all():
    for count in (8,) if ONCE else (1, 8):
        few, many = (instructions(rounds, count) for rounds in ROUNDS)
        each = (many - few) / (ROUNDS[1] - ROUNDS[0])
        print(f"a typed character, {count} viewers: {each:,.0f} instructions", flush=True)


Share.program = callgrind.program()
try:
    table()
    instructions_of_all()
finally:
    for run in Share.begun:
        run.stops()
