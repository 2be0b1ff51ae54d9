#!/usr/bin/env python3
"""What a drive and a film cost: `rfb drive` and `rfb view --follow`, both of a share.

    bench/drive.py [PROGRAM] [--once]

Instructions need valgrind: the lower right pixel changes, in some rounds less fewer, while a line
waits for another colour of it, and so compares the whole screen each time; or the upper half, where
it has nothing to compare. Then what is measured from outside: how long it takes from an owner's line
to the line that is done by it, and the processor's time of a film.
"""

import os
import statistics
import subprocess
import tempfile
import time

import callgrind
from drives import Drive
from sharing import Share

ONCE = callgrind.ONCE
WIDTH, HEIGHT = SIZE = (64, 48) if ONCE else (1920, 1080)
ROUNDS = (1, 2) if ONCE else (4, 20)
LINES = 3 if ONCE else 100
FILM, RATE, SECONDS = ((64, 48), 30, 1) if ONCE else ((640, 480), 30, 10)
GREY = "808080"


class Counted(Drive):
    runner = callgrind.RUNNER


def begun(width, height):
    share = Share()
    share.say(f"screen {width} {height}\nfill 0 0 {width} {height} {GREY}\n")
    return share


def grey_ppm(width, height, last=None):
    """A grey picture, whose last pixel may have another colour."""
    places = bytes.fromhex(GREY) * (width * height)
    return b"P6\n%d %d\n255\n" % (width, height) + (places[:-3] + last if last else places)


def instructions(rounds, height):
    """A line that waits for the upper rows, so many, while the last pixel changes in each round."""
    share = begun(*SIZE)
    corner = f"{WIDTH - 1} {HEIGHT - 1} 1 1"
    with tempfile.NamedTemporaryFile(suffix=".ppm") as file:
        file.write(grey_ppm(WIDTH, height, b"\1\2\3"))
        file.flush()
        drive = Counted(share.port, "--tell", "--timeout", "600",
                        lines=[f"expect {file.name}"])
        drive.tells(b"ready %d %d 726662" % SIZE)
        time.sleep(0.5)
        for k in range(rounds):
            share.say(f"fill {corner} {k + 1:06x}\n")
            drive.tells(b"changed %s" % corner.encode(), k + 1)
        share.say(f"fill {WIDTH - 1} {height - 1} 1 1 010203\n")
        drive.ends()
    share.quits()
    return callgrind.collected(drive.errors)


def instructions_of_both():
    each = []
    for height in HEIGHT, HEIGHT // 2:
        few, many = (instructions(rounds, height) for rounds in ROUNDS)
        each.append((many - few) / (ROUNDS[1] - ROUNDS[0]))
    places = (each[0] - each[1]) / (WIDTH * HEIGHT)
    print(f"a change, elsewhere: {each[1]:,.0f} instructions; a whole screen compared, a place:"
          f" {places:.2f}", flush=True)


def delay():
    """From an owner's line to the line that is done by it, in milliseconds: the median."""
    share = begun(*SIZE)
    times = []
    drive = Drive(share.port)
    for line in range(LINES):
        drive.ask("until-change")
        time.sleep(0.02)
        start = time.monotonic()
        share.say(f"fill {line} 7 1 1 {line + 1:06x}\n")
        while drive.output.count(b"done") <= line:
            time.sleep(0.0001)
        times.append(time.monotonic() - start)
    share.quits()
    print(f"from a change to the line that is done, ms: {1000 * statistics.median(times):.2f}")


def film():
    """The processor's seconds for one of a film, and how many pictures it had in it."""
    share = begun(*FILM)
    with tempfile.TemporaryFile() as file:
        view = subprocess.Popen([Share.program, "view", f"127.0.0.1::{share.port}", "--follow",
                                 "--fps", str(RATE)], stdout=file, stderr=subprocess.DEVNULL)
        start = time.monotonic()
        for k in range(RATE * SECONDS):
            share.say(f"fill {k % FILM[0]} 0 {FILM[0] // 2} {FILM[1]} {k + 1:06x}\n")
            time.sleep(max(0, start + (k + 1) / RATE - time.monotonic()))
        with open(f"/proc/{view.pid}/stat") as stat:
            words = stat.read().rsplit(")", 1)[1].split()
        used = (int(words[11]) + int(words[12])) / os.sysconf("SC_CLK_TCK")
        view.kill()
        view.wait()
        pictures = file.seek(0, os.SEEK_END) // (FILM[0] * FILM[1] * 6)
    share.quits()
    print(f"a film of {FILM[0]} by {FILM[1]}: {used / SECONDS:.3f} of the processor,"
          f" {pictures / SECONDS:.1f} pictures a second")


Share.program = callgrind.program()
try:
    delay()
    film()
    instructions_of_both()
finally:
    for run in Share.begun:
        run.stops()
