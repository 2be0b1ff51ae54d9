#!/usr/bin/env python3
"""What a share costs: `rfb share` beside a server of libvncserver that does the same, and under
callgrind.

    bench/share.py [PROGRAM] [--once]

A table of what is measured from outside, by viewers that cost little (`peer/crowd.c`): it needs a C
compiler, and libvncserver for its second column (`peer/share.c`). Then instructions, which need
valgrind: one place changes, and each viewer that has asked gets its update and asks again, some
rounds less fewer, over the difference; and frames of `pixels` beside eight viewers that have not
asked, three less one, over the places of two.
"""

import os
import statistics
import subprocess
import sys
import tempfile
import time

import callgrind
from crowd import COPIES, HEXTILE, RAW, Crowd, built, picture
from messages import key
from peers import connected
from sharing import Share, Viewer, viewers

ONCE, HERE = callgrind.ONCE, callgrind.HERE
SIZE = (64, 48) if ONCE else (1920, 1080)
CONSOLE = 2 if ONCE else 1500
FRAMES = 2 if ONCE else 40
LINES = 3 if ONCE else 300
SCROLLS = 2 if ONCE else 100


def begun(width, height):
    """A share, of which another process reads what it tells."""
    share = Share(hears=["errors"])
    subprocess.Popen(["cat"], stdin=share.run.stdout, stdout=subprocess.DEVNULL)
    share.say(f"screen {width} {height}\n")
    return share


# ---- from outside

def console():
    """Lines a second of a console, and processor seconds: all of them at once, eight viewers."""
    with open(os.path.join(HERE, "..", "examples", "console.py")) as file:
        text = file.read().replace("40, 12, 2", "40, 12, 2" if ONCE else "160, 60, 2")
    printed = "".join(f"{k:08} the quick brown fox jumps over it\n"[:43] for k in range(CONSOLE))
    lines = subprocess.run([sys.executable, "-c", text], input=printed.encode(),
                           stdout=subprocess.PIPE, check=True).stdout
    first, rest = lines.split(b"\n", 1)
    share = begun(*map(int, first.split()[1:]))
    crowd = Crowd(share, 8, COPIES)
    before, start = share.ticks(), time.monotonic()
    crowd.looks_for(0, 0, "010203")
    share.say(rest + b"fill 0 0 1 1 010203\n")
    taken = crowd.found() - start
    seconds = (share.ticks() - before) / 100
    crowd.leaves()
    share.quits()
    return f"{CONSOLE / taken:,.0f}; {seconds:.1f}"


def frames(count, encodings, rows=[]):
    """Processor seconds for frames, each of which all viewers have before the next one."""
    rows[:] = rows or picture(*SIZE)
    share = begun(*SIZE)
    crowd = Crowd(share, count, encodings)
    before = share.ticks()
    for frame in range(FRAMES):
        moved = rows[9 * frame:] + rows[:9 * frame]
        crowd.looks_for(0, 0, f"{frame + 1:06x}")
        share.say(b"pixels 0 0 %d %d\n" % SIZE + (frame + 1).to_bytes(3, "big")
                  + b"".join(moved)[3:] + b"\n")
        crowd.found()
    seconds = (share.ticks() - before) / 100
    crowd.leaves()
    share.quits()
    return f"{seconds:.2f}"


def scrolls(drawn_over):
    """Processor milliseconds for a scroll by 16 rows, eight viewers; and for one with a place drawn
    over it."""
    width, height = SIZE
    share = begun(width, height)
    crowd = Crowd(share, 8, COPIES)
    crowd.looks_for(0, 0, "%02x%02x%02x" % tuple(picture(*SIZE)[0][:3]))
    share.say(b"pixels 0 0 %d %d\n" % SIZE + b"".join(picture(*SIZE)) + b"\n")
    crowd.found()
    before = share.ticks()
    for step in range(SCROLLS):
        colour = f"{step + 1:06x}"
        crowd.looks_for(0, height - 1, colour)
        share.say(f"scroll 0 0 {width} {height} 0 -16\n"
                  f"fill 0 {height - 16} {width} 16 {colour}\n"
                  + f"fill {width // 2} {height // 2} 1 1 {colour}\n" * drawn_over)
        crowd.found()
    each = (share.ticks() - before) * 10 / SCROLLS
    crowd.leaves()
    share.quits()
    return f"{each:.1f}"


def memory():
    """The largest memory beside eight viewers, and of a connection before its handshake."""
    share = begun(*SIZE)
    connected(share.port).close()
    time.sleep(0.3)
    before = share.memory()
    silent = [connected(share.port) for _ in range(8)]
    for stream in silent:
        stream.recv(12)
    each = (share.memory() - before) / 8
    for stream in silent:
        stream.close()
    crowd = Crowd(share, 8)
    for frame in range(3):
        crowd.looks_for(0, 0, f"{frame + 1:06x}")
        share.say("fill 0 0 %d %d %06x\n" % (*SIZE, frame + 1))
        crowd.found()
    with open(f"/proc/{share.run.pid}/status") as status:
        most = next(int(line.split()[1]) for line in status if line.startswith("VmHWM"))
    crowd.leaves()
    share.quits()
    return f"{most / 1024:.1f} MiB; {each:.0f} KiB"


def delay(beside=0, does=None):
    """From an owner's line to the pixel at a viewer, in milliseconds: the median."""
    share = begun(*SIZE)
    others = Crowd(share, beside, RAW, does) if beside else None
    crowd = Crowd(share, 1)
    times = []
    for line in range(LINES):
        crowd.looks_for(line % SIZE[0], 7, f"{line + 1:06x}")
        start = time.monotonic()
        share.say(f"fill {line % SIZE[0]} 7 1 1 {line + 1:06x}\n")
        times.append(crowd.found() - start)
        time.sleep(0.003)
    for each in filter(None, (crowd, others)):
        each.leaves()
    share.quits()
    return f"{1000 * statistics.median(times):.2f}"


def writes():
    """Writes to standard output for 1,000 keys that come at once."""
    share = Share()
    share.say("screen 2 1\n")
    viewer = Viewer(share).hello()

    def written():
        with open(f"/proc/{share.run.pid}/io") as io:
            return next(int(line.split()[1]) for line in io if line.startswith("syscw"))

    share.tells(b"join 0")
    before = written()
    viewer.send(b"".join(key(k) for k in range(1000)))
    share.tells(b"key 0 down 999")
    count = written() - before
    share.quits()
    return f"{count}"


def idle():
    """Processor seconds of ten in which nothing happens, beside eight viewers."""
    share = begun(*SIZE)
    crowd = Crowd(share, 8)
    time.sleep(0.5)
    before = share.ticks()
    time.sleep(0.1 if ONCE else 10)
    seconds = (share.ticks() - before) / 100
    crowd.leaves()
    share.quits()
    return f"{seconds:.2f}"


ROWS = [
    ("a console of 1,280 by 720, eight viewers: lines a second; processor seconds", console),
    ("frames as `pixels`, processor seconds: one viewer, Raw", lambda: frames(1, RAW)),
    ("the same in Hextile", lambda: frames(1, HEXTILE)),
    ("eight viewers, Raw", lambda: frames(8, RAW)),
    ("the same in Hextile", lambda: frames(8, HEXTILE)),
    ("a scroll by 16 rows, eight viewers, processor ms", lambda: scrolls(False)),
    ("the same with one place drawn over it", lambda: scrolls(True)),
    ("largest memory, eight viewers; a connection before its handshake", memory),
    ("a line to its pixel, median, in ms: alone", delay),
    ("beside a flood of pointers", lambda: delay(1, "pointers")),
    ("beside seven that ask for whole screens", lambda: delay(7, "whole")),
    ("writes to standard output for 1,000 events at once", writes),
    ("processor seconds of ten, idle, eight viewers", idle),
]


def table(program):
    with tempfile.TemporaryDirectory() as room:
        Crowd.program, peer = built(room, "crowd"), built(room, "share", "-lvncserver")
        if not Crowd.program:
            print("there is no C compiler here: no table")
            return
        if not peer:
            print("there is no libvncserver here: the last column is empty")
        print("| Work | `rfb share` | libvncserver |\n|---|---|---|")
        for name, row in ROWS:
            cells = []
            for Share.program in (program, peer):
                of_peer = Share.program == peer
                cells.append("-" if not Share.program or of_peer and row == writes else row())
            print(f"| {name} | {' | '.join(cells)} |", flush=True)


# ---- instructions

ROUNDS = (1, 2) if ONCE else (100, 2100)


def counted(share):
    """Ends it, and tells its instructions."""
    share.say("quit\n")
    share.run.wait(60)
    for thread in share.threads:
        thread.join()
    return callgrind.collected(share.errors)


def instructions(rounds, count, stuck):
    width, height = SIZE
    share = Share()
    share.say(f"screen {width} {height}\n")
    if stuck:
        bad = Viewer(share).hello()
        bad.ask(0)
    good = viewers(share, count)
    for viewer in good:
        viewer.ask(0)
        viewer.update()
    for k in range(rounds):
        for viewer in good:
            viewer.ask()
        colour = (k & 255, 128, 7)
        share.say(f"fill {k % width} {height // 2} 1 1 {'%02x%02x%02x' % colour}\n")
        for viewer in good:
            viewer.update()
            assert viewer.at(k % width, height // 2) == colour
    return counted(share)


def a_round(count, stuck=False):
    few, many = (instructions(rounds, count, stuck) for rounds in ROUNDS)
    return (many - few) / (ROUNDS[1] - ROUNDS[0])


def drawn(count):
    """Frames of different bytes, read, drawn and marked for eight viewers."""
    width, height = SIZE
    share = Share()
    share.say(f"screen {width} {height}\n")
    viewers(share, 8)
    for k in range(count):
        share.say(f"pixels 0 0 {width} {height}\n")
        share.say(bytes((place + 7 * k) & 255 for place in range(3 * width)) * height + b"\n")
    return counted(share)


def instructions_of_all():
    places = 2 * SIZE[0] * SIZE[1]
    print(f"pixels, eight viewers: {(drawn(3) - drawn(1)) / places:.2f} instructions a place",
          flush=True)
    for count in (8,) if ONCE else (0, 1, 8):
        print(f"one place changes, {count} viewers: {a_round(count):,.0f} instructions", flush=True)
    for stuck in (True,) if ONCE else (False, True):
        print(f"seven viewers, {'a stuck one beside them' if stuck else 'no other'}: "
              f"{a_round(7, stuck):,.0f} instructions", flush=True)


table(callgrind.program())
Share.program, Share.runner = callgrind.program(), callgrind.RUNNER
instructions_of_all()
