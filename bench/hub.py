#!/usr/bin/env python3
"""What a hub costs, by scripts that the built program runs: bench/hub.py [PROGRAM] [--once]

Instructions are callgrind's, as differences of two sizes; memory is the largest that was resident.
"""

import os
import subprocess

import callgrind

PROGRAM = callgrind.program()
WIDTH, HEIGHT = (64, 48) if callgrind.ONCE else (1920, 1080)
# What is drawn on, and how many drawings there are.
RIGHT, LOW = (64, 48) if callgrind.ONCE else (1900, 1000)
FEW, MANY = (1, 2) if callgrind.ONCE else (100, 1100)
# What an update has, in Raw.
PART = (64, 48) if callgrind.ONCE else (400, 300)


def instructions(text, status=0):
    return callgrind.instructions([PROGRAM, "script"], text.encode(), status)


def resident(text):
    """The largest memory of a run, in KiB, where it is more than Python's own."""
    with subprocess.Popen([PROGRAM, "script"], stdin=subprocess.PIPE,
                          stdout=subprocess.DEVNULL) as run:
        run.stdin.write(text.encode())
        run.stdin.close()
        _, status, used = os.wait4(run.pid, 0)
        run.returncode = os.waitstatus_to_exitcode(status)
    assert run.returncode == 0, run.returncode
    return used.ru_maxrss


def hub(width, height, viewers):
    return [f"hub {width} {height}"] + [
        line for slot in range(viewers)
        for line in (f"join {slot} shared rgb888 raw", f"at {slot} settle")]


def round_of(at, width, height):
    return [f"{at}request full 0 0 {width} {height}", f"{at}settle", f"{at}compose", f"{at}settle"]


def drawing(viewers):
    """A place of the screen gets a colour: instructions, the line's own among them."""
    def lines(count):
        fills = [f"fill {i * 37 % RIGHT} {i * 53 % LOW} 1 1 {i % 256:02X}8001"
                 for i in range(count)]
        return "\n".join(hub(WIDTH, HEIGHT, viewers) + fills + ["show 0", ""])
    # Without a viewer there is none to be shown.
    many, few = (instructions(lines(count), int(viewers == 0)) for count in (MANY, FEW))
    return (many - few) / (MANY - FEW)


def update(first, last, at):
    """A whole update, asked for, composed and delivered."""
    def lines(count):
        return "\n".join(first + round_of(at, *PART) * count + last + [""])
    return (instructions(lines(6)) - instructions(lines(2))) / 4


def memory(viewers):
    rounds = [line for slot in range(viewers) for line in round_of(f"at {slot} ", WIDTH, HEIGHT)]
    return resident("\n".join(hub(WIDTH, HEIGHT, viewers) + rounds + ["show 0", ""]))


none, one, eight = drawing(0), drawing(1), drawing(8)
print(f"a drawing, for one session: {one - none:.0f}, for eight: {eight - none:.0f}")
world = update(["screen %d %d" % PART, "viewer rgb888 raw", "settle"], [], "")
for viewers in (1, 8):
    cost = update(hub(*PART, viewers), ["show 0"], "at 0 ")
    print(f"an update in a hub of {viewers}: {cost / (world or 1):.4f} of a world's")
print("resident, KiB:", ", ".join(f"{count} viewers {memory(count)}" for count in (1, 2, 4, 8)))
