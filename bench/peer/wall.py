#!/usr/bin/env python3
"""Prints the processor's milliseconds for drawing a scroll, whose instructions say little: a
`rep movsb`, by which libvncserver copies a row of 16,384 bytes, counts each byte. No viewer asks
for what is drawn. The program is crates/rfb/out/rfb, or the one that is named by its path. Needs
what table.py needs. With --once it has one row, of little work.

    wall.py [PROGRAM] [--once]
"""
import os
import subprocess
import sys

sys.dont_write_bytecode = True  # no folder of compiled modules beside the sources

import counting
import scripts

SIZES = [(1920, 1080), (4096, 4096)]
STEPS = ["a scroll by one row", "a scroll by a text line", "a moved window"]
FEW, MANY = 20, 220
ONCE = "--once" in sys.argv
if ONCE:
    SIZES, STEPS, FEW, MANY = [(1024, 768)], STEPS[:1], 1, 3


def script_of(step, width, height, rounds):
    """A screen of text that nobody looks at, and that many steps."""
    lines = [f"screen {width} {height}", "viewer rgb888 copyrect raw"] + scripts.text(width, height)
    return lines + ["settle"] + dict(scripts.changes(width, height))[step] * rounds


def seconds_of(words, script, room):
    """What the processor needs for a program that reads a script."""
    path = os.path.join(room, "script")
    with open(path, "w") as file:
        file.writelines(line + "\n" for line in script)
    with open(path) as given:
        begun = subprocess.Popen(words, stdin=given, stdout=subprocess.DEVNULL)
        _, status, used = os.wait4(begun.pid, 0)
    if status:
        sys.exit(f"wall.py: {' '.join(words)} failed")
    return used.ru_utime + used.ru_stime


def step_of(words, step, size, room):
    """What drawing a step needs, in milliseconds: the least of three, of many rounds less few."""
    few, many = (
        min(seconds_of(words, script_of(step, *size, rounds), room) for _ in range(3))
        for rounds in (FEW, MANY)
    )
    return (many - few) / (MANY - FEW) * 1000


def measure(program, room):
    peer = [os.path.join(room, "server"), "asked", os.path.join(room, "sent")]
    print("| Drawing, ms | `rfb script` | libvncserver |\n|---|---|---|")
    for size in SIZES:
        for step in STEPS:
            mine, theirs = (step_of(it, step, size, room) for it in ([program, "script"], peer))
            name = f"{step}, {size[0]:,} by {size[1]:,}"
            print(f"| {name} | {mine:.2f} | {theirs:.2f} |", flush=True)


counting.beside_the_peer(measure)
