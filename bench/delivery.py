#!/usr/bin/env python3
"""What the delivery of a single byte to a viewer costs, whatever is in flight: instructions for each
line `toviewer 1` of a script, its reading among them: bench/delivery.py [PROGRAM] [--once]

An update in Raw at rgb888 is in flight, and begins to arrive. Instructions are callgrind's, as
differences of two numbers of lines.
"""

import callgrind

PROGRAM = callgrind.program()
# The sides of screens, what their updates have, and how many bytes of these arrive.
SIZES = [(4, "80 bytes", (60,)), (64, "16 KiB", (60, 2000)), (4096, "64 MiB", (60, 2000))]
if callgrind.ONCE:
    SIZES = [(4, "80 bytes", (2,))]


def instructions(side, count):
    lines = [f"screen {side} {side}", "settle", f"request full 0 0 {side} {side}", "toserver 10",
             "compose", *["toviewer 1"] * count, ""]
    return callgrind.instructions([PROGRAM, "script"], "\n".join(lines).encode())


for side, name, counts in SIZES:
    none = instructions(side, 0)
    each = [f"{(instructions(side, it) - none) / it:.0f} of {it:,}" for it in counts]
    print(f"a delivery of one byte, {name} in flight:", ", ".join(each))
