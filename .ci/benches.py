#!/usr/bin/env python3
"""The benches that are Python, each once with little work, so that they go on running.

    .ci/benches.py PROGRAM

Each must end with status 0 and print its figures, of which none is judged. What is not installed
here a bench says, and goes on without it: valgrind, or for tables beside libvncserver and x11vnc
these or a C compiler. The last line is 'N passed, M failed'.
"""

import os
import subprocess
import sys

from calls import Run, judged
from pictures import ORANGE, SCRIPT, ppm

BENCH = os.path.join(os.path.dirname(os.path.abspath(__file__)), "..", "bench")


def printed(path, words, given=b""):
    """What a bench prints. Of that is shown what is not there."""
    ended = subprocess.run([sys.executable, os.path.join(BENCH, path), *words], input=given,
                           capture_output=True, timeout=120)
    assert ended.returncode == 0, (path, ended.returncode, ended.stderr[-1000:].decode())
    for line in ended.stdout.splitlines():
        if line.startswith((b"there is no ", b"no table ")):
            print(f"{path}: {line.decode()}")
    return ended.stdout


def the_cost_of_a_hub_is_printed():
    assert b"\nresident, KiB: 1 viewers " in printed("hub.py", [Run.program, "--once"])


def the_cost_of_a_delivery_is_printed():
    assert printed("delivery.py", [Run.program, "--once"]).startswith(b"a delivery of one byte, ")


def the_cost_of_serving_is_printed():
    assert b"\na step of the scene in Hextile: " in printed("serve.py", [Run.program, "--once"])


def the_cost_of_a_share_is_printed():
    assert b"\nseven viewers, a stuck one " in printed("share.py", [Run.program, "--once"])


def the_cost_of_a_relay_is_printed():
    assert b"\na typed character, " in printed("relay.py", [Run.program, "--once"])


def the_cost_of_a_drive_is_printed():
    assert b"\na change, elsewhere: " in printed("drive.py", [Run.program, "--once"])


def the_largest_memory_of_a_run_is_printed():
    told = printed("resident.py", [Run.program, "script"], SCRIPT)
    assert told.startswith(b"largest resident set "), told


def a_table_is_printed_or_what_it_lacks():
    told = printed("peer/table.py", [Run.program, "--once"])
    assert b"The table was made in " in told or told.startswith(b"no table "), told


def the_time_of_a_scroll_is_printed_or_what_it_lacks():
    told = printed("peer/wall.py", [Run.program, "--once"])
    assert b"\n| a scroll by one row, " in told or told.startswith(b"no table "), told


def the_recordings_of_a_bench_show_what_their_fills_draw():
    for encoding in "raw", "rre", "hextile":
        recording = printed("recording/recording.py", ["65", "2", encoding],
                            b"fill 0 0 65 2 FF8001\n")
        run = Run(["play"], recording)
        run.ends(0, ppm(65, 2, ORANGE * 130), b"")


ROWS = [
    the_cost_of_a_hub_is_printed,
    the_cost_of_a_delivery_is_printed,
    the_cost_of_serving_is_printed,
    the_cost_of_a_share_is_printed,
    the_cost_of_a_relay_is_printed,
    the_cost_of_a_drive_is_printed,
    the_largest_memory_of_a_run_is_printed,
    a_table_is_printed_or_what_it_lacks,
    the_time_of_a_scroll_is_printed_or_what_it_lacks,
    the_recordings_of_a_bench_show_what_their_fills_draw,
]


if __name__ == "__main__":
    sys.exit(judged(ROWS, sys.argv[1:]))
