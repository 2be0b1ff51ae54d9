#!/usr/bin/env python3
"""Prints what `rfb serve` needs for one whole Raw update at 1,920 by 1,080, to a viewer that takes
all and then leaves: instructions a place. Three runs are counted: with that viewer, with one that
leaves after the handshake, and with such a one at a screen of one place. Then it prints what a step
of the scene costs, which scrolls, to a viewer that lists CopyRect and Hextile, and to one that
lists Hextile alone: instructions in all, of a viewer that asks once more, less one that does not.
Needs valgrind.

    bench/serve.py [PROGRAM] [--once]
"""

import struct
import subprocess

import callgrind
from messages import VERSION, request, set_encodings
from peers import connected, free_port, takes

CELL = 64
TILE = 16


def shake_hands(stream):
    """A handshake of 3.8, with None and a shared screen."""
    for count, answer in (12, VERSION), (2, b"\x01"), (4, b"\x01"), (24 + 3, b""):
        takes(stream, count)
        stream.sendall(answer)


def ask_all(stream, width, height):
    """Raw alone, and one whole update."""
    stream.sendall(set_encodings(0) + request(0, 0, 0, width, height))
    cells = -(-width // CELL) * -(-height // CELL)
    takes(stream, 4 + 12 * cells + 4 * width * height)


def take_hextile(stream, width, height):
    """The tiles of a rectangle, RFC 6143 section 7.7.4, in pixels of four bytes."""
    for y in range(0, height, TILE):
        for x in range(0, width, TILE):
            mask = takes(stream, 1)[0]
            if mask & 1:
                takes(stream, 4 * min(TILE, width - x) * min(TILE, height - y))
                continue
            takes(stream, 4 * (mask >> 1 & 1) + 4 * (mask >> 2 & 1))
            if mask & 8:
                takes(stream, takes(stream, 1)[0] * (6 if mask & 16 else 2))


def take_update(stream):
    """One update, of Raw, CopyRect and Hextile."""
    _, rectangles = struct.unpack(">BxH", takes(stream, 4))
    for _ in range(rectangles):
        _, _, width, height, encoding = struct.unpack(">HHHHi", takes(stream, 12))
        if encoding == 5:
            take_hextile(stream, width, height)
        else:
            takes(stream, 4 if encoding == 1 else 4 * width * height)


def ask_steps(stream, width, height, encodings, steps):
    """These encodings, a whole update, and a number of further ones of what has changed."""
    stream.sendall(set_encodings(*encodings) + request(0, 0, 0, width, height))
    take_update(stream)
    for _ in range(steps):
        stream.sendall(request(1, 0, 0, width, height))
        take_update(stream)


def count(program, width, height, asks, updates):
    """The instructions of one connection, from the program's start to its end. Once the handshake
    is done `asks` is called, and that number of updates is sent for it."""
    port = free_port()
    words = [*callgrind.RUNNER, program, "serve", "--port", str(port), "--width", str(width),
             "--height", str(height), "--connections", "1"]
    with subprocess.Popen(words, stdout=subprocess.PIPE, stderr=subprocess.PIPE) as server:
        with connected(port) as stream:
            shake_hands(stream)
            asks(stream)
        told, errors = server.communicate()
    assert told == b"ok %d\n" % updates, (told, errors[-500:])
    return callgrind.collected(errors)


def main():
    program = callgrind.program()
    width, height = (64, 48) if callgrind.ONCE else (1920, 1080)
    nothing = lambda stream: None
    start = count(program, 1, 1, nothing, 0)
    idle = count(program, width, height, nothing, 0)
    whole = count(program, width, height, lambda stream: ask_all(stream, width, height), 1)
    places = width * height
    print(f"serve of one whole update in Raw, a place: {(whole - idle) / places:.1f}")
    print(f"the screen, its record and the pattern, a place: {(idle - start) / places:.1f}")
    print(f"both, a place: {(whole - start) / places:.1f}")
    for name, encodings in (("CopyRect and Hextile", (1, 5)), ("Hextile", (5,))):
        one, two = (
            count(program, width, height,
                  lambda stream: ask_steps(stream, width, height, encodings, steps), 1 + steps)
            for steps in (0, 1))
        print(f"a step of the scene in {name}: {two - one:,}")


main()
