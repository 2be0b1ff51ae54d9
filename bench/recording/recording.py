"""Prints what a server sends to a viewer of version 3.8: the handshake and, where an encoding is
named, one update of the whole screen at rgb888. The screen is black under the fill lines on
standard input, whose colours have six digits. The update has the cells of 64 by 64 of our own
server, encoded by the rules of docs/PROTOCOL.md; a cell that an encoding does not make shorter is
in Raw.

    recording.py WIDTH HEIGHT none|raw|rre|hextile < fills
"""
import os
import struct
import sys
from array import array

sys.dont_write_bytecode = True  # no folder of compiled modules beside the sources
HERE = os.path.dirname(os.path.abspath(__file__))
sys.path.append(os.path.join(HERE, "..", "..", ".ci"))

from messages import handshake

SIDE = 64
TILE = 16
SIZE = 4
NUMBERS = {"raw": 0, "rre": 2, "hextile": 5}


def spell(pixel):
    return struct.pack("<I", pixel)


def screen_of(width, height, lines):
    """The rows of pixels that the fill lines leave."""
    rows = [array("I", bytes(SIZE * width)) for _ in range(height)]
    for line in lines:
        _, x, y, w, h, colour = line.split()
        x, y, w, h = int(x), int(y), int(w), int(h)
        run = array("I", [int(colour, 16)]) * w
        for row in rows[y : y + h]:
            row[x : x + w] = run
    return rows


def background_of(block):
    """The pixel of the most places, among equals the least."""
    counts = {}
    for row in block:
        for pixel in row:
            counts[pixel] = counts.get(pixel, 0) + 1
    return min(counts, key=lambda pixel: (-counts[pixel], pixel)), len(counts)


def cover(block, background):
    """The subrectangles over the background: pixel, x, y, width, height."""
    width = len(block[0])
    until = [0] * width
    for y, row in enumerate(block):
        for x, pixel in enumerate(row):
            if pixel == background or until[x] > y:
                continue
            end = x + 1
            while end < width and row[end] == pixel and until[end] <= y:
                end += 1
            run = row[x:end]
            below = y + 1
            while below < len(block) and block[below][x:end] == run:
                below += 1
            until[x:end] = [below] * (end - x)
            yield pixel, x, y, end - x, below - y


def raw(block):
    return b"".join(row.tobytes() for row in block)


def rre(block):
    background, _ = background_of(block)
    subs = [
        spell(pixel) + struct.pack(">HHHH", *place)
        for pixel, *place in cover(block, background)
    ]
    return struct.pack(">I", len(subs)) + spell(background) + b"".join(subs)


def tile_of(tile, carried):
    """The bytes of a tile, and the background and the foreground that it leaves to the next."""
    whole = b"\x01" + raw(tile)
    background, colours = background_of(tile)
    subs = list(cover(tile, background))
    if len(subs) > 255:
        return whole, (None, None)
    mask, data = 0, b""
    leaves = background, carried[1]
    if background != carried[0]:
        mask, data = 2, spell(background)
    if colours == 2:
        leaves = background, subs[0][0]
        if subs[0][0] != carried[1]:
            mask, data = mask | 4, data + spell(subs[0][0])
    if colours > 2:
        leaves = background, None
        mask |= 16
    if subs:
        mask |= 8
        data += bytes([len(subs)])
    for pixel, x, y, w, h in subs:
        data += spell(pixel) if colours > 2 else b""
        data += bytes([16 * x + y, 16 * (w - 1) + h - 1])
    if 1 + len(data) >= len(whole):
        return whole, (None, None)
    return bytes([mask]) + data, leaves


def hextile(block):
    data, carried = b"", (None, None)
    for y in range(0, len(block), TILE):
        for x in range(0, len(block[0]), TILE):
            tile = [row[x : x + TILE] for row in block[y : y + TILE]]
            bytes_of_it, carried = tile_of(tile, carried)
            data += bytes_of_it
    return data


def update(rows, encoding):
    """One update of the whole screen."""
    width, height = len(rows[0]), len(rows)
    rects = []
    for y in range(0, height, SIDE):
        for x in range(0, width, SIDE):
            block = [row[x : x + SIDE] for row in rows[y : y + SIDE]]
            number, data = 0, raw(block)
            if encoding != "raw":
                shorter = rre(block) if encoding == "rre" else hextile(block)
                if len(shorter) < len(data):
                    number, data = NUMBERS[encoding], shorter
            place = x, y, len(block[0]), len(block)
            rects.append(struct.pack(">HHHHi", *place, number) + data)
    return struct.pack(">BxH", 0, len(rects)) + b"".join(rects)


def main():
    width, height, encoding = int(sys.argv[1]), int(sys.argv[2]), sys.argv[3]
    recording = handshake(width, height)
    if encoding != "none":
        recording += update(screen_of(width, height, sys.stdin), encoding)
    sys.stdout.buffer.write(recording)


main()
