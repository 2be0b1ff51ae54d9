"""Pictures as the program prints them: what scripts draw, and what `serve` shows at each format."""

import struct

# Red, green and blue of a place, four digits each: FF8001 as a line has it, as a viewer sees it at
# rgb888, and as it sees it at other formats.
ORANGE = "FFFF80800101"
AT_RGB565 = "FFFF82080000"
AT_BGR233 = "FFFF92490000"
AT_RGB101010 = "FFFF80A00100"
BLUE = "01018080FFFF"
NO_COLOUR = "000000000000"


def ppm(width, height, *places):
    """The bytes of a picture, from its places, row by row."""
    return b"P6\n%d %d\n65535\n" % (width, height) + bytes.fromhex("".join(places))


def drawn(*rows):
    """A picture from rows of characters: a # is orange, and all else has no colour."""
    places = [ORANGE if place == "#" else NO_COLOUR for row in rows for place in row]
    return ppm(len(rows[0]), len(rows), *places)


# Two places: what SERVER of `messages.py` shows, and what it shows after MORE.
BLACK = ppm(2, 1, NO_COLOUR, NO_COLOUR)
SHOWN = ppm(2, 1, NO_COLOUR, "040400000202")
SHOWN_LATER = ppm(2, 1, NO_COLOUR, ORANGE)

# A script that fills the left place of two, and its picture.
SCRIPT = b"""screen 2 1
fill 0 0 1 1 FF8001
settle
request full 0 0 2 1
settle
compose
settle
"""
FILLED = ppm(2, 1, ORANGE, NO_COLOUR)


def doubled(data):
    """Components of a byte, each 257 times as much in two."""
    both = bytearray(2 * len(data))
    both[0::2] = both[1::2] = data
    return bytes(both)


# The largest red, green and blue of a pixel.
MAXIMA = {"rgb888": (255, 255, 255), "rgb565": (31, 63, 31), "bgr233": (7, 7, 3)}


def seen(colour, name):
    """A colour as a viewer sees it: rounded into the fields of a pixel, and from them."""
    fields = ((it * most + 32767) // 65535 for it, most in zip(colour, MAXIMA[name]))
    return [(it * 65535 + most // 2) // most for it, most in zip(fields, MAXIMA[name])]


def scene(width, height, steps=0, name="rgb888"):
    """The screen of `serve` after a number of steps, as a viewer sees it: at (x, y) red is 4x,
    green 4y and blue 2(x+y), each modulo 256. A step moves it up by a row, and fills the last."""
    rows = [[(4 * x % 256 * 257, 4 * y % 256 * 257, 2 * (x + y) % 256 * 257) for x in range(width)]
            for y in range(height)]
    for step in range(1, steps + 1):
        rows = rows[1:] + [[(65535 * (step % 2), 0, 16 * step % 256 * 257)] * width]
    places = (struct.pack(">3H", *seen(colour, name)).hex() for row in rows for colour in row)
    return ppm(width, height, *places)
