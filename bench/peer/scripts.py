"""Scripts that both programs run, as lists of lines: pictures, and what changes on a screen."""
import gzip
import os
import random

BENCH = os.path.join(os.path.dirname(os.path.abspath(__file__)), "..")
FORMATS = ["rgb888", "rgb565", "bgr233"]
PICTURES = ["office", "desktop", "noise", "two colours", "flat", "stripes"]
CELL = 64

# The part of the office picture that is repeated all over the screen on which things change: its
# place, and the length of its sides.
TEXT_X, TEXT_Y, SIDE = 1280, 256, 256


def fills_of(name):
    """The fill lines of a picture that is kept as such."""
    with gzip.open(os.path.join(BENCH, f"{name}.fills.gz"), "rt") as lines:
        return lines.read().splitlines()


def repeated(width, height, w, h):
    """Copies of what stands in the first `w` by `h` places, until the screen is full of it."""
    lines = []
    while w < width:
        part = min(w, width - w)
        lines.append(f"copy {w} 0 {part} {h} 0 0")
        w += part
    while h < height:
        part = min(h, height - h)
        lines.append(f"copy 0 {h} {width} {part} 0 0")
        h += part
    return lines


def noise(width, height):
    """24 random bits in each place of 256 by 256, which come again."""
    bits = random.Random(1)
    return [
        f"fill {x} {y} 1 1 {bits.getrandbits(24):06x}"
        for y in range(SIDE)
        for x in range(SIDE)
    ] + repeated(width, height, SIDE, SIDE)


def two_colours(width, height):
    """One of two colours at random in each place of 256 by 256, which come again."""
    bits = random.Random(2)
    return [f"fill 0 0 {SIDE} {SIDE} 203040"] + [
        f"fill {x} {y} 1 1 f0e0d0"
        for y in range(SIDE)
        for x in range(SIDE)
        if bits.getrandbits(1)
    ] + repeated(width, height, SIDE, SIDE)


def stripes(width, height):
    """Columns of one place, of two colours in turn."""
    columns = [f"fill 0 0 1 {height} 203040", f"fill 1 0 1 {height} f0e0d0"]
    return columns + repeated(width, height, 2, height)


def text(width, height):
    """A part of the office picture, which comes again."""
    lines = []
    for line in fills_of("office"):
        word, x, y, w, h, colour = line.split()
        left, top = max(int(x), TEXT_X), max(int(y), TEXT_Y)
        right = min(int(x) + int(w), TEXT_X + SIDE)
        low = min(int(y) + int(h), TEXT_Y + SIDE)
        if left < right and top < low:
            place = f"{left - TEXT_X} {top - TEXT_Y} {right - left} {low - top}"
            lines.append(f"{word} {place} {colour}")
    return lines + repeated(width, height, SIDE, SIDE)


def picture(name, width, height):
    """The lines that draw a picture."""
    if name == "noise":
        return noise(width, height)
    if name == "two colours":
        return two_colours(width, height)
    if name == "stripes":
        return stripes(width, height)
    if name == "flat":
        return [f"fill 0 0 {width} {height} 306090"]
    return fills_of(name)


def whole_updates(name, encoding, width, height):
    """A picture, and a whole update of it in each format."""
    lines = [f"screen {width} {height}", f"viewer rgb888 {encoding}"]
    lines += picture(name, width, height) + ["settle"]
    for form in FORMATS:
        lines += [f"format {form}", "settle"]
        lines += [f"request full 0 0 {width} {height}", "toserver 10", "compose", "settle"]
    return lines


def moved(x, y, w, h, sx, sy):
    """A rectangle takes what another had, and the server gets the hint."""
    return [f"{word} {x} {y} {w} {h} {sx} {sy}" for word in ("copy", "hint")]


def scroll(width, height, rows):
    """The screen moves up, and the last rows get a colour."""
    drawn = moved(0, 0, width, height - rows, 0, rows)
    return drawn + [f"fill 0 {height - rows} {width} {rows} ffffff"]


def window(width, height):
    """A window of a quarter of the screen moves by (40, 24), and leaves two stripes."""
    x, y, w, h = width // 4, height // 4, width // 2, height // 2
    drawn = moved(x + 40, y + 24, w, h, x, y)
    return drawn + [f"fill {x} {y} {w} 24 204060", f"fill {x} {y + 24} 40 {h - 24} 204060"]


def corners(width, height):
    """The four corners of every cell get another colour."""
    lines = []
    for y in range(0, height, CELL):
        for x in range(0, width, CELL):
            right, low = min(x + CELL, width) - 1, min(y + CELL, height) - 1
            for place in (f"{x} {y}", f"{right} {y}", f"{x} {low}", f"{right} {low}"):
                lines.append(f"fill {place} 1 1 12ab34")
    return lines


def letter(x, y):
    """A letter of 8 by 14 on white: five strokes."""
    strokes = [(0, 0, 8, 14, "ffffff"), (1, 2, 1, 10, "000000"), (6, 2, 1, 10, "000000")]
    strokes += [(2, 1, 4, 1, "000000"), (2, 6, 4, 1, "000000")]
    return [f"fill {x + a} {y + b} {w} {h} {colour}" for a, b, w, h, colour in strokes]


def character(width, height):
    """One such letter."""
    return letter(width // 2 + 5, height // 2 + 5)


def pointed(width, height):
    """The screen moves up by a row, and a place is drawn over it."""
    return scroll(width, height, 1) + [f"fill {width // 3} {height // 3} 1 1 a0b0c0"]


def line(width, height, count):
    """The screen moves up by a text line, which gets that many letters."""
    lines = scroll(width, height, 16)
    for at in range(count):
        lines += letter(10 * at + 3, height - 15)
    return lines


# What has no row: a screen is made blank, and a request that its scroll leaves open is answered.
BESIDE = "beside the rows"


def changes(width, height):
    """What is drawn before each update after the first, by name. The first of them is drawn to no
    purpose: what is done for the first time at all costs more. The last request stays open."""
    place = f"fill {width // 2 + 32} {height // 2 + 32} 1 1"
    return [
        ("begun", [f"{place} 010203"]),
        ("a scroll by one row", scroll(width, height, 1)),
        ("a scroll by one row, a place drawn over it", pointed(width, height)),
        ("a console's line of 80 letters", line(width, height, 80)),
        ("two such lines, of 80 and 50", line(width, height, 80) + line(width, height, 50)),
        ("a moved window", window(width, height)),
        ("a part of 400 by 300 copied", moved(width - 500, 77, 400, 300, 33, height - 350)),
        ("corners of every cell", corners(width, height)),
        ("a typed character", character(width, height)),
        ("one changed place", [f"{place} fedcba"]),
        ("a scroll by a text line", scroll(width, height, 16)),
        (BESIDE, [f"fill 0 0 {width} {height} ffffff"]),
        ("a blank screen scrolled by one row", scroll(width, height, 1)),
        (BESIDE, [f"{place} 030201"]),
        ("nothing drawn", []),
    ]


def changing_screen(encodings, width, height):
    """A screen of text on which things change. An empty copy parts what the viewer did from what is
    drawn next."""
    request = f"0 0 {width} {height}"
    lines = [f"screen {width} {height}", f"viewer rgb888 {encodings}"] + text(width, height)
    lines += ["settle", f"request full {request}", "toserver 10", "compose", "settle"]
    for _, drawn in changes(width, height):
        lines += ["copy 0 0 0 0 0 0", *drawn]
        lines += [f"request inc {request}", "toserver 10", "compose", "settle"]
    return lines
