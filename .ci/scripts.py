#!/usr/bin/env python3
"""Scripts of several lines, each for what it draws, refuses or says.

    .ci/scripts.py PROGRAM..

Each row is a script, with all that docs/PROTOCOL.md says of it. Each colour of a picture was worked
out by hand. `.ci/language.py` has tables of shorter ones, and `.ci/memory.sh` takes CALLS too. The
last line is 'N passed, M failed'.
"""

import os
import sys

from calls import Call, judged
from pictures import AT_RGB101010, AT_RGB565, BLACK, FILLED, NO_COLOUR, ORANGE, SCRIPT, drawn, ppm

LEFT_AT_RGB565 = ppm(2, 1, AT_RGB565, NO_COLOUR)


def script(name, text, output=b"", errors=b"", status=0, words="script"):
    return Call(name, words.split(), text, status, output, errors)


def bad(name, text, line, sentence=b"", words="script"):
    return script(name, text, b"", sentence + b"line %d: bad line\n" % line, 1, words)


def explained(name, text, line, cause):
    sentence = b"rfb: line %d of the script%b\n" % (line, cause)
    return bad(name, text, line, sentence, "script --explain")


# ---- what is drawn and seen

# An update of 24 bytes arrives in two parts. Between them the viewer asks for a format.
IN_TWO_PARTS = b"""screen 2 1
fill 0 0 1 1 FF8001
settle
request full 0 0 2 1
toserver 9
compose
toserver 1
compose
toviewer 19
format rgb565
toviewer 4294967295
format rgb565
request inc 0 0 2 1
settle
compose
settle
"""
# The same script as SCRIPT, with all four digits of each component.
TWELVE_DIGITS = SCRIPT.replace(b"FF8001", ORANGE.encode())

DRAWN = [
    script("fill_of_twelve_digits", TWELVE_DIGITS, FILLED),
    script("fill_at_rgb101010",
           TWELVE_DIGITS.replace(b"fill", b"viewer rgb101010 raw\nfill"),
           ppm(2, 1, AT_RGB101010, NO_COLOUR)),
    # Halves of 257 and what is below and above them.
    script("colours_rounded_at_rgb888", b"""screen 3 1
fill 0 0 1 1 00800081017F
fill 1 0 1 1 01810182FF7E
fill 2 0 1 1 FF7F7f7f8080
settle
request full 0 0 3 1
settle
compose
settle
""", ppm(3, 1, "000001010101", "01010202FEFE", "FFFF7F7F8080")),
    script("copy_at_rgb565", b"""screen 5 4
viewer rgb565 hextile raw copyrect
fill 1 0 3 1 FF8001
copy 2 3 3 1 1 0
hint 2 3 3 1 1 0
hint 2 3 3 1 1 4
settle
request inc 1 2 4 2
settle
compose
settle
""", ppm(5, 4, NO_COLOUR * 17, AT_RGB565 * 3), b"line 6: refused 24 Outside\n"),
    script("area_asked_for", b"""screen 5 4
fill 0 0 5 4 FF8001
settle
request full 1 2 3 1
settle
compose
settle
""", drawn(".....", ".....", ".###.", ".....")),
    script("area_outside", b"""screen 3 2
settle
request inc 2 0 2 1
request full 0 1 1 2
request full 1 1 0 1
request inc 0 0 3 2
""", drawn("...", "..."), b"line 3: refused 27 AreaOutside\nline 4: refused 27 AreaOutside\n"
           b"line 5: refused 27 AreaOutside\n"),
    script("picture_after_refusals", b"""screen 2 1
request full 0 0 2 1
fill 0 0 1 1 FF8001
settle
request full 0 0 2 1
request full 0 0 2 1
settle

fill 1 0 2 1 0000FF
compose
settle
""", FILLED, b"line 2: refused 25 NotReady\nline 6: refused 26 Busy\nline 9: refused 24 Outside\n"),
    script("update_in_two_parts", IN_TWO_PARTS, LEFT_AT_RGB565, b"line 10: refused 26 Busy\n"),
    script("no_picture", b"screen 2 1\nfill 2 0 1 1 FF8001\n", b"",
           b"line 2: refused 24 Outside\nfault 25 NotReady\n", 1),
]

# ---- the same over a connection

LOOPS = [
    script("loop_of_one_update", SCRIPT, FILLED, words="loop"),
    script("loop_of_an_update_in_two_parts", IN_TWO_PARTS, LEFT_AT_RGB565,
           b"line 10: refused 26 Busy\n", words="loop"),
    # The update has 49,216 bytes.
    script("loop_of_many_parts", b"""screen 128 96
fill 0 0 128 96 010203
settle
request full 0 0 128 96
settle
compose
settle
""", ppm(128, 96, "010102020303" * (128 * 96)), words="loop"),
    script("loop_with_a_refusal",
           SCRIPT.replace(b"request full 0 0 2 1\n", b"request full 0 0 2 1\n" * 2), FILLED,
           b"line 5: refused 26 Busy\n", words="loop"),
    script("loop_without_a_picture", b"screen 2 1\nrequest full 0 0 2 1\n", b"",
           b"line 2: refused 25 NotReady\nfault 25 NotReady\n", 1, "loop"),
]

# ---- the example of a scroll, over a connection too

def scroll():
    here = os.path.dirname(os.path.abspath(__file__))
    with open(os.path.join(here, "../examples/scroll.script"), "rb") as text:
        return text.read()


def scrolled():
    """At rgb565: bars came up by eight rows, the first of them out of the screen but for two rows,
    and one more was drawn."""
    grey = "BDEFBEFBBDEF"
    rows = [["210841046318"] * 64 for _ in range(48)]
    for top, height, width, colour in ((0, 2, 40, "EF7BEFBEEF7B"), (6, 4, 56, grey),
                                       (14, 4, 48, grey), (22, 4, 52, grey), (30, 4, 24, grey),
                                       (38, 4, 56, "F7BDAEBA318C")):
        for row in rows[top:top + height]:
            row[4:4 + width] = [colour] * width
    return ppm(64, 48, *(place for row in rows for place in row))


EXAMPLES = [
    script("example_of_a_scroll", scroll(), scrolled(), b"line 24: refused 26 Busy\n"),
    script("loop_of_the_example", scroll(), scrolled(), b"line 24: refused 26 Busy\n", 0, "loop"),
]

# ---- hubs

HUBS = [
    script("hub_with_a_hostile_viewer", b"""hub 2 1
join 0 shared rgb888 raw
join 1 shared rgb565 raw
fill 0 0 1 1 FF8001
at 0 settle
at 1 settle
at 0 request full 0 0 2 1
at 1 request full 0 0 2 1
at 0 settle
at 1 settle
foreign 0 01
at 0 settle
at 0 compose
at 1 compose
at 1 settle
show 1
""", LEFT_AT_RGB565),
    script("hub_that_a_viewer_wants_alone", b"""hub 2 1
join 0 shared rgb888 raw
join 1 shared rgb888 raw
join 0 shared rgb888 raw
join 2 sole rgb888 raw
at 2 settle
show 1
""", b"", b"line 4: refused 31 SlotTaken\nline 6: ended 0\nline 6: ended 1\n"
           b"fault 32 NoSuchSlot\n", 1),
]

# ---- lines that are refused, each after a sentence

def refused(line, refusal, cause):
    return b"rfb: line %d of the script %b\nline %d: refused %b\n" % (line, cause, line, refusal)


OUTSIDE = b"24 Outside", b"leaves the screen, so it changes nothing"
NOT_READY = b"25 NotReady", b"needs a viewer whose handshake is done, which `settle` delivers"

FOUR_REFUSED = b"""screen 2 1
request full 0 0 2 1
fill 0 0 1 1 FF8001
fill 1 0 2 1 0000FF
settle
request full 1 0 2 1
request full 0 0 2 1
request full 0 0 2 1
settle
compose
settle
"""
TOLD_OF_FOUR = (
    refused(2, *NOT_READY) + refused(4, *OUTSIDE)
    + refused(6, b"27 AreaOutside", b"asks for no place, or for places beside the screen")
    + refused(8, b"26 Busy", b"comes while a request is not answered, or an update is under way"))

REFUSED = [
    script("explained_refusals", FOUR_REFUSED, FILLED, TOLD_OF_FOUR, words="script --explain"),
    script("explained_refusals_of_a_loop", FOUR_REFUSED, FILLED, TOLD_OF_FOUR,
           words="loop --explain"),
    script("explained_refusals_of_a_hub", b"""hub 2 1
join 0 shared rgb888 raw
join 0 shared rgb888 raw
leave 1
hint 0 0 1 2 0 0
at 0 request full 0 0 2 1
at 0 settle
show 0
""", BLACK, refused(3, b"31 SlotTaken", b"lets a viewer join a slot that has one")
           + refused(4, b"32 NoSuchSlot", b"names a slot that has no viewer")
           + refused(5, *OUTSIDE) + refused(6, *NOT_READY), words="script --explain"),
]

# ---- lines that are bad

BAD = [
    bad("bad_line", b"screen 2 1\nfill 2 0 1 1 FF8001\n\nsettle\r\nsettle it\n", 4),
    bad("fill_of_eight_digits", b"screen 2 1\nfill 0 0 1 1 FF800180\nsettle\n", 2),
    bad("viewer_without_encodings", b"screen 2 1\n\nviewer rgb888\nsettle\n", 3),
    bad("loop_of_a_bad_line", b"hub 2 1\njoin 0 shared rgb888 raw\nshow 0\n", 1, words="loop"),
    explained("explained_line", b"screen 2 1\nsettle\r\n", 2,
              b" has a carriage return: a newline alone ends a line"),
    explained("explained_line_of_a_hub", b"hub 2 1\njoin 0 shared rgb888 zrle\nshow 0\n", 2,
              b": `zrle` is no encoding: raw, copyrect, rre or hextile"),
    explained("explained_line_of_a_slot",
              b"hub 2 1\njoin 0 sole rgb888 raw\nat 0 request full 0 0 2\nshow 0\n", 3,
              b" has too few words after its third: 4 of 5"),
    explained("explained_drawing_in_a_slot", b"hub 2 1\nat 0 fill 0 0 1 1 FF8001\nshow 0\n", 2,
              b": `fill` is no line of one slot"),
    explained("explained_line_after_the_last_of_a_hub", b"hub 2 1\nshow 0\nleave 0\n", 3,
              b": `show S` stands last, and once"),
    explained("explained_hub_without_a_last_line", b"hub 2 1\n", 2,
              b": the script ends before it, and none says `show S`"),
]

CALLS = DRAWN + LOOPS + HUBS + REFUSED + BAD


if __name__ == "__main__":
    sys.exit(judged(CALLS + EXAMPLES, sys.argv[1:]))
