#!/usr/bin/env python3
"""The language of scripts: which lines there are, and what they do.

    .ci/language.py PROGRAM..

Each row is a script, with what a program must make of it by docs/PROTOCOL.md: the status, what is
printed, and what is printed on standard error. Each colour of a picture was worked out by hand. The
last line is 'N passed, M failed'.
"""

import sys

from calls import Call, judged
from pictures import (AT_BGR233, AT_RGB101010, AT_RGB565, BLACK, BLUE, FILLED, NO_COLOUR, ORANGE,
                      SCRIPT, drawn, ppm)

LEFT_AT_RGB565 = ppm(2, 1, AT_RGB565, NO_COLOUR)


def bad(line):
    """What is printed of the first bad line."""
    return f"line {line}: bad line\n"


# ---- scripts ----

# Lines that are bad wherever they stand after the first, each for one reason.
BAD_LINES = [
    # No keyword, or none that is known.
    "paint 0 0 1 1 FF8001", "Fill 0 0 1 1 FF8001", "COMPOSE", "# a remark", "request Full 0 0 2 1",
    "request incremental 0 0 2 1", "request 0 0 2 1", "format RGB565", "format rgb555",
    "format rgb10101", "format raw",
    # A screen is there already, and the viewer's line is not the second.
    "screen 2 1", "viewer rgb888 raw",
    # Lines of a hub's script.
    "hub 2 1", "join 0 shared rgb888 raw", "leave 0", "foreign 0 01", "at 0 settle", "show 0",
    # Words too many or too few.
    "fill", "fill 0 0 1 1", "fill 0 0 1 FF8001", "fill 0 0 1 1 FF8001 0", "request full 0 0 2",
    "request full 0 0 2 1 1", "request inc 0 0 2", "request full inc 0 0 2 1", "copy 0 0 1 1 1",
    "copy 0 0 1 1 1 0 0", "hint 0 0 1 1 1", "hint 0 0 1 1 1 0 0", "format", "format rgb565 rgb888",
    "toviewer", "toviewer 1 2", "toserver", "toserver 1 2", "compose 1", "settle 8",
    "settle settle",
    # Spaces other than one between two words.
    " ", "  ", " compose", "compose ", "fill  0 0 1 1 FF8001", "fill 0 0 1 1  FF8001",
    # Characters that no line has.
    "\t", "compose\t", "fill\t0 0 1 1 FF8001", "compose\r", "\r", "compose\0", "compose\x7F",
    "compose\x80", "compose\xC3\xA9", "fill 0 0 1 1 \xEF\xBC\xA6F8001",
    "fill \xEF\xBC\x91 0 1 1 FF8001",
    # Numbers out of range, and what is no number.
    "fill 65536 0 1 1 FF8001", "fill 0 65536 1 1 FF8001", "fill 0 0 65536 1 FF8001",
    "fill 0 0 1 65536 FF8001", "fill 4294967296 0 1 1 FF8001", "fill 4295032831 0 1 1 FF8001",
    "fill 9999999999 0 1 1 FF8001", "fill 00000000001 0 1 1 FF8001",
    "fill 18446744073709551616 0 1 1 FF8001", "fill +1 0 1 1 FF8001", "fill -1 0 1 1 FF8001",
    "fill 0x1 0 1 1 FF8001", "fill 1. 0 1 1 FF8001", "fill A 0 1 1 FF8001",
    "request full 0 0 2 65536", "request full 0 0 -2 1", "request inc 65536 0 2 1",
    "copy 0 0 1 1 65536 0", "copy 0 0 1 1 0 65536", "hint 0 0 1 1 65536 0", "hint 0 0 1 1 0 65536",
    "toviewer 4294967296", "toviewer 00000000001", "toserver 4294967296", "toserver -1",
    # What is no colour.
    "fill 0 0 1 1 FF80", "fill 0 0 1 1 FF800", "fill 0 0 1 1 FF80011", "fill 0 0 1 1 FF800100",
    "fill 0 0 1 1 FFFF8080010", "fill 0 0 1 1 FFFF808001011", "fill 0 0 1 1 FFFF8080010G",
    "fill 0 0 1 1 #F8001", "fill 0 0 1 1 FG8001", "fill 0 0 1 1 0xFF80",
]

# Scripts, and their first bad lines.
FIRST_BAD_LINES = [
    # No line but empty ones: the line after the last.
    ("", 1),
    ("\n", 2),
    ("\n\n", 3),
    # The first line that is not empty has to be a good `screen`.
    ("compose\nscreen 2 1\nsettle\n", 1),
    ("\nsettle\nscreen 2 1\nsettle\n", 2),
    (" screen 2 1\nsettle\n", 1),
    ("Screen 2 1\nsettle\n", 1),
    ("hub 2 1\nsettle\n", 2),
    ("screen 2 1\r\nsettle\r\n", 1),
    ("screen 2\nsettle\n", 1),
    ("screen 2 1 1\nsettle\n", 1),
    ("\n\nscreen 0 1\nsettle\n", 3),
    ("screen 1 0", 1),
    ("screen 4097 1\nsettle\n", 1),
    ("screen 1 4097\nsettle\n", 1),
    ("screen 65537 1\nsettle\n", 1),
    ("screen 00000000002 1\nsettle\n", 1),
    # Later lines, the last one also without its newline.
    ("screen 2 1\n\n\nscreen 2 1\nsettle\n", 4),
    ("screen 2 1\nsettle\n \n", 3),
    # The viewer's line is the second, or there is none.
    ("viewer rgb888 raw\nscreen 2 1\nsettle\n", 1),
    ("screen 2 1\n\nviewer rgb888\nsettle\n", 3),
    ("screen 2 1\nviewer raw rgb888\nsettle\n", 2),
    ("screen 2 1\nviewer rgb888 Raw\nsettle\n", 2),
    ("screen 2 1\nviewer rgb888 raw zrle\nsettle\n", 2),
    ("screen 2 1\nviewer rgb888 raw rre raw rre raw\nsettle\n", 2),
    ("screen 2 1\nviewer rgb888 raw\nviewer rgb888 raw\n", 3),
    ("screen 2 1\nsettle\nviewer rgb888 raw\n", 3),
    ("screen 2 1\nsettle\n\nsettle settle", 4),
    ("screen 2 1\nsettle\0\nsettle\n", 2),
    ("screen 2 1\nsettle\nrequest\nsettle\nfill\n", 3),
]

FILL_LEFT_PLACE = SCRIPT.decode()

# Each fills the left place of two, and requests both.
SPELLINGS = [
    FILL_LEFT_PLACE,
    "screen 2 1\nfill 0 0 1 1 ff8001\nsettle\nrequest full 0 0 2 1\nsettle\ncompose\nsettle",
    "\n\nscreen 0000000002 01\n\nfill 00 0000000000 0000000001 001 fF8001\n\n\nsettle\n"
    "request full 000 0 02 1\nsettle\ncompose\nsettle\n\n\n",
    # All four digits of each component.
    "screen 2 1\nfill 0 0 1 1 FfFf80800101\nsettle\nrequest full 0 0 2 1\nsettle\ncompose\n"
    "settle\n",
    # The viewer's line says what holds without it, or names an encoding again.
    "screen 2 1\nviewer rgb888 raw\nfill 0 0 1 1 FF8001\nsettle\nrequest full 0 0 2 1\n"
    "settle\ncompose\nsettle\n",
    "screen 2 1\n\nviewer rgb888 hextile rre raw rre\nfill 0 0 1 1 FF8001\nsettle\n"
    "request inc 0 0 2 1\nsettle\ncompose\nsettle\n",
    # Deliveries by number, the greatest and none among them.
    "screen 2 1\nfill 0 0 1 1 FF8001\ntoserver 0\ntoviewer 0\nsettle\nrequest full 0 0 2 1\n"
    "toserver 4294967295\ncompose\ntoviewer 0004294967\n",
]


def each_line_is_good_or_bad():
    for line in BAD_LINES:
        # The fill would be refused, and the last line is bad too.
        yield f"screen 2 1\n\nfill 9 9 9 9 FF8001\n{line}\nsettle\nsettle it\n", 1, b"", bad(4)
    for script, line in FIRST_BAD_LINES:
        yield script, 1, b"", bad(line)
    for script in SPELLINGS:
        yield script, 0, FILLED, ""


# How many places half of the largest screen has.
HALF = 4096 * 2048


def a_side_has_1_to_4096_places():
    for width, height in (1, 1), (4096, 1), (1, 4096):
        yield (f"screen {width} {height}\nsettle\n", 0,
               ppm(width, height, NO_COLOUR * (width * height)), "")
    yield ("screen 4096 4096\nfill 0 0 4096 2048 FF8001\nfill 0 2048 4096 2048 0180FF\nsettle\n"
           "request full 0 0 4096 4096\nsettle\ncompose\nsettle\n", 0,
           ppm(4096, 4096) + bytes.fromhex(ORANGE) * HALF + bytes.fromhex(BLUE) * HALF, "")


def each_number_has_its_own_place():
    shown = drawn(".......", ".......", ".####..", ".####..", ".####..", ".......")
    for fill, request in (
            # The rectangle is filled, and all of the screen asked for.
            ("1 2 4 3", "full 0 0 7 6"),
            # All of the screen is filled, and the rectangle asked for; or what is new there.
            ("0 0 7 6", "full 1 2 4 3"),
            ("0 0 7 6", "inc 1 2 4 3")):
        yield (f"screen 7 6\nfill {fill} FF8001\nsettle\nrequest {request}\nsettle\ncompose\n"
               "settle\n", 0, shown, "")


def the_viewer_asks_for_what_its_line_says():
    for viewer, colour in (
            ("", ORANGE),
            ("viewer rgb888 rre copyrect hextile raw\n", ORANGE),
            ("viewer rgb565 raw\n", AT_RGB565),
            ("viewer bgr233 hextile rre\n", AT_BGR233),
            ("viewer rgb101010 raw\n", AT_RGB101010)):
        yield (f"screen 1 1\n{viewer}fill 0 0 1 1 FF8001\nsettle\nrequest full 0 0 1 1\nsettle\n"
               "compose\nsettle\n", 0, ppm(1, 1, colour), "")


def a_format_waits_for_the_end_of_an_update():
    """An update of 24 bytes arrives in two parts; between them the viewer asks for a format."""
    for cut in range(1, 25):
        yield ("screen 2 1\nfill 0 0 1 1 FF8001\nsettle\nrequest full 0 0 2 1\ntoserver 9\n"
               f"compose\ntoserver 1\ncompose\ntoviewer {cut}\nformat rgb565\ntoviewer 4294967295\n"
               "format rgb565\nrequest inc 0 0 2 1\nsettle\ncompose\nsettle\n",
               0, LEFT_AT_RGB565, "line 10: refused 26 Busy\n" if cut < 24 else "")


def a_call_waits_for_the_answer_to_a_request():
    request = "request full 0 0 2 1\n"
    yield (FILL_LEFT_PLACE.replace(request, request * 2), 0, FILLED,
           "line 5: refused 26 Busy\n")
    yield ("screen 1 1\nfill 0 0 1 1 FF8001\nsettle\nrequest full 0 0 1 1\nformat bgr233\nsettle\n"
           "compose\nsettle\nformat bgr233\nrequest inc 0 0 1 1\nsettle\ncompose\nsettle\n",
           0, ppm(1, 1, AT_BGR233), "line 5: refused 26 Busy\n")


def a_format_that_is_in_force_makes_all_unknown():
    """Were the place still known, no update would answer the second request."""
    yield ("screen 1 1\nsettle\nrequest full 0 0 1 1\nsettle\ncompose\nsettle\nformat rgb888\n"
           "request inc 0 0 1 1\nsettle\ncompose\nsettle\nrequest inc 0 0 1 1\nsettle\ncompose\n"
           "settle\nrequest inc 0 0 1 1\n", 0, None, "line 16: refused 26 Busy\n")


def an_update_has_the_bytes_of_the_first_encoding():
    """Of 17 places of one colour: 16 bytes of heads, and the data of one rectangle."""
    for viewer, count in (
            ("rgb888 raw", 84), ("rgb565 raw rre hextile", 50), ("bgr233 copyrect", 33),
            ("rgb888 rre raw", 24), ("rgb565 copyrect rre hextile", 22), ("bgr233 rre rre", 21),
            ("rgb888 hextile rre raw copyrect", 22), ("rgb565 hextile", 20),
            ("bgr233 hextile raw", 19)):
        # A format is refused until the last byte has come.
        yield (f"screen 17 1\nviewer {viewer}\nfill 0 0 17 1 FF8001\nsettle\n"
               f"request full 0 0 17 1\nsettle\ncompose\ntoviewer {count - 1}\nformat bgr233\n"
               "toviewer 1\nformat rgb565\n", 0, None, "line 9: refused 26 Busy\n")


def a_copy_takes_its_source_to_its_rectangle():
    shown = drawn(".###.....", ".###.....", ".........", ".........", ".........", "....###..",
                  "....###..", ".........")
    # The viewer has the source already, and is sent the copy or not.
    for hint in "", "hint 4 5 3 2 1 0\n":
        yield ("screen 9 8\nviewer rgb888 raw copyrect\nfill 1 0 3 2 FF8001\nsettle\n"
               f"request full 0 0 9 8\nsettle\ncompose\nsettle\ncopy 4 5 3 2 1 0\n{hint}"
               "request inc 0 0 9 8\nsettle\ncompose\nsettle\n", 0, shown, "")


def a_hint_makes_a_copy_of_twenty_bytes():
    """Two places that the viewer has are copied to two others, and what has changed is composed."""
    for hint, told in (
            ("hint 2 0 2 1 0 0", ""),
            # The other way round nothing is gained: two pixels are sent, in four bytes more.
            ("hint 0 0 2 1 2 0", "line 15: refused 26 Busy\n"),
            ("", "line 15: refused 26 Busy\n")):
        yield ("screen 4 1\nviewer rgb888 raw copyrect\nfill 0 0 2 1 FF8001\nsettle\n"
               "request full 0 0 4 1\nsettle\ncompose\nsettle\ncopy 2 0 2 1 0 0\n"
               f"request inc 0 0 4 1\nsettle\n{hint}\ncompose\ntoviewer 20\nrequest inc 0 0 4 1\n",
               0, None, told)


def a_copy_or_a_hint_that_leaves_the_screen_is_refused():
    yield ("screen 9 8\nhint 8 0 1 8 0 0\nhint 0 7 9 1 0 0\nhint 0 0 1 1 8 0\nhint 0 0 1 1 0 8\n"
           "hint 7 0 3 1 0 0\ncopy 8 0 1 8 0 0\ncopy 0 7 9 1 0 0\ncopy 0 0 1 1 8 0\n"
           "copy 0 0 1 1 0 8\ncopy 0 7 1 2 0 0\nsettle\n", 0, ppm(9, 8, NO_COLOUR * 72),
           "".join(f"line {line}: refused 24 Outside\n" for line in (5, 6, 10, 11)))


def the_picture_is_there_once_the_screens_size_is_known():
    before = ("screen 2 1\ntoviewer 12\ntoserver 12\ntoviewer 2\ntoserver 1\ntoviewer 4\n"
              "toserver 1\n")
    # Of the server's last message of the handshake 24 bytes have come, and its name has not.
    yield (before + "toviewer 24\nrequest full 0 0 2 1\nformat rgb565\n", 0, BLACK,
           "line 9: refused 25 NotReady\nline 10: refused 25 NotReady\n")
    yield before + "toviewer 23\n", 1, b"", "fault 25 NotReady\n"


# ---- scripts of a hub ----

JOINED = "hub 2 1\njoin 0 shared rgb888 raw\n"

# Lines that are bad wherever they stand after the first, each for one reason.
BAD_HUB_LINES = [
    # Lines of a script that is no hub's.
    "screen 2 1", "viewer rgb888 raw", "request full 0 0 2 1", "request inc 0 0 2 1",
    "format rgb565", "compose", "toviewer 1", "toserver 1", "settle",
    # A hub is there already; keywords that there are not.
    "hub 2 1", "Join 0 shared rgb888 raw", "joins 0 shared rgb888 raw", "At 0 settle",
    "slot 0 settle",
    # What is of one slot, and no such line after it.
    "at", "at 0", "at 0 fill 0 0 1 1 FF8001", "at 0 copy 0 0 1 1 1 0", "at 0 hint 0 0 1 1 1 0",
    "at 0 join 0 shared rgb888 raw", "at 0 leave 0", "at 0 foreign 0 01", "at 0 at 0 settle",
    "at 0 show 0", "at 0 screen 2 1", "at 0 settle 8", "at 0 compose 1", "at 0 compose settle",
    "at 0 request full 0 0 2", "at 0 request 0 0 2 1", "at 0 request full 0 0 2 1 1",
    "at 0 format", "at 0 format rgb555", "at 0 toviewer", "at 0 toserver 4294967296",
    "at 0  settle", "at  0 settle", "at 0 settle ",
    # A slot is one digit.
    "at 00 settle", "at 10 settle", "at -1 settle", "at x settle", "at / settle", "at : settle",
    "at settle", "leave 10", "leave 01", "leave a", "join 10 shared rgb888 raw", "foreign 10 01",
    # Viewers.
    "join", "join 0", "join 0 shared", "join 0 shared rgb888", "join 0 rgb888 raw",
    "join shared rgb888 raw", "join 0 Shared rgb888 raw", "join 0 alone rgb888 raw",
    "join 0 shared sole rgb888 raw", "join 0 shared raw rgb888", "join 0 shared rgb888 zrle",
    "join 0 shared rgb555 raw", "join 0 shared rgb888 raw raw raw raw raw",
    "join 0 sole rgb888 raw raw raw raw raw raw", "leave", "leave 0 1", "leave 0 0",
    # Foreign bytes.
    "foreign", "foreign 0", "foreign 01", "foreign 0 0", "foreign 0 001", "foreign 0 0G",
    "foreign 0 0x01", "foreign 0 00 00", "foreign 0 +1", "foreign 0 \xEF\xBC\x91",
    # Drawings, and the slot to be shown.
    "fill 0 0 1 1", "fill 0 0 1 1 FF80", "copy 0 0 1 1 0", "hint 0 0 1 1 0 0 0", "show", "show 00",
    "show 10", "show x", "show 0 0", "show 0 ",
    # Characters that no line has.
    "leave 0\r", " ", "\t", "\r", "leave\t0", "leave 0\0",
]

FIRST_BAD_HUB_LINES = [
    # No slot to be shown: the line after the last one, empty ones counted.
    ("hub 2 1", 2),
    ("hub 2 1\n", 2),
    ("hub 2 1\n\n", 3),
    ("hub 2 1\n\n\n", 4),
    ("\nhub 2 1\nat 0 settle", 4),
    ("\nhub 2 1\nat 0 settle\n", 4),
    # Something but empty lines after it.
    ("hub 2 1\nshow 0\nshow 0", 3),
    ("hub 2 1\nshow 0\n\nat 0 settle\n", 4),
    ("hub 2 1\nshow 0\n \n", 3),
    ("hub 2 1\nshow 0\nhub 2 1\n", 3),
    ("hub 2 1\nshow 0\nsettle it\n", 3),
    # The first line that is not empty has to be a good one of a hub.
    ("hub 0 1\nshow 0\n", 1),
    ("hub 1 4097\nshow 0\n", 1),
    ("hub 2\nshow 0\n", 1),
    ("\n\nhub 2 1 1\nshow 0\n", 3),
    (" hub 2 1\nshow 0\n", 1),
    ("show 0\n", 1),
    ("join 0 shared rgb888 raw\nhub 2 1\nshow 0\n", 1),
    ("\nat 0 settle\n", 2),
]

HUB_SPELLINGS = [
    "hub 2 1\njoin 0 shared rgb888 raw\nat 0 settle\nshow 0",
    "\n\nhub 02 0000000001\n\njoin 0 sole rgb565 raw rre raw rre\n\nat 0 settle\n\nshow 0\n\n\n",
    "hub 2 1\njoin 7 shared bgr233 hextile\nat 7 toserver 0\nat 7 settle\nshow 7\n",
    "hub 2 1\njoin 0 shared rgb888 raw\nat 0 settle\nforeign 0 aBcDeF0123456789\nshow 0\n",
    "hub 2 1\njoin 0 shared rgb101010 copyrect\nat 0 settle\nat 0 format bgr233\nat 0 settle\n"
    "copy 0 0 1 1 1 0\nhint 0 0 1 1 1 0\nshow 0\n",
]


def each_line_of_a_hub_is_good_or_bad():
    for line in BAD_HUB_LINES:
        script = f"hub 2 1\n\nfill 9 9 9 9 FF8001\n{line}\nat 0 settle\nat 0\nshow 0\n"
        yield script, 1, b"", bad(4)
    for script, line in FIRST_BAD_HUB_LINES:
        yield script, 1, b"", bad(line)
    for script in HUB_SPELLINGS:
        yield script, 0, BLACK, ""
    for count in range(1, 67):
        script = f"{JOINED}at 0 settle\nforeign 0 {'fF' * count}\nshow 0\n"
        yield (script, 0, BLACK, "") if count <= 64 else (script, 1, b"", bad(4))


SHOWN = "\nat 0 settle\nshow 0\n"

# Lines that are refused while the viewer of slot 0 has just joined.
REFUSED = [
    ("fill 2 0 1 1 FF8001", "24 Outside"),
    ("copy 0 0 2 1 1 0", "24 Outside"),
    ("copy 1 0 2 1 0 0", "24 Outside"),
    ("hint 0 0 1 2 0 0", "24 Outside"),
    ("hint 0 0 1 1 0 1", "24 Outside"),
    ("at 0 request full 0 0 2 1", "25 NotReady"),
    ("at 0 request inc 9 9 0 0", "25 NotReady"),
    ("at 0 format rgb565", "25 NotReady"),
    ("join 0 shared rgb888 raw", "31 SlotTaken"),
    ("join 0 sole rgb565 raw raw", "31 SlotTaken"),
    ("join 8 shared rgb888 raw", "32 NoSuchSlot"),
    ("join 9 sole rgb888 raw", "32 NoSuchSlot"),
    ("leave 1", "32 NoSuchSlot"),
    ("leave 8", "32 NoSuchSlot"),
    ("foreign 7 00", "32 NoSuchSlot"),
    ("foreign 9 00", "32 NoSuchSlot"),
    ("at 1 request full 0 0 2 1", "32 NoSuchSlot"),
    ("at 8 request full 0 0 2 1", "32 NoSuchSlot"),
    ("at 1 format rgb565", "32 NoSuchSlot"),
    ("at 1 compose", "32 NoSuchSlot"),
    ("at 8 compose", "32 NoSuchSlot"),
    ("at 1 toserver 0", "32 NoSuchSlot"),
    ("at 1 toviewer 4294967295", "32 NoSuchSlot"),
    ("at 9 toviewer 1", "32 NoSuchSlot"),
    # Sixteen deliveries, and one line that tells of them.
    ("at 1 settle", "32 NoSuchSlot"),
    ("at 8 settle", "32 NoSuchSlot"),
]

# Lines that are not.
MADE = [
    "fill 2 1 0 0 FF8001",
    "join 7 shared rgb101010 hextile rre copyrect raw",
    "leave 0\njoin 0 sole rgb888 raw",
    "at 0 compose",
    "at 0 toserver 0",
    "at 0 toviewer 0",
    "hint 0 0 1 1 1 0",
    "copy 0 0 1 1 1 0",
]


def a_refusal_is_reported_and_changes_nothing():
    for line, refusal in REFUSED:
        yield JOINED + line + SHOWN, 0, BLACK, f"line 3: refused {refusal}\n"
    for line in MADE:
        yield JOINED + line + SHOWN, 0, BLACK, ""
    ready = JOINED + "at 0 settle\n"
    # An update is due, for which a call has to wait.
    for line, refusal in (
            ("at 0 request inc 0 0 1 1", "26 Busy"),
            ("at 0 format rgb888", "26 Busy"),
            ("join 0 shared rgb888 raw", "31 SlotTaken")):
        yield (ready + "at 0 request full 0 0 2 1\n" + line + SHOWN, 0, BLACK,
               f"line 5: refused {refusal}\n")
    for area in "full 0 0 0 1", "inc 0 0 2 0", "full 1 0 2 1", "inc 0 1 1 1":
        yield (f"{ready}at 0 request {area}{SHOWN}", 0, BLACK, "line 4: refused 27 AreaOutside\n")


def the_others_end_at_the_byte_that_asks_for_sole_use():
    """A handshake byte by byte: the client's shared-flag is its fourteenth byte."""
    yield ("hub 2 1\njoin 7 shared rgb888 raw\njoin 2 sole rgb888 raw\njoin 0 shared rgb888 raw\n"
           "join 4 shared rgb888 raw\nat 2 toviewer 12\nat 2 toserver 12\nat 2 toviewer 2\n"
           "at 2 toserver 1\nat 2 toviewer 4\nat 2 toserver 0\nat 2 toserver 1\nat 0 settle\n"
           "leave 4\nat 2 settle\nshow 2\n", 0, BLACK,
           "line 12: ended 0\nline 12: ended 4\nline 12: ended 7\n"
           "line 13: refused 32 NoSuchSlot\nline 14: refused 32 NoSuchSlot\n")
    # Foreign bytes are a handshake of such a client; the second time an unknown message follows.
    for more, count in ("", 4294967295), ("01", 15):
        yield (JOINED + "join 1 shared rgb888 raw\n"
               f"foreign 1 524642203030332e3030380A0100{more}\nat 1 toserver {count}\nshow 1\n",
               1, b"", "line 5: ended 0\nfault 25 NotReady\n")


def a_slot_without_a_picture_shows_none():
    for script, told in (
            ("hub 2 1\nshow 0\n", "fault 32 NoSuchSlot\n"),
            ("hub 2 1\nshow 8\n", "fault 32 NoSuchSlot\n"),
            (JOINED + "show 1\n", "fault 32 NoSuchSlot\n"),
            (JOINED + "leave 0\nshow 0\n", "fault 32 NoSuchSlot\n"),
            (JOINED + "show 0\n", "fault 25 NotReady\n")):
        yield script, 1, b"", told


def a_viewer_that_joins_again_has_nothing_of_the_one_before():
    for wants, colour in (
            ("rgb888 raw", ORANGE), ("rgb565 hextile raw", AT_RGB565), ("bgr233 rre", AT_BGR233)):
        yield ("hub 2 1\njoin 3 sole rgb101010 raw\nat 3 settle\nat 3 request full 0 0 2 1\n"
               f"at 3 settle\nleave 3\njoin 3 shared {wants}\nfill 0 0 1 1 FF8001\nat 3 settle\n"
               "at 3 request inc 0 0 2 1\nat 3 settle\nat 3 compose\nat 3 settle\n\nshow 3\n\n",
               0, ppm(2, 1, colour, NO_COLOUR), "")


def a_drawing_and_a_hint_reach_each_session():
    """The right place is a copy of the left one; the second update is a copy too."""
    yield ("hub 2 1\njoin 0 shared rgb888 raw copyrect\njoin 1 shared rgb888 raw\n"
           "fill 0 0 1 1 FF8001\nat 0 settle\nat 1 settle\nat 0 request full 0 0 2 1\n"
           "at 0 settle\nat 0 compose\nat 0 settle\ncopy 1 0 1 1 0 0\nhint 1 0 1 1 0 0\n"
           "at 0 request inc 0 0 2 1\nat 0 toserver 10\nat 0 compose\nat 0 toviewer 19\n"
           "at 0 toviewer 1\nat 0 format bgr233\nat 0 settle\nshow 0\n",
           0, ppm(2, 1, ORANGE, ORANGE), "")


# ---- sentences ----

# Bad lines after a good one, and what is said of each.
CAUSES = [
    ("settle\r", " has a carriage return: a newline alone ends a line"),
    ("fill\t0", " has a tab: one space parts two words"),
    ("f\xC3\xA4ll", " has a byte that is no printable ASCII character, 0xc3"),
    ("compose ", " has a space at an end, or two in a row: one space parts two words"),
    ("fill  0 0 1 1 FF8001", " has a space at an end, or two in a row: one space parts two words"),
    ("paint 1", " begins with `paint`, as no line there does"),
    ("screen 2 1", ": `screen W H` stands first, and once"),
    ("hub 2 1", ": `hub W H`, each side 1 to 4096, stands first, with `rfb script`"),
    ("fill 0 0 1 1", " has too few words after its first: 4 of 5"),
    ("viewer rgb888", " has too few words after its first: 1 of 2"),
    ("settle 1", " has too many words after its first: at most 0"),
    ("fill 0 65536 1 1 FF8001", ": `65536` is no number from 0 to 65535"),
    ("copy 0 0 1 1 2 x", ": `x` is no number from 0 to 65535"),
    ("toviewer 4294967296", ": `4294967296` is no number from 0 to 4294967295"),
    ("fill 0 0 1 1 FF80", ": `FF80` is no colour of six or twelve hexadecimal digits"),
    ("format RGB888", ": `RGB888` is no format: rgb888, rgb565, bgr233 or rgb101010"),
    ("viewer rgb888 zrle", ": `zrle` is no encoding: raw, copyrect, rre or hextile"),
    ("request all 0 0 1 1", ": `all` is neither `full` nor `inc`"),
]

# The same of a hub's script.
HUB_CAUSES = [
    ("leave 0\r", " has a carriage return: a newline alone ends a line"),
    ("leave\t0", " has a tab: one space parts two words"),
    ("leave 0\0", " has a byte that is no printable ASCII character, 0x00"),
    ("at  0 settle", " has a space at an end, or two in a row: one space parts two words"),
    ("paint 1", " begins with `paint`, as no line there does"),
    ("hub 2 1", ": `hub W H` stands first, and once"),
    ("at", ": a slot and a line of it stand after `at`"),
    ("at 0", ": a line of the slot stands after `at S`"),
    ("at 0 paint", ": `paint` is no line of one slot"),
    ("at 0 request full 0 0 2", " has too few words after its third: 4 of 5"),
    ("at 0 settle 8", " has too many words after its third: at most 0"),
    ("join 0 shared rgb888", " has too few words after its first: 3 of 4"),
    ("leave 0 1", " has too many words after its first: at most 1"),
    ("at 10 settle", ": `10` is no slot: one digit"),
    ("join x shared rgb888 raw", ": `x` is no slot: one digit"),
    ("leave 00", ": `00` is no slot: one digit"),
    ("foreign -1 01", ": `-1` is no slot: one digit"),
    ("show 10", ": `10` is no slot: one digit"),
    ("join 0 alone rgb888 raw", ": `alone` is neither `shared` nor `sole`"),
    ("join 0 sole rgb555 raw", ": `rgb555` is no format: rgb888, rgb565, bgr233 or rgb101010"),
    ("foreign 0 0", ": `0` is no 1 to 64 bytes of two hexadecimal digits each"),
    ("foreign 0 0G", ": `0G` is no 1 to 64 bytes of two hexadecimal digits each"),
    (f"foreign 0 {'00' * 65}",
     f": `{'00' * 65}` is no 1 to 64 bytes of two hexadecimal digits each"),
    ("at 0 toviewer 4294967296", ": `4294967296` is no number from 0 to 4294967295"),
]

# Whole scripts that are bad, each at a line, and what is said of it.
BAD_SCRIPTS = [
    ("", 1, ": the lines end before it, and none says `screen W H`"),
    ("\n\n", 3, ": the lines end before it, and none says `screen W H`"),
    ("\nsettle\n", 2, ": `screen W H` stands first, and once"),
    ("screen 0 1\n", 1, ": `0` is no number from 1 to 4096"),
    ("hub 0 1\nshow 0\n", 1, ": `hub W H`, each side 1 to 4096, stands first, with `rfb script`"),
    ("screen 2 1\nsettle\nviewer rgb888 raw\n", 3, ": `viewer F E..` stands second, and once"),
]


def a_bad_line_is_explained():
    for line, cause in CAUSES:
        yield f"screen 2 1\n{line}\n", 1, b"", f"rfb: line 2 of the script{cause}\n" + bad(2)


def a_bad_line_of_a_hub_is_explained():
    for line, cause in HUB_CAUSES:
        yield (f"hub 2 1\n{line}\nshow 0\n", 1, b"",
               f"rfb: line 2 of the script{cause}\n" + bad(2))


def a_bad_script_is_explained():
    for script, line, cause in BAD_SCRIPTS:
        yield script, 1, b"", f"rfb: line {line} of the script{cause}\n" + bad(line)


def a_screen_has_a_usual_size():
    """And a script as many lines as it needs."""
    fills = "fill 0 0 1 1 000000\n" * 20000
    asked = "settle\nrequest full 0 0 {0} {1}\nsettle\ncompose\nsettle\n"
    for w, h in (1920, 1080), (640, 480):
        yield (f"screen {w} {h}\n{fills}fill 0 0 {w} {h} FF8001\n" + asked.format(w, h), 0,
               ppm(w, h, ORANGE * (w * h)), "")


def a_hub_has_a_usual_size():
    whole = [line for slot in range(8) for line in (
        f"at {slot} settle", f"at {slot} request full 0 0 640 480", f"at {slot} settle",
        f"at {slot} compose", f"at {slot} settle")]
    joins = [f"join {slot} shared rgb888 raw" for slot in range(8)]
    yield ("\n".join(["hub 640 480", "fill 0 0 640 480 FF8001", *joins, *whole, "show 7\n"]), 0,
           ppm(640, 480, ORANGE * (640 * 480)), "")


# The rows, and the words with which each is run.
BY_SCRIPT, BY_LOOP = ["script"], ["loop"]
ROWS = [
    (each_line_is_good_or_bad, BY_SCRIPT),
    (a_side_has_1_to_4096_places, BY_SCRIPT),
    (each_number_has_its_own_place, BY_SCRIPT),
    (the_viewer_asks_for_what_its_line_says, BY_SCRIPT),
    (a_format_waits_for_the_end_of_an_update, BY_SCRIPT, BY_LOOP),
    (a_call_waits_for_the_answer_to_a_request, BY_SCRIPT, BY_LOOP),
    (a_format_that_is_in_force_makes_all_unknown, BY_SCRIPT),
    (an_update_has_the_bytes_of_the_first_encoding, BY_SCRIPT),
    (a_copy_takes_its_source_to_its_rectangle, BY_SCRIPT),
    (a_hint_makes_a_copy_of_twenty_bytes, BY_SCRIPT),
    (a_copy_or_a_hint_that_leaves_the_screen_is_refused, BY_SCRIPT),
    (the_picture_is_there_once_the_screens_size_is_known, BY_SCRIPT),
    (each_line_of_a_hub_is_good_or_bad, BY_SCRIPT),
    (a_refusal_is_reported_and_changes_nothing, BY_SCRIPT),
    (the_others_end_at_the_byte_that_asks_for_sole_use, BY_SCRIPT),
    (a_slot_without_a_picture_shows_none, BY_SCRIPT),
    (a_viewer_that_joins_again_has_nothing_of_the_one_before, BY_SCRIPT),
    (a_drawing_and_a_hint_reach_each_session, BY_SCRIPT),
    (a_screen_has_a_usual_size, BY_SCRIPT, BY_LOOP),
    (a_hub_has_a_usual_size, BY_SCRIPT),
    (a_bad_line_is_explained, ["script", "--explain"]),
    (a_bad_line_of_a_hub_is_explained, ["script", "--explain"]),
    (a_bad_script_is_explained, ["--explain", "script"], ["--explain", "loop"]),
]


def calls():
    """A call for each script, whose beginning is in its name."""
    for rows, *with_words in ROWS:
        for words in with_words:
            for script, status, shown, told in rows():
                yield Call(f"{rows.__name__}, {words[-1]} of {script[:500]!r}", words,
                           script.encode("latin-1"), status, shown, told.encode("latin-1"))


if __name__ == "__main__":
    sys.exit(judged(list(calls()), sys.argv[1:]))
