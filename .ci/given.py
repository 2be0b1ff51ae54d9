#!/usr/bin/env python3
"""What comes on standard input: recordings, and pictures that are not served.

    .ci/given.py PROGRAM..

Each row runs a program, and compares its status and both outputs with what docs/PROTOCOL.md says.
What is wrong with a picture is by Netpbm's page on PPM too. `.ci/memory.sh` takes CALLS too. The
last line is 'N passed, M failed'.
"""

import sys

from calls import NO_VERSION, TRUNCATED, UNWRITTEN, WRITTEN, Call, ends, judged, that_is_at
from messages import HELLO, MORE, SERVER
from pictures import BLACK, SHOWN, SHOWN_LATER

# ---- recordings

def a_recording_is_played_up_to_a_number_of_updates():
    for updates, more, shown in (
            ("1", MORE, SHOWN),
            # After the last update nothing is looked at, be it truncated or no message.
            ("1", MORE[:9], SHOWN),
            ("1", b"\xFF", SHOWN),
            ("2", MORE, SHOWN_LATER),
            ("3", MORE, SHOWN_LATER),
            ("4294967295", MORE, SHOWN_LATER)):
        ends(["play", "--updates", updates], SERVER + more, 0, shown)
    ends(["play", "--updates", "2"], SERVER + MORE[:9], 1, b"", TRUNCATED)
    # Two bytes of the eight are two pixels there, and both have no colour.
    ends(["play", "--updates", "1", "--format=bgr233"], SERVER, 0, BLACK)


def what_came_by_an_early_end_is_shown_if_it_is_wanted():
    ends(["play", "--partial"], SERVER, 0, SHOWN)
    # One whole pixel of the two.
    ends(["play", "--partial"], SERVER[:65], 1, BLACK, TRUNCATED)
    ends(["play", "--updates=4294967295", "--partial"], SERVER[:65], 1, BLACK, TRUNCATED)
    # The size of the screen is not there.
    ends(["play", "--partial"], SERVER[:36], 1, b"", TRUNCATED)
    # A server's fault is no early end.
    ends(["play", "--partial"], SERVER + b"\xFF", 1, b"", b"fault 7 UnknownMessage\n")


NO_TYPE = b"rfb: the server offers no security type 1 (None), but 2 (VNC Authentication)"
ANOTHER_FORMAT = b"rfb: a recording in another format than the one of --format reads like that\n"


def a_bad_recording_is_explained():
    for came, told in (
            (b"HTTP/1.1 200 OK\r\n",
             NO_VERSION % b"HTTP/1.1 200" + that_is_at(12) + b"fault 15 BadVersion\n"),
            (b"P6\n2 1\n65535\n",
             NO_VERSION % b"P6\\x0a2 1\\x0a65535" + that_is_at(12) + b"fault 15 BadVersion\n"),
            # What is shorter than a version is no beginning of one, or one.
            (b"+OK\r\n", NO_VERSION % b"+OK\\x0d\\x0a" + that_is_at(5) + TRUNCATED),
            (b"RFB 003:", NO_VERSION % b"RFB 003:" + that_is_at(8) + TRUNCATED),
            (b"RFB 003.008\r", NO_VERSION % b"RFB 003.008\\x0d" + that_is_at(12)
             + b"fault 15 BadVersion\n"),
            (b"", b"rfb: the server's bytes end too early, after 0 of them\n"
             + that_is_at(0) + TRUNCATED),
            (b"RFB 0", b"rfb: the server's bytes end too early, after 5 of them\n"
             + that_is_at(5) + TRUNCATED),
            (b"RFB 003.008", b"rfb: the server's bytes end too early, after 11 of them\n"
             + that_is_at(11) + TRUNCATED),
            (b"RFB 003.008\n\x03\x02\x13\x05",
             NO_TYPE + b", 19 (VeNCrypt), 5\n" + that_is_at(16) + b"fault 18 NoneNotOffered\n"),
            (b"RFB 003.007\n\x03\x02\x05\x10",
             NO_TYPE + b", 5, 16 (Tight)\n" + that_is_at(16) + b"fault 18 NoneNotOffered\n"),
            (b"RFB 003.003\n\0\0\0\x02",
             NO_TYPE + b"\n" + that_is_at(16) + b"fault 18 NoneNotOffered\n"),
            (b"RFB 003.003\n\0\0\x01\0",
             b"rfb: the server offers no security type 1 (None), but 256\n" + that_is_at(16)
             + b"fault 20 BadSecurityWord\n"),
            (SERVER + bytes.fromhex("00000001 0000 0000 0200 0100 00000010"),
             b"rfb: this is a recording of rfb, 2 by 1\n"
             b"rfb: a rectangle has encoding 16 (ZRLE), and only raw, copyrect, rre and hextile are"
             b" taken\n" + that_is_at(85, 1) + ANOTHER_FORMAT + b"fault 8 UnknownEncoding\n")):
        ends(["play", "--explain"], came, 1, b"", told)


def a_refusal_is_explained_by_its_reason_alone():
    refused = b"rfb: the server refuses the connection, and %b\n", b"fault 19 Refused\n"
    failed = b"rfb: the server does not let the viewer in, and %b\n", b"fault 21 SecurityFailed\n"
    for came, (sentence, fault) in (
            (b"RFB 003.003\n\0\0\0\0", refused),
            (b"RFB 003.007\n\0", refused),
            (b"RFB 003.008\n\0", refused),
            (b"RFB 003.008\n\x01\x01\0\0\0\x01", failed)):
        for reason, says in (
                (b"", b"gives no reason"),
                (b"go\x1b[2J \\!", b"says `go\\x1b[2J \\x5c!`"),
                (b"a\\b\0\x1b[1m\x7f\xff ~", b"says `a\\x5cb\\x00\\x1b[1m\\x7f\\xff ~`"),
                # A long one has bytes where a screen and its name would be.
                (b"A" * 3000, b"says `" + b"A" * 1024 + b"`")):
            given = came + len(reason).to_bytes(4, "big") + reason
            ends(["play", "--explain"], given, 1, b"",
                 sentence % says + that_is_at(len(given)) + fault)


def a_recording_that_is_played_says_of_what_it_is():
    init = HELLO[18:]
    for hello, name in (
            (HELLO, b"rfb"),
            (HELLO[:-7] + bytes(4), b"a screen without a name"),
            (b"RFB 003.003\n\0\0\0\x01" + init, b"rfb"),
            (b"RFB 003.007\n\x02\x02\x01" + init, b"rfb"),
            (b"RFB 003.008\n\x03\x01\x02\x10\0\0\0\0" + init, b"rfb")):
        told = b"rfb: this is a recording of %b, 2 by 1\nrfb: updates played: %d\n"
        ends(["play", "--explain"], hello, 0, BLACK, told % (name, 0))
        given = hello + SERVER[len(HELLO):] + MORE
        for words, shown, updates in (
                ([], SHOWN_LATER, 2),
                (["--updates=1"], SHOWN, 1),
                (["--updates=3"], SHOWN_LATER, 2)):
            ends(["play", "--explain", *words], given, 0, shown, told % (name, updates))


def a_long_recording_is_explained_to_its_last_byte():
    text = b"\x03\0\0\0" + (17000000).to_bytes(4, "big") + bytes(17000000)
    ends(["play", "--explain"], SERVER + text + b"\xff", 1, b"",
         b"rfb: this is a recording of rfb, 2 by 1\n"
         b"rfb: 16777216 bytes came, and more are read\n"
         b"rfb: a message has type 255, which no server has in RFC 6143\n"
         b"rfb: that is at byte %d; whole updates before it: 1\n" % (len(SERVER + text) + 1)
         + ANOTHER_FORMAT + b"fault 7 UnknownMessage\n")


# ---- pictures that are not served

FLAWS = {
    1: b"it does not begin with P6",
    2: b"its width, its height or its largest component is missing",
    3: b"its width or its height is not 1 to 4096",
    4: b"its largest component is neither 255 nor 65535",
    5: b"no blank stands before its pixels",
    6: b"it ends before its last pixel does",
    7: b"bytes follow its last pixel",
}
SERVED = ["serve", "--port", "9", "--picture", "/dev/stdin"]


def bad_picture(name, number, picture, *more, told=b""):
    return Call(name, [*SERVED, *more], picture, 1, b"",
                told + b"bad picture %d: %b\n" % (number, FLAWS[number]))


PICTURES = [
    bad_picture("picture_of_nothing", 1, b""),
    bad_picture("picture_of_greys", 1, b"P5\n1 1\n255\n\0"),
    bad_picture("picture_in_plain_digits", 1, b"P3\n1 1\n255\n0 0 0\n"),
    bad_picture("picture_with_no_blank_after_its_kind", 1, b"P61 1\n255\n\0\0\0"),
    bad_picture("picture_without_a_height", 2, b"P6\n7\n"),
    bad_picture("picture_with_a_comment_without_an_end", 2, b"P6\n1 1 # 255"),
    bad_picture("picture_with_a_sign", 2, b"P6\n-1 1\n255\n\0\0\0"),
    bad_picture("picture_with_a_head_past_8192_bytes", 2,
                b"P6\n#" + 8190 * b"x" + b"\n1 1\n255\n\0\0\0"),
    bad_picture("picture_without_a_column", 3, b"P6\n0 1\n255\n"),
    bad_picture("picture_of_4097_rows", 3, b"P6\n1 4097\n255\n" + bytes(3 * 4097)),
    bad_picture("picture_of_more_columns_than_there_are_numbers", 3,
                b"P6\n" + 40 * b"9" + b" 1\n255\n"),
    bad_picture("explained_picture", 3, b"P6\n5000 1\n255\n", "--explain",
                told=b"rfb: cannot show /dev/stdin: a picture is a PPM (P6) of 1 to 4096 pixels a"
                b" side, with 255 or 65535 as its largest component\n"),
    bad_picture("picture_of_fifteen_greys", 4, b"P6\n1 1\n15\n\0\0\0"),
    bad_picture("picture_of_256_greys", 4, b"P6\n1 1\n256\n" + bytes(6)),
    bad_picture("picture_with_a_comment_before_its_pixels", 5, b"P6\n1 1\n255#\n\0\0\0"),
    bad_picture("picture_that_ends_after_its_head", 6, b"P6\n1 1\n255\n"),
    bad_picture("picture_that_ends_in_its_last_pixel", 6, b"P6\n2 1\n65535\n" + bytes(11)),
    bad_picture("picture_with_a_newline_after_it", 7, b"P6\n1 1\n255\n\0\0\0\n"),
    bad_picture("picture_with_another_after_it", 7, 2 * b"P6\n1 1\n255\n\0\0\0"),
]


def what_is_first_wrong_with_a_picture_is_reported():
    for picture, number in (
            (b"P61 1 255\n\0\0\0", 1),
            (b"P6", 2),
            (b"P6\n#2 1 255\n", 2),
            (b"P6\n2,1 255\n", 2),
            (b"P6 0 1 255\n", 3),
            (b"P6 4097 1 255\n", 3),
            (b"P6 1 99999999999999999999", 3),
            (b"P6 1 1 256\n", 4),
            (b"P6 1 1 131071\n", 4),
            (b"P6 1 1 255", 5),
            (b"P6 1 1 255#\n\0\0\0", 5),
            (b"P6 1 1 255\n\0\0", 6),
            (b"P6 1 1 65535\n\0\0\0", 6),
            (b"P6 1 1 255\n\0\0\0\n", 7)):
        bad_picture("one", number, picture)()


CALLS = [
    *PICTURES,
    Call("explained_recording_in_another_format",
         ["play", "--explain", "--format", "bgr233"], SERVER, 1, b"",
         b"rfb: this is a recording of rfb, 2 by 1\n"
         b"rfb: the server's bytes end too early, after 69 of them\n"
         + that_is_at(69, 1) + ANOTHER_FORMAT + UNWRITTEN + TRUNCATED),
    Call("explained_recording_that_is_cut", ["play", "--explain"], SERVER[:65], 1, b"",
         b"rfb: this is a recording of rfb, 2 by 1\n"
         b"rfb: the server's bytes end too early, after 65 of them\n"
         + that_is_at(65) + ANOTHER_FORMAT + UNWRITTEN + TRUNCATED),
    Call("explained_recording_that_is_cut_and_wanted", ["play", "--explain", "--partial"],
         SERVER[:65], 1, BLACK,
         b"rfb: this is a recording of rfb, 2 by 1\n"
         b"rfb: the server's bytes end too early, after 65 of them\n"
         + that_is_at(65) + ANOTHER_FORMAT + WRITTEN + TRUNCATED),
]


ROWS = [
    *CALLS,
    a_recording_is_played_up_to_a_number_of_updates,
    what_came_by_an_early_end_is_shown_if_it_is_wanted,
    a_bad_recording_is_explained,
    a_refusal_is_explained_by_its_reason_alone,
    a_recording_that_is_played_says_of_what_it_is,
    a_long_recording_is_explained_to_its_last_byte,
    what_is_first_wrong_with_a_picture_is_reported,
]


if __name__ == "__main__":
    sys.exit(judged(ROWS, sys.argv[1:]))
