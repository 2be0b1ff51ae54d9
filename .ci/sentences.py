#!/usr/bin/env python3
"""The sentences of --explain, and of `share`: each where it is true, beside what it is said of.

    .ci/sentences.py PROGRAM..

Each row compares all of standard error. Bytes are made by functions named after the messages of RFC
6143. Sentences that .ci/language.py, .ci/words.py, .ci/files.py and the calls of .ci/program show
are not here. The last line is 'N passed, M failed'.
"""

import os
import resource
import socket
import struct
import sys

from calls import (DEVICE, UNWRITTEN, Run, closed_after, ends, failing, folder, judged, limited,
                   that_is_at)
from messages import (CLIENT, HELLO, SERVER, VERSION, client_init, hextile, message, rectangle, rre,
                      security, security_of_33, security_result, server_init, set_pixel_format,
                      texted)
from owners import LISTENS, NO_SCREEN, PORT, why_bad
from peers import Server, breaks, free_port, takes, viewing, visits

# ---- what a server does wrong

NO_NONE = "the server offers no security type 1 (None), but "
TYPES = ["2 (VNC Authentication)", "16 (Tight)", "17 (Ultra)", "18 (TLS)", "19 (VeNCrypt)",
         "20 (GTK-VNC SASL)", "5", "255"]
ENCODINGS = ["4 (CoRRE)", "6 (zlib)", "7 (Tight)", "8 (zlibhex)", "15 (TRLE)", "16 (ZRLE)",
             "-223 (DesktopSize)", "-239 (Cursor)", "3", "-1", "2147483647", "-2147483648"]
TAKEN = ", and only raw, copyrect, rre and hextile are taken"
SUBRECTANGLE = "a subrectangle leaves its rectangle or its tile"

# What came up to the byte that is wrong, the sentence and the fault.
HANDSHAKES = [
    (security(0), NO_NONE + "0 (Invalid)", "18 NoneNotOffered"),
    (security(2, 16, 255), NO_NONE + "2 (VNC Authentication), 16 (Tight), 255",
     "18 NoneNotOffered"),
    (security_result(1, texted(b"go away")),
     "the server does not let the viewer in, and says `go away`", "21 SecurityFailed"),
    (server_init(0, 1), "the server's screen has no pixel", "22 ScreenEmpty"),
    (server_init(1, 0), "the server's screen has no pixel", "22 ScreenEmpty"),
    (server_init(4097, 4096), "the server's screen has more than 16777216 pixels",
     "23 ScreenTooLarge"),
]
# The same of rectangles that follow a pixel: read at another format they are others.
RECTANGLES = [
    (rectangle(0, area=(1, 0, 4, 4)), "a rectangle leaves the screen", "9 RectOutside"),
    (rectangle(0, area=(0, 1, 4, 4)), "a rectangle leaves the screen", "9 RectOutside"),
    (rectangle(1, struct.pack(">HH", 0, 1)), "the source of a CopyRect leaves the screen",
     "14 SourceOutside"),
    (rre(3, 0, 2, 1), SUBRECTANGLE, "10 SubrectOutside"),
    (hextile(2 + 8 + 16, *bytes(4), 1, *bytes(4), 0x30, 0x10), SUBRECTANGLE, "10 SubrectOutside"),
    (hextile(0), "a tile of Hextile has no background", "11 NoBackground"),
    (hextile(2 + 8), "a tile of Hextile has no foreground", "12 NoForeground"),
    (hextile(2 + 4 + 8 + 16),
     "the mask of a tile of Hextile has a foreground, and subrectangles with colours",
     "13 BothColourBits"),
]
FORMAT = b"rfb: a recording in another format than the one of --format reads like that\n"


def is_said(came, sentence, fault, size=None, hint=b"", updates=0):
    """Of a recording and of a server, whose next bytes are no matter."""
    told = b"rfb: %s\n" % sentence.encode()
    last = b"fault %s\n" % fault.encode()
    screen = b" rfb, %d by %d\n" % size if size else b""
    greeting = b"rfb: this is a recording of" + screen if size else b""
    place = b"rfb: that is at byte %d; whole updates before it: %d\n" % (len(came), updates)
    ends(["play", "--explain"], came + b"rfb", 1, b"", greeting + told + place + hint + last)
    viewed = Server(came + b"rfb")
    greeting = b"rfb: connected to" + screen if size else b""
    greeting += b"rfb: updates so far: %d\n" % updates if updates else b""
    words = ["--explain", "--timeout=60", "--updates=2", f"--port={viewed.port}"]
    viewed.shows(words, 1, b"", greeting + told + last)


def what_is_wrong_with_a_handshake_is_said():
    for row in HANDSHAKES:
        is_said(*row)


def what_is_wrong_with_a_message_is_said():
    for row in RECTANGLES:
        is_said(*row, (4, 4), FORMAT)
    is_said(message(77), "a message has type 77, which no server has in RFC 6143",
            "7 UnknownMessage", (4, 4), FORMAT, 1)


def each_security_type_is_named():
    for name in TYPES:
        number = int(name.split()[0])
        is_said(security(number), NO_NONE + name, "18 NoneNotOffered")
        is_said(security_of_33(number), NO_NONE + name,
                "18 NoneNotOffered" if number == 2 else "20 BadSecurityWord")


def each_encoding_is_named():
    for name in ENCODINGS:
        is_said(rectangle(int(name.split()[0])), f"a rectangle has encoding {name}{TAKEN}",
                "8 UnknownEncoding", (4, 4), FORMAT)


def a_screen_without_memory_is_said():
    limit = limited(resource.RLIMIT_AS, 80000 << 10)
    came = server_init(4096, 4096)
    Run(["play", "--explain"], came + b"rfb", before=limit).ends(
        1, b"", b"rfb: there is no memory for the screen\n"
        b"rfb: that is at byte 42; whole updates before it: 0\nfault 30 NoMemory\n")


# ---- streams and connections that fail

RESET = b": Connection reset by peer (os error 104)\n"
VIEWED = b"rfb: connected to rfb, 2 by 1\n"


def an_input_that_cannot_be_read_is_said():
    unread = b"rfb: cannot read standard input"
    for words in ["script"], ["loop"]:
        with failing(b"screen 2 1\n") as source:
            Run([*words, "--explain"], source=source).ends(1, b"", unread + RESET + DEVICE)
        with folder("/") as source:
            Run([*words, "--explain"], source=source).ends(
                1, b"", unread + b": Is a directory (os error 21)\n" + DEVICE)
    for given, told, place in (
            (b"", b"", b"rfb: that is at byte 0; whole updates before it: 0\n"),
            (SERVER, b"rfb: this is a recording of rfb, 2 by 1\n",
             b"rfb: that is at byte 69; whole updates before it: 1\n" + UNWRITTEN)):
        with failing(given) as source:
            Run(["play", "--explain"], source=source).ends(
                1, b"", told + unread + RESET + place + DEVICE)
    with failing(b"") as source:
        Run(["share", f"--port={PORT}"], source=source).ends(
            1, b"", LISTENS + unread + RESET + why_bad(1, NO_SCREEN))


def a_share_whose_lines_cannot_be_written_says_so():
    words, given = ["share", f"--port={PORT}"], b"screen 2 1\n"
    for quiet in [], ["--quiet"]:
        with open("/dev/full", "wb") as full:
            run = Run([*words, *quiet], given, output=full)
            visits(PORT, b"")
            run.ends(1, b"", (b"" if quiet else LISTENS + b"rfb: cannot write standard output: "
                              b"No space left on device (os error 28)\n") + DEVICE)
        told = b"rfb: standard output is closed, and lines go there that say what viewers do\n"
        Run([*words, *quiet], given, before=lambda: os.close(1)).ends(
            1, b"", (b"" if quiet else told) + DEVICE)


def what_a_view_fails_at_is_said():
    with viewing() as (run, line):
        line.sendall(HELLO)
        # All up to the request, so it waits for an update.
        takes(line, 52)
        breaks(line)
        run.ends(1, b"", VIEWED + b"rfb: reading failed" + RESET + closed_after(b"rgb888") + DEVICE)


def a_loop_without_a_connection_is_said():
    run = Run(["loop", "--explain"], b"screen 2 1\nsettle\n",
              before=limited(resource.RLIMIT_NOFILE, 4))
    run.ends(1, b"", b"rfb: no connection of 127.0.0.1 to itself:"
             b" Too many open files (os error 24)\n" + DEVICE)


# ---- scripts that end without a picture

NOT_READY = b"rfb: the viewer has no picture yet: it has one once its handshake is done, which " \
    b"`settle` delivers\nfault 25 NotReady\n"
NO_SUCH_SLOT = b"rfb: there is no viewer in the slot that the last line names\n" \
    b"fault 32 NoSuchSlot\n"
JOINED = b"hub 2 1\njoin 0 shared rgb888 raw\n"


def what_a_script_lacks_is_said():
    for words in ["script"], ["loop"]:
        ends([*words, "--explain"], b"screen 2 1\n", 1, b"", NOT_READY)
    ends(["script", "--explain"], JOINED + b"show 0\n", 1, b"", NOT_READY)
    ends(["script", "--explain"], JOINED + b"show 1\n", 1, b"", NO_SUCH_SLOT)


# ---- what asks for sentences

def the_environment_asks_for_them_by_1_alone():
    """As the word does, and not against it nor against `--quiet`."""
    came = security(0)
    said = b"rfb: %b0 (Invalid)\n" % NO_NONE.encode() + that_is_at(len(came))
    for value, words, told in (
            ("1", [], said), ("", [], b""), ("0", [], b""), ("11", [], b""), ("yes", [], b""),
            ("1", ["--explain"], said), ("0", ["--explain"], said)):
        Run(["play", *words], came, before=lambda: os.environ.update(RFB_EXPLAIN=value)).ends(
            1, b"", told + b"fault 18 NoneNotOffered\n")
    Run(["share", "--quiet", f"--port={PORT}"], b"screen 2 1\nquit\n",
        before=lambda: os.environ.update(RFB_EXPLAIN="1")).ends(0, b"", b"")


# ---- viewers that are served

FORMAT_THAT_CANNOT_BE = "the viewer asked for a pixel format that cannot be: "
LEFT = "the viewer left before its handshake or a message was whole"
BROKEN = "the connection to the viewer broke, or nothing came in the time of --timeout"

# What a client sends, the sentence and the fault, and what it does then.
CLIENTS = [
    (b"GET / HTTP/1", "the other end sent no version: it is no viewer", "15 BadVersion"),
    (VERSION + b"\x02", "the viewer chose another security type than 1 (None)",
     "17 BadSecurityChoice"),
    *[(set_pixel_format(**changed), FORMAT_THAT_CANNOT_BE + fault, fault) for changed, fault in (
        ({"bits": 24}, "1 BadBits"), ({"depth": 33}, "2 DepthTooLarge"),
        ({"maxima": (255, 254, 255)}, "4 BadMax"), ({"shifts": (25, 8, 0)}, "5 ShiftTooLarge"),
        ({"shifts": (16, 15, 0)}, "6 FieldsOverlap"))],
    (set_pixel_format(true=0), "the viewer asked for pixels by a colour map", "3 NotTrueColour"),
    (client_init(b"M"), "the viewer sent a message of type 77, which no client has in RFC 6143",
     "7 UnknownMessage"),
    (CLIENT[:-1], LEFT, "28 Truncated", lambda line: line.shutdown(socket.SHUT_WR)),
    (CLIENT[:-1], BROKEN, "29 Device", breaks),
]


def what_a_client_does_wrong_is_said_and_the_next_has_its_turn():
    port = free_port()
    run = Run(["serve", "--explain", f"--port={port}", f"--connections={len(CLIENTS)}"])
    told = f"rfb: listening on 127.0.0.1:{port}\n"
    for sent, sentence, _, *does in CLIENTS:
        name, _ = visits(port, sent, *does)
        told += f"{name} has connected\nrfb: {sentence}\n{name} was disconnected\n"
    run.ends(0, "".join(f"fault {row[2]}\n" for row in CLIENTS).encode(), told.encode())


def a_screen_for_a_viewer_without_memory_is_said():
    port = free_port()
    run = Run(["serve", "--explain", f"--port={port}", "--width=4096", "--height=4096"],
              before=limited(resource.RLIMIT_AS, 80000 << 10))
    name, _ = visits(port, b"")
    run.ends(0, b"fault 30 NoMemory\n", (
        f"rfb: listening on 127.0.0.1:{port}\n{name} has connected\n"
        f"rfb: there is no memory for the viewer\n{name} was disconnected\n").encode())


def a_viewer_that_cannot_be_answered_is_said():
    """Its connection takes the last descriptor, and to write to it takes one more."""
    port = free_port()
    run = Run(["serve", "--explain", f"--port={port}"], before=limited(resource.RLIMIT_NOFILE, 5))
    name, _ = visits(port, b"")
    run.ends(0, DEVICE, (f"rfb: listening on 127.0.0.1:{port}\n{name} has connected\n"
                         f"{name} was disconnected: Too many open files (os error 24)\n").encode())


ROWS = [
    what_is_wrong_with_a_handshake_is_said,
    what_is_wrong_with_a_message_is_said,
    each_security_type_is_named,
    each_encoding_is_named,
    a_screen_without_memory_is_said,
    an_input_that_cannot_be_read_is_said,
    a_share_whose_lines_cannot_be_written_says_so,
    what_a_view_fails_at_is_said,
    a_loop_without_a_connection_is_said,
    what_a_script_lacks_is_said,
    the_environment_asks_for_them_by_1_alone,
    what_a_client_does_wrong_is_said_and_the_next_has_its_turn,
    a_screen_for_a_viewer_without_memory_is_said,
    a_viewer_that_cannot_be_answered_is_said,
]


if __name__ == "__main__":
    sys.exit(judged(ROWS, sys.argv[1:]))
