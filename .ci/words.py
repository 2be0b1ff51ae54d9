#!/usr/bin/env python3
"""The words of the command line, and standard input and output where they fail.

    .ci/words.py PROGRAM..

Each row runs a program, and compares its status and both outputs with what docs/PROTOCOL.md and the
help say. Streams fail where the system is told to let them. `.ci/memory.sh` takes CALLS too. The
last line is 'N passed, M failed'.
"""

import os
import resource
import socket
import sys

from calls import (DEVICE, UNWRITTEN, Call, Run, ends, failing, folder, halting, judged, limited,
                   that_is_at)
from messages import HELLO, SERVER
from pictures import BLACK, FILLED, SCRIPT, SHOWN

# ---- words

BAD_WORDS = """
scrip
SCRIPT
script first.script
script script
loop first.script
loop --port 5950
script loop
--width 2
play --format
play --format rgb888 --format rgb888
play --format RGB888
play --updates
play --updates 0
play --updates 4294967296
play --updates one
serve
serve --port 0
serve --port 65536
serve --port 9 --width 0
serve --port 9 --height 4097
serve --port 9 --connections 0
serve --port 9 --connections 65536
serve --port nine
serve --port 9 --timeout 0
view
view --port 0
view --port 9 --updates 0
view --port 9 --updates 4294967296
view --port 9 --format bgr101010
view --port 9 --timeout 0
view --port 9 --timeout 0.5
play --partial yes
view a:
view a:65536
view a:one
view a::0
view a::65536
view [::1]
view a b
view a --port 9
view a:1 --host b
view a --follow --fps 0
view a --follow --fps 1001
view a --follow --updates 0
view a --fps
view a --version
play -V
faults
help fault
help faults 1
play -i
script -i a -i b
serve --port 9 -o a
relay
relay a
relay --port 9
relay a --port 0
relay a b --port 9
relay a:65536 --port 9
relay a --port 9 --host b
relay a --port 9 --viewers 9
relay a --port 9 --hold 1
relay a --port 9 --format rgb
relay a --port 9 --timeout 0
relay a --port 9 --retry
relay a --port 9 --retry 0
relay a --port 9 --retry 0.5
relay a --port 9 --retry one
relay a --port 9 --retry 4294967296
relay a --port 9 --retry 1 --retry 2
share --port 9 --retry 1
relay a --port 9 -o b
drive
drive a:65536
drive a b -i c
drive a --port 9
drive a --timeout 0
drive a --timeout 4294967296
drive a --keep
drive a --tell=yes
drive a --format rgb
drive a -o b
drive a -i
drive a -i b -i c
"""

# Lists of encodings, none of which is one.
BAD_ENCODINGS = ["", ",", "raw,", "raw, rre", "Raw", "zrle", "raw;rre",
                 "raw,rre,hextile,copyrect,raw"]

HELP = """
help
--help
-h
help script
script --help
help loop
loop -h
help play
serve --help
help view
help relay
help drive
"""


def words_that_there_are_not():
    lines = [line.split(" ") for line in BAD_WORDS.split("\n")[1:-1]]
    for words in [*lines, ["play", "--format", ""]]:
        run = Run(words, b"screen 2 1\nsettle\n")
        run.ends(2, b"")
        assert run.told(2).startswith(b"error: "), (words, run.told(2))
    for word in BAD_ENCODINGS:
        ends(["view", "--port", "9", "--encodings", word], b"", 2, b"", b"bad encodings\n")
        ends(["relay", "a", "--port", "9", "--quiet", "--encodings", word], b"", 2, b"",
             b"bad encodings\n")
    ends(["view", "--port", "9", "--encodings", "zrle", "--explain"], b"", 2, b"",
         b"rfb: encodings are raw, copyrect, rre and hextile: one to four of them, with a comma"
         b" between two\nbad encodings\n")


def help_is_printed_once():
    for line in HELP.split("\n")[1:-1]:
        run = Run(line.split(" "))
        run.ends(0, None, b"")
        assert run.told(1).count(b"docs/PROTOCOL.md") == 1, (line, run.told(1))


HERE = os.path.dirname(os.path.abspath(__file__))
SETTLED = b"screen 2 1\nsettle\n"
MORE = b"\n\nFor more information, try '--help'.\n"
OF_SERVE = b"\n\nUsage: rfb serve [OPTIONS] --port <P>" + MORE
OF_VIEW = b"\n\nUsage: rfb view [OPTIONS] [SERVER]" + MORE
OF_FOLLOW = b"error: the argument '--follow' cannot be used with '--record' or '--partial'" + OF_VIEW
OF_ADDRESS = b"""error: invalid value 'example.org:65536' for '%s'
  [HOST, HOST:DISPLAY with a display from 0 to 99, HOST:PORT from port 100 on, or HOST::PORT]""" + MORE
OF_FORMAT = b"""error: invalid value 'rgb' for '--format <F>'
  [possible values: rgb888, rgb565, bgr233, rgb101010]""" + MORE


def bad_words(name, line, told, given=b""):
    return Call(name, line.split(), given, 2, b"", told)


def faults():
    with open(os.path.join(HERE, "faults.txt"), "rb") as text:
        return text.read()


CALLS = [
    Call("version", ["--version"], output=b"rfb 0.2.0\n"),
    Call("version_by_its_letter", ["-V"], output=b"rfb 0.2.0\n"),
    Call("help_on_faults", ["help", "faults"], output=faults()),
    Call("help_to_a_terminal", ["help", "faults"], device="/dev/ptmx"),
    bad_words("no_command", "", b"""error: 'rfb' requires a subcommand but one was not provided
  [subcommands: script, loop, play, serve, view, share, relay, drive, help]

Usage: rfb <COMMAND>""" + MORE),
    bad_words("word_of_no_meaning", "script picture.script",
              b"error: unexpected argument 'picture.script' found\n\n"
              b"Usage: rfb script [OPTIONS]" + MORE, SETTLED),
    Call("word_that_is_not_utf8", ["script", b"\xFF\xFE"], SETTLED, 2, b"",
         b"error: invalid UTF-8 was detected in one or more arguments" + MORE),
    bad_words("loop_with_a_word_too_many", "loop first.script",
              b"error: unexpected argument 'first.script' found\n\n"
              b"Usage: rfb loop [OPTIONS]" + MORE, SCRIPT),
    bad_words("format_of_no_meaning", "play --format rgb", OF_FORMAT),
    bad_words("picture_with_a_width", "serve --port 9 --picture a.ppm --width 64",
              b"error: the argument '--picture <FILE>' cannot be used with"
              b" '--width <N>' or '--height <N>'" + OF_SERVE),
    bad_words("picture_with_a_height", "serve --port 9 --height=1 --picture=a.ppm",
              b"error: the argument '--picture <FILE>' cannot be used with"
              b" '--width <N>' or '--height <N>'" + OF_SERVE),
    bad_words("connections_with_and_without_an_end", "serve --port 9 --forever --connections 1",
              b"error: the argument '--forever' cannot be used with '--connections <K>'"
              + OF_SERVE),
    bad_words("connections_of_no_number", "serve --port 9 --connections 0",
              b"error: invalid value '0' for '--connections <K>': 0 is not in 1..=65535" + MORE),
    bad_words("share_of_nine_viewers", "share --port 5950 --viewers 9",
              b"error: invalid value '9' for '--viewers <N>': 9 is not in 1..=8" + MORE),
    bad_words("relay_of_no_server", "relay --port 5950",
              b"error: the following required arguments were not provided:\n  <SERVER>\n\n"
              b"Usage: rfb relay --port <P> <SERVER>" + MORE),
    bad_words("relay_of_a_server_with_no_display", "relay example.org:65536 --port 5950",
              OF_ADDRESS % b"<SERVER>"),
    bad_words("drive_of_no_server", "drive",
              b"error: the following required arguments were not provided:\n  <SERVER>\n\n"
              b"Usage: rfb drive <SERVER> [LINE]..." + MORE),
    bad_words("drive_of_a_file_and_of_words", "drive a -i b key",
              b"error: the argument '--input <FILE>' cannot be used with '[LINE]...'\n\n"
              b"Usage: rfb drive [OPTIONS] <SERVER> [LINE]..." + MORE),
    bad_words("view_without_a_port", "view",
              b"error: the following required arguments were not provided:\n  --port <P>\n\n"
              b"Usage: rfb view --port <P>" + MORE),
    bad_words("view_of_no_update", "view --port 1 --updates 0",
              b"error: invalid value '0' for '--updates <U>': 0 is not in 1..=4294967295" + MORE),
    bad_words("view_in_no_format", "view --port 1 --format rgb", OF_FORMAT),
    bad_words("view_in_encodings_of_no_meaning", "view --port 1 --encodings raw,zrle",
              b"bad encodings\n"),
    bad_words("view_in_five_encodings",
              "view --port 1 --encodings raw,rre,hextile,copyrect,raw", b"bad encodings\n"),
    bad_words("view_of_a_server_with_no_display", "view example.org:65536",
              OF_ADDRESS % b"[SERVER]"),
    bad_words("film_that_is_a_recording", "view a --follow --record", OF_FOLLOW),
    bad_words("film_of_a_part", "view a --partial --follow", OF_FOLLOW),
    bad_words("pace_of_one_picture", "view a --fps 30",
              b"error: the argument '--fps <N>' cannot be used without '--follow'" + OF_VIEW),
]


# ---- streams that fail

def an_output_that_fails_is_reported_after_the_refusals():
    refusals = b"line 2: refused 25 NotReady\nline 4: refused 24 Outside\n"
    for words, given, told, whole, rooms in (
            (["script"], b"screen 64 64\nrequest full 0 0 1 1\nsettle\nfill 64 0 1 1 FF8001\n",
             refusals, b"P6\n64 64\n65535\n" + bytes(24576), (0, 5, 8192, 24590)),
            (["loop"], SCRIPT, b"", FILLED, (0, 5, 24)),
            (["play"], SERVER, b"", SHOWN, (0, 5, 24)),
            (["--help"], b"", b"", None, (0, 5))):
        for room in rooms:
            here, there = os.pipe()
            run = Run(words, given, errors=there, before=limited(resource.RLIMIT_FSIZE, room))
            run.ends(1, whole and whole[:room])
            os.close(there)
            with open(here, "rb") as errors:
                assert errors.read() == told + DEVICE, (words, room)
            assert len(run.told(1)) == room, (words, room, len(run.told(1)))


def fails_after(given, words, shown, errors=DEVICE, streams=(failing, halting)):
    for stream in streams:
        with stream(given) as source:
            Run(words, source=source).ends(1, shown, errors)


def an_input_that_fails_is_reported_and_nothing_runs():
    whole = b"screen 1 1\nsettle\n"
    # Not even a bad line is reported.
    bad = b"screen 2 1\nsettler\n"
    for words in ["script"], ["loop"]:
        for given in b"", whole, SCRIPT[:15], bad:
            fails_after(given, words, b"")
    for given in b"", HELLO[:15], HELLO, SERVER[:65], SERVER:
        fails_after(given, ["play"], b"")
    # A folder can't be read at all.
    with folder("/") as source:
        for words in ["script"], ["loop"], ["play"]:
            Run(words, source=source).ends(1, b"", DEVICE)


def what_came_before_an_input_failed_is_shown_if_it_is_wanted():
    for given, shown in (SERVER, SHOWN), (SERVER[:65], BLACK), (HELLO, BLACK), (HELLO[:36], b""):
        fails_after(given, ["play", "--partial"], shown)
    # Once the updates that are wanted have ended, it is not read any more.
    for stream in failing, halting:
        with stream(SERVER) as source:
            Run(["play", "--updates=1"], source=source).ends(0, SHOWN, b"")


def an_input_that_fails_is_explained():
    of = b"rfb: this is a recording of rfb, 2 by 1\n"
    lost = b"Connection reset by peer (os error 104)\n"
    for stream, told in (
            (failing, b"rfb: cannot read standard input: " + lost + that_is_at(65)),
            # No --timeout is up: a recording has none.
            (halting, b"rfb: reading failed: Resource temporarily unavailable (os error 11)\n"
             + that_is_at(65))):
        fails_after(SERVER[:65], ["play", "--explain"], b"", of + told + UNWRITTEN + DEVICE, [stream])


def errors_that_fail_change_nothing_else():
    with open("/dev/full", "wb") as full:
        for words, given, status, output in (
                (["script"], SCRIPT + b"fill 2 0 1 1 000000", 0, FILLED),
                (["script"], b"screen 2 1\nfill 2 0 1 1 000000\n", 1, b""),
                (["script"], b"screen 2 1\npaint\n", 1, b""),
                (["paint"], b"", 2, b"")):
            Run(words, given, errors=full).ends(status, output)


def each_refusal_is_one_write():
    here, there = socket.socketpair(socket.AF_UNIX, socket.SOCK_SEQPACKET)
    with here, there:
        Run(["script"], b"screen 2 1\nfill 2 0 1 1 000000\nrequest full 0 0 1 1\nsettle\n"
            b"request full 0 0 0 1\n", errors=there).ends(0)
        there.close()
        writes = list(iter(lambda: here.recv(65536), b""))
    assert writes == [b"line 2: refused 24 Outside\n", b"line 3: refused 25 NotReady\n",
                      b"line 5: refused 27 AreaOutside\n"], writes


ROWS = [
    *CALLS,
    words_that_there_are_not,
    help_is_printed_once,
    an_output_that_fails_is_reported_after_the_refusals,
    an_input_that_fails_is_reported_and_nothing_runs,
    what_came_before_an_input_failed_is_shown_if_it_is_wanted,
    an_input_that_fails_is_explained,
    errors_that_fail_change_nothing_else,
    each_refusal_is_one_write,
]


if __name__ == "__main__":
    sys.exit(judged(ROWS, sys.argv[1:]))
