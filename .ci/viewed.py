#!/usr/bin/env python3
"""Servers that are viewed: by what they are named, what they are asked, and how they fail.

    .ci/viewed.py PROGRAM..

Each row runs a program beside a server of this file's, on 127.0.0.1 or another address that a
machine has for itself, or beside `serve`, and compares its status and both outputs. The last line
is 'N passed, M failed'.
"""

import contextlib
import os
import resource
import signal
import socket
import sys
import tempfile
import time
from concurrent.futures import ThreadPoolExecutor

from calls import (DEVICE, NO_VERSION, TRUNCATED, UNWRITTEN, WRITTEN, Call, Run, closed_after, ends,
                   judged)
from messages import CLIENT, HELLO, MORE, SERVER
from peers import (OTHER, Server, View, breaks, free_port, halts, two_addresses, viewing,
                   waits_for)
from pictures import BLACK, FILLED, ORANGE, SHOWN, SHOWN_LATER, ppm, scene

# ---- servers that are viewed

def a_server_is_named_by_a_word_or_by_its_host_and_its_port():
    for words, port in (
            ([OTHER], 5900),
            ([OTHER + ":0"], 5900),
            ([OTHER + ":99"], 5999),
            ([OTHER + ":5900"], 5900),
            ([OTHER + ":65535"], 65535),
            ([OTHER + "::65535"], 65535),
            (["--host", OTHER], 5900)):
        Server(host=OTHER, port=port).shows(words)
    server = Server(host=OTHER)
    server.shows(["--host=" + OTHER, f"--port={server.port}"])
    for colons in ":", "::":
        server = Server()
        server.shows([f"{colons}{server.port}"])
    server = Server()
    server.shows(["--port", str(server.port)])
    for display in range(10, 100):
        try:
            server = Server(port=5900 + display)
        except OSError:
            continue
        server.shows([f":{display}"])
        break


def a_view_asks_for_what_its_words_say():
    """A version, None, a shared screen, a format, encodings, and a request for both places."""
    hello, request = CLIENT[:14], CLIENT[14:]
    rgb888 = bytes.fromhex("00000000 20180001 00FF00FF00FF 100800 000000")
    bgr233 = bytes.fromhex("00000000 08080001 000700070003 000306 000000")
    server = Server()
    raw = bytes.fromhex("02000001 00000000")
    came = server.shows(["--port", str(server.port)])
    assert came == hello + rgb888 + raw + request, came
    server = Server(HELLO)
    words = [f"--port={server.port}", "--host", "localhost", "--updates=4294967295", "--format",
             "bgr233", "--encodings", "hextile,raw,hextile,copyrect", "--record", "--partial",
             "--timeout=4294967295"]
    four = bytes.fromhex("02000004 00000005 00000000 00000005 00000001")
    came = server.shows(words, 1, HELLO, TRUNCATED)
    assert came == hello + bgr233 + four + request, came


def a_recording_is_played_as_it_was_viewed():
    """In the format that it was asked for, up to its last update or another one."""
    for name in "rgb565", "bgr233":
        port = free_port()
        run = Run(["serve", f"--port={port}", "--width=9", "--height=5"])
        waits_for(port)
        view = Run(["view", f":{port}", "--record", "--updates=3", "--format", name])
        view.ends(0, None, b"")
        run.ends(0, b"ok 3\n", b"")
        for words, steps in ([], 2), (["--updates=1"], 0):
            ends(["play", "--format", name, *words], view.told(1), 0, scene(9, 5, steps, name))


def an_address_of_ipv6_is_a_host():
    try:
        listener = socket.create_server(("::1", 0), family=socket.AF_INET6)
    except OSError:
        print("no IPv6: nothing listens at ::1")
        return
    with listener:
        listener.settimeout(20)
        run = Run(["view", "--host=::1", f"--port={listener.getsockname()[1]}"])
        with listener.accept()[0] as line:
            line.sendall(SERVER)
            run.ends(0, SHOWN, b"")


def a_view_that_is_cut_short_shows_nothing():
    for count in 0, 45, 68:
        server = Server(SERVER[:count])
        server.shows(["--port", str(server.port)], 1, b"", TRUNCATED)
        server = Server(SERVER[:count])
        server.shows(["--port", str(server.port), "--record"], 1, SERVER[:count], TRUNCATED)
    for count, shown in (len(SERVER), SHOWN), (40, b""):
        server = Server(SERVER[:count])
        words = ["--port", str(server.port), "--updates", "2", "--partial"]
        server.shows(words, 1, shown, TRUNCATED)


def a_refused_connection_is_tried_again():
    server = Server(late=1)
    server.shows(["--port", str(server.port), "--timeout", "5"])


def a_refused_connection_rests_before_it_is_tried_again():
    """All of a second it is refused, which takes next to none of a processor's time."""
    def taken():
        used = resource.getrusage(resource.RUSAGE_CHILDREN)
        return used.ru_utime + used.ru_stime

    before = taken()
    ends(["view", f"::{free_port()}", "--timeout=1"], b"", 1, b"", DEVICE)
    assert taken() - before < 0.3, taken() - before


def each_address_of_a_host_is_tried():
    with two_addresses() as made:
        if not made:
            print("no C compiler: no host has two addresses")
            return
        for late, *more in (0,), (0, "--timeout=5"), (0.3, "--timeout=5"):
            server = Server(late=late)
            words = ["view", "--host=two.invalid", f"--port={server.port}", *more]
            Run(words, before=lambda: os.environ.update(LD_PRELOAD=made)).ends(0, SHOWN, b"")


ENDLESS = b"rfb: it waits as long as it takes: there is no --timeout\n"
CONNECTED = b"rfb: connected to rfb, 2 by 1\n"
UPDATED = CONNECTED + b"rfb: updates so far: 1\n"

# ---- views of what serve shows

TWO_BY_ONE = "serve --port PORT --width 2 --height 1"
NINE_BY_FIVE = "serve --port PORT --width 9 --height 5"

VIEWS = [
    View("view_of_a_scene", "view --port PORT", scene(2, 1), TWO_BY_ONE),
    View("view_that_records", "view --port PORT --record", SERVER, TWO_BY_ONE),
    View("view_to_a_full_device", "view --port PORT", b"", TWO_BY_ONE, errors=DEVICE, status=1,
         device="/dev/full"),
    View("view_after_three_updates",
         "view --port PORT --updates 3 --format rgb565 --encodings hextile,copyrect",
         scene(70, 66, 2, "rgb565"), "serve --port PORT --width 70 --height 66", b"ok 3\n"),
    View("view_of_a_host",
         "view --port PORT --host 127.0.0.1 --updates=5 --format=bgr233 --encodings=copyrect,rre",
         scene(9, 5, 4, "bgr233"), NINE_BY_FIVE, b"ok 5\n"),
    View("view_of_a_named_server",
         "view 127.0.0.1::PORT --updates=5 --format=bgr233 --encodings=copyrect,rre",
         scene(9, 5, 4, "bgr233"), NINE_BY_FIVE, b"ok 5\n"),
    View("explained_view", "view --explain --port PORT", scene(2, 1), TWO_BY_ONE,
         errors=UPDATED),
    View("explained_view_of_three_updates", "view --explain --port PORT --updates 3",
         scene(2, 1, 2), TWO_BY_ONE, b"ok 3\n",
         UPDATED + b"rfb: updates so far: 2\nrfb: updates so far: 3\n"),
    View("film_of_three_updates", "view --port PORT --follow --updates 3",
         scene(2, 1) + scene(2, 1, 1) + scene(2, 1, 2), TWO_BY_ONE, b"ok 3\n"),
    View("explained_film_in_small_bytes",
         "view --follow --explain 127.0.0.1::PORT --updates=4 --format=bgr233 --encodings=copyrect,rre"
         " --fps 1000", b"".join(scene(9, 5, steps, "bgr233") for steps in range(4)), NINE_BY_FIVE,
         b"ok 4\n", b"rfb: connected to rfb, 9 by 5\nrfb: pictures written: 4\n"),
    View("film_to_a_full_device", "view --port PORT --follow", b"", TWO_BY_ONE, errors=DEVICE,
         status=1, device="/dev/full"),
]

NOBODY = b"rfb: no connection to 127.0.0.1, port 1: Connection refused (os error 111)\n"

# Port 1 is for a service that nobody runs. `.ci/memory.sh` takes these too.
CALLS = [
    Call("view_where_nothing_listens", ["view", "--port", "1"], b"", 1, b"", DEVICE),
    Call("view_where_nothing_listens_for_a_second", ["view", "--port", "1", "--timeout", "1"], b"",
         1, b"", DEVICE, "/dev/null"),
    Call("explained_view_where_nothing_listens", ["view", "--port", "1", "--explain"], b"", 1, b"",
         NOBODY + DEVICE),
    Call("relay_where_nothing_listens", ["relay", "127.0.0.1::1", "--port", "9"], b"", 1, b"",
         NOBODY + DEVICE),
    Call("quiet_relay_where_nothing_listens",
         ["relay", "--quiet", "--explain", "::1", "--port", "9", "--format", "rgb565"], b"", 1, b"",
         DEVICE),
    Call("drive_where_nothing_listens", ["drive", "127.0.0.1::1", "--timeout", "1"], b"", 1, b"",
         NOBODY + DEVICE),
]

# Nor does anybody run that of port 100. After one colon 99 is the last display.
NOBODY_AT_100 = NOBODY.replace(b" 1:", b" 100:")
PORTS = [
    Call("view_of_the_first_port_after_one_colon", ["view", "127.0.0.1:100", "--explain"], b"", 1,
         b"", NOBODY_AT_100 + DEVICE),
    Call("relay_of_the_first_port_after_one_colon", ["relay", ":100", "--port", "9"], b"", 1, b"",
         NOBODY_AT_100 + DEVICE),
]

# ---- servers that end, fail or are silent


def a_server_that_ends_is_explained():
    for words, sent, status, output, told in (
            ([], SERVER, 0, SHOWN, UPDATED),
            (["--record"], SERVER, 0, SERVER, UPDATED),
            ([], HELLO[:-7] + bytes(4), 1, b"",
             b"rfb: connected to a screen without a name, 2 by 1\n"
             b"rfb: the server's bytes end too early, after 42 of them\n"
             + closed_after(b"rgb888") + TRUNCATED),
            (["--format=rgb565", "--partial"], HELLO, 1, BLACK,
             CONNECTED + b"rfb: the server's bytes end too early, after 45 of them\n"
             + closed_after(b"rgb565") + TRUNCATED),
            ([], SERVER[:65], 1, b"",
             CONNECTED + b"rfb: the server's bytes end too early, after 65 of them\n" + UNWRITTEN
             + TRUNCATED),
            ([], b"220 hi\r\n", 1, b"", NO_VERSION % b"220 hi\\x0d\\x0a" + TRUNCATED),
            (["--record"], b"220 hi\r\n", 1, b"220 hi\r\n",
             NO_VERSION % b"220 hi\\x0d\\x0a" + TRUNCATED),
            ([], b"RFB 00", 1, b"",
             b"rfb: the server's bytes end too early, after 6 of them\n" + TRUNCATED),
            ([], b"RFB 003.008\n\0" + (3000).to_bytes(4, "big") + b"A" * 3000, 1, b"",
             b"rfb: the server refuses the connection, and says `" + b"A" * 1024 + b"`\n"
             b"fault 19 Refused\n")):
        server = Server(sent)
        server.shows(["--port", str(server.port), "--explain", *words], status, output,
                     told)


def an_answer_that_cannot_be_sent_is_explained():
    """The connection breaks before the viewer reads: a read has bytes, then a write fails."""
    for words, output in ([], b""), (["--record"], None):
        with viewing(*words) as (run, line):
            halts(run)
            line.sendall(HELLO)
            breaks(line)
            run.run.send_signal(signal.SIGCONT)
            run.ends(1, output, b"rfb: sending to the server failed:"
                     b" Connection reset by peer (os error 104)\n" + DEVICE)


def a_view_without_an_end_says_so_after_three_seconds():
    """Once, and where nothing came for so long."""
    for sent, pause, is_silent, words, told in (
            (SERVER, 3.5, False, ["--explain"], ENDLESS + UPDATED),
            (SERVER, 2, False, ["--explain"], UPDATED),
            (SERVER, 3.5, False, ["--explain", "--timeout=20"], UPDATED),
            (SERVER, 3.5, False, [], b"")):
        server = Server(sent, pause=pause, is_silent=is_silent)
        server.shows(["--port", str(server.port), *words], errors=told)
    with viewing() as (run, line):
        time.sleep(3.5)
        line.sendall(HELLO)
        time.sleep(3.5)
        line.sendall(SERVER[len(HELLO):])
        run.ends(0, SHOWN, ENDLESS + UPDATED)


def a_server_that_is_too_slow_is_explained():
    for sent, told in (
            (b"R", b"rfb: the time of --timeout is up: 1 byte had come\n"),
            (b"+OK\r\n", b"rfb: the time of --timeout is up: 5 bytes had come\n"
             + NO_VERSION % b"+OK\\x0d\\x0a")):
        with viewing("--timeout=1") as (run, line):
            line.sendall(sent)
            run.ends(1, b"", told + DEVICE)
    # A byte each 0.2 seconds: it does not say that no more came.
    with viewing("--timeout=1") as (run, line):
        sent = 0
        while run.run.poll() is None:
            with contextlib.suppress(OSError):
                line.sendall(HELLO[sent:sent + 1])
                sent += 1
            time.sleep(0.2)
        told = [b"rfb: the time of --timeout is up: %d byte%b had come\n"
                % (count, b"s" * (count != 1)) + DEVICE for count in range(sent + 1)]
        run.ends(1, b"")
        assert run.told(2) in told, run.told(2)


# What a server sends before it is silent, words, what is shown, and what is said before the time is
# up and after that.
SILENT = [
    (b"", [], b"", b""),
    (HELLO, [], b"", CONNECTED),
    (SERVER[:65], [], b"", CONNECTED, UNWRITTEN),
    (SERVER[:65], ["--partial"], BLACK, CONNECTED, WRITTEN),
    (SERVER, ["--updates=2"], b"", UPDATED, UNWRITTEN),
    (SERVER + MORE[:18], ["--updates=2", "--partial"], SHOWN, UPDATED, WRITTEN),
    (HELLO, ["--record"], HELLO, CONNECTED),
    (SERVER[:65], ["--record"], SERVER[:65], CONNECTED),
]


def a_view_of_a_silent_server_ends_when_its_time_is_up():
    def is_viewed(row):
        sent, words, shown, told, *more = row
        begun, server = time.time(), Server(sent, is_silent=True)
        up = b"rfb: the time of --timeout is up: %d bytes had come\n" % len(sent)
        server.shows(["--explain", "--timeout=1", f"--port={server.port}", *words], 1, shown,
                     told + up + b"".join(more) + DEVICE)
        lasts = time.time() - begun
        assert 1 <= lasts < 5, (row, lasts)

    with ThreadPoolExecutor(len(SILENT)) as views:
        list(views.map(is_viewed, SILENT))


# ---- films: a picture after each update

def a_film_ends_with_its_server_or_its_updates():
    three = SERVER + MORE + MORE
    for words, sent, status, pictures, told in (
            ([], SERVER, 0, SHOWN, b""),
            ([], SERVER + MORE, 0, SHOWN + SHOWN_LATER, b""),
            (["--updates=2"], three, 0, SHOWN + SHOWN_LATER, b""),
            (["--updates=3"], three, 0, SHOWN + 2 * SHOWN_LATER, b""),
            (["--updates=3"], SERVER + MORE, 1, SHOWN + SHOWN_LATER, TRUNCATED),
            ([], SERVER + MORE[:1], 1, SHOWN, TRUNCATED),
            ([], (SERVER + MORE)[:-1], 1, SHOWN, TRUNCATED),
            ([], SERVER[:-1], 1, b"", TRUNCATED),
            ([], HELLO, 1, b"", TRUNCATED),
            ([], b"", 1, b"", TRUNCATED),
            ([], SERVER + b"\xFF", 1, SHOWN, b"fault 7 UnknownMessage\n")):
        server = Server(sent)
        server.shows(["--port", str(server.port), "--follow", "--fps=1000", *words], status,
                     pictures, told)
    # A request after each update but the last.
    server = Server(three)
    came = server.shows([f"::{server.port}", "--follow", "--updates=3"], 0,
                        SHOWN + 2 * SHOWN_LATER)
    assert came[-30:] == CLIENT[14:] + 2 * (b"\3\1" + CLIENT[16:]), came
    for words in [], ["--updates=2"]:
        server = Server(SERVER, is_silent=True)
        server.shows(["--port", str(server.port), "--follow", "--timeout=1", *words], 1, SHOWN,
                     DEVICE)


def grows(run, pictures):
    """Waits until a film has these pictures, ten seconds at most, and tells how long that took."""
    begun, size = time.time(), len(pictures)
    while os.fstat(run.files[1].fileno()).st_size < size and time.time() < begun + 10:
        time.sleep(0.01)
    came = os.pread(run.files[1].fileno(), size + 1, 0)
    assert came == pictures, (came, pictures)
    return time.time() - begun


def changes_that_come_faster_than_a_film_are_one_picture():
    """The server draws five times: the first picture is black, and of two draws in a second the
    last one is seen. The last picture is after all draws."""
    port, (here, there) = free_port(), os.pipe()
    with os.fdopen(here), os.fdopen(there, "wb", 0) as owner:
        share = Run(["share", "--quiet", f"--port={port}"], source=here)
        owner.write(b"screen 2 1\n")
        waits_for(port)
        film, pictures = Run(["view", f"--port={port}", "--follow", "--fps=1"]), BLACK
        grows(film, pictures)
        for left, right, shown in (
                (b"FFFFFF", b"FF8001", ppm(2, 1, "F" * 12, ORANGE)),
                (b"FF8001", b"000000", FILLED)):
            for line in b"fill 0 0 1 1 %b\n" % left, b"fill 1 0 1 1 %b\n" % right:
                owner.write(line)
                time.sleep(0.2)
            pictures += shown
            lasts = grows(film, pictures)
            assert 0.2 < lasts < 2, lasts
        owner.write(b"quit\n")
        film.ends(0, pictures, b"")
        share.ends(0, None, b"")


def a_film_waits_between_its_pictures_and_not_after_the_last():
    for updates, words, least, most in (
            (2, ["--fps=2"], 0.5, 2),
            (11, ["--fps=20"], 0.5, 2),
            # Thirty a second.
            (16, [], 0.5, 2),
            (1, ["--fps=1"], 0, 0.9)):
        server, begun = Server(SERVER + 15 * MORE), time.time()
        server.shows([f"::{server.port}", "--follow", f"--updates={updates}", *words], 0,
                     SHOWN + (updates - 1) * SHOWN_LATER)
        lasts = time.time() - begun
        assert least <= lasts < most, (updates, words, lasts)


def a_film_of_which_nobody_reads_on_ends():
    """At the next picture, and it reads no more of the server."""
    here, there = os.pipe()
    with viewing("--follow", output=there) as (run, line):
        os.close(there)
        line.sendall(SERVER)
        came = b""
        while len(came) < len(SHOWN):
            came += os.read(here, 4096)
        assert came == SHOWN, came
        os.close(here)
        line.sendall(MORE)
        run.ends(1, b"", CONNECTED + b"rfb: cannot write standard output: Broken pipe"
                 b" (os error 32)\n" + DEVICE)


def a_film_in_a_file_is_there_once_it_is_whole():
    with tempfile.TemporaryDirectory() as room:
        path = os.path.join(room, "film.ppm")
        for sent, status, told, kept in (
                ((SERVER + MORE)[:-1], 1, TRUNCATED, None),
                (SERVER + MORE, 0, b"", SHOWN + SHOWN_LATER),
                (SERVER + MORE[:1], 1, TRUNCATED, SHOWN + SHOWN_LATER)):
            server = Server(sent)
            server.shows([f"::{server.port}", "--follow", "-o", path], status, b"", told)
            assert os.path.exists(path) == (kept is not None), sent
            if kept is not None:
                with open(path, "rb") as film:
                    assert film.read() == kept, sent
            assert os.listdir(room) in ([], ["film.ppm"]), os.listdir(room)


ROWS = [
    *VIEWS,
    *CALLS,
    *PORTS,
    a_server_is_named_by_a_word_or_by_its_host_and_its_port,
    a_view_asks_for_what_its_words_say,
    a_recording_is_played_as_it_was_viewed,
    an_address_of_ipv6_is_a_host,
    a_view_that_is_cut_short_shows_nothing,
    a_server_that_ends_is_explained,
    an_answer_that_cannot_be_sent_is_explained,
    a_view_without_an_end_says_so_after_three_seconds,
    a_server_that_is_too_slow_is_explained,
    a_refused_connection_is_tried_again,
    a_refused_connection_rests_before_it_is_tried_again,
    each_address_of_a_host_is_tried,
    a_view_of_a_silent_server_ends_when_its_time_is_up,
    a_film_ends_with_its_server_or_its_updates,
    changes_that_come_faster_than_a_film_are_one_picture,
    a_film_waits_between_its_pictures_and_not_after_the_last,
    a_film_of_which_nobody_reads_on_ends,
    a_film_in_a_file_is_there_once_it_is_whole,
]


if __name__ == "__main__":
    sys.exit(judged(ROWS, sys.argv[1:]))
