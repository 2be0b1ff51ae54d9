#!/usr/bin/env python3
"""Viewers that are served: where it is listened, what they are shown, and when they are disconnected.

    .ci/served.py PROGRAM..

Each row runs `serve` beside viewers of this file's, on 127.0.0.1 or another address that a
machine has for itself, and compares its status and both outputs. The last line is 'N passed, M
failed'.
"""

import os
import resource
import signal
import socket
import struct
import sys
import tempfile
import time

from calls import DEVICE, Run, ends, judged, limited
from messages import CLIENT, HELLO, SERVER, request
from peers import OTHER, View, connected, free_port, halts, takes, visits
from pictures import FILLED, NO_COLOUR, ORANGE, SHOWN, doubled, ppm

# ---- viewers that are served

def size_shown(port, host="127.0.0.1"):
    """The size of the screen that a viewer is shown there."""
    with connected(port, host) as line:
        line.sendall(CLIENT[:14])
        # All of the handshake, so that it does not end by a reset.
        came = takes(line, len(HELLO))
    return struct.unpack(">HH", came[18:22])


def a_screen_has_the_sides_that_are_given():
    for more, size, goes_on in (
            ([], (64, 64), False),
            (["--width", "1"], (1, 64), False),
            (["--width=4096", "--height=1"], (4096, 1), False),
            (["--height", "4096"], (64, 4096), False),
            (["--connections=65535"], (64, 64), True),
            (["--forever"], (64, 64), True)):
        port = free_port()
        run = Run(["serve", f"--port={port}", *more])
        assert size_shown(port) == size, more
        if goes_on:
            assert size_shown(port) == size, more
        else:
            run.ends(0, b"ok 0\n", b"")
    run = Run(["serve", "--port", "65535", "--timeout=7", "--listen=" + OTHER])
    assert size_shown(65535, OTHER) == (64, 64)
    run.ends(0, b"ok 0\n", b"")


def is_listened_on(host, port):
    with socket.socket() as probe:
        return probe.connect_ex((host, port)) == 0


def what_is_listened_on_is_what_is_named():
    hosts = "127.0.0.1", OTHER
    for words, where in (
            ([], [True, False]),
            (["--listen", OTHER], [False, True]),
            (["--listen=0.0.0.0"], [True, True])):
        port = free_port()
        Run(["serve", "--port", str(port), "--forever", *words])
        connected(port, hosts[where.index(True)]).close()
        assert [is_listened_on(host, port) for host in hosts] == where, words


def each_line_of_serve_is_of_a_connection_of_its_own():
    port = free_port()
    run = Run(["serve", "--explain", "--port", str(port), "--width", "2", "--height", "1",
               "--connections", "3"])
    told = b""
    for turn in 1, 2, 3:
        with connected(port) as line:
            line.sendall(CLIENT)
            line.shutdown(socket.SHUT_WR)
            assert b"".join(iter(lambda: line.recv(65536), b"")) == SERVER
            own = b"rfb: 127.0.0.1:%d has " % line.getsockname()[1]
        told += own + b"connected\n" + own + b"left; updates sent: 1, in all so far: %d\n" % turn
    run.ends(0, b"ok 1\n" * 3)
    assert run.told(2).split(b"\n", 1)[1] == told, run.told(2)
    # With no descriptor to be had no connection is accepted, and each is told a tenth of a second
    # later.
    begun = time.time()
    run = Run(["serve", "--explain", "--port", str(free_port()), "--connections", "3"],
              before=limited(resource.RLIMIT_NOFILE, 4))
    run.ends(0, DEVICE * 3)
    assert time.time() - begun >= 0.3, time.time() - begun
    refused = b"rfb: a connection could not be accepted: Too many open files (os error 24)\n"
    assert run.told(2).split(b"\n", 1)[1] == refused * 3, run.told(2)


def a_viewer_that_sends_nothing_in_time_is_let_go():
    port = free_port()
    run = Run(["serve", "--port", str(port), "--timeout", "1"])
    with connected(port):
        run.ends(0, DEVICE, b"")


def a_viewer_that_takes_nothing_in_time_is_let_go():
    """The next one has its turn then, though the first still has bytes to read."""
    port = free_port()
    run = Run(["serve", "--port", str(port), "--timeout", "1", "--width=4096", "--height=4096",
               "--connections=2"])
    with connected(port) as line:
        line.sendall(CLIENT[:14] + request(0, 0, 0, 4096, 4096))
        assert size_shown(port) == (4096, 4096)
        run.ends(0, DEVICE + b"ok 0\n", b"")


def a_process_that_was_stopped_goes_on():
    def stops(run):
        time.sleep(0.3)
        halts(run)
        run.run.send_signal(signal.SIGCONT)
        time.sleep(0.3)

    port = free_port()
    run = Run(["serve", "--port", str(port), "--timeout", "20", "--width", "2", "--height", "1"])
    with connected(port) as line:
        line.sendall(CLIENT[:14])
        stops(run)
        line.sendall(CLIENT[14:])
        line.shutdown(socket.SHUT_WR)
        assert b"".join(iter(lambda: line.recv(65536), b"")) == SERVER
    run.ends(0, b"ok 1\n", b"")
    with socket.create_server(("127.0.0.1", 0)) as server:
        run = Run(["view", "--port", str(server.getsockname()[1]), "--timeout", "20"])
        with server.accept()[0] as line:
            line.sendall(HELLO)
            stops(run)
            line.sendall(SERVER[len(HELLO):])
            run.ends(0, SHOWN, b"")


def a_port_in_use_is_reported_with_the_systems_words():
    with socket.socket() as taken:
        taken.bind(("127.0.0.1", 0))
        taken.listen()
        port = taken.getsockname()[1]
        ends(["serve", "--explain", "--port", str(port)], b"", 1, b"",
             b"rfb: cannot listen on 127.0.0.1:%d: Address already in use (os error 98)\n" % port
             + DEVICE)


def a_client_is_let_go_once_it_sends_nothing_in_the_time():
    """One is silent inside a message. The next sends a part in time, twice, and stays."""
    broken = "the connection to the viewer broke, or nothing came in the time of --timeout"

    def goes_on(line):
        for part in CLIENT[12:13], CLIENT[13:]:
            time.sleep(0.6)
            line.sendall(part)
        line.shutdown(socket.SHUT_WR)

    port = free_port()
    run = Run(["serve", "--explain", "--timeout=1", f"--port={port}", "--connections=2"])
    silent, lasts = visits(port, CLIENT[:-1])
    assert 1 <= lasts < 5, lasts
    stays, lasts = visits(port, CLIENT[:12], goes_on)
    assert 1.2 <= lasts < 5, lasts
    run.ends(0, DEVICE + b"ok 1\n", (
        f"rfb: listening on 127.0.0.1:{port}\n{silent} has connected\nrfb: {broken}\n"
        f"{silent} was disconnected\n{stays} has connected\n"
        f"{stays} has left; updates sent: 1, in all so far: 1\n").encode())


def what_cannot_be_listened_on_is_said():
    port = free_port()
    try:
        socket.getaddrinfo(b"a..b", port)
    except socket.gaierror as error:
        unknown = f"failed to lookup address information: {error.strerror}"
    for command in "serve", "share":
        for address, why in (
                # It is for documents, RFC 5737, and no machine has it.
                ("192.0.2.1", "Cannot assign requested address (os error 99)"), ("a..b", unknown)):
            ends([command, "--explain", f"--port={port}", "--listen", address], b"", 1, b"",
                 f"rfb: cannot listen on {address}:{port}: {why}\n".encode() + DEVICE)
    ends(["share", f"--port={port}"], b"screen 2 1\nquit\n", 0, b"",
         f"rfb: listening on 127.0.0.1:{port}\n".encode())


def a_picture_is_read_once_for_all_viewers():
    ends(["serve", "--explain", "--port=9", "--picture=/"], b"", 1, b"",
         b"rfb: cannot read /: Is a directory (os error 21)\n" + DEVICE)
    with tempfile.TemporaryDirectory() as room:
        fifo, port = os.path.join(room, "fifo"), free_port()
        os.mkfifo(fifo)
        run = Run(["serve", f"--port={port}", "--connections=2", "--picture", fifo])
        with open(fifo, "wb") as picture:
            picture.write(b"P6 2 1 255 \0\0\0\4\0\2")
        for _ in range(2):
            with connected(port) as line:
                line.sendall(CLIENT)
                line.shutdown(socket.SHUT_WR)
                came = b"".join(iter(lambda: line.recv(4096), b""))
            assert came == SERVER, came
        run.ends(0, b"ok 1\nok 1\n", b"")


# ---- pictures that are served

SHOWS = "serve --port PORT --picture PICTURE"

# Two places, orange and black: with a byte or two a component, and with all that a head may have.
PICTURES = [
    View("view_of_a_picture_of_bytes", "view --port PORT", FILLED, SHOWS,
         picture=b"P6 # by hand\n2 # columns\n1\n255\n\xFF\x80\x01\0\0\0"),
    View("view_of_a_picture_of_words", "view --port PORT --encodings hextile",
         ppm(1, 2, ORANGE, NO_COLOUR), SHOWS, picture=ppm(1, 2, ORANGE, NO_COLOUR)),
    View("view_of_a_picture_with_comments", "view --port PORT", FILLED, SHOWS, picture=
         b"P6#made by hand\r2\t # two columns\n\n#one row\n001\r255 \xFF\x80\x01\0\0\0"),
]

# The sides of a usual screen.
WIDE, HIGH = 1920, 1080


def is_viewed(port, places):
    """A view of a screen of usual size shows these places, three bytes each."""
    ends(["view", f"::{port}", "--timeout=20"], b"", 0, ppm(WIDE, HIGH) + doubled(places))


def a_picture_of_a_usual_size_is_shown():
    data = os.urandom(3 * WIDE * HIGH)
    with tempfile.TemporaryDirectory() as room:
        path = os.path.join(room, "picture")
        for largest, samples in (255, data), (65535, doubled(data)):
            with open(path, "wb") as picture:
                picture.write(b"P6\n%d %d\n%d\n" % (WIDE, HIGH, largest) + samples)
            port = free_port()
            run = Run(["serve", f"--port={port}", "--picture", path])
            is_viewed(port, data)
            run.ends(0, b"ok 1\n", b"")


def a_scene_of_a_usual_size_is_shown():
    """At (x, y) red is 4x, green 4y and blue 2(x+y), each modulo 256."""
    red, blue = (bytes(by * x & 255 for x in range(WIDE + HIGH)) for by in (4, 2))
    places = bytearray(3 * WIDE * HIGH)
    for y in range(HIGH):
        row = bytearray(3 * WIDE)
        row[0::3], row[1::3], row[2::3] = red[:WIDE], red[y:y + 1] * WIDE, blue[y:y + WIDE]
        places[3 * WIDE * y:3 * WIDE * (y + 1)] = row
    port = free_port()
    run = Run(["serve", f"--port={port}", f"--width={WIDE}", f"--height={HIGH}"])
    is_viewed(port, places)
    run.ends(0, b"ok 1\n", b"")


ROWS = [
    a_screen_has_the_sides_that_are_given,
    what_is_listened_on_is_what_is_named,
    each_line_of_serve_is_of_a_connection_of_its_own,
    a_viewer_that_sends_nothing_in_time_is_let_go,
    a_viewer_that_takes_nothing_in_time_is_let_go,
    a_process_that_was_stopped_goes_on,
    a_port_in_use_is_reported_with_the_systems_words,
    a_client_is_let_go_once_it_sends_nothing_in_the_time,
    what_cannot_be_listened_on_is_said,
    *PICTURES,
    a_picture_is_read_once_for_all_viewers,
    a_picture_of_a_usual_size_is_shown,
    a_scene_of_a_usual_size_is_shown,
]


if __name__ == "__main__":
    sys.exit(judged(ROWS, sys.argv[1:]))
