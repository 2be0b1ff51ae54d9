#!/usr/bin/env python3
"""The seats of a share: who gets one, for how long, what is told of it, and who waits for whom.

    .ci/seats.py crates/rfb/out/rfb [ROW..]

Each row starts a share and clients, and looks at what they see and at what the share tells. MANY=N
is how many connections come one after another. The last line is 'N passed, M failed'.
"""

import fcntl
import os
import socket
import tempfile
import threading
import time

from messages import VERSION, cut_text, key, pixel_format, pointer, request, set_encodings
from peers import connected
from sharing import Share, Viewer, run_rows, viewers, wait_for

MANY = int(os.environ.get("MANY", "2000"))


def address_of(stream):
    return b"127.0.0.1:%d" % stream.getsockname()[1]


def lines_of(share, word):
    return [line for line in share.output.split(b"\n") if line.startswith(word + b" ")]


# ---- who gets a seat

def a_seat_is_told_of_from_its_first_byte_to_its_last():
    share = Share()
    share.say("screen 2 1\n")
    silent = connected(share.port)
    share.tells(b"come 0 " + address_of(silent))
    viewer = Viewer(share)
    share.tells(b"come 1 " + address_of(viewer.stream))
    assert b"join" not in share.output, share.output
    viewer.hello()
    share.tells(b"join 1")
    viewer.send(key(65))
    share.tells(b"key 1 down 65")
    # What it has not read would make a reset of its end.
    silent.recv(64)
    silent.close()
    share.tells(b"leave 0 ok")
    viewer.close()
    share.tells(b"leave 1 ok")
    lines = share.output.split(b"\n")
    assert [lines.index(b"come 1 " + line) for line in [lines[1].split()[2]]] == [1], lines
    assert lines.index(b"join 1") < lines.index(b"key 1 down 65") < lines.index(b"leave 1 ok")
    assert b"join 0" not in lines, lines
    share.quits()


def one_more_than_there_are_seats_is_told_of_as_busy():
    for seats in 1, 3, 8:
        share = Share("--viewers", str(seats))
        share.say("screen 2 1\n")
        seated = viewers(share, seats)
        more = connected(share.port)
        share.tells(b"busy " + address_of(more))
        assert more.recv(1) == b""
        assert len(lines_of(share, b"come")) == seats, share.output
        seated[-1].close()
        share.tells(b"leave %d ok" % (seats - 1))
        Viewer(share).hello()
        share.tells(b"join %d" % (seats - 1), 2)
        share.quits()


def served_within(share, limit):
    """A viewer that comes again until it is served, at most so many seconds."""
    start = time.time()
    while time.time() < start + limit:
        try:
            return Viewer(share).hello(), time.time() - start
        except (EOFError, ConnectionResetError, BrokenPipeError):
            time.sleep(0.02)
    raise AssertionError(f"not served within {limit} s: {share.output[-300:]}")


def eight_that_say_nothing_keep_no_ninth_out():
    share = Share("--handshake", "2")
    share.say("screen 2 1\n")
    silent = [connected(share.port) for _ in range(8)]
    wait_for(lambda: len(lines_of(share, b"come")) == 8, share.output)
    ninth, taken = served_within(share, 2.5)
    ninth.ask(0)
    ninth.update()
    for stream in silent:
        stream.settimeout(10)
        assert stream.recv(13) in (VERSION, b"")
    # Nor do eight that send half of a handshake.
    for stream in silent:
        stream.close()
    ninth.close()
    wait_for(lambda: len(lines_of(share, b"leave")) == len(lines_of(share, b"come")), share.output)
    for _ in range(8):
        connected(share.port).sendall(VERSION + b"\1")
    served_within(share, 2.5)
    share.quits()
    return f"served after {taken:.2f} s"


def a_handshake_has_its_time_and_no_more():
    share = Share("--handshake", "1")
    share.say("screen 2 1\n")
    viewer = Viewer(share).hello()
    slow = connected(share.port)
    slow.settimeout(10)
    start = time.time()
    try:
        while slow.recv(64):
            pass
    except ConnectionResetError:
        pass
    taken = time.time() - start
    assert 0.9 < taken < 2, taken
    wait_for(lambda: lines_of(share, b"leave"), share.output)
    share.says(b"the viewer at seat 1 leaves: its handshake was not done within 1 s")
    # Who has done it may be silent for as long as it likes.
    time.sleep(1.2)
    viewer.ask(0)
    viewer.update()
    share.quits()
    return f"let go after {taken:.2f} s"


def a_viewer_that_takes_nothing_of_what_waits_is_let_go(width=2048, height=1536):
    """Who waits for what changes is not, nor one that sends meanwhile."""
    share = Share("--timeout", "1")
    share.say(f"screen {width} {height}\n")
    silent, stuck, busy = viewers(share, 3)
    silent.ask(0)
    silent.update()
    silent.ask()
    for viewer in stuck, busy:
        viewer.ask(0)
    start = time.time()
    while not lines_of(share, b"leave"):
        busy.send(key(65))
        time.sleep(0.1)
        assert time.time() < start + 10, share.output
    taken = time.time() - start
    assert 0.9 < taken < 3, taken
    share.says(b"the viewer at seat 1 leaves: bytes waited for it for 1 s, and it took none")
    while time.time() < start + 3:
        busy.send(key(65))
        time.sleep(0.1)
    assert lines_of(share, b"leave") == [b"leave 1 ok"], share.output
    busy.update()
    share.say(f"fill 0 0 1 1 010203\n")
    silent.sees(0, 0, (1, 2, 3))
    share.quits()
    return f"let go after {taken:.2f} s"


def who_wants_the_screen_alone_has_it_unless_all_share():
    share = Share()
    share.say("screen 2 1\n")
    three = viewers(share, 3)
    alone = Viewer(share).hello(0)
    assert all(viewer.has_ended() for viewer in three)
    for seat in range(3):
        share.tells(b"leave %d ok" % seat)
    alone.ask(0)
    alone.update()
    share.quits()
    share = Share("--always-shared")
    share.say("screen 2 1\n")
    three = viewers(share, 3)
    three.append(Viewer(share).hello(0))
    share.say("fill 0 0 2 1 010203\n")
    for viewer in three:
        viewer.sees(1, 0, (1, 2, 3))
    assert not lines_of(share, b"leave"), share.output
    share.quits()


def of_a_view_alone_nothing_is_told_but_who_comes_and_goes():
    share = Share("--view-only")
    share.say("screen 2 1\n")
    viewer = Viewer(share).hello()
    viewer.send(key(65) + pointer(1, 1, 0) + cut_text(b"hi"))
    share.say("fill 0 0 2 1 010203\n")
    viewer.sees(1, 0, (1, 2, 3))
    viewer.close()
    share.tells(b"leave 0 ok")
    told = [line.split()[0] for line in share.output.split(b"\n") if line]
    assert told == [b"come", b"join", b"leave"], share.output
    share.quits()


def the_owner_lets_a_viewer_go():
    share = Share()
    share.say("screen 2 1\n")
    three = viewers(share, 3)
    share.say("end 1\nend 5\nend 1\n")
    assert three[1].has_ended()
    share.tells(b"leave 1 ok")
    share.says(b"the viewer at seat 1 leaves: a line says `end 1`")
    for viewer in three[0], three[2]:
        viewer.ask(0)
        viewer.update()
    assert lines_of(share, b"leave") == [b"leave 1 ok"], share.output
    assert b"bad line" not in share.errors, share.errors
    share.quits()


def of_each_that_leaves_one_sentence_says_why(width=2048, height=1536):
    """Of one that has failed too, which takes nothing of what waits for it: time lets it go then, or
    a newcomer."""
    share = Share("--handshake", "1", "--viewers", "3")
    share.say(f"screen {width} {height}\n")
    unknown = "the viewer sent a message of type 99, which no client has in RFC 6143"
    told = []

    def leaves(seat, line, why):
        told.append(b"leave %d %b" % (seat, line))
        share.tells(told[-1], told.count(told[-1]))
        sentences.append(f"rfb: the viewer at seat {seat} leaves: {why}".encode())

    def fails(viewer):
        viewer.ask(0)
        viewer.get(100)
        viewer.send(b"\x63")
        leaves(0, b"fault 7 UnknownMessage", unknown)

    sentences = [b"rfb: listening on 127.0.0.1:%d" % share.port]
    failing, closing, breaking = viewers(share, 3)
    fails(failing)
    closing.close()
    leaves(1, b"ok", "it closed its connection")
    breaking.close(reset=True)
    leaves(2, b"fault 29 Device", "its connection broke")
    silent = Viewer(share)
    leaves(1, b"ok", "its handshake was not done within 1 s")
    failing, closing, other = viewers(share, 3)
    fails(failing)
    newcomer = Viewer(share).hello()
    share.tells(b"join 0", 3)
    closing.close()
    leaves(1, b"ok", "it closed its connection")
    silent = Viewer(share)
    alone = Viewer(share).hello(0)
    leaves(1, b"ok", "its handshake was not done, and another one came")
    for seat in 0, 2:
        leaves(seat, b"ok", "the one at seat 1 asked for the screen alone")
    share.say("end 1\n")
    leaves(1, b"ok", "a line says `end 1`")
    share.quits()
    assert share.errors.split(b"\n") == [*sentences, b""], share.errors


# ---- who waits for whom

def a_flood_of_keys_that_nobody_hears_holds_no_viewer_up(seconds=5):
    """Standard output is not read; seven viewers follow a screen that moves, and then each key is
    told, in order."""
    share = Share(hears=["errors"])
    share.say("screen 64 48\n")
    eight = viewers(share, 8)
    flooding, seven = eight[0], eight[1:]
    sent = []
    done = threading.Event()

    def flood():
        flooding.stream.settimeout(0.2)
        number = 0
        rest = b""
        while not done.is_set() or rest:
            if not rest:
                rest = b"".join(key(k) for k in range(number, number + 500))
                number += 500
            try:
                rest = rest[flooding.stream.send(rest):]
            except (TimeoutError, socket.timeout):
                pass
        sent.append(number)

    thread = threading.Thread(target=flood)
    thread.start()
    for viewer in seven:
        viewer.ask(0)
        viewer.update()
    start = time.time()
    frames, longest = 0, 0
    while time.time() < start + seconds:
        colour = (frames & 255, frames >> 8, 7)
        begun = time.time()
        share.say("scroll 0 0 64 48 0 -1\nfill 0 47 64 1 %02x%02x%02x\n" % colour)
        for viewer in seven:
            viewer.sees(63, 47, colour)
        longest = max(longest, time.time() - begun)
        frames += 1
    assert longest < 2, longest
    share.hear("output")
    done.set()
    thread.join()
    share.tells(b"key 0 down %d" % (sent[0] - 1))
    assert lines_of(share, b"key") == [b"key 0 down %d" % k for k in range(sent[0])], sent
    share.quits()
    return f"{frames} frames, the longest {longest:.3f} s, beside {sent[0]} keys"


# What one does that does wrong, and what is told of it.
WRONG = [
    (b"GET / HTTP/1", b"fault 15 BadVersion"),
    (VERSION + b"\2", b"fault 17 BadSecurityChoice"),
    (VERSION + b"\1\1\x63", b"fault 7 UnknownMessage"),
    (VERSION + b"\1\1" + bytes(4) + pixel_format(bits=24), b"fault 1 BadBits"),
    (VERSION + b"\1\1" + bytes(4) + pixel_format(true=0), b"fault 3 NotTrueColour"),
    (None, b"fault 29 Device"),
]


def what_one_does_wrong_is_nothing_to_three_others():
    share = Share()
    share.say("screen 40 30\n")
    three = viewers(share, 3)
    for viewer in three:
        viewer.ask(0)
        viewer.update()
    for number, (sends, told) in enumerate(WRONG):
        joined = len(lines_of(share, b"join"))
        wrong = Viewer(share)
        wrong.get(12)
        if sends is None:
            # A reset in the middle of a message.
            wrong.send(VERSION + b"\1\1" + request(0, 0, 0, 40, 30)[:5])
            wait_for(lambda: len(lines_of(share, b"join")) > joined, share.output)
            wrong.close(reset=True)
        else:
            wrong.send(sends)
        share.tells(b"leave 3 " + told)
        colour = (number, 255 - number, 9)
        share.say("scroll 0 0 40 30 1 1\nfill 0 0 40 1 %02x%02x%02x\n" % colour)
        for viewer in three:
            viewer.sees(39, 0, colour)
    assert all(viewer.shown == three[0].shown for viewer in three)
    assert len(lines_of(share, b"leave")) == len(WRONG), share.output
    share.quits()


def a_stuck_viewer_has_each_byte_in_the_end(width=2048, height=1536):
    """Its update is far more than the system holds, so most writes of it go in parts."""
    share = Share()
    share.say(f"screen {width} {height}\n")
    stuck, other = viewers(share, 2)
    places = os.urandom(3 * width * height)
    share.say(f"pixels 0 0 {width} {height}\n".encode() + places + b"\n")
    last = tuple(places[-3:])
    other.sees(width - 1, height - 1, last)
    stuck.ask(0)
    time.sleep(1)
    share.say(f"fill 0 0 {width} 1 010203\n")
    other.sees(0, 0, (1, 2, 3))
    stuck.update()
    for of_pixel, of_place in (2, 0), (1, 1), (0, 2):
        assert stuck.shown[of_pixel::4][width:] == places[of_place::3][width:]
    stuck.sees(0, 0, (1, 2, 3))
    assert stuck.shown == other.shown
    share.quits()


def many_connections_come_one_after_another():
    """Each third is a viewer, each third says nothing, and each third ends by a reset. Nobody reads
    the sentences that say so, and the owner is heard all the same."""
    share = Share(hears=["output"])
    fcntl.fcntl(share.run.stderr, fcntl.F_SETPIPE_SZ, 4096)
    share.say("screen 64 64\n")
    other = Viewer(share).hello()
    usual = share.descriptors()
    figures = []
    for number in range(MANY):
        viewer = Viewer(share)
        if number % 3 == 0:
            viewer.hello()
            viewer.ask(0)
            viewer.update()
        viewer.close(reset=number % 3 == 1)
        if number % 50 == 49:
            wait_for(lambda: len(lines_of(share, b"leave")) == number + 1, number)
        if number in (MANY // 2, MANY - 1):
            wait_for(lambda: len(lines_of(share, b"leave")) == number + 1, number)
            figures.append(share.settled(usual))
    assert figures[1][0] - figures[0][0] <= 64, figures
    assert len(lines_of(share, b"come")) == MANY + 1, len(lines_of(share, b"come"))
    share.say("fill 0 0 64 64 010203\n")
    other.sees(63, 63, (1, 2, 3))
    share.hear("errors")
    share.quits()
    return f"{MANY} connections; KiB and descriptors at half and at the end: {figures}"


# ---- scenes, and the owner's lines

def no_viewer_sees_a_part_of_a_scene(scenes=20, lines=200):
    """Each line of a scene gives a column its colour: an update has that of one scene alone."""
    share = Share("--hold", "20")
    share.say(f"screen {lines} 2\n")
    four = viewers(share, 4)
    wrong, done = [], threading.Event()

    def follow(viewer):
        viewer.ask(0)
        while not done.is_set():
            viewer.update()
            colours = {viewer.at(x, y) for x in range(lines) for y in (0, 1)}
            if len(colours) != 1:
                wrong.append(colours)
            viewer.ask()

    threads = [threading.Thread(target=follow, args=(viewer,), daemon=True) for viewer in four]
    for thread in threads:
        thread.start()
    for scene in range(scenes):
        share.say("hold\n")
        for line in range(lines):
            share.say("fill %d 0 1 2 %02x%02x00\n" % (line, scene + 1, 255 - scene))
            if line % 20 == 0:
                time.sleep(0.002)
        share.say("show\n")
    last = (scenes, 256 - scenes, 0)
    wait_for(lambda: all(viewer.at(0, 0) == last for viewer in four), last)
    done.set()
    share.say("fill 0 0 %d 2 ffffff\n" % lines)
    for thread in threads:
        thread.join(10)
    assert not wrong, wrong[0]
    assert b"bad line" not in share.errors, share.errors
    share.quits()


def in_step_or_not_each_viewer_has_each_scene(width=150, height=90, scenes=60):
    """Five viewers ask for the same at the same time; one has another format, one lists no CopyRect,
    and one asks for every fourth scene alone."""
    share = Share("--hold", "20")
    share.say(f"screen {width} {height}\n")
    eight = viewers(share, 8)
    eight[1].send(bytes(4) + pixel_format(shifts=(0, 8, 16)))
    for viewer in eight:
        viewer.send(set_encodings(0) if viewer is eight[2] else set_encodings(1, 0))
    screen = bytearray(width * height * 4)
    for viewer in eight:
        viewer.ask(0)
        viewer.update()
    copied = 0
    for scene in range(scenes):
        asking = eight[:3] + eight[4:]
        for viewer in asking:
            viewer.ask()
        # Rows move up, and the last ones and a place in the middle get a colour.
        by, red, green, blue = scene % 7 + 1, os.urandom(1)[0], scene, 255 - scene
        share.say("hold\nscroll 0 0 %d %d 0 -%d\n" % (width, height, by))
        share.say("fill 0 %d %d %d %02x%02x%02x\n" % (height - by, width, by, red, green, blue))
        share.say("fill %d 40 1 1 %02x%02x%02x\nshow\n" % (scene, blue, red, green))
        screen[:] = screen[by * width * 4:] + bytes([blue, green, red, 0]) * (by * width)
        start = (40 * width + scene) * 4
        screen[start:start + 4] = bytes([green, red, blue, 0])
        for viewer in asking + [eight[3]][:scene % 4 == 3]:
            if viewer is eight[3]:
                viewer.ask()
            copied += viewer.update().count(1)
            shown = viewer.shown
            if viewer is eight[1]:
                shown = bytearray(len(screen))
                for to, of in enumerate([2, 1, 0, 3]):
                    shown[to::4] = viewer.shown[of::4]
            assert shown == screen, (scene, eight.index(viewer))
    share.quits()
    return f"{scenes} scenes, {copied} copies"


def a_scene_that_is_not_shown_is_shown_by_time():
    for words, least, most in ((), 0.8, 2), (("--hold", "2"), 1.8, 3):
        share = Share(*words)
        share.say("screen 2 1\n")
        viewer = Viewer(share).hello()
        viewer.ask(0)
        viewer.update()
        viewer.ask()
        start = time.time()
        share.say("hold\nfill 0 0 2 1 010203\n")
        viewer.sees(1, 0, (1, 2, 3))
        taken = time.time() - start
        assert least < taken < most, taken
        # From then on each line is shown as it comes.
        start = time.time()
        share.say("fill 0 0 1 1 040506\n")
        viewer.sees(0, 0, (4, 5, 6))
        assert time.time() - start < 0.5
        share.quits()


def an_owners_file_is_longer_than_what_is_read_at_once():
    """Lines and pixels over many times 64 KiB, of which some lie across its ends."""
    width, height = 211, 97
    lines = [b"screen %d %d\n" % (width, height)]
    screen = bytearray(width * height * 3)
    for row in range(height):
        data = os.urandom(3 * width)
        lines.append(b"pixels 0 %d %d 1\n" % (row, width) + data + b"\n")
        screen[row * width * 3:(row + 1) * width * 3] = data
    for number in range(5000):
        x, y, colour = number * 7 % width, number * 13 % height, os.urandom(3)
        lines.append(b"fill %d %d 1 1 %b\n" % (x, y, colour.hex().encode()))
        screen[(y * width + x) * 3:(y * width + x + 1) * 3] = colour
    text = b"".join(lines)
    assert len(text) > 2 << 16, len(text)
    with tempfile.TemporaryFile() as owner:
        owner.write(text)
        owner.seek(0)
        share = Share("--until-idle", owner=owner)
    viewer = Viewer(share).hello()
    last = tuple(screen[-3:])
    viewer.sees(width - 1, height - 1, last)
    for _ in range(100):
        if all(viewer.shown[to::4] == screen[of::3] for to, of in ((2, 0), (1, 1), (0, 2))):
            break
        viewer.ask(0)
        viewer.update()
    else:
        raise AssertionError("another picture")
    before = share.ticks()
    time.sleep(0.5)
    assert share.ticks() - before <= 1
    viewer.close()
    share.ends()
    return f"{len(text)} bytes"


ROWS = [a_seat_is_told_of_from_its_first_byte_to_its_last,
        one_more_than_there_are_seats_is_told_of_as_busy, eight_that_say_nothing_keep_no_ninth_out,
        a_handshake_has_its_time_and_no_more, a_viewer_that_takes_nothing_of_what_waits_is_let_go,
        who_wants_the_screen_alone_has_it_unless_all_share,
        of_a_view_alone_nothing_is_told_but_who_comes_and_goes, the_owner_lets_a_viewer_go,
        of_each_that_leaves_one_sentence_says_why,
        a_flood_of_keys_that_nobody_hears_holds_no_viewer_up,
        what_one_does_wrong_is_nothing_to_three_others, a_stuck_viewer_has_each_byte_in_the_end,
        many_connections_come_one_after_another, no_viewer_sees_a_part_of_a_scene,
        in_step_or_not_each_viewer_has_each_scene,
        a_scene_that_is_not_shown_is_shown_by_time,
        an_owners_file_is_longer_than_what_is_read_at_once]


if __name__ == "__main__":
    run_rows(ROWS)
