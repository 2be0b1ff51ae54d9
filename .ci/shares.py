#!/usr/bin/env python3
"""Viewers of a share: `rfb share` beside clients of its own, written from RFC 6143.

    .ci/shares.py crates/rfb/out/rfb [ROW..]

Each row starts a share and clients, and looks at what they see and at what the share tells. Without
names all rows are run but the last two, which are for measuring by hand: `idle`, eight viewers of
1,920 by 1,080 with nothing changing, and `video`, frames as pixels to four viewers. MANY=N is how
many viewers come one after another. The last line is 'N passed, M failed'.
"""

import os
import socket
import tempfile
import threading
import time

from messages import cut_text, key, pixel_format, pointer, request, set_encodings
from peers import connected
from sharing import Share, Viewer, run_rows, viewers, wait_for

MANY = int(os.environ.get("MANY", "400"))


# ---- rows

def each_line_draws_and_each_event_is_reported():
    share = Share("--name", "wall", "--quiet")
    share.say("screen 4 3\n\nfill 0 0 4 3 102030\nfill 1 1 2 1 ff0000\n")
    viewer = Viewer(share).hello()
    assert viewer.name == b"wall" and (viewer.width, viewer.height) == (4, 3)
    viewer.ask(0)
    viewer.update()
    assert viewer.at(0, 0) == (16, 32, 48) and viewer.at(1, 1) == (255, 0, 0)
    share.say("scroll 0 0 4 3 1 -1\n")
    viewer.sees(3, 0, (255, 0, 0))
    assert viewer.at(2, 0) == (255, 0, 0) and viewer.at(1, 1) == (16, 32, 48)
    share.say("pixels 1 1 2 2\nabcdefghijkl\n")
    viewer.sees(2, 2, tuple(b"jkl"))
    assert viewer.at(1, 1) == tuple(b"abc")
    # Pixels that are newlines, cut at each byte.
    for byte in b"pixels 0 0 1 2\n\n\n\n\n\n\n\nfill 3 2 1 1 00ff00\n":
        share.say(bytes([byte]))
    viewer.sees(3, 2, (0, 255, 0))
    assert viewer.at(0, 1) == (10, 10, 10)
    # Bad lines, of which nothing is drawn: their numbers count each line before them once.
    first = 1 + 4 + 1 + 1 + 2
    bad = ["fill 0 0 9 9 000000", "nonsense", "pixels 3 0 2 1\nabcdef", "pixels 0 0 1 1\nabcd",
           "screen 4 3", "end 10", "x" * 200]
    share.say("\n".join(bad) + "\nfill 0 0 1 1 010203\n")
    viewer.sees(0, 0, (1, 2, 3))
    assert viewer.at(3, 2) == (0, 255, 0)
    wanted = b"".join(b"line %d: bad line\n" % (first + k) for k in range(len(bad)))
    wait_for(lambda: share.errors == wanted, share.errors)
    viewer.send(key(0xFF0D) + key(97, 0))
    viewer.send(pointer(1, 2, 1) + cut_text(b"hi\0\xffz"))
    for line in (b"join 0", b"key 0 down 65293", b"key 0 up 97", b"pointer 0 1 2 1",
                 b"text 0 686900ff7a"):
        share.tells(line)
    share.say("end 0\n")
    assert viewer.has_ended()
    share.tells(b"leave 0 ok")
    viewer = Viewer(share).hello()
    viewer.send(b"\x63")
    share.tells(b"leave 0 fault 7 UnknownMessage")
    assert viewer.has_ended()
    share.quits()


def a_scroll_is_sent_as_a_copy():
    share = Share()
    share.say("screen 40 30\n")
    viewer = Viewer(share).hello()
    viewer.send(set_encodings(1, 0))
    shown = [[(x, y, 5 * x ^ y) for x in range(40)] for y in range(30)]
    share.say(b"pixels 0 0 40 30\n" + bytes(c for row in shown for colour in row for c in colour) + b"\n")
    viewer.ask(0)
    viewer.update()
    viewer.sees(39, 29, shown[29][39])
    viewer.ask()
    share.say("scroll 4 6 30 20 3 -5\n")
    assert viewer.update() == [1]
    for y in range(30):
        for x in range(40):
            came = 7 <= x < 34 and 6 <= y < 21
            assert viewer.at(x, y) == (shown[y + 5][x - 3] if came else shown[y][x]), (x, y)
    share.quits()


def the_end_of_input_leaves_the_screen():
    share = Share("--until-idle")
    share.say("screen 2 1\nfill 0 0 2 1 ffffff\n")
    share.run.stdin.close()
    viewer = Viewer(share).hello()
    viewer.ask(0)
    viewer.update()
    assert viewer.at(1, 0) == (255, 255, 255)
    before = share.ticks()
    time.sleep(0.5)
    assert share.ticks() - before <= 1, share.ticks() - before
    viewer.close()
    share.ends()
    share = Share()
    share.say("\nbad\n")
    share.run.stdin.close()
    share.ends(1)


def a_connection_that_is_no_viewer_ends_nothing():
    share = Share("--until-idle")
    share.say("screen 2 1\nfill 0 0 2 1 010203\n")
    for number in range(1, 4):
        connected(share.port).close()
        wait_for(lambda: share.output.count(b"leave 0") == number, share.output)
    viewer = Viewer(share).hello()
    viewer.sees(1, 0, (1, 2, 3))
    connected(share.port).close()
    wait_for(lambda: b"leave 1" in share.output, share.output)
    viewer.sees(0, 0, (1, 2, 3))
    viewer.close()
    share.ends()


def the_last_line_may_lack_its_newline():
    white, bad = (255, 255, 255), b"line 3: bad line\n"
    for last, colour, errors in (
            (b"", white, b""),
            (b"fill 1 0 1 1 010203", (1, 2, 3), b""),
            (b"pixels 1 0 1 1\nabc", tuple(b"abc"), b""),
            (b"pixels 0 0 2 1\nabcde\n", (100, 101, 10), b""),
            (b"pixels 1 0 0 1\n", white, b""),
            (b"pixels 1 0 1 1\nab", white, bad),
            (b"pixels 1 0 1 1\n", white, bad),
            (b"pixels 1 0 1 1", white, bad),
            (b"pixels 1 0 1 1\nabcd", white, bad),
            (b"pixels 2 0 1 1\nabc", white, bad),
            (b"pixels 2 0 1 1\nab", white, bad),
            (b"fill 1 0 1 1 01020", white, bad),
            (b"screen 2 1", white, bad),
            (b"x" * 97, white, bad)):
        share = Share("--until-idle", "--quiet")
        share.say(b"screen 2 1\nfill 0 0 2 1 ffffff\n" + last)
        share.run.stdin.close()
        wait_for(lambda: share.errors == errors, (last, share.errors))
        viewer = Viewer(share).hello()
        viewer.sees(1, 0, colour)
        viewer.close()
        share.ends()
        assert share.errors == errors, (last, share.errors)
    share = Share("--until-idle")
    share.say("screen 2 1")
    share.run.stdin.close()
    Viewer(share).hello().close()
    share.ends()


def a_last_line_that_is_bad_is_explained():
    for last, cause in (
            (b"pixels 0 0 2 1\nabcde", b": 5 bytes of pixels follow it, and 6 are due"),
            (b"pixels 0 0 2 1", b": 0 bytes of pixels follow it, and 6 are due"),
            (b"pixels 0 0 1 1\nabcd", b": no newline follows its 3 bytes of pixels"),
            (b"pixels 1 0 2 1\nabc", b" has a rectangle that leaves the screen, 2 by 1"),
            (b"paint", b" begins with `paint`, as no line there does")):
        share = Share("--until-idle")
        share.say(b"screen 2 1\n\n" + last)
        share.run.stdin.close()
        Viewer(share).hello().close()
        share.ends()
        told = b"rfb: listening on 127.0.0.1:%d\n" % share.port
        told += b"rfb: line 3 of standard input" + cause + b"\nline 3: bad line\n"
        told += b"rfb: the viewer at seat 0 leaves: it closed its connection\n"
        wait_for(lambda: share.errors == told, (last, share.errors))


def a_ninth_is_let_go_and_sole_use_ends_the_others():
    share = Share()
    share.say("screen 2 1\n")
    eight = viewers(share, 8)
    assert Viewer(share).has_ended()
    eight[3].close()
    share.tells(b"leave 3 ok")
    eight[3] = Viewer(share).hello()
    share.tells(b"join 3", 2)
    for viewer in eight:
        viewer.ask(0)
        viewer.update()
    eight[0].close()
    share.tells(b"leave 0 ok")
    alone = Viewer(share).hello(0)
    for viewer in eight[1:]:
        assert viewer.has_ended()
    alone.ask(0)
    alone.update()
    for seat in range(1, 8):
        share.tells(b"leave %d ok" % seat)
    share.quits()


def a_stuck_viewer_holds_nobody_up(width=512, height=384, frames=30):
    share = Share()
    share.say(f"screen {width} {height}\n")
    stuck = Viewer(share).hello()
    seven = viewers(share, 7)
    for viewer in [stuck] + seven:
        viewer.ask(0)
    for viewer in seven:
        viewer.update()
    start = time.time()
    for frame in range(frames):
        colour = (frame * 8, 255 - frame, 128)
        share.say(f"scroll 0 0 {width} {height} 0 -8\n"
                  f"fill 0 {height - 8} {width} 8 {'%02x%02x%02x' % colour}\n")
        if frame % 2 == 0:
            stuck.ask()
        for viewer in seven:
            viewer.sees(5, height - 1, colour)
    taken = time.time() - start
    assert all(viewer.shown == seven[0].shown for viewer in seven)
    before = share.ticks()
    time.sleep(0.5)
    idle = share.ticks() - before
    assert idle <= 1, idle
    # It reads again, and sees what the others do.
    stuck.update()
    while stuck.shown != seven[0].shown:
        stuck.ask()
        stuck.update()
    share.quits()
    return f"{frames} frames at seven viewers in {taken:.2f} s"


# What a viewer does that waits for what changes, and the line of its end by docs/PROTOCOL.md.
FAULTS = [
    (lambda bad: bad.send(b"\x63"), b"fault 7 UnknownMessage"),
    (lambda bad: bad.send(bytes(4) + pixel_format(bits=24)), b"fault 1 BadBits"),
    (lambda bad: bad.close(reset=True), b"fault 29 Device"),
    (lambda bad: bad.stream.shutdown(socket.SHUT_WR), b"ok"),
]


def a_faulty_viewer_ends_alone():
    """Seven others wait for what changes of a screen that scrolls, before its end and after."""
    width, height, frames = 160, 120, 12
    for seat, (fails, told) in zip((0, 2, 5, 7), FAULTS):
        share = Share()
        share.say(f"screen {width} {height}\n")
        eight = viewers(share, 8)
        for viewer in eight:
            viewer.ask(0)
            viewer.update()
        bad = eight[seat]
        others = {place: viewer for place, viewer in enumerate(eight) if place != seat}
        bad.ask()
        screen = bytes(4 * width * (height - frames))
        for frame in range(frames):
            if frame == 4:
                fails(bad)
            for viewer in others.values():
                viewer.ask()
            row = os.urandom(3 * width)
            share.say(f"scroll 0 0 {width} {height} 0 -1\npixels 0 {height - 1} {width} 1\n".encode()
                      + row + b"\n")
            for viewer in others.values():
                viewer.update()
                viewer.sees(width - 1, height - 1, tuple(row[-3:]))
            screen += b"".join(row[x:x + 3][::-1] + b"\0" for x in range(0, len(row), 3))
        share.tells(b"leave %d %b" % (seat, told))
        assert all(viewer.shown == screen for viewer in others.values()), told
        assert share.output.count(b"\nleave ") == 1, share.output
        # Each of the others still has the seat that it had.
        for place, viewer in others.items():
            viewer.send(key(100 + place))
            share.tells(b"key %d down %d" % (place, 100 + place))
        share.quits()


def a_flood_of_requests_is_answered_by_few_updates():
    share = Share()
    share.say("screen 320 240\n")
    flooding, other = viewers(share, 2)
    done = threading.Event()

    def flood():
        requests = request(1, 0, 0, 320, 240) * 1000
        flooding.stream.settimeout(0.2)
        while not done.is_set():
            try:
                flooding.stream.sendall(requests)
            except OSError:
                pass

    thread = threading.Thread(target=flood)
    thread.start()
    other.ask(0)
    other.update()
    start = time.time()
    for k in range(50):
        share.say(f"fill {k} 0 1 1 ffffff\n")
        other.sees(k, 0, (255, 255, 255))
    taken = time.time() - start
    done.set()
    thread.join()
    share.quits()
    return f"50 updates beside a flood in {taken:.2f} s"


def a_client_may_send_a_byte_at_a_time():
    share = Share()
    share.say("screen 64 64\nfill 0 0 64 64 0a0b0c\n")
    slow = [Viewer(share, bytewise=True).hello() for _ in range(2)]
    for viewer in slow:
        viewer.ask(0)
        viewer.update()
        assert viewer.at(63, 63) == (10, 11, 12)
    slow[1].send(key(113))
    share.tells(b"key 1 down 113")
    share.quits()


def clients_leave_in_the_middle_of_an_update():
    share = Share()
    share.say("screen 1000 750\n")
    other = Viewer(share).hello()
    for k in range(20):
        leaving = Viewer(share).hello()
        leaving.ask(0)
        leaving.get(100)
        leaving.close(reset=k % 2 == 1)
    wait_for(lambda: share.output.count(b"\nleave ") == 20, share.output[-300:])
    other.ask(0)
    other.update()
    share.quits()


def many_come_one_after_another():
    share = Share()
    share.say("screen 64 64\n")
    other = Viewer(share).hello()
    usual = share.descriptors()
    figures = []
    for k in range(MANY):
        viewer = Viewer(share).hello()
        viewer.ask(0)
        viewer.update()
        viewer.close()
        share.tells(b"leave 1 ok", k + 1)
        if k in (MANY // 4, MANY // 2, MANY - 1):
            figures.append(share.settled(usual))
    assert figures[-1][0] - figures[1][0] <= 16, figures
    other.ask(0)
    other.update()
    share.quits()
    return f"{MANY} connections; KiB and descriptors at a quarter, half and all: {figures}"


def what_is_long_or_wide_is_taken_whole():
    """A name of 255 bytes, of which a longer one is cut; a text; and the pixels of a screen."""
    for name in "n" * 255, "m" * 300:
        share = Share("--name", name)
        share.say("screen 4096 1\n")
        viewer = Viewer(share).hello()
        assert viewer.name == name[:255].encode() and (viewer.width, viewer.height) == (4096, 1)
        share.quits()
    width, height = 1920, 1080
    share = Share()
    share.say(f"screen {width} {height}\n")
    viewer = Viewer(share).hello()
    for text in os.urandom(1024), os.urandom(100000):
        viewer.send(cut_text(text))
        share.tells(b"text 0 " + text[:1024].hex().encode())
    viewer.ask(0)
    viewer.update()
    viewer.ask()
    places = os.urandom(3 * width * height)
    share.say(f"pixels 0 0 {width} {height}\n".encode() + places + b"\n")
    viewer.update()
    for of_pixel, of_place in (2, 0), (1, 1), (0, 2):
        assert viewer.shown[of_pixel::4] == places[of_place::3]
    share.quits()


def kept_of(width, height, seats):
    """The KiB that a share keeps by its types: six bytes for each place of its screen; and for each
    viewer a pixel of four bytes there, and at most eight bits."""
    return width * height * (6 + 5 * seats) >> 10


def an_update_that_was_written_is_kept_no_more():
    """Neither a large one nor those of eight viewers."""
    told = []
    for side, count in (4096, 1), (2048, 8):
        share = Share()
        share.say(f"screen {side} {side}\n")
        all_viewers = viewers(share, count)
        before = share.memory()
        # One place alone.
        last = side - 1
        share.say(f"fill {last} {last} 1 1 ff8001\n")
        for viewer in all_viewers:
            viewer.ask(0, (last, last, 1, 1))
            viewer.update()
            assert viewer.at(last, last) == (255, 128, 1)
            viewer.ask(0)
            viewer.update()
            assert viewer.at(0, 0) == (0, 0, 0) and viewer.at(last, last) == (255, 128, 1)
        # Once each has a key of its own, the share has been told that all is written.
        for seat, viewer in enumerate(all_viewers):
            viewer.send(key(65 + seat))
            share.tells(b"key %d down %d" % (seat, 65 + seat))
        after = share.memory()
        told.append(f"{before} and {after}, {kept_of(side, side, count)} by its types")
        assert after < kept_of(side, side, count) + 32768, told
        share.quits()
    return f"KiB before and after whole updates: {'; '.join(told)}"


def a_burst_is_told_whole_where_nothing_wakes(count=2000):
    """A file that takes the lines never says that it is ready."""
    with tempfile.TemporaryFile() as lines:
        share = Share(output=lines, hears=("errors",))
        share.say("screen 40 30\n")
        (viewer,) = viewers(share, 1)
        # The longest lines that few bytes make.
        viewer.send(b"".join(pointer(255, 65535, 65535 - number) for number in range(count)))
        told = b"".join(b"pointer 0 255 65535 %d\n" % (65535 - number) for number in range(count))
        wait_for(lambda: os.pread(lines.fileno(), 1 << 20, 0).endswith(told), "not all are told")
        share.quits()


def idle():
    share = Share()
    share.say("screen 1920 1080\n")
    eight = viewers(share, 8)
    for viewer in eight:
        viewer.ask(0)
        viewer.update()
        viewer.ask()
    time.sleep(0.5)
    before = share.ticks()
    time.sleep(10)
    ticks = share.ticks() - before
    share.quits()
    return f"{ticks} hundredths of a second in 10 s"


def video(width=640, height=480, frames=30):
    share = Share()
    share.say(f"screen {width} {height}\n")
    four = viewers(share, 4)
    for viewer in four:
        viewer.ask(0)
        viewer.update()
    start = time.time()
    for frame in range(frames):
        row = bytes((x * (frame + 1)) & 255 for x in range(width * 3))
        share.say(f"pixels 0 0 {width} {height}\n".encode() + row * height + b"\n")
        for viewer in four:
            viewer.sees(width - 1, height - 1, tuple(row[-3:]))
    taken = time.time() - start
    share.quits()
    return f"{frames} frames at four viewers in {taken:.2f} s"


ROWS = [each_line_draws_and_each_event_is_reported, a_scroll_is_sent_as_a_copy,
        the_end_of_input_leaves_the_screen, a_connection_that_is_no_viewer_ends_nothing,
        the_last_line_may_lack_its_newline,
        a_last_line_that_is_bad_is_explained, a_ninth_is_let_go_and_sole_use_ends_the_others,
        a_stuck_viewer_holds_nobody_up, a_faulty_viewer_ends_alone,
        a_flood_of_requests_is_answered_by_few_updates, a_client_may_send_a_byte_at_a_time,
        clients_leave_in_the_middle_of_an_update, many_come_one_after_another,
        what_is_long_or_wide_is_taken_whole, an_update_that_was_written_is_kept_no_more,
        a_burst_is_told_whole_where_nothing_wakes]


if __name__ == "__main__":
    run_rows(ROWS, (idle, video))
