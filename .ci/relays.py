#!/usr/bin/env python3
"""Viewers of a relay: `rfb relay` between a server and clients, both written from RFC 6143.

    .ci/relays.py crates/rfb/out/rfb [ROW..]

Each row starts a server, a relay of it and clients, and looks at what clients see, at what the
server gets, each byte of which must be of a client's message, and at what the relay tells. Without
names all rows are run; those of `--retry` where the program has that word. The last line is
'N passed, M failed'.
"""

import os
import random
import re
import signal
import socket
import struct
import subprocess
import sys
import tempfile
import threading
import time

from messages import (VERSION, client_init, cut_text, framebuffer_head, handshake, key,
                      pixel_format, pointer, rectangle_head, request, set_encodings, texted)
from peers import OTHER, Server, breaks, connected, free_port, halts, two_addresses
from relaying import (KEY, LISTED, POINTER, TEXT, Fed, Relay, Screen, Seer, copied, hextile, let_go,
                      noise, raw, relayed, shown_at, spelled, whole)
from sharing import run_rows, wait_for
from streams import (COPY_RECT, FORMATS, FROM_SERVER, HEXTILE, NAMES, RAW, RRE, Bytes, Fault,
                     Format, More, Picture, read_client_message, read_server_hello,
                     read_server_message, update, watch)

BELL = b"\2"


def server_text(text):
    return b"\3\0\0\0" + texted(text)


# ---- what viewers see

def what_the_server_draws_is_what_each_viewer_sees():
    """Whatever the pieces are in which it comes, and in three formats."""
    for number, (pieces, first, second) in enumerate((
            ((), "rgb888", "rgb565"), ((1,), "bgr233", "rgb888"), ((7,), "rgb565", "bgr233"),
            ((1, 2, 3, 5, 8, 500), "rgb888", "bgr233"), ((4, 12, 1), "rgb101010", "rgb565"))):
        screen = Screen(37 + number, 29 - number, pieces=pieces, seed=number)
        relay = Relay(screen.port)
        two = [Seer(relay).hello(form=first, encodings=(COPY_RECT, HEXTILE)),
               Seer(relay).hello(form=second, encodings=(RRE, RAW))]
        for viewer in two:
            viewer.begins()
            assert viewer.shows(screen.picture), (pieces, viewer.form.bits)
        assert screen.heard[1] == LISTED, screen.heard
        for _ in range(6):
            screen.draws(*screen.scene())
            for viewer in two:
                viewer.follows(screen.picture)
        screen.is_right()


def a_format_and_encodings_are_asked_of_the_server():
    for form, encodings, numbers in (("rgb565", "hextile", (HEXTILE,)),
                                     ("bgr233", "raw,copyrect", (RAW, COPY_RECT))):
        screen, _, (viewer,) = relayed(words=("--format", form, "--encodings", encodings))
        assert screen.heard[1] == (2, *numbers) and screen.form is FORMATS[form], screen.heard
        # It shows what the server's pixels show.
        screen.picture.places[:] = shown_at(screen.picture, screen.form)
        assert viewer.shows(screen.picture)
        screen.draws(raw(screen.chance, screen.form, (3, 2, 21, 9)),
                     copied((1, 4, 30, 20), 6, 1))
        viewer.follows(screen.picture)
        screen.is_right()


def a_copy_of_the_servers_is_a_copy_to_who_takes_copies():
    width, height = 70, 50
    screen, relay, (other,) = relayed(width=width, height=height)
    viewer = Seer(relay).hello(encodings=(COPY_RECT, RAW)).begins()
    for number, (area, x, y) in enumerate((((3, 2, 60, 40), 9, 7), ((0, 0, 70, 49), 0, 1),
                                           ((11, 5, 59, 45), 4, 0))):
        for it in viewer, other:
            it.ask()
        wait_for(lambda: screen.open, screen.heard[-1])
        time.sleep(0.1)
        row = 0, height - 1 - number, width, 1
        before = viewer.taken
        screen.draws(copied(area, x, y), *[raw(screen.chance, screen.form, row)] * (number > 0))
        encodings = viewer.update()
        assert encodings.count(COPY_RECT) == 1, encodings
        # The copy, and the row in Raw, in a rectangle for each cell at most.
        most = 4 + 16 + (4 * width + 12 * 4) * (number > 0)
        assert viewer.taken - before <= most, (encodings, viewer.taken - before)
        assert COPY_RECT not in other.update()
        for it in viewer, other:
            it.follows(screen.picture)
    screen.is_right()


def nobody_is_let_in_before_the_first_update_is_whole():
    screen = Screen(23, 17, is_held=True)
    relay = Relay(screen.port)
    wait_for(lambda: screen.open, screen.heard)
    waiting = [Seer(relay) for _ in range(2)]
    place = rectangle_head(RAW, (0, 0, 2, 1))
    first = framebuffer_head(2) + whole(screen.picture, screen.form) + place
    for part in b"", first[:4], first[4:60], first[60:], bytes(4):
        screen.sends(part)
        assert all(viewer.hears_nothing(0.3) is True for viewer in waiting)
    # Nor is one after a second of an update that is under way.
    assert waiting[0].hears_nothing(1.2) is True
    assert not relay.output, relay.output
    screen.sends(b"\1\2\3\0")
    screen.open.clear()
    screen.paints(place + bytes(4) + b"\1\2\3\0")
    relay.tells(b"server up 23 17 77616c6c")
    for viewer in waiting:
        assert viewer.hello().begins().shows(screen.picture)
    screen.is_right()


def of_an_update_under_way_nothing_is_shown_for_a_second():
    for _ in range(5):
        screen, _, (viewer,) = relayed()
        screen.is_held = True
        viewer.ask()
        wait_for(lambda: screen.requests() == 2, screen.heard)
        parts = raw(screen.chance, screen.form, (2, 3, 20, 10)), hextile(screen.chance, screen.form,
                                                                         (5, 1, 33, 27))
        data = framebuffer_head(2) + b"".join(parts)
        begun = time.time()
        for at in range(0, len(data), len(data) // 5):
            screen.sends(data[at:at + len(data) // 5])
            is_silent = at + len(data) // 5 >= len(data) or viewer.hears_nothing(0.1) is True
            if not is_silent:
                break
        # On a machine that is this busy the second may have passed.
        if time.time() - begun > 0.9:
            continue
        assert is_silent
        screen.open.clear()
        screen.paints(*parts)
        viewer.update()
        assert viewer.shows(screen.picture)
        screen.is_right()
        return
    raise AssertionError("each update took a second")


def an_update_that_stops_stops_nobody():
    """What came of it is shown after a second, and what did not come is as it was."""
    screen, relay, (viewer, other) = relayed(2, width=31, height=22)
    screen.is_held = True
    viewer.ask()
    wait_for(lambda: screen.requests() == 2, screen.heard)
    first = raw(screen.chance, screen.form, (1, 2, 9, 7))
    stopped = raw(screen.chance, screen.form, (4, 6, 25, 14))
    rows, cut = 5, 5 * 25 * 4 + 9 * 4 + 2
    screen.paints(first)
    came = Picture(31, 22)
    came.places[:] = screen.picture.places
    begun = time.time()
    screen.sends(framebuffer_head(2) + first + stopped[:12 + cut])
    screen.paints(stopped)
    viewer.update()
    lasts = time.time() - begun
    assert 0.8 < lasts < 3, lasts
    other.ask(0)
    other.update()
    late = Seer(relay).hello().begins()
    assert time.time() - begun < 5
    for it in viewer, other, late:
        for y in range(22):
            for x in range(31):
                place = it.picture.row(x, y, 1)
                shown = bytes(it.picture.places[place])
                old, new = bytes(came.places[place]), bytes(screen.picture.places[place])
                if 4 <= x < 29 and 6 <= y < 6 + rows:
                    assert shown == new, (x, y)
                elif 4 <= x < 29 and y == 6 + rows and x < 4 + 9:
                    assert shown in (old, new), (x, y)
                else:
                    assert shown == old, (x, y)
    # No other request is sent before it is whole. Then all of it is seen.
    viewer.ask()
    time.sleep(0.3)
    assert screen.requests() == 2, screen.heard
    screen.is_held = False
    screen.open.clear()
    screen.sends(stopped[12 + cut:])
    for it in viewer, other, late:
        it.follows(screen.picture)
    screen.is_right()
    return f"shown after {lasts:.2f} s"


# ---- what the server gets

def said_by(number, index):
    """What a viewer says: keys, pointers and texts, of which no two are the same."""
    return ((KEY, index % 2, 0x10000 * (number + 1) + index),
            (POINTER, index % 256, index % 40, number),
            (TEXT, b"%d, %d\0\xff\n" % (number, index) * (index % 3)))[index % 5 % 3]


def what_viewers_do_reaches_the_server_in_order():
    screen, relay, two = relayed(2)
    said = []
    for index in range(30):
        said.append(said_by(index % 2, index))
        two[index % 2].send(spelled(said[-1]))
        wait_for(lambda: screen.events() == said, (said[-3:], screen.events()[-3:]))
    # Now both at once, in pieces of any size.
    lists = [[said_by(number, index) for index in range(100, 1100)] for number in range(2)]

    def speak(number):
        data = b"".join(map(spelled, lists[number]))
        for at in range(0, len(data), 333 + number):
            two[number].send(data[at:at + 333 + number])

    threads = [threading.Thread(target=speak, args=(number,)) for number in range(2)]
    for thread in threads:
        thread.start()
    for thread in threads:
        thread.join()
    wait_for(lambda: len(screen.events()) >= len(said) + 2000, len(screen.events()))
    time.sleep(0.2)
    rest = screen.events()[len(said):]
    assert len(rest) == 2000, len(rest)
    # An empty text is of either. Those that are not are of one, in its order.
    empty = (TEXT, b"")
    assert rest.count(empty) == sum(it.count(empty) for it in lists)
    for own in lists:
        wanted = [it for it in own if it != empty]
        of_one = set(wanted)
        assert [it for it in rest if it in of_one] == wanted
    screen.is_right()


def a_long_text_reaches_the_server_whole_or_cut_at_its_end():
    screen, _, (viewer,) = relayed()
    for length in 1, 1023, 1024, 1025, 70000:
        text = noise(screen.chance, length)
        viewer.send(cut_text(text) + key(length))
        wait_for(lambda: screen.events()[-1:] == [(KEY, 1, length)], screen.events()[-1:])
        kind, came = screen.events()[-2]
        assert kind == TEXT and text.startswith(came) and len(came) >= min(length, 1024), len(came)
    assert len(screen.events()) == 10
    screen.is_right()


def nothing_of_a_viewer_is_passed_on_before_its_handshake():
    screen, relay, (viewer,) = relayed()
    for index, sent in enumerate((VERSION + key(77), VERSION + b"\1", key(78) * 4,
                                  VERSION + b"\2" + key(79))):
        wrong = Seer(relay)
        wrong.get(12)
        wrong.says(sent)
        let_go(relay, 1, index + 1)
        wrong.close()
    viewer.send(key(80))
    wait_for(lambda: screen.events(), "no key")
    assert screen.events() == [(KEY, 1, 80)], screen.events()
    # What follows the handshake at once is passed on.
    Seer(relay).send(client_init(key(81) + pointer(5, 3, 2)))
    wanted = [(KEY, 1, 80), (KEY, 1, 81), (POINTER, 5, 3, 2)]
    wait_for(lambda: screen.events() == wanted, screen.events())
    relay.tells(b"pointer 1 5 3 2")
    assert relay.output.count(b"\nkey ") == 2, relay.output
    screen.is_right()


def of_a_view_alone_nothing_is_passed_on():
    screen, relay, two = relayed(2, words=("--view-only",))
    for viewer in two:
        viewer.send(key(65) + pointer(1, 7, 3) + cut_text(b"hi") + key(65, 0))
        screen.draws(*screen.scene())
        viewer.follows(screen.picture)
    assert not screen.events(), screen.events()
    relay.tells(b"join 1")
    told = {line.split(b" ")[0] for line in relay.output.split(b"\n") if line}
    assert told == {b"server", b"come", b"join"}, relay.output
    screen.is_right()


def nothing_is_asked_where_nobody_waits():
    screen = Screen(45, 38)
    relay = Relay(screen.port)
    wait_for(lambda: screen.requests() == 1, screen.heard)
    before = relay.ticks()
    time.sleep(1)
    assert screen.requests() == 1, screen.heard
    assert relay.ticks() - before <= 1
    screen.draws(*screen.scene())
    time.sleep(0.3)
    assert screen.requests() == 1, screen.heard
    # What eight ask for is asked once, and what came of it is for all.
    eight = [Seer(relay).hello().begins() for _ in range(8)]
    for viewer in eight:
        viewer.follows(screen.picture)
        viewer.ask()
    wait_for(lambda: screen.open, screen.heard)
    time.sleep(0.5)
    asked = screen.requests()
    assert asked <= 4, screen.heard
    for number in range(3):
        screen.draws(copied((3, 4, 30, 20), 9 - number, 2),
                     raw(screen.chance, screen.form, (0, 0, 7, 5)))
        for viewer in eight:
            viewer.update()
            assert viewer.shows(screen.picture)
        time.sleep(0.3)
        now = screen.requests()
        assert now - asked <= 1 and len(screen.open) <= 1, (now, asked)
        for viewer in eight:
            viewer.ask()
        wait_for(lambda: screen.open, screen.heard)
        time.sleep(0.3)
        asked = screen.requests()
        assert asked - now <= 1, (now, asked)
    screen.is_right()
    return f"{asked} requests of the server's for four of each of eight viewers"


def who_asks_for_all_sees_at_the_next_look_what_changed():
    screen = Screen(23, 19)
    relay = Relay(screen.port)
    viewer = Seer(relay).hello().begins()
    for _ in range(3):
        screen.draws(*screen.scene())
        asked = screen.requests()
        # Such a look is answered at once, so nobody waits after it.
        viewer.ask(0)
        viewer.update()
        wait_for(lambda: screen.requests() > asked or screen.open, screen.heard)
        time.sleep(0.3)
        viewer.ask(0)
        viewer.update()
        assert viewer.shows(screen.picture)
    screen.is_right()


# ---- what is told

def told_text(text):
    """The line of a text of the server's."""
    return b"server text " + text[:1024].hex().encode()


def a_bell_and_a_text_are_lines_and_no_more():
    screen, relay, (viewer,) = relayed()
    viewer.ask()
    wait_for(lambda: screen.open, screen.heard)
    texts = b"\0hi\xff\n", b"", noise(screen.chance, 1024), noise(screen.chance, 3000)
    told = []
    for text in texts:
        screen.sends(BELL + server_text(text))
        told += [b"server bell", told_text(text).rstrip()]
        wait_for(lambda: [it.rstrip() for it in relay.lines(b"server")[1:]] == told,
                 relay.output[-300:])
    assert viewer.hears_nothing(0.3) is True
    screen.draws(*screen.scene())
    viewer.update()
    assert viewer.shows(screen.picture)
    screen.is_right()


def each_line_is_told_in_its_order():
    for name, words, told, seen in (
            (b"wall", (), b"77616c6c", b"wall"), (b"", (), b"", b""),
            (b"\0\xff\n z", ("--name", "desk"), b"00ff0a207a", b"desk"),
            (b"n" * 300, (), (b"n" * 255).hex().encode(), b"n" * 255),
            (b"wall", ("--name", "m" * 300), b"77616c6c", b"m" * 255)):
        screen = Screen(19, 11, name=name)
        relay = Relay(screen.port, *words)
        viewer = Seer(relay).hello().begins()
        assert viewer.name == seen, viewer.name
        address = b"127.0.0.1:%d" % viewer.stream.getsockname()[1]
        viewer.send(key(0xFF0D) + key(97, 0) + pointer(3, 18, 10) + cut_text(b"a\0b"))
        relay.tells(b"text 0 610062")
        screen.sends(BELL)
        relay.tells(b"server bell")
        viewer.close()
        relay.tells(b"leave 0 ok")
        screen.closes()
        relay.ends()
        lines = relay.output.split(b"\n")
        assert lines[0] == b"server up 19 11 " + told, lines[0]
        assert lines[1:] == [b"come 0 " + address, b"join 0", b"key 0 down 65293", b"key 0 up 97",
                             b"pointer 0 3 18 10", b"text 0 610062", b"server bell", b"leave 0 ok",
                             b"server down closed", b""], lines
        screen.is_right()


def is_explained(relay, number=None):
    """The last line on standard error has a fault, after a sentence."""
    lines = relay.errors.split(b"\n")
    found = re.fullmatch(rb"fault (\d+) [A-Z]\w+", lines[-2])
    assert lines[-1] == b"" and found, relay.errors
    assert number in (None, int(found.group(1))), (number, relay.errors)
    # The first says on which port it listens.
    assert sum(it.startswith(b"rfb: ") for it in lines) >= 2, relay.errors


def where_the_server_goes_away_viewers_get_what_waits():
    for reset in False, True:
        screen, relay, (viewer,) = relayed(width=1600, height=1200)
        other = Seer(relay).hello()
        other.ask(0)
        # It reads no more yet, and its update is more than the system holds.
        came = [other.get(1), other.came]
        screen.closes(reset)
        relay.tells(b"server down " + (b"failed" if reset else b"closed"))
        came += iter(lambda: other.stream.recv(1 << 20), b"")
        stream = Bytes(b"".join(came))
        read_server_message(stream, other.picture, other.form)
        assert other.shows(screen.picture) and not stream.left()
        viewer.ends_well()
        relay.ends()
        is_explained(relay)
    # One that takes nothing holds up the end for a second.
    screen, relay, (viewer,) = relayed(width=1600, height=1200)
    viewer.ask(0)
    viewer.get(1)
    begun = time.time()
    screen.closes()
    relay.ends()
    lasts = time.time() - begun
    assert lasts < 4, lasts
    return f"beside one that takes nothing it ends after {lasts:.2f} s"


def a_server_that_is_not_there_is_explained():
    relay = Relay(free_port())
    relay.ends()
    assert relay.errors.endswith(b"fault 29 Device\n") and relay.output == b"", relay.errors
    for sent, number in ((b"220 hi\r\n.....", 15), (b"RFB 003.008\n\1\2", 18),
                         (b"RFB 003.008\n\0" + struct.pack(">I", 2) + b"no", 19), (b"RFB 00", 28)):
        relay = Relay(Server(sent).port)
        relay.ends()
        is_ended_by(relay, number)


def is_ended_by(relay, number):
    """Its last line, and of standard output that of the server's end if there is one."""
    numbers = (28, 29) if number == 28 else (number,)
    whys = [b"%d %b" % (it, NAMES[it].encode()) for it in numbers]
    assert relay.errors.split(b"\n")[-2] in [b"fault " + it for it in whys], (number, relay.errors)
    told = relay.lines(b"server")[-1:]
    if told and told[0].startswith(b"server down "):
        whys += [b"closed"] * (number == 28)
        assert told[0] in [b"server down " + it for it in whys], (number, relay.output)


# ---- peers that do wrong

def hostile(chance):
    """Streams of servers: the format, the bytes up to the first update's end or none of them, what
    follows, and the fault of all. Those of `streams.py`, whole, cut, and with another byte."""
    for name, form, data, fault, *_ in FROM_SERVER:
        try:
            stream = Bytes(data)
            width, height = read_server_hello(stream)
        except (Fault, More):
            yield form, b"", data, fault
            continue
        if width > 4096 or height > 4096:
            yield form, b"", data, None
            continue
        picture = Picture(width, height)
        picture.places[:] = shown_noise(chance, FORMATS[form], width * height)
        first = data[:stream.at] + update(whole(picture, FORMATS[form]))
        rest = data[stream.at:]
        changed = bytearray(rest)
        if rest:
            at = chance.randrange(len(rest))
            changed[at] ^= 1 << chance.randrange(8)
        for tail in rest, bytes(changed), rest[:chance.randrange(len(rest) + 1)]:
            yield form, first, tail, watch(first + tail, FORMATS[form])[0] or 28


def shown_noise(chance, form, count):
    return b"".join(form.seen(noise(chance, form.size)) for _ in range(count))


def a_server_that_does_wrong_ends_the_relay_and_no_more():
    chance = random.Random(20)
    streams = list(hostile(chance))
    some = chance.sample(streams, 60)
    for form, first, tail, number in some:
        server = Fed(first) if first else Server(tail)
        relay = Relay(server.port, "--format", form)
        if first:
            shown = watch(first, FORMATS[form])[1]
            viewer = Seer(relay).hello().begins()
            assert viewer.shows(shown)
            viewer.ask()
            time.sleep(0.02)
            server.ends_with(tail)
            viewer.ends_well()
        relay.ends()
        if number is not None:
            is_ended_by(relay, number)
    return f"{len(some)} servers"


def a_screen_that_is_too_large_is_refused():
    for size in (4097, 1), (1, 4097), (4096, 4097), (65535, 65535), (0, 5):
        relay = Relay(Server(handshake(*size), is_silent=True).port)
        relay.ends()
        assert re.search(rb"(?m)^rfb: ", relay.errors), relay.errors
        assert not relay.lines(b"come"), relay.output


def wrongs(chance):
    """What viewers send after their handshake that is wrong or cut."""
    for number, length in enumerate((1, 20, 400, 5000)):
        yield noise(chance, length)
        for index in range(3):
            said = (said_by(number + 5, it) for it in range(10 * index))
            yield b"".join(map(spelled, said)) + noise(chance, length)
    for message in (key(70), pointer(1, 2, 3), cut_text(b"abcdef"), request(1, 0, 0, 9, 9),
                    set_encodings(0, 1), bytes(4) + pixel_format()):
        yield message + message[:chance.randrange(1, len(message))]
    yield b"\6\0\0\0" + b"\xff" * 4 + noise(chance, 100000)
    yield b"\2\0\xff\xff" + noise(chance, 1000)
    yield bytes(4) + pixel_format(bits=24)


def passed_on(data):
    """The keys, pointers and whole texts in these bytes, up to what no client sends."""
    stream, events = Bytes(data), []
    while stream.left():
        try:
            kind, *said = read_client_message(stream)
            if kind == 0:
                Format(*said)
        except (Fault, More):
            break
        if kind == KEY:
            said[0] = int(said[0] != 0)
        if kind in (KEY, POINTER, TEXT):
            events.append((kind, *said))
    return events


def a_viewer_that_does_wrong_is_let_go_alone():
    chance = random.Random(21)
    screen, relay, (viewer,) = relayed(width=60, height=40)
    usual, wanted = relay.memory(), []
    for number, data in enumerate(wrongs(chance)):
        wrong = Seer(relay).hello()
        wrong.says(data)
        let_go(relay, 1, number + 1)
        wrong.close()
        wanted += passed_on(data)
        wanted.append((KEY, 1, 0x5000 + number))
        viewer.send(key(0x5000 + number))
        wait_for(lambda: screen.events()[-1:] == wanted[-1:], (data[:40], screen.events()[-3:]))
        assert screen.events() == wanted, (data[:40], screen.events()[-5:])
        screen.draws(*screen.scene())
        viewer.follows(screen.picture)
    grown = relay.memory() - usual
    assert grown < 16384, grown
    screen.is_right()
    return f"{number + 1} viewers; {grown} KiB more in the end"


def a_viewer_that_never_reads_stops_nobody(width=900, height=700, frames=12):
    screen, relay, three = relayed(3, width=width, height=height)
    stuck = Seer(relay).hello()
    begun = time.time()
    for number in range(frames):
        for viewer in three:
            viewer.ask()
        stuck.ask(0)
        screen.draws(copied((0, 0, width, height - 1), 0, 1),
                     raw(screen.chance, screen.form, (0, height - 1, width, 1)))
        for viewer in three:
            viewer.update()
    lasts = time.time() - begun
    for viewer in three:
        viewer.follows(screen.picture)
    before = relay.ticks()
    time.sleep(0.5)
    assert relay.ticks() - before <= 2, relay.ticks() - before
    # It reads again, and sees what the others do.
    stuck.update()
    stuck.follows(screen.picture)
    screen.is_right()
    return f"{frames} frames at three viewers in {lasts:.2f} s"


def numbered(number):
    return b"%06d" % number * 1000


class Flood:
    """Texts, as many as one viewer can send until it is over, each of its own number."""

    def __init__(self, viewer):
        self.viewer, self.sent, self.is_over = viewer, 0, threading.Event()
        self.thread = threading.Thread(target=self.go_on, daemon=True)
        self.thread.start()

    def go_on(self):
        self.viewer.stream.settimeout(0.2)
        self.viewer.stream.setsockopt(socket.SOL_SOCKET, socket.SO_SNDBUF, 1 << 16)
        rest = b""
        while rest or not self.is_over.is_set():
            if not rest:
                rest = cut_text(numbered(self.sent))
                self.sent += 1
            try:
                rest = rest[self.viewer.stream.send(rest):]
            except (TimeoutError, socket.timeout):
                pass
            except OSError:
                return

    def reaches(self, screen):
        """Ends it, and waits until the server has all its texts, each once and in order."""
        self.is_over.set()
        screen.may_read.set()
        self.thread.join(60)
        wait_for(lambda: len(screen.events()) >= self.sent, (len(screen.events()), self.sent), 60)
        time.sleep(0.2)
        assert screen.events() == [(TEXT, numbered(number)) for number in range(self.sent)]
        assert screen.wrong is None, screen.wrong


def what_waits_for_a_server_that_does_not_read_is_little(seconds=3):
    """Once it reads it gets each text, in order."""
    screen, relay, (flooding,) = relayed()
    usual, most = relay.memory(), 0
    screen.may_read.clear()
    flood = Flood(flooding)
    begun = time.time()
    while time.time() < begun + seconds:
        most = max(most, relay.memory() - usual)
        time.sleep(0.05)
    assert most < 16384, most
    # The system holds some of it too, and then nothing is done.
    before = -1
    while before != len(relay.output):
        before = len(relay.output)
        time.sleep(0.5)
    before = relay.ticks()
    time.sleep(0.5)
    assert relay.ticks() - before <= 2, relay.ticks() - before
    flood.reaches(screen)
    return f"{flood.sent} texts; {most} KiB more at most"


def others_see_what_a_server_sends_that_does_not_read(updates=10):
    """While one viewer floods it with texts."""
    screen, _, (flooding, *others) = relayed(3, width=64, height=48)
    for viewer in others:
        viewer.ask()
    wait_for(lambda: screen.open, screen.heard)
    screen.may_read.clear()
    flood = Flood(flooding)
    time.sleep(1)
    longest = 0
    for _ in range(updates):
        drawn = copied((0, 0, 64, 47), 0, 1), raw(screen.chance, screen.form, (0, 47, 64, 1))
        screen.paints(*drawn)
        begun = time.time()
        screen.updates(*drawn)
        for viewer in others:
            viewer.update()
            assert viewer.shows(screen.picture)
            viewer.ask()
        longest = max(longest, time.time() - begun)
        time.sleep(0.1)
    assert longest < 2, longest
    flood.reaches(screen)
    return f"{updates} updates, the longest {longest:.3f} s, beside {flood.sent} texts"


# ---- words

def seats_are_those_of_a_share():
    screen, relay, (viewer,) = relayed(words=("--viewers", "1", "--listen", "127.0.0.1"))
    more = connected(relay.port)
    relay.tells(b"busy 127.0.0.1:%d" % more.getsockname()[1])
    assert more.recv(1) == b""
    viewer.close()
    relay.tells(b"leave 0 ok")
    assert Seer(relay).hello().begins().shows(screen.picture)
    screen.is_right()


def an_address_is_listened_on():
    screen = Screen()
    relay = Relay(screen.port, "--listen", OTHER)
    wait_for(lambda: screen.requests(), screen.heard)
    with connected(relay.port, OTHER) as line:
        assert line.recv(12) == VERSION
    with socket.socket() as line:
        assert line.connect_ex(("127.0.0.1", relay.port)) != 0


def a_handshake_has_its_time():
    screen, relay, (viewer,) = relayed(words=("--handshake", "1"))
    begun = time.time()
    slow = connected(relay.port)
    slow.settimeout(10)
    while slow.recv(64):
        pass
    lasts = time.time() - begun
    assert 0.9 < lasts < 3, lasts
    let_go(relay, 1)
    screen.draws(*screen.scene())
    viewer.follows(screen.picture)
    return f"let go after {lasts:.2f} s"


def who_takes_nothing_of_what_waits_is_let_go():
    screen, relay, (stuck, other) = relayed(2, words=("--timeout", "3"), width=1600, height=1200)
    other.ask()
    stuck.ask(0)
    begun = time.time()
    wait_for(lambda: relay.lines(b"leave"), relay.output)
    lasts = time.time() - begun
    assert 2.9 < lasts < 9 and relay.lines(b"leave") == [b"leave 0 ok"], (lasts, relay.output)
    # Who waits for what changes stays, and so does a server that says nothing.
    time.sleep(3.3)
    screen.draws(raw(screen.chance, screen.form, (5, 4, 300, 2)))
    other.update()
    assert other.shows(screen.picture)
    screen.is_right()
    return f"let go after {lasts:.2f} s"


def who_wants_the_screen_alone_has_it_unless_all_share():
    screen, relay, three = relayed(3)
    alone = Seer(relay).hello(0).begins()
    assert all(viewer.has_ended() for viewer in three)
    assert alone.shows(screen.picture)
    screen, relay, three = relayed(3, words=("--always-shared",))
    three.append(Seer(relay).hello(0).begins())
    screen.draws(*screen.scene())
    for viewer in three:
        viewer.follows(screen.picture)
    assert not relay.lines(b"leave"), relay.output
    screen.is_right()


def it_ends_with_the_last_viewer_where_that_is_said():
    screen, relay, two = relayed(2, words=("--until-idle",))
    two[0].close()
    relay.tells(b"leave 0 ok")
    screen.draws(*screen.scene())
    two[1].follows(screen.picture)
    two[1].close()
    relay.ends(0)
    assert screen.has_ended.wait(5)
    assert b"server down" not in relay.output and b"fault" not in relay.errors, relay.output
    screen.is_right()


def standard_input_is_not_read():
    screen = Screen()
    with tempfile.TemporaryFile() as given:
        given.write(b"quit\n")
        given.seek(0)
        relay = Relay(screen.port, owner=given)
        assert Seer(relay).hello().begins().shows(screen.picture)
        screen.closes()
        relay.ends()
        assert os.lseek(given.fileno(), 0, os.SEEK_CUR) == 0


def no_sentence_is_said_where_none_is_wanted():
    for words, is_said in ((), True), (("--quiet",), False):
        screen, relay, (viewer,) = relayed(words=words)
        viewer.close()
        relay.tells(b"leave 0 ok")
        screen.closes()
        relay.ends()
        assert (b"rfb: " in relay.errors) == is_said, relay.errors


# ---- a server that is called again

AGAIN = ("--retry", "1")


def relayed_again(count=1, words=(), **more):
    """The same as `relayed`, of a server that is called again."""
    return relayed(count, (*AGAIN, *words), port=free_port(), **more)


def seen_so_far(screen):
    """Its picture, as it is now."""
    picture = Picture(screen.picture.width, screen.picture.height)
    picture.places[:] = screen.picture.places
    return picture


def goes_away(screen, relay, times=1, reset=False):
    """The server ends, and a line tells it."""
    screen.closes(reset)
    assert screen.has_ended.wait(5)
    wait_for(lambda: relay.output.count(b"\nserver down ") == times, relay.output[-300:])


def comes_back(screen, relay, times=2):
    """A line tells its screen."""
    size = screen.picture.width, screen.picture.height
    relay.tells(b"server up %d %d 77616c6c" % size, times)


def only_waits(viewers, picture):
    """Viewers that asked for what changes get nothing, and one that asks for all sees that."""
    assert all(viewer.hears_nothing(0.3) is True for viewer in viewers)
    viewers[0].begins()
    assert viewers[0].shows(picture)
    viewers[0].ask()


def a_server_that_comes_back_is_relayed_again():
    """Viewers keep the last picture until the first update of the new one is whole."""
    screen, relay, two = relayed_again(2, width=33, height=21)
    for round in range(2):
        last = seen_so_far(screen)
        goes_away(screen, relay, round + 1, reset=round == 1)
        for viewer in two:
            viewer.ask()
            viewer.send(key(0x500 + round) + pointer(1, 3, 4) + cut_text(b"hi"))
        only_waits(two, last)
        screen = Screen(33, 21, port=screen.port, is_held=True, seed=40 + round)
        wait_for(lambda: screen.open, relay.output[-300:])
        data = framebuffer_head(2) + whole(screen.picture, screen.form)
        place = raw(screen.chance, screen.form, (5, 6, 7, 8))
        for part in data[:100], data[100:], place[:-1]:
            only_waits(two, last)
            two[1].send(key(0x510 + round))
            screen.sends(part)
        only_waits(two, last)
        late = Seer(relay).hello().begins()
        assert late.shows(last)
        screen.open.clear()
        screen.paints(place)
        screen.sends(place[-1:])
        late.follows(screen.picture)
        late.close()
        let_go(relay, 2, round + 1)
        for viewer in two:
            viewer.update()
            assert viewer.shows(screen.picture)
        comes_back(screen, relay, round + 2)
        relay.says(b"the server is back")
        screen.is_held = False
        screen.draws(*screen.scene())
        for viewer in two:
            viewer.send(key(0x600 + round))
            viewer.follows(screen.picture)
        wait_for(lambda: len(screen.events()) >= 2, screen.events())
        assert screen.events() == [(KEY, 1, 0x600 + round)] * 2, screen.events()
        screen.is_right()
    assert relay.lines(b"server")[1::2] == [b"server down closed", b"server down failed"]
    assert {it[:8] for it in relay.lines(b"leave")} == {b"leave 2 "}, relay.output


def one_of_another_size_has_viewers_of_its_own():
    for width, height in (41, 30), (40, 31), (7, 300):
        screen, relay, two = relayed_again(2)
        two[0].ask()
        goes_away(screen, relay)
        screen = Screen(width, height, port=screen.port, seed=50)
        for viewer in two:
            viewer.ends_well()
        comes_back(screen, relay, 1)
        assert relay.lines(b"server")[1] == b"server down closed"
        told = [it for it in relay.output.split(b"\n") if it][-3:]
        assert told[:2] == [b"leave 0 ok", b"leave 1 ok"] and told[2] in relay.lines(b"server")
        for seat in range(2):
            relay.says(b"the viewer at seat %d leaves: the server is back, and its screen is"
                       b" %d by %d now" % (seat, width, height))
        viewer = Seer(relay).hello().begins()
        assert (viewer.width, viewer.height) == (width, height) and viewer.shows(screen.picture)
        viewer.send(key(77))
        wait_for(lambda: screen.events() == [(KEY, 1, 77)], screen.events())
        screen.draws(*screen.scene())
        viewer.follows(screen.picture)
        screen.is_right()


def one_that_stays_away_is_called_every_time():
    """And nothing is done in between."""
    screen, relay, (viewer,) = relayed_again()
    viewer.ask()
    usual = relay.descriptors() - 1
    goes_away(screen, relay)
    before, begun = relay.ticks(), time.time()
    time.sleep(4.5)
    took = relay.ticks() - before
    calls = relay.errors.count(b"rfb: the server is called again in 1 s\n") - 1
    assert 3 <= calls <= 5, relay.errors
    assert relay.errors.count(b"rfb: there is no connection to the server\n") == calls
    relay.says(b"the server leaves: it closed its connection")
    assert took <= 3 and relay.descriptors() == usual, (took, relay.descriptors(), usual)
    assert viewer.hears_nothing(0.1) is True
    screen = Screen(port=screen.port, seed=51)
    viewer.update()
    lasts = time.time() - begun
    assert viewer.shows(screen.picture)
    comes_back(screen, relay)
    assert relay.lines(b"server") == [b"server up 40 30 77616c6c", b"server down closed",
                                      b"server up 40 30 77616c6c"]
    screen.is_right()
    return f"{calls} calls in {lasts:.1f} s, {took} hundredths of a second of the processor"


def a_call_that_nobody_answers_holds_up_nobody():
    """No connection is made, and none is refused: the listener is full."""
    screen, relay, (viewer, other) = relayed_again(2)
    last = seen_so_far(screen)
    goes_away(screen, relay)
    full = socket.socket()
    full.setsockopt(socket.SOL_SOCKET, socket.SO_REUSEADDR, 1)
    full.bind(("127.0.0.1", screen.port))
    full.listen(0)
    with full, connected(screen.port):
        time.sleep(1.5)
        before, longest, count = relay.ticks(), 0, 0
        begun = time.time()
        while time.time() < begun + 2:
            asked = time.time()
            viewer.begins()
            other.send(key(0x700 + count))
            longest, count = max(longest, time.time() - asked), count + 1
            time.sleep(0.02)
        assert viewer.shows(last) and longest < 0.3, longest
        relay.tells(b"key 1 down %d" % (0x700 + count - 1))
        # It serves some hundred updates in that time.
        before = relay.ticks()
        time.sleep(1)
        assert relay.ticks() - before <= 2, relay.ticks() - before
        assert relay.errors.count(b" is called again ") <= 2, relay.errors
    screen = Screen(port=screen.port, seed=52)
    viewer.follows(screen.picture)
    screen.is_right()
    assert not screen.events(), screen.events()
    return f"{count} updates meanwhile, the longest after {longest:.3f} s"


def one_that_comes_back_wrong_is_called_again():
    """Until one is right; viewers keep the last picture."""
    screen, relay, two = relayed_again(2)
    last, usual = seen_so_far(screen), relay.descriptors()
    for viewer in two:
        viewer.ask()
    goes_away(screen, relay)
    hello = handshake(40, 30)
    first = hello + framebuffer_head(1) + whole(Picture(40, 30), screen.form)
    for sent, is_silent, sentence in (
            (b"", False, None), (b"220 hi\r\n.....", True, b"the other end sent no version"),
            (b"RFB 00", False, None), (b"RFB 003.008\n\1\2", True, b"no security type 1 (None)"),
            (hello[:30], False, None), (hello, False, None), (first[:-1], False, None),
            (hello + b"\x63", True, b"a message has type 99"),
            (hello + framebuffer_head(1) + rectangle_head(RAW, (39, 0, 2, 1)), True,
             b"a rectangle leaves the screen"),
            (handshake(5000, 3), True, b"the server's screen is 5000 by 3")):
        server = Server(sent, port=screen.port, is_silent=is_silent)
        server.thread.join(10)
        assert not server.thread.is_alive(), sent[:40]
        if sentence:
            wait_for(lambda: sentence in relay.errors, (sentence, relay.errors[-300:]))
        only_waits(two, last)
    assert relay.lines(b"server") == [b"server up 40 30 77616c6c", b"server down closed"]
    assert b"the server is back" not in relay.errors and not relay.lines(b"leave")
    screen = Screen(port=screen.port, seed=54)
    for viewer in two:
        viewer.update()
        assert viewer.shows(screen.picture)
    comes_back(screen, relay)
    assert relay.descriptors() == usual, (relay.descriptors(), usual)
    screen.is_right()


def one_that_goes_before_its_first_picture_is_called_again():
    screen = Screen(23, 17, is_held=True, port=free_port())
    relay = Relay(screen.port, *AGAIN)
    wait_for(lambda: screen.open, screen.heard)
    waiting = Seer(relay)
    screen.sends((framebuffer_head(1) + whole(screen.picture, screen.form))[:-1])
    screen.closes()
    assert screen.has_ended.wait(5)
    assert waiting.hears_nothing(0.3) is True and not relay.output, relay.output
    screen = Screen(31, 22, port=screen.port, seed=55)
    assert waiting.hello().begins().shows(screen.picture)
    comes_back(screen, relay, 1)
    assert relay.lines(b"server") == [b"server up 31 22 77616c6c"], relay.output
    screen.is_right()
    # One that is not there at first is called no more.
    relay = Relay(free_port(), *AGAIN)
    relay.ends()
    assert relay.errors.endswith(b"fault 29 Device\n") and relay.output == b"", relay.errors


def one_that_breaks_in_its_handshake_is_called_again():
    """Where that is known by a write alone, and nothing is to be said that would be written."""
    screen, relay, (viewer,) = relayed_again(words=("--quiet",))
    viewer.ask()
    goes_away(screen, relay)
    with socket.create_server(("127.0.0.1", screen.port)) as listener:
        listener.settimeout(10)
        for _ in range(3):
            line = listener.accept()[0]
            # What was sent is read all the same.
            halts(relay)
            line.sendall(VERSION)
            breaks(line)
            time.sleep(0.05)
            relay.run.send_signal(signal.SIGCONT)
        listener.accept()[0].close()
    screen = Screen(port=screen.port, seed=56)
    viewer.update()
    assert viewer.shows(screen.picture)
    comes_back(screen, relay)
    assert relay.errors == b"", relay.errors
    screen.is_right()


def each_address_of_a_host_is_called():
    """And first the one at which the server was."""
    with two_addresses() as made:
        if not made:
            return "no C compiler: no host has two addresses"

        class Preloaded(Relay):
            runner = ["env", "LD_PRELOAD=" + made]

        screen = Screen(port=free_port())
        relay = Preloaded(screen.port, *AGAIN, host="two.invalid")
        viewer = Seer(relay).hello().begins()
        for times, calls in (1, 2), (2, 3):
            goes_away(screen, relay, times)
            screen = Screen(port=screen.port, seed=60 + times)
            viewer.follows(screen.picture)
            comes_back(screen, relay, times + 1)
            count = relay.errors.count(b" is called again ")
            assert count == calls, relay.errors
            screen.is_right()


def the_last_viewer_ends_a_relay_whose_server_is_away():
    screen, relay, two = relayed_again(2, ("--until-idle", "--quiet"))
    goes_away(screen, relay)
    time.sleep(1.2)
    for viewer in two:
        viewer.begins().close()
    relay.ends(0)
    assert relay.output.endswith(b"leave 0 ok\nleave 1 ok\n") or relay.output.endswith(
        b"leave 1 ok\nleave 0 ok\n"), relay.output
    assert relay.errors == b"", relay.errors


ROWS = [what_the_server_draws_is_what_each_viewer_sees,
        a_format_and_encodings_are_asked_of_the_server,
        a_copy_of_the_servers_is_a_copy_to_who_takes_copies,
        nobody_is_let_in_before_the_first_update_is_whole,
        of_an_update_under_way_nothing_is_shown_for_a_second, an_update_that_stops_stops_nobody,
        what_viewers_do_reaches_the_server_in_order,
        a_long_text_reaches_the_server_whole_or_cut_at_its_end,
        nothing_of_a_viewer_is_passed_on_before_its_handshake, of_a_view_alone_nothing_is_passed_on,
        nothing_is_asked_where_nobody_waits, who_asks_for_all_sees_at_the_next_look_what_changed,
        a_bell_and_a_text_are_lines_and_no_more,
        each_line_is_told_in_its_order, where_the_server_goes_away_viewers_get_what_waits,
        a_server_that_is_not_there_is_explained,
        a_server_that_does_wrong_ends_the_relay_and_no_more, a_screen_that_is_too_large_is_refused,
        a_viewer_that_does_wrong_is_let_go_alone, a_viewer_that_never_reads_stops_nobody,
        what_waits_for_a_server_that_does_not_read_is_little,
        others_see_what_a_server_sends_that_does_not_read, seats_are_those_of_a_share,
        an_address_is_listened_on, a_handshake_has_its_time,
        who_takes_nothing_of_what_waits_is_let_go,
        who_wants_the_screen_alone_has_it_unless_all_share,
        it_ends_with_the_last_viewer_where_that_is_said, standard_input_is_not_read,
        no_sentence_is_said_where_none_is_wanted]

# Rows of `--retry`.
RETRY = [a_server_that_comes_back_is_relayed_again, one_of_another_size_has_viewers_of_its_own,
         one_that_stays_away_is_called_every_time, a_call_that_nobody_answers_holds_up_nobody,
         one_that_comes_back_wrong_is_called_again,
         one_that_goes_before_its_first_picture_is_called_again,
         one_that_breaks_in_its_handshake_is_called_again, each_address_of_a_host_is_called,
         the_last_viewer_ends_a_relay_whose_server_is_away]


def has_retry(program):
    told = subprocess.run([program, "relay", "--help"], stdout=subprocess.PIPE,
                          stderr=subprocess.DEVNULL).stdout
    return b"--retry" in told


if __name__ == "__main__":
    if has_retry(os.path.abspath(sys.argv[1])):
        run_rows(ROWS + RETRY)
    run_rows(ROWS, RETRY)
