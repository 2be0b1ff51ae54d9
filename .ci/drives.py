#!/usr/bin/env python3
"""Lines of test rigs: `rfb drive` at servers written from RFC 6143, and at `rfb share`.

    .ci/drives.py crates/rfb/out/rfb [ROW..]

Each row starts a server and a drive of it, and looks at what the server gets, each byte of which
must be of a client's message, at what the drive reports, and at the files that it writes. Without
names all rows are run. The last line is 'N passed, M failed'.
"""

import os
import subprocess
import tempfile
import time

from messages import rectangle_head, texted
from pictures import doubled
from relaying import KEY, LISTED, POINTER, TEXT, Fed, Screen, raw, relayed
from sharing import Share, run_rows, wait_for
from streams import COPY_RECT, FORMATS, RAW, Picture

SHIFT, CONTROL, ALT = 0xFFE1, 0xFFE3, 0xFFE9
DOWN, UP = 1, 0
BELL = b"\2"


class Drive(Share):
    """A run of `rfb drive` at a server, by its port, and what it has reported so far."""

    command = "drive"

    def __init__(self, port, *words, lines=None, **more):
        program, self.port = self.program, port
        self.run = subprocess.Popen(
            [*self.runner, program, self.command, f"127.0.0.1::{port}", *words],
            stdin=subprocess.PIPE, stdout=subprocess.PIPE, stderr=subprocess.PIPE, **more)
        self.begun.append(self)
        self.output, self.errors, self.threads = b"", b"", []
        for name in "output", "errors":
            self.hear(name)
        if lines is not None:
            self.ask(*lines)
            self.run.stdin.close()

    def ask(self, *lines):
        self.say(b"".join(it if isinstance(it, bytes) else it.encode() + b"\n" for it in lines))

    def ends(self, status=0):
        super().ends(status)
        for thread in self.threads:
            thread.join(10)

    def does(self, *lines):
        """Does these lines, and waits until the last is done."""
        self.ask(*lines)
        self.count = getattr(self, "count", 0) + len(lines)
        self.tells(b"done %d" % self.count)


def driven(*words, **more):
    """A screen, and a drive of it that is ready."""
    screen = Screen(**more)
    drive = Drive(screen.port, *words)
    drive.tells(b"ready %d %d %s" % (screen.picture.width, screen.picture.height,
                                     screen.name.hex().encode()))
    return screen, drive


def tapped(*keys):
    return [it for key in keys for it in ((KEY, DOWN, key), (KEY, UP, key))]


def shifted(key):
    return [(KEY, DOWN, SHIFT), *tapped(key), (KEY, UP, SHIFT)]


def ppm(picture, area=None):
    """A part of a picture as PPM."""
    x, y, w, h = area or (0, 0, picture.width, picture.height)
    rows = [bytes(picture.places[((y + k) * picture.width + x) * 6:][:6 * w]) for k in range(h)]
    return b"P6\n%d %d\n65535\n" % (w, h) + b"".join(rows)


def small_ppm(picture, area, off=0):
    """The same with components of a byte, the first of which is so far off."""
    x, y, w, h = area
    rows = bytearray()
    for k in range(h):
        rows += picture.places[((y + k) * picture.width + x) * 6:][:6 * w:2]
    rows[0] += off if rows[0] + off in range(256) else -off
    return b"P6\n%d %d\n255\n" % (w, h) + bytes(rows)


class Folder(tempfile.TemporaryDirectory):
    """A folder with files, by their names."""

    def __init__(self, **files):
        super().__init__()
        for name, data in files.items():
            with open(self.path(name), "wb") as file:
                file.write(data)

    def path(self, name):
        return os.path.join(self.name, name)

    def read(self, name):
        with open(self.path(name), "rb") as file:
            return file.read()


# ---- what a server gets

LINES = [
    ("key a", tapped(ord("a"))),
    ("key Return F5 0xFF0D", tapped(0xFF0D, 0xFFC2, 0xFF0D)),
    ("key ctrl-alt-delete", [(KEY, DOWN, CONTROL), (KEY, DOWN, ALT), (KEY, DOWN, 0xFFFF),
                             (KEY, UP, 0xFFFF), (KEY, UP, ALT), (KEY, UP, CONTROL)]),
    ("key A -", tapped(ord("A"), ord("-"))),
    ("down shift", [(KEY, DOWN, SHIFT)]),
    ("up shift", [(KEY, UP, SHIFT)]),
    ("type a B~ 1", [*tapped(ord("a"), ord(" ")), *shifted(ord("B")), *shifted(ord("~")),
                     *tapped(ord(" "), ord("1"))]),
    ("type ä€", tapped(0xE4, 0x010020AC)),
    ("move 3 5", [(POINTER, 0, 3, 5)]),
    ("click", [(POINTER, 1, 3, 5), (POINTER, 0, 3, 5)]),
    ("click 3", [(POINTER, 4, 3, 5), (POINTER, 0, 3, 5)]),
    ("click 2 7 8", [(POINTER, 0, 7, 8), (POINTER, 2, 7, 8), (POINTER, 0, 7, 8)]),
    ("double", [(POINTER, 1, 7, 8), (POINTER, 0, 7, 8)] * 2),
    ("drag 20 11", [(POINTER, 1, 7, 8), (POINTER, 1, 20, 11), (POINTER, 0, 20, 11)]),
    ("wheel up 2", [(POINTER, 8, 20, 11), (POINTER, 0, 20, 11)] * 2),
    ("wheel down 1", [(POINTER, 16, 20, 11), (POINTER, 0, 20, 11)]),
    ("click 8 1 2", [(POINTER, 0, 1, 2), (POINTER, 128, 1, 2), (POINTER, 0, 1, 2)]),
    ("paste 6162e4", [(TEXT, b"ab\xe4")]),
]


def each_line_is_its_messages_and_no_more():
    screen, drive = driven()
    wanted = []
    for number, (line, events) in enumerate(LINES, 1):
        drive.ask(line)
        drive.tells(b"done %d" % number)
        wanted += events
        wait_for(lambda: len(screen.events()) >= len(wanted), screen.events()[-4:])
        assert screen.events() == wanted, (line, screen.events()[-8:])
    assert screen.heard[1] == LISTED, screen.heard[1]
    drive.run.stdin.close()
    drive.ends()
    assert screen.events() == wanted
    screen.is_right()


def lines_that_come_at_once_are_done_in_their_order():
    """Whatever the pieces in which they come; an empty line and a remark are counted."""
    text = "\n".join(["# keys", ""] + [line for line, _ in LINES]).encode()
    for step in len(text), 1, 7:
        screen = Screen()
        drive = Drive(screen.port)
        for at in range(0, len(text), step):
            drive.say(text[at:at + step])
            time.sleep(0.0005 if step < len(text) else 0)
        drive.run.stdin.close()
        drive.ends()
        assert screen.events() == [it for _, events in LINES for it in events]
        done = [it for it in drive.output.split(b"\n") if it.startswith(b"done")]
        assert done == [b"done %d" % (number + 3) for number in range(len(LINES))], done
        screen.is_right()


def nothing_is_sent_before_the_first_update_is_whole():
    screen = Screen(is_held=True)
    drive = Drive(screen.port, lines=["key a"])
    wait_for(lambda: screen.open, screen.heard)
    time.sleep(0.3)
    assert not screen.events() and not drive.output, (screen.events(), drive.output)
    screen.is_held = False
    screen.answers()
    drive.ends()
    assert screen.events() == tapped(ord("a"))
    screen.is_right()


def a_line_is_begun_when_the_one_before_it_is_done():
    """A server that does not read gets nothing of what comes after a wait."""
    screen, drive = driven()
    start = time.time()
    drive.ask("key a", "wait 1", "key b")
    wait_for(lambda: len(screen.events()) == 2, screen.events())
    time.sleep(0.5)
    assert screen.events() == tapped(ord("a"))
    drive.tells(b"done 3")
    assert time.time() - start >= 1
    wait_for(lambda: len(screen.events()) == 4, screen.events())
    assert screen.events() == tapped(ord("a"), ord("b"))
    screen.is_right()


def a_share_tells_each_key_and_pointer_as_it_came():
    share = Share()
    share.say("screen 40 30\n")
    drive = Drive(share.port, lines=["key Tab", "click 1 4 6", "paste 6869"])
    drive.ends()
    for line in (b"key 0 down 65289", b"key 0 up 65289", b"pointer 0 1 4 6", b"pointer 0 0 4 6",
                 b"text 0 6869"):
        share.tells(line)


# ---- what is shown

def what_the_screen_shows_is_saved():
    with Folder() as name:
        screen, drive = driven(width=37, height=23)
        path = os.path.join(name, "a.ppm")
        for area in None, (3, 5, 20, 11), (36, 22, 1, 1):
            drive.does(f"save {path}" + (" %d %d %d %d" % area if area else ""))
            with open(path, "rb") as file:
                assert file.read() == ppm(screen.picture, area), area
            screen.draws(*screen.scene())
            drive.does("still 1")
        assert os.listdir(name) == ["a.ppm"], os.listdir(name)
        screen.is_right()


def an_expected_picture_is_waited_for():
    screen, drive = driven(width=50, height=40)
    area = 7, 9, 20, 15
    old = small_ppm(screen.picture, area)
    screen.draws(raw(screen.chance, screen.form, (0, 0, 50, 40)))
    new = small_ppm(screen.picture, area)
    with Folder(old=old, new=new, whole=ppm(screen.picture)) as name:
        drive.does(f"expect {name}/new at 7 9", f"expect {name}/whole")
        drive.ask(f"expect {name}/old at 7 9")
        time.sleep(0.5)
        assert drive.output.count(b"done") == 2, drive.output
        # Elsewhere it counts for nothing.
        screen.draws(raw(screen.chance, screen.form, (30, 0, 5, 5)))
        time.sleep(0.2)
        assert drive.output.count(b"done") == 2, drive.output
        body = old.split(b"255\n", 1)[1]
        pixels = b"".join(bytes([b, g, r, 0]) for r, g, b in zip(body[::3], body[1::3], body[2::3]))
        start = time.time()
        screen.draws(rectangle_head(RAW, area) + pixels)
        drive.tells(b"done 3")
        assert time.time() - start < 1
    screen.is_right()


def each_component_may_be_off_by_so_much():
    screen, drive = driven("--timeout", "1")
    area = 2, 3, 9, 4
    with Folder(near=small_ppm(screen.picture, area, 3)) as name:
        drive.does(f"expect {name}/near at 2 3 within 3")
        drive.ask(f"expect {name}/near at 2 3 within 2")
        drive.ends(1)
    assert b"rfb: line 2 was not done in time: 1 pixel differs, the first at (2, 3), which shows " \
        in drive.errors, drive.errors
    assert drive.errors.endswith(b"line 2: not done in time\n"), drive.errors


def what_differs_is_said_and_kept():
    screen = Screen(width=30, height=20)
    picture = Picture(30, 20)
    picture.places[:] = screen.picture.places
    for x, y in (4, 6), (29, 6), (0, 19):
        at = (y * 30 + x) * 6
        picture.places[at:at + 6] = doubled(bytes([1, 2, 3]))
    at = (6 * 30 + 4) * 6
    shown = bytes(screen.picture.places[at:at + 6:2])
    with Folder(wanted=ppm(picture)) as name:
        drive = Drive(screen.port, "--keep", name, lines=["timeout 1", f"expect {name}/wanted"])
        drive.ends(1)
        assert (b"rfb: line 2 was not done in time: 3 pixels differ, the first at (4, 6), which "
                b"shows %s, not 010203\n" % shown.hex().encode()) in drive.errors, drive.errors
        with open(f"{name}/screen.ppm", "rb") as file:
            assert file.read() == ppm(screen.picture)
        with open(f"{name}/difference.ppm", "rb") as file:
            places = file.read().split(b"65535\n", 1)[1]
        far = [k for k in range(600) if any(places[6 * k:6 * k + 6])]
        assert far == [6 * 30 + 4, 6 * 30 + 29, 19 * 30], far
        first = places[6 * far[0]:6 * far[0] + 6:2]
        assert first == bytes(abs(a - b) for a, b in zip(shown, (1, 2, 3))), first
    screen.is_right()


def a_still_screen_is_waited_for():
    screen, drive = driven()
    start = time.time()
    drive.ask("still 1")
    for _ in range(6):
        screen.draws(raw(screen.chance, screen.form, (1, 1, 2, 2)))
        time.sleep(0.25)
    assert b"done" not in drive.output, drive.output
    drive.tells(b"done 1")
    assert 2 <= time.time() - start < 4, time.time() - start
    screen.is_right()


def a_change_is_waited_for_there():
    screen, drive = driven()
    drive.ask("until-change 10 10 5 5")
    screen.draws(raw(screen.chance, screen.form, (1, 1, 2, 2)))
    time.sleep(0.4)
    assert b"done" not in drive.output, drive.output
    screen.draws(raw(screen.chance, screen.form, (14, 14, 3, 3)))
    drive.tells(b"done 1")
    # One that comes before the line is read counts, one before the last line's end does not.
    screen.draws(raw(screen.chance, screen.form, (0, 0, 1, 1)))
    time.sleep(0.3)
    drive.ask("until-change")
    drive.tells(b"done 2")
    drive.ask("timeout 1", "until-change")
    drive.ends(1)
    assert b"rfb: line 4 was not done in time: nothing changed\n" in drive.errors, drive.errors
    screen.is_right()


def what_happens_is_reported():
    screen, drive = driven("--tell")
    screen.sends(BELL)
    drive.tells(b"bell")
    screen.sends(b"\3\0\0\0" + texted(b"ab\xff"))
    drive.tells(b"text 6162ff")
    screen.draws(raw(screen.chance, screen.form, (3, 4, 5, 6)))
    drive.tells(b"changed 3 4 5 6")
    screen.is_right()


# ---- what ends it

BAD = [
    ("press a", b"no line begins with `press`"),
    ("key", b"after its first word comes 1 to 8 words, each of 1 to 8 names of keys with hyphens "
            b"between them"),
    ("key Nokey", b"after its first word comes 1 to 8 words, each of 1 to 8 names of keys with "
                  b"hyphens between them"),
    ("click 9", b"after its first word comes nothing, or a button from 1 to 8, or a column and a "
                b"row, or all three"),
    ("move 3", b"after its first word comes a column and a row"),
    ("move 40 0", b"(40, 0) is not on the screen of 40 by 30"),
    ("paste abc", b"after its first word comes hexadecimal digits, two for each byte"),
    ("save x 0 0 41 1", b"41 by 1 at (0, 0) is no part of the screen of 40 by 30"),
    ("until-change 0 0 0 1", b"0 by 1 at (0, 0) is no part of the screen of 40 by 30"),
    ("timeout", b"after its first word comes a number of seconds"),
]


def a_bad_line_is_said_by_its_number_and_nothing_of_it_is_sent():
    for line, why in BAD:
        screen = Screen()
        drive = Drive(screen.port, lines=["key a", "", line, "key b"])
        drive.ends(1)
        assert b"rfb: line 3: %b\n" % why in drive.errors, (line, drive.errors)
        assert drive.errors.endswith(b"line 3: bad line\n"), drive.errors
        wait_for(lambda: len(screen.events()) == 2, (line, screen.events()))
        assert screen.events() == tapped(ord("a")), (line, screen.events())
        screen.is_right()


def a_line_that_is_too_long_is_bad():
    screen = Screen()
    drive = Drive(screen.port, lines=["type " + "a" * 65532])
    drive.ends(1)
    assert b"rfb: line 1: it has more than 65536 bytes\n" in drive.errors, drive.errors


def files_that_cannot_be_had_are_said():
    with Folder(text=b"no picture", wide=b"P6\n41 1\n255\n" + bytes(123)) as name:
        for line, why, last in (
                (f"expect {name}/none", b"No such file", b"line 1: bad file\n"),
                (f"expect {name}/text", b"bad picture 1: it does not begin with P6",
                 b"line 1: bad file\n"),
                (f"expect {name}/wide", b"has 41 by 1, which at (0, 0) leaves the screen of 40 by 30",
                 b"line 1: bad line\n"),
                (f"paste-file {name}/none", b"No such file", b"line 1: bad file\n"),
                (f"save {name}/none/a.ppm", b"No such file", b"line 1: bad file\n")):
            screen = Screen()
            drive = Drive(screen.port, lines=[line])
            drive.ends(1)
            assert why in drive.errors and drive.errors.endswith(last), (line, drive.errors)
            assert not screen.events()
        screen = Screen()
        drive = Drive(screen.port, lines=[f"paste-file {name}/text"])
        drive.ends()
        assert screen.events() == [(TEXT, b"no picture")], screen.events()


def a_server_that_goes_away_ends_it():
    screen, drive = driven()
    drive.ask("key a", "wait 20")
    drive.tells(b"done 1")
    screen.closes()
    drive.ends(1)
    assert b"rfb: the server leaves: it closed its connection\n" in drive.errors, drive.errors
    assert drive.errors.endswith(b"fault 28 Truncated\n"), drive.errors
    wrong = Fed(b"HTTP/1.1 400 Bad\r\n")
    drive = Drive(wrong.port)
    drive.ends(1)
    assert drive.errors.endswith(b"fault 15 BadVersion\n"), drive.errors


def a_server_that_says_nothing_ends_it_in_time():
    silent = Fed(b"")
    start = time.time()
    drive = Drive(silent.port, "--timeout", "1", lines=["key a"])
    drive.ends(1)
    assert 1 <= time.time() - start < 4
    assert b"rfb: the server's first update was not whole in time\n" in drive.errors, drive.errors


def lines_are_those_of_a_file_that_is_named():
    screen = Screen()
    with Folder(lines=b"key a\nkey b") as name:
        drive = Drive(screen.port, "-i", f"{name}/lines")
        drive.ends()
    assert screen.events() == tapped(ord("a"), ord("b"))


def lines_may_be_words():
    screen = Screen()
    drive = Drive(screen.port, "key a", "# no line", "", "--tell", "key b c", "--", "move 4 6")
    drive.ends()
    assert screen.events() == [*tapped(*b"abc"), (POINTER, 0, 4, 6)], screen.events()
    assert drive.output.endswith(b"done 1\ndone 4\ndone 5\n"), drive.output


def a_word_that_is_a_bad_line_is_said_by_its_number():
    screen = Screen()
    drive = Drive(screen.port, "key a", "", "kex", "key b")
    drive.ends(1)
    assert drive.errors.endswith(b"line 3: bad line\n"), drive.errors
    assert screen.events() == tapped(ord("a"))


def a_format_and_encodings_are_asked_for():
    screen, drive = driven("--format", "rgb565", "--encodings", "copyrect,raw")
    assert screen.heard[1] == (2, COPY_RECT, RAW) and screen.form is FORMATS["rgb565"]
    drive.does("key a")
    screen.is_right()


def no_sentence_is_said_where_none_is_wanted():
    screen = Screen()
    drive = Drive(screen.port, "--quiet", lines=["nothing"])
    drive.ends(1)
    assert drive.errors == b"line 1: bad line\n", drive.errors


def a_drive_goes_through_a_relay():
    screen, relay, _ = relayed()
    drive = Drive(relay.port)
    drive.does("key q", "still 1")
    wait_for(lambda: len(screen.events()) == 2, screen.events())
    assert screen.events() == tapped(ord("q"))


ROWS = [each_line_is_its_messages_and_no_more, lines_that_come_at_once_are_done_in_their_order,
        nothing_is_sent_before_the_first_update_is_whole,
        a_line_is_begun_when_the_one_before_it_is_done,
        a_share_tells_each_key_and_pointer_as_it_came, what_the_screen_shows_is_saved,
        an_expected_picture_is_waited_for, each_component_may_be_off_by_so_much,
        what_differs_is_said_and_kept, a_still_screen_is_waited_for, a_change_is_waited_for_there,
        what_happens_is_reported, a_bad_line_is_said_by_its_number_and_nothing_of_it_is_sent,
        a_line_that_is_too_long_is_bad, files_that_cannot_be_had_are_said,
        a_server_that_goes_away_ends_it, a_server_that_says_nothing_ends_it_in_time,
        lines_are_those_of_a_file_that_is_named, lines_may_be_words,
        a_word_that_is_a_bad_line_is_said_by_its_number, a_format_and_encodings_are_asked_for,
        no_sentence_is_said_where_none_is_wanted, a_drive_goes_through_a_relay]

if __name__ == "__main__":
    run_rows(ROWS)
