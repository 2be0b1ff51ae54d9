#!/usr/bin/env python3
"""Files in place of standard input and output, and terminals.

    .ci/files.py PROGRAM..

Each row runs a program on files in a folder of its own, or on a terminal, and compares its status,
both outputs and what is in the folder then with what docs/PROTOCOL.md says. `.ci/memory.sh` takes
CALLS too. The last line is 'N passed, M failed'.
"""

import contextlib
import os
import socket
import stat
import sys
import tempfile
import time
import tty

from calls import DEVICE, TRUNCATED, Call, Run, ends, failing, judged
from messages import HELLO, MORE, SERVER
from peers import Server, breaks, free_port, takes, viewing
from pictures import BLACK, FILLED, ORANGE, SCRIPT, SHOWN, SHOWN_LATER

# ---- files

def a_file_is_written_whole_or_not_at_all():
    with tempfile.TemporaryDirectory() as room:
        script, picture, link = (os.path.join(room, name) for name in ("script", "picture", "link"))

        def holds(path, wanted, count):
            with open(path, "rb") as file:
                assert file.read() == wanted, path
            assert len(os.listdir(room)) == count, os.listdir(room)

        def reads(text):
            with open(script, "wb") as file:
                file.write(text)

        reads(SCRIPT)
        # A new file, and then one in its place. Standard input is not looked at.
        for words in (["script", "-i", script, "-o", picture],
                      ["loop", "--output=" + picture, "-i" + script]):
            ends(words, b"settle\n", 0)
            holds(picture, FILLED, 2)
        # Where it fails, what was there stays.
        reads(b"screen 2 1\n")
        ends(["script", "-i", script, "-o", picture], b"", 1, b"", b"fault 25 NotReady\n")
        holds(picture, FILLED, 2)
        # What a link leads to is written in the same way.
        os.symlink(picture, link)
        for words in ["script", "-i", script], ["play", "-i", "/no"], ["view", f"::{free_port()}"]:
            Run([*words, "-o", link]).ends(1, b"")
            holds(picture, FILLED, 3)
        reads(b"screen 1 1\nsettle\n")
        ends(["script", "--input", script, "-o=" + link], b"", 0)
        assert os.path.islink(link)
        holds(picture, b"P6\n1 1\n65535\n" + bytes(6), 3)
        # A line is no name of standard output.
        Run(["script", "--output", "-"], SCRIPT, room=room).ends(0, b"", b"")
        holds(os.path.join(room, "-"), FILLED, 4)


def a_file_in_place_of_another_has_its_permissions():
    def masked(mask):
        return lambda: os.umask(mask)

    with tempfile.TemporaryDirectory() as room:
        picture, link = os.path.join(room, "picture"), os.path.join(room, "link")
        os.symlink(picture, link)
        for path in picture, link:
            for mode in 0o600, 0o640, 0o755, 0o444, 0o666:
                with open(picture, "w") as file:
                    os.fchmod(file.fileno(), mode)
                Run(["play", "-o", path], SERVER, before=masked(0o022)).ends(0)
                assert is_held(picture, SHOWN, mode)
                os.remove(picture)
        # One that there was not has those that the umask leaves it.
        for mask, mode in (0, 0o666), (0o022, 0o644), (0o027, 0o640), (0o077, 0o600):
            Run(["play", "-o", picture], SERVER, before=masked(mask)).ends(0)
            assert is_held(picture, SHOWN, mode)
            os.remove(picture)


def is_held(path, wanted, mode=None):
    """Whether a regular file holds these bytes, and has these permissions."""
    found = os.lstat(path)
    assert stat.S_ISREG(found.st_mode), path
    with open(path, "rb") as file:
        held = file.read()
    assert held == wanted, (path, held[:100])
    assert mode is None or stat.S_IMODE(found.st_mode) == mode, (path, oct(found.st_mode))
    return True


def part_of(room, picture):
    """The name under which a file is written beside its place."""
    here, there = socket.socketpair()
    before = os.listdir(room)
    with here, there:
        run = Run(["play", "-o", picture], source=there)
        for _ in range(1000):
            names = set(os.listdir(room)).difference(before)
            if names:
                break
            time.sleep(0.01)
        here.close()
        run.ends(1, b"", TRUNCATED)
    assert sorted(os.listdir(room)) == sorted(before), os.listdir(room)
    name, = names
    assert name == os.path.basename(picture) + ".part", name
    return os.path.join(room, name)


def what_an_interrupted_run_left_is_removed_and_no_link_is_followed():
    for is_there in True, False:
        with tempfile.TemporaryDirectory() as room:
            picture, other = os.path.join(room, "picture"), os.path.join(room, "other")
            if is_there:
                with open(picture, "wb") as file:
                    file.write(b"before")
            part = part_of(room, picture)
            with open(other, "wb") as file:
                file.write(b"of somebody else")
            # A link to a file, one to nothing, and a file.
            for left in (lambda: os.symlink(other, part),
                         lambda: os.symlink(os.path.join(room, "nowhere"), part),
                         lambda: os.link(other, part)):
                left()
                ends(["play", "-o", picture], SERVER, 0)
                assert is_held(picture, SHOWN) and is_held(other, b"of somebody else")
                assert sorted(os.listdir(room)) == ["other", "picture"], os.listdir(room)
                os.remove(picture)


def what_is_no_regular_file_is_written_where_it_is():
    with tempfile.TemporaryDirectory() as room:
        link, end, pipe = (os.path.join(room, name) for name in ("link", "end", "pipe"))
        os.symlink(end, link)
        ends(["play", "-o", link], SERVER, 0)
        assert os.path.islink(link) and is_held(end, SHOWN)
        os.mkfifo(pipe)
        here = os.open(pipe, os.O_RDONLY | os.O_NONBLOCK)
        ends(["play", "-o", pipe], SERVER, 0)
        came = os.read(here, 1000)
        os.close(here)
        assert came == SHOWN and stat.S_ISFIFO(os.lstat(pipe).st_mode), came
        assert sorted(os.listdir(room)) == ["end", "link", "pipe"], os.listdir(room)


# An update of SERVER's screen after its first: both places, and the left one's pixel has come. What
# is shown then.
HALF = bytes.fromhex("00000001 0000 0000 0002 0001 00000000 0180FF00 0180")
HALF_SHOWN = b"P6\n2 1\n65535\n" + bytes.fromhex("FFFF80800101 040400000202")

# What comes before an early end, and the picture of it; none, where the size of the screen has not
# come.
EARLY = ((SERVER + HALF, HALF_SHOWN), (SERVER + MORE[:9], SHOWN), (SERVER + MORE, SHOWN_LATER),
         (HELLO, BLACK), (HELLO[:36], None), (b"", None))


def is_kept(shown, does):
    """Does something with words for a file that is not there, and for one that is. Then it holds
    this, or is as it was where that is nothing; and no other is in its folder."""
    for before in None, b"before":
        with tempfile.TemporaryDirectory() as room:
            path = os.path.join(room, "picture")
            if before is not None:
                with open(path, "wb") as file:
                    file.write(before)
            does(["-o", path])
            wanted = before if shown is None else shown
            assert os.listdir(room) == ([] if wanted is None else ["picture"]), os.listdir(room)
            assert wanted is None or is_held(path, wanted)


def what_came_by_an_early_end_is_kept_in_a_file_if_it_is_wanted():
    for given, shown in EARLY:
        def fails(words):
            with failing(given) as source:
                Run(["play", *words], source=source).ends(1, b"", DEVICE)

        def views(words):
            server = Server(given)
            server.shows([f"::{server.port}", "--updates=3", *words], 1, b"", TRUNCATED)

        is_kept(shown, lambda words: fails(["--partial", *words]))
        is_kept(shown, lambda words: views(["--partial", *words]))
        # A recording is kept as a picture is.
        is_kept(given or None, lambda words: views(["--partial", "--record", *words]))
        for more in [], ["--record"]:
            is_kept(None, lambda words: views([*more, *words]))
        is_kept(None, fails)
    for given, shown in (SERVER + HALF, HALF_SHOWN), (SERVER[:65], BLACK), (HELLO[:36], None):
        is_kept(shown, lambda words: ends(["play", "--partial", *words], given, 1, b"", TRUNCATED))
    is_kept(None, lambda words: ends(["view", f"::{free_port()}", "--partial", *words], b"", 1, b"",
                                     DEVICE))
    # What a server does wrong is no early end.
    is_kept(None, lambda words: ends(["play", "--partial", *words], SERVER + b"\xFF", 1, b"",
                                     b"fault 7 UnknownMessage\n"))


def a_reset_connection_is_an_early_end():
    def resets(words):
        with viewing("--updates=3", "--partial", *words) as (run, line):
            line.sendall(SERVER + more)
            # All up to the request after the first update, so it has read what follows that.
            takes(line, 62)
            breaks(line)
            run.ends(1, b"")
            assert run.told(2).endswith(DEVICE), run.told(2)

    for more, shown in (HALF, HALF_SHOWN), (MORE[:9], SHOWN):
        is_kept(shown, resets)
        is_kept(SERVER + more, lambda words: resets(["--record", *words]))


def a_file_that_cannot_be_had_is_a_fault_of_a_device():
    for words in (["script", "-i", "/no/such/file"], ["play", "-i", "/"],
                  ["script", "-o", "/no/such/file"], ["script", "-o", "/"],
                  ["script", "-o", "/dev/full"], ["script", "-o", ""]):
        ends(words, SCRIPT, 1, b"", DEVICE)


# The same script as SCRIPT, with all four digits of each component.
TWELVE_DIGITS = SCRIPT.replace(b"FF8001", ORANGE.encode())
FULL = b": No space left on device (os error 28)\n"
NONE = b": No such file or directory (os error 2)\n"


def lost(name, words, given, said=b"", device=None):
    """A row of a fault of a device, and of the sentence before it."""
    return Call(name, words.split(), given, 1, b"", said + DEVICE, device)


CALLS = [
    Call("files_in_place_of_both", ["script", "-i", "/dev/stdin", "--output=/dev/stdout"],
         TWELVE_DIGITS, 0, FILLED),
    lost("file_that_is_full", "script -o /dev/full", TWELVE_DIGITS),
    lost("explained_file_that_is_full", "script --explain -o /dev/full", TWELVE_DIGITS,
         b"rfb: cannot write /dev/full" + FULL),
    lost("explained_file_in_no_folder", "script --explain -o /no/such/file", TWELVE_DIGITS,
         b"rfb: cannot write /no/such/file" + NONE),
    lost("explained_file_that_is_not_there", "play --explain --input /no/such/file", b"",
         b"rfb: cannot read /no/such/file" + NONE),
    lost("explained_script_in_a_folder", "script --explain -i /", b"",
         b"rfb: cannot read /: Is a directory (os error 21)\n"),
    lost("picture_that_is_not_there", "serve --port 9 --picture /no/such/file", b""),
    lost("explained_picture_that_is_not_there",
         "serve --explain --port 9 --picture /no/such/file", b"",
         b"rfb: cannot read /no/such/file" + NONE),
    lost("full_device", "script", b"screen 2 1\nsettle\n", b"", "/dev/full"),
    lost("loop_to_a_full_device", "loop", SCRIPT, b"", "/dev/full"),
    lost("explained_full_device", "script --explain", SCRIPT,
         b"rfb: cannot write standard output" + FULL, "/dev/full"),
    lost("picture_to_a_terminal", "script", TWELVE_DIGITS, b"", "/dev/ptmx"),
    lost("explained_picture_to_a_terminal", "script --explain", TWELVE_DIGITS,
         b"rfb: standard output is a terminal, which shows no picture and no recording: name a file"
         b" by -o\n", "/dev/ptmx"),
]


# ---- terminals

def a_terminal_gets_no_picture_by_its_name():
    here, there = os.openpty()
    path = os.ttyname(there)
    for words, given in (["script"], SCRIPT), (["play"], SERVER):
        ends([*words, "-o", path], given, 1, b"", DEVICE)
        ends([*words, "--explain", "-o", path], given, 1, b"", b"rfb: cannot write %s: it is a"
             b" terminal, which shows no picture and no recording\n" % path.encode() + DEVICE)
    os.set_blocking(here, False)
    try:
        assert os.read(here, 100) == b""
    except BlockingIOError:
        pass
    os.close(here)
    os.close(there)


def a_terminal_gets_no_byte_of_a_server():
    """Not where its first byte comes alone either, and nothing that a terminal acts on."""
    here, there = os.openpty()
    tty.setraw(there)
    os.set_blocking(here, False)
    for sent in SERVER, b"\x1b]0;owned\x07\x1b[2J\n":
        for first in 0, 1, 3:
            for words in ["--record"], []:
                with viewing(*words, output=there) as (run, line):
                    line.sendall(sent[:first])
                    time.sleep(0.02 * first)
                    with contextlib.suppress(OSError):
                        line.sendall(sent[first:])
                        line.shutdown(socket.SHUT_WR)
                    run.ends(1)
    with contextlib.suppress(BlockingIOError):
        came = os.read(here, 1000)
        assert not came, came
    os.close(here)
    os.close(there)


def a_person_at_a_terminal_reads_sentences():
    here, there = os.openpty()
    tty.setraw(there)
    for words, given, status, told in (
            (["script"], b"screen 2 1\npaint\n", 1,
             b"rfb: line 2 of the script begins with `paint`, as no line there does\n"
             b"line 2: bad line\n"),
            (["play"], SERVER, 0,
             b"rfb: this is a recording of rfb, 2 by 1\nrfb: updates played: 1\n")):
        Run(words, given, errors=there).ends(status)
        assert os.read(here, 1000) == told
    os.close(here)
    os.close(there)


ROWS = [
    *CALLS,
    a_file_is_written_whole_or_not_at_all,
    a_file_in_place_of_another_has_its_permissions,
    what_an_interrupted_run_left_is_removed_and_no_link_is_followed,
    what_is_no_regular_file_is_written_where_it_is,
    what_came_by_an_early_end_is_kept_in_a_file_if_it_is_wanted,
    a_reset_connection_is_an_early_end,
    a_file_that_cannot_be_had_is_a_fault_of_a_device,
    a_terminal_gets_no_picture_by_its_name,
    a_terminal_gets_no_byte_of_a_server,
    a_person_at_a_terminal_reads_sentences,
]


if __name__ == "__main__":
    sys.exit(judged(ROWS, sys.argv[1:]))
