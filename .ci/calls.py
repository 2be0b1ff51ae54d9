"""Runs of the built program, streams that fail, and rows, for the scripts beside this one."""

import contextlib
import os
import resource
import signal
import socket
import subprocess
import sys
import tempfile
import traceback

DEVICE = b"fault 29 Device\n"
TRUNCATED = b"fault 28 Truncated\n"

# What is said of a server and of a recording.
NO_VERSION = b"rfb: in place of a version came `%b`: no server of RFB begins like that\n"


# What is said where bytes end too early, of an update that has come in part.
UNWRITTEN = b"rfb: no picture is written: --partial writes that of what came\n"
WRITTEN = b"rfb: the picture of what came is written all the same\n"


def closed_after(format):
    return b"rfb: the server closed the connection right after it was asked for pixels in %b\n" % format


def that_is_at(byte, updates=0):
    return b"rfb: that is at byte %d; whole updates before it: %d\n" % (byte, updates)


class Run:
    """A run of the program that has begun. Its input and outputs are files, or what is named. It is
    called rfb, as its own name stands in what it prints."""

    program = None
    begun = []

    def __init__(self, words, given=b"", errors=None, before=None, room=None, source=None,
                 output=None):
        self.files = [tempfile.TemporaryFile() for _ in range(3)]
        self.files[0].write(given)
        self.files[0].seek(0)
        self.words = words
        self.run = subprocess.Popen(["rfb", *words], executable=self.program,
                                    stdin=source or self.files[0],
                                    stdout=output or self.files[1],
                                    stderr=errors or self.files[2],
                                    preexec_fn=before, cwd=room)
        self.begun.append(self)

    def told(self, which):
        self.files[which].seek(0)
        return self.files[which].read()

    def ends(self, status, output=None, errors=None):
        """Compares how it ends; what is None may be anything."""
        try:
            ended = self.run.wait(60)
        except subprocess.TimeoutExpired:
            ended = "none: it has not ended in a minute"
        got = self.told(1), self.told(2)
        assert ended == status, (self.words, ended, got[0][-200:], got[1][-500:])
        assert output is None or got[0] == output, (self.words, got[0][:500])
        assert errors is None or got[1] == errors, (self.words, got[1][-500:])

    def stops(self):
        """Ends it if it still runs."""
        self.run.kill()
        self.run.wait()
        for file in self.files:
            file.close()


def ends(words, given, status, output=b"", errors=b""):
    Run(words, given).ends(status, output, errors)


class Call:
    """A row that is one run: its words, all that it reads, and its status and all that it prints; a
    picture that is None may be any. What it reads and prints are files with names, or its output is
    a device. `before` limits it."""

    def __init__(self, name, words, given=b"", status=0, output=b"", errors=b"", device=None,
                 before=None):
        self.__name__ = name
        self.words, self.given, self.device, self.before = words, given, device, before
        self.status, self.output, self.errors = status, output, errors

    def __call__(self, words=None):
        words = self.words if words is None else words
        with tempfile.TemporaryDirectory() as room:
            given, printed = os.path.join(room, "stdin"), os.path.join(room, "stdout")
            for path, content in (given, self.given), (printed, b""):
                with open(path, "wb") as file:
                    file.write(content)
            with open(given, "rb") as source, open(self.device or printed, "wb") as output:
                Run(words, source=source, output=output, before=self.before).ends(
                    self.status, None, self.errors)
            with open(printed, "rb") as file:
                came = file.read()
            assert self.output in (None, came), (words, came[:500])


# ---- streams that fail

def limited(kind, count):
    """Limits what a run may have. A write past the limit of a file is an error and no signal."""
    def before():
        signal.signal(signal.SIGXFSZ, signal.SIG_IGN)
        resource.setrlimit(kind, (count, count))
    return before


@contextlib.contextmanager
def failing(given):
    """Standard input that gives these bytes, and then fails."""
    here, there = socket.socketpair()
    with here:
        here.sendall(b"unread")
        there.sendall(given)
        # What it was sent is lost, so reads of the other end fail, once they have had all.
        there.close()
        yield here


@contextlib.contextmanager
def halting(given):
    """The same, but that a read would have to wait."""
    here, there = socket.socketpair()
    with here, there:
        here.setblocking(False)
        there.sendall(given)
        yield here


@contextlib.contextmanager
def folder(path):
    opened = os.open(path, os.O_RDONLY)
    yield opened
    os.close(opened)


# ---- rows

def judged(rows, programs):
    """Runs all rows on each program, prints what is wrong and the counts, and tells a status."""
    passed = failed = 0
    for Run.program in map(os.path.abspath, programs):
        for row in rows:
            try:
                row()
                passed += 1
            except Exception:
                failed += 1
                print(f"{os.path.basename(Run.program)}, {row.__name__}:")
                traceback.print_exc(limit=-2, file=sys.stdout)
            while Run.begun:
                Run.begun.pop().stops()
    print(f"{passed} passed, {failed} failed")
    return failed != 0 or passed == 0
