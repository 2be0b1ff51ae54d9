"""A run of `rfb share`, and clients of its own, written from RFC 6143."""

import os
import socket
import struct
import subprocess
import sys
import threading
import time
import traceback

from messages import VERSION, request
from peers import breaks, connected, free_port


def wait_for(is_so, what, limit=20):
    end = time.time() + limit
    while time.time() < end:
        if is_so():
            return
        time.sleep(0.005)
    raise AssertionError(what)


class Share:
    """A run of `rfb share`, after words of the command that runs it, and what it has told so far."""

    program = None
    runner = []
    command = "share"
    begun = []

    def __init__(self, *words, owner=subprocess.PIPE, output=subprocess.PIPE,
                 hears=("output", "errors")):
        """Its owner's lines may be a file, so may its own, and what it writes may be heard later."""
        self.port = free_port()
        self.run = subprocess.Popen(
            [*self.runner, self.program, self.command, "--port", str(self.port), *words],
            stdin=owner, stdout=output, stderr=subprocess.PIPE)
        self.begun.append(self)
        self.output = b""
        self.errors = b""
        self.threads = []
        for name in hears:
            self.hear(name)

    def hear(self, name):
        stream = self.run.stdout if name == "output" else self.run.stderr
        thread = threading.Thread(target=self.listen, args=(name, stream), daemon=True)
        thread.start()
        self.threads.append(thread)

    def listen(self, name, stream):
        while True:
            part = os.read(stream.fileno(), 65536)
            if not part:
                return
            setattr(self, name, getattr(self, name) + part)

    def say(self, text):
        self.run.stdin.write(text if isinstance(text, bytes) else text.encode())
        self.run.stdin.flush()

    def tells(self, line, times=1):
        wait_for(lambda: self.output.split(b"\n").count(line) >= times, (line, self.output[-300:]))

    def says(self, sentence):
        wait_for(lambda: b"rfb: %b\n" % sentence in self.errors, (sentence, self.errors[-300:]))

    def ends(self, status=0):
        assert self.run.wait(10) == status, (self.run.returncode, self.errors)

    def quits(self):
        self.say("quit\n")
        self.ends()

    def stops(self):
        """Ends it if it still runs."""
        self.run.kill()
        self.run.wait()

    def ticks(self):
        """The processor time that it took, in hundredths of a second."""
        with open(f"/proc/{self.run.pid}/stat") as stat:
            words = stat.read().rsplit(")", 1)[1].split()
        return int(words[11]) + int(words[12])

    def memory(self):
        """What it has resident, in KiB."""
        with open(f"/proc/{self.run.pid}/statm") as statm:
            return int(statm.read().split()[1]) * 4

    def descriptors(self):
        return len(os.listdir(f"/proc/{self.run.pid}/fd"))

    def settled(self, usual):
        """Its memory and its descriptors, once it has as many as usual: it closes a connection after
        the line that tells of it."""
        wait_for(lambda: self.descriptors() == usual, usual)
        return self.memory(), usual


class Viewer:
    """A client of version 3.8 that takes Raw and CopyRect at rgb888."""

    def __init__(self, share, bytewise=False):
        self.stream = connected(share.port)
        self.stream.settimeout(10)
        self.stream.setsockopt(socket.IPPROTO_TCP, socket.TCP_NODELAY, 1)
        self.bytewise = bytewise
        self.came = b""

    def send(self, data):
        step = 1 if self.bytewise else len(data)
        for start in range(0, len(data), step):
            self.stream.sendall(data[start:start + step])
            if self.bytewise:
                time.sleep(0.001)

    def get(self, count):
        while len(self.came) < count:
            part = self.stream.recv(65536)
            if not part:
                raise EOFError(self.came[:40])
            self.came += part
        taken, self.came = self.came[:count], self.came[count:]
        return taken

    def hello(self, shared=1):
        assert self.get(12) == VERSION
        self.send(VERSION)
        assert self.get(2) == b"\1\1"
        self.send(b"\1")
        assert self.get(4) == bytes(4)
        self.send(bytes([shared]))
        self.width, self.height = struct.unpack(">HH", self.get(4))
        self.get(16)
        self.name = self.get(struct.unpack(">I", self.get(4))[0])
        self.shown = bytearray(self.width * self.height * 4)
        return self

    def ask(self, incremental=1, area=None):
        self.send(request(incremental, *area or (0, 0, self.width, self.height)))

    def update(self):
        """Takes an update, and returns the encodings of its rectangles."""
        kind, count = struct.unpack(">BxH", self.get(4))
        assert kind == 0, kind
        encodings = []
        for _ in range(count):
            x, y, w, h, encoding = struct.unpack(">HHHHi", self.get(12))
            encodings.append(encoding)
            if encoding == 1:
                sx, sy = struct.unpack(">HH", self.get(4))
                rows = [self.row(sx, sy + k, w) for k in range(h)]
            else:
                assert encoding == 0, encoding
                data = self.get(w * h * 4)
                rows = [data[k * w * 4:(k + 1) * w * 4] for k in range(h)]
            for k, row in enumerate(rows):
                start = ((y + k) * self.width + x) * 4
                self.shown[start:start + len(row)] = row
        return encodings

    def row(self, x, y, w):
        start = (y * self.width + x) * 4
        return bytes(self.shown[start:start + w * 4])

    def at(self, x, y):
        blue, green, red, _ = self.row(x, y, 1)
        return red, green, blue

    def sees(self, x, y, colour):
        """Asks and takes updates until that colour is there."""
        for _ in range(50):
            if self.at(x, y) == colour:
                return
            self.ask()
            self.update()
        raise AssertionError((self.at(x, y), colour))

    def has_ended(self):
        try:
            while self.stream.recv(65536):
                pass
            return True
        except ConnectionResetError:
            return True

    def close(self, reset=False):
        if reset:
            breaks(self.stream)
        self.stream.close()


def viewers(share, count):
    return [Viewer(share).hello() for _ in range(count)]


def run_rows(rows, others=()):
    """Runs rows with the program that the first word names: all, or those that more words name. Its
    last line is 'N passed, M failed'. The process ends here, whatever its threads do."""
    Share.program = os.path.abspath(sys.argv[1])
    by_name = {row.__name__: row for row in (*rows, *others)}
    named = [by_name[name] for name in sys.argv[2:]]
    passed = failed = 0
    for row in named or rows:
        start = time.time()
        try:
            told = row()
        except Exception:
            traceback.print_exc(file=sys.stdout)
            failed += 1
            continue
        finally:
            while Share.begun:
                Share.begun.pop().stops()
        passed += 1
        if named or told:
            print(f"{row.__name__}: {told or 'ok'}, {time.time() - start:.1f} s")
    print(f"{passed} passed, {failed} failed")
    sys.stdout.flush()
    os._exit(1 if failed else 0)
