"""A run of `rfb relay`, a server before it, written from RFC 6143, and viewers behind it."""

import contextlib
import itertools
import random
import socket
import struct
import subprocess
import threading
import time

from messages import (VERSION, cut_text, framebuffer_head, handshake, key, pointer, rectangle_head,
                      request, set_encodings)
from peers import breaks
from pictures import doubled
from sharing import Share, Viewer, wait_for
from streams import (COPY_RECT, FORMAT_BYTES, FORMATS, HEXTILE, RAW, RRE, Bytes, Fault, Picture,
                     read_client_message, read_rectangle)

# What a relay lists where no word says so.
LISTED = (2, COPY_RECT, HEXTILE, RRE, RAW)
KEY, POINTER, TEXT = 4, 5, 6
# A screen of so many places has 512 colours, since those that were seen are kept.
MANY, FEW = 1 << 16, bytes(it & 0xE0 for it in range(256))


# ---- pictures

def packed(picture, form):
    """The pixels of all places of a picture."""
    places, known, pixels = bytes(picture.places), {}, []
    if form is FORMATS["rgb888"] and places[0::2] == places[1::2]:
        pixels = bytearray(len(places) // 6 * 4)
        pixels[0::4], pixels[1::4], pixels[2::4] = places[4::6], places[2::6], places[0::6]
        return bytes(pixels)
    for at in range(0, len(places), 6):
        colour = places[at:at + 6]
        if colour not in known:
            known[colour] = form.packed(struct.unpack(">3H", colour))
        pixels.append(known[colour])
    return b"".join(pixels)


def shown_at(picture, form):
    """The places of a picture as a viewer sees them in this format."""
    pixels = packed(picture, form)
    return b"".join(form.seen(pixels[at:at + form.size])
                    for at in range(0, len(pixels), form.size))


def whole(picture, form):
    """All of a picture, as one rectangle in Raw."""
    area = 0, 0, picture.width, picture.height
    return rectangle_head(RAW, area) + packed(picture, form)


def noise(chance, count):
    return chance.getrandbits(8 * count).to_bytes(count, "big") if count else b""


def raw(chance, form, area):
    return rectangle_head(RAW, area) + noise(chance, area[2] * area[3] * form.size)


def copied(area, x, y):
    return rectangle_head(COPY_RECT, area) + struct.pack(">HH", x, y)


def rre(chance, form, area, count):
    """Subrectangles of noise that overlap."""
    parts = []
    for _ in range(count):
        x, y = chance.randrange(area[2]), chance.randrange(area[3])
        w, h = chance.randrange(1, area[2] - x + 1), chance.randrange(1, area[3] - y + 1)
        parts.append(noise(chance, form.size) + struct.pack(">4H", x, y, w, h))
    ground = noise(chance, form.size)
    return rectangle_head(RRE, area) + struct.pack(">I", count) + ground + b"".join(parts)


def hextile(chance, form, area):
    """Tiles of each kind: pixels, a background, subrectangles of one colour and of several, and the
    background of the tile before."""
    data = [rectangle_head(HEXTILE, area)]
    has_ground = False
    for y in range(0, area[3], 16):
        for x in range(0, area[2], 16):
            w, h = min(16, area[2] - x), min(16, area[3] - y)
            kind = chance.choice((1, 2, 14, 26, 0)) if has_ground else chance.choice((1, 2, 14, 26))
            data.append(bytes([kind]))
            has_ground = kind != 1
            if kind == 1:
                data.append(noise(chance, w * h * form.size))
            if kind & 2:
                data.append(noise(chance, form.size))
            if kind & 4:
                data.append(noise(chance, form.size))
            if kind & 8:
                count = chance.randrange(1, 5)
                data.append(bytes([count]))
                for _ in range(count):
                    px, py = chance.randrange(w), chance.randrange(h)
                    pw, ph = chance.randrange(w - px), chance.randrange(h - py)
                    data.append(noise(chance, form.size) if kind & 16 else b"")
                    data.append(bytes([px << 4 | py, pw << 4 | ph]))
    return b"".join(data)


def scene(chance, form, width, height):
    """Rectangles in each encoding, of which each but the first draws on what others drew."""
    def area():
        x, y = chance.randrange(width // 2), chance.randrange(height // 2)
        return x, y, chance.randrange(1, width - x), chance.randrange(1, height - y)

    def source(w, h):
        return chance.randrange(width - w + 1), chance.randrange(height - h + 1)

    rectangles = [raw(chance, form, area())]
    for make in (hextile, None, lambda *it: rre(*it, 3), None, raw):
        place = area()
        rectangles.append(copied(place, *source(*place[2:])) if make is None
                          else make(chance, form, place))
    return rectangles


# ---- the server

def spelled(message):
    """The bytes of a client's message."""
    kind, *said = message
    if kind == 0:
        return bytes(4) + said[0]
    if kind == 2:
        return set_encodings(*said)
    if kind == 3:
        return request(*said)
    if kind == KEY:
        return key(said[1], said[0])
    return pointer(*said) if kind == POINTER else cut_text(*said)


class Ended(Exception):
    """The connection ended."""


class Heard(Bytes):
    """What comes from a connection, all of which is kept."""

    def __init__(self, line, may_read):
        super().__init__(b"")
        self.line, self.may_read = line, may_read

    def take(self, count):
        while self.left() < count:
            self.may_read.wait()
            part = self.line.recv(65536)
            if not part:
                raise Ended
            self.data += part
        return super().take(count)


class Screen:
    """A server of version 3.8 with noise on its screen. It serves who comes first, and judges each
    byte that it gets by the grammar of a client. It answers a request for all of the screen at
    once, and another one when something was drawn; where it is held, none by itself. What it sends
    goes in pieces of these sizes, in turn."""

    def __init__(self, width=40, height=30, name=b"wall", pieces=(), is_held=False, port=0, seed=7):
        self.chance = random.Random(seed)
        self.form = FORMATS["rgb888"]
        self.name, self.is_held = name, is_held
        self.picture = Picture(width, height)
        places = noise(self.chance, 3 * width * height)
        self.picture.places[:] = doubled(places if width * height < MANY else places.translate(FEW))
        self.pieces = itertools.cycle(pieces or (1 << 24,))
        self.heard, self.wrong = [], None
        self.open, self.most_open, self.due = [], 0, []
        self.lock = threading.RLock()
        self.may_read = threading.Event()
        self.may_read.set()
        self.has_ended = threading.Event()
        self.line = None
        self.listener = socket.socket()
        self.listener.setsockopt(socket.SOL_SOCKET, socket.SO_REUSEADDR, 1)
        # So little is on its way to it where it does not read.
        self.listener.setsockopt(socket.SOL_SOCKET, socket.SO_RCVBUF, 1 << 16)
        self.listener.bind(("127.0.0.1", port))
        self.listener.listen()
        self.listener.settimeout(20)
        self.port = self.listener.getsockname()[1]
        threading.Thread(target=self.serve, daemon=True).start()

    # What it hears.

    def serve(self):
        try:
            with self.listener:
                line = self.listener.accept()[0]
            line.setsockopt(socket.IPPROTO_TCP, socket.TCP_NODELAY, 1)
            self.line, heard = line, Heard(line, self.may_read)
            self.shake_hands(heard)
            while True:
                self.hears(heard)
        except (Ended, OSError):
            pass
        except Exception as wrong:
            self.wrong = self.wrong or repr(wrong)
        self.has_ended.set()

    def shake_hands(self, heard):
        """The version that is offered, None, and a shared screen."""
        begin = handshake(self.picture.width, self.picture.height, self.name)
        for count, wanted, end in (12, VERSION, 12), (1, b"\1", 14), (1, b"\1", 18):
            start = {12: 0, 14: 12, 18: 14}[end]
            self.sends(begin[start:end])
            came = heard.take(count)
            assert came == wanted, (came, wanted)
        self.sends(begin[18:])

    def hears(self, heard):
        begin = heard.at
        try:
            message = read_client_message(heard)
        except Fault:
            raise AssertionError(f"no client sends {heard.data[begin:begin + 40]}")
        came = heard.data[begin:heard.at]
        assert came == spelled(message), (message, came[:40])
        kind, *said = message
        with self.lock:
            self.heard.append(message)
            if kind == 0:
                self.form = {it: FORMATS[name] for name, it in FORMAT_BYTES.items()}[said[0]]
            if kind == 3:
                is_first = sum(it[0] == 3 for it in self.heard) == 1
                size = self.picture.width, self.picture.height
                assert said == [0 if is_first else 1, 0, 0, *size], said
                self.open.append(said)
                self.most_open = max(self.most_open, len(self.open))
                self.answers()

    def answers(self):
        with self.lock:
            if self.is_held or not self.open:
                return
            if not self.open[0][0]:
                self.due = [whole(self.picture, self.form)]
            if self.due:
                self.updates(*self.due)

    # What it says.

    def sends(self, data):
        with self.lock, contextlib.suppress(OSError):
            at = 0
            while at < len(data):
                count = next(self.pieces)
                self.line.sendall(data[at:at + count])
                at += count
                if count < 16:
                    time.sleep(0.0002)

    def updates(self, *rectangles):
        """Sends an update, asked or not, and nothing waits any more."""
        with self.lock:
            self.open, self.due = [], []
            self.sends(framebuffer_head(len(rectangles)) + b"".join(rectangles))

    def paints(self, *rectangles):
        """What these make of its screen."""
        for it in rectangles:
            read_rectangle(Bytes(it), self.picture, self.form)

    def draws(self, *rectangles):
        """Draws by rectangles of an update, which is sent once it is asked for."""
        with self.lock:
            self.paints(*rectangles)
            self.due += rectangles
            self.answers()

    def scene(self):
        return scene(self.chance, self.form, self.picture.width, self.picture.height)

    def closes(self, reset=False):
        """Ends its connection, by a reset or after all that it sent."""
        if reset:
            # A connection that is being read would not be closed.
            self.line.shutdown(socket.SHUT_RD)
            self.has_ended.wait(10)
            breaks(self.line)
        else:
            self.line.shutdown(socket.SHUT_WR)

    # What is known of what it heard.

    def events(self):
        """The keys, pointers and texts that came."""
        return [it for it in list(self.heard) if it[0] in (KEY, POINTER, TEXT)]

    def requests(self):
        return sum(it[0] == 3 for it in list(self.heard))

    def is_right(self):
        assert self.wrong is None, self.wrong
        assert self.most_open <= 1, self.most_open


class Fed:
    """A server that sends these bytes, and later others, and then ends, whatever comes."""

    def __init__(self, first):
        self.listener = socket.create_server(("127.0.0.1", 0))
        self.port = self.listener.getsockname()[1]
        self.line = None
        threading.Thread(target=self.serve, args=(first,), daemon=True).start()

    def serve(self, first):
        with self.listener:
            self.line = self.listener.accept()[0]
        with contextlib.suppress(OSError):
            self.line.sendall(first)
            while self.line.recv(65536):
                pass

    def ends_with(self, data):
        with contextlib.suppress(OSError):
            self.line.sendall(data)
            self.line.shutdown(socket.SHUT_WR)


# ---- the relay, and its viewers

class Relay(Share):
    """A run of `rfb relay` of a server, by its port, and what it has told so far."""

    command = "relay"

    def __init__(self, port, *words, host="127.0.0.1", owner=subprocess.DEVNULL, **more):
        super().__init__(f"{host}::{port}", *words, owner=owner, **more)

    def ends(self, status=1):
        super().ends(status)
        for thread in self.threads:
            thread.join(10)

    def lines(self, word):
        return [it for it in self.output.split(b"\n") if it.split(b" ")[0] == word]


class Seer(Viewer):
    """A viewer that takes each encoding, in any format."""

    numbers, number = Bytes.numbers, Bytes.number
    taken = 0

    def take(self, count):
        self.taken += count
        return self.get(count)

    def hello(self, shared=1, form=None, encodings=()):
        super().hello(shared)
        self.form = FORMATS[form or "rgb888"]
        self.picture = Picture(self.width, self.height)
        if form:
            self.send(bytes(4) + FORMAT_BYTES[form])
        if encodings:
            self.send(set_encodings(*encodings))
        return self

    def update(self):
        kind, count = self.numbers("BxH")
        assert kind == 0, kind
        return [read_rectangle(self, self.picture, self.form) for _ in range(count)]

    def says(self, data):
        """Sends this, and nothing more, if it is still heard."""
        with contextlib.suppress(OSError):
            self.send(data)
            self.stream.shutdown(socket.SHUT_WR)

    def begins(self):
        """Asks for all of the screen, and gets it."""
        self.ask(0)
        self.update()
        return self

    def shows(self, picture):
        return self.picture.places == shown_at(picture, self.form)

    def follows(self, picture):
        """Asks and takes updates until it shows that picture."""
        for _ in range(50):
            if self.shows(picture):
                return
            self.ask()
            self.update()
        raise AssertionError("another picture")

    def hears_nothing(self, seconds):
        """Whether nothing comes for so long."""
        assert not self.came, self.came[:40]
        self.stream.settimeout(seconds)
        try:
            part = self.stream.recv(1, socket.MSG_PEEK)
        except (TimeoutError, socket.timeout):
            return True
        finally:
            self.stream.settimeout(10)
        return not part and "it ended"

    def ends_well(self):
        """Takes whole updates to the end, which is no reset."""
        while True:
            if not self.came and not self.stream.recv(1, socket.MSG_PEEK):
                return
            self.update()


def relayed(count=1, words=(), **more):
    """A screen, its relay, and viewers that show it. One that takes CopyRect is none of them."""
    screen = Screen(**more)
    relay = Relay(screen.port, *words)
    return screen, relay, [Seer(relay).hello().begins() for _ in range(count)]


def let_go(relay, seat, times=1):
    """Waits until the viewer of a seat has left so often."""
    wait_for(lambda: relay.output.count(b"\nleave %d " % seat) >= times,
             (seat, relay.output[-300:]))
