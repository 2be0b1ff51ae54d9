# Streams of both directions, read here and by a program.
#
#   python3 .ci/streams.py crates/rfb/out/rfb
#
# A plain reader, written from RFC 6143 and docs/PROTOCOL.md, judges each stream of bytes and draws
# its picture. What it says is compared with what the program says of the same bytes:
# - what a server sends is fed to `play`: each stream whole, each beginning of it, and the stream with
#   one byte set to 00 or to FF, each in turn. Status, both outputs and the picture must be the
#   reader's.
# - what a client sends goes to `serve` over connections of 127.0.0.1, one run for all of them. Its
#   lines must be the reader's verdicts. What it sends back must be the replies, and one update of the
#   test scene if one is due.
# Of each whole stream the verdict, and the pixels that it shows, stand beside it: the reader must say
# these first.
# The last line is 'N passed, M failed'.
import os, signal, socket, struct, subprocess, sys, tempfile

from peers import connected, free_port

NAMES = dict(enumerate(
    'BadBits DepthTooLarge NotTrueColour BadMax ShiftTooLarge FieldsOverlap UnknownMessage '
    'UnknownEncoding RectOutside SubrectOutside NoBackground NoForeground BothColourBits '
    'SourceOutside BadVersion VersionTooHigh BadSecurityChoice NoneNotOffered Refused '
    'BadSecurityWord SecurityFailed ScreenEmpty ScreenTooLarge Outside NotReady Busy AreaOutside '
    'Truncated Device NoMemory'.split(), 1))
MOST_PLACES = 16_777_216
RAW, COPY_RECT, RRE, HEXTILE = 0, 1, 2, 5


class Fault(Exception):
    """A peer's fault, by its number."""


class More(Exception):
    """The bytes end inside an item."""


class Bytes:
    """Bytes that are read from the first to the last."""

    def __init__(self, data):
        self.data, self.at = data, 0

    def left(self):
        return len(self.data) - self.at

    def take(self, count):
        if self.left() < count:
            raise More
        self.at += count
        return self.data[self.at - count:self.at]

    def numbers(self, shape):
        """Numbers with the highest byte first, as struct writes their sizes; x is padding."""
        return struct.unpack('>' + shape, self.take(struct.calcsize('>' + shape)))

    def number(self, shape):
        return self.numbers(shape)[0]


# ---- colours and pixels ----

class Format:
    """A pixel format, from its sixteen bytes."""

    def __init__(self, data):
        self.bits, depth, big, true, *fields = struct.unpack('>BBBB3H3B3x', data)
        self.order = 'big' if big else 'little'
        self.maxima, self.shifts = fields[:3], fields[3:]
        self.size = self.bits // 8
        self.known = {}
        if self.bits not in (8, 16, 32):
            raise Fault(1)
        if depth > self.bits:
            raise Fault(2)
        if not true:
            raise Fault(3)
        if any(m == 0 or m & (m + 1) for m in self.maxima):
            raise Fault(4)
        if any(s + m.bit_length() > self.bits for m, s in zip(self.maxima, self.shifts)):
            raise Fault(5)
        red, green, blue = (m << s for m, s in zip(self.maxima, self.shifts))
        if red & green or red & blue or green & blue:
            raise Fault(6)

    def seen(self, pixel):
        """What the bytes of a pixel show: three components, two bytes each."""
        if pixel not in self.known:
            value = int.from_bytes(pixel, self.order)
            fields = [value >> s & m for m, s in zip(self.maxima, self.shifts)]
            shown = [(v * 65535 + (m - 1) // 2) // m for v, m in zip(fields, self.maxima)]
            self.known[pixel] = struct.pack('>3H', *shown)
        return self.known[pixel]

    def packed(self, colour):
        """The bytes of the pixel of a colour."""
        value = 0
        for c, m, s in zip(colour, self.maxima, self.shifts):
            value |= (c * m + 32767) // 65535 << s
        return value.to_bytes(self.size, self.order)


FORMAT_BYTES = {name: bytes.fromhex(text) for name, text in {
    'rgb888': '20 18 00 01 00FF 00FF 00FF 10 08 00 000000',
    'rgb565': '10 10 00 01 001F 003F 001F 0B 05 00 000000',
    'bgr233': '08 08 00 01 0007 0007 0003 00 03 06 000000',
    'rgb101010': '20 1E 00 01 03FF 03FF 03FF 14 0A 00 000000',
}.items()}
FORMATS = {name: Format(data) for name, data in FORMAT_BYTES.items()}


# ---- pictures ----

class Picture:
    """Rows of places, six bytes each, black at first."""

    def __init__(self, width, height):
        self.width, self.height = width, height
        self.places = bytearray(6 * width * height)

    def holds(self, x, y, w, h):
        return x + w <= self.width and y + h <= self.height

    def row(self, x, y, w):
        at = 6 * (y * self.width + x)
        return slice(at, at + 6 * w)

    def fill(self, x, y, w, h, shown):
        for line in range(y, y + h):
            self.places[self.row(x, line, w)] = shown * w

    def copy(self, x, y, w, h, from_x, from_y):
        rows = [bytes(self.places[self.row(from_x, from_y + n, w)]) for n in range(h)]
        for n, row in enumerate(rows):
            self.places[self.row(x, y + n, w)] = row

    def ppm(self):
        return b'P6\n%d %d\n65535\n' % (self.width, self.height) + self.places


# ---- what a server sends ----

VERSIONS = {b'003.003': 3, b'003.007': 7, b'003.008': 8}


def read_version(stream):
    text = stream.take(12)
    digits = text[4:7] + text[8:11]
    if text[:4] != b'RFB ' or text[7:8] != b'.' or text[11:] != b'\n' or not digits.isdigit():
        raise Fault(15)
    return VERSIONS.get(text[4:11], 3)


def refuse(stream, number):
    """A reason, and then the fault."""
    stream.take(stream.number('I'))
    raise Fault(number)


def read_server_hello(stream):
    """A server's part of the handshake. Answers the size of the screen."""
    version = read_version(stream)
    if version == 3:
        word = stream.number('I')
        if word == 0:
            refuse(stream, 19)
        if word != 1:
            raise Fault(18 if word == 2 else 20)
    else:
        count = stream.number('B')
        if count == 0:
            refuse(stream, 19)
        if 1 not in stream.take(count):
            raise Fault(18)
    if version == 8 and stream.number('I') != 0:
        refuse(stream, 21)
    width, height, name_length = stream.numbers('HH16xI')
    if width == 0 or height == 0:
        raise Fault(22)
    if width * height > MOST_PLACES:
        raise Fault(23)
    stream.take(name_length)
    return width, height


def paint_raw(stream, picture, form, x, y, w, h):
    for line in range(y, y + h):
        data = stream.take(w * form.size)
        picture.places[picture.row(x, line, w)] = b''.join(
            form.seen(data[n:n + form.size]) for n in range(0, len(data), form.size))


def paint_rre(stream, picture, form, x, y, w, h):
    count = stream.number('I')
    picture.fill(x, y, w, h, form.seen(stream.take(form.size)))
    for _ in range(count):
        shown = form.seen(stream.take(form.size))
        left, top, across, down = stream.numbers('4H')
        if left + across > w or top + down > h:
            raise Fault(10)
        picture.fill(x + left, y + top, across, down, shown)


def paint_hextile(stream, picture, form, x, y, w, h):
    ground = fore = None
    for top in range(y, y + h, 16):
        for left in range(x, x + w, 16):
            across, down = min(16, x + w - left), min(16, y + h - top)
            mask = stream.number('B')
            if mask & 1:
                paint_raw(stream, picture, form, left, top, across, down)
                continue
            if not mask & 2 and ground is None:
                raise Fault(11)
            if mask & 4 and mask & 16:
                raise Fault(13)
            if mask & 8 and not mask & 20 and fore is None:
                raise Fault(12)
            if mask & 2:
                ground = form.seen(stream.take(form.size))
            if mask & 4:
                fore = form.seen(stream.take(form.size))
            parts = []
            for _ in range(stream.number('B') if mask & 8 else 0):
                shown = form.seen(stream.take(form.size)) if mask & 16 else fore
                place, size = stream.numbers('BB')
                parts.append((place >> 4, place & 15, (size >> 4) + 1, (size & 15) + 1, shown))
            # Those that leave the tile are refused at its last byte.
            if any(px + pw > across or py + ph > down for px, py, pw, ph, _ in parts):
                raise Fault(10)
            picture.fill(left, top, across, down, ground)
            for px, py, pw, ph, shown in parts:
                picture.fill(left + px, top + py, pw, ph, shown)


def read_rectangle(stream, picture, form):
    """Reads and paints one rectangle. Answers its encoding."""
    *rect, encoding = stream.numbers('4Hi')
    if encoding not in (RAW, COPY_RECT, RRE, HEXTILE):
        raise Fault(8)
    if not picture.holds(*rect):
        raise Fault(9)
    if encoding == COPY_RECT:
        source = stream.numbers('HH')
        if not picture.holds(*source, *rect[2:]):
            raise Fault(14)
        picture.copy(*rect, *source)
    else:
        paint = {RAW: paint_raw, RRE: paint_rre, HEXTILE: paint_hextile}[encoding]
        paint(stream, picture, form, *rect)
    return encoding


def read_server_message(stream, picture, form):
    """Reads one message. Answers the encodings of an update's rectangles."""
    kind = stream.number('B')
    if kind == 0:
        return [read_rectangle(stream, picture, form) for _ in range(stream.number('xH'))]
    if kind == 1:
        stream.take(6 * stream.numbers('xHH')[1])
    elif kind == 3:
        stream.take(stream.number('3xI'))
    elif kind != 2:
        raise Fault(7)


def watch(data, form):
    """The fault of all that a server sent, 0 where there is none, and the picture then."""
    stream = Bytes(data)
    try:
        picture = Picture(*read_server_hello(stream))
        while stream.left():
            read_server_message(stream, picture, form)
    except Fault as fault:
        return fault.args[0], None
    except More:
        return 28, None
    return 0, picture


# ---- what a client sends ----

def read_client_message(stream):
    """Reads one message. Answers its type, and what it says: the bytes of a format or of a text,
    or numbers."""
    kind = stream.number('B')
    if kind == 0:
        return kind, stream.take(19)[3:]
    if kind == 2:
        return (kind, *stream.numbers('%di' % stream.number('xH')))
    if kind in (3, 4, 5):
        return (kind, *stream.numbers({3: 'B4H', 4: 'BxxI', 5: 'BHH'}[kind]))
    if kind == 6:
        return kind, stream.take(stream.number('3xI'))
    raise Fault(7)


class Session:
    """What a server of version 3.8 makes of a client's bytes, all read at once."""

    def __init__(self, data, width, height):
        self.width, self.height = width, height
        self.form = Format(FORMAT_BYTES['rgb888'])
        self.listed, self.asked, self.sent = [], set(), b'RFB 003.008\n'
        self.fault = 0
        stream = Bytes(data)
        try:
            self.read_hello(stream)
            while stream.left():
                self.read_message(stream)
        except Fault as fault:
            self.fault = fault.args[0]
        except More:
            self.fault = 28
        # Nothing is composed where the bytes end in a fault of theirs.
        self.updates = 1 if self.asked and self.fault in (0, 28) else 0

    def read_hello(self, stream):
        version = read_version(stream)
        self.sent += b'\0\0\0\1' if version == 3 else b'\1\1'
        if version != 3:
            if stream.number('B') != 1:
                raise Fault(17)
            if version == 8:
                self.sent += bytes(4)
        stream.take(1)
        self.sent += struct.pack('>HH', self.width, self.height) + FORMAT_BYTES['rgb888']
        self.sent += struct.pack('>I', 3) + b'rfb'

    def read_message(self, stream):
        kind, *said = read_client_message(stream)
        if kind == 0:
            self.form = Format(*said)
        elif kind == 2:
            self.listed = [it for it in said if it in (RAW, COPY_RECT, RRE, HEXTILE)]
        elif kind == 3:
            _, x, y, w, h = said
            self.asked |= {(i, j) for i in range(x, min(x + w, self.width))
                           for j in range(y, min(y + h, self.height))}

    def line(self):
        return 'fault %d %s' % (self.fault, NAMES[self.fault]) if self.fault else 'ok %d' % self.updates

    def wrong(self, data):
        """What is wrong with the bytes that a server sent, or nothing."""
        if not data.startswith(self.sent):
            return 'it sent ' + data.hex()
        stream = Bytes(data[len(self.sent):])
        if not self.updates:
            return 'it sent more: ' + stream.data.hex() if stream.left() else None
        picture = Picture(self.width, self.height)
        try:
            encodings = read_server_message(stream, picture, self.form)
        except (Fault, More) as error:
            return 'its update is bad: %r %s' % (error, stream.data.hex())
        if encodings is None or stream.left():
            return 'it sent no update, or more: ' + stream.data.hex()
        best = [it for it in self.listed if it != COPY_RECT][:1] or [RAW]
        if not set(encodings) <= {RAW, *best}:
            return 'its encodings are %r' % encodings
        for x, y in self.asked:
            scene = [257 * (c % 256) for c in (4 * x, 4 * y, 2 * (x + y))]
            if picture.places[picture.row(x, y, 1)] != self.form.seen(self.form.packed(scene)):
                return 'it shows another colour at (%d, %d)' % (x, y)
        return None


# ---- streams of a server ----

def h(*texts):
    return bytes.fromhex(' '.join(texts))


def init(width, height, name=b't'):
    return struct.pack('>HH', width, height) + FORMAT_BYTES['rgb888'] + struct.pack('>I', len(name)) + name


def hello(width, height):
    """A handshake of 3.8, up to its end."""
    return b'RFB 003.008\n' + h('01 01', '00000000') + init(width, height)


def update(*rectangles):
    return struct.pack('>BxH', 0, len(rectangles)) + b''.join(rectangles)


def rectangle(x, y, w, h, encoding, *data):
    return struct.pack('>4Hi', x, y, w, h, encoding) + bytes.fromhex(' '.join(data))


# A, B: black and white at rgb888. SIXTEEN: pixels none of which is black. P, Q, R, S: four more.
A, B = '00000000', 'FFFFFF00'
ORANGE = '0180FF00'
SIXTEEN = ['%02X000000' % n for n in range(1, 17)]
P, Q, R, S = '11000000', '00220000', '00003300', '44444400'
# A screen of 64 by 64 whose row y is (y, 0, 0), in one RRE rectangle.
ROWS = update(rectangle(0, 0, 64, 64, RRE, '0000003F', A, *(
    '0000%02X00 0000 %04X 0040 0001' % (y, y) for y in range(1, 64))))
BLUE = 'FF000000'


def everything(a, b):
    """A colour map, a bell, an update in each of the four encodings, and a text."""
    return h('01 00 0000 0002', '000102030405 060708090A0B', '02') + update(
        rectangle(0, 0, 4, 2, RAW, *[a, b] * 4),
        rectangle(4, 0, 16, 18, RRE, '00000002', a, b, '0001 0002 0003 0004', a, '0000 0000 0001 0012'),
        rectangle(0, 2, 4, 16, COPY_RECT, '0010 0001'),
        # Four tiles, of 16 by 16, 3 by 16, 16 by 1 and 3 by 1 places.
        rectangle(1, 1, 19, 17, HEXTILE, '0E', a, b, '02 00 00 F1 0E', '1A', b, '01', a, '00 1E',
                  '00', '0C', a, '01 00 20'),
        rectangle(20, 18, 0, 0, HEXTILE),
        rectangle(20, 0, 0, 18, RRE, '00000000', a),
    ) + h('03 000000 00000003 616263')


REST_38 = h('00000000') + init(2, 1)

# Name, format, bytes, verdict, and the pixels that are shown where it is good (None: not told here).
# After them: how many bytes at the beginning are left as they are, so that no screen gets large by
# a changed byte.
FROM_SERVER = [
    ('a handshake of 3.8', 'rgb888', hello(2, 1), 0, [A, A]),
    ('a handshake of 3.3', 'rgb888', b'RFB 003.003\n' + h('00000001') + init(2, 1), 0, [A, A]),
    ('a handshake of 3.7', 'rgb888', b'RFB 003.007\n' + h('01 01') + init(2, 1), 0, [A, A]),
    ('number 4.1, taken as 3.3', 'rgb888', b'RFB 004.001\n' + h('00000001') + init(2, 1), 0, [A, A]),
    ('number 3.889, taken as 3.3', 'rgb888', b'RFB 003.889\n' + h('00000001') + init(2, 1), 0, [A, A]),
    ('no version', 'rgb888', b'RFB 3.8\n' + bytes(4), 15, None),
    ('a list of three types', 'rgb888', b'RFB 003.008\n' + h('03 10 02 01') + REST_38, 0, [A, A]),
    ('a list without None', 'rgb888', b'RFB 003.008\n' + h('01 02') + REST_38, 18, None),
    ('a refusal of 3.8', 'rgb888', b'RFB 003.008\n' + h('00 00000002 4E6F'), 19, None),
    ('a bad result without a reason', 'rgb888', b'RFB 003.008\n' + h('01 01 00000001 00000000'), 21, None),
    ('a bad result with a reason', 'rgb888', b'RFB 003.008\n' + h('01 01 00000001 00000002 4E6F'), 21, None),
    ('a refusal of 3.3 without a reason', 'rgb888', b'RFB 003.003\n' + h('00000000 00000000'), 19, None),
    ('a password at 3.3', 'rgb888', b'RFB 003.003\n' + h('00000002'), 18, None),
    ('an unknown type at 3.3', 'rgb888', b'RFB 003.003\n' + h('00000003'), 20, None),
    ('the largest screen', 'rgb888', hello(1, 1)[:18] + h('FFFF FFFF') + bytes(20), 23, None, 42),
    ('a row of places too many', 'rgb888', hello(1, 1)[:18] + h('1000 1001') + bytes(20), 23, None, 42),
    ('too many places', 'rgb888', hello(1, 1)[:18] + h('8000 8000') + bytes(20), 23, None),
    ('an empty screen', 'rgb888', hello(1, 1)[:18] + h('0000 0001') + bytes(20), 22, None),
    ('one place in Raw', 'rgb888',
     hello(1, 1) + update(rectangle(0, 0, 1, 1, RAW, ORANGE)), 0, [ORANGE]),
    ('one place in Raw at bgr233', 'bgr233',
     hello(1, 1) + update(rectangle(0, 0, 1, 1, RAW, '27')), 0, ['27']),
    ('one place in Raw at rgb565', 'rgb565',
     hello(1, 1) + update(rectangle(0, 0, 1, 1, RAW, '00FC')), 0, ['00FC']),
    ('four places in Raw', 'rgb888',
     hello(4, 1) + update(rectangle(0, 0, 4, 1, RAW, A, A, A, B)), 0, [A, A, A, B]),
    ('eight places in RRE', 'rgb888',
     hello(8, 1) + update(rectangle(0, 0, 8, 1, RRE, '00000001', A, B, '0007 0000 0001 0001')),
     0, [A] * 7 + [B]),
    ('two tiles of one colour', 'rgb888',
     hello(17, 1) + update(rectangle(0, 0, 17, 1, HEXTILE, '02', ORANGE, '00')), 0, [ORANGE] * 17),
    ('a raw tile between two', 'rgb888',
     hello(48, 1) + update(rectangle(0, 0, 48, 1, HEXTILE, '02', A, '01', *SIXTEEN, '02', A)),
     0, [A] * 16 + SIXTEEN + [A] * 16, len(hello(48, 1))),
    ('a background from beyond a raw tile', 'rgb888',
     hello(48, 1) + update(rectangle(0, 0, 48, 1, HEXTILE, '02', A, '01', *SIXTEEN, '00')),
     0, [A] * 16 + SIXTEEN + [A] * 16, len(hello(48, 1))),
    ('a scroll by CopyRect', 'rgb888',
     hello(64, 64) + ROWS + update(rectangle(0, 0, 64, 63, COPY_RECT, '0000 0001'),
                                   rectangle(0, 63, 64, 1, RAW, *[BLUE] * 64)),
     0, ['0000%02X00' % y for y in range(1, 64) for _ in range(64)] + [BLUE] * 64,
     len(hello(64, 64) + ROWS)),
    ('a copy over its source', 'rgb888',
     hello(4, 1) + update(rectangle(0, 0, 4, 1, RAW, P, Q, R, S),
                          rectangle(1, 0, 3, 1, COPY_RECT, '0000 0000')), 0, [P, P, Q, R]),
    ('a copy down over its source', 'rgb888',
     hello(1, 4) + update(rectangle(0, 0, 1, 4, RAW, P, Q, R, S),
                          rectangle(0, 1, 1, 3, COPY_RECT, '0000 0000')), 0, [P, P, Q, R]),
    ('a subrectangle over another', 'bgr233',
     hello(3, 1) + update(rectangle(0, 0, 3, 1, RRE, '00000002 00', '07 0000 0000 0002 0001',
                                    '38 0001 0000 0002 0001')), 0, ['07', '38', '38']),
    ('a subrectangle outside', 'bgr233',
     hello(2, 1) + update(rectangle(0, 0, 2, 1, RRE, 'FFFFFFFF 10', '20 0002 0000 0001 0001')), 10, None),
    ('a subrectangle whose width passes 65,535', 'bgr233',
     hello(2, 1) + update(rectangle(0, 0, 2, 1, RRE, '00000001 10', '20 0001 0000 FFFF 0001')), 10, None),
    ('a subrectangle whose height passes 65,535', 'bgr233',
     hello(2, 1) + update(rectangle(0, 0, 2, 1, RRE, '00000001 10', '20 0000 0001 0001 FFFF')), 10, None),
    ('an empty subrectangle beyond the edge', 'bgr233',
     hello(2, 1) + update(rectangle(0, 0, 2, 1, RRE, '00000001 10', '20 0003 0000 0000 0001')), 10, None),
    ('an empty subrectangle at the edge', 'bgr233',
     hello(2, 1) + update(rectangle(0, 0, 2, 1, RRE, '00000001 10', '20 0002 0000 0000 0001')),
     0, ['10', '10']),
    ('a rectangle outside', 'bgr233', hello(2, 1) + update(rectangle(1, 0, 2, 1, RAW, '00 00')), 9, None),
    ('a rectangle whose edges pass 65,535', 'bgr233',
     hello(2, 1) + update(rectangle(1, 1, 65535, 65535, COPY_RECT, '0000 0000')), 9, None),
    ('a rectangle outside in no encoding', 'bgr233', hello(2, 1) + update(rectangle(1, 0, 2, 1, 6)), 8, None),
    ('a source outside', 'bgr233',
     hello(2, 1) + update(rectangle(0, 0, 2, 1, COPY_RECT, '0001 0000')), 14, None),
    ('a source whose edge passes 65,535', 'bgr233',
     hello(2, 1) + update(rectangle(0, 0, 1, 1, COPY_RECT, 'FFFF 0000')), 14, None),
    ('another encoding', 'bgr233', hello(2, 1) + update(rectangle(0, 0, 2, 1, 16)), 8, None),
    ('a tile with no background', 'bgr233', hello(2, 1) + update(rectangle(0, 0, 2, 1, HEXTILE, '00')), 11, None),
    ('a tile of subrectangles with no background', 'bgr233',
     hello(2, 1) + update(rectangle(0, 0, 2, 1, HEXTILE, '08')), 11, None),
    ('a tile with no background and both colour bits', 'bgr233',
     hello(2, 1) + update(rectangle(0, 0, 2, 1, HEXTILE, '1C')), 11, None),
    ('a tile in two colours', 'bgr233',
     hello(2, 1) + update(rectangle(0, 0, 2, 1, HEXTILE, '0E 10 20 01 10 00')), 0, ['10', '20']),
    ('a tile with a subrectangle outside', 'bgr233',
     hello(2, 1) + update(rectangle(0, 0, 2, 1, HEXTILE, '0E 10 20 02 10 10 00 00')), 10, None),
    ('a tile of both colour bits and no subrectangles', 'bgr233',
     hello(2, 1) + update(rectangle(0, 0, 2, 1, HEXTILE, '16 10 20')), 13, None),
    ('a tile of no subrectangle with no foreground', 'bgr233',
     hello(2, 1) + update(rectangle(0, 0, 2, 1, HEXTILE, '0A 10 00')), 12, None),
    ('a tile with bits of no meaning', 'bgr233',
     hello(2, 1) + update(rectangle(0, 0, 2, 1, HEXTILE, 'F2 10')), 0, ['10', '10']),
    ('a second tile with both colour bits', 'bgr233',
     hello(17, 1) + update(rectangle(0, 0, 17, 1, HEXTILE, '02 10 1C')), 13, None),
    ('a second tile with no foreground', 'bgr233',
     hello(17, 1) + update(rectangle(0, 0, 17, 1, HEXTILE, '02 10 08')), 12, None),
    ('a second rectangle with no background', 'bgr233',
     hello(2, 1) + update(rectangle(0, 0, 2, 1, HEXTILE, '02 10'),
                          rectangle(0, 0, 2, 1, HEXTILE, '00')), 11, None),
    ('colours that go from tile to tile', 'bgr233',
     hello(48, 1) + update(rectangle(0, 0, 48, 1, HEXTILE, '1A 10 02 20 E0 00 30 F0 00',
                                     '0C 20 01 F0 00', '08 01 F0 00')),
     0, ['10'] * 14 + ['20', '30'] + (['10'] * 15 + ['20']) * 2, len(hello(48, 1))),
    ('a foreground that raw and coloured tiles leave', 'bgr233',
     hello(80, 1) + update(rectangle(0, 0, 80, 1, HEXTILE, '06 10 20', '01', '30' * 16, '08 01 00 00',
                                     '18 01 40 F0 00', '08 01 10 D0')),
     0, ['10'] * 16 + ['30'] * 16 + ['20'] + ['10'] * 30 + ['40', '10'] + ['20'] * 14 + ['10'],
     len(hello(80, 1))),
    ('texts and a bell', 'rgb888',
     hello(2, 1) + h('03 000000 00000005 4142434445', '02', '03 000000 00000000'), 0, [A, A]),
    ('a text that looks like a bell', 'rgb888',
     hello(2, 1) + h('03 000000 00000005 41424344 02'), 0, [A, A]),
    ('a text without its end', 'rgb888',
     hello(2, 1) + h('03 000000 00000005 41424344'), 28, None),
    ('an update of no rectangle', 'rgb888', hello(2, 1) + update() + h('02'), 0, [A, A]),
    ('an unknown message', 'rgb888', hello(2, 1) + h('04'), 7, None),
]
for name, one, other in (('rgb888', ORANGE, P), ('rgb565', '00FC', '1234'), ('bgr233', '27', 'C9'),
                         ('rgb101010', '0408F83F', '010000C0')):
    FROM_SERVER.append(('all encodings at ' + name, name, hello(20, 18) + everything(one, other), 0,
                        None, len(hello(20, 18))))


# ---- streams of a client ----

HELLO = b'RFB 003.008\n' + h('01 01')
WANTS = h('00 000000') + FORMAT_BYTES['rgb888'] + h('02 00 0001 00000000')
WHOLE, CHANGED = h('03 00 0000 0000 0002 0001'), h('03 01 0000 0000 0002 0001')


def wants(*encodings):
    return struct.pack('>BxH%di' % len(encodings), 2, len(encodings), *encodings)


def formatted(name, **bytes_at):
    """SetPixelFormat, with other bytes at some places of the format: at_3=0."""
    data = bytearray(FORMAT_BYTES[name])
    for at, byte in bytes_at.items():
        data[int(at[3:])] = byte
    return h('00 000000') + data


# Name, bytes, and the line that `serve` prints where the screen has 2 by 1 places.
# After them: how many bytes at the beginning are left as they are.
FROM_CLIENT = [
    ('a handshake of 3.8', HELLO + WANTS, 'ok 0'),
    ('a handshake of 3.7', b'RFB 003.007\n' + h('01 01') + WANTS, 'ok 0'),
    ('a handshake of 3.3', b'RFB 003.003\n' + h('01') + WANTS, 'ok 0'),
    ('number 3.889, taken as 3.3', b'RFB 003.889\n' + h('00') + WANTS, 'ok 0'),
    ('number 4.1, taken as 3.3', b'RFB 004.001\n' + h('00') + WANTS, 'ok 0'),
    ('no version', b'RFB 3.8\n' + bytes(4), 'fault 15 BadVersion'),
    ('another choice', b'RFB 003.008\n' + h('02'), 'fault 17 BadSecurityChoice'),
    ('a request', HELLO + WHOLE, 'ok 1'),
] + [(name, HELLO + rest, line, len(HELLO)) for name, rest, line in (
    ('a request of what has changed', CHANGED, 'ok 1'),
    ('two requests', WHOLE + CHANGED, 'ok 1'),
    ('a request of no width', h('03 00 0000 0000 0000 0001'), 'ok 0'),
    ('a request of what is outside', h('03 00 0002 0000 0001 0001'), 'ok 0'),
    ('a request that leaves the screen', h('03 00 0001 0000 FFFF FFFF'), 'ok 1'),
    ('RRE', wants(RRE) + WHOLE, 'ok 1'),
    ('Hextile', wants(HEXTILE) + WHOLE, 'ok 1'),
    ('CopyRect alone', wants(COPY_RECT) + CHANGED, 'ok 1'),
    ('encodings of no meaning', wants(16, HEXTILE, COPY_RECT, -223) + WHOLE, 'ok 1'),
    ('no encoding', wants() + WHOLE, 'ok 1'),
    ('bgr233', formatted('bgr233') + WHOLE, 'ok 1'),
    ('rgb565 in Hextile', formatted('rgb565') + wants(HEXTILE) + WHOLE, 'ok 1'),
    ('rgb101010 in RRE', formatted('rgb101010') + wants(RRE) + WHOLE, 'ok 1'),
    ('the highest byte first', formatted('rgb565', at_2=1) + WHOLE, 'ok 1'),
    ('another format after the request', WHOLE + formatted('bgr233'), 'ok 1'),
    ('24 bits', formatted('rgb565', at_0=24), 'fault 1 BadBits'),
    ('a depth of 17', formatted('rgb565', at_1=17), 'fault 2 DepthTooLarge'),
    ('a colour map', formatted('rgb565', at_3=0), 'fault 3 NotTrueColour'),
    ('a colour map and no maximum', formatted('rgb565', at_3=0, at_5=0), 'fault 3 NotTrueColour'),
    ('a maximum of 30', formatted('rgb565', at_5=30), 'fault 4 BadMax'),
    ('a maximum of 0', formatted('rgb565', at_5=0), 'fault 4 BadMax'),
    ('a shift of 12', formatted('rgb565', at_10=12), 'fault 5 ShiftTooLarge'),
    ('fields that share a bit', formatted('rgb565', at_11=4), 'fault 6 FieldsOverlap'),
    ('24 bits and a colour map', formatted('rgb565', at_0=24, at_3=0), 'fault 1 BadBits'),
    ('a text', h('06 000000 00000005 4142434445') + WHOLE, 'ok 1'),
    ('a text without its end', h('06 000000 00000005 41424344'), 'fault 28 Truncated'),
    ('a key and a pointer', h('04 01 0000 00000061', '05 01 0001 0000') + CHANGED, 'ok 1'),
    ('an unknown message', WHOLE + h('01'), 'fault 7 UnknownMessage'),
    ('a request without its end', WHOLE + WHOLE[:9], 'fault 28 Truncated'),
)]


# ---- trying ----

def variants(data, kept=0):
    """A stream whole, its beginnings, and the stream with one other byte, each with a name."""
    yield 'whole', data
    for end in range(kept, len(data)):
        yield 'its first %d bytes' % end, data[:end]
    for at in range(kept, len(data)):
        for byte in (0x00, 0xFF):
            if data[at] != byte:
                yield 'byte %d as %02X' % (at, byte), data[:at] + bytes([byte]) + data[at + 1:]


class Counts:
    passed = failed = 0

    def tell(self, wrong, *names):
        """Counts a comparison. Prints the names and what is wrong, where something is."""
        if wrong:
            self.failed += 1
            print(*names, sep=', ', end=': %s\n' % wrong)
        else:
            self.passed += 1


def told(status, out, err):
    """What a run did, in few words."""
    return 'status %d, %d bytes%s, %r' % (status, len(out), ' ' + out.hex() if len(out) < 80 else '', err)


def try_reader(counts):
    """The reader says of each whole stream what stands beside it."""
    for name, form, data, fault, shown, *_ in FROM_SERVER:
        got, picture = watch(data, FORMATS[form])
        places = picture and bytes(picture.places)
        right = got == fault and (shown is None or places == b''.join(
            FORMATS[form].seen(bytes.fromhex(it)) for it in shown))
        counts.tell(None if right else 'it reads %d, %s' % (got, places and places.hex()), 'the reader', name)
    for name, data, line, *_ in FROM_CLIENT:
        got = Session(data, 2, 1).line()
        counts.tell(None if got == line else 'it reads ' + got, 'the reader', name)


def run_all(calls, room):
    """Runs programs side by side: of each its words and its input. Answers of each its status and
    both outputs. A minute is enough for all of them; what is not done then is ended."""
    files = [[os.path.join(room, '%s%d' % (name, n)) for name in ('in', 'out', 'err')]
             for n in range(len(calls))]
    under_way = []
    signal.signal(signal.SIGALRM, lambda *_: [os.kill(it, signal.SIGKILL) for it in under_way])
    for (words, given), paths in zip(calls, files):
        with open(paths[0], 'wb') as file:
            file.write(given)
        ways = [os.O_RDONLY] + [os.O_WRONLY | os.O_CREAT | os.O_TRUNC] * 2
        under_way.append(os.posix_spawn(words[0], words, os.environ, file_actions=[
            (os.POSIX_SPAWN_OPEN, n, paths[n], ways[n], 0o600) for n in range(3)]))
    signal.alarm(60)
    ends = []
    for paths in files:
        _, status = os.waitpid(under_way[0], 0)
        del under_way[0]
        ends.append((-os.WTERMSIG(status) or os.WEXITSTATUS(status), *(read_file(it) for it in paths[1:])))
    signal.alarm(0)
    return ends


def read_file(path):
    with open(path, 'rb') as file:
        return file.read()


def try_play(counts, program, room):
    """`play` of each variant of each stream of a server, each once."""
    runs = {}
    for name, form, data, *rest in FROM_SERVER:
        for what, bytes_ in variants(data, *rest[2:]):
            runs.setdefault((form, bytes_), (form, name, what))
    runs = list(runs.items())
    for first in range(0, len(runs), 16):
        some = runs[first:first + 16]
        ends = run_all([([program, 'play', '--format', form], data) for (form, data), _ in some], room)
        for ((form, data), names), got in zip(some, ends):
            fault, picture = watch(data, FORMATS[form])
            if fault:
                wanted = 1, b'', b'fault %d %s\n' % (fault, NAMES[fault].encode())
            else:
                wanted = 0, picture.ppm(), b''
            counts.tell(None if got == wanted else told(*got) + '; it should be ' + told(*wanted),
                        'play', *names)


def converse(port, data):
    """Sends bytes to a server, ends writing, and reads to the end. Answers what it read."""
    # At first nothing may listen there yet.
    with connected(port) as line:
        try:
            line.sendall(data)
            line.shutdown(socket.SHUT_WR)
            return b''.join(iter(lambda: line.recv(65536), b''))
        except ConnectionError as error:
            return repr(error).encode()


def try_serve(counts, program, room, width, height, streams):
    """One run of `serve` with a connection for each of the streams, (names, bytes)."""
    port = str(free_port())
    lines = tempfile.TemporaryFile(dir=room)
    run = subprocess.Popen(
        [program, 'serve', '--port', port, '--width', str(width), '--height', str(height),
         '--connections', str(len(streams))], stdout=lines, stderr=lines)
    answers = []
    try:
        for _, data in streams:
            answers.append(converse(int(port), data))
        status = run.wait(60)
    except (AssertionError, OSError, subprocess.TimeoutExpired) as error:
        status = repr(error)
        run.kill()
        run.wait()
    counts.tell(None if status == 0 else 'it ended with %s' % status, 'serve', '%d by %d' % (width, height))
    lines.seek(0)
    lines = lines.read().decode(errors='replace').split('\n')
    lines += [''] * len(streams)
    for (names, data), line, answer in zip(streams, lines, answers):
        session = Session(data, width, height)
        wrong = session.wrong(answer)
        if line != session.line():
            wrong = 'it says %r; it should be %r' % (line, session.line())
        counts.tell(wrong, 'serve', *names)


def main(program):
    counts = Counts()
    program = os.path.abspath(program)
    try_reader(counts)
    with tempfile.TemporaryDirectory() as room:
        try_play(counts, program, room)
        streams = {}
        for name, data, _, *kept in FROM_CLIENT:
            for what, bytes_ in variants(data, *kept):
                streams.setdefault(bytes_, (name, what))
        try_serve(counts, program, room, 2, 1, [(names, data) for data, names in streams.items()])
        # On a screen of four cells, each whole.
        try_serve(counts, program, room, 70, 66, [((it[0], '70 by 66'), it[1]) for it in FROM_CLIENT])
    print('%d passed, %d failed' % (counts.passed, counts.failed))
    return 0 if counts.passed and not counts.failed else 1


if __name__ == '__main__':
    sys.exit(main(sys.argv[1]))
