"""Messages of RFC 6143, and streams of them. The plain reader of `streams.py` has its own."""

import struct

VERSION = b"RFB 003.008\n"


def texted(text):
    """A text after its length."""
    return struct.pack(">I", len(text)) + text


def pixel_format(bits=32, depth=24, true=1, maxima=(255, 255, 255), shifts=(16, 8, 0)):
    """rgb888, but for what is changed."""
    return struct.pack(">BBBB3H3B3x", bits, depth, 0, true, *maxima, *shifts)


def rectangle_head(encoding, area):
    return struct.pack(">4Hi", *area, encoding)


# ---- what a server sends, each after what comes before it

def security(*types):
    return VERSION + bytes([len(types), *types])


def security_of_33(word):
    return b"RFB 003.003\n" + struct.pack(">I", word)


def security_result(word, reason=b""):
    return security(1) + struct.pack(">I", word) + reason


def handshake(width, height, name=b"rfb"):
    """All up to ServerInit, whose pixels are rgb888."""
    return security_result(0) + struct.pack(">HH", width, height) + pixel_format() + texted(name)


def server_init(width=4, height=4):
    """A handshake up to the name, which is rfb."""
    return handshake(width, height)[:-3]


def framebuffer_head(count):
    """The head of an update of so many rectangles."""
    return struct.pack(">BxH", 0, count)


def framebuffer_update(*rectangles):
    """It follows a handshake. Its first rectangle is Raw, of one pixel."""
    pixel = rectangle_head(0, (0, 0, 1, 1)) + bytes(4)
    return handshake(4, 4) + framebuffer_head(1 + len(rectangles)) + pixel + b"".join(rectangles)


def rectangle(encoding, data=b"", area=(0, 0, 4, 4)):
    """The second rectangle of the first update."""
    return framebuffer_update(rectangle_head(encoding, area) + data)


def message(kind, more=b""):
    """What follows the first update."""
    return framebuffer_update() + bytes([kind]) + more


def rre(*area):
    """RRE of one subrectangle."""
    return rectangle(2, struct.pack(">III4H", 1, 0, 0, *area))


def hextile(mask, *rest):
    return rectangle(5, bytes([mask, *rest]))


# A server of two places that is named rfb.
HELLO = handshake(2, 1)
# One update: a rectangle of both places, Raw, of the colours (0, 0, 0) and (4, 0, 2).
SERVER = HELLO + bytes.fromhex("00000001 0000 0000 0002 0001 00000000 00000000 02000400")
# One update more of SERVER: the right place, Raw, of the colour (255, 128, 1).
MORE = bytes.fromhex("00000001 0001 0000 0001 0001 00000000 0180FF00")


# ---- what a client sends

def client_init(more=b""):
    """Its version, None and a shared screen, and what follows."""
    return VERSION + bytes([1, 1]) + more


def set_pixel_format(**changed):
    return client_init(bytes(4) + pixel_format(**changed))


def set_encodings(*encodings):
    return struct.pack(f">BxH{len(encodings)}i", 2, len(encodings), *encodings)


def request(incremental, *area):
    return struct.pack(">BB4H", 3, incremental, *area)


def key(number, down=1):
    return struct.pack(">BBxxI", 4, down, number)


def pointer(buttons, x, y):
    return struct.pack(">BBHH", 5, buttons, x, y)


def cut_text(text):
    return b"\6\0\0\0" + texted(text)


# A client that asks for all of a screen of two places.
CLIENT = client_init(request(0, 0, 0, 2, 1))
