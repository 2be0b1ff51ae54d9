#!/usr/bin/env python3
"""A browser as the viewer of a share: Chromium, with noVNC's pages and `websockify`.

    .ci/browser.py crates/rfb/out/rfb [ROW..]

Each row opens pages and compares each pixel of their canvas with what was drawn. Where one of the
three is not installed it says so and tries nothing. What noVNC gets as Raw it leaves dark, so no
picture has noise in it. The last line is 'N passed, M failed'.
"""

import base64
import contextlib
import json
import math
import os
import shutil
import socket
import struct
import subprocess
import sys
import tempfile
import time
import urllib.request

from peers import connected, free_port, takes
from sharing import Share, Viewer, run_rows, wait_for

PAGES = "/usr/share/novnc"
CHROMIUM = ["chromium", "--headless=new", "--no-sandbox", "--disable-gpu",
            "--remote-debugging-port=0"]
QUIET = {"stdout": subprocess.DEVNULL, "stderr": subprocess.DEVNULL}
WIDTH, HEIGHT = 640, 410

# What the canvas shows, four bytes a place, and where it stands.
CANVAS = """(() => {
    const canvas = document.querySelector('canvas'), {width, height} = canvas;
    const data = canvas.getContext('2d').getImageData(0, 0, width, height).data;
    let text = '';
    for (let at = 0; at < data.length; at += 8192)
        text += String.fromCharCode(...data.subarray(at, at + 8192));
    const {left, top} = canvas.getBoundingClientRect();
    return {width, height, left, top, data: btoa(text)};
})()"""


def addresses(port):
    """Where the pages of a browser are spoken to."""
    with urllib.request.urlopen(f"http://127.0.0.1:{port}/json") as answer:
        return [page["webSocketDebuggerUrl"] for page in json.load(answer) if page["type"] == "page"]


class Page:
    """A browser that shows a page, spoken to over the WebSocket of its debugger."""

    def __init__(self, room, address, is_open):
        self.run = subprocess.Popen([*CHROMIUM, f"--user-data-dir={room}", address], **QUIET)
        told = os.path.join(room, "DevToolsActivePort")
        wait_for(lambda: os.path.exists(told) and open(told).read().count("\n"), "no browser")
        port = int(open(told).read().split()[0])
        wait_for(lambda: addresses(port), "no page")
        path = addresses(port)[0].split("/", 3)[3]
        self.stream = socket.create_connection(("127.0.0.1", port), 20)
        self.stream.sendall(f"GET /{path} HTTP/1.1\r\nHost: 127.0.0.1:{port}\r\n"
                            "Upgrade: websocket\r\nConnection: Upgrade\r\n"
                            "Sec-WebSocket-Key: AAAAAAAAAAAAAAAAAAAAAA==\r\n"
                            "Sec-WebSocket-Version: 13\r\n\r\n".encode())
        head = b""
        while not head.endswith(b"\r\n\r\n"):
            head += takes(self.stream, 1)
        assert head.startswith(b"HTTP/1.1 101 "), head
        self.count = 0
        wait_for(lambda: self.value(is_open), address)

    def call(self, method, **words):
        """What is answered. Events are passed over."""
        self.count += 1
        text = json.dumps({"id": self.count, "method": method, "params": words}).encode()
        # A frame of text, masked by zeros.
        self.stream.sendall(struct.pack(">BBH4x", 0x81, 0x80 | 126, len(text)) + text)
        while True:
            answer = json.loads(self.message())
            if answer.get("id") == self.count:
                assert "result" in answer, answer
                return answer["result"]

    def message(self):
        came, is_last = b"", False
        while not is_last:
            kind, length = takes(self.stream, 2)
            for size, form in (126, ">H"), (127, ">Q"):
                if length == size:
                    length, = struct.unpack(form, takes(self.stream, struct.calcsize(form)))
                    break
            came += takes(self.stream, length)
            is_last = kind & 0x80
        return came

    def value(self, expression):
        told = self.call("Runtime.evaluate", expression=expression, returnByValue=True)
        return told["result"].get("value")

    def shows(self, screen):
        """Waits until the canvas is this picture, red, green and blue of each place."""
        def is_shown():
            canvas = self.value(CANVAS)
            data = base64.b64decode(canvas["data"])
            places = bytearray(len(data) // 4 * 3)
            for part in range(3):
                places[part::3] = data[part::4]
            return (canvas["width"], canvas["height"]) == (WIDTH, HEIGHT) and places == screen

        wait_for(is_shown, "another picture")

    def clicks(self, x, y):
        canvas = self.value(CANVAS)
        place = {"x": math.ceil(canvas["left"] + x), "y": math.ceil(canvas["top"] + y),
                 "button": "left", "clickCount": 1}
        for kind, buttons in ("mousePressed", 1), ("mouseReleased", 0):
            self.call("Input.dispatchMouseEvent", type=kind, buttons=buttons, **place)

    def types(self, letter):
        words = {"key": letter, "code": "Key" + letter.upper(), "text": letter,
                 "windowsVirtualKeyCode": ord(letter.upper())}
        for kind in "keyDown", "keyUp":
            self.call("Input.dispatchKeyEvent", type=kind, **words)


@contextlib.contextmanager
def browsing():
    """A share, and what opens one of noVNC's pages on it in a browser."""
    share = Share()
    share.say(f"screen {WIDTH} {HEIGHT}\n")
    connected(share.port).close()
    gate, pages = free_port(), []

    def opens(page, is_open):
        rooms.enter_context(room := tempfile.TemporaryDirectory(ignore_cleanup_errors=True))
        pages.append(Page(room.name, f"http://127.0.0.1:{gate}/{page}", is_open))
        return pages[-1]

    with contextlib.ExitStack() as rooms:
        run = subprocess.Popen(["websockify", "--web", PAGES, f"127.0.0.1:{gate}",
                                f"127.0.0.1:{share.port}"], **QUIET)
        try:
            connected(gate).close()
            yield share, opens
        finally:
            for each in *(page.run for page in pages), run:
                each.terminate()
                each.wait()
    share.quits()


LITE = ("vnc_lite.html", "document.getElementById('status').textContent.startsWith('Connected')")
WHOLE = ("vnc.html?autoconnect=true&path=websockify",
         "document.documentElement.classList.contains('noVNC_connected')")


class Screen:
    """What is drawn, and the lines that draw it."""

    def __init__(self):
        self.places = bytearray(3 * WIDTH * HEIGHT)
        self.lines = []

    def fill(self, x, y, w, h, colour):
        for row in range(y, y + h):
            start = 3 * (row * WIDTH + x)
            self.places[start:start + 3 * w] = bytes(colour) * w
        self.lines.append("fill %d %d %d %d %02x%02x%02x\n" % (x, y, w, h, *colour))

    def scroll(self, rows):
        self.places[:-3 * WIDTH * rows] = self.places[3 * WIDTH * rows:]
        self.lines.append(f"scroll 0 0 {WIDTH} {HEIGHT} 0 {-rows}\n")

    def drawn(self):
        text, self.lines = "".join(self.lines), []
        return text


def test_screen():
    """Bars, squares and a gradient."""
    screen = Screen()
    for bar in range(8):
        screen.fill(80 * bar, 0, 80, 130, (255 * (bar & 1), 255 * (bar >> 1 & 1), 255 * (bar >> 2)))
    for square in range(8 * 40):
        screen.fill(square % 40 * 16, 130 + square // 40 * 16, 9, 9, (square % 256, 128, 64))
    for column in range(WIDTH):
        screen.fill(column, 260, 1, 150, (column * 255 // (WIDTH - 1), 90, 255 - column * 255 // 639))
    return screen


def a_browser_shows_what_is_drawn_and_its_keys_and_pointer_arrive():
    for page in LITE, WHOLE:
        with browsing() as (share, opens):
            screen = test_screen()
            share.say(screen.drawn())
            opened = opens(*page)
            opened.shows(screen.places)
            opened.clicks(123, 45)
            opened.types("a")
            for line in b"pointer 0 1 123 45", b"pointer 0 0 123 45", b"key 0 down 97", b"key 0 up 97":
                share.tells(line)
            opened.call("Page.close")
            opened.run.terminate()
            # The first connection was no viewer's.
            share.tells(b"leave 0 ok", 2)


def two_browsers_and_a_viewer_follow_a_screen_that_moves(seconds=3):
    with browsing() as (share, opens):
        screen = test_screen()
        share.say(screen.drawn())
        pages, viewer = [opens(*LITE), opens(*WHOLE)], Viewer(share).hello()
        end, step = time.time() + seconds, 0
        while time.time() < end:
            # A place alone would be Raw, which is the shortest then.
            screen.scroll(4)
            screen.fill(0, HEIGHT - 4, WIDTH, 4, (step % 256, 255, 128))
            screen.fill(step * 6 % 600, step * 10 % 300, 40, 30, (255, step * 3 % 256, 0))
            share.say(screen.drawn())
            step += 1
            time.sleep(0.05)
        for page in pages:
            page.shows(screen.places)
        viewer.sees(WIDTH - 1, HEIGHT - 1, tuple(screen.places[-3:]))
        for of_pixel, of_place in (2, 0), (1, 1), (0, 2):
            assert viewer.shown[of_pixel::4] == screen.places[of_place::3]
        return f"{step} steps"


ROWS = [a_browser_shows_what_is_drawn_and_its_keys_and_pointer_arrive,
        two_browsers_and_a_viewer_follow_a_screen_that_moves]


if __name__ == "__main__":
    lacking = [name for name in ("chromium", "websockify") if not shutil.which(name)]
    if not os.path.exists(PAGES):
        lacking.append(PAGES)
    if lacking:
        print(f"there is no {lacking[0]} here: no browser is tried\n0 passed, 0 failed")
        sys.exit()
    run_rows(ROWS)
