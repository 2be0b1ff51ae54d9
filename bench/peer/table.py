#!/usr/bin/env python3
"""Prints what our program needs beside libvncserver and libvncclient, for the same scripts and the
same recordings: whole updates, what changes on a screen, and memory. The program is
crates/rfb/out/rfb, or the one that is named by its path; where it is not built, its columns have a
dash. Needs valgrind, a C compiler and libvncserver-dev; where one is missing it says so and prints
no table. With --once it has one row of each kind.

    table.py [PROGRAM] [--once]
"""
import os
import sys
import time
from concurrent.futures import ThreadPoolExecutor

sys.dont_write_bytecode = True  # no folder of compiled modules beside the sources
HERE = os.path.dirname(os.path.abspath(__file__))
sys.path.append(os.path.join(HERE, "..", "..", ".ci"))

import counting
import memory
import scripts
from messages import handshake

ENCODINGS = ["raw", "rre", "hextile"]
SIZES = [(1920, 1080), (4096, 4096)]
CHANGES = ["copyrect raw", "hextile", "copyrect hextile"]
PICTURES = scripts.PICTURES
ONCE = "--once" in sys.argv
if ONCE:
    ENCODINGS, SIZES, CHANGES, PICTURES = ["raw"], [(1024, 768)], ["copyrect raw"], ["flat"]
GREETING = 45

PEER = counting.Measured(
    ["draw_fill", "draw_copy", "take_message", "send_update"],
    "take_message",
    "send_update",
    "draw_copy",
)


# The functions of our program that do what those of the peer do, and the one that does all that a
# line of a script says: drawing is a part of it. Of some the compiler makes a part of their callers;
# then the next one is counted.
OURS = [
    [
        "rfb_server Server::feed",
        "rfb_server Session::feed",
        "rfb_server Session::feed_placed",
        "rfb_session World::feed_server",
    ],
    ["rfb_server Server::compose", "rfb_server Session::compose", "rfb_server Session::send_due"],
    ["rfb_viewer Viewer::feed", "rfb_viewer Viewer::take_all", "rfb_session World::feed_viewer"],
    ["rfb_session World::step"],
]


def ours(program):
    """What is counted of our program in two runs: its calls, and its steps."""
    symbols = counting.symbols_of(program)
    take, send, show, step = (counting.first_of(names, symbols) for names in OURS)
    return (
        counting.Measured([take, send, show], take, send),
        counting.Measured([step], take, send),
    )


class Bench:
    """A folder to work in, the programs, and runs that go on beside each other."""

    def __init__(self, program, room):
        self.program, self.room = program, room
        self.server, self.client = (os.path.join(room, name) for name in ("server", "client"))
        self.ours = ours(program) if program else None
        self.pool = ThreadPoolExecutor(len(os.sched_getaffinity(0)))

    def ours_rounds(self, name, script, drawn=False):
        """What our program needs; for what is drawn it runs once more."""
        if not self.program:
            return [None] * script.count("compose")
        words, (calls, steps) = [self.program, "script"], self.ours
        room = os.path.join(self.room, name)
        found, _ = counting.rounds(words, calls, script, room)
        if drawn:
            counting.drawings(words, steps, found, script, room)
        return found

    def peer_rounds(self, name, script, form="asked"):
        """What the peer needs, the file of what it sent, and where each update is in it."""
        sent = os.path.join(self.room, name + ".sent")
        words = [self.server, form, sent]
        found, told = counting.rounds(words, PEER, script, os.path.join(self.room, name))
        return found, sent, [tuple(map(int, line.split())) for line in told.splitlines()]

    def play(self, name, form, recording):
        """The instructions of `play` for these bytes, all in all."""
        if not self.program:
            return None
        words = [self.program, "play", "--format", form]
        counts, _ = counting.counted(words, [], os.path.join(self.room, name), recording)
        return sum(count for _, count in counts)

    def peer_shows(self, name, size, sent, updates):
        """What the peer's viewer needs for each of these updates: bits of a pixel, and offset."""
        words = [self.client, *map(str, size), sent, *(str(word) for it in updates for word in it)]
        flags = ["--toggle-collect=*take_update", "--dump-after=take_update"]
        counts, _ = counting.counted(words, flags, os.path.join(self.room, name), b"")
        return [count for _, count in counts[: len(updates)]]


class Whole:
    """Whole updates of one picture in one encoding, at each format."""

    def __init__(self, bench, picture, encoding):
        self.picture, self.encoding, self.size = picture, encoding, SIZES[0]
        self.bench, self.name = bench, f"{picture}_{encoding}"
        self.script = scripts.whole_updates(picture, encoding, *self.size)
        self.ours = bench.pool.submit(bench.ours_rounds, "ours_" + self.name, self.script)
        self.peer = bench.pool.submit(self.measure_peer)
        self.own = bench.pool.submit(self.measure_own)

    def measure_peer(self):
        """The peer's server and its viewer, and our viewer on what that server sent."""
        bench, name = self.bench, self.name
        sends, sent, places = bench.peer_rounds("peer_" + name, self.script)
        updates = list(zip((32, 16, 8), (begin for begin, _ in places)))
        shows = bench.peer_shows("client_" + name, self.size, sent, updates)
        with open(sent, "rb") as file:
            recording = file.read()
        os.remove(sent)
        plays = [
            bench.play("play_" + name, form, recording[:GREETING] + recording[begin:end])
            for form, (begin, end) in zip(scripts.FORMATS, places)
        ]
        return sends, shows, plays

    def measure_own(self):
        """The peer's server where its screen has the format that it chooses by itself."""
        sends, sent, _ = self.bench.peer_rounds("own_" + self.name, self.script, "own")
        os.remove(sent)
        return sends[0]

    def row(self, idle):
        """A row of figures a place: of the server at each format, and of the viewer."""
        places = self.size[0] * self.size[1]
        sends, shows, plays = self.peer.result()
        cells = []
        for mine, theirs in zip(self.ours.result(), sends):
            cells.append(both(mine and mine.sent, theirs.sent, places))
        cells[0] += f" ({of(self.own.result().sent, places)})"
        for play, show in zip(plays, shows):
            cells.append(both(play and play - idle, show, places))
        return f"| {self.picture}, {self.encoding} | " + " | ".join(cells) + " |"


def of(count, places=None):
    """A count a place, or in all; a dash where there is none."""
    if count is None:
        return "-"
    return f"{count / places:.1f}" if places else f"{count:,}"


class Changes:
    """What changes on a screen, at one size and with one list of encodings."""

    def __init__(self, bench, size, encodings):
        self.bench, self.size, self.encodings = bench, size, encodings
        self.name = f"changes_{size[0]}_{encodings.replace(' ', '_')}"
        self.script = scripts.changing_screen(encodings, *size)
        self.names = [name for name, _ in scripts.changes(*size)]
        self.ours = bench.pool.submit(bench.ours_rounds, "ours_" + self.name, self.script, True)
        self.peer = bench.pool.submit(self.measure_peer)

    def measure_peer(self):
        sends, sent, places = self.bench.peer_rounds("peer_" + self.name, self.script)
        offsets = [begin for begin, end in places[1:] if begin != end]
        updates = [(32, begin) for begin in offsets]
        shows = self.bench.peer_shows("client_" + self.name, self.size, sent, updates)
        os.remove(sent)
        shown = dict(zip(offsets, shows))
        return sends, [shown.get(b, 0) if b != e else 0 for b, e in places]

    def cells(self):
        """For each change its name, what is drawn, and what was sent and shown. What an empty copy
        costs is taken off what is drawn."""
        sends, shows = self.peer.result()
        mine = self.ours.result()
        width, height = self.size
        for at, name in list(enumerate(self.names, 1))[1:]:
            if name == scripts.BESIDE:
                continue
            a, b = mine[at], sends[at]
            drawn = both(a and a.drawn - mine[-1].drawn, b.drawn - sends[-1].drawn)
            sent, shown = both(a and a.sent, b.sent), both(a and a.shown, shows[at])
            yield f"{name}, {width:,} by {height:,}", drawn, f"{sent} | {shown}"


def both(mine, peer, places=None):
    """Our figure and the peer's."""
    return f"{of(mine, places)} / {of(peer, places)}"


def change_rows(lists):
    """A row for each change of one size: what is drawn, and what each list of encodings needs."""
    for found in zip(*(it.cells() for it in lists)):
        name, drawn, _ = found[0]
        yield f"| {name} | {drawn} | " + " | ".join(cells for _, _, cells in found) + " |"


def measure(program, room):
    if not os.path.exists(program):
        print(f"our program is not built: {program}")
        program = None
    print_all(Bench(program, room), time.time())


def print_all(bench, begun):
    idle = bench.pool.submit(bench.play, "idle", "rgb888", handshake(*SIZES[0]))
    # The dearest are begun first.
    changes = [Changes(bench, size, it) for size in reversed(SIZES) for it in reversed(CHANGES)]
    whole = [Whole(bench, it, form) for it in PICTURES for form in ENCODINGS]
    print("| Whole update, a place | server: rgb888 | rgb565 | bgr233 |", end="")
    print(" viewer: rgb888 | rgb565 | bgr233 |")
    print("|---|---|---|---|---|---|---|")
    for it in whole:
        print(it.row(idle.result()), flush=True)
    print("\n| Change | drawing |", end="")
    print("".join(f" {it}: request and update | at the viewer |" for it in CHANGES))
    print("|---|---|" + "---|---|" * len(CHANGES))
    for size in SIZES:
        for row in change_rows([it for it in reversed(changes) if it.size == size]):
            print(row, flush=True)
    print("\n| Largest memory, MiB | server | viewer |")
    print("|---|---|---|")
    for size in SIZES:
        print(memory.row(bench, size), flush=True)
    print(f"\nThe table was made in {time.time() - begun:.0f} seconds.")


counting.beside_the_peer(measure)
