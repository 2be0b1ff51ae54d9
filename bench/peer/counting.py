"""Programs under Callgrind: what each update and what stands between two of them costs."""
import os
import re
import shutil
import subprocess
import sys
import tempfile

HERE = os.path.dirname(os.path.abspath(__file__))

# A call at the end of a function stays a call, since Callgrind counts from a function's entry to
# its return.
COMPILE = ["cc", "-O2", "-fno-optimize-sibling-calls"]


def build(room):
    """Builds the programs of C in a folder. Where that can't be, it tells why."""
    for word in ("valgrind", "nm", "cc"):
        if not shutil.which(word):
            return f"there is no {word} here"
    for name, library in (("peak", "c"), ("server", "vncserver"), ("client", "vncclient")):
        words = [*COMPILE, "-o", os.path.join(room, name), os.path.join(HERE, name + ".c")]
        done = subprocess.run([*words, "-l" + library], stderr=subprocess.PIPE, text=True)
        if done.returncode != 0:
            print(done.stderr, file=sys.stderr)
            return f"{name}.c is not built (apt-get install libvncserver-dev)"
    return None


def beside_the_peer(measure):
    """Calls `measure` with our program, the one that is named or the one that is built here, and
    with a folder that has the peer's. Where these cannot be built it says why."""
    named = [word for word in sys.argv[1:] if word != "--once"]
    default = os.path.join(HERE, "..", "..", "crates", "rfb", "out", "rfb")
    room = tempfile.mkdtemp()
    try:
        missing = build(room)
        if missing:
            print(f"no table beside libvncserver: {missing}")
        else:
            measure(os.path.realpath([*named, default][0]), room)
    finally:
        shutil.rmtree(room)


def symbols_of(program):
    """The names of the functions that a program has."""
    told = subprocess.run(["nm", program], stdout=subprocess.PIPE, text=True, check=True).stdout
    lines = [line.split(" ", 2) for line in told.splitlines()]
    return {words[2] for words in lines if len(words) == 3 and words[1] in "tT"}


def first_of(names, symbols):
    """The first of these functions, each with its crate, that stands in a program by itself."""
    for name in names:
        crate, function = name.split(" ")
        for symbol in sorted(symbols):
            if re.fullmatch(rf"{crate}::(\w+::)*{function}", symbol):
                return symbol
    sys.exit("table.py: the program has none of " + ", ".join(names))


class Measured:
    """The functions of a program whose instructions are counted, with all that they call: one that
    takes a message, one that sends an update, and others; where drawing is counted by itself, one
    that copies a rectangle. Callgrind forgets that a function is to be counted where another name
    begins alike, and it then writes at that function too. So names to be counted begin with a
    star, and names to write at do not."""

    def __init__(self, names, take, send, copy=None):
        self.take, self.sent = f"--dump-before={take}", f"--dump-after={send}"
        self.flags = [f"--toggle-collect=*{name}" for name in names]
        self.flags += [f"--dump-before={copy}"] if copy else []
        self.flags += [self.take, self.sent]


class Round:
    """What an update cost: what was drawn before it from the first copy on, the request with the
    update, and what was done after it up to the next copy or message."""

    def __init__(self, drawn, sent, shown):
        self.drawn, self.sent, self.shown = drawn, sent, shown


def counted(words, flags, room, text):
    """Runs a program under Callgrind on these bytes. Gives each count that was written, in order,
    with what made Callgrind write it, and what the program printed."""
    os.makedirs(room)
    out = os.path.join(room, "counts")
    command = ["valgrind", "--tool=callgrind", f"--callgrind-out-file={out}", *flags, *words]
    given = os.path.join(room, "input")
    with open(given, "wb") as file:
        file.write(text)
    with open(given, "rb") as file, open(os.path.join(room, "told"), "w+b") as told:
        env = {**os.environ, "LD_BIND_NOW": "1"}
        done = subprocess.run(command, stdin=file, stdout=told, stderr=subprocess.PIPE, env=env)
        if done.returncode != 0:
            sys.exit(f"table.py: {' '.join(words)} failed:\n{done.stderr.decode()[-2000:]}")
        told.seek(0)
        printed = told.read(1 << 16)
    files = []
    while os.path.exists(f"{out}.{len(files) + 1}"):
        files.append(f"{out}.{len(files) + 1}")
    counts = [count_of(file) for file in [*files, out]]
    shutil.rmtree(room)
    return counts, printed


def rounds(words, measured, script, room):
    """What a program that reads a script needs for each of its updates, and what it printed."""
    text = "".join(line + "\n" for line in script).encode()
    counts, printed = counted(words, measured.flags, room, text)
    found, before = [], -1
    for at, (made_by, count) in enumerate(counts):
        if made_by == measured.sent:
            drawn = sum(drawing for _, drawing in counts[before + 2 : at])
            found.append(Round(drawn, count, counts[at + 1][1]))
            before = at
    return found, printed.decode("latin-1")


def drawings(words, stepping, found, script, room):
    """The same of a program that draws within its steps: these are counted whole. Of what they need
    from one update to the next request, what was done after the update is taken off."""
    text = "".join(line + "\n" for line in script).encode()
    counts, _ = counted(words, stepping.flags, room, text)
    between, sum_of = [], 0
    for made_by, count in counts:
        if made_by == stepping.sent:
            between.append(sum_of)
            sum_of = 0
        elif made_by == stepping.take:
            sum_of += count
    for at in range(1, len(found)):
        found[at].drawn = between[at] - found[at - 1].shown


def count_of(path):
    """The trigger and the count of a dump."""
    with open(path) as lines:
        text = lines.read()
    made_by = re.search(r"^desc: Trigger: (.*)$", text, re.M)[1]
    return made_by, int(re.search(r"^totals: (\d+)$", text, re.M)[1])
