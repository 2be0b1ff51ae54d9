#!/usr/bin/env python3
"""Runs the commands of README.md and docs/USING.md as they stand there, in order.

    .ci/documented.py crates/rfb/out/rfb

`rfb` is the program that is handed in. What is run:
  - each indented block of README.md and each `sh` block of docs/USING.md, as text that is pasted
    into a shell: what fails does not end it, and nothing waits for what is in the background;
  - between them what the text has of commands that begin with a word of SPANS.
What is not, or not as it stands, is named and explained in EXCEPTIONS, SPANS, STAND_INS and
NEVER_ENDS. A block with a line that begins with no word of PROGRAMS is not run, and fails.

Each command must end with status 0, and so must what is left in the background, but for what the
block ends itself. None may print a traceback, and each picture that is left must be a PPM. One that
serves and is not in the background is given the viewers that it waits for.

Then blocks that took less than QUICK seconds are run again, beside a busy loop for each processor:
ROUNDS times each, in rounds of all of them, but for no more than BUDGET seconds.

Display 1 is an Xvnc that is begun here, where it is installed with `xsetroot`, which changes its
screen for who waits for updates. Else `rfb serve` stands in for it. Where the port of that display
is taken, what listens there is viewed. It says which of these it was. The last line is
'N passed, M failed'.
"""

import contextlib
import os
import re
import shutil
import signal
import subprocess
import sys
import tempfile
import textwrap
import threading
import time

from peers import is_listening, waits_for

TOP = os.getcwd()
PROGRAM = os.path.abspath(sys.argv[1])

# What begins so is no command for a shell, or has another in its place.
EXCEPTIONS = (
    # The lines of a library's owner, which are Rattle.
    (r"(?s)(let mut rest = came;|for \(seat, bytes\) in came).*", None),
    # It runs the program without its proofs, or proves and builds it; it is there already.
    (r"\(cd crates/rfb && rt (?:try|run) -- (.*?)\)", r"rfb \1"),
)

# The commands that are run where the text names them, beside `rfb help`, if they are installed:
# what tells of their version begins so. Another program may be called `convert` too. Other commands
# in the text are names, or build, or begin what goes on.
SPANS = {
    "convert": (["convert", "-version"], "Version: ImageMagick"),
    "man": (["man", "--version"], "man "),
}

# What stands in for a program that is not installed.
STAND_INS = {
    # `-display none -vnc 127.0.0.1:N` are its words. At display 7 nothing changes by itself.
    "qemu-system-x86_64": """[ ${4##*:} = 7 ] && exec rfb share --port 5907 --quiet >/dev/null <<END
screen 640 480
END
exec rfb serve --port $((5900 + ${4##*:})) --forever >/dev/null""",
    "vncsnapshot": "exec rfb view --port 5950 --timeout 20 >/dev/null",
    "ffmpeg": "exec cat >/dev/null",
}
# The same of what needs a display or a browser, and goes on until somebody ends it.
NEVER_ENDS = {"vncviewer": "exec rfb view --port 5950 --timeout 20 --updates 2 >/dev/null",
              "websockify": "exec rfb view --port 5962 --timeout 20 >/dev/null"}

# What a line of a block may begin with, so that no text is run in place of a command.
PROGRAMS = ("alias", "cmp", "install", "kill", "printf", "python3", "rfb", *STAND_INS, *NEVER_ENDS)

# The display that the pages view, and its port.
DISPLAY = ":1"
PORT = 5901

ROUNDS, QUICK, BUDGET = 10, 5, 60

# What a shell reads before a block and after it: it notes what fails and, at the next line, what
# was begun in the background, and waits for that. A machine, which is begun before all else, goes
# on until it is ended, after all else; what was ended by a signal to end has status 143. Where it
# comes to the end of this, and nothing failed, it ends with 7.
BEFORE = """declare -A started
trap 'echo "status $?: $BASH_COMMAND" >&2; failed=1' ERR
trap '[ "$LINENO" = "$line" ] || { line=$LINENO; [ -z "$!" ] || started[$!]=${first:=$!}; }' DEBUG
"""
AFTER = """
trap - DEBUG ERR
machine=${MACHINE:+$first}
for job in "${!started[@]}"; do
    [ $job = "$machine" ] || wait $job || [ $? = 143 ] || failed=1
done
# A machine that is told to end may do so well.
[ -z "$machine" ] || { kill $machine; wait $machine; [[ $? =~ ^(0|143)$ ]] || failed=1; }
exit $((failed ? 1 : 7))
"""


def is_there(span):
    """Whether the text's command is one that is run here."""
    name = span.split(" ")[0]
    if span.startswith("rfb help "):
        return True
    if name not in SPANS or name == span or not shutil.which(name):
        return False
    probe, sign = SPANS[name]
    return subprocess.run(probe, capture_output=True, text=True).stdout.startswith(sign)


def commands_of(page, block):
    """The page's blocks, and its commands in the text, in order; and which of them are blocks."""
    with open(os.path.join(TOP, page)) as file:
        text = file.read()
    for found in re.finditer(block + r"|^```[^`]*^```$|`([^`]+)`", text, re.M):
        session, span = found.group(1), found.group(2)
        if span and is_there(" ".join(span.split())):
            yield " ".join(span.split()), False
        for form, other in EXCEPTIONS if session else ():
            if other is None and re.match(form, session.strip()):
                session = ""
            elif other is not None:
                session = re.sub(form, other, session)
        if session:
            yield textwrap.dedent(session).strip("\n"), True


def is_of_commands(block):
    """Whether each line of the block, but for a text of `<<`, begins with a known program."""
    lines = re.sub(r"(<<END)\n.*?^END$", r"\1", block, flags=re.M | re.S).splitlines()
    return all(line.split(" ")[0] in (*PROGRAMS, *SPANS) for line in lines)


def waited_for(block):
    """The ports of what serves in the block and is not in the background, and for how many viewers
    each waits, in order."""
    for line in block.splitlines():
        command = line.split("   #")[0].rstrip()
        serves = re.search(r"rfb (?:serve|share|relay) .*--port (\d+)", command)
        if serves and not command.endswith("&"):
            number = re.search(r"--connections (\d+)", command)
            yield int(serves.group(1)), int(number.group(1)) if number else 1


@contextlib.contextmanager
def changing(block, is_xvnc):
    """The screen of display 1 changes, if it does not by itself and the block waits for that."""
    over = threading.Event()

    def change():
        while not over.is_set():
            for colour in ("orange", "black"):
                subprocess.run(["xsetroot", "-display", DISPLAY, "-solid", colour])
                over.wait(0.1)

    changer = threading.Thread(target=change)
    begins = is_xvnc and re.search(r"view --port %d.*--updates" % PORT, block)
    if begins:
        changer.start()
    try:
        yield
    finally:
        over.set()
        if begins:
            changer.join()


def run(block, room):
    """Whether the block ends well and leaves pictures alone."""
    machine = "1" if "qemu-system-x86_64" in block else ""
    with tempfile.TemporaryFile("w+") as errors, tempfile.TemporaryFile("w+") as pasted:
        pasted.write(BEFORE + block + AFTER)
        pasted.seek(0)
        shell = subprocess.Popen(["bash"], cwd=room, env={**ENVIRONMENT, "MACHINE": machine},
                                 stdin=pasted, stdout=subprocess.DEVNULL, stderr=errors,
                                 start_new_session=True)
        for port, viewers in waited_for(block):
            for _ in range(viewers):
                subprocess.run([PROGRAM, "view", "--port", str(port), "--timeout", "20"],
                               stdout=subprocess.DEVNULL)
        try:
            status = shell.wait(timeout=60)
        except subprocess.TimeoutExpired:
            status = "none: it has not ended in a minute"
        # What is left of it is in its session.
        with contextlib.suppress(ProcessLookupError):
            os.killpg(shell.pid, signal.SIGKILL)
        shell.wait()
        errors.seek(0)
        told = errors.read()
    broken = list(broken_pictures(room))
    good = status == 7 and "Traceback" not in told and not broken
    if not good:
        print(f"it did not end well, with status {status}, {broken}:\n{block}\n{told}")
    return good


def broken_pictures(room):
    """The pictures that are none, which are removed."""
    for name in os.listdir(room):
        if name.endswith(".ppm"):
            with open(os.path.join(room, name), "rb") as picture:
                if picture.read(3) == b"P6\n":
                    continue
            os.remove(os.path.join(room, name))
            yield name


def run_busy(blocks, room, is_xvnc):
    """Runs blocks again beside busy loops, and tells which failed."""
    loops = [subprocess.Popen([sys.executable, "-c", "while True: pass"])
             for _ in range(os.cpu_count())]
    end, failed, runs = time.time() + BUDGET, set(), 0
    try:
        for _ in range(ROUNDS):
            for block in blocks:
                if time.time() < end and block not in failed:
                    with changing(block, is_xvnc):
                        runs += 1
                        failed.update([] if run(block, room) else [block])
    finally:
        for loop in loops:
            loop.kill()
            loop.wait()
    print(f"beside busy loops: {runs} runs of {len(blocks)} blocks")
    return failed


def begin_display():
    """A server at display 1, and whether it is an Xvnc: nothing, where there is one already."""
    if is_listening(PORT):
        print("display 1 is what listens at port %d" % PORT)
        return None, False
    xvnc = shutil.which("Xvnc") or shutil.which("Xtigervnc")
    if xvnc and shutil.which("xsetroot"):
        server = subprocess.Popen(
            [xvnc, DISPLAY, "-SecurityTypes", "None", "-localhost", "-noreset"],
            stdout=subprocess.DEVNULL, stderr=subprocess.DEVNULL)
        while server.poll() is None and not is_listening(PORT):
            time.sleep(0.05)
        if server.poll() is None:
            print("display 1 is an Xvnc")
            return server, True
    print("display 1 is rfb serve")
    server = subprocess.Popen([PROGRAM, "serve", "--port", str(PORT), "--width", "64", "--height",
                               "48", "--connections", "1000"], stdout=subprocess.DEVNULL)
    waits_for(PORT)
    return server, False


def main():
    passed = failed = 0
    room = tempfile.mkdtemp()
    programs = os.path.join(room, ".programs")
    os.mkdir(programs)
    os.symlink(PROGRAM, os.path.join(programs, "rfb"))
    # What README.md installs goes to a home of its own.
    os.makedirs(os.path.join(room, "crates/rfb/out"))
    os.symlink(PROGRAM, os.path.join(room, "crates/rfb/out/rfb"))
    ENVIRONMENT["HOME"] = os.path.join(room, ".home")
    for folder in ("docs", "examples"):
        os.symlink(os.path.join(TOP, folder), os.path.join(room, folder))
    absent = {name: other for name, other in STAND_INS.items() if not shutil.which(name)}
    for name, stand_in in {**absent, **NEVER_ENDS}.items():
        path = os.path.join(programs, name)
        open(path, "w").write("#!/bin/sh\n%s\n" % stand_in)
        os.chmod(path, 0o755)
    ENVIRONMENT["PATH"] = programs + ":" + ENVIRONMENT["PATH"]
    server, is_xvnc = begin_display()
    try:
        # What people have before they begin: the picture that they want, and a PNG.
        with open(os.path.join(room, "wanted.ppm"), "wb") as wanted:
            subprocess.run([PROGRAM, "view", "--port", str(PORT)], stdout=wanted)
        shutil.copy(os.path.join(TOP, "docs/house.png"), os.path.join(room, "status.png"))
        quick = []
        for block, is_block in [
                *commands_of("README.md", r"((?:^    .*\n|^\n(?=    ))+)"),
                *commands_of("docs/USING.md", r"^```sh\n([^`]*)^```$")]:
            begun = time.time()
            with changing(block, is_xvnc):
                good = is_of_commands(block) and run(block, room)
            passed, failed = passed + good, failed + (not good)
            if good and is_block and time.time() - begun < QUICK:
                quick.append(block)
        broken = run_busy(quick, room, is_xvnc)
        passed, failed = passed + len(quick) - len(broken), failed + len(broken)
    finally:
        if server:
            server.terminate()
            server.wait()
        shutil.rmtree(room)
    print("%d passed, %d failed" % (passed, failed))
    return failed != 0


ENVIRONMENT = dict(os.environ)


if __name__ == "__main__":
    sys.exit(main())
