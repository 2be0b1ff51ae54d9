"""Instructions of a program under callgrind, for the scripts beside this one. Their word --once has
them do little work, each part once, so that the gate can run them; where valgrind is not installed
the program then runs by itself, and 0 is what it counts."""

import os
import re
import shutil
import subprocess
import sys

sys.dont_write_bytecode = True  # no folder of compiled modules beside the sources
HERE = os.path.dirname(os.path.abspath(__file__))
sys.path.append(os.path.join(HERE, "..", ".ci"))

ONCE = "--once" in sys.argv
COUNTS = bool(shutil.which("valgrind"))
# The words before those of a program.
RUNNER = ["valgrind", "--tool=callgrind", "--callgrind-out-file=/dev/null"] if COUNTS else []
if not COUNTS:
    print("there is no valgrind here: nothing is counted")
    if not ONCE:
        sys.exit(1)


def program():
    """The program that is named by its path, or the one that is built here."""
    named = [word for word in sys.argv[1:] if word != "--once"]
    default = os.path.join(HERE, "..", "crates", "rfb", "out", "rfb")
    return os.path.realpath(named[0] if named else default)


def collected(errors):
    """What valgrind counted, by what it printed."""
    return int(re.search(rb"Collected : (\d+)", errors).group(1)) if COUNTS else 0


def instructions(words, text=b"", status=0):
    """What a program needs on this input, from its start to its end, which has this status."""
    told = subprocess.run([*RUNNER, *words], input=text, stdout=subprocess.DEVNULL,
                          stderr=subprocess.PIPE, check=False)
    assert told.returncode == status, (words, told.stderr[-500:])
    return collected(told.stderr)
