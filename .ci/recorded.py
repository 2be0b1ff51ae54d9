#!/usr/bin/env python3
"""The calls of `.ci/program`: recordings, and calls with little memory.

    .ci/recorded.py PROGRAM..

Each row is a folder of these files; what a missing one would hold is empty:

    args     the words after the program's name, one a line
    stdin    what the program reads
    more     what it reads after that: a number, and a line that comes that number of times
    stdout   what it must print, and nothing else
    stderr   what it must print there, and nothing else
    status   the exit status that it must have
    device   where standard output goes in place of a file
    memory   the most memory that it may have, in KiB of address space
    as       for `.ci/memory.sh`: another call, which asks for memory as often

In place of stdin and stdout there may be stdin.gz and stdout.gz. Ten recordings are what servers of
others sent, of the version, encodings and format in their names. Beside each the fields of the
pixels that its server had on its screen were written down. The picture is of these, each field as
docs/PROTOCOL.md says that it is seen: v of at most m is (65535v + (m - 1) / 2) / m, rounded down. The
others were written byte by byte after the layouts of RFC 6143. The last line is 'N passed, M
failed'.
"""

import gzip
import os
import resource
import sys

from calls import Call, judged, limited

CALLS = os.path.join(os.path.dirname(os.path.abspath(__file__)), "program")


def content(folder, name):
    """What a file of a call holds, packed or not."""
    path = os.path.join(CALLS, folder, name)
    if os.path.exists(path + ".gz"):
        with gzip.open(path + ".gz") as file:
            return file.read()
    if not os.path.exists(path):
        return b""
    with open(path, "rb") as file:
        return file.read()


def call(folder):
    given, more = content(folder, "stdin"), content(folder, "more")
    if more:
        number, line = more.splitlines(keepends=True)
        given += int(number) * line
    memory = content(folder, "memory")
    return Call(folder, content(folder, "args").decode().splitlines(), given,
                int(content(folder, "status")), content(folder, "stdout"),
                content(folder, "stderr"), content(folder, "device").decode().strip(),
                limited(resource.RLIMIT_AS, int(memory) << 10) if memory else None)


if __name__ == "__main__":
    sys.exit(judged([call(folder) for folder in sorted(os.listdir(CALLS))], sys.argv[1:]))
