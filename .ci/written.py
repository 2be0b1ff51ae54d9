#!/usr/bin/env python3
"""Writes the rows that are one call as folders of `args` and `stdin`, for `.ci/memory.sh`, but for
those whose output is a device.

    .ci/written.py FOLDER
"""

import os
import sys

import files
import given
import owners
import scripts
import viewed
import words

for call in (row for script in (files, given, owners, scripts, viewed, words)
             for row in script.CALLS if not row.device):
    room = os.path.join(sys.argv[1], call.__name__)
    os.mkdir(room)
    with open(os.path.join(room, "args"), "wb") as args:
        args.writelines(os.fsencode(word) + b"\n" for word in call.words)
    with open(os.path.join(room, "stdin"), "wb") as stdin:
        stdin.write(call.given)
