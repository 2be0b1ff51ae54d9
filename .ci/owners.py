#!/usr/bin/env python3
"""The lines of a share's owner, on standard input.

    .ci/owners.py PROGRAM..

Each row runs `share`, and compares its status and both outputs with what docs/PROTOCOL.md says.
`.ci/memory.sh` takes CALLS too. The last line is 'N passed, M failed'.
"""

import sys

from calls import Call, Run, ends, failing, judged
from peers import free_port

PORT = free_port()
LISTENS = b"rfb: listening on 127.0.0.1:%d\n" % PORT
NO_SCREEN = b": the lines end before it, and none says `screen W H`"


def bad_lines(*numbers):
    return b"".join(b"line %d: bad line\n" % number for number in numbers)


def why_bad(number, cause):
    return b"rfb: line %d of standard input%s\n" % (number, cause) + bad_lines(number)


CALLS = [
    Call("share_of_nothing", ["share", f"--port={PORT}"], b"", 1, b"",
         LISTENS + why_bad(1, NO_SCREEN)),
    Call("share_with_bad_lines", ["share", "--quiet", f"--port={PORT}"], b"""fill 0 0 1 1 FFFFFF
screen 4 3

screen 4 3
fill 0 0 4 3 102030
fill 3 0 2 1 FFFFFF
scroll 0 0 4 3 -1 +1
pixels 1 1 1 2

fill\x20
pixels 3 0 2 1
quit


pixels 0 0 1 1
abcd
hint 0 0 1 1 1 """ + 101 * b"1" + b"""
end 3
quit
no line
""", 0, b"", bad_lines(1, 4, 6, 7, 9, 10, 11)),
]


def an_owners_line_says_what_its_words_say():
    words = ["share", "--quiet", "--port", str(free_port())]
    ends(words, b"screen 8 8\nfill 1 2 3 4 FF8000\nfill 1 2 3 4 ffff80800000\ncopy 1 2 3 4 5 4\n"
         b"hint 1 2 3 4 0 4\nscroll 1 2 3 4 -32767 8\nend 7\nquit\n", 0)
    ends(words, b"screen 4097 1\nscreen 0 1\nscreen 4096 1\nquit\n", 0, b"", bad_lines(1, 2))
    bad = (b"fill 1 2 3 4", b"fill 1 2 3 4 FF800", b"fill 1 2 3 4 FF8000 ", b" fill 1 2 3 4 FF8000",
           b"copy 1 2 3 4 5 65536", b"copy 1 2 3 4 5 65535", b"scroll 1 2 3 4 +1 0",
           b"scroll 1 2 3 4 -32768 0", b"scroll 1 2 3 4 0 32768", b"pixels 1 2 3", b"end 70",
           b"Quit")
    ends(words, b"screen 8 8\n" + b"\n".join(bad) + b"\nquit\n", 0, b"",
         bad_lines(*range(2, 2 + len(bad))))
    # Six bytes of pixels are newlines; one line stands in the wrong place, one is too long, pixels
    # leave the screen, and others have one byte too many.
    ends(words, b"fill 0 0 1 1 000000\nscreen 2 1\n\npixels 0 0 2 1\n\n\n\n\n\n\n\nscreen 2 1\n"
         + b"x" * 97 + b"\npixels 1 0 2 1\nabcdef\npixels 0 0 1 1\nabcd\nquit\npixels 0 0 1 1\nabc",
         0, b"", bad_lines(1, 5, 6, 7, 8))


def an_owners_last_line_may_lack_its_newline():
    words = ["share", "--quiet", "--explain", "--port", str(free_port())]
    ends(words, b"screen 2 1\nquit", 0)
    ends(words, b"screen 2 1\npixels 0 0 1 1\nab\nquit\nx\nquit", 0, b"", bad_lines(2, 3))
    # No line says the size of the screen.
    for given, number in ((b"", 1), (b"\n", 2), (b"quit", 1), (b"\nscreen 0 1", 2),
                          (b"\n\npixels 0 0 1 1\nabc", 3), (b"pixels 0 0 1 1", 1)):
        ends(words, given, 1, b"", bad_lines(number))
    ends(words, b"x\nscreen 0 1", 1, b"", bad_lines(1, 2))
    # Where a read fails, what came of a line is passed over.
    with failing(b"x\nscreen 2 1") as source:
        Run(words, source=source).ends(1, b"", bad_lines(1, 2))


# Bad lines of an owner's after the one that makes a screen of 8 by 8, and what is said of each.
OWNER_CAUSES = (
    (b"fill 0 0 1 1 000000\r", b" has a carriage return: a newline alone ends a line"),
    (b"fill\t0", b" has a tab: one space parts two words"),
    (b"f\xC3\xA4ll", b" has a byte that is no printable ASCII character, 0xc3"),
    (b"quit ", b" has a space at an end, or two in a row: one space parts two words"),
    (b"end  0", b" has a space at an end, or two in a row: one space parts two words"),
    (b"x" * 97, b" has more than 96 bytes"),
    (b"pixels 0 0 1 1" + b" " * 83, b" has more than 96 bytes"),
    (b"x" * 96, b" begins with `" + b"x" * 96 + b"`, as no line there does"),
    (b"Quit", b" begins with `Quit`, as no line there does"),
    (b"request full 0 0 1 1", b" begins with `request`, as no line there does"),
    (b"screen 8 8", b": `screen W H` stands first, and once"),
    (b"fill 1 2 3 4", b" has too few words after its first: 4 of 5"),
    (b"end", b" has too few words after its first: 0 of 1"),
    (b"scroll 1 2 3 4 5", b" has too few words after its first: 5 of 6"),
    (b"quit 1", b" has too many words after its first: at most 0"),
    (b"hold 1", b" has too many words after its first: at most 0"),
    (b"pixels 1 2 3 4 5", b" has too many words after its first: at most 4"),
    (b"hint 1 2 3 4 5 6 7 8 9", b" has too many words after its first: at most 6"),
    (b"fill 65536 2 3 4 FF8000", b": `65536` is no number from 0 to 65535"),
    (b"copy 1 2 3 4 5 x", b": `x` is no number from 0 to 65535"),
    (b"fill 1 2 3 4 FF800", b": `FF800` is no colour of six or twelve hexadecimal digits"),
    (b"scroll -1 2 3 4 0 0", b": `-1` is no number from 0 to 65535"),
    (b"scroll 1 2 3 4 +1 0", b": `+1` is no number from -32767 to 32767"),
    (b"scroll 1 2 3 4 0 -32768", b": `-32768` is no number from -32767 to 32767"),
    (b"end 70", b": `70` is no seat from 0 to 7"),
    (b"fill 1 0 8 1 FF8000", b" has a rectangle that leaves the screen, 8 by 8"),
    (b"copy 1 2 3 4 5 65535", b" has a rectangle that leaves the screen, 8 by 8"),
    (b"hint 0 5 3 4 0 0", b" has a rectangle that leaves the screen, 8 by 8"),
    (b"scroll 0 0 1 9 0 0", b" has a rectangle that leaves the screen, 8 by 8"),
    (b"pixels 7 0 2 1\nabcdef", b" has a rectangle that leaves the screen, 8 by 8"),
    (b"pixels 7 0 1 1\n\n\n\nquit", b": no newline follows its 3 bytes of pixels"),
    (b"pixels 0 0 8 8\n" + b"ab\n" * 64 + b"!", b": no newline follows its 192 bytes of pixels"),
)

# All that an owner says, where it makes no screen; the number of the last line, and what is said
# of it.
OWNER_ENDS = (
    (b"", 1, NO_SCREEN),
    (b"\n\n", 3, NO_SCREEN),
    (b"quit", 1, b": `screen W H` stands first, and once"),
    (b"pixels 0 0 1 1\nab", 1, b": `screen W H` stands first, and once"),
    (b"\nscreen 0 1", 2, b": `0` is no number from 1 to 4096"),
    (b"screen 1", 1, b" has too few words after its first: 1 of 2"),
    (b"paint", 1, b" begins with `paint`, as no line there does"),
    (b"x" * 200, 1, b" has more than 96 bytes"),
)


def an_owners_bad_line_is_explained():
    words = ["share", f"--port={PORT}"]
    lines = b"".join(line + b"\n" for line, _ in OWNER_CAUSES)
    causes = [why_bad(number, cause) for number, (_, cause) in enumerate(OWNER_CAUSES, 2)]
    ends(words, b"screen 8 8\n" + lines + b"quit\n", 0, b"", LISTENS + b"".join(causes))
    for given, number, cause in OWNER_ENDS:
        ends(words, given, 1, b"", LISTENS + why_bad(number, cause))
    ends(words, b"paint\nfill 0 0 1 1 000000\n", 1, b"",
         LISTENS + why_bad(1, b" begins with `paint`, as no line there does")
         + why_bad(2, b": `screen W H` stands first, and once") + why_bad(3, NO_SCREEN))


ROWS = [
    *CALLS,
    an_owners_line_says_what_its_words_say,
    an_owners_last_line_may_lack_its_newline,
    an_owners_bad_line_is_explained,
]


if __name__ == "__main__":
    sys.exit(judged(ROWS, sys.argv[1:]))
