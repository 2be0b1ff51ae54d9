# How much memory a program asks for.
#
#   python3 .ci/room.py crates/rfb/out/rfb
#
# Its calls of malloc and realloc are written down by size. What the screen, a name and a text are
# good for is worked out here from what docs/PROTOCOL.md, docs/DECISIONS.md and the types say that is
# kept, and must be asked for as often as it is said here, in one piece each. What a call asks for
# beside that must be the same for each screen and each text, and little.
# It needs a C compiler; where there is none it says so, and tries nothing.
# The last line is 'N passed, M failed'.
import collections, os, shutil, subprocess, sys, tempfile

from messages import handshake, texted

SHIM = r'''
#include <fcntl.h>
#include <stddef.h>
#include <stdlib.h>
#include <unistd.h>
void *__libc_malloc(size_t);
void *__libc_realloc(void *, size_t);
static int file = -1;
__attribute__((constructor)) static void begin(void) {
    file = open(getenv("ASKED"), O_CREAT | O_WRONLY | O_APPEND, 0600);
    alarm(60);
}
static void note(size_t size) {
    char text[24];
    int at = sizeof text;
    text[--at] = '\n';
    do text[--at] = '0' + size % 10; while (size /= 10);
    if (file >= 0 && write(file, text + at, sizeof text - at) < 0) abort();
}
void *malloc(size_t size) { note(size); return __libc_malloc(size); }
void *realloc(void *at, size_t size) { note(size); return __libc_realloc(at, size); }
'''


# Words, input and the bytes in flight, in all.
MOST_BESIDE = 172032


def up(number, by):
    return -(-number // by)


def picture(w, h, size):
    """A value of `size` bytes for each place: six for a colour, three components of two bytes. And
    two bytes for each row, the line that it is in."""
    return [w * h * size, 2 * h]


def place_set(w, h):
    """A bit for each place, and two for each cell of 64 by 64, rows of them in words of 64 bits. And
    a word for each cell, in which each of its rows has a bit."""
    across, down = up(w, 64), up(h, 64)
    return [8 * across * h] + [8 * up(across, 64) * down] * 2 + [8 * across * down]


def area(w, h):
    """The places that are asked, and those that are whole."""
    return place_set(w, h) * 2


def server(w, h):
    """The screen; the record, which is a pixel of 32 bits for each place and an area that tells
    which are known; what is asked; and the places that were drawn on since."""
    return picture(w, h, 6) + picture(w, h, 4) + area(w, h) * 2 + place_set(w, h)


def world(w, h):
    """A server, a viewer's picture, and of the latest update the screen, what was asked, and what
    was asked before the one under way."""
    return server(w, h) + picture(w, h, 6) + picture(w, h, 6) + area(w, h) * 2


def update(w, h, size):
    """Room for an update of all places, without a hint: its head, a rectangle's head for each cell,
    and a pixel for each place."""
    return [4 + 12 * up(w, 64) * up(h, 64) + size * w * h]


def script(w, h, *lines):
    return '\n'.join(['screen %d %d' % (w, h), *lines, '']).encode()


def recording(w, h, name, text):
    """A server's handshake of 3.8, and a text."""
    return handshake(w, h, b'n' * name) + b'\3\0\0\0' + texted(b't' * text)


def kept(length):
    """A text of which at most 1,024 bytes are kept; an empty one needs no memory."""
    return [min(length, 1024)] if length else []


# Two digits each, so that their scripts are of one length. The first has one cell of 64 by 64 places,
# the second two, the others four; a row of the first has one word, and of the others two.
SIZES = (64, 33), (93, 41), (67, 65), (99, 99)
TEXTS = (3, 5), (300, 0), (1024, 2000), (0, 70)
UPDATE = 'settle', 'request full 0 0 {0} {1}', 'settle', 'compose', 'settle'
AGAIN = 'request inc 0 0 {0} {1}', 'settle', 'compose', 'settle'


def scripts(size, *lines):
    """A script on each screen, with one update at a format whose pixels have `size` bytes, or none."""
    for w, h in SIZES:
        said = [line.format(w, h) for line in lines]
        yield ['script'], script(w, h, *said), world(w, h) + (update(w, h, size) if size else [])


# Of each call its cases: the words, the input, and what it asks for.
CALLS = {
    'a handshake': list(scripts(0, 'settle')),
    'an update at rgb888': list(scripts(4, *UPDATE)),
    'an update at bgr233': list(scripts(1, 'viewer bgr233 raw', *UPDATE)),
    'nothing to update': list(scripts(4, *UPDATE, *AGAIN)),
    'a recording': [
        (['play'], recording(w, h, name, text), picture(w, h, 6) + kept(name) + kept(text))
        for (w, h), (name, text) in zip(SIZES, TEXTS)],
}


def asked(program, words, given, room):
    """How often a run asks for how many bytes."""
    log = os.path.join(room, 'asked')
    with open(log, 'w'):
        pass
    run = subprocess.run([program, *words], input=given, stdout=subprocess.PIPE, stderr=subprocess.PIPE,
                         env={**os.environ, 'LD_PRELOAD': os.path.join(room, 'note.so'), 'ASKED': log})
    if run.returncode != 0:
        raise SystemExit('%r ended with status %d: %r' % (words, run.returncode, run.stderr))
    with open(log) as lines:
        return collections.Counter(int(line) for line in lines)


def listed(sizes):
    return ', '.join('%d times %d' % (count, size) for size, count in sorted(sizes.items())) or 'nothing'


def main(program):
    program = os.path.abspath(program)
    if not shutil.which('cc'):
        print('no C compiler: no allocation is looked at')
        print('0 passed, 0 failed')
        return 0
    passed = failed = 0
    with tempfile.TemporaryDirectory() as room:
        source = os.path.join(room, 'note.c')
        with open(source, 'w') as file:
            file.write(SHIM)
        subprocess.run(['cc', '-shared', '-fPIC', '-o', os.path.join(room, 'note.so'), source], check=True)
        for name, cases in CALLS.items():
            first = None
            for number, (words, given, wanted) in enumerate(cases, 1):
                sizes = asked(program, words, given, room)
                missing = collections.Counter(wanted) - sizes
                rest = sizes - collections.Counter(wanted)
                first = rest if first is None else first
                if missing:
                    wrong = 'it does not ask for %s' % listed(missing)
                elif rest != first:
                    wrong = 'beside what it should it asks for %s, and in its first case for %s' % (
                        listed(rest - first), listed(first - rest))
                elif sum(size * count for size, count in rest.items()) > MOST_BESIDE:
                    wrong = 'beside what it should it asks for %s' % listed(rest)
                else:
                    passed += 1
                    continue
                failed += 1
                print('%s, case %d: %s' % (name, number, wrong))
    print('%d passed, %d failed' % (passed, failed))
    return 0 if passed and not failed else 1


if __name__ == '__main__':
    sys.exit(main(sys.argv[1]))
