/* A share of libvncserver: it does what the lines on standard input say, in the language of
 * `rfb share`, for as many viewers as come.
 *
 *     share share --port PORT
 *
 * Of the lines it knows `screen`, `fill`, `scroll`, `pixels` and `quit`. All that is ready is read
 * before viewers are sent what changed, as `rfb share` does it.
 */
#include <rfb/rfb.h>
#include <stdio.h>
#include <stdlib.h>
#include <string.h>
#include <sys/select.h>
#include <unistd.h>

static rfbScreenInfoPtr screen;
static int port;
static char *came; /* what was read and is not done yet */
static size_t length, room;

static void stop(const char *why) {
    fprintf(stderr, "share: %s\n", why);
    exit(1);
}

static uint32_t *place(int x, int y) {
    return (uint32_t *)screen->frameBuffer + (size_t)y * screen->width + x;
}

static void begin(int width, int height) {
    int argc = 1;
    char *argv[] = {"share", NULL};
    rfbLogEnable(0);
    screen = rfbGetScreen(&argc, argv, width, height, 8, 3, 4);
    screen->frameBuffer = calloc((size_t)width * height, 4);
    screen->cursor = NULL;
    screen->deferUpdateTime = 0;
    screen->alwaysShared = TRUE;
    screen->serverFormat.depth = 24;
    screen->serverFormat.redShift = 16;
    screen->serverFormat.blueShift = 0;
    screen->port = port;
    screen->ipv6port = 0;
    screen->listenInterface = htonl(INADDR_LOOPBACK);
    rfbInitServer(screen);
}

static void fill(int x, int y, int w, int h, uint32_t pixel) {
    for (int row = y; row < y + h; row++)
        for (int column = 0; column < w; column++) place(x, row)[column] = pixel;
    rfbMarkRectAsModified(screen, x, y, x + w, y + h);
}

/* What lies in a rectangle moves, as far as it stays there. */
static void scroll(int x, int y, int w, int h, int dx, int dy) {
    int left = x + (dx > 0 ? dx : 0), top = y + (dy > 0 ? dy : 0);
    rfbDoCopyRect(screen, left, top, left + w - abs(dx), top + h - abs(dy), dx, dy);
}

static void pixels(int x, int y, int w, int h, const unsigned char *data) {
    for (int row = y; row < y + h; row++)
        for (int column = 0; column < w; column++, data += 3)
            place(x, row)[column] = data[0] << 16 | data[1] << 8 | data[2];
    rfbMarkRectAsModified(screen, x, y, x + w, y + h);
}

/* Does what the line at the beginning of these bytes says, and tells how many it has; 0 where some
 * of them are still to come. */
static size_t step(const char *bytes, size_t count) {
    const char *end = memchr(bytes, '\n', count);
    char line[100] = "";
    int x, y, w, h, dx, dy;
    unsigned colour;
    if (!end) return 0;
    size_t used = end + 1 - bytes;
    memcpy(line, bytes, used < sizeof line ? used : sizeof line - 1);
    if (sscanf(line, "fill %d %d %d %d %x", &x, &y, &w, &h, &colour) == 5)
        fill(x, y, w, h, colour);
    else if (sscanf(line, "scroll %d %d %d %d %d %d", &x, &y, &w, &h, &dx, &dy) == 6)
        scroll(x, y, w, h, dx, dy);
    else if (sscanf(line, "pixels %d %d %d %d", &x, &y, &w, &h) == 4) {
        size_t data = (size_t)3 * w * h + 1;
        if (count - used < data) return 0;
        pixels(x, y, w, h, (const unsigned char *)bytes + used);
        used += data;
    } else if (sscanf(line, "screen %d %d", &w, &h) == 2)
        begin(w, h);
    else if (!strncmp(line, "quit", 4))
        exit(0);
    return used;
}

/* Reads once, and does all lines that are whole. */
static void hear(void) {
    if (room - length < 1 << 16) came = realloc(came, room = 2 * room + (1 << 17));
    ssize_t count = read(0, came + length, 1 << 16);
    if (count <= 0) stop("no more lines");
    length += count;
    size_t done = 0;
    for (size_t used; (used = step(came + done, length - done)) > 0;) done += used;
    memmove(came, came + done, length -= done);
}

int main(int argc, char **argv) {
    if (argc != 4) stop("share --port PORT");
    port = atoi(argv[3]);
    while (!screen) hear();
    for (;;) {
        fd_set ready = screen->allFds;
        FD_SET(0, &ready);
        if (select(screen->maxFd + 1, &ready, NULL, NULL, NULL) < 0) stop("no select");
        if (FD_ISSET(0, &ready)) hear();
        rfbProcessEvents(screen, 0);
    }
}
