/* A server of libvncserver that does what a script says, in the language of `rfb script`, so that
 * both can be measured at the same work. The viewer is this program too: it writes its messages to
 * one end of a pair of sockets, and the library reads them at the other. What the library sends
 * goes to a file, from the greeting on, and can be played.
 *
 * What is measured has a function of its own, whose name Callgrind is given: `draw_fill`,
 * `draw_copy`, `take_message`, `send_update`.
 *
 *     server asked|own SENT < script
 *
 * `asked` gives the screen the format that viewers ask for as rgb888, so that such pixels are sent
 * as they are. `own` leaves it the one that libvncserver chooses by itself, blue first, so that
 * each pixel is translated. A `copy` tells the library what moved, so a `hint` says nothing new
 * here. For each update a line is printed: where in SENT it begins, and where it ends.
 */
#include <arpa/inet.h>
#include <fcntl.h>
#include <rfb/rfb.h>
#include <stdio.h>
#include <stdlib.h>
#include <string.h>
#include <sys/socket.h>
#include <unistd.h>

#define MEASURED __attribute__((noinline, used))

static rfbScreenInfoPtr screen;
static rfbClientPtr client;
static int viewer; /* the viewer's end of the pair */
static int pair;   /* the library's end, while its number stands for the file */
static int sent;   /* the file of what was sent */

static void stop(const char *why) {
    fprintf(stderr, "server: %s\n", why);
    exit(1);
}

static uint32_t *place(int x, int y) {
    return (uint32_t *)screen->frameBuffer + (size_t)y * screen->width + x;
}

/* A rectangle of the screen gets one pixel, and the library is notified. */
MEASURED static void draw_fill(int x, int y, int w, int h, uint32_t pixel) {
    for (int row = y; row < y + h; row++) {
        uint32_t *first = place(x, row);
        for (int column = 0; column < w; column++) first[column] = pixel;
    }
    rfbMarkRectAsModified(screen, x, y, x + w, y + h);
}

/* A rectangle takes what the one at (sx, sy) had, and the library is notified. */
MEASURED static void draw_copy(int x, int y, int w, int h, int sx, int sy) {
    if (w && h) rfbDoCopyRect(screen, x, y, x + w, y + h, x - sx, y - sy);
}

/* The library takes the next message, or the next step of the handshake. */
MEASURED static void take_message(void) { rfbProcessClientMessage(client); }

/* The library sends an update, if one is due. */
MEASURED static void send_update(void) { rfbUpdateClient(client); }

static void compose(void) {
    long long begin = lseek(sent, 0, SEEK_CUR);
    send_update();
    printf("%lld %lld\n", begin, (long long)lseek(sent, 0, SEEK_CUR));
}

static void say(const void *bytes, size_t count) {
    if (write(viewer, bytes, count) != (ssize_t)count) stop("the viewer can't write");
}

/* A message of the viewer's arrives. The number of the client's socket stands for the pair
 * meanwhile, and else for the file, so that no update waits for a reader. */
static void deliver(const void *bytes, size_t count) {
    say(bytes, count);
    dup2(pair, client->sock);
    take_message();
    dup2(sent, client->sock);
}

static void begin(int width, int height, int as_asked) {
    int argc = 1;
    char *argv[] = {"server", NULL};
    rfbLogEnable(0);
    screen = rfbGetScreen(&argc, argv, width, height, 8, 3, 4);
    screen->frameBuffer = calloc((size_t)width * height, 4);
    screen->desktopName = "rfb";
    screen->cursor = NULL;
    screen->deferUpdateTime = 0;
    if (as_asked) {
        screen->serverFormat.depth = 24;
        screen->serverFormat.redShift = 16;
        screen->serverFormat.blueShift = 0;
    }
}

/* What the library says before the first update goes to the file too. */
static void keep_greeting(void) {
    char bytes[4096];
    ssize_t count = recv(viewer, bytes, sizeof bytes, MSG_DONTWAIT);
    if (count <= 0 || write(sent, bytes, count) != count) stop("no greeting");
}

static void shake_hands(void) {
    int ends[2];
    if (socketpair(AF_UNIX, SOCK_STREAM, 0, ends) < 0) stop("no pair of sockets");
    viewer = ends[1];
    say("RFB 003.008\n", 12);
    client = rfbNewClient(screen, ends[0]);
    if (!client) stop("no client");
    take_message();
    say("\1", 1); /* None */
    take_message();
    say("\1", 1); /* a shared screen */
    take_message();
    keep_greeting();
    pair = dup(client->sock);
    dup2(sent, client->sock);
}

/* SetPixelFormat */
static void ask_format(const char *name) {
    static const unsigned char rgb888[20] = {
        0, 0, 0, 0, 32, 24, 0, 1, 0, 255, 0, 255, 0, 255, 16, 8, 0};
    static const unsigned char rgb565[20] = {
        0, 0, 0, 0, 16, 16, 0, 1, 0, 31, 0, 63, 0, 31, 11, 5, 0};
    static const unsigned char bgr233[20] = {
        0, 0, 0, 0, 8, 8, 0, 1, 0, 7, 0, 7, 0, 3, 0, 3, 6};
    if (!strcmp(name, "rgb565")) deliver(rgb565, 20);
    else if (!strcmp(name, "bgr233")) deliver(bgr233, 20);
    else deliver(rgb888, 20);
}

static int number_of(const char *encoding) {
    if (!strcmp(encoding, "copyrect")) return rfbEncodingCopyRect;
    if (!strcmp(encoding, "rre")) return rfbEncodingRRE;
    return strcmp(encoding, "hextile") ? rfbEncodingRaw : rfbEncodingHextile;
}

/* SetEncodings. A viewer that lists CopyRect draws the cursor itself: else the library, which has
 * none here, looks for it at each copy, and fails. */
static void ask_encodings(char *names) {
    uint32_t message[1 + 5];
    int count = 0;
    for (char *name = strtok(names, " "); name && count < 4; name = strtok(NULL, " ")) {
        int number = number_of(name);
        message[++count] = htonl(number);
        if (number == rfbEncodingCopyRect) message[++count] = htonl(rfbEncodingRichCursor);
    }
    message[0] = htonl(2 << 24 | count);
    deliver(message, 4 + 4 * count);
}

/* FramebufferUpdateRequest */
static void request(int whole, int x, int y, int w, int h) {
    unsigned char message[10] = {3, !whole, x >> 8, x, y >> 8, y, w >> 8, w, h >> 8, h};
    deliver(message, 10);
}

/* The pixel of a colour, RRGGBB. */
static uint32_t pixel_of(unsigned colour) {
    if (screen->serverFormat.redShift == 16) return colour;
    return (colour & 255) << 16 | (colour & 0xff00) | colour >> 16;
}

/* Does what a line says. The first `settle` is that of the handshake. Later ones, and lines that
 * deliver, say nothing here, since each message arrives at once. */
static void step(const char *line, int as_asked) {
    static char format[16] = "rgb888", encodings[64] = "raw";
    char kind[16];
    int x, y, w, h, sx, sy;
    unsigned colour;
    if (sscanf(line, "fill %d %d %d %d %x", &x, &y, &w, &h, &colour) == 5)
        draw_fill(x, y, w, h, pixel_of(colour));
    else if (sscanf(line, "copy %d %d %d %d %d %d", &x, &y, &w, &h, &sx, &sy) == 6)
        draw_copy(x, y, w, h, sx, sy);
    else if (sscanf(line, "request %15s %d %d %d %d", kind, &x, &y, &w, &h) == 5)
        request(kind[0] == 'f', x, y, w, h);
    else if (sscanf(line, "format %15s", kind) == 1)
        ask_format(kind);
    else if (sscanf(line, "screen %d %d", &w, &h) == 2)
        begin(w, h, as_asked);
    else if (!strcmp(line, "compose\n"))
        compose();
    else if (sscanf(line, "viewer %15s %63[^\n]", format, encodings) == 0 && !client) {
        shake_hands();
        ask_format(format);
        ask_encodings(encodings);
    }
}

int main(int argc, char **argv) {
    char line[256];
    if (argc != 3) stop("asked or own, and a file");
    sent = open(argv[2], O_WRONLY | O_CREAT | O_TRUNC, 0666);
    if (sent < 0) stop("no such file");
    while (fgets(line, sizeof line, stdin)) step(line, !strcmp(argv[1], "asked"));
    return 0;
}
