/* Viewers of a server, each a process of its own that keeps the screen as it is sent and asks again
 * after each update. What they do costs little, so that it does not decide what a server needs.
 *
 *     crowd PORT COUNT changes|whole|pointers|own ENCODING..
 *
 * They ask for what changed, for the whole screen, or for nothing: then they send pointers as fast as
 * these are taken. With `own` they ask for what changed, in the server's format, which has 32 bits.
 * Encodings are numbers. A line `X Y RRGGBB` on standard input is answered by `armed`, and then, once
 * all viewers show that pixel, by when the last of them did, in nanoseconds of the clock that only goes
 * forward, and how many updates all of them have had. The first line that is printed is `ready`: all
 * have the screen.
 */
#include <arpa/inet.h>
#include <netinet/tcp.h>
#include <stdint.h>
#include <stdio.h>
#include <stdlib.h>
#include <string.h>
#include <sys/mman.h>
#include <sys/prctl.h>
#include <sys/socket.h>
#include <time.h>
#include <unistd.h>
#include <signal.h>

/* What all viewers look for: how often it was asked, the place and the pixel; and how many updates they
 * have had. */
struct wanted {
    volatile int round, updates;
    volatile int x, y;
    volatile uint32_t pixel;
};

static struct wanted *wanted;
static int found; /* a pipe to the parent, for a time each */
static FILE *in;
static int out;
static int width, height;
static uint32_t *screen;

static void take(void *to, size_t count) {
    if (count && fread(to, count, 1, in) != 1) exit(0);
}

static unsigned number(int count) {
    unsigned char bytes[4];
    unsigned value = 0;
    take(bytes, count);
    for (int k = 0; k < count; k++) value = value << 8 | bytes[k];
    return value;
}

static void send_all(const void *bytes, size_t count) {
    if (write(out, bytes, count) != (ssize_t)count) exit(0);
}

static void ask(int incremental) {
    unsigned char message[10] = {
        3, incremental, 0, 0, 0, 0, width >> 8, width, height >> 8, height};
    send_all(message, 10);
}

static void hello(int port, int own, int count, uint32_t *encodings) {
    struct sockaddr_in address = {.sin_family = AF_INET, .sin_port = htons(port)};
    int one = 1;
    char bytes[64];
    address.sin_addr.s_addr = htonl(INADDR_LOOPBACK);
    out = socket(AF_INET, SOCK_STREAM, 0);
    if (connect(out, (struct sockaddr *)&address, sizeof address) < 0) exit(1);
    setsockopt(out, IPPROTO_TCP, TCP_NODELAY, &one, sizeof one);
    in = fdopen(out, "r");
    setvbuf(in, NULL, _IOFBF, 1 << 18);
    take(bytes, 12);
    send_all("RFB 003.008\n", 12);
    take(bytes, number(1));
    send_all("\1", 1);
    number(4);
    send_all("\1", 1);
    width = number(2);
    height = number(2);
    take(bytes, 16);
    for (unsigned left = number(4); left > 0; left--) number(1);
    screen = calloc((size_t)width * height, 4);
    /* SetPixelFormat: 32 bits, depth 24, lowest byte first, true colour, red at 16. */
    static const char format[20] = {0, 0, 0, 0, 32, 24, 0, 1, 0, -1, 0, -1, 0, -1, 16, 8, 0};
    if (!own) send_all(format, 20);
    uint32_t message[16] = {htonl(2 << 24 | count)};
    for (int k = 0; k < count; k++) message[1 + k] = htonl(encodings[k]);
    send_all(message, 4 + 4 * count);
}

static uint32_t *row(int x, int y) { return screen + (size_t)y * width + x; }

static void fill(int x, int y, int w, int h, uint32_t pixel) {
    for (int k = y; k < y + h; k++)
        for (int place = 0; place < w; place++) row(x, k)[place] = pixel;
}

static void raw(int x, int y, int w, int h) {
    for (int k = y; k < y + h; k++) take(row(x, k), 4 * w);
}

static void copy(int x, int y, int w, int h) {
    int sx = number(2), sy = number(2);
    for (int k = 0; k < h; k++) {
        int at = sy < y ? h - 1 - k : k;
        memmove(row(x, y + at), row(sx, sy + at), 4 * w);
    }
}

static void hextile(int x0, int y0, int w0, int h0) {
    uint32_t back = 0, fore = 0;
    for (int y = y0; y < y0 + h0; y += 16)
        for (int x = x0; x < x0 + w0; x += 16) {
            int w = x0 + w0 - x < 16 ? x0 + w0 - x : 16, h = y0 + h0 - y < 16 ? y0 + h0 - y : 16;
            unsigned mask = number(1);
            if (mask & 1) {
                raw(x, y, w, h);
                continue;
            }
            if (mask & 2) take(&back, 4);
            if (mask & 4) take(&fore, 4);
            fill(x, y, w, h, back);
            for (unsigned left = mask & 8 ? number(1) : 0; left > 0; left--) {
                if (mask & 16) take(&fore, 4);
                unsigned at = number(1), size = number(1);
                fill(x + (at >> 4), y + (at & 15), (size >> 4) + 1, (size & 15) + 1, fore);
            }
        }
}

static void update(void) {
    number(2);
    for (unsigned left = number(2); left > 0; left--) {
        int x = number(2), y = number(2), w = number(2), h = number(2);
        switch ((int)number(4)) {
        case 0: raw(x, y, w, h); break;
        case 1: copy(x, y, w, h); break;
        case 5: hextile(x, y, w, h); break;
        case -239: /* a cursor: its pixels and its mask */
            for (int left = 4 * w * h + (w + 7) / 8 * h; left > 0; left--) number(1);
            break;
        default: exit(1);
        }
    }
}

static void tell(void) {
    struct timespec now;
    clock_gettime(CLOCK_MONOTONIC, &now);
    int64_t time = now.tv_sec * INT64_C(1000000000) + now.tv_nsec;
    if (write(found, &time, sizeof time) != sizeof time) exit(0);
}

static void view(int incremental) {
    int round = 0;
    for (ask(0);; ask(incremental)) {
        update();
        __sync_fetch_and_add(&wanted->updates, 1);
        if (round == 0 || (round <= wanted->round
                           && (*row(wanted->x, wanted->y) & 0xffffff) == wanted->pixel)) {
            tell();
            round++;
        }
    }
}

static void point(void) {
    static unsigned char messages[6 * 1024];
    for (int k = 0; k < 1024; k++) messages[6 * k] = 5, messages[6 * k + 3] = k & 63;
    for (tell();;) send_all(messages, sizeof messages);
}

/* The last of the times at which all viewers found what they look for. */
static long long last_of(int times, int count) {
    int64_t last = 0;
    for (int k = 0; k < count; k++) {
        int64_t time;
        if (read(times, &time, sizeof time) != sizeof time) exit(1);
        if (time > last) last = time;
    }
    return last;
}

int main(int argc, char **argv) {
    int count = atoi(argv[2]), ends[2], x, y;
    unsigned pixel;
    uint32_t encodings[15];
    for (int k = 4; k < argc; k++) encodings[k - 4] = atoi(argv[k]);
    wanted = mmap(NULL, sizeof *wanted, PROT_READ | PROT_WRITE, MAP_SHARED | MAP_ANONYMOUS, -1, 0);
    if (pipe(ends) < 0) return 1;
    for (int k = 0; k < count; k++)
        if (fork() == 0) {
            prctl(PR_SET_PDEATHSIG, SIGKILL);
            found = ends[1];
            hello(atoi(argv[1]), !strcmp(argv[3], "own"), argc - 4, encodings);
            if (!strcmp(argv[3], "pointers")) point();
            view(strcmp(argv[3], "whole") != 0);
        }
    close(ends[1]);
    setvbuf(stdout, NULL, _IOLBF, 0);
    last_of(ends[0], count);
    puts("ready");
    while (scanf("%d %d %x", &x, &y, &pixel) == 3) {
        wanted->x = x, wanted->y = y, wanted->pixel = pixel;
        wanted->round++;
        puts("armed");
        long long last = last_of(ends[0], count);
        printf("%lld %d\n", last, wanted->updates);
    }
    return 0;
}
