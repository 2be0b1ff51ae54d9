/* A viewer of libvncclient that decodes updates of a recording. Each one is read from the file that
 * the library takes for its connection. `take_update` is what is measured; Callgrind is given its
 * name.
 *
 *     client WIDTH HEIGHT RECORDING BITS OFFSET..
 *
 * For each two of the last words, one update begins at OFFSET, in pixels of BITS bits. The library
 * keeps pixels as they come, so no more of their format is of any matter.
 */
#include <fcntl.h>
#include <rfb/rfbclient.h>
#include <stdio.h>
#include <stdlib.h>
#include <unistd.h>

#define MEASURED __attribute__((noinline, used))

static rfbClient *client;

static void stop(const char *why) {
    fprintf(stderr, "client: %s\n", why);
    exit(1);
}

/* The library takes one message. */
MEASURED static rfbBool take_update(void) { return HandleRFBServerMessage(client); }

/* A viewer that has shaken hands. It knows of no message that the server would take, so it sends
 * no request after an update. */
static void begin(int bits, int width, int height, int file) {
    client = rfbGetClient(8, 3, bits / 8);
    client->width = width;
    client->height = height;
    client->si.framebufferWidth = width;
    client->si.framebufferHeight = height;
    client->updateRect.w = width;
    client->updateRect.h = height;
    client->format.bitsPerPixel = bits;
    client->canHandleNewFBSize = 0;
    if (!client->MallocFrameBuffer(client)) stop("no memory");
    client->sock = file;
}

int main(int argc, char **argv) {
    if (argc < 6 || argc % 2) stop("a size, a file, and where updates begin in it");
    rfbEnableClientLogging = 0;
    for (int word = 4; word < argc; word += 2) {
        int file = open(argv[3], O_RDONLY);
        if (file < 0) stop("no such file");
        begin(atoi(argv[word]), atoi(argv[1]), atoi(argv[2]), file);
        if (lseek(file, atoll(argv[word + 1]), SEEK_SET) < 0) stop("no such place");
        if (!take_update()) stop("the update was refused");
        free(client->frameBuffer);
        client->frameBuffer = NULL;
        rfbClientCleanup(client);
    }
    return 0;
}
