/* How many resolutions a thread makes a second of a processor, with a context that was read once and with one that is read each time; and what
   a second seat and the replacement of a snapshot take.
     cc -O2 -D_DEFAULT_SOURCE -I library -o speed bench/library/speed.c release/x86_64-linux/libflagops.a
     ./speed demo/flags/shop.json checkout 2 */
#include "tests/seats.h"
#include <time.h>

static double now(void) {
    struct timespec t;
    clock_gettime(CLOCK_PROCESS_CPUTIME_ID, &t);
    return (double)t.tv_sec + (double)t.tv_nsec / 1e9;
}

enum { CONTEXTS = 1000, BATCH = 200 };
static char contexts[CONTEXTS][96];
static flagops_seat seat = FLAGOPS_NONE, other = FLAGOPS_NONE;
static const char *key;
static uint8_t *document;
static size_t document_len;

static void kept(int i) {
    uint8_t out[256];
    size_t written;
    flagops_details details;
    (void)i;
    expect(!flagops_resolve_kept(&seat, BYTES(key), FLAGOPS_BOOL, BYTES("false"), 0, out, sizeof out, &written, &details), "a resolution");
}

static void parsed(int i) {
    uint8_t out[256];
    size_t written;
    flagops_details details;
    expect(!flagops_resolve(&seat, BYTES(key), FLAGOPS_BOOL, BYTES("false"), BYTES(contexts[i % CONTEXTS]), 0, out, sizeof out, &written, &details), "a resolution");
}

static void second_seat(int i) {
    flagops_seat made = FLAGOPS_NONE;
    (void)i;
    expect(!flagops_share(&seat, &made), "a second seat");
    flagops_close(&made);
}

/* (the flags of each seat go to the other; what they had is freed) */
static void replaced(int i) {
    expect(!(i % 2 ? flagops_share(&seat, &other) : flagops_share(&other, &seat)), "a replacement");
}

static void rate(const char *what, double seconds, void (*act)(int)) {
    double begin = now(), end = begin + seconds;
    long count = 0;
    while (now() < end)
        for (int i = 0; i < BATCH; i++) act((int)(count++ % 1000000));
    double each = (now() - begin) / (double)count;
    printf("%s: %.0f a second, %.3f microseconds each\n", what, 1 / each, 1e6 * each);
}

int main(int argc, char **argv) {
    if (argc != 4) return 2;
    document = load(argv[1], &document_len);
    key = argv[2];
    double seconds = atof(argv[3]);
    for (int i = 0; i < CONTEXTS; i++) snprintf(contexts[i], sizeof contexts[i], "{\"targetingKey\":\"user-%d\",\"email\":\"m@example.org\"}", i);
    expect(!flagops_new(&seat) && !flagops_open(&seat, document, document_len) && !flagops_context(&seat, BYTES(contexts[0])), "a seat");
    rate("a context that was read once", seconds, kept);
    rate("a context that is read each time", seconds, parsed);
    rate("a second seat", seconds, second_seat);
    expect(!flagops_new(&other) && !flagops_open(&other, document, document_len), "another seat");
    rate("the flags of another", seconds, replaced);
    flagops_close(&seat);
    flagops_close(&other);
    free(document);
    return bad != 0;
}
