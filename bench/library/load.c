/* THREADS threads resolve, note and take their notes, beside documents that are replaced, snapshots that come by a stream and rollouts that
   are planned, for so many seconds. Each tenth of the time it prints the memory that is held; the last line says whether it is flat: the most
   of the second half is at most a twentieth above that of the first.
     load DOCUMENT SECONDS */
#include "tests/seats.h"
#include <pthread.h>
#include <stdatomic.h>
#include <time.h>
#include <unistd.h>

enum { THREADS = 8, USERS = 100000 };
static flagops_seat newest = FLAGOPS_NONE;
static pthread_mutex_t lock = PTHREAD_MUTEX_INITIALIZER;
static atomic_bool over;
static atomic_ulong done, wrong;

static long held(void) {
    long all = 0, resident = 0;
    FILE *file = fopen("/proc/self/statm", "r");
    if (!file || fscanf(file, "%ld %ld", &all, &resident) != 2) exit(2);
    fclose(file);
    return resident * sysconf(_SC_PAGESIZE) / 1024;
}

static void *resolve_on(void *begins) {
    flagops_seat mine = FLAGOPS_NONE;
    unsigned long user = (unsigned long)begins, count = 0;
    uint8_t out[65536];
    size_t written;
    while (!over) {
        if (count % 64 == 0) {
            pthread_mutex_lock(&lock);
            if (flagops_share(&newest, &mine)) wrong++;
            pthread_mutex_unlock(&lock);
        }
        if (count++ == 0 && flagops_record(&mine, 32768)) wrong++;
        char context[64];
        snprintf(context, sizeof context, "{\"targetingKey\":\"user-%lu\"}", user = (user * 7919 + 1) % USERS);
        if (resolve(&mine, "checkout", FLAGOPS_BOOL, "false", context).number) wrong++;
        if (count % 512 == 0) {
            uint32_t number = flagops_notes(&mine, out, sizeof out, &written);
            if (number && number != FLAGOPS_FULL) wrong++;
        }
        done++;
    }
    flagops_close(&mine);
    return NULL;
}

/* A frame of the stream: the length behind it, the number, the document. */
static size_t frame_of(uint8_t *frame, uint64_t number, const uint8_t *document, size_t len) {
    for (int i = 0; i < 4; i++) frame[i] = (uint8_t)((8 + len) >> (24 - 8 * i));
    for (int i = 0; i < 8; i++) frame[4 + i] = (uint8_t)(number >> (56 - 8 * i));
    memcpy(frame + 12, document, len);
    return 12 + len;
}

static void plan_once(const uint8_t *document, size_t len) {
    static const char *const REQUEST = "{\"plan\":1,\"flag\":\"checkout\",\"totals\":{\"on\":30,\"off\":70}}";
    static uint8_t counts[8192], plan[8192], text[65536];
    size_t counts_len, plan_len, text_len;
    if (flagops_tally(document, len, BYTES(REQUEST), BYTES("[\"checkout\",0,null,\"checkoutann\"]\n"), counts, sizeof counts, &counts_len)
        || flagops_plan(document, len, BYTES(REQUEST), counts, counts_len, plan, sizeof plan, &plan_len)
        || flagops_verify(document, len, BYTES(REQUEST), counts, counts_len, plan, plan_len)
        || flagops_apply(document, len, BYTES(REQUEST), counts, counts_len, plan, plan_len, text, sizeof text, &text_len)) wrong++;
}

static void publish(flagops_seat *made) {
    pthread_mutex_lock(&lock);
    if (flagops_share(made, &newest)) wrong++;
    pthread_mutex_unlock(&lock);
}

int main(int argc, char **argv) {
    if (argc != 3) return 2;
    size_t len;
    uint8_t *document = load(argv[1], &len), *frame = malloc(12 + len);
    long seconds = atol(argv[2]), most[2] = { 0, 0 };
    flagops_seat stream = FLAGOPS_NONE;
    if (flagops_new(&newest) || flagops_open(&newest, document, len) || flagops_new(&stream)) return 2;
    pthread_t threads[THREADS];
    for (unsigned long i = 0; i < THREADS; i++) pthread_create(&threads[i], NULL, resolve_on, (void *)(i * 12345));
    time_t begin = time(NULL), next = begin;
    uint64_t replaced = 0;
    while (time(NULL) < begin + seconds) {
        flagops_seat made = FLAGOPS_NONE;
        if (flagops_new(&made) || flagops_open(&made, document, len)) wrong++;
        publish(&made);
        flagops_close(&made);
        uint64_t number;
        bool came;
        size_t size = frame_of(frame, ++replaced, document, len), cut = (size_t)(replaced * 31) % size;
        if (flagops_feed(&stream, frame, cut, &number, &came) || flagops_feed(&stream, frame + cut, size - cut, &number, &came) || !came || number != replaced) wrong++;
        publish(&stream);
        plan_once(document, len);
        if (time(NULL) >= next) {
            long now = held();
            int half = time(NULL) >= begin + seconds / 2;
            if (now > most[half]) most[half] = now;
            printf("%ld s: %ld kB, %lu resolutions, %lu replacements\n", (long)(time(NULL) - begin), now, (unsigned long)done, (unsigned long)(2 * replaced));
            fflush(stdout);
            next = time(NULL) + (seconds >= 10 ? seconds / 10 : 1);
        }
    }
    over = true;
    for (int i = 0; i < THREADS; i++) pthread_join(threads[i], NULL);
    flagops_close(&newest);
    flagops_close(&stream);
    free(document);
    free(frame);
    bool flat = most[1] <= most[0] + most[0] / 20;
    printf("%lu resolutions, %lu wrong, memory is %s: %ld kB and then %ld kB\n", (unsigned long)done, (unsigned long)wrong, flat ? "flat" : "NOT flat", most[0], most[1]);
    return wrong != 0 || !flat;
}
