/* A seat a thread, of flags that are replaced meanwhile: each answer is that of one of the two documents. */
#include "seats.h"
#include <pthread.h>

enum { THREADS = 4, ROUNDS = 3000 };
static flagops_seat newest = FLAGOPS_NONE;
static pthread_mutex_t lock = PTHREAD_MUTEX_INITIALIZER;

static void *run(void *unused) {
    (void)unused;
    flagops_seat mine = FLAGOPS_NONE;
    size_t wrong = 0, reached = 0, due = 0, noted = 0, written = 0;
    uint8_t out[4096];
    for (int i = 0; i < ROUNDS; i++) {
        if (i % 16 == 0) {
            pthread_mutex_lock(&lock);
            wrong += flagops_share(&newest, &mine) != FLAGOPS_OK;
            pthread_mutex_unlock(&lock);
        }
        if (i == 0) wrong += flagops_record(&mine, 65536) != FLAGOPS_OK;
        answer a = resolve(&mine, "checkout", FLAGOPS_BOOL, "false", "{\"targetingKey\":\"ann\"}");
        wrong += a.number != FLAGOPS_OK;
        if (a.details.code == FLAGOPS_NO_CODE) wrong += a.details.reason != FLAGOPS_TARGETING_MATCH, reached++;
        else wrong += a.details.code != FLAGOPS_FLAG_NOT_FOUND || a.written != 5;
        if (i % 256 == 255) {
            wrong += flagops_notes(&mine, out, sizeof out, &written) != FLAGOPS_OK;
            noted += written > 0;
            due = reached;
        }
    }
    flagops_close(&mine);
    /* (where other work holds the main thread back, a thread may be done before it meets a document with flags) */
    if ((noted > 0) != (due > 0)) wrong++;
    return (void *)wrong;
}

int main(int argc, char **argv) {
    if (argc != 2) return 2;
    size_t len;
    uint8_t *document = load(argv[1], &len);
    expect(flagops_new(&newest) == FLAGOPS_OK && flagops_open(&newest, document, len) == FLAGOPS_OK, "a seat with flags");
    pthread_t threads[THREADS];
    for (int i = 0; i < THREADS; i++) pthread_create(&threads[i], NULL, run, NULL);
    for (int i = 0; i < 400; i++) {
        flagops_seat made = FLAGOPS_NONE;
        expect(flagops_new(&made) == FLAGOPS_OK, "a seat for a document");
        if (i % 4 == 1) expect(flagops_open(&made, BYTES("{\"flags\":{}}")) == FLAGOPS_OK, "a document without flags");
        else expect(flagops_open(&made, document, len) == FLAGOPS_OK, "the document");
        pthread_mutex_lock(&lock);
        expect(flagops_share(&made, &newest) == FLAGOPS_OK, "it is the newest");
        pthread_mutex_unlock(&lock);
        flagops_close(&made);
    }
    for (int i = 0; i < THREADS; i++) {
        void *wrong;
        pthread_join(threads[i], &wrong);
        expect(wrong == NULL, "each answer of a thread");
    }
    flagops_close(&newest);
    free(document);
    return bad != 0;
}
