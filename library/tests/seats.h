/* What the tests share. */
#include "flagops.h"
#include <stdio.h>
#include <stdlib.h>
#include <string.h>

#define BYTES(text) (const uint8_t *)(text), strlen(text)

static int bad;

static inline void expect(bool holds, const char *what) {
    if (!holds) { bad++; fprintf(stderr, "not so: %s\n", what); }
}

static inline uint8_t *load(const char *path, size_t *len) {
    FILE *file = fopen(path, "rb");
    if (!file) { perror(path); exit(2); }
    fseek(file, 0, SEEK_END);
    long size = ftell(file);
    rewind(file);
    uint8_t *bytes = malloc((size_t)size + 1);
    *len = fread(bytes, 1, (size_t)size, file);
    fclose(file);
    return bytes;
}

typedef struct { uint8_t bytes[4096]; size_t written; flagops_details details; uint32_t number; } answer;

/* Resolves, with `room` bytes of room. */
static inline answer resolve_in(flagops_seat *seat, const char *key, uint32_t kind, const char *fallback, const char *context, size_t room) {
    answer a;
    memset(&a, 0xa5, sizeof a);
    a.number = flagops_resolve(seat, BYTES(key), kind, BYTES(fallback), BYTES(context), 0, a.bytes, room, &a.written, &a.details);
    return a;
}

static inline answer resolve(flagops_seat *seat, const char *key, uint32_t kind, const char *fallback, const char *context) {
    return resolve_in(seat, key, kind, fallback, context, sizeof(((answer *)0)->bytes));
}

static inline bool is(const answer *a, const char *text, uint32_t reason, uint32_t code) {
    return a->number == FLAGOPS_OK && a->written == strlen(text) && !memcmp(a->bytes, text, a->written)
        && a->details.reason == reason && a->details.code == code;
}

/* Nothing was written and nothing told. */
static inline bool is_untouched(const answer *a) {
    answer other;
    memset(&other, 0xa5, sizeof other);
    other.number = a->number;
    return !memcmp(a->bytes, other.bytes, sizeof a->bytes) && a->written == other.written && !memcmp(&a->details, &other.details, sizeof a->details);
}
