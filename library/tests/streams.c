/* Streams of frames, cut at random, with faults behind: the newest whole snapshot is the seat's flags. */
#include "seats.h"

static uint64_t state = 20260101;

static size_t drawn(size_t below) {
    state = state * 6364136223846793005u + 1442695040888963407u;
    return (size_t)(state >> 33) % below;
}

typedef struct { uint8_t *bytes; size_t len; } stream;

static void add(stream *s, const void *bytes, size_t len) {
    memcpy(s->bytes + s->len, bytes, len);
    s->len += len;
}

/* The frame of a snapshot whose one flag has its number as its value. */
static void add_frame(stream *s, uint64_t number) {
    char document[256];
    int len = snprintf(document, sizeof document, "{\"flags\":{\"n\":{\"state\":\"ENABLED\",\"variants\":{\"v\":%llu},\"defaultVariant\":\"v\"}}}", (unsigned long long)number);
    uint8_t head[12] = {0, 0, 0, (uint8_t)(len + 8)};
    for (int i = 0; i < 8; i++) head[4 + i] = (uint8_t)(number >> (56 - 8 * i));
    add(s, head, sizeof head);
    add(s, document, (size_t)len);
}

static bool has(flagops_seat *seat, uint64_t number) {
    char text[32];
    answer a = resolve(seat, "n", FLAGOPS_INTEGER, "0", "{}");
    if (number == 0) return a.details.code == FLAGOPS_PROVIDER_NOT_READY;
    snprintf(text, sizeof text, "%lluv", (unsigned long long)number);
    return is(&a, text, FLAGOPS_STATIC, FLAGOPS_NO_CODE);
}

/* Feeds a stream in pieces; the number of the newest snapshot, or that of before. */
static uint32_t feed_all(flagops_seat *seat, stream s, uint64_t *newest) {
    bool came;
    for (size_t at = 0; at < s.len;) {
        size_t len = drawn(4) ? drawn(12) : drawn(400);
        if (len > s.len - at) len = s.len - at;
        uint64_t number = 0;
        uint32_t n = flagops_feed(seat, s.bytes + at, len, &number, &came);
        if (n) return n;
        if (came) {
            expect(number > *newest, "numbers rise");
            *newest = number;
        }
        expect(has(seat, *newest), "the flags are those of the newest snapshot");
        at += len;
    }
    return flagops_feed(seat, s.bytes, 0, newest, &came);
}

static void one_stream(uint8_t *room) {
    static const uint8_t SHORT[] = {0, 0, 0, 7}, LONG[] = {0, 64, 0, 9}, NO_DOCUMENT[] = {0, 0, 0, 9, 0, 0, 0, 0, 1, 0, 0, 0, '{'};
    flagops_seat seat = FLAGOPS_NONE;
    expect(!flagops_new(&seat), "a seat");
    uint64_t last = 0, newest = 0, number = 5;
    stream s = {room, 0};
    for (size_t i = drawn(6); i > 0; i--) add_frame(&s, last += 1 + drawn(1000));
    uint32_t fault = (uint32_t)drawn(6);
    if (fault == 1) add(&s, drawn(2) ? SHORT : LONG, 4);
    if (fault == 2) add_frame(&s, last ? 1 + drawn(last) : 0);
    if (fault == 3) add(&s, NO_DOCUMENT, sizeof NO_DOCUMENT);
    if (fault == 4) { add_frame(&s, last + 1); s.len -= 1 + drawn(60); }
    uint32_t n = feed_all(&seat, s, &newest);
    expect(n == (fault >= 1 && fault <= 3 ? FLAGOPS_FRAME + fault : 0), "the fault, behind all snapshots");
    expect(newest == last && has(&seat, last), "the last one stays");
    bool end = false, came = true;
    expect(!flagops_at_frame_end(&seat, &end) && end == (fault == 0 || fault == 5), "whether it ends behind a frame");
    if (n) {
        expect(flagops_feed(&seat, room, 0, &number, &came) == FLAGOPS_FRAME + FLAGOPS_FAILED && number == 5 && came, "it has failed, and tells nothing");
        expect(has(&seat, last), "the flags stay");
    }
    expect(!flagops_connect(&seat) && has(&seat, last), "a new connection keeps them");
    expect(!flagops_at_frame_end(&seat, &end) && end, "and has given nothing");
    s.len = 0;
    add_frame(&s, 1);
    newest = 0;
    bool before = has(&seat, last);
    expect(before && !flagops_feed(&seat, s.bytes, s.len, &newest, &came) && came && newest == 1 && has(&seat, 1), "its numbers begin again");
    flagops_close(&seat);
}

int main(void) {
    static uint8_t room[65536];
    flagops_seat none = FLAGOPS_NONE;
    uint64_t number = 5;
    bool came = true, end = true;
    expect(flagops_feed(&none, room, 4, &number, &came) == FLAGOPS_EMPTY && number == 5 && came, "there is no seat");
    expect(flagops_connect(&none) == FLAGOPS_EMPTY && flagops_at_frame_end(&none, &end) == FLAGOPS_EMPTY && end, "nor for others");
    for (int i = 0; i < 3000; i++) one_stream(room);
    return bad != 0;
}
