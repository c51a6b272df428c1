/* A target for libFuzzer: a seat and the calls on it that some bytes say, each call followed by what the header promises of it. The archive is
   not instrumented, so each new pair of a call and its answer counts as a place that was reached. */
#include "flagops.h"
#include <stdio.h>
#include <stdlib.h>
#include <string.h>

enum { ROOM = 2048, REACHED = 4096 };
__attribute__((section("__libfuzzer_extra_counters"))) static uint8_t reached[REACHED];

static const uint8_t *rest;
static size_t left;

static void must(bool holds, const char *what) {
    if (!holds) { fprintf(stderr, "not so: %s\n", what); abort(); }
}

static uint8_t byte(void) {
    if (!left) return 0;
    left--;
    return *rest++;
}

/* The next part: the bytes before a byte 0xFE, which no text in UTF-8 has, or all that are left. It stands in a block of its own, so that
   a sanitizer sees a read behind it. */
typedef struct { uint8_t *bytes; size_t len; } part;

static part next_part(void) {
    const uint8_t *end = left ? memchr(rest, 0xFE, left) : NULL;
    size_t len = end ? (size_t)(end - rest) : left;
    part p = { malloc(len ? len : 1), len };
    if (len) memcpy(p.bytes, rest, len);
    rest += len + (end ? 1 : 0);
    left -= len + (end ? 1 : 0);
    return p;
}

static void reach(unsigned call, unsigned number, unsigned more) {
    reached[(call * 257 + number * 31 + more) % REACHED]++;
}

/* What a call writes into. */
typedef struct { uint8_t bytes[ROOM]; size_t room, written; } room;

static void fresh(room *r, uint8_t size) {
    memset(r->bytes, 0xa5, sizeof r->bytes);
    r->room = size < 8 ? size : ROOM - 8;
    r->written = 0x5a5a5a5a;
}

/* 0 (or what comes beside a text), ROOM, or a refusal: the room is written up to `written`, or left alone. */
static void wrote(const room *r, uint32_t number, bool done) {
    size_t end = done ? r->written : 0;
    must(end <= r->room, "no more is written than there is room");
    for (size_t i = end; i < ROOM; i++) must(r->bytes[i] == 0xa5, "nothing is written behind it");
    if (number == FLAGOPS_ROOM) must(r->written > r->room, "more room is wanted than there is");
    else if (!done) must(r->written == 0x5a5a5a5a, "nothing is told of what is refused");
}

static void resolve_on(flagops_seat *seat, unsigned call) {
    room r;
    uint8_t size = byte();
    uint32_t kind = byte() & 7;
    uint64_t moment = (uint64_t)byte() << (byte() & 63);
    part key = next_part(), fallback = next_part(), context = { NULL, 0 };
    flagops_details details, was;
    memset(&details, 0xa5, sizeof details);
    was = details;
    fresh(&r, size);
    uint32_t number;
    if (call) number = flagops_resolve_kept(seat, key.bytes, key.len, kind, fallback.bytes, fallback.len, moment, r.bytes, r.room, &r.written, &details);
    else {
        context = next_part();
        number = flagops_resolve(seat, key.bytes, key.len, kind, fallback.bytes, fallback.len, context.bytes, context.len, moment, r.bytes, r.room, &r.written, &details);
    }
    must(number != FLAGOPS_MEMORY, "there is memory");
    wrote(&r, number, !number);
    if (number) must(!memcmp(&details, &was, sizeof was), "no details of what is refused");
    else must(details.reason < 5 && details.code < 7 && details.value <= r.written && (details.has_variant || details.value == r.written), "details of the answer");
    reach(call, number, number ? 0 : 8 * details.reason + details.code);
    free(key.bytes);
    free(fallback.bytes);
    free(context.bytes);
}

static void feed(flagops_seat *seat) {
    static uint64_t last;
    part piece = next_part();
    uint64_t number = 77;
    bool came = false;
    uint32_t n = flagops_feed(seat, piece.bytes, piece.len, &number, &came);
    must(n != FLAGOPS_MEMORY, "there is memory");
    if (n) must(number == 77 && !came, "nothing is told of a piece that is refused");
    last = came ? number : last;
    reach(2, n, came);
    free(piece.bytes);
}

static void rollout(unsigned call) {
    room r;
    fresh(&r, byte());
    part document = next_part(), request = next_part(), third = next_part(), plan = { NULL, 0 };
    uint32_t number;
    if (call == 8) number = flagops_tally(document.bytes, document.len, request.bytes, request.len, third.bytes, third.len, r.bytes, r.room, &r.written);
    else if (call == 9) number = flagops_plan(document.bytes, document.len, request.bytes, request.len, third.bytes, third.len, r.bytes, r.room, &r.written);
    else {
        plan = next_part();
        if (call == 10) number = flagops_verify(document.bytes, document.len, request.bytes, request.len, third.bytes, third.len, plan.bytes, plan.len);
        else number = flagops_apply(document.bytes, document.len, request.bytes, request.len, third.bytes, third.len, plan.bytes, plan.len, r.bytes, r.room, &r.written);
    }
    must(number != FLAGOPS_MEMORY, "there is memory");
    wrote(&r, number, call != 10 && (!number || (call == 9 && number == FLAGOPS_NO_RULE)));
    reach(call, number, 0);
    free(document.bytes);
    free(request.bytes);
    free(third.bytes);
    free(plan.bytes);
}

int LLVMFuzzerTestOneInput(const uint8_t *data, size_t size) {
    flagops_seat seat = FLAGOPS_NONE, other = FLAGOPS_NONE;
    rest = data;
    left = size;
    must(!flagops_new(&seat) && !flagops_record(&seat, 512), "a seat");
    for (int i = 0; i < 32 && left; i++) {
        unsigned call = byte() % 12;
        room r;
        part p;
        uint32_t n;
        switch (call) {
        case 0: case 1: resolve_on(&seat, call); break;
        case 2: feed(&seat); break;
        case 3: p = next_part(); n = flagops_open(&seat, p.bytes, p.len); reach(3, n, 0); free(p.bytes); break;
        case 4: p = next_part(); n = flagops_context(&seat, p.bytes, p.len); reach(4, n, 0); free(p.bytes); break;
        case 5: fresh(&r, byte()); n = flagops_keys(&seat, r.bytes, r.room, &r.written); wrote(&r, n, !n); reach(5, n, 0); break;
        case 6: fresh(&r, byte()); n = flagops_notes(&seat, r.bytes, r.room, &r.written); wrote(&r, n, !n || n == FLAGOPS_FULL); reach(6, n, 0); break;
        case 7: must(!flagops_share(&seat, &other) && !flagops_connect(&seat), "seats that share"); reach(7, 0, 0); break;
        default: rollout(call);
        }
    }
    flagops_close(&seat);
    flagops_close(&other);
    return 0;
}
