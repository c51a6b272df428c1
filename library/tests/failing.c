/* Each request for memory refused in turn: the call says so, everything is as it was, and nothing leaks. */
#include "seats.h"

static long left = -1, live;
void *__real_malloc(size_t size);
void *__real_realloc(void *block, size_t size);
void __real_free(void *block);
static bool fails(void) { return left >= 0 && left-- == 0; }

void *__wrap_malloc(size_t size) {
    if (fails()) return NULL;
    void *block = __real_malloc(size);
    live += block != NULL;
    return block;
}

void *__wrap_realloc(void *block, size_t size) {
    if (fails()) return NULL;
    void *moved = __real_realloc(block, size);
    live += block == NULL && moved != NULL;
    return moved;
}

void __wrap_free(void *block) {
    live -= block != NULL;
    __real_free(block);
}

static const uint8_t *document;
static size_t document_len;
static const char *const BOB = "{\"targetingKey\":\"bob\"}", *const ANN = "{\"targetingKey\":\"ann\"}";

static uint8_t frame[512];
static size_t frame_len;

/* The frame of a snapshot of one flag. */
static void make_frame(void) {
    static const char *const FLAGS = "{\"flags\":{\"checkout\":{\"state\":\"ENABLED\",\"variants\":{\"b\":true},\"defaultVariant\":\"b\"}}}";
    frame[3] = (uint8_t)(8 + strlen(FLAGS));
    frame[11] = 7;
    memcpy(frame + 12, FLAGS, strlen(FLAGS));
    frame_len = 12 + strlen(FLAGS);
}

/* Feeds bytes. Where they are refused, the call has told nothing and changed nothing, and they are fed once more. */
static uint32_t feed(flagops_seat *seat, const uint8_t *bytes, size_t len) {
    uint64_t number = 99;
    bool came = true, is_whole = len == frame_len;
    uint32_t n = flagops_feed(seat, bytes, len, &number, &came);
    long before = left;
    left = -1;
    if (n) {
        expect(number == 99 && came, "nothing is told of a refused piece");
        answer a = resolve(seat, "checkout", FLAGOPS_BOOL, "false", BOB);
        expect(a.details.reason == FLAGOPS_TARGETING_MATCH, "its flags are those of before");
        expect(!flagops_feed(seat, bytes, len, &number, &came), "it may be fed again");
    }
    expect(is_whole ? came && number == 7 : !came && number == 99, "a snapshot, where there is one");
    answer a = resolve(seat, "checkout", FLAGOPS_BOOL, "false", BOB);
    expect(is_whole ? is(&a, "trueb", FLAGOPS_STATIC, FLAGOPS_NO_CODE) : a.details.reason == FLAGOPS_TARGETING_MATCH, "its flags");
    if (n) expect(!flagops_connect(seat) && !flagops_open(seat, document, document_len), "the flags of before");
    left = before;
    return n;
}

enum { NEW, OPEN, SHARE, SHARE_FIRST, SHARE_AGAIN, FEED, FEED_PART, FEED_NOTHING, CONNECT, FRAME_END, CONTEXT, CONTEXT_FIRST, RESOLVE, RESOLVE_KEPT, KEYS, RECORD, NOTES, ABOUT, TALLY, PLAN, VERIFY, APPLY, CALLS };

/* The files of a rollout. */
static const char *const REQUEST = "{\"plan\":1,\"flag\":\"checkout\",\"totals\":{\"on\":30,\"off\":70}}";
static const char *const LINES = "[\"checkout\",0,null,\"checkoutann\"]\n[\"checkout\",0,null,\"checkoutbob\"]\n";
static uint8_t counts[4096], plan[4096];
static size_t counts_len, plan_len;

static uint32_t call(int which, flagops_seat *one, flagops_seat *two, answer *a) {
    switch (which) {
    case NEW: { flagops_seat made = FLAGOPS_NONE; uint32_t n = flagops_new(&made); expect((n == 0) == made.held, "a seat or none"); flagops_close(&made); return n; }
    case OPEN: return flagops_open(one, BYTES("{\"flags\":{\"checkout\":{\"state\":\"ENABLED\",\"variants\":{\"a\":true},\"defaultVariant\":\"a\"}}}"));
    case SHARE: { flagops_seat made = FLAGOPS_NONE; uint32_t n = flagops_share(one, &made); expect((n == 0) == made.held, "a seat or none"); flagops_close(&made); return n; }
    case SHARE_FIRST: return flagops_share(one, two);
    case SHARE_AGAIN: return flagops_share(one, two);
    case FEED: return feed(one, frame, frame_len);
    case FEED_PART: return feed(one, frame, 20);
    case FEED_NOTHING: return feed(one, frame, 0);
    case CONNECT: return flagops_connect(one);
    case FRAME_END: { bool end = false; uint32_t n = flagops_at_frame_end(one, &end); expect(end, "nothing came"); return n; }
    case CONTEXT: return flagops_context(one, BYTES(ANN));
    case CONTEXT_FIRST: return flagops_context(two, BYTES(ANN));
    case RESOLVE: *a = resolve(one, "checkout", FLAGOPS_BOOL, "false", ANN); return a->number;
    case RESOLVE_KEPT: return a->number = flagops_resolve_kept(one, BYTES("checkout"), FLAGOPS_BOOL, BYTES("false"), 0, a->bytes, sizeof a->bytes, &a->written, &a->details);
    case KEYS: return a->number = flagops_keys(one, a->bytes, sizeof a->bytes, &a->written);
    case RECORD: return flagops_record(one, 32768);
    case NOTES: return a->number = flagops_notes(one, a->bytes, sizeof a->bytes, &a->written);
    case TALLY: return a->number = flagops_tally(document, document_len, BYTES(REQUEST), BYTES(LINES), a->bytes, sizeof a->bytes, &a->written);
    case PLAN: return a->number = flagops_plan(document, document_len, BYTES(REQUEST), counts, counts_len, a->bytes, sizeof a->bytes, &a->written);
    case VERIFY: return a->number = flagops_verify(document, document_len, BYTES(REQUEST), counts, counts_len, plan, plan_len);
    case APPLY: return a->number = flagops_apply(document, document_len, BYTES(REQUEST), counts, counts_len, plan, plan_len, a->bytes, sizeof a->bytes, &a->written);
    default: return a->number = flagops_about(a->bytes, sizeof a->bytes, &a->written);
    }
}

/* Whether the call asked for memory so often; the seats are as they were where it was refused. */
static bool refused_at(int which, long count) {
    long before = live;
    flagops_seat one = FLAGOPS_NONE, two = FLAGOPS_NONE;
    expect(!flagops_new(&one) && !flagops_new(&two) && !flagops_open(&one, document, document_len), "seats");
    expect(!flagops_record(&one, 65536) && !flagops_context(&one, BYTES(BOB)), "a context and notes");
    expect(!resolve(&one, "checkout", FLAGOPS_BOOL, "false", BOB).number, "a note");
    answer a;
    memset(&a, 0xa5, sizeof a);
    if (which == SHARE_AGAIN) { flagops_seat made = FLAGOPS_NONE; expect(!flagops_share(&one, &made), "shared before"); flagops_close(&made); }
    left = count;
    uint32_t number = call(which, &one, &two, &a);
    bool refused = left < 0;
    left = -1;
    /* (a seat does without the room that it keeps) */
    bool is_spared = which == CONTEXT_FIRST && count == 0;
    expect(number == (refused && !is_spared ? FLAGOPS_MEMORY : FLAGOPS_OK), "want of memory is told, and nothing else");
    if (number == FLAGOPS_MEMORY) {
        a.number = number;
        expect(is_untouched(&a), "nothing is written");
        uint8_t out[256];
        size_t written;
        expect(!flagops_notes(&one, out, sizeof out, &written) && written == 34, "the notes are as they were");
        answer b = resolve(&one, "checkout", FLAGOPS_BOOL, "false", BOB);
        expect(b.number == FLAGOPS_OK && b.details.reason == FLAGOPS_TARGETING_MATCH, "the flags are as they were");
        b = resolve(&two, "checkout", FLAGOPS_BOOL, "false", BOB);
        expect(b.details.code == FLAGOPS_PROVIDER_NOT_READY, "those of the other seat too");
    }
    flagops_close(&one);
    flagops_close(&two);
    expect(live == before, "all memory is given back");
    return refused;
}

int main(int argc, char **argv) {
    if (argc != 2) return 2;
    document = load(argv[1], &document_len);
    make_frame();
    expect(!flagops_tally(document, document_len, BYTES(REQUEST), BYTES(LINES), counts, sizeof counts, &counts_len), "a tally");
    expect(!flagops_plan(document, document_len, BYTES(REQUEST), counts, counts_len, plan, sizeof plan, &plan_len), "a plan");
    for (int which = 0; which < CALLS; which++) {
        long count = 0;
        while (refused_at(which, count) && count < 100000) count++;
        printf("%s%ld", which ? " " : "requests for memory, each refused in turn: ", count);
        bool none = which == RECORD || which == NOTES || which == ABOUT || which == SHARE_AGAIN || which == FEED_NOTHING || which == CONNECT || which == FRAME_END;
        expect(none == (count == 0), "which calls take memory");
    }
    printf("\n");
    return bad != 0;
}
