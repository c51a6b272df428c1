/* Each call once, and each of its refusals. */
#include "seats.h"

static const char *const ANN = "{\"targetingKey\":\"ann\",\"email\":\"ann@example.com\"}";
static const char *const BOB = "{\"targetingKey\":\"bob\"}";

static void refusals(flagops_seat *seat) {
    answer a = resolve(seat, "\xff", 9, "x", "x");
    expect(a.number == FLAGOPS_KIND && is_untouched(&a), "the kind comes first");
    a = resolve(seat, "\xff", FLAGOPS_BOOL, "x", "x");
    expect(a.number == FLAGOPS_KEY && is_untouched(&a), "then the key");
    flagops_details details;
    size_t written;
    uint8_t out[8];
    expect(flagops_resolve(seat, BYTES("checkout"), FLAGOPS_BOOL, BYTES("x"), BYTES("x"), 1ull << 53, out, sizeof out, &written, &details) == FLAGOPS_MOMENT, "then the moment");
    a = resolve(seat, "checkout", FLAGOPS_BOOL, "1.5", "x");
    expect(a.number == FLAGOPS_FALLBACK + FLAGOPS_NOT_WHOLE && is_untouched(&a), "then the fallback");
    a = resolve(seat, "checkout", FLAGOPS_BOOL, "false", "x");
    expect(a.number == FLAGOPS_CONTEXT + FLAGOPS_NO_TEXT && is_untouched(&a), "then the context");
    a = resolve_in(seat, "checkout", FLAGOPS_BOOL, "false", ANN, 5);
    expect(a.number == FLAGOPS_ROOM && a.written == 6, "and last the room");
    a.written = 0xa5a5a5a5a5a5a5a5u;
    expect(is_untouched(&a), "which says what is wanted and writes nothing");
}

static void resolutions(flagops_seat *seat) {
    answer a = resolve(seat, "checkout", FLAGOPS_BOOL, "false", ANN);
    expect(is(&a, "trueon", FLAGOPS_TARGETING_MATCH, FLAGOPS_NO_CODE) && a.details.value == 4 && a.details.has_variant, "a variant by targeting");
    a = resolve(seat, "banner", FLAGOPS_STRING, "\"x\"", "{}");
    expect(is(&a, "\"Hello\"plain", FLAGOPS_STATIC, FLAGOPS_NO_CODE) && a.details.value == 7, "the default variant");
    a = resolve(seat, "theme", FLAGOPS_OBJECT, "{}", "{}");
    expect(is(&a, "{\"ink\":1}dark", FLAGOPS_STATIC, FLAGOPS_NO_CODE), "an object");
    a = resolve(seat, "limit", FLAGOPS_INTEGER, "7", "{}");
    expect(is(&a, "7", FLAGOPS_DISABLED, FLAGOPS_NO_CODE) && !a.details.has_variant, "a disabled flag");
    a = resolve(seat, "odd", FLAGOPS_INTEGER, "7", "{}");
    expect(is(&a, "7", FLAGOPS_ERROR, FLAGOPS_PARSE_ERROR), "a broken flag");
    a = resolve(seat, "none", FLAGOPS_INTEGER, "7", "{}");
    expect(is(&a, "7", FLAGOPS_ERROR, FLAGOPS_FLAG_NOT_FOUND), "no flag");
    a = resolve(seat, "banner", FLAGOPS_BOOL, "true", "{}");
    expect(is(&a, "true", FLAGOPS_ERROR, FLAGOPS_TYPE_MISMATCH), "another kind");
    a = resolve(seat, "banner", FLAGOPS_STRING, "\"x\"", "[]");
    expect(is(&a, "\"x\"", FLAGOPS_ERROR, FLAGOPS_INVALID_CONTEXT), "no context");
}

static void kept_contexts(flagops_seat *seat) {
    uint8_t out[64];
    size_t written = 0;
    flagops_details details;
    expect(flagops_resolve_kept(seat, BYTES("\xff"), 9, BYTES("x"), 0, out, sizeof out, &written, &details) == FLAGOPS_NO_CONTEXT, "no context was read");
    expect(flagops_context(seat, BYTES(ANN)) == FLAGOPS_OK, "a context is read");
    expect(flagops_context(seat, BYTES("x")) == FLAGOPS_CONTEXT + FLAGOPS_NO_TEXT, "another is refused");
    expect(flagops_resolve_kept(seat, BYTES("checkout"), FLAGOPS_BOOL, BYTES("false"), 0, out, sizeof out, &written, &details) == FLAGOPS_OK
        && written == 6 && !memcmp(out, "trueon", 6), "the first is kept");
}

static void notes(flagops_seat *seat) {
    static const char *const LINE = "[\"checkout\",0,null,\"checkoutbob\"]\n";
    uint8_t out[256];
    size_t written = 0;
    resolve(seat, "checkout", FLAGOPS_BOOL, "false", BOB);
    expect(flagops_notes(seat, out, sizeof out, &written) == FLAGOPS_OK && written == 0, "nothing is noted at first");
    expect(flagops_record(seat, strlen(LINE)) == FLAGOPS_OK, "notes are kept");
    for (int i = 0; i < 3; i++) resolve(seat, "checkout", FLAGOPS_BOOL, "false", BOB);
    resolve_in(seat, "checkout", FLAGOPS_BOOL, "false", "{\"targetingKey\":\"carl\"}", 2);
    expect(flagops_notes(seat, out, 3, &written) == FLAGOPS_ROOM && written == strlen(LINE), "they want room");
    expect(flagops_notes(seat, out, sizeof out, &written) == FLAGOPS_OK && written == strlen(LINE) && !memcmp(out, LINE, written), "each line once");
    expect(flagops_notes(seat, out, sizeof out, &written) == FLAGOPS_OK && written == 0, "they are taken");
    resolve(seat, "checkout", FLAGOPS_BOOL, "false", BOB);
    resolve(seat, "checkout", FLAGOPS_BOOL, "false", "{\"targetingKey\":\"dora\"}");
    expect(flagops_notes(seat, out, sizeof out, &written) == FLAGOPS_FULL && written == strlen(LINE), "it is told that one had no room");
    expect(flagops_notes(seat, out, sizeof out, &written) == FLAGOPS_OK && written == 0, "and that is told once");
}

static void seats(const uint8_t *document, size_t len) {
    flagops_seat none = FLAGOPS_NONE, one = FLAGOPS_NONE, two = FLAGOPS_NONE;
    answer a = resolve(&none, "checkout", 9, "x", "x");
    expect(a.number == FLAGOPS_EMPTY && is_untouched(&a), "there is no seat");
    expect(flagops_open(&none, document, len) == FLAGOPS_EMPTY && flagops_share(&none, &one) == FLAGOPS_EMPTY && !one.held, "nor for others");
    expect(flagops_new(&one) == FLAGOPS_OK, "a seat");
    a = resolve(&one, "checkout", FLAGOPS_BOOL, "false", "{}");
    expect(is(&a, "false", FLAGOPS_ERROR, FLAGOPS_PROVIDER_NOT_READY), "it has no flags");
    expect(flagops_open(&one, document, len) == FLAGOPS_OK && flagops_share(&one, &two) == FLAGOPS_OK, "two seats");
    expect(flagops_open(&one, document, len - 3) == FLAGOPS_DOCUMENT + FLAGOPS_NOT_JSON, "a document is refused");
    expect(flagops_open(&one, BYTES("{}")) == FLAGOPS_DOCUMENT + FLAGOPS_NO_FLAGS, "another too");
    a = resolve(&one, "banner", FLAGOPS_STRING, "\"x\"", "{}");
    expect(is(&a, "\"Hello\"plain", FLAGOPS_STATIC, FLAGOPS_NO_CODE), "the flags stay");
    expect(flagops_open(&one, BYTES("{\"flags\":{}}")) == FLAGOPS_OK, "no flags at all");
    a = resolve(&two, "banner", FLAGOPS_STRING, "\"x\"", "{}");
    expect(is(&a, "\"Hello\"plain", FLAGOPS_STATIC, FLAGOPS_NO_CODE), "the other seat has those of before");
    expect(flagops_share(&one, &two) == FLAGOPS_OK, "flags are shared once more");
    a = resolve(&two, "banner", FLAGOPS_STRING, "\"x\"", "{}");
    expect(is(&a, "\"x\"", FLAGOPS_ERROR, FLAGOPS_FLAG_NOT_FOUND), "the other seat has them");
    flagops_close(&one);
    flagops_close(&one);
    flagops_close(&two);
    expect(!one.held && !two.held && !one.address && !two.address, "none is left");
}

int main(int argc, char **argv) {
    if (argc != 2) return 2;
    size_t len, written = 0;
    uint8_t *document = load(argv[1], &len), out[256];
    static const char *const KEYS = "\"banner\" good\n\"checkout\" good\n\"limit\" good\n\"odd\" broken\n\"theme\" good\n";
    flagops_seat seat = FLAGOPS_NONE;
    expect(flagops_new(&seat) == FLAGOPS_OK && flagops_open(&seat, document, len) == FLAGOPS_OK, "a seat with flags");
    expect(flagops_keys(&seat, out, sizeof out, &written) == FLAGOPS_OK && written == strlen(KEYS) && !memcmp(out, KEYS, written), "the keys");
    expect(flagops_keys(&seat, out, 2, &written) == FLAGOPS_ROOM && written == strlen(KEYS), "the keys want room");
    expect(flagops_about(out, sizeof out, &written) == FLAGOPS_OK && !memcmp(out, "libflagops ", 11), "what the library is");
    refusals(&seat);
    resolutions(&seat);
    kept_contexts(&seat);
    notes(&seat);
    flagops_close(&seat);
    seats(document, len);
    free(document);
    return bad != 0;
}
