/* The calls on rollouts, and each refusal that takes no large file, in its order. */
#include "seats.h"

static const char *const REQUEST = "{\"plan\":1,\"flag\":\"checkout\",\"totals\":{\"on\":30,\"off\":70}}";
static const char *const NEVER = "{\"plan\":1,\"flag\":\"checkout\",\"totals\":{\"on\":100},\"forbid\":[[\"off\",\"on\"]]}";
#define NOTE(user) "[\"checkout\",0,null,\"checkout" user "\"]\n"
static const char *const NOTES = NOTE("ann") NOTE("bob") NOTE("carl") NOTE("dora") NOTE("eve") NOTE("finn") NOTE("gus") NOTE("hal")
    "[\"other\",0,null,\"x\"]\n";
static const char *const TALLY = "{\"tally\":1}\n{\"by\":null,\"first\":\"[\\\"checkout\\\",0,null,\\\"checkoutann\\\"]\",\"flag\":\"checkout\",\"inputs\":8,"
    "\"last\":\"[\\\"checkout\\\",0,null,\\\"checkouthal\\\"]\",\"site\":0,\"total\":100}\n[0,1]\n[2,1]\n[7,1]\n[13,1]\n[26,1]\n[53,1]\n[67,1]\n[92,1]\n";
static const char *const FREE = "{\"alpha\":[[\"off\",0,0],[\"off\",1,0],[\"on\",0,0],[\"on\",1,0]],\"beta\":[[\"off\",0],[\"on\",0]],\"cost\":0,\"plan\":1,\"rule\":"
    "[[\"on\",26],[\"off\",1],[\"on\",4],[\"off\",69]]}\n";
static const char *const DEAR = "{\"alpha\":[[\"off\",0,0],[\"off\",1,0],[\"on\",0,0],[\"on\",1,0]],\"beta\":[[\"off\",0],[\"on\",0]],\"cost\":1,\"plan\":1,\"rule\":"
    "[[\"on\",26],[\"off\",1],[\"on\",4],[\"off\",69]]}\n";

static uint8_t *document;
static size_t document_len;

#define DOCUMENT document, document_len

/* The number and the bytes of a call that writes; what it was called with lies around it. */
typedef struct { uint8_t bytes[4096]; size_t written; uint32_t number; } made;

static made fresh(void) {
    made m;
    memset(&m, 0xa5, sizeof m);
    return m;
}

static bool is_left(const made *m) {
    made other = fresh();
    return !memcmp(m->bytes, other.bytes, sizeof other.bytes) && m->written == other.written;
}

static bool says(const made *m, uint32_t number, const char *text) {
    return m->number == number && m->written == strlen(text) && !memcmp(m->bytes, text, m->written) && m->bytes[m->written] == 0xa5;
}

static made tally_in(const char *request, const char *notes, size_t room) {
    made m = fresh();
    m.number = flagops_tally(DOCUMENT, BYTES(request), BYTES(notes), m.bytes, room, &m.written);
    return m;
}

static made plan_in(const char *request, const char *tally, size_t room) {
    made m = fresh();
    m.number = flagops_plan(DOCUMENT, BYTES(request), BYTES(tally), m.bytes, room, &m.written);
    return m;
}

static made apply_in(const char *request, const char *tally, const char *plan, size_t room) {
    made m = fresh();
    m.number = flagops_apply(DOCUMENT, BYTES(request), BYTES(tally), BYTES(plan), m.bytes, room, &m.written);
    return m;
}

#define ALL sizeof(((made *)0)->bytes)

static void the_way(void) {
    made m = tally_in(REQUEST, NOTES, ALL);
    expect(says(&m, FLAGOPS_OK, TALLY), "the lines of the page are tallied");
    m = tally_in(REQUEST, NOTES, strlen(TALLY));
    expect(says(&m, FLAGOPS_OK, TALLY), "in just the room that they want");
    m = plan_in(REQUEST, TALLY, ALL);
    expect(m.number == FLAGOPS_OK && m.bytes[m.written] == 0xa5, "a rule is planned");
    m.bytes[m.written] = 0;
    expect(strstr((const char *)m.bytes, "\"cost\":0,") != NULL, "which switches nobody");
    made plan = m;
    expect(flagops_verify(DOCUMENT, BYTES(REQUEST), BYTES(TALLY), plan.bytes, plan.written) == FLAGOPS_OK, "it is right");
    expect(flagops_verify(DOCUMENT, BYTES(REQUEST), BYTES(TALLY), BYTES(FREE)) == FLAGOPS_OK, "and so is another one's");
    m = apply_in(REQUEST, TALLY, FREE, ALL - 1);
    static const char OLD[] = "[[\"on\", 20], [\"off\", 80]]", NEW[] = "[[\"on\",26], [\"off\",1], [\"on\",4], [\"off\",69]]";
    uint8_t *at = document;
    while (memcmp(at, OLD, sizeof OLD - 1)) at++;
    size_t front = (size_t)(at - document), back = document_len - front - (sizeof OLD - 1);
    expect(m.number == FLAGOPS_OK && m.written == front + sizeof NEW - 1 + back && !memcmp(m.bytes, document, front)
        && !memcmp(m.bytes + front, NEW, sizeof NEW - 1) && !memcmp(m.bytes + front + sizeof NEW - 1, at + sizeof OLD - 1, back), "each other byte is kept");
    flagops_seat seat = FLAGOPS_NONE;
    expect(!flagops_new(&seat) && !flagops_open(&seat, m.bytes, m.written), "it is a document");
    flagops_close(&seat);
}

static void no_rule(void) {
    made m = plan_in(NEVER, TALLY, ALL);
    expect(m.number == FLAGOPS_NO_RULE && m.written > 8 && !memcmp(m.bytes, "{\"none\":", 8), "no rule fits");
    m.bytes[m.written] = 0;
    const made none = m;
    expect(flagops_verify(DOCUMENT, BYTES(NEVER), BYTES(TALLY), none.bytes, none.written) == FLAGOPS_OK, "which is right");
    m = apply_in(NEVER, TALLY, (const char *)none.bytes, ALL);
    expect(m.number == FLAGOPS_NO_RULE && is_left(&m), "and changes nothing");
}

static void lines(void) {
    made m = tally_in(REQUEST, "", ALL);
    expect(m.number == FLAGOPS_OK && strstr((const char *)m.bytes, "\"inputs\":0,") != NULL, "no line at all");
    m = tally_in(REQUEST, NOTE("ann") "\n" NOTE("bob") "[\"checkout\",0,null,\"torn", ALL);
    expect(m.number == FLAGOPS_OK && strstr((const char *)m.bytes, "\"inputs\":2,") != NULL, "a blank line and a torn one are passed over");
    m = tally_in(REQUEST, NOTE("ann") "x\n", ALL);
    expect(m.number == FLAGOPS_NOTES + FLAGOPS_LINE && is_left(&m), "a line of no note");
    m = tally_in(REQUEST, NOTE("bob") NOTE("ann") "x\n", ALL);
    expect(m.number == FLAGOPS_NOTES + FLAGOPS_ORDER && is_left(&m), "the first line that is refused");
    m = tally_in(REQUEST, NOTE("ann") NOTE("ann"), ALL);
    expect(m.number == FLAGOPS_NOTES + FLAGOPS_ORDER && is_left(&m), "a line that comes twice");
}

static void refused_requests(void) {
    static const struct { const char *request; uint32_t fault; } ROWS[] = {
        { "x", FLAGOPS_REQUEST }, { "{\"plan\":1,\"flag\":\"gone\",\"totals\":{}}", FLAGOPS_UNKNOWN_FLAG },
        { "{\"plan\":1,\"flag\":\"checkout\",\"site\":1,\"totals\":{}}", FLAGOPS_NO_SITE }, { "{\"plan\":1,\"flag\":\"banner\",\"totals\":{}}", FLAGOPS_NO_SITE },
    };
    for (size_t i = 0; i < sizeof ROWS / sizeof *ROWS; i++) {
        made m = tally_in(ROWS[i].request, "x\n", 0);
        expect(m.number == FLAGOPS_ROLLOUT + ROWS[i].fault && is_left(&m), "a request comes before the lines");
        m = plan_in(ROWS[i].request, TALLY, 0);
        expect(m.number == FLAGOPS_ROLLOUT + ROWS[i].fault && is_left(&m), "and before the room");
        expect(flagops_verify(DOCUMENT, BYTES(ROWS[i].request), BYTES(TALLY), BYTES(FREE)) == FLAGOPS_ROLLOUT + ROWS[i].fault, "no plan is right for it");
        m = apply_in(ROWS[i].request, TALLY, FREE, 0);
        expect(m.number == FLAGOPS_ROLLOUT + ROWS[i].fault && is_left(&m), "nor applied");
    }
    made m = plan_in("{\"plan\":1,\"flag\":\"checkout\",\"totals\":{\"on\":30,\"blue\":70}}", TALLY, ALL);
    expect(m.number == FLAGOPS_ROLLOUT + FLAGOPS_UNKNOWN_VARIANT && is_left(&m), "a name that is no variant");
    m = plan_in("{\"plan\":1,\"flag\":\"checkout\",\"totals\":{\"on\":30}}", TALLY, ALL);
    expect(m.number == FLAGOPS_ROLLOUT + FLAGOPS_TOTALS_SUM && is_left(&m), "totals of less than the rule");
    m = tally_in(REQUEST, NOTES, 3);
    expect(m.number == FLAGOPS_ROOM && m.written == strlen(TALLY), "the room comes last");
    m.written = fresh().written;
    expect(is_left(&m), "and nothing is written into it");
    m = plan_in(REQUEST, TALLY, 3);
    expect(m.number == FLAGOPS_ROOM && m.written > 100 && m.bytes[0] == 0xa5, "so it is of a plan");
    m = apply_in(REQUEST, TALLY, FREE, 3);
    expect(m.number == FLAGOPS_ROOM && m.written == document_len + 19 && m.bytes[0] == 0xa5, "and of a document");
}

static void refused_files(void) {
    static const struct { const char *tally; uint32_t fault; } ROWS[] = {
        { "x", FLAGOPS_TALLY_HEADER }, { "{\"tally\":1}\n{}\n", FLAGOPS_TALLY_PAGE },
        { "{\"tally\":1}\n{\"by\":null,\"first\":null,\"flag\":\"checkout\",\"inputs\":0,\"last\":null,\"site\":0,\"total\":100}\n[100,1]\n", FLAGOPS_TALLY_LINE },
        { "{\"tally\":1}\n{\"by\":null,\"first\":null,\"flag\":\"checkout\",\"inputs\":0,\"last\":null,\"site\":0,\"total\":100}\n[1,1]\n[1,1]\n", FLAGOPS_TALLY_ORDER },
        { "{\"tally\":1}\n{\"by\":null,\"first\":null,\"flag\":\"checkout\",\"inputs\":0,\"last\":null,\"site\":0,\"total\":100}\n[1,1]\n", FLAGOPS_TALLY_INPUTS },
    };
    for (size_t i = 0; i < sizeof ROWS / sizeof *ROWS; i++) {
        made m = plan_in("x", ROWS[i].tally, 0);
        expect(m.number == FLAGOPS_TALLY + ROWS[i].fault && is_left(&m), "a tally comes before the request");
        expect(flagops_verify(DOCUMENT, BYTES("x"), BYTES(ROWS[i].tally), BYTES("x")) == FLAGOPS_TALLY + ROWS[i].fault, "and before the plan");
        m = apply_in("x", ROWS[i].tally, "x", 0);
        expect(m.number == FLAGOPS_TALLY + ROWS[i].fault && is_left(&m), "so it does where the plan is applied");
    }
    made m = plan_in(REQUEST, "{\"tally\":1}\n{\"by\":null,\"first\":null,\"flag\":\"checkout\",\"inputs\":0,\"last\":null,\"site\":0,\"total\":200}\n", ALL);
    expect(m.number == FLAGOPS_ROLLOUT + FLAGOPS_OTHER_TALLY && is_left(&m), "a tally in other points");
    expect(flagops_verify(DOCUMENT, BYTES("x"), BYTES(TALLY), BYTES("x")) == FLAGOPS_PLAN + FLAGOPS_BAD_PLAN, "the plan comes before the request");
    m = apply_in("x", TALLY, "x", 0);
    expect(m.number == FLAGOPS_PLAN + FLAGOPS_BAD_PLAN && is_left(&m), "so it does where it is applied");
    expect(flagops_verify(DOCUMENT, BYTES(REQUEST), BYTES(TALLY), BYTES(DEAR)) == FLAGOPS_CHECK + FLAGOPS_SUM, "a plan that is not right");
    m = apply_in(REQUEST, TALLY, DEAR, ALL);
    expect(m.number == FLAGOPS_CHECK + FLAGOPS_SUM && is_left(&m), "is not applied");
}

static void refused_documents(void) {
    static const struct { const char *document; uint32_t fault; } ROWS[] = { { "x", FLAGOPS_NOT_JSON }, { "\xff", FLAGOPS_NOT_JSON }, { "{}", FLAGOPS_NO_FLAGS } };
    for (size_t i = 0; i < sizeof ROWS / sizeof *ROWS; i++) {
        const char *no = ROWS[i].document;
        uint32_t number = FLAGOPS_DOCUMENT + ROWS[i].fault;
        made m = fresh();
        expect(flagops_tally(BYTES(no), BYTES("x"), BYTES("x\n"), m.bytes, 0, &m.written) == number && is_left(&m), "the document comes first");
        expect(flagops_plan(BYTES(no), BYTES("x"), BYTES("x"), m.bytes, 0, &m.written) == number && is_left(&m), "for a plan");
        expect(flagops_verify(BYTES(no), BYTES("x"), BYTES("x"), BYTES("x")) == number, "for a verdict");
        expect(flagops_apply(BYTES(no), BYTES("x"), BYTES("x"), BYTES("x"), m.bytes, 0, &m.written) == number && is_left(&m), "for a change");
    }
}

/* Buckets that stand in an evaluator stay where they are. */
static void evaluators(void) {
    static const char *const SHARED = "{\"flags\":{\"f\":{\"state\":\"ENABLED\",\"variants\":{\"a\":1,\"b\":2},\"defaultVariant\":\"a\",\"targeting\":{\"$ref\":\"half\"}}},"
        "\"$evaluators\":{\"half\":{\"fractional\":[[\"a\",1],[\"b\",1]]}}}";
    static const char *const ASKED = "{\"plan\":1,\"flag\":\"f\",\"totals\":{\"a\":2}}";
    made tally = fresh(), plan = fresh(), m = fresh();
    expect(!flagops_tally(BYTES(SHARED), BYTES(ASKED), BYTES(""), tally.bytes, ALL, &tally.written), "it is tallied");
    expect(!flagops_plan(BYTES(SHARED), BYTES(ASKED), tally.bytes, tally.written, plan.bytes, ALL, &plan.written), "and planned");
    expect(flagops_apply(BYTES(SHARED), BYTES(ASKED), tally.bytes, tally.written, plan.bytes, plan.written, m.bytes, ALL, &m.written) == FLAGOPS_KEEP + FLAGOPS_SHARED
        && is_left(&m), "and not applied");
}

int main(int argc, char **argv) {
    if (argc != 2) return 2;
    document = load(argv[1], &document_len);
    the_way();
    no_rule();
    lines();
    refused_requests();
    refused_files();
    refused_documents();
    evaluators();
    free(document);
    return bad != 0;
}
