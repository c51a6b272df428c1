/* A rollout from within the process: what 1,000 users reach is noted, and the flag goes from 20 to 30 percent with the fewest switches.
     cc -I release/x86_64-linux library/examples/rollout.c release/x86_64-linux/libflagops.a && ./a.out */
#include "flagops.h"
#include <stdio.h>
#include <stdlib.h>
#include <string.h>
#define BYTES(text) (const uint8_t *)(text), strlen(text)
#define ROOM 262144

static const char *const FLAGS = "{\"flags\":{\"new\":{\"state\":\"ENABLED\",\"variants\":{\"on\":true,\"off\":false},\"defaultVariant\":\"off\","
    "\"targeting\":{\"fractional\":[[\"on\",20],[\"off\",80]]}}}}";
static const char *const REQUEST = "{\"plan\":1,\"flag\":\"new\",\"totals\":{\"on\":30,\"off\":70}}";

static void must(uint32_t number, const char *what) {
    if (number) { fprintf(stderr, "%s: refused with %u\n", what, number); exit(1); }
}

static int by_bytes(const void *one, const void *other) {
    const char *const *a = one, *const *b = other;
    return strcmp(*a, *b);
}

/* The lines in rising order, each once. No note line has a byte 0 in it. */
static size_t sorted(char *lines, size_t len, char *out) {
    size_t count = 0, at = 0;
    char **each = malloc((len + 1) * sizeof *each);
    lines[len] = 0;
    for (char *line = strtok(lines, "\n"); line; line = strtok(NULL, "\n")) each[count++] = line;
    qsort(each, count, sizeof *each, by_bytes);
    for (size_t i = 0; i < count; i++)
        if (!i || strcmp(each[i], each[i - 1])) at += (size_t)sprintf(out + at, "%s\n", each[i]);
    free(each);
    return at;
}

int main(void) {
    static uint8_t lines[ROOM], counts[ROOM], plan[ROOM], document[ROOM];
    static char notes[ROOM];
    size_t len;
    flagops_seat seat = FLAGOPS_NONE;
    must(flagops_new(&seat), "a seat");
    must(flagops_open(&seat, BYTES(FLAGS)), "the document");
    must(flagops_record(&seat, ROOM - 1), "the notes");
    for (int user = 0; user < 1000; user++) {
        char context[64];
        uint8_t out[64];
        flagops_details details;
        sprintf(context, "{\"targetingKey\":\"user-%d\"}", user);
        must(flagops_resolve(&seat, BYTES("new"), FLAGOPS_BOOL, BYTES("false"), BYTES(context), 0, out, sizeof out, &len, &details), "a resolution");
    }
    must(flagops_notes(&seat, lines, ROOM - 1, &len), "the note lines");
    flagops_close(&seat);
    size_t notes_len = sorted((char *)lines, len, notes), counts_len, plan_len, document_len;
    must(flagops_tally(BYTES(FLAGS), BYTES(REQUEST), (const uint8_t *)notes, notes_len, counts, ROOM, &counts_len), "the tally");
    must(flagops_plan(BYTES(FLAGS), BYTES(REQUEST), counts, counts_len, plan, ROOM, &plan_len), "the plan");
    must(flagops_verify(BYTES(FLAGS), BYTES(REQUEST), counts, counts_len, plan, plan_len), "the check");
    must(flagops_apply(BYTES(FLAGS), BYTES(REQUEST), counts, counts_len, plan, plan_len, document, ROOM, &document_len), "the new document");
    const char *cost = strstr((const char *)plan, "\"cost\":");
    printf("%.*s switch, and the document has %zu bytes in place of %zu\n", (int)strcspn(cost + 7, ","), cost + 7, document_len, strlen(FLAGS));
    return 0;
}
