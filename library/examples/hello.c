/* A first program: the flags of a document, and one resolution.
     cc -I release/x86_64-linux library/examples/hello.c release/x86_64-linux/libflagops.a && ./a.out */
#include "flagops.h"
#include <stdio.h>
#include <string.h>
#define BYTES(text) (const uint8_t *)(text), strlen(text)

static const char *const FLAGS = "{\"flags\":{\"hi\":{\"state\":\"ENABLED\",\"variants\":{\"on\":true,\"off\":false},\"defaultVariant\":\"off\","
    "\"targeting\":{\"if\":[{\"ends_with\":[{\"var\":\"email\"},\"@example.com\"]},\"on\"]}}}}";

int main(void) {
    flagops_seat seat = FLAGOPS_NONE;
    uint8_t out[256];
    size_t written;
    flagops_details details;
    uint32_t number = flagops_new(&seat);
    if (!number) number = flagops_open(&seat, BYTES(FLAGS));
    if (!number) number = flagops_resolve(&seat, BYTES("hi"), FLAGOPS_BOOL, BYTES("false"), BYTES("{\"email\":\"ann@example.com\"}"), 0, out, sizeof out, &written, &details);
    if (!number) printf("hi is %.*s, by the variant %.*s\n", (int)details.value, out, (int)(written - details.value), out + details.value);
    else fprintf(stderr, "refused with %u\n", number);
    flagops_close(&seat);
    return number != 0;
}
