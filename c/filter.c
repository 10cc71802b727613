/* Goes through the frames that one side of a connection sends, and prints the performative of each, or its fault with the place
 * (Part 2, sections 2.2 and 2.3).
 *
 *     gcc filter.c $(pkg-config --cflags --libs amqp_types) -o filter
 *     ./filter 414d5150... (the bytes in digits of lower case) */
#include "amqp_types.h"
#include "digits.h"

#include <stdbool.h>
#include <stdio.h>
#include <stdlib.h>
#include <string.h>

struct named {
    uint32_t type;
    const char *name;
};

/* What a frame's body begins with, by the frame's type; the last row has no name. */
static const struct named performatives[] = {
    {AMQP_TYPE_OPEN, "open"},
    {AMQP_TYPE_BEGIN, "begin"},
    {AMQP_TYPE_ATTACH, "attach"},
    {AMQP_TYPE_FLOW, "flow"},
    {AMQP_TYPE_TRANSFER, "transfer"},
    {AMQP_TYPE_DISPOSITION, "disposition"},
    {AMQP_TYPE_DETACH, "detach"},
    {AMQP_TYPE_END, "end"},
    {AMQP_TYPE_CLOSE, "close"},
    {AMQP_TYPE_NONE, NULL},
};
static const struct named sasl_frames[] = {
    {AMQP_TYPE_SASL_MECHANISMS, "sasl-mechanisms"},
    {AMQP_TYPE_SASL_INIT, "sasl-init"},
    {AMQP_TYPE_SASL_CHALLENGE, "sasl-challenge"},
    {AMQP_TYPE_SASL_RESPONSE, "sasl-response"},
    {AMQP_TYPE_SASL_OUTCOME, "sasl-outcome"},
    {AMQP_TYPE_NONE, NULL},
};

/* Prints what a frame's body begins with: one of these. What follows a transfer is its payload. */
static void print_body(const uint8_t *body, size_t len, size_t place, const struct named *of) {
    struct amqp_limits limits;
    struct amqp_outcome outcome = {0};
    size_t taken = 0;
    amqp_c_for_peers(&limits, len);
    for (; of->name != NULL; of++) {
        outcome = amqp_c_read(of->type, body, len, &limits, &taken);
        if (outcome.number == 0) {
            printf("%s\n", of->name);
            return;
        }
        if (outcome.number != AMQP_ERROR_WRONG_DESCRIPTOR)
            break;
    }
    uint8_t name[32];
    size_t name_len = amqp_c_error_name(outcome.number, name, sizeof name);
    printf("%.*s at byte %zu\n", (int)name_len, (const char *)name, place + (size_t)outcome.at);
}

/* Finds the size of the frame at the start of at least eight bytes, and where its body begins in it, if the whole frame is there. */
static bool is_frame(const uint8_t *in, size_t len, size_t *size, size_t *offset) {
    *size = (size_t)in[0] << 24 | (size_t)in[1] << 16 | (size_t)in[2] << 8 | in[3];
    *offset = 4 * (size_t)in[4];
    return *offset >= 8 && *size >= *offset && in[5] <= 1 && *size <= len;
}

int main(int count, char **words) {
    size_t len = 0, at = 0, size = 0, offset = 0;
    uint8_t *in = count == 2 ? bytes_of(words[1], &len) : NULL;
    if (in == NULL)
        return 2;
    while (len - at >= 8) {
        if (memcmp(in + at, "AMQP", 4) == 0) {
            printf("%zu: protocol header\n", at);
            at += 8;
            continue;
        }
        if (!is_frame(in + at, len - at, &size, &offset))
            break;
        printf("%zu: ", at);
        if (size == offset)
            printf("empty\n");
        else
            print_body(in + at + offset, size - offset, at + offset, in[at + 5] == 1 ? sasl_frames : performatives);
        at += size;
    }
    if (at < len)
        printf("%zu: no whole frame\n", at);
    free(in);
    return 0;
}
