/* Finds what a router needs in a message: its sections, the bare message, and the address that it goes to (Part 3, section 3.2).
 *
 *     gcc router.c $(pkg-config --cflags --libs amqp_types) -o router
 *     ./router 005373... (the message in digits of lower case) */
#include "amqp_types.h"
#include "digits.h"

#include <stdio.h>
#include <stdlib.h>

/* The sections in the standard's order. */
static const struct {
    uint32_t type;
    const char *name;
} sections[] = {
    {AMQP_TYPE_HEADER, "header"},
    {AMQP_TYPE_DELIVERY_ANNOTATIONS, "delivery-annotations"},
    {AMQP_TYPE_MESSAGE_ANNOTATIONS, "message-annotations"},
    {AMQP_TYPE_PROPERTIES, "properties"},
    {AMQP_TYPE_APPLICATION_PROPERTIES, "application-properties"},
    {AMQP_TYPE_DATA, "data"},
    {AMQP_TYPE_AMQP_SEQUENCE, "amqp-sequence"},
    {AMQP_TYPE_AMQP_VALUE, "amqp-value"},
    {AMQP_TYPE_FOOTER, "footer"},
};

/* The bare message is what its sender made, and no router changes a byte of it: the sections from the properties on, up to the footer. */
enum { SECTIONS = sizeof sections / sizeof *sections, FIRST_BARE = 3, LAST_BARE = 7 };

/* The field "to" of the properties. */
enum { TO = 2 };

/* Finds the section that the bytes begin with: its number in the table, and its size. */
static struct amqp_outcome section_at(const uint8_t *in, size_t len, int *number, size_t *size) {
    struct amqp_limits limits;
    amqp_c_for_peers(&limits, len);
    struct amqp_outcome outcome = {0};
    for (*number = 0; *number < SECTIONS; ++*number) {
        outcome = amqp_c_read(sections[*number].type, in, len, &limits, size);
        if (outcome.number != AMQP_ERROR_WRONG_DESCRIPTOR)
            break;
    }
    return outcome;
}

static void print_to(const uint8_t *in, size_t len) {
    struct amqp_node properties = {0}, to = {0};
    if (amqp_c_next(in, len, 0, &properties).number == 0 && amqp_c_field(in, len, &properties, TO, &to).number == 0 && to.kind != 0)
        printf("  to: %.*s\n", (int)(to.end - to.start), (const char *)in + to.start);
    else
        printf("  to: None\n");
}

int main(int count, char **words) {
    size_t len = 0, at = 0, size = 0, start = 0, end = 0;
    uint8_t *in = count == 2 ? bytes_of(words[1], &len) : NULL;
    if (in == NULL)
        return 2;
    while (at < len) {
        int number = 0;
        struct amqp_outcome outcome = section_at(in + at, len - at, &number, &size);
        if (outcome.number != 0) {
            printf("error %u at byte %zu\n", outcome.number, at + (size_t)outcome.at);
            break;
        }
        printf("%s: %zu bytes at %zu\n", sections[number].name, size, at);
        if (sections[number].type == AMQP_TYPE_PROPERTIES)
            print_to(in + at, len - at);
        if (number >= FIRST_BARE && number <= LAST_BARE) {
            start = end == 0 ? at : start;
            end = at + size;
        }
        at += size;
    }
    if (end > 0)
        printf("bare message: %zu bytes at %zu\n", end - start, start);
    free(in);
    return at < len;
}
