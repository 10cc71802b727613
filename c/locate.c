/* Says why bytes don't begin with a value of a type, where the fault is, and the path to it.
 *
 *     gcc locate.c $(pkg-config --cflags --libs amqp_types) -o locate
 *     ./locate attach 005312c01a06a1066f726465727343414040005328c00801a1057175ff7565
 *
 * A path is the type's name and a step for each node: .NAME for a field of a composite, [N] for an item of a list or of an array, {N} for the
 * key of the pair N of a map, and [{N}] for its value. (descriptor) is a descriptor, (constructor) that of an array's items, and (end) the
 * place behind the last item. All numbers count from 0. */
#include "amqp_types.h"
#include "digits.h"

#include <stdbool.h>
#include <stdio.h>
#include <stdlib.h>
#include <string.h>

enum { MOST = 256 };

static void print_field(uint32_t type, size_t index) {
    uint8_t name[32];
    size_t len = amqp_c_field_name(type, index, name, sizeof name);
    if (len > 0)
        printf(".%.*s", (int)len, (const char *)name);
    else
        printf("[%zu]", index);
}

/* Prints the step to a node from the one before it. */
static void print_step(const struct amqp_path_node *node, const struct amqp_path_node *before) {
    switch (node->piece) {
    case AMQP_PIECE_DESCRIPTOR:
        printf("(descriptor)");
        break;
    case AMQP_PIECE_ITEM:
        if (node->container == AMQP_CONTAINER_LIST)
            print_field(node->type, node->index);
        else
            printf(node->index % 2 == 0 ? "{%zu}" : "[{%zu}]", node->index / 2);
        break;
    case AMQP_PIECE_ELEMENT_CONSTRUCTOR:
        printf("(constructor)");
        break;
    case AMQP_PIECE_ELEMENT:
        if (before->piece != AMQP_PIECE_ELEMENT)
            printf("[%zu]", node->index);
        break;
    case AMQP_PIECE_END:
        printf("(end)");
    }
}

/* Whether an error may be behind all items of a container. */
static bool is_behind(uint32_t number) {
    return number == AMQP_ERROR_MISSING || number == AMQP_ERROR_EMPTY_MULTIPLE || number == AMQP_ERROR_DUPLICATE_KEY;
}

/* Where the section with the fault begins: behind the whole sections before its place. */
static size_t section_of(const uint8_t *in, size_t len, const struct amqp_outcome *fault) {
    size_t start = 0, taken = 0;
    while (amqp_c_term_len(in + start, len - start, &taken).number == AMQP_ERROR_NONE
           && (start + taken < fault->at || (start + taken == fault->at && !is_behind(fault->number))))
        start += taken;
    return start;
}

static void print_fault(const char *type, const uint8_t *in, size_t len, const struct amqp_outcome *fault) {
    struct amqp_path_node nodes[MOST];
    uint8_t name[32];
    size_t named = amqp_c_error_name(fault->number, name, sizeof name), start = section_of(in, len, fault);
    size_t count = amqp_c_path(in + start, len - start, fault->at - start, nodes, MOST);
    printf("%.*s at %zu: %s", (int)named, (const char *)name, (size_t)fault->at, type);
    for (size_t i = 1; i < count && i < MOST; i++)
        print_step(&nodes[i], &nodes[i - 1]);
    puts(count > MOST ? "..." : "");
}

int main(int argc, char **argv) {
    struct amqp_limits limits;
    size_t len, taken;
    uint32_t type = argc == 3 ? amqp_c_type((const uint8_t *)argv[1], strlen(argv[1])) : AMQP_TYPE_NONE;
    uint8_t *in = type == AMQP_TYPE_NONE ? NULL : bytes_of(argv[2], &len);
    if (in == NULL)
        return 2;
    amqp_c_greatest(&limits);
    struct amqp_outcome outcome = amqp_c_read(type, in, len, &limits, &taken);
    if (outcome.number == AMQP_ERROR_NONE)
        printf("ok %zu\n", taken);
    else
        print_fault(argv[1], in, len, &outcome);
    free(in);
    return outcome.number == AMQP_ERROR_NONE ? 0 : 1;
}
