/* Prints the term that each argument begins with, in hexadecimal digits, as an indented tree.
 *
 *     gcc walk.c $(pkg-config --cflags --libs amqp_types) -o walk
 *     ./walk 005323c005025209530d
 *
 * A line is a node: its kind, its format code, and how many values it holds or the bytes of its value. */
#include "amqp_types.h"

#include <stdbool.h>
#include <stdio.h>
#include <stdlib.h>
#include <string.h>

static const char *const kinds[] = {
    [AMQP_KIND_NULL] = "null",
    [AMQP_KIND_BOOL] = "bool",
    [AMQP_KIND_UBYTE] = "ubyte",
    [AMQP_KIND_USHORT] = "ushort",
    [AMQP_KIND_UINT] = "uint",
    [AMQP_KIND_ULONG] = "ulong",
    [AMQP_KIND_BYTE] = "byte",
    [AMQP_KIND_SHORT] = "short",
    [AMQP_KIND_INT] = "int",
    [AMQP_KIND_LONG] = "long",
    [AMQP_KIND_DECIMAL32] = "decimal32",
    [AMQP_KIND_DECIMAL64] = "decimal64",
    [AMQP_KIND_DECIMAL128] = "decimal128",
    [AMQP_KIND_CHAR] = "char",
    [AMQP_KIND_TIMESTAMP] = "timestamp",
    [AMQP_KIND_UUID] = "uuid",
    [AMQP_KIND_BINARY] = "binary",
    [AMQP_KIND_STRING] = "string",
    [AMQP_KIND_SYMBOL] = "symbol",
    [AMQP_KIND_DESCRIBED] = "described",
    [AMQP_KIND_LIST] = "list",
    [AMQP_KIND_MAP] = "map",
    [AMQP_KIND_ARRAY] = "array",
};

static void print_node(const uint8_t *in, const struct amqp_node *node) {
    printf("%*s%s %02x", (int)(2 * node->depth), "", kinds[node->kind], node->code);
    if (node->kind >= AMQP_KIND_DESCRIBED) {
        printf(", %zu inside\n", node->count);
        return;
    }
    if (node->start < node->end)
        putchar(' ');
    for (size_t i = node->start; i < node->end; i++)
        printf("%02x", in[i]);
    putchar('\n');
}

/* Prints the node at a place in the node around it, and those in it. */
static bool walk(const uint8_t *in, size_t len, size_t at, const struct amqp_node *around, struct amqp_node *node) {
    *node = *around;
    struct amqp_outcome outcome = amqp_c_next(in, len, at, node);
    if (outcome.number != AMQP_ERROR_NONE) {
        uint8_t name[32];
        size_t named = amqp_c_error_name(outcome.number, name, sizeof name);
        printf("no %u %.*s\n", (unsigned)outcome.number, (int)named, (const char *)name);
        return false;
    }
    print_node(in, node);
    struct amqp_node item = {.end = node->next};
    for (size_t i = 0; i < node->count; i++)
        if (!walk(in, len, item.end, node, &item))
            return false;
    return true;
}

static int digit_value(char digit) {
    const char *digits = "0123456789abcdef", *found = digit == 0 ? NULL : strchr(digits, digit);
    return found == NULL ? -1 : (int)(found - digits);
}

/* The bytes that digits of lower case stand for, or a null pointer. */
static uint8_t *bytes_of(const char *digits, size_t *len) {
    *len = strlen(digits) / 2;
    uint8_t *bytes = malloc(*len + 1);
    for (size_t i = 0; bytes != NULL && i < *len; i++) {
        int high = digit_value(digits[2 * i]), low = digit_value(digits[2 * i + 1]);
        if (high < 0 || low < 0) {
            free(bytes);
            return NULL;
        }
        bytes[i] = (uint8_t)(16 * high + low);
    }
    return bytes;
}

int main(int argc, char **argv) {
    static const struct amqp_node none;
    bool is_ok = true;
    for (int i = 1; i < argc; i++) {
        struct amqp_node node;
        size_t len;
        uint8_t *bytes = bytes_of(argv[i], &len);
        if (bytes == NULL)
            return 2;
        is_ok &= walk(bytes, len, 0, &none, &node);
        free(bytes);
    }
    return is_ok ? 0 : 1;
}
