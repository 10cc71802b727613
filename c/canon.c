/* The program amqp_canon over the header alone: it answers each line of its input by the canonical text, or by the error. A number as its
 * argument is the seed by which keys of maps are hashed, which changes no answer.
 *
 *     gcc canon.c $(pkg-config --cflags --libs amqp_types) -o canon
 *     echo 'accepted 005324c00000' | ./canon
 *
 * docs/PROGRAM.md says what lines and answers are. */
#include "amqp_types.h"

#include <stdbool.h>
#include <stdio.h>
#include <stdlib.h>
#include <string.h>

/* Bytes that grow. */
struct bytes {
    uint8_t *at;
    size_t len, room;
};

static void fail(const char *why) {
    fprintf(stderr, "canon: %s\n", why);
    exit(2);
}

static void reserve(struct bytes *bytes, size_t room) {
    if (room <= bytes->room)
        return;
    bytes->at = realloc(bytes->at, room);
    if (bytes->at == NULL)
        fail("out of memory");
    bytes->room = room;
}

/* Reads the next line without its line feed. Returns false at the end. */
static bool next_line(FILE *from, struct bytes *line) {
    int byte;
    line->len = 0;
    while ((byte = getc(from)) != EOF && byte != '\n') {
        if (line->len == line->room)
            reserve(line, 2 * line->room + 256);
        line->at[line->len++] = (uint8_t)byte;
    }
    if (ferror(from))
        fail("the input can't be read");
    return byte != EOF || line->len > 0;
}

static int digit_value(uint8_t digit) {
    if (digit >= '0' && digit <= '9')
        return digit - '0';
    if (digit >= 'a' && digit <= 'f')
        return digit - 'a' + 10;
    if (digit >= 'A' && digit <= 'F')
        return digit - 'A' + 10;
    return -1;
}

/* Sets the bytes to those that the digits stand for: an even, positive number of them, or `-` for none. */
static bool from_digits(const uint8_t *digits, size_t len, struct bytes *bytes) {
    bytes->len = 0;
    if (len == 1 && digits[0] == '-')
        return true;
    if (len == 0 || len % 2 != 0)
        return false;
    reserve(bytes, len / 2);
    for (size_t i = 0; i < len; i += 2) {
        int high = digit_value(digits[i]), low = digit_value(digits[i + 1]);
        if (high < 0 || low < 0)
            return false;
        bytes->at[bytes->len++] = (uint8_t)(16 * high + low);
    }
    return true;
}

/* Takes a number of at most 19 digits, without leading zeros, from the front of the text, up to this byte or the end. */
static bool take_number(const uint8_t **text, const uint8_t *end, bool last, uint64_t *number) {
    const uint8_t *start = *text;
    *number = 0;
    while (*text < end && **text >= '0' && **text <= '9' && *text - start < 19)
        *number = 10 * *number + (uint64_t)(*(*text)++ - '0');
    if (*text == start || (*start == '0' && *text - start > 1))
        return false;
    if (last)
        return *text == end;
    return *text < end && *(*text)++ == ' ';
}

/* The limits that a line `limits <nesting> <bytes> <items>` sets. */
static bool limits_of(const uint8_t *line, size_t len, struct amqp_limits *limits) {
    static const char word[] = "limits ";
    const uint8_t *text = line + sizeof word - 1, *end = line + len;
    uint64_t nesting;
    struct amqp_limits found = *limits;
    if (len < sizeof word || memcmp(line, word, sizeof word - 1) != 0)
        return false;
    if (!take_number(&text, end, false, &nesting) || nesting > 128)
        return false;
    if (!take_number(&text, end, false, &found.bytes) || !take_number(&text, end, true, &found.items))
        return false;
    found.nesting = (uint32_t)nesting;
    *limits = found;
    return true;
}

static void print_digits(const struct bytes *bytes) {
    if (bytes->len == 0)
        putchar('-');
    for (size_t i = 0; i < bytes->len; i++)
        printf("%02x", bytes->at[i]);
}

/* Answers one line `<type> <hex>`, and says whether the answer is `ok`. */
static bool answer(const struct bytes *line, const struct amqp_limits *limits, struct bytes *input, struct bytes *text) {
    const uint8_t *space = line->len > 0 ? memchr(line->at, ' ', line->len) : NULL;
    size_t before = space == NULL ? 0 : (size_t)(space - line->at), taken = 0;
    uint32_t type = space == NULL ? AMQP_TYPE_NONE : amqp_c_type(line->at, before);
    if (type == AMQP_TYPE_NONE || !from_digits(space + 1, line->len - before - 1, input)) {
        puts("no 0 Line");
        return false;
    }
    struct amqp_outcome outcome = amqp_c_canonical(type, input->at, input->len, limits, text->at, text->room, &text->len, &taken);
    if (outcome.number == AMQP_ERROR_NO_ROOM) {
        reserve(text, text->len);
        outcome = amqp_c_canonical(type, input->at, input->len, limits, text->at, text->room, &text->len, &taken);
    }
    if (outcome.number != AMQP_ERROR_NONE) {
        uint8_t name[32];
        size_t len = amqp_c_error_name(outcome.number, name, sizeof name);
        printf("no %u %.*s\n", (unsigned)outcome.number, (int)len, (const char *)name);
        return false;
    }
    printf("ok ");
    print_digits(text);
    printf(" %zu\n", input->len - taken);
    return true;
}

int main(int argc, char **argv) {
    struct bytes line = {0}, input = {0}, text = {0};
    struct amqp_limits limits;
    bool all_ok = true;
    amqp_c_greatest(&limits);
    if (argc == 2)
        limits.hash_seed = strtoull(argv[1], NULL, 10);
    while (next_line(stdin, &line)) {
        if (limits_of(line.at, line.len, &limits))
            printf("%.*s\n", (int)line.len, (const char *)line.at);
        else
            all_ok &= answer(&line, &limits, &input, &text);
    }
    free(line.at);
    free(input.at);
    free(text.at);
    if (fflush(stdout) != 0)
        fail("the output can't be written");
    return all_ok ? 0 : 1;
}
