/* Keeps each message once, however it is spelled: by its canonical text, which all spellings of a message share.
 *
 *     gcc archive.c $(pkg-config --cflags --libs amqp_types) -o archive
 *     ./archive MESSAGE.. (each in digits of lower case) */
#include "amqp_types.h"
#include "digits.h"

#include <stdio.h>
#include <stdlib.h>
#include <string.h>

/* A canonical text. The hash tells most texts apart without a look at their bytes. */
struct text {
    uint64_t hash;
    uint8_t *bytes;
    size_t len;
};

/* The hash FNV-1a. */
static uint64_t hash_of(const uint8_t *bytes, size_t len) {
    uint64_t hash = 14695981039346656037u;
    for (size_t i = 0; i < len; i++)
        hash = (hash ^ bytes[i]) * 1099511628211u;
    return hash;
}

/* Writes the canonical text of a message, which is to be freed. */
static struct amqp_outcome text_of(const uint8_t *in, size_t len, struct text *text) {
    struct amqp_limits limits;
    size_t taken = 0;
    amqp_c_for_peers(&limits, len);
    *text = (struct text){0};
    struct amqp_outcome outcome = amqp_c_canonical(AMQP_TYPE_MESSAGE, in, len, &limits, NULL, 0, &text->len, &taken);
    if (outcome.number == AMQP_ERROR_NO_ROOM) {
        text->bytes = malloc(text->len);
        size_t room = text->bytes == NULL ? 0 : text->len;
        outcome = amqp_c_canonical(AMQP_TYPE_MESSAGE, in, len, &limits, text->bytes, room, &text->len, &taken);
    }
    text->hash = hash_of(text->bytes, outcome.number == 0 ? text->len : 0);
    return outcome;
}

/* Adds a text, unless an equal one is there, and returns the number of the one that is there now. */
static size_t add(struct text *archive, size_t *kept, struct text text) {
    for (size_t i = 0; i < *kept; i++) {
        if (archive[i].hash == text.hash && archive[i].len == text.len && memcmp(archive[i].bytes, text.bytes, text.len) == 0) {
            free(text.bytes);
            return i + 1;
        }
    }
    archive[*kept] = text;
    return ++*kept;
}

int main(int count, char **words) {
    struct text *archive = calloc((size_t)count, sizeof *archive);
    size_t kept = 0;
    int status = archive == NULL;
    for (int i = 1; i < count && status == 0; i++) {
        size_t len = 0;
        uint8_t *in = bytes_of(words[i], &len);
        struct text text;
        struct amqp_outcome outcome = in == NULL ? (struct amqp_outcome){.number = AMQP_ERROR_MEMORY} : text_of(in, len, &text);
        if (outcome.number == 0) {
            size_t before = kept, size = text.len, number = add(archive, &kept, text);
            printf("%zu: %s, %zu bytes, %zu in canonical text\n", number, number > before ? "new" : "known", len, size);
        } else {
            printf("error %u at byte %zu\n", outcome.number, (size_t)outcome.at);
            status = 1;
        }
        free(in);
    }
    for (size_t i = 0; i < kept; i++)
        free(archive[i].bytes);
    free(archive);
    return status;
}
