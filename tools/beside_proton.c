/* Reads, writes and rewrites one input by Proton C and by this library, in one process, turn about. tools/beside-proton builds and runs it.
 *
 *     beside_proton time TYPE FILE ROUNDS        prints the least time of each operation, in nanoseconds, of so many rounds
 *     beside_proton run TYPE FILE OPERATION N    runs one operation N times, for instructions to be counted
 *
 * The file holds one term, or the sections of a message, which Proton decodes one after another. */
#define _POSIX_C_SOURCE 200809L
#include "amqp_types.h"

#include <proton/codec.h>
#include <stdbool.h>
#include <stdint.h>
#include <stdio.h>
#include <stdlib.h>
#include <string.h>
#include <time.h>

enum { ROOM = 1 << 22 };

static uint8_t in[ROOM], out[ROOM];
static size_t len;
static uint32_t type;
static struct amqp_limits limits;
static pn_data_t *kept;
static volatile size_t sink;

static void fail(const char *why) {
    fprintf(stderr, "beside_proton: %s\n", why);
    exit(2);
}

static void decode(pn_data_t *tree) {
    for (size_t at = 0; at < len;) {
        ssize_t taken = pn_data_decode(tree, (const char *)in + at, len - at);
        if (taken <= 0)
            fail("Proton doesn't decode the input");
        at += (size_t)taken;
    }
}

static void proton_reads(void) {
    pn_data_t *tree = pn_data(16);
    decode(tree);
    pn_data_free(tree);
}

static void encode(pn_data_t *tree) {
    ssize_t written = pn_data_encode(tree, (char *)out, ROOM);
    if (written <= 0)
        fail("Proton doesn't encode the tree");
    sink += (size_t)written;
}

static void proton_writes(void) {
    encode(kept);
}

static void proton_rewrites(void) {
    pn_data_t *tree = pn_data(16);
    decode(tree);
    encode(tree);
    pn_data_free(tree);
}

static void reads(void) {
    size_t taken;
    if (amqp_c_read(type, in, len, &limits, &taken).number != 0 || taken != len)
        fail("the input isn't read");
    sink += taken;
}

static void rewrites(void) {
    size_t written, taken;
    if (amqp_c_canonical(type, in, len, &limits, out, ROOM, &written, &taken).number != 0)
        fail("the input isn't rewritten");
    sink += written;
}

static void measures(void) {
    size_t taken = 0, all = 0;
    for (; all < len; all += taken)
        if (amqp_c_term_len(in + all, len - all, &taken).number != 0)
            fail("the input is no term");
    sink += all;
}

static void copies(void) {
    memcpy(out, in, len);
    sink += out[len / 2];
}

static const struct operation {
    const char *name;
    void (*run)(void);
} operations[] = {
    {"proton-reads", proton_reads},       {"reads", reads},       {"proton-writes", proton_writes},
    {"proton-rewrites", proton_rewrites}, {"rewrites", rewrites}, {"measures", measures},
    {"copies", copies},
};

enum { OPERATIONS = sizeof operations / sizeof *operations };

static double now(void) {
    struct timespec at;
    clock_gettime(CLOCK_MONOTONIC, &at);
    return (double)at.tv_sec * 1e9 + (double)at.tv_nsec;
}

static double time_of(const struct operation *operation, long times) {
    double before = now();
    for (long i = 0; i < times; i++)
        operation->run();
    return (now() - before) / (double)times;
}

/* How often an operation runs in two milliseconds, which is less than what a busy machine gives a program at a time. */
static long times_of(const struct operation *operation) {
    double least = time_of(operation, 5);
    for (int i = 0; i < 20; i++) {
        double found = time_of(operation, 5);
        if (found < least)
            least = found;
    }
    return (long)(2e6 / least) + 1;
}

static void time_all(long rounds) {
    double least[OPERATIONS];
    long times[OPERATIONS];
    for (int i = 0; i < OPERATIONS; i++)
        times[i] = times_of(&operations[i]);
    for (long round = 0; round < rounds; round++)
        for (int i = 0; i < OPERATIONS; i++) {
            double found = time_of(&operations[i], times[i]);
            if (round == 0 || found < least[i])
                least[i] = found;
        }
    for (int i = 0; i < OPERATIONS; i++)
        printf("%s %.1f\n", operations[i].name, least[i]);
}

static void run(const char *name, long times) {
    for (int i = 0; i < OPERATIONS; i++)
        if (strcmp(name, operations[i].name) == 0) {
            time_of(&operations[i], times);
            return;
        }
    fail("no operation has the name");
}

static void read_file(const char *name) {
    FILE *file = fopen(name, "rb");
    if (file == NULL)
        fail(name);
    len = fread(in, 1, ROOM, file);
    fclose(file);
}

int main(int argc, char **argv) {
    bool timed = argc == 5 && strcmp(argv[1], "time") == 0;
    if (!timed && (argc != 6 || strcmp(argv[1], "run") != 0))
        fail("time TYPE FILE ROUNDS, or run TYPE FILE OPERATION N");
    type = amqp_c_type((const uint8_t *)argv[2], strlen(argv[2]));
    read_file(argv[3]);
    amqp_c_greatest(&limits);
    kept = pn_data(16);
    decode(kept);
    if (timed)
        time_all(atol(argv[4]));
    else
        run(argv[4], atol(argv[5]));
    pn_data_free(kept);
    return 0;
}
