/* Checks the calls of amqp_types.h as tools/try-bindings has them checked:
 *
 *     check edges                 what no row says: null pointers, rooms of every size, a room that is too small by one, places and paths
 *     check random N              N inputs at random of each type, most of them changed from those of lines `<type> <hex>` of standard input
 *     check threads               every call from eight threads at once, each with its own input
 *
 * An input stands at the end of its pages, right before one that can't be read, and so does a room. So a byte that is read or written past
 * either ends the program. It prints what is wrong, and ends with status 1 if anything is. */
#define _DEFAULT_SOURCE
#include "amqp_types.h"

#include <pthread.h>
#include <stdbool.h>
#include <stdio.h>
#include <stdlib.h>
#include <string.h>
#include <sys/mman.h>

enum { PAGE = 4096, PAGES = 64, LARGEST = PAGE * PAGES, TYPES = AMQP_TYPE_VALUE, CANARY = 0xa7 };

static int wrong;

static void report(const char *what, uint32_t type, const uint8_t *in, size_t len) {
    fprintf(stderr, "check: %s: type %u, input ", what, (unsigned)type);
    for (size_t i = 0; i < len; i++)
        fprintf(stderr, "%02x", in[i]);
    fputc('\n', stderr);
    wrong = 1;
}

static void require(bool holds, const char *what) {
    if (!holds)
        report(what, 0, NULL, 0);
}

/* Pages before one that can't be touched. */
static uint8_t *fenced(void) {
    uint8_t *at = mmap(NULL, LARGEST + PAGE, PROT_READ | PROT_WRITE, MAP_PRIVATE | MAP_ANONYMOUS, -1, 0);
    if (at == MAP_FAILED || mprotect(at + LARGEST, PAGE, PROT_NONE) != 0) {
        perror("check");
        exit(2);
    }
    return at + LARGEST;
}

/* What one thread works with: the ends of three fenced places. */
struct places {
    uint8_t *in, *out, *again;
};

static struct places places(void) {
    struct places made = {fenced(), fenced(), fenced()};
    return made;
}

/* The first byte of a place for so many bytes. */
static uint8_t *front(uint8_t *end, size_t len) { return end - len; }

/* Room of so many bytes, and one in front of it, all the same. */
static uint8_t *room_of(uint8_t *end, size_t len) {
    memset(end - len - 1, CANARY, len + 1);
    return end - len;
}

static bool is_untouched(const uint8_t *room, size_t len) {
    for (size_t i = 0; i < len; i++)
        if (room[i] != CANARY)
            return false;
    return room[-1] == CANARY;
}

/* An error of reading or writing that an input of so many bytes can have, with its place. */
static bool is_error(struct amqp_outcome outcome, size_t len) {
    return outcome.number >= 1 && outcome.number <= 31 && outcome.number != AMQP_ERROR_MEMORY && outcome.number != AMQP_ERROR_READ
           && outcome.at <= (outcome.number == AMQP_ERROR_TOO_LARGE ? 0 : len);
}

enum { NODES = 300 };

/* The path to a fault begins with the whole value, and no node is behind the fault. One node less of room leaves its last node unwritten. */
static void check_path(const uint8_t *in, size_t len, struct amqp_outcome fault) {
    static const struct amqp_path_node unset = {.piece = 77};
    struct amqp_path_node nodes[NODES], less[NODES];
    size_t at = (size_t)fault.at, count = amqp_c_path(in, len, at, nodes, NODES);
    bool is_right = count > 0 && nodes[0].at == 0 && nodes[0].piece == AMQP_PIECE_VALUE;
    for (size_t i = 0; is_right && i < count && i < NODES; i++)
        is_right = nodes[i].at <= at && nodes[i].piece >= AMQP_PIECE_VALUE && nodes[i].piece <= AMQP_PIECE_END && nodes[i].type <= TYPES;
    if (is_right && count <= NODES) {
        less[count - 1] = unset;
        is_right = amqp_c_path(in, len, at, less, count - 1) == count && less[count - 1].piece == unset.piece;
    }
    if (!is_right)
        report("the path to a fault", 0, in, len);
}

/* The text is rewritten as itself, and no byte of it is left. (It may pass limits that the input keeps: a message without a body is
 * written with one.) */
static void check_text(struct places *at, uint32_t type, const uint8_t *text, size_t len) {
    size_t written = 0, taken = 0;
    struct amqp_limits limits;
    amqp_c_greatest(&limits);
    uint8_t *copy = front(at->in, len), *room = room_of(at->again, len);
    memmove(copy, text, len);
    struct amqp_outcome outcome = amqp_c_canonical(type, copy, len, &limits, room, len, &written, &taken);
    if (outcome.number != 0 || written != len || taken != len || memcmp(room, text, len) != 0)
        report("a canonical text is rewritten otherwise", type, text, len);
}

/* One input: read and rewritten, with room that is too small by one, exact, and one byte larger. Returns whether a value was read. */
static bool check_input(struct places *at, uint32_t type, const uint8_t *in, size_t len, const struct amqp_limits *limits) {
    size_t read = 77, written = 77, taken = 77, again = 77;
    uint8_t *copy = front(at->in, len);
    memmove(copy, in, len);
    struct amqp_outcome outcome = amqp_c_read(type, copy, len, limits, &read);
    struct amqp_outcome sized = amqp_c_canonical(type, copy, len, limits, at->out, 0, &written, &taken);
    if (outcome.number != 0) {
        if (!is_error(outcome, len) || read != 77 || written != 77 || taken != 77)
            report("refused otherwise than documented", type, in, len);
        if (sized.number != outcome.number || sized.detail != outcome.detail || sized.at != outcome.at)
            report("read and rewritten with different errors", type, in, len);
        check_path(copy, len, outcome);
        return false;
    }
    if (read > len || taken != read || sized.number != (written > 0 ? AMQP_ERROR_NO_ROOM : AMQP_ERROR_NONE))
        report("read and rewritten otherwise", type, in, len);
    if (written > LARGEST - 2)
        return true;
    size_t needed = written;
    if (needed > 0) {
        uint8_t *small = room_of(at->out, needed - 1);
        outcome = amqp_c_canonical(type, copy, len, limits, small, needed - 1, &again, &taken);
        if (outcome.number != AMQP_ERROR_NO_ROOM || again != needed || taken != read || !is_untouched(small, needed - 1))
            report("room too small by one", type, in, len);
    }
    uint8_t *large = room_of(at->out, needed + 1);
    outcome = amqp_c_canonical(type, copy, len, limits, large, needed + 1, &again, &taken);
    if (outcome.number != 0 || again != needed || taken != read || large[needed] != CANARY || large[-1] != CANARY)
        report("room larger by one", type, in, len);
    uint8_t *exact = room_of(at->out, needed);
    outcome = amqp_c_canonical(type, copy, len, limits, exact, needed, &again, &taken);
    if (outcome.number != 0 || again != needed || taken != read || exact[-1] != CANARY)
        report("exact room", type, in, len);
    check_text(at, type, exact, needed);
    return true;
}

/* The length of a term, and that no front of it is one. */
static void check_term(struct places *at, const uint8_t *in, size_t len) {
    size_t taken = 77, cut = 77;
    uint8_t *copy = front(at->in, len);
    memmove(copy, in, len);
    struct amqp_outcome outcome = amqp_c_term_len(copy, len, &taken);
    if (outcome.number != 0) {
        if (!is_error(outcome, len) || taken != 77)
            report("a term refused otherwise", 0, in, len);
        check_path(copy, len, outcome);
        return;
    }
    if (taken == 0 || taken > len)
        report("a term of no or too many bytes", 0, in, len);
    copy = front(at->in, taken - 1);
    memmove(copy, in, taken - 1);
    outcome = amqp_c_term_len(copy, taken - 1, &cut);
    if (outcome.number != AMQP_ERROR_CUT || outcome.at >= taken || cut != 77)
        report("the front of a term isn't cut", 0, in, len);
}

static uint64_t next_random(uint64_t *state) {
    *state ^= *state << 13;
    *state ^= *state >> 7;
    *state ^= *state << 17;
    return *state;
}

/* Inputs by their types. */
struct corpus {
    uint8_t **inputs;
    size_t *lens;
    size_t many;
};

static int digit_value(int digit) {
    return digit <= '9' ? digit - '0' : digit - 'a' + 10;
}

/* Reads lines `<type> <hex>` of lower case. A line of another form is left out. */
static void read_corpus(struct corpus *corpora) {
    char *line = NULL;
    size_t room = 0;
    ssize_t len;
    while ((len = getline(&line, &room, stdin)) > 0) {
        char *space = strchr(line, ' ');
        if (space == NULL)
            continue;
        uint32_t type = amqp_c_type((const uint8_t *)line, (size_t)(space - line));
        size_t digits = strspn(space + 1, "0123456789abcdef");
        if (type == 0 || digits % 2 != 0 || digits / 2 > LARGEST / 4)
            continue;
        struct corpus *corpus = &corpora[type];
        corpus->inputs = realloc(corpus->inputs, (corpus->many + 1) * sizeof *corpus->inputs);
        corpus->lens = realloc(corpus->lens, (corpus->many + 1) * sizeof *corpus->lens);
        uint8_t *bytes = malloc(digits / 2 + 1);
        for (size_t i = 0; i < digits / 2; i++)
            bytes[i] = (uint8_t)(16 * digit_value(space[1 + 2 * i]) + digit_value(space[2 + 2 * i]));
        corpus->inputs[corpus->many] = bytes;
        corpus->lens[corpus->many++] = digits / 2;
    }
    free(line);
}

/* An input at random: of any bytes, or one of the corpus with some bytes changed, taken away or added. */
static size_t make_input(uint64_t *state, const struct corpus *corpus, uint8_t *made) {
    static const uint8_t common[] = {0x00, 0x40, 0x41, 0x43, 0x45, 0x52, 0x53, 0x56, 0xa0, 0xa1, 0xa3, 0xc0, 0xc1, 0xd0, 0xe0, 0xf0, 0x01, 0x72};
    size_t len;
    if (corpus->many == 0 || next_random(state) % 8 == 0) {
        len = next_random(state) % 40;
        for (size_t i = 0; i < len; i++)
            made[i] = (uint8_t)(next_random(state) % 2 ? next_random(state) : common[next_random(state) % sizeof common]);
        return len;
    }
    size_t which = next_random(state) % corpus->many;
    len = corpus->lens[which];
    memcpy(made, corpus->inputs[which], len);
    for (uint64_t changes = next_random(state) % 4; changes > 0 && len > 0; changes--) {
        size_t place = next_random(state) % len;
        switch (next_random(state) % 4) {
        case 0:
            made[place] = (uint8_t)next_random(state);
            break;
        case 1:
            made[place] = common[next_random(state) % sizeof common];
            break;
        case 2:
            memmove(made + place, made + place + 1, len - place - 1);
            len--;
            break;
        default:
            memmove(made + place + 1, made + place, len - place);
            made[place] = (uint8_t)next_random(state);
            len++;
        }
    }
    return len;
}

static void check_random(long many) {
    static struct corpus corpora[TYPES + 1];
    static uint8_t made[LARGEST];
    struct places at = places();
    uint64_t state = 0x9e3779b97f4a7c15u;
    long read = 0;
    read_corpus(corpora);
    for (uint32_t type = 1; type <= TYPES; type++) {
        for (long i = 0; i < many; i++) {
            struct amqp_limits limits;
            amqp_c_greatest(&limits);
            if (i % 4 == 3) {
                limits.nesting = (uint32_t)(next_random(&state) % 5);
                limits.bytes = next_random(&state) % 60;
                limits.items = next_random(&state) % 8;
            }
            if (i % 2 == 1)
                limits.hash_seed = next_random(&state);
            size_t len = make_input(&state, &corpora[type], made);
            read += check_input(&at, type, made, len, &limits);
            check_term(&at, made, len);
        }
    }
    printf("%ld inputs of each of %d types; in %ld stands a value\n", many, (int)TYPES, read);
}

static void check_edges(void) {
    struct amqp_limits limits = {0}, deep = {129, 0, 0, 0};
    struct places at = places();
    size_t taken = 77, written = 77;
    uint8_t byte = 0x41, name[16];
    amqp_c_greatest(&limits);
    require(limits.nesting == 128 && limits.bytes == UINT64_MAX && limits.items == UINT64_MAX && limits.hash_seed == 0, "the greatest limits");
    amqp_c_for_peers(&limits, 1000);
    require(limits.nesting == 128 && limits.bytes == 1000 && limits.items == 1000 && limits.hash_seed == 0, "limits for peers");
    amqp_c_greatest(&limits);
    require(amqp_c_type(NULL, 0) == 0 && amqp_c_type((const uint8_t *)"openx", 4) == AMQP_TYPE_OPEN, "names");
    require(amqp_c_term_len(NULL, 0, &taken).number == AMQP_ERROR_CUT && taken == 77, "the length of no term");
    require(amqp_c_read(AMQP_TYPE_BOOLEAN, NULL, 0, &limits, &taken).number == AMQP_ERROR_CUT && taken == 77, "no input");
    require(amqp_c_read(AMQP_TYPE_BATCH_DATA, NULL, 0, &limits, &taken).number == 0 && taken == 0, "no sections");
    require(amqp_c_canonical(AMQP_TYPE_BATCH_DATA, NULL, 0, &limits, NULL, 0, &written, &taken).number == 0 && written == 0, "no text");
    require(amqp_c_canonical(AMQP_TYPE_BOOLEAN, &byte, 1, &limits, NULL, 0, &written, &taken).number == AMQP_ERROR_NO_ROOM && written == 1
                && taken == 1,
            "no room");
    written = taken = 77;
    require(amqp_c_read(0, &byte, 1, &limits, &taken).number == AMQP_ERROR_NO_TYPE && taken == 77, "type 0");
    require(amqp_c_read(TYPES + 1, &byte, 1, &limits, &taken).number == AMQP_ERROR_NO_TYPE && taken == 77, "a type past the last");
    require(amqp_c_read(UINT32_MAX, &byte, 1, &deep, &taken).number == AMQP_ERROR_NO_TYPE && taken == 77, "the greatest type");
    require(amqp_c_read(AMQP_TYPE_BOOLEAN, &byte, 1, &deep, &taken).number == AMQP_ERROR_NO_LIMITS && taken == 77, "limits too deep");
    require(amqp_c_canonical(AMQP_TYPE_BOOLEAN, &byte, 1, &deep, &byte, 0, &written, &taken).number == AMQP_ERROR_NO_LIMITS && written == 77,
            "limits too deep for a text");
    for (uint32_t number = 0; number <= 1100; number++) {
        size_t len = amqp_c_error_name(number, NULL, 0);
        bool named = (number >= 1 && number <= 31) || (number >= 1000 && number <= 1002);
        require(named ? len >= 3 && len <= sizeof name : len == 0, "which errors have a name");
        for (size_t room = 0; room <= len + 1; room++) {
            uint8_t *out = room_of(at.out, room);
            require(amqp_c_error_name(number, out, room) == len, "the length of a name");
            require(out[-1] == CANARY && (room < len ? is_untouched(out, room) : room == len || out[len] == CANARY), "room for a name");
        }
    }
}

/* Which types have a descriptor, and which names their fields have. */
static void check_descriptors(void) {
    size_t types = 0, fields = 0;
    for (uint64_t code = 0; code <= 0x1000; code++) {
        uint32_t type = amqp_c_type_of_descriptor(code);
        require(type <= TYPES, "the type of a descriptor");
        types += type > 0;
    }
    require(types == 40 && amqp_c_type_of_descriptor(UINT64_MAX) == 0, "how many types have one descriptor");
    require(amqp_c_type_of_descriptor(0x12) == AMQP_TYPE_ATTACH && amqp_c_type_of_descriptor(0x75) == AMQP_TYPE_DATA, "the type of a descriptor");
    for (uint32_t type = 0; type <= TYPES + 1; type++) {
        uint8_t name[32];
        size_t index = 0;
        while (amqp_c_field_name(type, index, name, sizeof name) > 0) {
            index++;
        }
        require(amqp_c_field_name(type, SIZE_MAX, name, sizeof name) == 0, "a field past the last");
        fields += index;
    }
    require(fields == 125, "how many fields all types have");
    struct places at = places();
    for (size_t room = 0; room <= 13; room++) {
        uint8_t *out = room_of(at.out, room);
        require(amqp_c_field_name(AMQP_TYPE_OPEN, 0, out, room) == 12, "the length of a field's name");
        require(room < 12 ? is_untouched(out, room) : memcmp(out, "container-id", 12) == 0, "room for a field's name");
        require(out[-1] == CANARY && (room <= 12 || out[12] == CANARY), "what is around a field's name");
    }
}

/* The fields of an attach: its name, an initial-delivery-count that is omitted, and its source with an address. */
static void check_fields(void) {
    static const uint8_t attach[] = "\x00\x53\x12\xc0\x1a\x06\xa1\x06orders\x43\x41\x40\x40\x00\x53\x28\xc0\x08\x01\xa1\x05queue";
    static const struct amqp_node none;
    size_t len = sizeof attach - 1;
    struct amqp_node link = none, source = none, address = none, field;
    require(amqp_c_next(attach, len, 0, &link).number == 0, "an attach");
    require(amqp_c_field(attach, len, &link, 5, &source).number == 0 && source.kind == AMQP_KIND_DESCRIBED, "its source");
    require(amqp_c_field(attach, len, &source, 0, &address).number == 0 && address.kind == AMQP_KIND_STRING, "the source's address");
    require(address.end - address.start == 5 && memcmp(attach + address.start, "queue", 5) == 0, "the text of the address");
    for (size_t index = 3; index <= 4; index++) {
        field = link;
        require(amqp_c_field(attach, len, &link, index, &field).number == 0 && field.kind == AMQP_KIND_NONE && field.end == 0,
                "a field that is null");
    }
    field = link;
    require(amqp_c_field(attach, len, &link, 6, &field).number == 0 && field.kind == AMQP_KIND_NONE, "a field past the end of the list");
    field = link;
    require(amqp_c_field(attach, len, &address, 0, &field).number == AMQP_ERROR_WRONG_TYPE && field.kind == link.kind && field.end == link.end,
            "a field of a string");
    require(amqp_c_field(NULL, 0, &link, 0, &field).number == AMQP_ERROR_CUT, "a field of no input");
}

/* The address of an attach's source is not UTF-8: the error, its place, and the path there. The path of no input is the value that is missing. */
static void check_places(void) {
    static const uint8_t attach[] = "\x00\x53\x12\xc0\x1a\x06\xa1\x06orders\x43\x41\x40\x40\x00\x53\x28\xc0\x08\x01\xa1\x05qu\xffue";
    size_t len = sizeof attach - 1, taken = 77;
    struct amqp_limits limits;
    struct amqp_path_node nodes[8];
    amqp_c_greatest(&limits);
    struct amqp_outcome outcome = amqp_c_read(AMQP_TYPE_ATTACH, attach, len, &limits, &taken);
    require(outcome.number == AMQP_ERROR_BAD_UTF8 && outcome.at == 24 && taken == 77, "a fault and its place");
    require(amqp_c_term_len(attach, len, &taken).at == 24 && taken == 77, "the place in a term");
    require(amqp_c_path(attach, len, 24, nodes, 8) == 5, "the length of a path");
    require(nodes[0].piece == AMQP_PIECE_VALUE && nodes[0].type == 0 && nodes[1].piece == AMQP_PIECE_VALUE, "the values on a path");
    require(nodes[1].type == AMQP_TYPE_ATTACH && nodes[3].type == AMQP_TYPE_SOURCE, "the types on a path");
    require(nodes[2].piece == AMQP_PIECE_ITEM && nodes[2].index == 5 && nodes[2].count == 6 && nodes[2].at == 18, "the source on a path");
    require(nodes[2].type == AMQP_TYPE_ATTACH && nodes[2].container == AMQP_CONTAINER_LIST, "the field on a path");
    require(nodes[4].piece == AMQP_PIECE_ITEM && nodes[4].index == 0 && nodes[4].type == AMQP_TYPE_SOURCE && nodes[4].at == 24, "its address");
    require(amqp_c_path(NULL, 0, 0, nodes, 8) == 1 && nodes[0].piece == AMQP_PIECE_VALUE && nodes[0].at == 0, "the path of no input");
    require(amqp_c_path(attach, len, SIZE_MAX, NULL, 0) >= 1, "the path to a place behind the input");
}

/* One thread of eight: every call, over an input of its own. */
static void *run_thread(void *given) {
    uint8_t own = *(uint8_t *)given, input[] = {0x00, 0x53, 0x23, 0xc0, 0x08, 0x02, 0x70, 0, 0, 0, own, 0x53, 0x0d, own};
    uint8_t text[] = {0x00, 0x53, 0x23, 0xc0, 0x05, 0x02, 0x52, own, 0x53, 0x0d};
    struct places at = places();
    bool holds = true;
    for (int i = 0; i < 20000; i++) {
        struct amqp_limits limits;
        size_t read = 0, taken = 0, written = 0, len = 0;
        uint8_t out[16], name[16];
        struct amqp_path_node nodes[3];
        amqp_c_greatest(&limits);
        uint32_t type = amqp_c_type((const uint8_t *)"received", 8);
        holds &= amqp_c_read(type, input, sizeof input, &limits, &read).number == 0 && read == 13;
        holds &= amqp_c_canonical(type, input, sizeof input, &limits, out, sizeof out, &written, &taken).number == 0 && taken == 13;
        holds &= written == sizeof text && memcmp(out, text, sizeof text) == 0;
        holds &= amqp_c_term_len(input, sizeof input, &len).number == 0 && len == 13;
        holds &= amqp_c_path(input, sizeof input, 12, nodes, 3) == 3 && nodes[2].index == 1 && nodes[2].type == type;
        holds &= amqp_c_error_name(own, name, sizeof name) >= 3;
        holds &= check_input(&at, AMQP_TYPE_VALUE, input, sizeof input, &limits);
    }
    return holds ? given : NULL;
}

static void check_threads(void) {
    pthread_t threads[8];
    uint8_t own[8];
    for (uint8_t i = 0; i < 8; i++) {
        own[i] = (uint8_t)(i + 1);
        if (pthread_create(&threads[i], NULL, run_thread, &own[i]) != 0)
            exit(2);
    }
    for (uint8_t i = 0; i < 8; i++) {
        void *answer;
        pthread_join(threads[i], &answer);
        require(answer == &own[i], "a thread has another answer");
    }
}

int main(int argc, char **argv) {
    if (argc == 2 && strcmp(argv[1], "edges") == 0) {
        check_edges();
        check_descriptors();
        check_fields();
        check_places();
    } else if (argc == 3 && strcmp(argv[1], "random") == 0)
        check_random(atol(argv[2]));
    else if (argc == 2 && strcmp(argv[1], "threads") == 0)
        check_threads();
    else
        return 2;
    return wrong;
}
