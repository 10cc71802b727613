/* Gives inputs to every call of amqp_types.h, and checks simple facts of what each returns, as tools/fuzz has it done:
 *
 *     fuzz random SEED FROM TO FILE    the inputs of these numbers, made of those that standard input has as lines of hexadecimal digits
 *     fuzz alone FILE                  the input in the file
 *
 * FILE of the first says at each moment how far it is, so that the input is known that ends the program: `struct progress`. The status is 0
 * only if every fact holds. It may also be fuzzed by libFuzzer, with the folder of inputs that `tools/fuzz --corpus FOLDER` writes:
 *
 *     clang -g -fsanitize=fuzzer,address,undefined -DAMQP_LIBFUZZER fuzz.c libamqp_types.a -o fuzz
 *     ./fuzz FOLDER
 *
 * The first five bytes of an input are the number of a type, three limits and a place; the rest goes to the calls. 255 is no limit, on bytes
 * and on items. By the place, what is read and what is written lies in blocks of the heap of exactly its size, or at the end of pages right
 * before one that can't be touched, or at the start of pages right behind one. The library isn't compiled with sanitizers. So the first shows
 * what it does by calls of the C library, and the others what its own code does.
 *
 * With -DAMQP_REFUSES -Wl,--wrap=malloc,--wrap=realloc the library's allocations are counted, and refused in turn. */
#define _DEFAULT_SOURCE
#include "amqp_types.h"

#include <fcntl.h>
#include <stdbool.h>
#include <stdio.h>
#include <stdlib.h>
#include <string.h>
#include <sys/mman.h>
#include <unistd.h>

#if defined(__SANITIZE_ADDRESS__)
#define COUNTS_BLOCKS 1
#elif defined(__has_feature)
#if __has_feature(address_sanitizer)
#define COUNTS_BLOCKS 1
#endif
#endif

enum { PAGE = 4096, PAGES = 32, LARGEST = PAGE * PAGES, MARGIN = 16, TYPES = AMQP_TYPE_VALUE, CANARY = 0xa7, HEAD = 5, UNSET = 77, SECONDS = 120 };

/* What has been done. tools/fuzz reads it. */
struct progress {
    uint64_t number, len; /* of the input that is tried */
    uint64_t values, terms, nodes, fields, texts, names, refused;
    uint64_t errors; /* a bit for each error that was met: its number, or 32 and on for 1000 and on */
    uint8_t input[LARGEST];
};

static struct progress *done;
static struct progress own;
static const uint8_t *tried;
static size_t tried_len;
static bool wrong;

/* Says what is wrong, and with which input. */
static void fail(const char *what) {
    fprintf(stderr, "fuzz: %s: input ", what);
    for (size_t i = 0; i < tried_len; i++)
        fprintf(stderr, "%02x", tried[i]);
    fputc('\n', stderr);
#ifdef AMQP_LIBFUZZER
    abort();
#endif
    wrong = true;
}

static void require(bool holds, const char *what) {
    if (!holds)
        fail(what);
}

/* Blocks of the heap, which the sanitizer of addresses counts. */

static long blocks;

#ifdef COUNTS_BLOCKS

int __sanitizer_install_malloc_and_free_hooks(void (*allocated)(const volatile void *, size_t), void (*freed)(const volatile void *));

static void count_block(const volatile void *at, size_t len) {
    (void)len;
    blocks += at != NULL;
}

static void count_free(const volatile void *at) { blocks -= at != NULL; }

static void count_blocks(void) {
    static bool is_counted;
    if (!is_counted)
        is_counted = __sanitizer_install_malloc_and_free_hooks(count_block, count_free) > 0;
}

#else

static void count_blocks(void) {}

#endif

/* Allocations, which are refused in turn. */

static uint64_t allocations, refused;

#ifdef AMQP_REFUSES

void *__real_malloc(size_t len);
void *__real_realloc(void *at, size_t len);
void *__wrap_malloc(size_t len);
void *__wrap_realloc(void *at, size_t len);

void *__wrap_malloc(size_t len) { return ++allocations == refused ? NULL : __real_malloc(len); }

void *__wrap_realloc(void *at, size_t len) { return ++allocations == refused ? NULL : __real_realloc(at, len); }

/* A block that isn't the library's, and so isn't counted. */
static uint8_t *own_block(size_t len) { return __real_malloc(len); }

#else

static uint8_t *own_block(size_t len) { return malloc(len); }

#endif

/* Places. */

enum place { IN_HEAP, AT_END, AT_START, PLACES };

/* Pages between two that can't be touched. */
static uint8_t *fenced(void) {
    uint8_t *at = mmap(NULL, LARGEST + 2 * PAGE, PROT_READ | PROT_WRITE, MAP_PRIVATE | MAP_ANONYMOUS, -1, 0);
    if (at == MAP_FAILED || mprotect(at, PAGE, PROT_NONE) != 0 || mprotect(at + PAGE + LARGEST, PAGE, PROT_NONE) != 0) {
        perror("fuzz");
        exit(2);
    }
    return at + PAGE;
}

/* Bytes at one of the places. */
struct room {
    uint8_t *at;
    size_t len;
    enum place place;
};

/* Room for so many bytes, all the same, and a margin around it at the side without a fence. There are three at a time. */
static struct room open_room(unsigned which, enum place place, size_t len) {
    static uint8_t *pages[3];
    struct room made = {NULL, len, len > LARGEST - MARGIN ? IN_HEAP : place};
    if (made.place == IN_HEAP) {
        made.at = own_block(len);
        if (made.at == NULL && len > 0)
            exit(2);
    } else {
        if (pages[which] == NULL)
            pages[which] = fenced();
        made.at = made.place == AT_END ? pages[which] + LARGEST - len : pages[which];
        memset(made.place == AT_END ? made.at - MARGIN : made.at + len, CANARY, MARGIN);
    }
    if (len > 0)
        memset(made.at, CANARY, len);
    return made;
}

static struct room copy_of(unsigned which, enum place place, const uint8_t *bytes, size_t len) {
    struct room made = open_room(which, place, len);
    if (len > 0)
        memcpy(made.at, bytes, len);
    return made;
}

static bool is_canary(const uint8_t *at, size_t len) {
    for (size_t i = 0; i < len; i++)
        if (at[i] != CANARY)
            return false;
    return true;
}

/* Whether a room is as it was made, from a byte on, and also its margin. */
static bool is_untouched(const struct room *room, size_t from) {
    if (room->place == AT_END && !is_canary(room->at - MARGIN, MARGIN))
        return false;
    return is_canary(room->at + from, room->len - from + (room->place == AT_START ? MARGIN : 0));
}

static void close_room(struct room *room) {
    if (room->place == IN_HEAP)
        free(room->at);
}

/* The pointer of a room. One without bytes may be null. */
static uint8_t *passed(const struct room *room) { return room->len == 0 && room->place == AT_START ? NULL : room->at; }

/* Errors. */

static bool is_same_error(struct amqp_outcome one, struct amqp_outcome other) {
    return one.number == other.number && one.detail == other.detail;
}

static bool is_same(struct amqp_outcome one, struct amqp_outcome other) { return is_same_error(one, other) && one.at == other.at; }

/* Whether an error with this number is a fault of bytes. */
static bool is_of_bytes(uint32_t number) {
    return number >= 1 && number <= 31 && (number < AMQP_ERROR_MEMORY || number > AMQP_ERROR_TOO_LARGE);
}

/* Whether an outcome is success, or an error that reading and writing an input may have, without a place if no byte is at fault; it is
 * counted. */
static bool is_known(struct amqp_outcome outcome) {
    uint32_t number = outcome.number;
    done->errors |= number < 32 ? 1ull << number : number >= 1000 && number < 1003 ? 1ull << (number - 1000 + 32) : 0;
    bool has_code = number == AMQP_ERROR_UNKNOWN_CODE || number == AMQP_ERROR_FLOAT_CODE || number == AMQP_ERROR_WRONG_TYPE;
    bool is_listed = number <= 31 || (number >= 1000 && number <= 1002);
    bool is_of_input = number != AMQP_ERROR_READ && number != AMQP_ERROR_CUSTOM && number != AMQP_ERROR_MEMORY;
    bool is_placed = outcome.at == 0 || is_of_bytes(number);
    return is_listed && is_of_input && is_placed && outcome.detail <= (has_code ? 0xff : 0);
}

/* Paths. */

static bool is_path_node(const struct amqp_path_node *one, const struct amqp_path_node *other) {
    return one->at == other->at && one->piece == other->piece && one->container == other->container && one->count == other->count
           && one->index == other->index && one->descriptors == other->descriptors && one->type == other->type && one->code == other->code;
}

/* What holds of each node of a path to a place. */
static bool is_on_path(const struct amqp_path_node *node, size_t at) {
    bool is_item = node->piece == AMQP_PIECE_ITEM || node->piece == AMQP_PIECE_ELEMENT;
    bool is_alone = node->piece == AMQP_PIECE_VALUE || node->piece == AMQP_PIECE_DESCRIPTOR;
    bool is_typed = node->piece == AMQP_PIECE_VALUE || node->container == AMQP_CONTAINER_LIST;
    return node->at <= at && node->piece >= AMQP_PIECE_VALUE && node->piece <= AMQP_PIECE_END && node->container <= AMQP_CONTAINER_ARRAY
           && (is_item ? node->index < node->count : node->index == 0) && is_alone == (node->container == AMQP_CONTAINER_NONE)
           && node->type <= TYPES && (is_typed || node->type == 0) && (node->code != 0) == (node->piece == AMQP_PIECE_ELEMENT);
}

/* The path to a place in room for so many nodes, with the nodes that are wanted, and nothing behind them. */
static void check_room(const struct room *in, size_t at, const struct amqp_path_node *wanted, size_t count, size_t room) {
    struct room out = open_room(1, in->place, (room + 1) * sizeof *wanted);
    struct amqp_path_node *nodes = (struct amqp_path_node *)(void *)out.at;
    require(amqp_c_path(passed(in), in->len, at, nodes, room) == count, "a path has another length in another room");
    size_t written = count < room ? count : room;
    for (size_t i = 0; i < written; i++)
        require(is_path_node(&nodes[i], &wanted[i]), "a path has another node in another room");
    require(is_untouched(&out, written * sizeof *wanted), "a path is written to behind its nodes");
    close_room(&out);
}

/* The path to a place: it begins with the whole value, goes on to the place and no further, and is told as far as there is room. */
static void check_path(const struct room *in, size_t at) {
    size_t count = amqp_c_path(passed(in), in->len, at, NULL, 0);
    require(count > 0, "a path has no node");
    struct room out = open_room(2, in->place, count * sizeof(struct amqp_path_node));
    struct amqp_path_node *nodes = (struct amqp_path_node *)(void *)out.at;
    require(amqp_c_path(passed(in), in->len, at, nodes, count) == count, "a path has another length");
    require(nodes[0].at == 0 && nodes[0].piece == AMQP_PIECE_VALUE && nodes[0].type == 0, "a path begins elsewhere");
    for (size_t i = 0; i < count; i++)
        require(is_on_path(&nodes[i], at) && (i == 0 || nodes[i - 1].at <= nodes[i].at), "what is no node of a path");
    require(is_untouched(&out, out.len), "a path is written to around its room");
    check_room(in, at, nodes, count, count);
    check_room(in, at, nodes, count, count - 1);
    close_room(&out);
}

/* A fault is in the input, and a path leads there. */
static void check_fault(const struct room *in, struct amqp_outcome fault) {
    require(fault.at <= in->len, "a fault is behind the input");
    if (is_of_bytes(fault.number) && fault.at <= in->len)
        check_path(in, (size_t)fault.at);
}

/* Values of a type. */

/* A value that was read: how many bytes it takes, and its canonical text in the second room. */
struct value {
    struct amqp_outcome outcome;
    size_t taken, written;
    struct room text;
};

/* A room that is too small leaves everything but the two sizes unchanged. */
static void check_small(uint32_t type, const struct room *in, const struct amqp_limits *limits, const struct value *value, size_t room) {
    size_t written = UNSET, taken = UNSET;
    struct room out = open_room(2, in->place, room);
    struct amqp_outcome outcome = amqp_c_canonical(type, passed(in), in->len, limits, passed(&out), room, &written, &taken);
    require(outcome.number == AMQP_ERROR_NO_ROOM && is_known(outcome), "a room that is too small isn't refused");
    require(written == value->written && taken == value->taken, "a room that is too small has other sizes");
    require(is_untouched(&out, 0), "a room that is too small is written to");
    close_room(&out);
}

/* A room that is larger has the text, and nothing behind it. */
static void check_large(uint32_t type, const struct room *in, const struct amqp_limits *limits, const struct value *value, size_t more) {
    size_t written = UNSET, taken = UNSET;
    struct room out = open_room(2, in->place, value->written + more);
    struct amqp_outcome outcome = amqp_c_canonical(type, passed(in), in->len, limits, passed(&out), out.len, &written, &taken);
    require(outcome.number == 0 && written == value->written && taken == value->taken, "a larger room has another outcome");
    require(written == 0 || memcmp(out.at, value->text.at, written) == 0, "a larger room has another text");
    require(is_untouched(&out, value->written), "a larger room is written to behind the text");
    close_room(&out);
}

/* Reads and rewrites a value in every way. The text's room is to be closed. */
static struct value read_value(uint32_t type, const struct room *in, const struct amqp_limits *limits) {
    struct value value = {{0, 0, 0}, UNSET, UNSET, {NULL, 0, AT_END}};
    size_t taken = UNSET, written = UNSET;
    value.outcome = amqp_c_read(type, passed(in), in->len, limits, &value.taken);
    require(is_known(value.outcome) && value.outcome.number != AMQP_ERROR_NO_ROOM, "an error that reading can't have");
    struct amqp_outcome sized = amqp_c_canonical(type, passed(in), in->len, limits, NULL, 0, &written, &taken);
    if (value.outcome.number != 0) {
        require(value.taken == UNSET && written == UNSET && taken == UNSET, "an error changes a size");
        require(is_same(value.outcome, sized), "read and rewritten with different errors");
        check_fault(in, value.outcome);
        return value;
    }
    require(value.taken <= in->len, "a value passes the end of the input");
    require(sized.number == (written > 0 ? AMQP_ERROR_NO_ROOM : 0) && taken == value.taken, "read and rewritten with different outcomes");
    value.written = written;
    value.text = open_room(1, in->place, written);
    written = taken = UNSET;
    value.outcome = amqp_c_canonical(type, passed(in), in->len, limits, passed(&value.text), value.text.len, &written, &taken);
    require(value.outcome.number == 0 && written == value.written && taken == value.taken, "an exact room has another outcome");
    require(is_untouched(&value.text, value.written), "an exact room is written to around the text");
    if (value.written > 0)
        check_small(type, in, limits, &value, value.written - 1);
    check_large(type, in, limits, &value, MARGIN);
    return value;
}

/* Whether reading has the same result: the same sizes and text, or no value. */
static void check_same(uint32_t type, const struct room *in, const struct amqp_limits *limits, const struct value *value, const char *what) {
    size_t written = UNSET, taken = UNSET;
    struct room out = open_room(2, in->place, value->written);
    struct amqp_outcome outcome = amqp_c_canonical(type, passed(in), in->len, limits, passed(&out), out.len, &written, &taken);
    require(outcome.number == 0 && written == value->written && taken == value->taken, what);
    require(written == 0 || memcmp(out.at, value->text.at, value->written) == 0, what);
    close_room(&out);
}

/* The canonical text is read to its end, as itself, and so is the front of the input that the value takes, with its text. */
static void check_again(uint32_t type, const struct room *in, const struct value *value) {
    struct amqp_limits limits;
    struct value again = *value;
    amqp_c_greatest(&limits);
    struct room text = copy_of(0, in->place, value->text.at, value->written);
    again.taken = value->written;
    check_same(type, &text, &limits, &again, "a canonical text is rewritten otherwise");
    close_room(&text);
    done->texts++;
}

/* What a value takes is a value by itself, and keeps a limit on just its bytes, but none on one byte less. */
static void check_front(uint32_t type, const uint8_t *bytes, enum place place, const struct value *value) {
    struct amqp_limits limits;
    struct room front = copy_of(0, place, bytes, value->taken);
    amqp_c_greatest(&limits);
    check_same(type, &front, &limits, value, "what a value takes is no value by itself");
    limits.bytes = value->taken;
    check_same(type, &front, &limits, value, "a value doesn't keep a limit on its own bytes");
    if (value->taken > 0) {
        size_t taken = UNSET;
        limits.bytes--;
        require(amqp_c_read(type, passed(&front), front.len, &limits, &taken).number != 0 && taken == UNSET, "a value passes a limit");
    }
    close_room(&front);
}

/* Each of the first allocations is refused, and the last one: the error says so, and nothing is changed. */
static void check_refused(uint32_t type, const struct room *in, const struct amqp_limits *limits) {
    size_t written = UNSET, taken = UNSET;
    allocations = 0;
    amqp_c_canonical(type, passed(in), in->len, limits, NULL, 0, &written, &taken);
    for (uint64_t count = allocations, which = 1; which <= count; which = which < 8 || which == count ? which + 1 : count) {
        written = taken = UNSET;
        allocations = 0;
        refused = which;
        struct amqp_outcome outcome = amqp_c_canonical(type, passed(in), in->len, limits, NULL, 0, &written, &taken);
        refused = 0;
        require(outcome.number == AMQP_ERROR_MEMORY && outcome.detail == 0 && outcome.at == 0, "an allocation is refused, and the error is another one");
        require(written == UNSET && taken == UNSET, "an allocation is refused, and a size is changed");
        done->refused++;
    }
}

/* Limits that let everything pass, or not: what is read within them is what is read without. */
static void check_limits(uint32_t type, const uint8_t *bytes, size_t len, enum place place, const struct amqp_limits *limits) {
    struct amqp_limits none;
    amqp_c_greatest(&none);
    struct room in = copy_of(0, place, bytes, len);
    struct value value = read_value(type, &in, limits);
    bool is_listed = type >= 1 && type <= TYPES;
    require((value.outcome.number == AMQP_ERROR_NO_TYPE) == !is_listed, "which numbers are those of types");
    require((value.outcome.number == AMQP_ERROR_NO_LIMITS) == (is_listed && limits->nesting > 128), "which limits are too deep");
    check_refused(type, &in, limits);
    require(len == 0 || memcmp(in.at, bytes, len) == 0, "the input is changed");
    if (value.outcome.number == 0) {
        check_same(type, &in, &none, &value, "read otherwise within limits than without");
        none.hash_seed = 0x9e3779b97f4a7c15u;
        check_same(type, &in, &none, &value, "read otherwise with a seed");
        close_room(&in);
        check_again(type, &in, &value);
        check_front(type, bytes, place, &value);
        close_room(&value.text);
        return;
    }
    close_room(&in);
}

/* The greatest limits, those of a peer with and without enough bytes, and those that the input names. */
static void check_value(uint32_t type, const uint8_t *bytes, size_t len, const uint8_t *head) {
    enum place place = head[4] % PLACES;
    struct amqp_limits limits;
    size_t taken = UNSET;
    amqp_c_greatest(&limits);
    require(limits.nesting == 128 && limits.bytes == UINT64_MAX && limits.items == UINT64_MAX && limits.hash_seed == 0, "the greatest limits");
    done->values += amqp_c_read(type, bytes, len, &limits, &taken).number == 0;
    check_limits(type, bytes, len, place, &limits);
    limits.hash_seed = UINT64_MAX - len;
    check_limits(type, bytes, len, place, &limits);
    for (size_t less = 0; less <= 1 && less <= len; less++) {
        amqp_c_for_peers(&limits, len - less);
        require(limits.nesting == 128 && limits.bytes == len - less && limits.items == len - less && limits.hash_seed == 0, "limits for peers");
        check_limits(type, bytes, len, place, &limits);
    }
    limits.nesting = head[1];
    limits.bytes = head[2] == 255 ? UINT64_MAX : head[2];
    limits.items = head[3] == 255 ? UINT64_MAX : head[3];
    limits.hash_seed = head[4];
    check_limits(type, bytes, len, place, &limits);
}

/* Terms. */

static bool is_node(const struct amqp_node *one, const struct amqp_node *other) {
    return one->kind == other->kind && one->depth == other->depth && one->code == other->code && one->item_code == other->item_code
           && one->count == other->count && one->start == other->start && one->end == other->end && one->next == other->next;
}

static const struct amqp_node no_node;

/* What holds of each node in a node around it. */
static bool is_inside(const struct amqp_node *node, const struct amqp_node *around, size_t at, size_t end) {
    return node->kind >= AMQP_KIND_NULL && node->kind <= AMQP_KIND_ARRAY && node->depth == (around->kind == 0 ? 0 : around->depth + 1)
           && at <= node->start && node->start <= node->next && node->next <= node->end && node->end <= end
           && (node->kind != AMQP_KIND_DESCRIBED || (node->count == 2 && node->code == 0))
           && (node->kind >= AMQP_KIND_DESCRIBED || (node->count == 0 && node->next == node->end))
           && ((node->item_code != 0) == (node->kind == AMQP_KIND_ARRAY && node->count > 0));
}

/* The field with a number: the node of the list with this number, or zeros if there is none or a null. */
static void check_field(const struct room *in, const struct amqp_node *composite, const struct amqp_node *list, size_t index) {
    struct amqp_node field = *composite, wanted = no_node, item = {.end = list->next};
    struct amqp_outcome outcome = amqp_c_field(passed(in), in->len, composite, index, &field);
    for (size_t i = 0; i <= index && i < list->count; i++) {
        size_t at = item.end;
        item = *list;
        if (amqp_c_next(passed(in), in->len, at, &item).number != 0) {
            fail("a list has fewer nodes than it counts");
            return;
        }
        wanted = i == index && item.kind != AMQP_KIND_NULL ? item : no_node;
    }
    require(outcome.number == 0 && is_node(&field, &wanted), "a field isn't the node with its number");
    done->fields++;
}

/* The fields of a composite: the first ones, the last one, and two past the end. Nothing else has fields. */
static void check_fields(const struct room *in, const struct amqp_node *node, const struct amqp_node *value) {
    if (node->kind == AMQP_KIND_DESCRIBED && value->kind == AMQP_KIND_LIST) {
        for (size_t index = 0; index < value->count && index < 8; index++)
            check_field(in, node, value, index);
        check_field(in, node, value, value->count > 0 ? value->count - 1 : 0);
        check_field(in, node, value, value->count);
        check_field(in, node, value, SIZE_MAX);
        return;
    }
    struct amqp_node field = *node;
    struct amqp_outcome outcome = amqp_c_field(passed(in), in->len, node, 0, &field);
    require(outcome.number == AMQP_ERROR_WRONG_TYPE && is_known(outcome) && is_node(&field, node), "what is no composite has a field");
}

/* Walks over a term's node and all that is in it, and returns where it ends. The nodes in a node come one after another up to its end. */
static size_t walk(const struct room *in, size_t at, const struct amqp_node *around) {
    struct amqp_node node = *around, last = no_node;
    struct amqp_outcome outcome = amqp_c_next(passed(in), in->len, at, &node);
    if (outcome.number != 0 || !is_inside(&node, around, at, around->kind == 0 ? in->len : around->end)) {
        fail("a term has no node where one has to be");
        return SIZE_MAX;
    }
    done->nodes++;
    size_t place = node.next;
    for (size_t i = 0; i < node.count; i++) {
        last = node;
        if (amqp_c_next(passed(in), in->len, place, &last).number != 0) {
            fail("a node has fewer nodes than it counts");
            return SIZE_MAX;
        }
        size_t end = walk(in, place, &node);
        require(end == last.end, "a node ends elsewhere than the nodes in it");
        if (end == SIZE_MAX)
            return end;
        place = end;
    }
    require(node.count == 0 || place == node.end, "the last node ends elsewhere than the node around it");
    check_fields(in, &node, &last);
    return node.end;
}

/* A place in the input, or right behind it. */
static size_t any_place(size_t len) { return tried[4] * 7919u % (len + 1); }

/* The length of a term, that no front of it is one, and its nodes. */
static void check_term(const uint8_t *bytes, size_t len, enum place place) {
    size_t taken = UNSET, cut = UNSET;
    struct room in = copy_of(0, place, bytes, len);
    struct amqp_node node = no_node;
    allocations = 0;
    struct amqp_outcome outcome = amqp_c_term_len(passed(&in), len, &taken), next = amqp_c_next(passed(&in), len, 0, &node);
    require(is_known(outcome) && outcome.number < 1000, "an error that measuring can't have");
    require(len == 0 || is_same_error(outcome, next), "measured and walked with different outcomes");
    require(next.at == 0, "a walk tells a place");
    if (outcome.number != 0) {
        require(taken == UNSET && next.number != 0 && is_node(&node, &no_node), "an error changes a size or a node");
        check_fault(&in, outcome);
        require(wrong || allocations == 0, "measuring or a path allocates");
        close_room(&in);
        return;
    }
    check_path(&in, any_place(len));
    done->terms++;
    require(taken > 0 && taken <= len && node.end == taken, "a term has no or too many bytes");
    require(walk(&in, 0, &no_node) == taken, "a walk over a term ends elsewhere");
    require(wrong || allocations == 0, "measuring or walking allocates");
    close_room(&in);
    in = copy_of(0, place, bytes, taken - 1);
    require(amqp_c_term_len(passed(&in), in.len, &cut).number == AMQP_ERROR_CUT && cut == UNSET, "the front of a term isn't cut");
    close_room(&in);
}

static uint64_t next_random(uint64_t *state) {
    uint64_t mixed = *state += 0x9e3779b97f4a7c15u;
    mixed = (mixed ^ (mixed >> 30)) * 0xbf58476d1ce4e5b9u;
    mixed = (mixed ^ (mixed >> 27)) * 0x94d049bb133111ebu;
    return mixed ^ (mixed >> 31);
}

/* A size that may be in the input, at its end, or anywhere. */
static size_t any_size(uint64_t *state, size_t len) {
    uint64_t some = next_random(state);
    return some % 8 == 0 ? (size_t)next_random(state) : some % 8 == 1 ? SIZE_MAX - some / 8 % 3 : some / 8 % (len + 3);
}

/* Nodes that no call has returned: what is returned lies in the input all the same, or nothing is changed. */
static void check_false_nodes(const uint8_t *bytes, size_t len, const uint8_t *head) {
    uint64_t state = head[0] + 256u * head[4] + 65536u * len;
    struct room in = copy_of(0, head[4] % PLACES, bytes, len);
    for (int i = 0; i < 6; i++) {
        struct amqp_node around = {.kind = (uint32_t)(next_random(&state) % 25)};
        around.depth = (uint32_t)any_size(&state, 128);
        around.code = (uint8_t)next_random(&state);
        around.item_code = len > 0 ? bytes[next_random(&state) % len] : 0;
        around.count = any_size(&state, 4);
        around.start = any_size(&state, len);
        around.end = i % 2 == 0 ? len : any_size(&state, len);
        around.next = any_size(&state, len);
        struct amqp_node node = around, field = no_node;
        size_t at = any_size(&state, len);
        struct amqp_outcome outcome = amqp_c_next(passed(&in), len, at, &node);
        require(is_known(outcome) && outcome.number < 1000, "an error that a walk can't have");
        require(outcome.number == 0 ? at <= node.end && node.end <= len : is_node(&node, &around), "a false node leads out of the input");
        outcome = amqp_c_field(passed(&in), len, &around, any_size(&state, 4), &field);
        require(is_known(outcome) && outcome.number < 1000, "an error that a field can't have");
        require(outcome.number == 0 ? field.end <= len : is_node(&field, &no_node), "a false composite leads out of the input");
        require(amqp_c_path(passed(&in), len, any_size(&state, len), NULL, 0) > 0, "a path to any place has no node");
    }
    close_room(&in);
}

/* Names. */

typedef size_t naming(uint32_t number, size_t index, uint8_t *out, size_t room);

static size_t name_of_error(uint32_t number, size_t index, uint8_t *out, size_t room) {
    (void)index;
    return amqp_c_error_name(number, out, room);
}

/* A name is written to a room of its length, or a larger one, and to no smaller one. */
static void check_name(naming *name, uint32_t number, size_t index, enum place place) {
    size_t len = name(number, index, NULL, 0), rooms[] = {len + MARGIN, len, len - 1};
    for (size_t i = 0; i < 3 && (i < 2 || len > 0); i++) {
        struct room out = open_room(2, place, rooms[i]);
        require(name(number, index, passed(&out), out.len) == len && len < 64, "a name has another length");
        require(is_untouched(&out, i < 2 ? len : 0), "a room for a name is written to");
        for (size_t at = 0; i < 2 && at < len; at++)
            require(out.at[at] > ' ' && out.at[at] < 0x7f, "a name has another byte than a letter");
        close_room(&out);
    }
    done->names += len > 0;
}

static void check_names(const uint8_t *bytes, size_t len, const uint8_t *head) {
    enum place place = head[4] % PLACES;
    uint64_t code = 0;
    size_t held = len < 8 ? len : 8;
    for (size_t i = 0; i < held; i++)
        code = 256 * code + bytes[i];
    struct room name = copy_of(0, place, bytes, len);
    require(amqp_c_type(passed(&name), len) <= TYPES, "the type of a name");
    close_room(&name);
    require(amqp_c_type_of_descriptor(code) <= TYPES && amqp_c_type_of_descriptor(code & 0xff) <= TYPES, "the type of a descriptor");
    check_name(amqp_c_field_name, head[0], head[1], place);
    check_name(amqp_c_field_name, head[0], head[1] % 16, place);
    check_name(amqp_c_field_name, (uint32_t)code, (size_t)code, place);
    check_name(name_of_error, head[1], 0, place);
    check_name(name_of_error, 992 + head[1] % 16u, 0, place);
    check_name(name_of_error, (uint32_t)code, 0, place);
}

/* One input, by every call. */
int LLVMFuzzerTestOneInput(const uint8_t *data, size_t size) {
    if (done == NULL)
        done = &own;
    if (size < HEAD || size > LARGEST - MARGIN)
        return 0;
    tried = data;
    tried_len = size;
    count_blocks();
    long before = blocks;
    check_value(data[0], data + HEAD, size - HEAD, data);
    check_term(data + HEAD, size - HEAD, data[4] % PLACES);
    check_false_nodes(data + HEAD, size - HEAD, data);
    check_names(data + HEAD, size - HEAD, data);
    require(wrong || blocks == before, "what was allocated isn't freed");
    return 0;
}

#ifndef AMQP_LIBFUZZER

/* Inputs. */

enum { MOST = 8192 };

struct input {
    uint8_t *bytes;
    size_t len;
};

static struct input *seeds;
static size_t seed_count;

static int digit_value(int digit) { return digit <= '9' ? digit - '0' : digit - 'a' + 10; }

/* Reads the inputs that others are made of. */
static void read_seeds(void) {
    char *line = NULL;
    size_t room = 0, len;
    while (getline(&line, &room, stdin) > 0) {
        len = strspn(line, "0123456789abcdef") / 2;
        if (len < HEAD || len > MOST)
            continue;
        seeds = realloc(seeds, (seed_count + 1) * sizeof *seeds);
        uint8_t *bytes = own_block(len);
        if (seeds == NULL || bytes == NULL)
            exit(2);
        for (size_t i = 0; i < len; i++)
            bytes[i] = (uint8_t)(16 * digit_value(line[2 * i]) + digit_value(line[2 * i + 1]));
        seeds[seed_count++] = (struct input){bytes, len};
    }
    free(line);
}

static uint8_t any_byte(uint64_t *state) {
    static const uint8_t common[] = {0x00, 0x01, 0x02, 0x40, 0x41, 0x42, 0x43, 0x44, 0x45, 0x50, 0x52, 0x53, 0x54, 0x56, 0x60, 0x70, 0x71,
                                     0x72, 0x73, 0x74, 0x7f, 0x80, 0x81, 0x82, 0x83, 0x84, 0x94, 0x98, 0xa0, 0xa1, 0xa3, 0xb0, 0xb1, 0xb3,
                                     0xc0, 0xc1, 0xd0, 0xd1, 0xe0, 0xf0, 0xff};
    return next_random(state) % 3 == 0 ? (uint8_t)next_random(state) : common[next_random(state) % sizeof common];
}

/* Four bytes that announce something. */
static void put_number(uint64_t *state, uint8_t *at, size_t len) {
    const uint32_t numbers[] = {0, 1, 0xff, 0x100, 0x7fffffff, 0x80000000, 0xfffffffc, 0xffffffff, (uint32_t)len, (uint32_t)len - 4};
    uint32_t number = numbers[next_random(state) % 10];
    for (int i = 0; i < 4; i++)
        at[i] = (uint8_t)(number >> (24 - 8 * i));
}

/* Puts bytes in at a place. */
static size_t insert(uint8_t *made, size_t len, size_t at, const uint8_t *bytes, size_t more) {
    if (len + more > MOST)
        return len;
    memmove(made + at + more, made + at, len - at);
    memmove(made + at, bytes, more);
    return len + more;
}

/* Puts a list, an array of one item, a section or a described value around what is there, and so deep that this may be refused. */
static size_t wrap(uint64_t *state, uint8_t *made, size_t len) {
    uint64_t many = next_random(state) % 4 == 0 ? 120 + next_random(state) % 16 : 1 + next_random(state) % 3, kind = next_random(state) % 4;
    for (; many > 0 && len + 10 < MOST; many--) {
        uint8_t list[] = {0xd0, 0, 0, (uint8_t)((len + 4) >> 8), (uint8_t)(len + 4), 0, 0, 0, 1}, short_list[] = {0xc0, (uint8_t)(len + 1), 1};
        const uint8_t section[] = {0x00, 0x53, (uint8_t)(0x70 + next_random(state) % 9)}, described[] = {0x00, 0xa3, 0x01, 'd'};
        list[0] = kind == 1 ? 0xf0 : 0xd0;
        if (kind <= 1)
            len = len < 255 && kind == 0 ? insert(made, len, 0, short_list, sizeof short_list) : insert(made, len, 0, list, sizeof list);
        else
            len = kind == 2 ? insert(made, len, 0, section, sizeof section) : insert(made, len, 0, described, sizeof described);
    }
    return len;
}

/* Changes an input in one way. */
static size_t change(uint64_t *state, uint8_t *made, size_t len) {
    uint8_t some[8];
    size_t at = len > 0 ? next_random(state) % len : 0, most = len - at, many = 1 + next_random(state) % 8;
    for (size_t i = 0; i < sizeof some; i++)
        some[i] = any_byte(state);
    const struct input *other = &seeds[next_random(state) % seed_count];
    uint64_t how = len == 0 ? 5 + next_random(state) % 4 : next_random(state) % 12;
    switch (how) {
    case 0:
    case 1:
        made[at] = some[0];
        return len;
    case 2:
        made[at] ^= (uint8_t)(1u << next_random(state) % 8);
        return len;
    case 3:
        made[at] = (uint8_t)(made[at] + next_random(state) % 9 - 4);
        return len;
    case 4:
        many = many < most ? many : most;
        memmove(made + at, made + at + many, most - many);
        return len - many;
    case 5:
        return insert(made, len, at, some, many);
    case 6:
        return insert(made, len, len, some, many);
    case 7:
        return wrap(state, made, len);
    case 8:
        return insert(made, len, at, other->bytes + HEAD, other->len - HEAD);
    case 9:
        if (most >= 4)
            put_number(state, made + at, len);
        return len;
    case 10:
        return at;
    default:
        many = many < most ? many : most;
        memcpy(some, made + at, many);
        return insert(made, len, at, some, many);
    }
}

/* The input with a number: first each seed at each place, then seeds that are changed, and now and then bytes at random. */
static size_t make_input(uint64_t seed, uint64_t number, uint8_t *made) {
    uint64_t state = seed + 0xd1342543de82ef95u * (number + 1), which = number / PLACES;
    bool is_seed = which < seed_count;
    const struct input *from = &seeds[is_seed ? which : next_random(&state) % seed_count];
    size_t len = from->len;
    memcpy(made, from->bytes, len);
    made[4] = (uint8_t)number;
    if (is_seed)
        return len;
    made[4] = (uint8_t)next_random(&state);
    if (next_random(&state) % 8 == 0)
        made[0] = (uint8_t)(next_random(&state) % (TYPES + 3));
    for (int i = 1; i <= 3; i++) {
        uint64_t some = next_random(&state);
        if (some % 4 == 0)
            made[i] = (uint8_t)(some / 4 % 4 == 0 ? some >> 8 : some >> 8 & 15);
    }
    len -= HEAD;
    if (next_random(&state) % 16 == 0) {
        len = next_random(&state) % 64;
        for (size_t i = 0; i < len; i++)
            made[HEAD + i] = any_byte(&state);
    }
    for (uint64_t changes = next_random(&state) % 6; changes > 0; changes--)
        len = change(&state, made + HEAD, len);
    return HEAD + len;
}

/* Where the file says how far it is. */
static void open_progress(const char *path) {
    int file = open(path, O_RDWR | O_CREAT | O_TRUNC, 0600);
    if (file < 0 || ftruncate(file, sizeof *done) != 0) {
        perror(path);
        exit(2);
    }
    done = mmap(NULL, sizeof *done, PROT_READ | PROT_WRITE, MAP_SHARED, file, 0);
    if (done == MAP_FAILED) {
        perror(path);
        exit(2);
    }
    close(file);
}

static int run_random(uint64_t seed, uint64_t from, uint64_t to, const char *path) {
    open_progress(path);
    read_seeds();
    if (seed_count == 0)
        return 2;
    for (uint64_t number = from; number < to && !wrong; number++) {
        size_t len = make_input(seed, number, done->input);
        done->number = number;
        done->len = len;
        alarm(SECONDS);
        uint8_t *input = own_block(len);
        if (input == NULL)
            return 2;
        memcpy(input, done->input, len);
        LLVMFuzzerTestOneInput(input, len);
        free(input);
    }
    for (size_t i = 0; i < seed_count; i++)
        free(seeds[i].bytes);
    free(seeds);
    return wrong;
}

/* Says what the input in a file is, and what reading it returns. */
static int run_alone(const char *path) {
    FILE *file = fopen(path, "rb");
    if (file == NULL) {
        perror(path);
        return 2;
    }
    size_t len = fread(own.input, 1, sizeof own.input, file), taken = 0;
    fclose(file);
    if (len < HEAD || len > LARGEST - MARGIN) {
        fprintf(stderr, "%s: an input has %d to %d bytes\n", path, HEAD, LARGEST - MARGIN);
        return 2;
    }
    uint8_t *input = own_block(len);
    if (input == NULL)
        return 2;
    memcpy(input, own.input, len);
    struct amqp_limits limits;
    amqp_c_greatest(&limits);
    printf("type %u, limits %u %u %u, place %u, %zu bytes: ", input[0], input[1], input[2], input[3], input[4] % PLACES, len - HEAD);
    struct amqp_outcome outcome = amqp_c_read(input[0], input + HEAD, len - HEAD, &limits, &taken);
    printf("%u, and %zu bytes are taken\n", (unsigned)outcome.number, taken);
    fflush(stdout);
    LLVMFuzzerTestOneInput(input, len);
    free(input);
    return wrong;
}

int main(int argc, char **argv) {
    if (argc == 6 && strcmp(argv[1], "random") == 0)
        return run_random(strtoull(argv[2], NULL, 10), strtoull(argv[3], NULL, 10), strtoull(argv[4], NULL, 10), argv[5]);
    if (argc == 3 && strcmp(argv[1], "alone") == 0)
        return run_alone(argv[2]);
    return 2;
}

#endif
