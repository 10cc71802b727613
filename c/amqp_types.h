/* The data types of AMQP 1.0 (OASIS, Parts 1 to 5): values are checked, measured, rewritten as their canonical text, and walked.
 *
 * Link with libamqp_types.a. No call keeps state, returns a pointer or gives the caller memory to free. So any number of threads may call them
 * at once, if no two calls write to the same place. Calls free what they allocate, with the program's malloc, realloc and free. If an
 * allocation fails, the error is AMQP_ERROR_MEMORY.
 *
 * Each input and each room is a pointer and a length. The pointer may be null if the length is 0. What a call reads and what it writes must
 * not overlap. Every other pointer points to one value, and is never null.
 *
 * docs/C.md says what is proved about these calls.
 *
 * SPDX-License-Identifier: MIT OR Apache-2.0 */
#ifndef AMQP_TYPES_H
#define AMQP_TYPES_H

#include <stddef.h>
#include <stdint.h>

/* The version of this library, which is independent of that of the Rust crate fe2o3-amqp-types. */
#define AMQP_TYPES_VERSION "0.1.0"

#ifdef __cplusplus
extern "C" {
#endif

/* The types, by the names that amqp_c_type knows. */
enum amqp_type {
    AMQP_TYPE_NONE = 0,
    AMQP_TYPE_ACCEPTED = 1,
    AMQP_TYPE_AMQP_SEQUENCE = 2,
    AMQP_TYPE_AMQP_VALUE = 3,
    AMQP_TYPE_ANNOTATIONS = 4,
    AMQP_TYPE_APPLICATION_PROPERTIES = 5,
    AMQP_TYPE_ATTACH = 6,
    AMQP_TYPE_BATCH_DATA = 7,
    AMQP_TYPE_BATCH_SEQUENCE = 8,
    AMQP_TYPE_BEGIN = 9,
    AMQP_TYPE_BODY = 10,
    AMQP_TYPE_BOOLEAN = 11,
    AMQP_TYPE_CLOSE = 12,
    AMQP_TYPE_COORDINATOR = 13,
    AMQP_TYPE_DATA = 14,
    AMQP_TYPE_DECLARE = 15,
    AMQP_TYPE_DECLARED = 16,
    AMQP_TYPE_DELETE_ON_CLOSE = 17,
    AMQP_TYPE_DELETE_ON_NO_LINKS = 18,
    AMQP_TYPE_DELETE_ON_NO_LINKS_OR_MESSAGES = 19,
    AMQP_TYPE_DELETE_ON_NO_MESSAGES = 20,
    AMQP_TYPE_DELIVERY_ANNOTATIONS = 21,
    AMQP_TYPE_DELIVERY_STATE = 22,
    AMQP_TYPE_DETACH = 23,
    AMQP_TYPE_DISCHARGE = 24,
    AMQP_TYPE_DISPOSITION = 25,
    AMQP_TYPE_END = 26,
    AMQP_TYPE_ERROR = 27,
    AMQP_TYPE_ERROR_CONDITION = 28,
    AMQP_TYPE_FLOW = 29,
    AMQP_TYPE_FOOTER = 30,
    AMQP_TYPE_HEADER = 31,
    AMQP_TYPE_LIFETIME_POLICY = 32,
    AMQP_TYPE_MESSAGE = 33,
    AMQP_TYPE_MESSAGE_ANNOTATIONS = 34,
    AMQP_TYPE_MESSAGE_BATCH = 35,
    AMQP_TYPE_MESSAGE_DATA = 36,
    AMQP_TYPE_MESSAGE_ID = 37,
    AMQP_TYPE_MESSAGE_VALUE = 38,
    AMQP_TYPE_MODIFIED = 39,
    AMQP_TYPE_OPEN = 40,
    AMQP_TYPE_OUTCOME = 41,
    AMQP_TYPE_PERFORMATIVE = 42,
    AMQP_TYPE_PROPERTIES = 43,
    AMQP_TYPE_RECEIVED = 44,
    AMQP_TYPE_REJECTED = 45,
    AMQP_TYPE_RELEASED = 46,
    AMQP_TYPE_SASL_CHALLENGE = 47,
    AMQP_TYPE_SASL_INIT = 48,
    AMQP_TYPE_SASL_MECHANISMS = 49,
    AMQP_TYPE_SASL_OUTCOME = 50,
    AMQP_TYPE_SASL_RESPONSE = 51,
    AMQP_TYPE_SIMPLE_VALUE = 52,
    AMQP_TYPE_SOURCE = 53,
    AMQP_TYPE_STRICT_MESSAGE = 54,
    AMQP_TYPE_STRICT_MESSAGE_BATCH = 55,
    AMQP_TYPE_STRICT_MESSAGE_DATA = 56,
    AMQP_TYPE_STRICT_MESSAGE_VALUE = 57,
    AMQP_TYPE_TARGET = 58,
    AMQP_TYPE_TARGET_ARCHETYPE = 59,
    AMQP_TYPE_TRANSACTIONAL_STATE = 60,
    AMQP_TYPE_TRANSFER = 61,
    AMQP_TYPE_VALUE = 62
};

/* The errors. docs/ERRORS.md explains each of 1 to 31. A slice doesn't fail, so no call returns AMQP_ERROR_READ. */
enum amqp_error {
    AMQP_ERROR_NONE = 0,
    AMQP_ERROR_CUT = 1,
    AMQP_ERROR_UNKNOWN_CODE = 2,
    AMQP_ERROR_FLOAT_CODE = 3,
    AMQP_ERROR_SIZE = 4,
    AMQP_ERROR_ODD_COUNT = 5,
    AMQP_ERROR_DUPLICATE_KEY = 6,
    AMQP_ERROR_SURPLUS = 7,
    AMQP_ERROR_MISSING = 8,
    AMQP_ERROR_WRONG_DESCRIPTOR = 9,
    AMQP_ERROR_DEPTH = 10,
    AMQP_ERROR_ZERO_WIDTH_ITEMS = 11,
    AMQP_ERROR_BAD_BOOL = 12,
    AMQP_ERROR_BAD_CHAR = 13,
    AMQP_ERROR_BAD_UTF8 = 14,
    AMQP_ERROR_NON_ASCII = 15,
    AMQP_ERROR_UNKNOWN_TEXT = 16,
    AMQP_ERROR_UNKNOWN_NUMBER = 17,
    AMQP_ERROR_EMPTY_MULTIPLE = 18,
    AMQP_ERROR_EMPTY_BODY = 19,
    AMQP_ERROR_NOT_SECTION = 20,
    AMQP_ERROR_MEMORY = 21,
    AMQP_ERROR_READ = 22,
    AMQP_ERROR_MIXED_ARRAY = 23,
    AMQP_ERROR_TOO_LARGE = 24,
    AMQP_ERROR_INVALID_VALUE = 25,
    AMQP_ERROR_LAZY_IN_ARRAY = 26,
    AMQP_ERROR_WRONG_TYPE = 27,
    AMQP_ERROR_BAD_DESCRIPTOR = 28,
    AMQP_ERROR_CUSTOM = 29,
    AMQP_ERROR_MISPLACED = 30,
    AMQP_ERROR_LIMIT = 31,
    AMQP_ERROR_NO_ROOM = 1000,  /* the text is longer than the room */
    AMQP_ERROR_NO_TYPE = 1001,  /* no type has the number */
    AMQP_ERROR_NO_LIMITS = 1002 /* the limits let values nest more than 128 deep */
};

/* What a call returns. */
struct amqp_outcome {
    uint32_t number; /* an amqp_error, 0 if there is none */
    uint32_t detail; /* the format code of AMQP_ERROR_UNKNOWN_CODE, _FLOAT_CODE or _WRONG_TYPE; the reason of AMQP_ERROR_CUSTOM, which no
                      * call returns; otherwise 0 */
    uint64_t at;     /* the place of the fault: how many bytes of the input are before what is at fault. It is 0 if no byte is at fault: at
                      * AMQP_ERROR_NONE, _MEMORY and _TOO_LARGE, and from 1000 on. amqp_c_next and amqp_c_field always return 0. */
};

/* Limits on what is read. The greatest number of bytes or of items, UINT64_MAX, sets no limit. */
struct amqp_limits {
    uint32_t nesting; /* how deep values may nest, up to 128: lists, maps and described values count, and an array counts if one of its
                       * items is no primitive */
    uint64_t bytes;   /* how many bytes are read at most */
    uint64_t items;   /* how many items are in them at most: each primitive, list, map and array is one; in an array, each item takes one
                       * more for each descriptor that it shares, and for each whole 32 bytes of that descriptor's name */
    uint64_t hash_seed; /* the seed by which the keys of hashed maps are hashed, which a peer must not know; 0 for none, and a faster hash */
};

/* Sets the limits to the greatest, under which everything is read that nests at most 128 deep, without a seed. */
void amqp_c_greatest(struct amqp_limits *limits);

/* Sets the limits to those for input from a peer, of which at most this many bytes are read. Values nest at most 128 deep, and there are at
 * most as many of them as bytes. The seed is 0: set one that the peer doesn't know. */
void amqp_c_for_peers(struct amqp_limits *limits, uint64_t bytes);

/* Returns the number of the type with this name, as "open" or "message-data", without a 0 at the end; or 0 if no type has it. */
uint32_t amqp_c_type(const uint8_t *name, size_t len);

/* Returns the number of the type whose values have the descriptor with this code, as AMQP_TYPE_OPEN for 0x10; or 0 if there is none. A sum of
 * types has none, nor has a message, since their values have several descriptors. */
uint32_t amqp_c_type_of_descriptor(uint64_t code);

/* Writes the standard's name of the field with this number, counted from 0, of the type, as "container-id", if there is room for it, without
 * a 0 at the end. Returns the length of the name, or 0 if the type has no such field. If the name is longer than the room, the room is
 * unchanged. */
size_t amqp_c_field_name(uint32_t type, size_t index, uint8_t *out, size_t room);

/* Reads the value of the type at the start of the input, within the limits. What follows it is ignored.
 * 0: *taken is how many bytes the value takes. The input begins with no value of the type that takes another number of bytes.
 * 1 to 31: the input begins with no such value, and the error reports a fault of it and the fault's place, which is at most len; or an
 * allocation failed (AMQP_ERROR_MEMORY).
 * AMQP_ERROR_NO_TYPE: no type has the number. AMQP_ERROR_NO_LIMITS: the limits let values nest more than 128 deep.
 * After any error *taken is unchanged. */
struct amqp_outcome amqp_c_read(uint32_t type, const uint8_t *in, size_t len, const struct amqp_limits *limits, size_t *taken);

/* Writes the canonical text of the value of the type at the start of the input, within the limits.
 * 0: the first *written bytes of the room are the text, and the others are unchanged. The value takes *taken bytes of the input.
 * AMQP_ERROR_NO_ROOM: *written is the text's length, which is greater than room. The room is unchanged, and *taken is as above.
 * Other errors: those of amqp_c_read, with their places, or AMQP_ERROR_TOO_LARGE if the value is too large to be written. Everything is
 * unchanged. */
struct amqp_outcome amqp_c_canonical(uint32_t type, const uint8_t *in, size_t len, const struct amqp_limits *limits,
                                     uint8_t *out, size_t room, size_t *written, size_t *taken);

/* Measures the term at the start of the input: one encoded value, of any type. It doesn't allocate.
 * 0: the first *taken bytes are the term. 1 to 31: no prefix of the input is a term that nests at most 128 deep, the error has the place of
 * the fault, and *taken is unchanged. */
struct amqp_outcome amqp_c_term_len(const uint8_t *in, size_t len, size_t *taken);

/* What begins at a node of a path. */
enum amqp_piece {
    AMQP_PIECE_VALUE = 1,               /* a value by itself: the whole value, or the one that a descriptor describes */
    AMQP_PIECE_DESCRIPTOR = 2,          /* a descriptor */
    AMQP_PIECE_ITEM = 3,                /* an item of a list or of a map, whose keys have even numbers, each before its value */
    AMQP_PIECE_ARRAY_CONTENT = 4,       /* the content of an array: the constructor that its items share, and their data */
    AMQP_PIECE_ELEMENT_CONSTRUCTOR = 5, /* the rest of that constructor: a further descriptor, or the format code */
    AMQP_PIECE_ELEMENT = 6,             /* the data of an item of an array */
    AMQP_PIECE_END = 7                  /* nothing: the place behind all items of a container */
};

/* The containers. */
enum amqp_container {
    AMQP_CONTAINER_NONE = 0,
    AMQP_CONTAINER_LIST = 1,
    AMQP_CONTAINER_MAP = 2,
    AMQP_CONTAINER_ARRAY = 3
};

/* A node of the path to a place: what begins there, and where. */
struct amqp_path_node {
    size_t at;          /* how many bytes of the input are before it */
    uint32_t piece;     /* an amqp_piece */
    uint32_t container; /* an amqp_container: the one that it is in, or whose end it is; none for a value by itself and for a descriptor */
    size_t count;       /* how many items the container announces; 0 for the rest of a constructor */
    size_t index;       /* the number of an item, counted from 0 */
    size_t descriptors; /* how many descriptors of a shared constructor are before its rest, or describe the data that begins here */
    uint32_t type;      /* for a value that a descriptor with the code of a type describes, the number of this type, as
                         * amqp_c_type_of_descriptor returns it. If this value is a list, its items have the number, too: they are the type's
                         * fields, with the names amqp_c_field_name(type, index, ..); and so has its end. Otherwise 0, as under a descriptor
                         * that is a symbol, or that the items of an array share */
    uint8_t code;       /* the format code that the items of an array share */
};

/* Writes the path to an offset of the encoded value at the start of the input: the nodes around the offset, from the outside in, as many as
 * there is room for. The first node is the value itself. Each further one is one step further in, and none begins behind the offset. Returns
 * how many nodes the path has, which may be more than room: at least 1, and at most one more than the offset. The rest of the room is
 * unchanged. For an outcome of amqp_c_read, amqp_c_canonical or amqp_c_term_len, pass its at.
 * The bytes at the offset and behind it need not be well formed. If those before it aren't, or nest more than 128 deep, or if the offset is
 * in an item of an array behind items that are arrays themselves, the path may end before the offset. For a value of several sections, pass
 * the bytes from the section on, and the offset in them. The call doesn't allocate. */
size_t amqp_c_path(const uint8_t *in, size_t len, size_t at, struct amqp_path_node *nodes, size_t room);

/* Writes the name of the error with this number, as "Cut", if there is room for it, without a 0 at the end. Returns the length of the name,
 * or 0 if no error has the number. If the name is longer than the room, the room is unchanged. */
size_t amqp_c_error_name(uint32_t number, uint8_t *out, size_t room);

/* The kinds of nodes. */
enum amqp_kind {
    AMQP_KIND_NONE = 0,
    AMQP_KIND_NULL = 1,
    AMQP_KIND_BOOL = 2,
    AMQP_KIND_UBYTE = 3,
    AMQP_KIND_USHORT = 4,
    AMQP_KIND_UINT = 5,
    AMQP_KIND_ULONG = 6,
    AMQP_KIND_BYTE = 7,
    AMQP_KIND_SHORT = 8,
    AMQP_KIND_INT = 9,
    AMQP_KIND_LONG = 10,
    AMQP_KIND_DECIMAL32 = 11,
    AMQP_KIND_DECIMAL64 = 12,
    AMQP_KIND_DECIMAL128 = 13,
    AMQP_KIND_CHAR = 14,
    AMQP_KIND_TIMESTAMP = 15,
    AMQP_KIND_UUID = 16,
    AMQP_KIND_BINARY = 17,
    AMQP_KIND_STRING = 18,
    AMQP_KIND_SYMBOL = 19,
    AMQP_KIND_DESCRIBED = 20,
    AMQP_KIND_LIST = 21,
    AMQP_KIND_MAP = 22,
    AMQP_KIND_ARRAY = 23
};

/* A value in a term. A described value is a node with two in it, its descriptor and its value. */
struct amqp_node {
    uint32_t kind;     /* an amqp_kind; AMQP_KIND_NONE for what is around a whole term */
    uint32_t depth;    /* how many nodes are around it */
    uint8_t code;      /* its format code, or 0 for a described value */
    uint8_t item_code; /* for an array with items, their format code; otherwise 0 */
    size_t count;      /* how many nodes are directly in it: items of a list or an array, keys and values of a map, 2 for a described value */
    size_t start;      /* where its content begins, after its constructor, size and count; an array's begins with the items' constructor */
    size_t end;        /* where it ends */
    size_t next;       /* where the next node begins: the first one in it, or otherwise the one after it */
};

/* Finds the node of a term that begins at an offset of the input. Pass the enclosing node in *node, or all zeros if there is none; the call
 * replaces it by the node at the offset. The items of an array have no constructor of their own, so they need the array as enclosing node.
 * A walk goes from node to node, and needs no tree. It begins with a node of zeros, at the offset where a whole term begins. The first node in a
 * node begins at the enclosing node's next, and each further one at the end of the one before it; walk.c shows how. The call doesn't allocate.
 * Each call reads the node to its end. So a walk reads a byte once for its own node and once for each node around it.
 * 0: *node is the node at the offset. Otherwise the enclosing node has no node there, and *node is unchanged. The error is AMQP_ERROR_CUT if
 * the offset isn't in the enclosing node; other errors are those of reading. Their at is 0. */
struct amqp_outcome amqp_c_next(const uint8_t *in, size_t len, size_t at, struct amqp_node *node);

/* Finds the field with this number, counted from 0, of the composite whose node this is. amqp_c_field_name has the names.
 * The call doesn't allocate. It reads the fields up to this one.
 * 0: *field is the field's node, or all zeros if the composite omits the field: the list is shorter, or the field is null.
 * AMQP_ERROR_WRONG_TYPE: the node isn't a described list; the detail is the format code of the node, or of what its descriptor describes.
 * Other errors are those of amqp_c_next. After any error *field is unchanged, and at is 0. */
struct amqp_outcome amqp_c_field(const uint8_t *in, size_t len, const struct amqp_node *composite, size_t index,
                                 struct amqp_node *field);

#ifdef __cplusplus
}
#endif

#endif
