/* The path codec and relative encodings of the Willow protocol, proved: docs/ABI.md.
 *
 * Header and archive go together: a program asks jakepuro_version_matches() once, before any other call.
 *
 * Every other function may be called with any content of what is lent to it. It answers JAKEPURO_OK or the number of a refusal:
 *
 *   JAKEPURO_END_OF_INPUT  reading: the next field needs a byte past the message's end
 *   JAKEPURO_THEIR_FAULT   reading: the bytes are no encoding against this reference
 *   JAKEPURO_OUTSIDE       writing, length: the value does not lie inside the reference
 *   JAKEPURO_NO_ROOM       writing: the encoding is longer than the lent buffer
 *   JAKEPURO_MALFORMED     a record handed in is not well formed, or a tag's width is not 2 to 8
 *
 * What is left behind:
 *   a refused write changes no byte of the buffer, an accepted one only the first *written bytes;
 *   a refused read changes no byte of the record that it would have filled;
 *   *written, *length and *consumed are 0 beside a refusal.
 *
 * Pointers are not null and what they lead to does not overlap, but for two that are both const. A length of 0 goes with any pointer that is
 * not null.
 *
 * Reading starts at message[start]; a start past the end counts as no bytes. canonic true is strict reading.
 */
#ifndef JAKEPURO_H
#define JAKEPURO_H

#include <stdbool.h>
#include <stddef.h>
#include <stdint.h>
#include <string.h>

#ifdef __cplusplus
extern "C" {
#endif

/* ---- Version: raised when a declared function or record moves. */

#define JAKEPURO_VERSION 1

/* The archive's version. */
uint32_t jakepuro_version(void);

/* 1 if the archive is of this header's version, else 0: then no other function may be called. */
static inline int jakepuro_version_matches(void)
{
    return jakepuro_version() == JAKEPURO_VERSION;
}

enum {
    JAKEPURO_OK = 0,
    JAKEPURO_END_OF_INPUT = 1,
    JAKEPURO_THEIR_FAULT = 2,
    JAKEPURO_OUTSIDE = 3,
    JAKEPURO_NO_ROOM = 4,
    JAKEPURO_MALFORMED = 5
};

enum {
    JAKEPURO_MAX_COMPONENT_LENGTH = 300,
    JAKEPURO_MAX_COMPONENT_COUNT = 20,
    JAKEPURO_MAX_PATH_LENGTH = 600,
    JAKEPURO_ID_LENGTH = 32
};

/* ---- Records. All are bytes, with no padding; numbers of more than one byte have the highest byte first. */

/* The bytes of the components one after the other; what is not used of bytes and lengths is zero. All zero is the empty path. */
typedef struct {
    uint8_t count;
    uint8_t lengths[JAKEPURO_MAX_COMPONENT_COUNT][2];
    uint8_t bytes[JAKEPURO_MAX_PATH_LENGTH];
} jakepuro_path;

/* From start on, before end. end_open is 0 or 1; beside 1 the end is zero. */
typedef struct {
    uint8_t start[8];
    uint8_t end_open;
    uint8_t end[8];
} jakepuro_time_range;

/* any is 0 or 1; beside 1 the id is zero. */
typedef struct {
    uint8_t any;
    uint8_t id[JAKEPURO_ID_LENGTH];
    jakepuro_path path;
    jakepuro_time_range times;
} jakepuro_area;

typedef struct {
    uint8_t namespace_id[JAKEPURO_ID_LENGTH];
    uint8_t subspace_id[JAKEPURO_ID_LENGTH];
    jakepuro_path path;
    uint8_t timestamp[8];
    uint8_t payload_length[8];
    uint8_t payload_digest[JAKEPURO_ID_LENGTH];
} jakepuro_entry;

/* Each end_open is 0 or 1; beside 1 that end is zero. */
typedef struct {
    uint8_t subspace_start[JAKEPURO_ID_LENGTH];
    uint8_t subspace_end_open;
    uint8_t subspace_end[JAKEPURO_ID_LENGTH];
    jakepuro_path path_start;
    uint8_t path_end_open;
    jakepuro_path path_end;
    jakepuro_time_range times;
} jakepuro_range3d;

enum {
    JAKEPURO_PATH_SIZE = 1 + 2 * JAKEPURO_MAX_COMPONENT_COUNT + JAKEPURO_MAX_PATH_LENGTH,
    JAKEPURO_TIME_RANGE_SIZE = 8 + 1 + 8,
    JAKEPURO_AREA_SIZE = 1 + JAKEPURO_ID_LENGTH + JAKEPURO_PATH_SIZE + JAKEPURO_TIME_RANGE_SIZE,
    JAKEPURO_ENTRY_SIZE = 3 * JAKEPURO_ID_LENGTH + JAKEPURO_PATH_SIZE + 8 + 8,
    JAKEPURO_RANGE3D_SIZE = 2 * JAKEPURO_ID_LENGTH + 1 + 2 * JAKEPURO_PATH_SIZE + 1 + JAKEPURO_TIME_RANGE_SIZE
};

/* Fails to compile where a compiler pads the records. */
typedef char jakepuro_path_size[sizeof(jakepuro_path) == JAKEPURO_PATH_SIZE ? 1 : -1];
typedef char jakepuro_area_size[sizeof(jakepuro_area) == JAKEPURO_AREA_SIZE ? 1 : -1];
typedef char jakepuro_entry_size[sizeof(jakepuro_entry) == JAKEPURO_ENTRY_SIZE ? 1 : -1];
typedef char jakepuro_range3d_size[sizeof(jakepuro_range3d) == JAKEPURO_RANGE3D_SIZE ? 1 : -1];

/* ---- Fields of records */

static inline void jakepuro_set_u64(uint8_t field[8], uint64_t value)
{
    for (int i = 7; i >= 0; i--) {
        field[i] = (uint8_t)value;
        value >>= 8;
    }
}

static inline uint64_t jakepuro_get_u64(const uint8_t field[8])
{
    uint64_t value = 0;
    for (int i = 0; i < 8; i++)
        value = value << 8 | field[i];
    return value;
}

static inline size_t jakepuro_path_component_length(const jakepuro_path *path, size_t i)
{
    return (size_t)path->lengths[i][0] << 8 | path->lengths[i][1];
}

/* One component more, on a well-formed path; false, and the path unchanged, where it does not fit. */
static inline bool jakepuro_path_append(jakepuro_path *path, const uint8_t *component, size_t length)
{
    size_t total = 0;
    for (size_t i = 0; i < path->count && i < JAKEPURO_MAX_COMPONENT_COUNT; i++)
        total += jakepuro_path_component_length(path, i);
    if (path->count >= JAKEPURO_MAX_COMPONENT_COUNT || length > JAKEPURO_MAX_COMPONENT_LENGTH
        || total > JAKEPURO_MAX_PATH_LENGTH || length > JAKEPURO_MAX_PATH_LENGTH - total)
        return false;
    if (length > 0)
        memcpy(path->bytes + total, component, length);
    path->lengths[path->count][0] = (uint8_t)(length >> 8);
    path->lengths[path->count][1] = (uint8_t)length;
    path->count++;
    return true;
}

/* ---- Compact numbers */

/* The bytes after a tag of width bits (2 to 8), and in *tag the tag; beside a refusal *tag is unchanged. */
uint8_t jakepuro_number_encode(uint8_t *buffer, size_t buffer_len, uint8_t width, uint64_t value, uint8_t *tag, size_t *written);
uint8_t jakepuro_number_len_of_encoding(uint8_t width, uint64_t value, size_t *length);
/* Beside a refusal *value is unchanged. */
uint8_t jakepuro_number_decode(const uint8_t *message, size_t message_len, size_t start, bool canonic, uint8_t width, uint8_t tag,
                               uint64_t *value, size_t *consumed);

/* A number with its tag in a byte of its own. */
uint8_t jakepuro_standalone_encode(uint8_t *buffer, size_t buffer_len, uint64_t value, size_t *written);
uint8_t jakepuro_standalone_len_of_encoding(uint64_t value, size_t *length);
uint8_t jakepuro_standalone_decode(const uint8_t *message, size_t message_len, size_t start, bool canonic, uint64_t *value,
                                   size_t *consumed);

/* ---- Paths: plain, against a path, as an extension of a path */

uint8_t jakepuro_path_encode(uint8_t *buffer, size_t buffer_len, const jakepuro_path *path, size_t *written);
uint8_t jakepuro_path_len_of_encoding(const jakepuro_path *path, size_t *length);
uint8_t jakepuro_path_decode(const uint8_t *message, size_t message_len, size_t start, bool canonic, jakepuro_path *path,
                             size_t *consumed);

uint8_t jakepuro_path_path_encode(uint8_t *buffer, size_t buffer_len, const jakepuro_path *path, const jakepuro_path *reference,
                                  size_t *written);
uint8_t jakepuro_path_path_len_of_encoding(const jakepuro_path *path, const jakepuro_path *reference, size_t *length);
uint8_t jakepuro_path_path_decode(const uint8_t *message, size_t message_len, size_t start, bool canonic, const jakepuro_path *reference,
                                  jakepuro_path *path, size_t *consumed);

uint8_t jakepuro_path_extends_encode(uint8_t *buffer, size_t buffer_len, const jakepuro_path *path, const jakepuro_path *extends,
                                     size_t *written);
uint8_t jakepuro_path_extends_len_of_encoding(const jakepuro_path *path, const jakepuro_path *extends, size_t *length);
uint8_t jakepuro_path_extends_decode(const uint8_t *message, size_t message_len, size_t start, bool canonic, const jakepuro_path *extends,
                                     jakepuro_path *path, size_t *consumed);

/* ---- Areas against an area */

uint8_t jakepuro_area_area_encode(uint8_t *buffer, size_t buffer_len, const jakepuro_area *area, const jakepuro_area *reference,
                                  size_t *written);
uint8_t jakepuro_area_area_len_of_encoding(const jakepuro_area *area, const jakepuro_area *reference, size_t *length);
uint8_t jakepuro_area_area_decode(const uint8_t *message, size_t message_len, size_t start, bool canonic, const jakepuro_area *reference,
                                  jakepuro_area *area, size_t *consumed);

/* ---- Entries against a namespace and an area */

uint8_t jakepuro_entry_area_encode(uint8_t *buffer, size_t buffer_len, const jakepuro_entry *entry,
                                   const uint8_t namespace_id[JAKEPURO_ID_LENGTH], const jakepuro_area *area, size_t *written);
uint8_t jakepuro_entry_area_len_of_encoding(const jakepuro_entry *entry, const uint8_t namespace_id[JAKEPURO_ID_LENGTH],
                                            const jakepuro_area *area, size_t *length);
uint8_t jakepuro_entry_area_decode(const uint8_t *message, size_t message_len, size_t start, bool canonic,
                                   const uint8_t namespace_id[JAKEPURO_ID_LENGTH], const jakepuro_area *area, jakepuro_entry *entry,
                                   size_t *consumed);

/* ---- Entries against an entry: lenient reading only */

uint8_t jakepuro_entry_entry_encode(uint8_t *buffer, size_t buffer_len, const jakepuro_entry *entry, const jakepuro_entry *reference,
                                    size_t *written);
uint8_t jakepuro_entry_entry_len_of_encoding(const jakepuro_entry *entry, const jakepuro_entry *reference, size_t *length);
uint8_t jakepuro_entry_entry_decode(const uint8_t *message, size_t message_len, size_t start, const jakepuro_entry *reference,
                                    jakepuro_entry *entry, size_t *consumed);

/* ---- 3d ranges against a 3d range: lenient reading only */

uint8_t jakepuro_range3d_range3d_encode(uint8_t *buffer, size_t buffer_len, const jakepuro_range3d *range,
                                        const jakepuro_range3d *reference, size_t *written);
uint8_t jakepuro_range3d_range3d_len_of_encoding(const jakepuro_range3d *range, const jakepuro_range3d *reference, size_t *length);
uint8_t jakepuro_range3d_range3d_decode(const uint8_t *message, size_t message_len, size_t start, const jakepuro_range3d *reference,
                                        jakepuro_range3d *range, size_t *consumed);

#ifdef __cplusplus
}
#endif

#endif
