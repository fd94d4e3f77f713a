/* Text, strings and key order of execution manifests, without the manifest reader: link libarchive_c.a (tools/staticlib
   archive_c). Every function is proved to answer as said here, for bytes of any content and length and any positions;
   none keeps a pointer, allocates, or reads outside the bytes that it is given. A pointer to no bytes must still not be
   null. */
#ifndef ARCHIVE_H
#define ARCHIVE_H

#include <stddef.h>
#include <stdint.h>

#ifdef __cplusplus
extern "C" {
#endif

/* Results of the comparisons. */
enum {
    ARCHIVE_LESS = 0,
    ARCHIVE_EQUAL = 1,
    ARCHIVE_GREATER = 2,
    ARCHIVE_LEFT_REFUSED = 3,
    ARCHIVE_RIGHT_REFUSED = 4
};

/* How many of the n bytes, from the first on, are UTF-8 as RFC 3629 defines it: n exactly if all are. */
size_t archive_valid_up_to(const uint8_t *bytes, size_t n);

/* The string that the bytes begin with: four bytes of length, the least first, then so many bytes of text.
   Result 0: answer[0] is where its text begins and answer[1] where it ends, counted from the first byte.
   Results 3 to 5, the number of the question that fails (3 bytes missing, 4 longer than limit, 5 bad text): answer[0] is
   the offset at which it does, base plus position but at most 2^64 - 1; answer[1] is 0. */
uint32_t archive_read_string(const uint8_t *bytes, size_t n, uint64_t base, size_t limit, uint64_t answer[2]);

/* The order of two byte strings by their first different byte, a beginning before what it begins; *agree is how many
   bytes are the same before that. Results 0 to 2. */
uint32_t archive_compare(const uint8_t *a, size_t n, const uint8_t *b, size_t m, uint64_t *agree);

/* The order of the block keys that start at position `at` of the left bytes and `from` of the right bytes: by tag, then
   by strings, each by its four length bytes as written and then its text.
   Results 0 to 2: answer[0] is how many bytes of the keys agree, answer[1] is 0.
   Results 3 and 4: there is no whole key on that side (the left one is read first); answer[0] is the number of the
   question that fails (3 bytes missing, 4 string too long, 5 bad text, 6 unknown tag), answer[1] its position. */
uint32_t archive_compare_block_keys(const uint8_t *left, size_t n, size_t at, const uint8_t *right, size_t m, size_t from,
                                    uint64_t answer[2]);

/* The same of connector keys: by owner, direction, then the four bytes of the port index. */
uint32_t archive_compare_connector_keys(const uint8_t *left, size_t n, size_t at, const uint8_t *right, size_t m,
                                        size_t from, uint64_t answer[2]);

#ifdef __cplusplus
}
#endif

#endif
