/* Execution manifests, read, counted and compared: link libhandover_c.a (tools/staticlib handover_c).
   The functions are proved to answer as said here, for bytes of any content and length; they keep no pointer, allocate
   nothing, never change the bytes, and touch no memory outside what they are lent. A pointer to no bytes, or to an
   index of no words, must still not be null; an index, and answer, must not overlap anything else that is lent. */
#ifndef HANDOVER_H
#define HANDOVER_H

#include <stddef.h>
#include <stdint.h>

#ifdef __cplusplus
extern "C" {
#endif

/* The most bytes of a manifest, or of a manifest and its tail. */
#define HANDOVER_MOST_BYTES 67108864

/* The least words of the index for a manifest of n bytes. */
#define HANDOVER_INDEX_WORDS(n) ((n) / 2 + 16)

/* Judges one manifest. Offsets count from the manifest's first byte and begin at `base`; they stop at 2^64 - 1. The
   revision is the execution revision under which the manifest was written: question 31 is asked under 2 only.

   Result 0: the manifest is accepted. answer[0] to answer[11] are the starts of its twelve sections, counted from its
   first byte, answer[12] to answer[15] are 0; the index holds the twelve starts and then zeros.

   Result 1 to 32: the number of the first question that was answered no. answer[0] is the offset, the others are 0.
   After 2, an index with fewer words than above, the index is as it was lent; after any other it is all 0.
    1  more bytes than above (offset 0)          17  a connection not from a known output to a known input
    2  too short an index (offset 0)             18  the schedule holds not each block once
    3  bytes missing                             19  the connector order holds not each connector once
    4  a string too long                         20  drivers: their number, or a key that is not known
    5  bad text                                  21  slots are not those of the stateful blocks
    6  an unknown tag or Boolean byte            22  a slot's length is not its block's
    7  a count above what is left                23  a slot ends at 2^64 or above
    8  members of a class are not different      24  slots do not start at 0 and join
    9  a key not above the one before            25  an external input is not a known input, or is there twice
   10  bytes left over                           26  a boundary output's source, or a name that is there twice
   11  a class without members                   27  an external path with two types
   12  a block's kind, revision and length       28  definitions are not those of the external paths
   13  an enum parameter's class or ordinal      29  a bound of another type, Boolean or String
   14  a block's ports                           30  a bound's ordinal out of range
   15  ports are not the connectors              31  the target's tag and the blocks' classes disagree
   16  classes are not those that are named      32  an empty target string */
uint32_t handover_decode_manifest(const uint8_t *bytes, size_t n, uint64_t base, uint32_t revision, uint32_t *index,
                                  size_t words, uint64_t answer[16]);

/* Judges one manifest and its tail, which is what follows it in a snapshot: connector values, state words and flags.
   The manifest is judged first, as by handover_decode_manifest. Base, revision and index are those of the manifest, and
   so is the least number of the index's words; offsets in the tail count on from the manifest's end.

   Result 0: both are accepted. answer and index are as after acceptance above.

   Result 1 to 38: the number of the first question that was answered no; answer and index are as after a refusal above.
   1 is for both lengths together. 2 to 32 are of the manifest, but 3 to 7, 9 and 10 are asked in the tail as well, and
   33  not as many values as connectors         36  an enum value's ordinal out of range
   34  a value for an unknown connector         37  not as many words as the slots have
   35  a value of another type than its         38  flags that are not 0
       connector's */
uint32_t handover_decode_tail(const uint8_t *manifest, size_t manifest_n, const uint8_t *tail, size_t tail_n,
                              uint64_t base, uint32_t revision, uint32_t *index, size_t words, uint64_t answer[16]);

/* Counts the units of one manifest: four for each of its state words, and one for each connector. Bytes, base, revision
   and index are those of handover_decode_manifest.

   Result 0: the manifest is accepted. answer[0] is the number of its state words, which is its largest slot end,
   answer[1] is its units, the others are 0; the index is as after acceptance above.

   Result 1 to 32: refused, for the question of that number. answer and index are as after that refusal above.

   Result 39: handover_decode_manifest accepts it, but its units are above 2^64 - 1. answer and index are all 0. */
uint32_t handover_units(const uint8_t *bytes, size_t n, uint64_t base, uint32_t revision, uint32_t *index, size_t words,
                        uint64_t answer[16]);

/* Compares a snapshot's manifest with the target's, each with its own base, revision and index. The snapshot's is
   judged first, as by handover_decode_manifest, then the target's.

   Result 0: both are accepted, and either index is as after acceptance above. answer[0] is 0 where the manifests are
   compatible: all twelve sections hold the same entries in the same order, equal in every field as read; Reals are
   compared by their eight bytes. Else answer[0] is the first section that differs: 1 portability, 2 enum classes,
   3 blocks, 4 connectors, 5 connections, 6 schedule, 7 connector order, 8 drivers, 9 slots, 10 external inputs,
   11 boundary outputs, 12 input definitions. answer[1] is the part in which it first differs:
    0  the whole entry (sections 2, 4 and 12), or the whole section (1 and 5 to 11)
    1  a block's key                  6  a parameter's name               10  the number of inputs
    2  its class                      7  a parameter's value              11  an output
    3  its kind                       8  the number of parameters         12  the number of outputs
    4  its revision                   9  an input                         13  the number of entries (sections 2, 3,
    5  its state length                                                       4 and 12)
   answer[2] is the place of the entry, answer[3] the place of the parameter or port within it. Places count from 0; the
   place of a number of entries, parameters or ports is the smaller number; where a part has no place it is 0. The
   others are 0.

   Result 1 to 32: one of the two is refused, for the question of that number. answer[0] is the offset, answer[1] is 0
   for the snapshot's manifest and 1 for the target's, the others are 0; its index is as after that refusal above. After
   a refusal of the snapshot's the target's index is as it was lent; after one of the target's the snapshot's index is
   as after acceptance. */
uint32_t handover_compare_manifests(const uint8_t *snapshot, size_t snapshot_n, uint64_t snapshot_base,
                                    uint32_t snapshot_revision, uint32_t *snapshot_index, size_t snapshot_words,
                                    const uint8_t *target, size_t target_n, uint64_t target_base,
                                    uint32_t target_revision, uint32_t *target_index, size_t target_words,
                                    uint64_t answer[16]);

#ifdef __cplusplus
}
#endif

#endif
