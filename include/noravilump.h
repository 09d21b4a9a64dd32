/*
 * Noravilump: what is wrong with a record that carries a condition in time. docs/01-scope.md defines the record, the rules and the numbers.
 *
 * Link crates/noravilump/out/libnoravilump.a, which `rt lib` writes in crates/noravilump, into a program for x86-64 Linux. The library is proved: for all bytes each
 * function answers what the definitions say, reads nothing but the record, writes nothing but the lent entries, and returns. What is proved of a
 * function stands in its contract, in crates/noravilump/src/lib.rt.
 *
 * Who owns what: all memory is the caller's. The library allocates nothing, keeps no pointer and has no state, so that any number of threads may call it at
 * once. No call was measured to take more than 56 KiB of stack; no proof bounds it.
 *
 * Pointers: `record` must lead to `len` bytes that nobody changes during the call, and `entries` to `room` aligned entries of the caller's own. `len` is at most
 * PTRDIFF_MAX, and `room` at most PTRDIFF_MAX / 4, as for any array in C. None may be NULL, not even where its length is 0: the proofs speak of slices, and
 * a slice has an address. The data() of an empty std::vector may be NULL: where there is nothing to pass, pass the address of any byte with `len` 0, or of any
 * uint32_t with `room` 0. Nothing is read or written there.
 */
#ifndef NORAVILUMP_H
#define NORAVILUMP_H

#include <stddef.h>
#include <stdint.h>

#ifdef __cplusplus
extern "C" {
#endif

/* The largest record that can be accepted, in bytes: 2 of format, 128 names of 25, 512 nodes with 3,053 together, and 3 of the end. docs/DECISIONS.md counts the
 * nodes; no proof does. Longer bytes may be asked about, and are refused. */
#define NORAVILUMP_LARGEST_RECORD 6258

/* No list has more entries: a buffer of so many is never too short. Most lists have a handful. */
#define NORAVILUMP_MOST_ENTRIES 262272

/* In `name`, where an answer is about no name. */
#define NORAVILUMP_NO_NAME 255

/*
 * number    0         accepted; the arithmetic test's 'no'; the list was written
 *           1 to 13   the record is turned away
 *           20 to 32  a rule that is not met
 *           40        the arithmetic test's 'yes'
 *           50        the list has more entries than were lent
 * place     for 1 to 13 the offset of the record at fault, in bytes; for 20 to 32 the node's number; for 50 the entries needed; of a list that was
 *           written its length; otherwise 0
 * name      for 20 to 32 the number of the name that the rule is about, or 255 where there is none; otherwise 255
 */
typedef struct {
    uint32_t number;
    uint32_t place;
    uint32_t name;
} noravilump_answer;

/* A part of the record: `len` bytes from record[at] on. */
typedef struct {
    size_t at;
    size_t len;
} noravilump_stretch;

/* The first of rules 20 to 27 that is not met. The seed has a bit for each name that is in scope from outside: name 0 is the lowest bit of seed_low,
 * name 64 that of seed_high. Bits of numbers that the record has no name for have no effect. */
noravilump_answer noravilump_scoping(const uint8_t *record, size_t len, uint64_t seed_low, uint64_t seed_high);

/* The first name, in their order, that nothing binds: 28. */
noravilump_answer noravilump_closedness(const uint8_t *record, size_t len);

/* The first of rules 30 to 32 that is not met. */
noravilump_answer noravilump_demands(const uint8_t *record, size_t len);

/* Whether arithmetic is an operand of a comparison: 40 or 0. */
noravilump_answer noravilump_arithmetic(const uint8_t *record, size_t len);

/*
 * All that is not met: rules 20 to 27 with an empty seed, then 28, then 30 to 32. `room` is how many entries are lent. An entry is
 * rule * 16777216 + node * 256 + name, with 255 for no name.
 *
 * 0 with the count: so many first entries are written, and no other. 50 with the entries needed, or 1 to 13: nothing is written.
 * The record and the entries must not overlap.
 */
noravilump_answer noravilump_list(const uint8_t *record, size_t len, uint32_t *entries, size_t room);

/* Where the name of a number stands in the record, without its padding: 1 to 24 bytes, with no zero byte after them that one could count on. For a number
 * that the record has no name for, and for a record that is turned away, `at` and `len` are 0. */
noravilump_stretch noravilump_name(const uint8_t *record, size_t len, uint8_t number);

#ifdef __cplusplus
}
#endif

#endif
