/*
 * Wilbroged for C and C++: QUARK's permutation and its inverse, whole or some of their steps, its digest, sealed records and the journal
 * check.
 *
 * Link crates/wilbroged/out/libwilbroged.a, which `rt lib --cpu x86-64` writes in crates/wilbroged; it is for Linux on x86-64, and of the C
 * library it needs memcpy, memmove and memset. The functions are those of crates/wilbroged, each proved to meet its contract there for every input; its
 * comment here puts the contract into words. docs/RULES.md explains the rules and every refusal.
 *
 * Answers (journal_refused_at apart). WILBROGED_ACCEPTED, or the number of the first refusal that holds, in the order that the function's
 * comment gives. A refused call writes nothing, so that its buffer, and the number that l_after points to, still hold what they held
 * before: look at the answer before you use them. A compiler that can warn about an ignored answer does. An accepted call writes what its
 * comment names, if anything, and nothing else.
 *
 * Step widths. How many steps of the permutation are taken together: 1 or 8, and 16 for S-QUARK alone. Every width gives the same bytes;
 * the widest is usually the fastest.
 *
 * Bits. Bit i of a state or a message is in byte i div 8, with weight 2 to the (7 - i mod 8): the highest bit of a byte is its first.
 *
 * Registers. The steps of the permutation P work on three: X is the first half of a state, Y the second, and L has ten bits of its own. L's
 * value is a number in which bit 0 has weight 512 and bit 9 weight 1.
 *
 * Slices. A slice of bytes is a pointer and a length, NAME and NAME_len, and needs no alignment. The pointer must be good for as many bytes
 * as the length says, and where that is 0 it may be any pointer, NULL too.
 *
 * Numbers. l_after points to one number. It must be good for a uint32_t and aligned for it in every call, a refused one too, so it is never
 * NULL.
 *
 * Overlap. What is written (through a pointer without const) must not overlap another argument of the same call, in any function; so
 * *l_after must not lie in the state.
 *
 * Threads. No function keeps a state of its own or allocates memory, so threads may call all of them at the same time, as long as no call
 * writes bytes that another call reads or writes.
 *
 * Stack. No function was seen to take more than 2 kilobytes.
 *
 * Not promised. Calls do not take constant time, and a key is not hidden from someone who can measure them.
 */
#ifndef WILBROGED_H
#define WILBROGED_H

#include <stddef.h>
#include <stdint.h>

/* The version of the project, of which this header and the archive are a part. */
#define WILBROGED_VERSION "0.4.0"

/*
 * U-QUARK, D-QUARK and S-QUARK: the number of the instance, the bytes of a state and of a digest, the widest step width, and the steps of
 * the permutation.
 */
#define WILBROGED_U 1
#define WILBROGED_U_BYTES 17
#define WILBROGED_U_WIDTH 8
#define WILBROGED_U_STEPS 544
#define WILBROGED_D 2
#define WILBROGED_D_BYTES 22
#define WILBROGED_D_WIDTH 8
#define WILBROGED_D_STEPS 704
#define WILBROGED_S 3
#define WILBROGED_S_BYTES 32
#define WILBROGED_S_WIDTH 16
#define WILBROGED_S_STEPS 1024

/* The value of the register L at the start of the permutation: all ones. It is the greatest. */
#define WILBROGED_L_ALL_ONES 1023

/* The lengths of a journal's parts. A record is a body and its seal; the longest journal has 1,600 records. */
#define WILBROGED_KEY_BYTES 16
#define WILBROGED_SEAL_BYTES 17
#define WILBROGED_BODY_BYTES 23
#define WILBROGED_RECORD_BYTES 40
#define WILBROGED_LONGEST_JOURNAL_BYTES 64000

/* The answer of a call that is accepted. */
#define WILBROGED_ACCEPTED 0

/* The refusals, by the numbers of docs/RULES.md. Numbers 2, 3, 8, 13, 14, 15, 17, 18 and 19 are never answered here. */

/* No instance has this number. */
#define WILBROGED_UNKNOWN_INSTANCE 1
/* The instance has no such step width. */
#define WILBROGED_UNKNOWN_WIDTH 4
/* A slice whose length is fixed has another length. */
#define WILBROGED_WRONG_LENGTH 5
/* There are fewer bits than the count says. */
#define WILBROGED_COUNT_OVER_BYTES 6
/* The message would have more than 16,777,215 bits. */
#define WILBROGED_TOTAL_OVER_LIMIT 7
/* The journal is not 0 to 1,600 whole records. */
#define WILBROGED_WRONG_JOURNAL_LENGTH 9
/* A field of the body has a value that the layout does not allow. */
#define WILBROGED_BROKEN_LAYOUT 10
/* The body does not continue the records before it. */
#define WILBROGED_NOT_FOLLOWING 11
/* The seal is not the one that the record must have. */
#define WILBROGED_DIFFERENT_SEAL 12
/* Every byte of the key is zero. */
#define WILBROGED_BLANK_KEY 16
/* L's start value is over 1,023, or the steps are more than P's or not whole groups of the step width. */
#define WILBROGED_STEPS_OUT_OF_RANGE 20

/* Stands before a function whose answer says whether the call was refused: a warning where the answer is ignored. */
#if (defined(__cplusplus) && __cplusplus >= 201703L) || (defined(__STDC_VERSION__) && __STDC_VERSION__ >= 202311L)
#define WILBROGED_NODISCARD [[nodiscard]]
#elif defined(__GNUC__)
#define WILBROGED_NODISCARD __attribute__((warn_unused_result))
#else
#define WILBROGED_NODISCARD
#endif

#ifdef __cplusplus
extern "C" {
#endif

/*
 * Overwrites a state with its permutation.
 * Refuses by 1, 4 and 5 (state_len is not the instance's), in this order.
 */
WILBROGED_NODISCARD
uint32_t quark_permute(uint32_t instance, uint32_t width, uint8_t *state, size_t state_len);

/*
 * Overwrites a state with the inverse of its permutation: it undoes quark_permute, whichever widths the two calls take.
 * Refuses by 1, 4 and 5 (state_len is not the instance's), in this order.
 */
WILBROGED_NODISCARD
uint32_t quark_invert(uint32_t instance, uint32_t width, uint8_t *state, size_t state_len);

/*
 * Overwrites a state with the one after count steps of the permutation, where L has the value l before them, and writes L's value after
 * them to *l_after. From WILBROGED_L_ALL_ONES, as many steps as the instance has (WILBROGED_U_STEPS and so on) are quark_permute. A further
 * call with the state and the value of L that this one leaves goes on where this one stopped: two calls do what one does with the sum of
 * both counts, where the instance has as many steps. Each count is tested by itself. A count of 0 and an l of 0 are lawful; from 0, L stays
 * 0.
 * Refuses by 1, 4, 20 (l is over 1,023, or count is over the instance's steps or no multiple of width) and 5 (state_len is not the
 * instance's), in this order. A refused call leaves *l_after alone.
 */
WILBROGED_NODISCARD
uint32_t quark_steps(uint32_t instance, uint32_t width, uint32_t l, uint32_t count, uint8_t *state, size_t state_len, uint32_t *l_after);

/*
 * Overwrites a state with the one from before count steps of the permutation. l is L's value before those steps, and not after them: this
 * undoes quark_steps with the same l and count, whichever widths the two calls take. It gives no value of L. With WILBROGED_L_ALL_ONES and
 * as many steps as the instance has it is quark_invert.
 * Refuses by 1, 4, 20 (l is over 1,023, or count is over the instance's steps or no multiple of width) and 5 (state_len is not the
 * instance's), in this order.
 */
WILBROGED_NODISCARD
uint32_t quark_steps_back(uint32_t instance, uint32_t width, uint32_t l, uint32_t count, uint8_t *state, size_t state_len);

/*
 * Writes the digest of the first bit_count bits of the message, and ignores what comes after them. bit_count counts bits and not bytes: it
 * is 8 * message_len for the whole message.
 * Refuses by 1, 4, 5 (digest_len is not the instance's), 6 (bit_count is over 8 * message_len) and 7, in this order.
 */
WILBROGED_NODISCARD
uint32_t quark_digest(uint32_t instance, uint32_t width, const uint8_t *message, size_t message_len, uint64_t bit_count,
                      uint8_t *digest, size_t digest_len);

/*
 * Seals a body: writes it to the record, and its seal after it. The previous seal is the last 17 bytes of the record before, zeros for a
 * first record. It is taken on trust, and so are the body's station, sequence and time: 10 reads kind, lamp position, milliseconds and
 * bytes 18-22 alone. journal_verify tests the rest.
 * Refuses by 5 (key_len is not 16, previous_len not 17, body_len not 23 or record_len not 40), 16 (every byte of the key is zero) and 10,
 * in this order.
 *
 * The body must not lie in the record's buffer: build it elsewhere. Nor may the key or the previous seal; the record just
 * before the buffer, which ends with the previous seal, does not overlap it.
 *
 * The body, numbers with the high byte first:
 *    0-3   station, any value; every record of a journal has the first one's
 *    4-7   sequence: 1 for the first record, then one more each
 *    8-11  time in seconds, any value; not below the previous record's, unless this record's kind is 5
 *   12     kind: 1 lit, 2 failed, 3 change, 4 test, 5 clock set (since 0.3.0; an older archive refuses it by 10)
 *   13     lamp position, 1 to 6
 *   14-15  current in milliamperes, any value
 *   16-17  milliseconds until lit, 0 unless the kind is 3
 *   18-22  zero
 */
WILBROGED_NODISCARD
uint32_t journal_seal(const uint8_t *key, size_t key_len, const uint8_t *previous, size_t previous_len, const uint8_t *body,
                      size_t body_len, uint8_t *record, size_t record_len);

/*
 * Checks a journal, 0 to 1,600 records one after the other: it is accepted where the key has a byte that is not zero, and every record
 * keeps the layout, follows the one before (the first has sequence 1) and has its seal. So in an accepted journal the time falls at a
 * record of kind 5 or not at all. A journal that was cut after a whole record is accepted too, and so is an empty one: compare
 * journal_len / 40 with the count of records that you expect. It writes nothing.
 * Refuses by 5 (key_len is not 16), 16 (every byte of the key is zero) and 9, in this order, then for each record in turn by 10, 11 and 12,
 * in this order.
 */
WILBROGED_NODISCARD
uint32_t journal_verify(const uint8_t *key, size_t key_len, const uint8_t *journal, size_t journal_len);

/*
 * The index of the record, counted from 0, at which journal_verify refuses the same arguments with 10, 11 or 12. It is 0 where
 * journal_verify refuses with another number, and where it accepts, so ask journal_verify first. It refuses nothing and writes nothing,
 * and takes as long as journal_verify.
 */
uint64_t journal_refused_at(const uint8_t *key, size_t key_len, const uint8_t *journal, size_t journal_len);

#ifdef __cplusplus
}
#endif

#endif
