/*
 * A host in C, as the supplier's would be: it knows the header and links the archive. It checks permutation, inverse, digest and journal
 * against values typed from the paper's Appendix B (document 001) and against the sample journal, whose path is its argument, and steps of
 * the permutation against values typed from crates/clocks/stdout. The last line is 'N passed, M failed'; the exit status is 0 only where M
 * is 0 and N is not.
 *
 * It is C99 and C++17 at once; hosts/c/test builds and runs it as both.
 */
#include "wilbroged.h"

#include <stdio.h>
#include <string.h>

static unsigned passed;
static unsigned failed;

static void count(int holds, int line, const char *what) {
    if (holds) {
        passed++;
    } else {
        failed++;
        fprintf(stderr, "check.c:%d: failed: %s\n", line, what);
    }
}

#define CHECK(what) count((what), __LINE__, #what)

/* Whether all bytes of a buffer have one value. */
static int all(const uint8_t *bytes, size_t length, uint8_t value) {
    size_t i;
    for (i = 0; i < length; i++) {
        if (bytes[i] != value) {
            return 0;
        }
    }
    return 1;
}

/* What stands in a buffer before a call. */
#define BEFORE 0xA5

/* The longest digest, and one byte more. */
#define ROOM (WILBROGED_S_BYTES + 1)

/*
 * Appendix B: two states, one permutation apart, and the digest of the empty message. Between the two: the state after 16 steps, and L's
 * value after all of them.
 */
struct instance {
    uint32_t number;
    size_t bytes;
    uint32_t widths[3];
    size_t width_count;
    uint32_t steps;
    uint32_t l_at_end;
    uint8_t state[WILBROGED_S_BYTES];
    uint8_t at_16[WILBROGED_S_BYTES];
    uint8_t permuted[WILBROGED_S_BYTES];
    uint8_t empty_digest[WILBROGED_S_BYTES];
};

static const struct instance instances[3] = {
    {WILBROGED_U, WILBROGED_U_BYTES, {1, WILBROGED_U_WIDTH, 0}, 2, WILBROGED_U_STEPS, 0x2B7,
     {0xD8, 0xDA, 0xCA, 0x44, 0x41, 0x4A, 0x09, 0x97, 0x19, 0xC8, 0x0A, 0xA3, 0xAF, 0x06, 0x56, 0x44, 0x5B},
     {0xCA, 0x44, 0x41, 0x4A, 0x09, 0x97, 0x13, 0x4F, 0xCA, 0xA3, 0xAF, 0x06, 0x56, 0x44, 0x5B, 0x11, 0x3C},
     {0x9A, 0x03, 0xA9, 0xDE, 0xFB, 0xB9, 0xED, 0x38, 0x67, 0xDA, 0xB1, 0x8E, 0xC0, 0x39, 0x27, 0x62, 0x12},
     {0x12, 0x6B, 0x75, 0xBC, 0xAB, 0x23, 0x14, 0x47, 0x50, 0xD0, 0x8B, 0xA3, 0x13, 0xBB, 0xD8, 0x00, 0xA4}},
    {WILBROGED_D, WILBROGED_D_BYTES, {1, WILBROGED_D_WIDTH, 0}, 2, WILBROGED_D_STEPS, 0x232,
     {0xCC, 0x6C, 0x4A, 0xB7, 0xD1, 0x1F, 0xA9, 0xBD, 0xF6, 0xEE, 0xDE, 0x03, 0xD8, 0x7B, 0x68, 0xF9, 0x1B, 0xAA, 0x70, 0x6C, 0xA0, 0xE9},
     {0x4A, 0xB7, 0xD1, 0x1F, 0xA9, 0xBD, 0xF6, 0xEE, 0xDE, 0x32, 0x9C, 0x7B, 0x68, 0xF9, 0x1B, 0xAA, 0x70, 0x6C, 0xA0, 0xE9, 0x83, 0x73},
     {0xE1, 0xAF, 0xDD, 0xED, 0x75, 0xF7, 0x2D, 0x33, 0xAE, 0x3F, 0x60, 0xD3, 0xA1, 0xA9, 0xE9, 0xFA, 0x75, 0x9A, 0xC6, 0xF0, 0x82, 0xC7},
     {0x82, 0xC7, 0xF3, 0x80, 0xE2, 0x31, 0x57, 0x8E, 0x2F, 0xF4, 0xC2, 0xA4, 0x02, 0xE1, 0x8B, 0xF3, 0x7A, 0xEA, 0x84, 0x77, 0x29, 0x8D}},
    {WILBROGED_S, WILBROGED_S_BYTES, {1, 8, WILBROGED_S_WIDTH}, 3, WILBROGED_S_STEPS, 0x3FE,
     {0x39, 0x72, 0x51, 0xCE, 0xE1, 0xDE, 0x8A, 0xA7, 0x3E, 0xA2, 0x62, 0x50, 0xC6, 0xD7, 0xBE, 0x12,
      0x8C, 0xD3, 0xE7, 0x9D, 0xD7, 0x18, 0xC2, 0x4B, 0x8A, 0x19, 0xD0, 0x9C, 0xA4, 0x92, 0xDA, 0x5D},
     {0x51, 0xCE, 0xE1, 0xDE, 0x8A, 0xA7, 0x3E, 0xA2, 0x62, 0x50, 0xC6, 0xD7, 0xBE, 0x12, 0xC5, 0xD1,
      0xE7, 0x9D, 0xD7, 0x18, 0xC2, 0x4B, 0x8A, 0x19, 0xD0, 0x9C, 0xA4, 0x92, 0xDA, 0x5D, 0x50, 0xF5},
     {0x3D, 0x63, 0xF5, 0x41, 0x00, 0xA7, 0xBC, 0x51, 0x35, 0x69, 0x2F, 0x3B, 0xDE, 0x15, 0x63, 0xF7,
      0x99, 0x8A, 0x69, 0x65, 0xFE, 0x6D, 0x26, 0xAB, 0x40, 0x26, 0x2D, 0x20, 0x03, 0x25, 0x62, 0x14},
     {0x03, 0x25, 0x62, 0x14, 0xB9, 0x2E, 0x81, 0x1C, 0x32, 0x1A, 0xE8, 0x6B, 0xAB, 0x4B, 0x0E, 0x7A,
      0xE9, 0xC2, 0x2C, 0x42, 0x88, 0x2F, 0xCC, 0xDE, 0x8C, 0x22, 0xBF, 0xF6, 0xA0, 0xA1, 0xD6, 0xF1}},
};

static void permutations(void) {
    size_t i, w;
    for (i = 0; i < 3; i++) {
        const struct instance *in = &instances[i];
        for (w = 0; w < in->width_count; w++) {
            uint8_t state[ROOM];
            memset(state, BEFORE, ROOM);
            memcpy(state, in->state, in->bytes);
            CHECK(quark_permute(in->number, in->widths[w], state, in->bytes) == WILBROGED_ACCEPTED);
            CHECK(memcmp(state, in->permuted, in->bytes) == 0);
            CHECK(quark_invert(in->number, in->widths[w], state, in->bytes) == WILBROGED_ACCEPTED);
            CHECK(memcmp(state, in->state, in->bytes) == 0);
            CHECK(all(state + in->bytes, ROOM - in->bytes, BEFORE));
        }
    }
}

/* Refusals of permutation and inverse: the number of both, or 99 where they differ or a byte was written. */
static uint32_t buffer_refusal(uint32_t instance, uint32_t width, size_t length) {
    uint8_t state[ROOM];
    uint32_t forward, back;
    memset(state, BEFORE, ROOM);
    forward = quark_permute(instance, width, state, length);
    back = quark_invert(instance, width, state, length);
    return forward == back && all(state, ROOM, BEFORE) ? forward : 99;
}

static void permutation_refusals(void) {
    CHECK(buffer_refusal(0, 2, 16) == WILBROGED_UNKNOWN_INSTANCE);
    CHECK(buffer_refusal(257, 8, 17) == WILBROGED_UNKNOWN_INSTANCE);
    CHECK(buffer_refusal(1, 16, 16) == WILBROGED_UNKNOWN_WIDTH);
    CHECK(buffer_refusal(3, 264, 32) == WILBROGED_UNKNOWN_WIDTH);
    CHECK(buffer_refusal(2, 8, 17) == WILBROGED_WRONG_LENGTH);
    CHECK(buffer_refusal(3, 16, 33) == WILBROGED_WRONG_LENGTH);
    CHECK(quark_permute(1, 8, NULL, 0) == WILBROGED_WRONG_LENGTH);
    CHECK(quark_invert(1, 8, NULL, 0) == WILBROGED_WRONG_LENGTH);
}

/* L's value after 16 steps from all ones: its bits are 0111000011. */
#define L_AT_16 0x1C3

/* What stands in the number of L's value before a call. */
#define L_BEFORE 0xA5A5A5A5

/* Whether steps from one state lead to another and to a value of L, and are undone; nothing beside the state and L's value is written. */
static int stepped(const struct instance *in, uint32_t width, uint32_t l, uint32_t steps, const uint8_t *start, const uint8_t *end,
                   uint32_t l_after) {
    uint8_t state[ROOM];
    uint32_t found[3] = {L_BEFORE, L_BEFORE, L_BEFORE};
    memset(state, BEFORE, ROOM);
    memcpy(state, start, in->bytes);
    return quark_steps(in->number, width, l, steps, state, in->bytes, &found[1]) == WILBROGED_ACCEPTED
        && memcmp(state, end, in->bytes) == 0 && found[1] == l_after && found[0] == L_BEFORE && found[2] == L_BEFORE
        && quark_steps_back(in->number, width, l, steps, state, in->bytes) == WILBROGED_ACCEPTED
        && memcmp(state, start, in->bytes) == 0 && all(state + in->bytes, ROOM - in->bytes, BEFORE);
}

static void steps_at_each_width(void) {
    size_t i, w;
    for (i = 0; i < 3; i++) {
        const struct instance *in = &instances[i];
        for (w = 0; w < in->width_count; w++) {
            const uint32_t width = in->widths[w];
            CHECK(stepped(in, width, WILBROGED_L_ALL_ONES, 16, in->state, in->at_16, L_AT_16));
            CHECK(stepped(in, width, WILBROGED_L_ALL_ONES, in->steps, in->state, in->permuted, in->l_at_end));
            /* going on after 16 steps */
            CHECK(stepped(in, width, L_AT_16, in->steps - 16, in->at_16, in->permuted, in->l_at_end));
            /* no steps, and L of zeros */
            CHECK(stepped(in, width, L_AT_16, 0, in->state, in->state, L_AT_16));
            CHECK(stepped(in, width, 0, 0, in->state, in->state, 0));
        }
    }
}

/* One step of a state of zeros: bit 0 of L, with weight 512, becomes the last bit of X and of Y, and bit 9 has no part yet. */
static void one_step_of_zeros(void) {
    size_t i;
    for (i = 0; i < 3; i++) {
        const struct instance *in = &instances[i];
        const size_t last_of_x = 4 * in->bytes - 1;
        uint8_t before[WILBROGED_S_BYTES] = {0}, after[WILBROGED_S_BYTES] = {0};
        CHECK(stepped(in, 1, 1, 1, before, after, 2));
        after[last_of_x / 8] = (uint8_t)(0x80 >> last_of_x % 8);
        after[in->bytes - 1] = 1;
        CHECK(stepped(in, 1, 512, 1, before, after, 1));
        CHECK(stepped(in, 1, WILBROGED_L_ALL_ONES, 1, before, after, 1022));
    }
}

/* Refusals of steps and of their undoing: the number of both, or 99 where they differ or something was written. */
static uint32_t steps_refusal(uint32_t instance, uint32_t width, uint32_t l, uint32_t steps, size_t length) {
    uint8_t state[ROOM];
    uint32_t forward, back, l_after = L_BEFORE;
    memset(state, BEFORE, ROOM);
    forward = quark_steps(instance, width, l, steps, state, length, &l_after);
    back = quark_steps_back(instance, width, l, steps, state, length);
    return forward == back && all(state, ROOM, BEFORE) && l_after == L_BEFORE ? forward : 99;
}

static void steps_refusals(void) {
    uint32_t l_after = L_BEFORE;
    size_t i;
    CHECK(steps_refusal(0, 8, 1023, 16, 17) == WILBROGED_UNKNOWN_INSTANCE);
    CHECK(steps_refusal(4, 8, 1023, 16, 17) == WILBROGED_UNKNOWN_INSTANCE);
    CHECK(steps_refusal(257, 8, 1023, 16, 17) == WILBROGED_UNKNOWN_INSTANCE);
    for (i = 0; i < 3; i++) {
        const uint32_t number = instances[i].number, steps = instances[i].steps;
        const size_t bytes = instances[i].bytes;
        CHECK(steps_refusal(number, 0, 1023, 16, bytes) == WILBROGED_UNKNOWN_WIDTH);
        CHECK(steps_refusal(number, 0, 1023, 0, bytes) == WILBROGED_UNKNOWN_WIDTH);
        CHECK(steps_refusal(number, 264, 1023, 264, bytes) == WILBROGED_UNKNOWN_WIDTH);
        CHECK(steps_refusal(number, 8, 1024, 16, bytes) == WILBROGED_STEPS_OUT_OF_RANGE);
        CHECK(steps_refusal(number, 8, 1024, 0, bytes) == WILBROGED_STEPS_OUT_OF_RANGE);
        CHECK(steps_refusal(number, 8, UINT32_MAX, 16, bytes) == WILBROGED_STEPS_OUT_OF_RANGE);
        CHECK(steps_refusal(number, 1, 1023, steps + 1, bytes) == WILBROGED_STEPS_OUT_OF_RANGE);
        CHECK(steps_refusal(number, 8, 1023, steps + 8, bytes) == WILBROGED_STEPS_OUT_OF_RANGE);
        CHECK(steps_refusal(number, 8, 1023, UINT32_MAX - 7, bytes) == WILBROGED_STEPS_OUT_OF_RANGE);
        CHECK(steps_refusal(number, 8, 1023, 7, bytes) == WILBROGED_STEPS_OUT_OF_RANGE);
        CHECK(steps_refusal(number, 8, 1023, steps - 4, bytes) == WILBROGED_STEPS_OUT_OF_RANGE);
        CHECK(steps_refusal(number, 8, 1023, 16, 0) == WILBROGED_WRONG_LENGTH);
        CHECK(steps_refusal(number, 8, 1023, 16, bytes - 1) == WILBROGED_WRONG_LENGTH);
        CHECK(steps_refusal(number, 8, 1023, 16, bytes + 1) == WILBROGED_WRONG_LENGTH);
        CHECK(steps_refusal(number, 8, 0, 0, bytes - 1) == WILBROGED_WRONG_LENGTH);
        CHECK(steps_refusal(number, 1, 1023, steps, bytes + 1) == WILBROGED_WRONG_LENGTH);
        /* where several hold, the first of 1, 4, 20, 5 */
        CHECK(steps_refusal(0, 0, 1024, steps + 1, bytes - 1) == WILBROGED_UNKNOWN_INSTANCE);
        CHECK(steps_refusal(number, 0, 1024, steps + 1, bytes - 1) == WILBROGED_UNKNOWN_WIDTH);
        CHECK(steps_refusal(number, 8, 1024, 16, bytes - 1) == WILBROGED_STEPS_OUT_OF_RANGE);
        CHECK(steps_refusal(number, 8, 1023, steps + 8, bytes - 1) == WILBROGED_STEPS_OUT_OF_RANGE);
        CHECK(steps_refusal(number, 8, 1023, 7, bytes - 1) == WILBROGED_STEPS_OUT_OF_RANGE);
    }
    CHECK(steps_refusal(1, 16, 1023, 16, 17) == WILBROGED_UNKNOWN_WIDTH);
    CHECK(steps_refusal(2, 16, 1023, 16, 22) == WILBROGED_UNKNOWN_WIDTH);
    CHECK(steps_refusal(3, 16, 1023, 8, 32) == WILBROGED_STEPS_OUT_OF_RANGE);
    CHECK(quark_steps(1, 8, 1023, 16, NULL, 0, &l_after) == WILBROGED_WRONG_LENGTH && l_after == L_BEFORE);
    CHECK(quark_steps_back(1, 8, 1023, 16, NULL, 0) == WILBROGED_WRONG_LENGTH);
}

static void empty_digests(void) {
    size_t i, w;
    for (i = 0; i < 3; i++) {
        const struct instance *in = &instances[i];
        for (w = 0; w < in->width_count; w++) {
            uint8_t digest[ROOM];
            memset(digest, BEFORE, ROOM);
            CHECK(quark_digest(in->number, in->widths[w], NULL, 0, 0, digest, in->bytes) == WILBROGED_ACCEPTED);
            CHECK(memcmp(digest, in->empty_digest, in->bytes) == 0);
            CHECK(all(digest + in->bytes, ROOM - in->bytes, BEFORE));
            /* a message of which no bit is taken is the empty one */
            memset(digest, BEFORE, ROOM);
            CHECK(quark_digest(in->number, in->widths[w], in->state, in->bytes, 0, digest, in->bytes) == WILBROGED_ACCEPTED);
            CHECK(memcmp(digest, in->empty_digest, in->bytes) == 0);
        }
    }
}

/* One bit more than a total may have. */
#define OVER_LIMIT 16777216

static uint8_t long_message[OVER_LIMIT / 8];

/* The refusal's number, or 99 where a byte of the digest's buffer was written. */
static uint32_t digest_refusal(uint32_t instance, uint32_t width, size_t message_len, uint64_t bit_count, size_t digest_len) {
    uint8_t digest[ROOM];
    uint32_t number;
    memset(digest, BEFORE, ROOM);
    number = quark_digest(instance, width, long_message, message_len, bit_count, digest, digest_len);
    return all(digest, ROOM, BEFORE) ? number : 99;
}

static void digest_refusals(void) {
    const size_t length = sizeof long_message;
    size_t i;
    CHECK(digest_refusal(0, 8, 2, 16, 17) == WILBROGED_UNKNOWN_INSTANCE);
    CHECK(digest_refusal(4, 8, 2, 16, 17) == WILBROGED_UNKNOWN_INSTANCE);
    CHECK(digest_refusal(257, 8, 2, 16, 17) == WILBROGED_UNKNOWN_INSTANCE);
    for (i = 0; i < 3; i++) {
        const uint32_t number = instances[i].number;
        const size_t bytes = instances[i].bytes;
        CHECK(digest_refusal(number, 0, 2, 16, bytes) == WILBROGED_UNKNOWN_WIDTH);
        CHECK(digest_refusal(number, 264, 2, 16, bytes) == WILBROGED_UNKNOWN_WIDTH);
        CHECK(digest_refusal(number, 8, 2, 16, 0) == WILBROGED_WRONG_LENGTH);
        CHECK(digest_refusal(number, 8, 2, 16, bytes - 1) == WILBROGED_WRONG_LENGTH);
        CHECK(digest_refusal(number, 8, 2, 16, bytes + 1) == WILBROGED_WRONG_LENGTH);
        CHECK(digest_refusal(number, 8, 0, 1, bytes) == WILBROGED_COUNT_OVER_BYTES);
        CHECK(digest_refusal(number, 8, 2, 17, bytes) == WILBROGED_COUNT_OVER_BYTES);
        CHECK(digest_refusal(number, 8, 2, UINT64_MAX, bytes) == WILBROGED_COUNT_OVER_BYTES);
        CHECK(digest_refusal(number, 8, length, OVER_LIMIT, bytes) == WILBROGED_TOTAL_OVER_LIMIT);
        /* where several hold, the first of 1, 4, 5, 6, 7 */
        CHECK(digest_refusal(0, 2, length, OVER_LIMIT + 1, bytes - 1) == WILBROGED_UNKNOWN_INSTANCE);
        CHECK(digest_refusal(number, 2, length, OVER_LIMIT + 1, bytes - 1) == WILBROGED_UNKNOWN_WIDTH);
        CHECK(digest_refusal(number, 8, length, OVER_LIMIT + 1, bytes - 1) == WILBROGED_WRONG_LENGTH);
        CHECK(digest_refusal(number, 8, length, OVER_LIMIT + 1, bytes) == WILBROGED_COUNT_OVER_BYTES);
    }
    CHECK(digest_refusal(1, 16, 2, 16, 17) == WILBROGED_UNKNOWN_WIDTH);
    CHECK(digest_refusal(2, 16, 2, 16, 22) == WILBROGED_UNKNOWN_WIDTH);
}

/* Short names for the lengths. */
#define KEY WILBROGED_KEY_BYTES
#define SEAL WILBROGED_SEAL_BYTES
#define BODY WILBROGED_BODY_BYTES
#define RECORD WILBROGED_RECORD_BYTES
#define LONGEST WILBROGED_LONGEST_JOURNAL_BYTES

/* The sample: a key, and a journal of five records. */
#define RECORDS 5
#define JOURNAL (RECORDS * RECORD)

/* The previous seal of a first record; a blank key, and one byte more. */
static const uint8_t zeros[SEAL] = {0};

/* Whether the sample with one byte changed is refused by a number, at a record. */
static int damaged(const uint8_t *sample, size_t record, size_t byte, uint32_t number) {
    uint8_t journal[JOURNAL];
    memcpy(journal, sample + KEY, JOURNAL);
    journal[RECORD * record + byte] ^= 0x80;
    return journal_verify(sample, KEY, journal, JOURNAL) == number && journal_refused_at(sample, KEY, journal, JOURNAL) == record;
}

/* Whether sealing a body of the sample again, with the seal before it, gives the record's 40 bytes. */
static int sealed_again(const uint8_t *sample, size_t index) {
    const uint8_t *whole = sample + KEY + RECORD * index;
    uint8_t record[RECORD + 1];
    memset(record, BEFORE, sizeof record);
    return journal_seal(sample, KEY, index == 0 ? zeros : whole - SEAL, SEAL, whole, BODY, record, RECORD) == WILBROGED_ACCEPTED
        && memcmp(record, whole, RECORD) == 0 && record[RECORD] == BEFORE;
}

/* Sealing the sample's second body under a key: the refusal's number, or 99 where a byte of the record was written. */
static uint32_t seal_refusal(const uint8_t *sample, const uint8_t *key, size_t key_len, size_t previous_len, size_t body_len,
                             size_t record_len) {
    uint8_t record[RECORD + 1];
    uint32_t number;
    memset(record, BEFORE, sizeof record);
    number = journal_seal(key, key_len, sample + KEY + BODY, previous_len, sample + KEY + RECORD, body_len, record, record_len);
    return all(record, sizeof record, BEFORE) ? number : 99;
}

/* Each of the four lengths of sealing, a byte shorter and a byte longer. */
static void seal_lengths(const uint8_t *sample, const uint8_t *key) {
    CHECK(seal_refusal(sample, key, KEY - 1, SEAL, BODY, RECORD) == WILBROGED_WRONG_LENGTH);
    CHECK(seal_refusal(sample, key, KEY + 1, SEAL, BODY, RECORD) == WILBROGED_WRONG_LENGTH);
    CHECK(seal_refusal(sample, key, KEY, SEAL - 1, BODY, RECORD) == WILBROGED_WRONG_LENGTH);
    CHECK(seal_refusal(sample, key, KEY, SEAL + 1, BODY, RECORD) == WILBROGED_WRONG_LENGTH);
    CHECK(seal_refusal(sample, key, KEY, SEAL, BODY - 1, RECORD) == WILBROGED_WRONG_LENGTH);
    CHECK(seal_refusal(sample, key, KEY, SEAL, BODY + 1, RECORD) == WILBROGED_WRONG_LENGTH);
    CHECK(seal_refusal(sample, key, KEY, SEAL, BODY, RECORD - 1) == WILBROGED_WRONG_LENGTH);
    CHECK(seal_refusal(sample, key, KEY, SEAL, BODY, RECORD + 1) == WILBROGED_WRONG_LENGTH);
}

static void journals(const uint8_t *sample) {
    const uint8_t *key = sample;
    const uint8_t *journal = sample + KEY;
    uint8_t body[BODY], record[RECORD];
    size_t i;

    CHECK(journal_verify(key, KEY, journal, JOURNAL) == WILBROGED_ACCEPTED);
    CHECK(journal_refused_at(key, KEY, journal, JOURNAL) == 0);
    CHECK(journal_verify(key, KEY, journal, JOURNAL - RECORD) == WILBROGED_ACCEPTED);
    CHECK(journal_verify(key, KEY, NULL, 0) == WILBROGED_ACCEPTED);
    CHECK(journal_refused_at(key, KEY, NULL, 0) == 0);
    CHECK(journal_verify(key, KEY - 1, journal, JOURNAL) == WILBROGED_WRONG_LENGTH);
    CHECK(journal_verify(key, KEY + 1, journal, JOURNAL) == WILBROGED_WRONG_LENGTH);
    CHECK(journal_verify(NULL, 0, NULL, 0) == WILBROGED_WRONG_LENGTH);
    CHECK(journal_refused_at(key, KEY - 1, journal, JOURNAL) == 0);
    CHECK(journal_verify(key, KEY, journal, JOURNAL - 1) == WILBROGED_WRONG_JOURNAL_LENGTH);
    CHECK(journal_refused_at(key, KEY, journal, JOURNAL - 1) == 0);
    /* the longest journal, of zeros, is refused at its first record, and a longer one before that */
    CHECK(journal_verify(key, KEY, long_message, LONGEST) == WILBROGED_BROKEN_LAYOUT);
    CHECK(journal_refused_at(key, KEY, long_message, LONGEST) == 0);
    CHECK(journal_verify(key, KEY, long_message, LONGEST + 1) == WILBROGED_WRONG_JOURNAL_LENGTH);
    CHECK(journal_verify(key, KEY, long_message, LONGEST + RECORD) == WILBROGED_WRONG_JOURNAL_LENGTH);
    CHECK(journal_refused_at(key, KEY, long_message, LONGEST + RECORD) == 0);
    for (i = 0; i < RECORDS; i++) {
        CHECK(sealed_again(sample, i));
        CHECK(damaged(sample, i, 12, WILBROGED_BROKEN_LAYOUT));
        CHECK(damaged(sample, i, 4, WILBROGED_NOT_FOLLOWING));
        CHECK(damaged(sample, i, 14, WILBROGED_DIFFERENT_SEAL));
        CHECK(damaged(sample, i, BODY, WILBROGED_DIFFERENT_SEAL));
        CHECK(damaged(sample, i, RECORD - 1, WILBROGED_DIFFERENT_SEAL));
    }

    seal_lengths(sample, key);
    memcpy(body, journal, BODY);
    body[13] = 7;
    memset(record, BEFORE, RECORD);
    CHECK(journal_seal(key, KEY, journal + BODY, SEAL, body, BODY, record, RECORD) == WILBROGED_BROKEN_LAYOUT);
    /* a blank key comes before the layout */
    CHECK(journal_seal(zeros, KEY, journal + BODY, SEAL, body, BODY, record, RECORD) == WILBROGED_BLANK_KEY);
    CHECK(all(record, RECORD, BEFORE));
}

/* Whether a journal is refused under a blank key, at place 0. */
static int blank_refused(const uint8_t *journal, size_t length) {
    return journal_verify(zeros, KEY, journal, length) == WILBROGED_BLANK_KEY && journal_refused_at(zeros, KEY, journal, length) == 0;
}

/* Whether a key with one byte that is not zero seals a first body, and the record is accepted under it. */
static int one_byte_is_enough(const uint8_t *body, size_t at) {
    uint8_t key[KEY] = {0}, record[RECORD];
    key[at] = 1;
    return journal_seal(key, KEY, zeros, SEAL, body, BODY, record, RECORD) == WILBROGED_ACCEPTED
        && memcmp(record, body, BODY) == 0 && journal_verify(key, KEY, record, RECORD) == WILBROGED_ACCEPTED;
}

static void blank_keys(const uint8_t *sample) {
    const uint8_t *journal = sample + KEY;
    size_t i;

    CHECK(seal_refusal(sample, zeros, KEY, SEAL, BODY, RECORD) == WILBROGED_BLANK_KEY);
    seal_lengths(sample, zeros);

    CHECK(blank_refused(NULL, 0));
    /* under another key: 12, 9 (torn), 11 (a first record with sequence 2), 10, and 9 (too long) twice */
    CHECK(blank_refused(journal, JOURNAL));
    CHECK(blank_refused(journal, JOURNAL - 1));
    CHECK(blank_refused(journal + RECORD, JOURNAL - RECORD));
    CHECK(blank_refused(long_message, LONGEST));
    CHECK(blank_refused(long_message, LONGEST + 1));
    CHECK(blank_refused(long_message, LONGEST + RECORD));
    CHECK(journal_verify(zeros, KEY - 1, journal, JOURNAL) == WILBROGED_WRONG_LENGTH);
    CHECK(journal_verify(zeros, KEY + 1, journal, JOURNAL) == WILBROGED_WRONG_LENGTH);
    CHECK(journal_refused_at(zeros, KEY - 1, journal, JOURNAL) == 0);

    for (i = 0; i < KEY; i++) {
        CHECK(one_byte_is_enough(journal, i));
    }
}

/* Kinds and times of three records, and what the check answers: the number, and the record's index. */
struct times {
    uint8_t kind[3];
    uint32_t time[3];
    uint32_t number;
    uint64_t place;
};

/* Kind 5 sets the clock, to any time. The time of every other kind is not below the previous record's. */
static const struct times clocks[] = {
    {{1, 5, 1}, {1000, 400, 400}, WILBROGED_ACCEPTED, 0},
    {{1, 5, 2}, {1000, 400, 400}, WILBROGED_ACCEPTED, 0},
    {{1, 5, 3}, {1000, 400, 400}, WILBROGED_ACCEPTED, 0},
    {{1, 5, 4}, {1000, 400, 400}, WILBROGED_ACCEPTED, 0},
    {{1, 5, 5}, {1000, 400, 400}, WILBROGED_ACCEPTED, 0},
    {{1, 5, 1}, {1000, 400, 399}, WILBROGED_NOT_FOLLOWING, 2},
    {{1, 5, 2}, {1000, 400, 399}, WILBROGED_NOT_FOLLOWING, 2},
    {{1, 5, 3}, {1000, 400, 399}, WILBROGED_NOT_FOLLOWING, 2},
    {{1, 5, 4}, {1000, 400, 399}, WILBROGED_NOT_FOLLOWING, 2},
    {{1, 5, 5}, {1000, 400, 399}, WILBROGED_ACCEPTED, 0},
    /* equal and above */
    {{1, 5, 1}, {1000, 1000, 1000}, WILBROGED_ACCEPTED, 0},
    {{1, 5, 1}, {1000, 1001, 1001}, WILBROGED_ACCEPTED, 0},
    {{1, 5, 1}, {1000, 1001, 1000}, WILBROGED_NOT_FOLLOWING, 2},
    /* from one end of the range to the other */
    {{1, 5, 1}, {UINT32_MAX, 0, 0}, WILBROGED_ACCEPTED, 0},
    {{1, 5, 1}, {0, UINT32_MAX, UINT32_MAX}, WILBROGED_ACCEPTED, 0},
    {{1, 5, 1}, {0, UINT32_MAX, 0}, WILBROGED_NOT_FOLLOWING, 2},
    /* two in turn, up and down */
    {{1, 5, 5}, {1000, 2000, 400}, WILBROGED_ACCEPTED, 0},
    {{1, 5, 5}, {1000, 400, 2000}, WILBROGED_ACCEPTED, 0},
    {{5, 5, 1}, {1000, 400, 400}, WILBROGED_ACCEPTED, 0},
    {{5, 5, 1}, {1000, 400, 399}, WILBROGED_NOT_FOLLOWING, 2},
    /* a first record */
    {{5, 1, 1}, {0, 0, 0}, WILBROGED_ACCEPTED, 0},
    {{5, 1, 1}, {UINT32_MAX, UINT32_MAX, UINT32_MAX}, WILBROGED_ACCEPTED, 0},
    {{5, 1, 1}, {1000, 999, 999}, WILBROGED_NOT_FOLLOWING, 1},
    {{5, 1, 1}, {400, 700, 699}, WILBROGED_NOT_FOLLOWING, 2},
    /* no clock is set, or only later */
    {{1, 4, 1}, {1000, 400, 400}, WILBROGED_NOT_FOLLOWING, 1},
    {{1, 1, 5}, {1000, 400, 400}, WILBROGED_NOT_FOLLOWING, 1},
};

/* One byte of a clock set that is changed: what sealing answers, and what the check answers, at that record. */
struct change {
    size_t index, at;
    uint8_t value;
    uint32_t sealing, checking;
};

static const struct change changes[] = {
    /* kinds that there are not */
    {0, 12, 0, WILBROGED_BROKEN_LAYOUT, WILBROGED_BROKEN_LAYOUT},
    {0, 12, 6, WILBROGED_BROKEN_LAYOUT, WILBROGED_BROKEN_LAYOUT},
    {1, 12, 0, WILBROGED_BROKEN_LAYOUT, WILBROGED_BROKEN_LAYOUT},
    {1, 12, 6, WILBROGED_BROKEN_LAYOUT, WILBROGED_BROKEN_LAYOUT},
    {1, 12, 255, WILBROGED_BROKEN_LAYOUT, WILBROGED_BROKEN_LAYOUT},
    /* positions */
    {1, 13, 0, WILBROGED_BROKEN_LAYOUT, WILBROGED_BROKEN_LAYOUT},
    {1, 13, 2, WILBROGED_ACCEPTED, WILBROGED_ACCEPTED},
    {1, 13, 6, WILBROGED_ACCEPTED, WILBROGED_ACCEPTED},
    {1, 13, 7, WILBROGED_BROKEN_LAYOUT, WILBROGED_BROKEN_LAYOUT},
    /* 256 milliseconds, and one */
    {1, 16, 1, WILBROGED_BROKEN_LAYOUT, WILBROGED_BROKEN_LAYOUT},
    {1, 17, 1, WILBROGED_BROKEN_LAYOUT, WILBROGED_BROKEN_LAYOUT},
    /* bytes that must be zero */
    {1, 18, 1, WILBROGED_BROKEN_LAYOUT, WILBROGED_BROKEN_LAYOUT},
    {1, 22, 1, WILBROGED_BROKEN_LAYOUT, WILBROGED_BROKEN_LAYOUT},
    /* another station */
    {1, 0, 1, WILBROGED_ACCEPTED, WILBROGED_NOT_FOLLOWING},
    {1, 3, 13, WILBROGED_ACCEPTED, WILBROGED_NOT_FOLLOWING},
    /* sequences: the first is 1, and the next 2 */
    {0, 7, 0, WILBROGED_ACCEPTED, WILBROGED_NOT_FOLLOWING},
    {0, 7, 2, WILBROGED_ACCEPTED, WILBROGED_NOT_FOLLOWING},
    {1, 7, 0, WILBROGED_ACCEPTED, WILBROGED_NOT_FOLLOWING},
    {1, 7, 1, WILBROGED_ACCEPTED, WILBROGED_NOT_FOLLOWING},
    {1, 7, 3, WILBROGED_ACCEPTED, WILBROGED_NOT_FOLLOWING},
    /* any current */
    {1, 14, 255, WILBROGED_ACCEPTED, WILBROGED_ACCEPTED},
};

/* A body of station 12, with lamp position 1; numbers have their high byte first. */
static void make_body(uint8_t *body, uint8_t sequence, uint32_t time, uint8_t kind) {
    size_t i;
    memset(body, 0, BODY);
    body[3] = 12;
    body[7] = sequence;
    for (i = 0; i < 4; i++) {
        body[8 + i] = (uint8_t)(time >> (24 - 8 * i));
    }
    body[12] = kind;
    body[13] = 1;
}

/*
 * Seals a body as the record at an index: the answer's number, or 99 where the record is neither the sealed body nor, if the body
 * is refused, what it was. A refused body then stands there all the same, without a seal.
 */
static uint32_t put_record(const uint8_t *key, uint8_t *journal, size_t index, const uint8_t *body) {
    uint8_t *record = journal + RECORD * index;
    uint32_t number;
    memset(record, BEFORE, RECORD);
    number = journal_seal(key, KEY, index == 0 ? zeros : record - SEAL, SEAL, body, BODY, record, RECORD);
    if (number == WILBROGED_ACCEPTED ? memcmp(record, body, BODY) != 0 : !all(record, RECORD, BEFORE)) {
        return 99;
    }
    memcpy(record, body, BODY);
    return number;
}

/* Whether a journal of three records is answered by a number, at a record. */
static int answered(const uint8_t *key, const uint8_t *journal, uint32_t number, uint64_t place) {
    return journal_verify(key, KEY, journal, 3 * RECORD) == number && journal_refused_at(key, KEY, journal, 3 * RECORD) == place;
}

/* Whether three records, sealed in turn, have their answer. */
static int times_answered(const uint8_t *key, const struct times *times) {
    uint8_t body[BODY], journal[3 * RECORD];
    size_t i;
    for (i = 0; i < 3; i++) {
        make_body(body, (uint8_t)(i + 1), times->time[i], times->kind[i]);
        if (put_record(key, journal, i, body) != WILBROGED_ACCEPTED) {
            return 0;
        }
    }
    return answered(key, journal, times->number, times->place);
}

/* Whether three clock sets, of which one is changed, have their answers. */
static int change_answered(const uint8_t *key, const struct change *change) {
    uint8_t body[BODY], journal[3 * RECORD];
    size_t i;
    for (i = 0; i < 3; i++) {
        const int changed = i == change->index;
        make_body(body, (uint8_t)(i + 1), (uint32_t)(1000 - i), 5);
        if (changed) {
            body[change->at] = change->value;
        }
        if (put_record(key, journal, i, body) != (changed ? change->sealing : WILBROGED_ACCEPTED)) {
            return 0;
        }
    }
    return answered(key, journal, change->checking, change->checking == WILBROGED_ACCEPTED ? 0 : change->index);
}

static void clock_sets(const uint8_t *sample) {
    uint8_t body[BODY], journal[3 * RECORD];
    size_t i;

    for (i = 0; i < sizeof clocks / sizeof clocks[0]; i++) {
        CHECK(times_answered(sample, &clocks[i]));
    }
    for (i = 0; i < sizeof changes / sizeof changes[0]; i++) {
        CHECK(change_answered(sample, &changes[i]));
    }

    /* the seal of each clock set is tested */
    for (i = 0; i < 3; i++) {
        make_body(body, (uint8_t)(i + 1), (uint32_t)(1000 - i), 5);
        CHECK(put_record(sample, journal, i, body) == WILBROGED_ACCEPTED);
    }
    CHECK(answered(sample, journal, WILBROGED_ACCEPTED, 0));
    for (i = 0; i < 3; i++) {
        journal[RECORD * i + BODY] ^= 1;
        CHECK(answered(sample, journal, WILBROGED_DIFFERENT_SEAL, i));
        journal[RECORD * i + BODY] ^= 1;
    }
}

/* Reads the sample; 0 where it does not have the length that is expected. */
static int read_sample(const char *path, uint8_t *sample) {
    FILE *file = fopen(path, "rb");
    size_t length;
    if (file == NULL) {
        return 0;
    }
    length = fread(sample, 1, KEY + JOURNAL + 1, file);
    fclose(file);
    return length == KEY + JOURNAL;
}

int main(int argc, char **argv) {
    uint8_t sample[KEY + JOURNAL + 1];
    int readable = argc == 2 && read_sample(argv[1], sample);

    permutations();
    permutation_refusals();
    steps_at_each_width();
    one_step_of_zeros();
    steps_refusals();
    empty_digests();
    digest_refusals();
    CHECK(readable);
    if (readable) {
        journals(sample);
        blank_keys(sample);
        clock_sets(sample);
    }
    printf("%u passed, %u failed\n", passed, failed);
    return failed == 0 && passed > 0 ? 0 : 1;
}
