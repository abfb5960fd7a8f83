/* Digests a message, seals two records and checks their journal; then changes a byte of the second and sees it refused. */
#include "wilbroged.h"

#include <stdio.h>
#include <string.h>

/* Four bytes of a body, high byte first. */
static void put(uint8_t *at, uint32_t number) {
    int i;
    for (i = 3; i >= 0; i--, number /= 256) {
        at[i] = (uint8_t)(number % 256);
    }
}

int main(void) {
    const uint8_t key[WILBROGED_KEY_BYTES] = {1, 2, 3}, message[4] = {'l', 'a', 'm', 'p'};
    uint8_t body[WILBROGED_BODY_BYTES] = {0}, previous[WILBROGED_SEAL_BYTES] = {0}; /* zeros before the first record */
    uint8_t journal[2 * WILBROGED_RECORD_BYTES], digest[WILBROGED_S_BYTES];
    uint32_t answer, i;

    if (quark_digest(WILBROGED_S, WILBROGED_S_WIDTH, message, sizeof message, 8 * sizeof message, digest, sizeof digest)
        != WILBROGED_ACCEPTED) {
        return 1;
    }

    body[12] = 1; /* lit, */
    body[13] = 2; /* the lamp at position 2 */
    for (i = 0; i < 2; i++) {
        uint8_t *record = journal + i * WILBROGED_RECORD_BYTES;
        put(body + 4, i + 1); /* the sequence */
        if (journal_seal(key, sizeof key, previous, sizeof previous, body, sizeof body, record, WILBROGED_RECORD_BYTES)
            != WILBROGED_ACCEPTED) {
            return 1;
        }
        memcpy(previous, record + WILBROGED_BODY_BYTES, sizeof previous);
    }
    if (journal_verify(key, sizeof key, journal, sizeof journal) != WILBROGED_ACCEPTED) {
        return 1;
    }

    journal[WILBROGED_RECORD_BYTES + 14] ^= 1; /* the second record's current */
    answer = journal_verify(key, sizeof key, journal, sizeof journal);
    printf("refused %u at record %u\n", (unsigned)answer, (unsigned)journal_refused_at(key, sizeof key, journal, sizeof journal));
    return answer == WILBROGED_DIFFERENT_SEAL ? 0 : 1;
}
