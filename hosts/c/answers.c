/*
 * One call of each function of the header. With ANSWERS_IGNORED nobody looks at the answers, and a compiler is to warn of the seven that
 * say whether a call was refused. hosts/c/test compiles it both ways, as C99 and as C++17, and runs neither.
 */
#include "wilbroged.h"

uint64_t sum;
void call_each(uint8_t *bytes, uint32_t *l_after);

#ifdef ANSWERS_IGNORED
#define LOOK
#else
#define LOOK sum +=
#endif

void call_each(uint8_t *bytes, uint32_t *l_after) {
    LOOK quark_permute(WILBROGED_U, WILBROGED_U_WIDTH, bytes, WILBROGED_U_BYTES);
    LOOK quark_invert(WILBROGED_U, WILBROGED_U_WIDTH, bytes, WILBROGED_U_BYTES);
    LOOK quark_steps(WILBROGED_U, WILBROGED_U_WIDTH, WILBROGED_L_ALL_ONES, WILBROGED_U_STEPS, bytes, WILBROGED_U_BYTES, l_after);
    LOOK quark_steps_back(WILBROGED_U, WILBROGED_U_WIDTH, WILBROGED_L_ALL_ONES, WILBROGED_U_STEPS, bytes, WILBROGED_U_BYTES);
    LOOK quark_digest(WILBROGED_U, WILBROGED_U_WIDTH, NULL, 0, 0, bytes, WILBROGED_U_BYTES);
    LOOK journal_seal(NULL, 0, NULL, 0, NULL, 0, bytes, WILBROGED_RECORD_BYTES);
    LOOK journal_verify(bytes, WILBROGED_KEY_BYTES, NULL, 0);
    LOOK journal_refused_at(bytes, WILBROGED_KEY_BYTES, NULL, 0);
}
