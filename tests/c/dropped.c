/* The header by itself. With DROPPED an answer is dropped, and a compiler is to say so. */
#include "kbuckets.h"

uint32_t looked_at(uint8_t *storage, uint8_t *answer);

uint32_t looked_at(uint8_t *storage, uint8_t *answer) {
#ifdef DROPPED
    kbuckets_take_applied_pending(storage, KBUCKETS_STORAGE_BYTES, answer, KBUCKETS_ANSWER_BYTES);
#endif
    return kbuckets_take_applied_pending(storage, KBUCKETS_STORAGE_BYTES, answer, KBUCKETS_ANSWER_BYTES);
}
