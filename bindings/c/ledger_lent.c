/* The calls of ledger.h that answer with a struct, with room for it lent by the caller, for languages
 * that take no struct by value. Each is its call and a copy: no rule stands here. */
#include "ledger.h"

void ledger_dependents_into(const uint8_t *image, size_t image_length, size_t transactor,
        uint8_t *refusal, struct ledger_resting *answer) {
    if (answer) *answer = ledger_dependents(image, image_length, transactor, refusal);
}

void ledger_obstacle_into(const uint8_t *image, size_t image_length, size_t members,
        uint8_t *refusal, struct ledger_reason *answer) {
    if (answer) *answer = ledger_obstacle(image, image_length, members, refusal);
}

void ledger_impediment_into(const uint8_t *image, size_t image_length, size_t transactor,
        uint8_t *refusal, struct ledger_cause *answer) {
    if (answer) *answer = ledger_impediment(image, image_length, transactor, refusal);
}

void ledger_actor_into(const uint8_t *image, size_t image_length, const uint8_t *step,
        size_t step_length, uint8_t *refusal, struct ledger_acting *answer) {
    if (answer) *answer = ledger_actor(image, image_length, step, step_length, refusal);
}

void ledger_show_into(const uint8_t *image, size_t image_length, size_t number, uint8_t *refusal,
        struct ledger_part *answer) {
    if (answer) *answer = ledger_show(image, image_length, number, refusal);
}

void ledger_worst_window_into(const uint8_t *replies, size_t replies_length, size_t width,
        uint8_t *refusal, struct ledger_window *answer) {
    if (answer) *answer = ledger_worst_window(replies, replies_length, width, refusal);
}
