/* The calls of looking.h that answer with a struct, with room for it lent by the caller, for languages
 * that take no struct by value. Each is its call and a copy: no rule stands here. */
#include "looking.h"

void looking_decision_into(const uint8_t *image, size_t image_length, size_t number,
        uint8_t *refusal, struct looking_verdict *answer) {
    if (answer) *answer = looking_decision(image, image_length, number, refusal);
}

void looking_compare_into(const uint8_t *left, size_t left_length, const uint8_t *right,
        size_t right_length, uint8_t *refusal, struct looking_comparison *answer) {
    if (answer) *answer = looking_compare(left, left_length, right, right_length, refusal);
}

void looking_field_into(size_t at, struct looking_place *answer) {
    if (answer) *answer = looking_field(at);
}
