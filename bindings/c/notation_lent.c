/* The calls of notation.h that answer with a struct, with room for it lent by the caller, for languages
 * that take no struct by value. Each is its call and a copy: no rule stands here. */
#include "notation.h"

void notation_expected_text_into(uint8_t expected, uint8_t *out, size_t out_length,
        struct notation_given *answer) {
    if (answer) *answer = notation_expected_text(expected, out, out_length);
}

void notation_refusal_text_into(uint8_t number, uint8_t *out, size_t out_length,
        struct notation_given *answer) {
    if (answer) *answer = notation_refusal_text(number, out, out_length);
}

void notation_length_into(const uint8_t *list, size_t list_length, struct notation_given *answer) {
    if (answer) *answer = notation_length(list, list_length);
}

void notation_print_into(const uint8_t *list, size_t list_length, uint8_t *out,
        size_t out_length, struct notation_given *answer) {
    if (answer) *answer = notation_print(list, list_length, out, out_length);
}

void notation_step_into(const uint8_t *list, size_t list_length, size_t i, uint8_t *out,
        size_t out_length, struct notation_given *answer) {
    if (answer) *answer = notation_step(list, list_length, i, out, out_length);
}

void notation_reply_into(const uint8_t *list, size_t list_length, const uint8_t *replies,
        size_t replies_length, size_t i, uint8_t *out, size_t out_length,
        struct notation_given *answer) {
    if (answer) *answer = notation_reply(list, list_length, replies, replies_length, i, out, out_length);
}

void notation_image_into(const uint8_t *image, size_t image_length, size_t n, uint8_t *out,
        size_t out_length, struct notation_given *answer) {
    if (answer) *answer = notation_image(image, image_length, n, out, out_length);
}
