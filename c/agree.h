/* That fringewell_next is a step and a reading in one call (RULES.md, "Admission and one step" and "Values"). */
#ifndef AGREE_H
#define AGREE_H

#include "test.h"

/* Key and cursor are the step's, always, and so are tag, place and framed bytes of an element. All else is as it was read at that place;
 * where there is no element, all but number and place is 0. */
static inline bool agree(fringewell_element next, fringewell_stepped step, fringewell_value value) {
    fringewell_element want = ELEMENT(.key_offset = step.key_offset, .key_size = step.key_size, .next = step.next, .ended = step.ended);
    want.value = step.ended ? VALUE(.number = step.number, .place = step.place) : value;
    if (!step.ended && value.number != 0) {
        want.value.tag = step.tag;
        want.value.framed_offset = step.framed_offset;
        want.value.framed_size = step.framed_size;
    }
    fringewell_value got = next.value;
    bool framed = got.place == step.place && got.framed_offset == step.framed_offset && got.framed_size == step.framed_size;
    return same_element(next, want) && framed && got.tag == step.tag;
}

static inline bool next_agrees(const void *document, size_t length, size_t offset, bool ended) {
    return agree(fringewell_next(document, length, offset, ended), fringewell_step(document, length, offset, ended),
                 fringewell_read(document, length, offset));
}

static inline bool next_agrees_under(const void *document, size_t length, size_t offset, bool ended, size_t limit) {
    return agree(fringewell_next_under(document, length, offset, ended, limit),
                 fringewell_step_under(document, length, offset, ended, limit), fringewell_read_under(document, length, offset, limit));
}

#endif
