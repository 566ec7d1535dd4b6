/* The calls of erlay.h: worked sketches, each code, and what a call leaves in its caller's buffers. */
#include "erlay.h"

#include <stdio.h>
#include <string.h>

static int failed = 0;

#define CHECK(holds) \
    do { \
        if (!(holds)) { \
            fprintf(stderr, "%s:%d: not so: %s\n", __FILE__, __LINE__, #holds); \
            failed = 1; \
        } \
    } while (0)

static const uint8_t THREE[] = {0, 0, 0, 0, 6, 0, 0, 0, 0x12, 0, 0, 0, 0x7e, 0, 0, 0}; /* of 1, 2 and 3 */
static const uint8_t TWO[] = {3, 0, 0, 0, 9, 0, 0, 0};                                /* of 1 and 2 */
static const uint8_t LARGE[] = {0, 0, 0, 0x80, 0x72, 0x6d, 4, 0x20};                  /* of 2^31 */

static int is_filled(const uint8_t *bytes, size_t from, size_t to, uint8_t with) {
    for (size_t i = from; i < to; i++)
        if (bytes[i] != with)
            return 0;
    return 1;
}

static void limits(void) {
    CHECK(erlay_max_capacity() == ERLAY_MAX_CAPACITY);
    CHECK(erlay_sketch_size(ERLAY_MAX_CAPACITY) == ERLAY_MAX_SKETCH_SIZE);
    CHECK(erlay_sketch_size(1) == 4);
    CHECK(erlay_sketch_size(0) == 0);
    CHECK(erlay_sketch_size(ERLAY_MAX_CAPACITY + 1) == 0);
    CHECK(erlay_sketch_size(SIZE_MAX) == 0);
}

static void makes(void) {
    const uint32_t elements[] = {3, 1, 2, 0, 2, 0x80000000u};
    uint8_t sketch[20];
    memset(sketch, 0xaa, sizeof sketch);
    CHECK(erlay_make(elements, 3, 4, sketch, sizeof sketch) == ERLAY_DONE);
    CHECK(memcmp(sketch, THREE, sizeof THREE) == 0 && is_filled(sketch, 16, 20, 0xaa));
    CHECK(erlay_make(elements + 5, 1, 2, sketch, sizeof sketch) == ERLAY_DONE);
    CHECK(memcmp(sketch, LARGE, sizeof LARGE) == 0 && memcmp(sketch + 8, THREE + 8, 8) == 0);
    CHECK(erlay_make(elements, 0, 5, sketch, sizeof sketch) == ERLAY_DONE);
    CHECK(is_filled(sketch, 0, 20, 0));

    memset(sketch, 0xaa, sizeof sketch);
    CHECK(erlay_make(elements, 4, 0, sketch, sizeof sketch) == ERLAY_CAPACITY_OUT_OF_RANGE);
    CHECK(erlay_make(elements, 4, ERLAY_MAX_CAPACITY + 1, sketch, sizeof sketch) == ERLAY_CAPACITY_OUT_OF_RANGE);
    CHECK(erlay_make(elements, 4, SIZE_MAX / 4 + 2, sketch, sizeof sketch) == ERLAY_CAPACITY_OUT_OF_RANGE);
    CHECK(erlay_make(elements, 4, 6, sketch, sizeof sketch) == ERLAY_BUFFER_TOO_SHORT);
    CHECK(erlay_make(elements, 4, 5, sketch, 19) == ERLAY_BUFFER_TOO_SHORT);
    CHECK(erlay_make(elements, 5, 5, sketch, sizeof sketch) == ERLAY_ZERO_ELEMENT);
    CHECK(erlay_make(elements + 1, 4, 5, sketch, sizeof sketch) == ERLAY_ZERO_ELEMENT);
    const uint32_t repeated[] = {7, 5, 9, 5};
    CHECK(erlay_make(repeated, 4, 5, sketch, sizeof sketch) == ERLAY_REPEATED_ELEMENT);
    CHECK(is_filled(sketch, 0, 20, 0xaa));
}

static void toggles(void) {
    uint8_t sketch[16];
    memset(sketch, 0, sizeof sketch);
    for (uint32_t element = 1; element <= 3; element++)
        CHECK(erlay_toggle(sketch, sizeof sketch, element) == ERLAY_DONE);
    CHECK(memcmp(sketch, THREE, sizeof THREE) == 0);
    CHECK(erlay_toggle(sketch, sizeof sketch, 3) == ERLAY_DONE);
    CHECK(memcmp(sketch, TWO, sizeof TWO) == 0);
    CHECK(erlay_toggle(sketch, 8, 2) == ERLAY_DONE);
    CHECK(erlay_toggle(sketch, 8, 1) == ERLAY_DONE);
    CHECK(is_filled(sketch, 0, 8, 0));

    static uint8_t wide[ERLAY_MAX_SKETCH_SIZE + 4];
    memcpy(sketch, THREE, sizeof THREE);
    CHECK(erlay_toggle(sketch, 0, 5) == ERLAY_SKETCH_SIZE);
    CHECK(erlay_toggle(sketch, 15, 0) == ERLAY_SKETCH_SIZE);
    CHECK(erlay_toggle(wide, sizeof wide, 5) == ERLAY_SKETCH_SIZE);
    CHECK(erlay_toggle(sketch, sizeof sketch, 0) == ERLAY_ZERO_ELEMENT);
    CHECK(memcmp(sketch, THREE, sizeof THREE) == 0 && is_filled(wide, 0, sizeof wide, 0));
    CHECK(erlay_toggle(wide, ERLAY_MAX_SKETCH_SIZE, 1) == ERLAY_DONE);
    CHECK(wide[0] == 1 && wide[ERLAY_MAX_SKETCH_SIZE - 4] == 1 && is_filled(wide, ERLAY_MAX_SKETCH_SIZE, sizeof wide, 0));
}

static void merges(void) {
    uint8_t sketch[8], other[8];
    memcpy(sketch, TWO, sizeof TWO);
    const uint8_t second[] = {2, 0, 0, 0, 8, 0, 0, 0}, first[] = {1, 0, 0, 0, 1, 0, 0, 0};
    memcpy(other, second, sizeof second);
    CHECK(erlay_merge(sketch, 8, other, 8) == ERLAY_DONE);
    CHECK(memcmp(sketch, first, 8) == 0 && memcmp(other, second, 8) == 0);

    CHECK(erlay_merge(sketch, 0, other, 8) == ERLAY_SKETCH_SIZE);
    CHECK(erlay_merge(sketch, 8, other, 6) == ERLAY_SKETCH_SIZE);
    CHECK(erlay_merge(sketch, 6, other, 6) == ERLAY_SKETCH_SIZE);
    CHECK(erlay_merge(sketch, 8, other, 4) == ERLAY_SIZES_DIFFER);
    CHECK(erlay_merge(sketch, 4, other, 8) == ERLAY_SIZES_DIFFER);
    CHECK(memcmp(sketch, first, 8) == 0 && memcmp(other, second, 8) == 0);
}

static void decodes(void) {
    uint32_t elements[5] = {9, 9, 9, 9, 9};
    size_t count = 77;
    CHECK(erlay_decode(THREE, sizeof THREE, elements, 5, &count) == ERLAY_DONE);
    CHECK(count == 3 && elements[0] == 1 && elements[1] == 2 && elements[2] == 3 && elements[3] == 9 && elements[4] == 9);
    CHECK(erlay_decode(LARGE, sizeof LARGE, elements, 1, &count) == ERLAY_DONE);
    CHECK(count == 1 && elements[0] == 0x80000000u && elements[1] == 2);
    const uint8_t none[4] = {0}, false_one[] = {3, 0, 0, 0};
    CHECK(erlay_decode(none, sizeof none, elements, 0, &count) == ERLAY_DONE);
    CHECK(count == 0 && elements[0] == 0x80000000u);
    /* one sum of 1 and 2 is that of 3 */
    CHECK(erlay_decode(false_one, sizeof false_one, elements, 5, &count) == ERLAY_DONE);
    CHECK(count == 1 && elements[0] == 3);

    count = 77;
    CHECK(erlay_decode(THREE, 0, elements, 5, &count) == ERLAY_SKETCH_SIZE);
    CHECK(erlay_decode(THREE, 5, elements, 5, &count) == ERLAY_SKETCH_SIZE);
    CHECK(erlay_decode(THREE, 8, elements, 5, &count) == ERLAY_NO_SET);
    CHECK(erlay_decode(THREE, 8, elements, 0, &count) == ERLAY_NO_SET);
    CHECK(erlay_decode(THREE, sizeof THREE, elements, 2, &count) == ERLAY_BUFFER_TOO_SHORT);
    CHECK(count == 77 && elements[0] == 3 && elements[1] == 2 && elements[2] == 3);
}

int main(void) {
    limits();
    makes();
    toggles();
    merges();
    decodes();
    return failed;
}
