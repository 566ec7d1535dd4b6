/* libminisketch's functions for sketches of 32-bit elements, over erlay.h. */
#include "minisketch.h"

#include "erlay.h"

#include <stdlib.h>
#include <string.h>

struct minisketch {
    size_t capacity;
    uint8_t sums[]; /* 4 bytes each */
};

int minisketch_bits_supported(uint32_t bits) {
    return bits == 32;
}

uint32_t minisketch_implementation_max(void) {
    return 0;
}

int minisketch_implementation_supported(uint32_t bits, uint32_t implementation) {
    return minisketch_bits_supported(bits) && implementation <= minisketch_implementation_max();
}

minisketch *minisketch_create(uint32_t bits, uint32_t implementation, size_t capacity) {
    size_t size = erlay_sketch_size(capacity);
    if (!minisketch_implementation_supported(bits, implementation) || size == 0)
        return NULL;
    minisketch *sketch = calloc(1, sizeof *sketch + size);
    if (sketch != NULL)
        sketch->capacity = capacity;
    return sketch;
}

uint32_t minisketch_bits(const minisketch *sketch) {
    (void)sketch;
    return 32;
}

size_t minisketch_capacity(const minisketch *sketch) {
    return sketch->capacity;
}

uint32_t minisketch_implementation(const minisketch *sketch) {
    (void)sketch;
    return 0;
}

void minisketch_set_seed(minisketch *sketch, uint64_t seed) {
    (void)sketch;
    (void)seed;
}

minisketch *minisketch_clone(const minisketch *sketch) {
    minisketch *copy = minisketch_create(32, 0, sketch->capacity);
    if (copy != NULL)
        minisketch_deserialize(copy, sketch->sums);
    return copy;
}

void minisketch_destroy(minisketch *sketch) {
    free(sketch);
}

size_t minisketch_serialized_size(const minisketch *sketch) {
    return erlay_sketch_size(sketch->capacity);
}

void minisketch_serialize(const minisketch *sketch, unsigned char *output) {
    memcpy(output, sketch->sums, minisketch_serialized_size(sketch));
}

void minisketch_deserialize(minisketch *sketch, const unsigned char *input) {
    memcpy(sketch->sums, input, minisketch_serialized_size(sketch));
}

void minisketch_add_uint64(minisketch *sketch, uint64_t element) {
    uint32_t reduced = (uint32_t)element;
    if (reduced != 0 && erlay_toggle(sketch->sums, minisketch_serialized_size(sketch), reduced) != ERLAY_DONE)
        abort();
}

size_t minisketch_merge(minisketch *sketch, const minisketch *other_sketch) {
    size_t capacity = sketch->capacity < other_sketch->capacity ? sketch->capacity : other_sketch->capacity;
    size_t size = erlay_sketch_size(capacity);
    if (sketch == other_sketch) /* nothing is in exactly one of a set and itself */
        memset(sketch->sums, 0, size);
    else if (erlay_merge(sketch->sums, size, other_sketch->sums, size) != ERLAY_DONE)
        return 0;
    sketch->capacity = capacity;
    return capacity;
}

ssize_t minisketch_decode(const minisketch *sketch, size_t max_elements, uint64_t *output) {
    size_t room = max_elements < sketch->capacity ? max_elements : sketch->capacity;
    size_t count = 0;
    uint32_t *elements = malloc(sketch->capacity * sizeof *elements);
    if (elements == NULL)
        return -1;
    erlay_code code = erlay_decode(sketch->sums, minisketch_serialized_size(sketch), elements, room, &count);
    if (code == ERLAY_DONE)
        for (size_t i = 0; i < count; i++)
            output[i] = elements[i];
    free(elements);
    return code == ERLAY_DONE ? (ssize_t)count : -1;
}
