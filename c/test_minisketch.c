/* The functions of minisketch.h, in the order that a program for libminisketch calls them. */
#include "minisketch.h"

#include <stdio.h>
#include <stdlib.h>
#include <string.h>

static int failed = 0;

#define CHECK(holds) \
    do { \
        if (!(holds)) { \
            fprintf(stderr, "%s:%d: not so: %s\n", __FILE__, __LINE__, #holds); \
            failed = 1; \
        } \
    } while (0)

/* Both sides have 3,000 to 3,009; each has one element that the other lacks. */
static void reconcile(void) {
    CHECK(minisketch_bits_supported(32));
    minisketch *ours = minisketch_create(32, 0, 4);
    CHECK(ours != NULL);
    for (uint64_t element = 2999; element <= 3009; element++)
        minisketch_add_uint64(ours, element);
    size_t size = minisketch_serialized_size(ours);
    CHECK(size == 16);
    unsigned char *bytes = malloc(size);
    minisketch_serialize(ours, bytes);
    minisketch_destroy(ours);

    minisketch *theirs = minisketch_create(32, 0, 4);
    for (uint64_t element = 3000; element <= 3010; element++)
        minisketch_add_uint64(theirs, element);
    minisketch *received = minisketch_create(32, 0, 4);
    minisketch_deserialize(received, bytes);
    free(bytes);
    CHECK(minisketch_merge(theirs, received) == 4);
    uint64_t differences[4];
    ssize_t count = minisketch_decode(theirs, 4, differences);
    CHECK(count == 2 && differences[0] == 2999 && differences[1] == 3010);
    minisketch_destroy(received);
    minisketch_destroy(theirs);
}

static void limits(void) {
    for (uint32_t bits = 0; bits <= 64; bits++) {
        CHECK(minisketch_bits_supported(bits) == (bits == 32));
        CHECK(minisketch_implementation_supported(bits, 0) == (bits == 32));
        minisketch *sketch = minisketch_create(bits, 0, 8);
        CHECK((sketch != NULL) == (bits == 32));
        minisketch_destroy(sketch);
    }
    uint32_t beyond = minisketch_implementation_max() + 1;
    CHECK(!minisketch_implementation_supported(32, beyond));
    CHECK(minisketch_create(32, beyond, 8) == NULL);
    CHECK(minisketch_create(32, 0, 0) == NULL);
    CHECK(minisketch_create(32, 0, 4097) == NULL);
    CHECK(minisketch_create(32, 0, SIZE_MAX) == NULL);
    minisketch *largest = minisketch_create(32, 0, 4096);
    CHECK(largest != NULL && minisketch_serialized_size(largest) == 16384);
    CHECK(minisketch_bits(largest) == 32 && minisketch_capacity(largest) == 4096 && minisketch_implementation(largest) == 0);
    minisketch_destroy(largest);
    minisketch_destroy(NULL);
}

static void elements(void) {
    minisketch *sketch = minisketch_create(32, 0, 2);
    unsigned char before[8], after[8];
    minisketch_set_seed(sketch, 1);
    minisketch_add_uint64(sketch, 0);
    minisketch_add_uint64(sketch, (uint64_t)5 << 32); /* 0 modulo 2^32 */
    minisketch_serialize(sketch, after);
    CHECK(memcmp(after, "\0\0\0\0\0\0\0", 8) == 0);
    uint64_t found[2] = {9, 9};
    CHECK(minisketch_decode(sketch, 0, found) == 0 && found[0] == 9); /* nothing is written */
    minisketch_add_uint64(sketch, 0x700000001);
    minisketch_add_uint64(sketch, 2);
    minisketch_serialize(sketch, before);
    CHECK(memcmp(before, "\3\0\0\0\11\0\0\0", 8) == 0); /* of 1 and 2 */

    minisketch *copy = minisketch_clone(sketch);
    CHECK(copy != NULL && minisketch_capacity(copy) == 2);
    minisketch_add_uint64(copy, 2);
    minisketch_serialize(sketch, after);
    CHECK(memcmp(before, after, 8) == 0);
    CHECK(minisketch_decode(copy, 1, found) == 1 && found[0] == 1 && found[1] == 9);
    CHECK(minisketch_decode(sketch, 1, found) == -1 && found[0] == 1);
    CHECK(minisketch_decode(sketch, SIZE_MAX, found) == 2 && found[0] == 1 && found[1] == 2);
    minisketch_add_uint64(copy, 2);
    minisketch_add_uint64(copy, 3); /* more than two have no answer here */
    CHECK(minisketch_decode(copy, 2, found) == -1 && found[0] == 1 && found[1] == 2);
    minisketch_destroy(copy);
    minisketch_destroy(sketch);
}

static void capacities(void) {
    minisketch *large = minisketch_create(32, 0, 6), *small = minisketch_create(32, 0, 3);
    for (uint64_t element = 1; element <= 5; element++) {
        minisketch_add_uint64(large, element);
        minisketch_add_uint64(small, element + 1);
    }
    minisketch *other = minisketch_clone(small);
    CHECK(minisketch_merge(small, large) == 3 && minisketch_capacity(small) == 3 && minisketch_capacity(large) == 6);
    CHECK(minisketch_merge(large, other) == 3 && minisketch_capacity(large) == 3 && minisketch_serialized_size(large) == 12);
    uint64_t found[3];
    for (int i = 0; i < 2; i++) {
        CHECK(minisketch_decode(i ? large : small, 3, found) == 2 && found[0] == 1 && found[1] == 6);
    }
    CHECK(minisketch_merge(large, large) == 3);
    CHECK(minisketch_decode(large, 3, found) == 0);
    minisketch_destroy(other);
    minisketch_destroy(small);
    minisketch_destroy(large);
}

int main(void) {
    reconcile();
    limits();
    elements();
    capacities();
    return failed;
}
