/* libminisketch's functions for sketches of 32-bit elements, over erlay.h: a program that is written for libminisketch is
 * linked with -lerlay in place of -lminisketch. Only elements of 32 bits and capacities from 1 to 4096 are there, and
 * only implementation 0.
 *
 * A sketch belongs to the caller of minisketch_create or minisketch_clone, who hands it to minisketch_destroy once. No
 * pointer may be NULL, but the one that minisketch_destroy is handed. Calls on different sketches may be made in several
 * threads at once, and so may calls that only read one sketch.
 */
#ifndef ERLAY_MINISKETCH_H
#define ERLAY_MINISKETCH_H

#include <stddef.h>
#include <stdint.h>
#include <sys/types.h>

#ifdef __cplusplus
extern "C" {
#endif

typedef struct minisketch minisketch;

/* 1 for 32, and 0 for any other number of bits. */
int minisketch_bits_supported(uint32_t bits);

/* 1 for 32 bits and implementation 0, else 0. */
int minisketch_implementation_supported(uint32_t bits, uint32_t implementation);

/* The greatest number of an implementation, which is 0. */
uint32_t minisketch_implementation_max(void);

/* The sketch of the empty set; NULL where bits are not 32, the implementation is not 0, the capacity is not 1 to 4096, or
 * there is no memory. */
minisketch *minisketch_create(uint32_t bits, uint32_t implementation, size_t capacity);

/* 32. */
uint32_t minisketch_bits(const minisketch *sketch);

/* The most elements that are decoded from the sketch. */
size_t minisketch_capacity(const minisketch *sketch);

/* 0. */
uint32_t minisketch_implementation(const minisketch *sketch);

/* Has no effect: the same sketch is decoded in the same way each time. */
void minisketch_set_seed(minisketch *sketch, uint64_t seed);

/* A sketch of the same set and capacity; NULL where there is no memory. */
minisketch *minisketch_clone(const minisketch *sketch);

/* Gives the sketch's memory back. NULL is passed over. */
void minisketch_destroy(minisketch *sketch);

/* The bytes that minisketch_serialize writes and minisketch_deserialize reads, which are 4 * capacity. */
size_t minisketch_serialized_size(const minisketch *sketch);

/* Writes the sketch's sums, 4 bytes each, the lowest first. */
void minisketch_serialize(const minisketch *sketch, unsigned char *output);

/* Makes the sketch the one of these bytes, of the same capacity. */
void minisketch_deserialize(minisketch *sketch, const unsigned char *input);

/* Puts the element modulo 2^32 into the set, or takes it out where the set has it; 0 has no effect. It has no way to tell
 * that there is no memory for it (some times that of the sketch), so it calls abort() then. */
void minisketch_add_uint64(minisketch *sketch, uint64_t element);

/* Makes the sketch that of what is in exactly one of the two sets, at the lesser capacity of the two, which is answered.
 * 0 where it failed, as for want of memory: then the sketch is as before. libminisketch answers 0 as well where the
 * elements' sizes differ, which all are the same here. */
size_t minisketch_merge(minisketch *sketch, const minisketch *other_sketch);

/* Writes the set that has the sketch, ascending, into the first places of `output`, and answers how many elements it has.
 * -1 where there is no such set, where it has more than max_elements, or where there is no memory; nothing is written
 * then. What a false answer is stands at erlay_decode in erlay.h. */
ssize_t minisketch_decode(const minisketch *sketch, size_t max_elements, uint64_t *output);

#ifdef __cplusplus
}
#endif

#endif
