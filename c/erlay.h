/* Erlay: sketches of sets of numbers from 1 below 2^32, for C and C++.
 *
 * A sketch of capacity c, from 1 to ERLAY_MAX_CAPACITY, is 4 * c bytes: c sums of 4 bytes each, the lowest byte first.
 * This is libminisketch's serialization of a sketch of 32-bit elements. Sketches of one capacity are merged, and the
 * result is the sketch of what is in exactly one of the two sets. Up to the capacity the set is decoded from its sketch.
 *
 * Every call is proved: to do what stands here, not to read or write beyond what its lengths say, and to return. What
 * nothing checks are a caller's pointers. Each points to as many items as the length behind it says, an element is an
 * aligned uint32_t, no pointer is NULL, also where its length is 0, and what a call writes lies apart from all else
 * that it is given.
 *
 * All memory is the caller's. A call takes memory by malloc while it runs and gives it back before it returns. A call
 * keeps nothing, so calls in several threads at once are fine, as long as none writes what another reads or writes.
 * No call is made in a signal handler.
 *
 * A call answers ERLAY_DONE, or the first code in the order of its own list that applies; a call that answers another
 * code than ERLAY_DONE has left all buffers as they were. ERLAY_OUT_OF_MEMORY may come in place of ERLAY_DONE and of
 * the codes behind it in a list.
 */
#ifndef ERLAY_H
#define ERLAY_H

#include <stddef.h>
#include <stdint.h>

#ifdef __cplusplus
extern "C" {
#endif

/* What a call answers. */
typedef uint32_t erlay_code;
enum {
    ERLAY_DONE = 0,
    ERLAY_CAPACITY_OUT_OF_RANGE = 1, /* the capacity is 0 or above ERLAY_MAX_CAPACITY */
    ERLAY_SKETCH_SIZE = 2,           /* the bytes of a sketch are none, more than ERLAY_MAX_SKETCH_SIZE, or no multiple of 4 */
    ERLAY_SIZES_DIFFER = 3,          /* two sketches of different capacities */
    ERLAY_ZERO_ELEMENT = 4,          /* 0 is no element */
    ERLAY_REPEATED_ELEMENT = 5,      /* an element comes twice */
    ERLAY_BUFFER_TOO_SHORT = 6,      /* the buffer has no room for what is to be written */
    ERLAY_NO_SET = 7,                /* no set of at most as many elements as the capacity has this sketch */
    ERLAY_OUT_OF_MEMORY = 8          /* malloc gave no memory */
};

#define ERLAY_MAX_CAPACITY 4096
#define ERLAY_MAX_SKETCH_SIZE 16384

#if defined(__GNUC__)
#define ERLAY_ANSWERS __attribute__((nonnull, warn_unused_result))
#else
#define ERLAY_ANSWERS
#endif

/* ERLAY_MAX_CAPACITY, of the library that is linked. */
size_t erlay_max_capacity(void);

/* The bytes of a sketch of this capacity, which are 4 * capacity; 0 where no sketch has this capacity. */
size_t erlay_sketch_size(size_t capacity);

/* Writes the sketch of `count` elements, in any order, into the first 4 * capacity of the `room` bytes at `sketch`. What
 * is behind them stays. The time grows by count * capacity, and by count * log(count) for the test whether an element
 * comes twice; the memory is up to 8 bytes an element and some times the sketch's.
 * Codes: ERLAY_CAPACITY_OUT_OF_RANGE, ERLAY_BUFFER_TOO_SHORT, ERLAY_ZERO_ELEMENT, ERLAY_OUT_OF_MEMORY,
 * ERLAY_REPEATED_ELEMENT. */
ERLAY_ANSWERS erlay_code erlay_make(const uint32_t *elements, size_t count, size_t capacity, uint8_t *sketch, size_t room);

/* Puts an element into the set of the sketch of `size` bytes, or takes it out where the set has it, in place. The time
 * grows by the capacity; the memory is some times the sketch's.
 * Codes: ERLAY_SKETCH_SIZE, ERLAY_ZERO_ELEMENT, ERLAY_OUT_OF_MEMORY. */
ERLAY_ANSWERS erlay_code erlay_toggle(uint8_t *sketch, size_t size, uint32_t element);

/* Makes `sketch` the sketch of what is in exactly one of its set and that of `other`, in place. Both have the same
 * capacity. The time grows by the capacity; the memory is some times the sketch's.
 * Codes: ERLAY_SKETCH_SIZE (of either), ERLAY_SIZES_DIFFER, ERLAY_OUT_OF_MEMORY. */
ERLAY_ANSWERS erlay_code erlay_merge(uint8_t *sketch, size_t size, const uint8_t *other, size_t other_size);

/* Writes the set that has this sketch into the first places of the `room` elements at `elements`, ascending, and how many
 * these are into `count`. What is behind them stays. There is at most one set of nonzero elements that has the sketch and
 * no more elements than its capacity, so room for size / 4 elements is always enough.
 * Of a set of more elements than the capacity the answer is ERLAY_NO_SET, or a false one: a smaller set that happens to
 * have the same sketch. Of random sets one in c! is answered so at capacity c: take a sum more than you need, and an
 * answer that uses the whole capacity as a doubtful one where that is small.
 * The time grows by the square of the capacity, and by less where there is no set; the memory is below 2 MB up to
 * capacity 2048.
 * Codes: ERLAY_SKETCH_SIZE, ERLAY_OUT_OF_MEMORY, ERLAY_NO_SET, ERLAY_BUFFER_TOO_SHORT. */
ERLAY_ANSWERS erlay_code erlay_decode(const uint8_t *sketch, size_t size, uint32_t *elements, size_t room, size_t *count);

#ifdef __cplusplus
}
#endif

#endif
