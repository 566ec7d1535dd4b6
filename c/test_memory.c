/* The calls of erlay.h where each call of malloc and realloc in turn gives no memory: ERLAY_OUT_OF_MEMORY is answered, and
 * the buffers stay. It is linked with -Wl,--wrap=malloc,--wrap=realloc,--wrap=free. */
#include "erlay.h"

#include <stdio.h>
#include <string.h>

void *__real_malloc(size_t size);
void *__real_realloc(void *block, size_t size);
void __real_free(void *block);

static long until_failure = -1; /* how many calls still give memory; below 0 all do */
static long held = 0;           /* blocks that were not given back */

static int fails(void) {
    return until_failure >= 0 && until_failure-- == 0;
}

void *__wrap_malloc(size_t size) {
    void *block = fails() ? NULL : __real_malloc(size);
    held += block != NULL;
    return block;
}

void *__wrap_realloc(void *block, size_t size) {
    void *moved = fails() ? NULL : __real_realloc(block, size);
    held += block == NULL && moved != NULL;
    return moved;
}

void __wrap_free(void *block) {
    held -= block != NULL;
    __real_free(block);
}

#define CAPACITY 40
#define COUNT 30

static uint32_t elements[COUNT], found[CAPACITY];
static uint8_t sketch[4 * CAPACITY], other[4 * CAPACITY];
static size_t count;

static erlay_code make(void) { return erlay_make(elements, COUNT, CAPACITY, sketch, sizeof sketch); }
static erlay_code toggle(void) { return erlay_toggle(sketch, sizeof sketch, 77); }
static erlay_code merge(void) { return erlay_merge(sketch, sizeof sketch, other, sizeof other); }
static erlay_code decode(void) { return erlay_decode(other, sizeof other, found, CAPACITY, &count); }

/* Fails the call's blocks of memory in turn, until one call needs no more than it is given. A call may do without a block
 * that it failed to get; it then leaves what it leaves where there is memory. */
static int runs_out(const char *name, erlay_code (*call)(void)) {
    uint8_t sketch_done[sizeof sketch];
    uint32_t found_done[CAPACITY];
    long refused = 0;
    for (long given = -1; given < 100000; given++) {
        memset(sketch, 0x11, sizeof sketch);
        memset(found, 0x22, sizeof found);
        count = 77;
        uint8_t sketch_before[sizeof sketch];
        uint32_t found_before[CAPACITY];
        memcpy(sketch_before, sketch, sizeof sketch);
        memcpy(found_before, found, sizeof found);
        until_failure = given;
        erlay_code code = call();
        int was_short = given >= 0 && until_failure < 0;
        until_failure = -1;
        if (given < 0) {
            memcpy(sketch_done, sketch, sizeof sketch);
            memcpy(found_done, found, sizeof found);
        }
        int is_refused = was_short && code == ERLAY_OUT_OF_MEMORY && count == 77 && memcmp(sketch, sketch_before, sizeof sketch) == 0
            && memcmp(found, found_before, sizeof found) == 0;
        int is_done = code == ERLAY_DONE && (count == 77 || count == COUNT) && memcmp(sketch, sketch_done, sizeof sketch) == 0
            && memcmp(found, found_done, sizeof found) == 0;
        if (held != 0 || !(is_refused || is_done)) {
            fprintf(stderr, "%s, block %ld: code %u, %ld blocks held\n", name, given, code, held);
            return 1;
        }
        refused += is_refused;
        if (given >= 0 && !was_short)
            return refused < 2; /* each call takes some */
    }
    return 1;
}

int main(void) {
    for (uint32_t i = 0; i < COUNT; i++)
        elements[i] = 1 + i * 2654435761u % 4000000007u;
    if (erlay_make(elements, COUNT, CAPACITY, other, sizeof other) != ERLAY_DONE)
        return 1;
    return runs_out("make", make) | runs_out("toggle", toggle) | runs_out("merge", merge) | runs_out("decode", decode);
}
