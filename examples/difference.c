/* What two sets differ in, found from the sketch that one side sends to the other.
 *
 *   c/build.sh build
 *   cc examples/difference.c -o difference $(PKG_CONFIG_PATH=build/lib/pkgconfig pkg-config --cflags --libs erlay)
 *   LD_LIBRARY_PATH=build/lib ./difference
 */
#include <erlay.h>
#include <stdio.h>

#define CAPACITY 4

int main(void) {
    const uint32_t ours[] = {1, 2, 3}, theirs[] = {2, 3, 0x89abcdef};
    uint8_t sketch[4 * CAPACITY], received[4 * CAPACITY];
    uint32_t differences[CAPACITY];
    size_t count;
    if (erlay_make(theirs, 3, CAPACITY, received, sizeof received) != ERLAY_DONE) /* at the peer, who sends 16 bytes */
        return 1;
    if (erlay_make(ours, 3, CAPACITY, sketch, sizeof sketch) != ERLAY_DONE ||
        erlay_merge(sketch, sizeof sketch, received, sizeof received) != ERLAY_DONE)
        return 1;
    erlay_code code = erlay_decode(sketch, sizeof sketch, differences, CAPACITY, &count);
    if (code == ERLAY_NO_SET)
        puts("no set: take a larger capacity");
    for (size_t i = 0; code == ERLAY_DONE && i < count; i++)
        printf("%08x\n", differences[i]);
    return code == ERLAY_DONE ? 0 : 1;
}
