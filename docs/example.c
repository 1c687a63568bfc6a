/* Calls of the library from C: the verdict on history H1, w0[xA] w0[xB] w0[yC] c0 r1[yC] w1[xA] c1 r2[xB] w2[yC] c2, and two questions
 * about it. This builds and runs it, on any machine:
 *
 *     scripts/example.sh c
 *
 * In a build of your own, on x86-64, with the library that `rt lib` makes in crates/clib:
 *
 *     mkdir -p target
 *     gcc -Iinclude docs/example.c crates/clib/out/libclib.a -o target/example-c
 *
 * It prints, and scripts/check-examples.sh holds it to that:
 *
 *   > cycle 2
 *   > 1 1
 *   > 2 3
 *   > the edge from 2 to 1 has reason 3
 *   > record 7 reads what 0 wrote in record 1
 */
#include <inttypes.h>
#include <stdio.h>

#include "fruscalenta.h"

int main(void) {
    /* Records of 4 bytes: kind (1 read, 2 write, 3 commit), transaction, item, site. */
    const uint8_t h1[] = {2, 0, 0, 0, 2, 0, 0, 1, 2, 0, 1, 2, 3, 0, 0, 0, 1, 1, 1, 2,
                          2, 1, 0, 0, 3, 1, 0, 0, 1, 2, 0, 1, 2, 2, 1, 2, 3, 2, 0, 0};
    uint8_t answer[FRUSCALENTA_ROOM]; /* a shorter one is refused: number 3 */
    struct fruscalenta_judged judged = fruscalenta_verdict(h1, sizeof h1, answer, sizeof answer);

    if (judged.number != 0) {
        printf("refused %" PRIu64 " %" PRIu64 "\n", judged.number, judged.place);
        return 1;
    }
    printf("%s %" PRIu64 "\n", judged.cycle ? "cycle" : "serial", judged.length);
    for (uint64_t k = 0; k < judged.length; k++) {
        if (judged.cycle)
            printf("%d %d\n", answer[2 * k], answer[2 * k + 1]);
        else
            printf("%d\n", answer[2 * k]);
    }
    /* 2 read the x that 0 wrote, so it comes before 1, which wrote x later. */
    printf("the edge from 2 to 1 has reason %" PRIu64 "\n", fruscalenta_edge_between(h1, sizeof h1, 2, 1).value);
    /* That read is record 7, r2[xB], and the write is record 1, w0[xB]. */
    struct fruscalenta_source source = fruscalenta_source_of_record(h1, sizeof h1, 7);
    printf("record 7 reads what %" PRIu64 " wrote in record %" PRIu64 "\n", source.transaction, source.record);
    return 0;
}
