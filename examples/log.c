/* A log of verdicts is checked against a trace: as our own run writes it, damaged, cut, with a verdict too many, with a trace
 * that is torn, and from an image behind the first step.
 *
 *     tools/archives exports image_exports log_exports
 *     cc -O2 -Wall -Wextra -Werror -Iinclude examples/log.c -Ltarget/staticlib -lexports -limage_exports -llog_exports -o log
 *     ./log                                                  # prints examples/log.out */
#include <inttypes.h>
#include <stdio.h>
#include <stdlib.h>
#include <string.h>

#include "cuudhaqil.h"
#include "cuudhaqil_image.h"
#include "cuudhaqil_log.h"

enum { FENCE = 29, FENCED = 18, REFUSED = 7, CODE = 6 };

/* At time 0 the writer fences, at 10 it puts object 1 as a sheet of currency 978, at 11 it commits the list of it. */
static const uint8_t trace[] = {
    0x10, 0x00, 0x1A, 0x01, 0x00, 0x08, 0, 0, 0, 0, 0, 0, 0, 0,    0x02, 0x00, 0x01, 0x00, /* FENCE, time 0, writer */
    0x04, 0x00, 0x08, 0,    0,    0,    0, 0, 0, 0, 1,                                     /* slot 1 */
    0x11, 0x00, 0x2A, 0x01, 0x00, 0x08, 0, 0, 0, 0, 0, 0, 0, 0x0A, 0x02, 0x00, 0x01, 0x00, /* PUT, time 10, writer */
    0x03, 0x00, 0x08, 0,    0,    0,    0, 0, 0, 0, 1,                                     /* epoch 1 */
    0x05, 0x00, 0x08, 0,    0,    0,    0, 0, 0, 0, 1,    0x06, 0x00, 0x02, 0x03, 0xD2,    /* object 1, currency 978 */
    0x12, 0x00, 0x2C, 0x01, 0x00, 0x08, 0, 0, 0, 0, 0, 0, 0, 0x0B,                         /* COMMIT, time 11 */
    0x03, 0x00, 0x08, 0,    0,    0,    0, 0, 0, 0, 1,                                     /* epoch 1 */
    0x04, 0x00, 0x08, 0,    0,    0,    0, 0, 0, 0, 2,                                     /* slot 2 */
    0x07, 0x00, 0x08, 0,    0,    0,    0, 0, 0, 0, 1,                                     /* the list: object 1 */
};

/* No image: of no bytes, at a pointer that is not null all the same. */
static const uint8_t none[1];

/* A call that was lent what it asks for answers as expected, or the program is wrong. */
static void expect(uint64_t answer, uint64_t expected) {
    if (answer != expected)
        exit(EXIT_FAILURE);
}

/* The log of a run over the first bytes of the trace, and its length; the ledger goes on from step to step. */
static size_t run(uint64_t *ledger, size_t length, uint8_t *log, size_t room) {
    uint64_t counts[2];
    expect(cuudhaqil_run_on(ledger, CUUDHAQIL_LEDGER, trace, length, log, room, counts, 2), 0);
    return counts[1];
}

static void check(const char *what, const uint8_t *image, size_t image_length, const uint8_t *steps, size_t length,
                  const uint8_t *log, size_t log_length) {
    uint64_t at[1];
    uint64_t answer = cuudhaqil_check_log(image, image_length, steps, length, log, log_length, at, 1);
    printf("%s: ", what);
    if (answer == 0)
        printf("agree\n");
    else if (answer == 4)
        printf("differs at %" PRIu64 "\n", at[0]);
    else
        printf("the image is refused with %" PRIu64 "\n", answer);
}

int main(void) {
    static uint64_t ledger[CUUDHAQIL_LEDGER], first[CUUDHAQIL_LEDGER];
    static uint8_t image[CUUDHAQIL_LONGEST_IMAGE];
    uint8_t log[3 * CUUDHAQIL_LONGEST_VERDICT];
    expect(cuudhaqil_fresh(ledger, CUUDHAQIL_LEDGER), 0);
    memcpy(first, ledger, sizeof first);
    size_t length = run(ledger, sizeof trace, log, sizeof log - REFUSED);
    for (size_t at = 0; at < length;) {
        size_t end = at + cuudhaqil_next_record(log + at, length - at);
        for (printf("   "); at < end; at++)
            printf(" %02X", log[at]);
        printf("\n");
    }
    check("the log of our own run", none, 0, trace, sizeof trace, log, length);
    check("without its last verdict", none, 0, trace, sizeof trace, log, length - REFUSED);
    check("without its last byte", none, 0, trace, sizeof trace, log, length - 1);
    memcpy(log + length, log + length - REFUSED, REFUSED);
    check("with a verdict too many", none, 0, trace, sizeof trace, log, length + REFUSED);
    check("with the trace torn", none, 0, trace, sizeof trace - 1, log, length);
    log[FENCED + CODE] = 9;
    check("with the PUT refused", none, 0, trace, sizeof trace, log, length);
    log[FENCED + CODE] = 0;

    run(first, FENCE, image, sizeof image);
    size_t saved = cuudhaqil_write_image(first, CUUDHAQIL_LEDGER, image, sizeof image);
    check("from the image behind the FENCE", image, saved, trace + FENCE, sizeof trace - FENCE, log + FENCED, length - FENCED);
    check("the same from fresh", none, 0, trace + FENCE, sizeof trace - FENCE, log + FENCED, length - FENCED);
    check("from that image without its last byte", image, saved - 1, trace + FENCE, sizeof trace - FENCE, log + FENCED,
          length - FENCED);
    return EXIT_SUCCESS;
}
