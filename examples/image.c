/* A ledger is saved as an image, a row a line, and loaded: after more steps, damaged, and with a ledger that is not sound.
 *
 *     tools/archives exports image_exports
 *     cc -O2 -Wall -Wextra -Werror -Iinclude examples/image.c -Ltarget/staticlib -lexports -limage_exports -o image
 *     ./image                                                # prints examples/image.out */
#include <inttypes.h>
#include <stdio.h>
#include <stdlib.h>

#include "cuudhaqil.h"
#include "cuudhaqil_image.h"

enum { HEAD = 3, EDITION = 6, CURRENCY = 50 };

/* At time 0 the writer fences, at 10 it puts object 1 as a sheet of currency 978, at 11 it commits the list of it. */
static const uint8_t week[] = {
    0x10, 0x00, 0x1A, 0x01, 0x00, 0x08, 0, 0, 0, 0, 0, 0, 0, 0,    0x02, 0x00, 0x01, 0x00, /* FENCE, time 0, writer */
    0x04, 0x00, 0x08, 0,    0,    0,    0, 0, 0, 0, 1,                                     /* slot 1 */
    0x11, 0x00, 0x2A, 0x01, 0x00, 0x08, 0, 0, 0, 0, 0, 0, 0, 0x0A, 0x02, 0x00, 0x01, 0x00, /* PUT, time 10, writer */
    0x03, 0x00, 0x08, 0,    0,    0,    0, 0, 0, 0, 1,                                     /* epoch 1 */
    0x05, 0x00, 0x08, 0,    0,    0,    0, 0, 0, 0, 1,    0x06, 0x00, 0x02, 0x03, 0xD2,    /* object 1, currency 978 */
    0x12, 0x00, 0x2C, 0x01, 0x00, 0x08, 0, 0, 0, 0, 0, 0, 0, 0x0B,                         /* COMMIT, time 11 */
    0x03, 0x00, 0x08, 0,    0,    0,    0, 0, 0, 0, 1,                                     /* epoch 1 */
    0x04, 0x00, 0x08, 0,    0,    0,    0, 0, 0, 0, 2,                                     /* slot 2 */
    0x07, 0x00, 0x08, 0,    0,    0,    0, 0, 0, 0, 1,                                     /* the list: object 1 */
};

/* The manifest that COMMIT made is held: hold 7, at time 12, for ever. */
static const uint8_t hold[] = {
    0x14, 0x00, 0x2C, 0x01, 0x00, 0x08, 0, 0, 0, 0, 0, 0, 0, 0x0C, 0x08, 0x00, 0x08, 0, 0, 0, 0, 0, 0, 0, 7,
    0x09, 0x00, 0x08, 0,    0,    0,    0, 0, 0, 0, 2,             0x0A, 0x00, 0x08, 0, 0, 0, 0, 0, 0, 0, 0,
};

/* A call that was lent what it asks for answers as expected, or the program is wrong. */
static void expect(uint64_t answer, uint64_t expected) {
    if (answer != expected)
        exit(EXIT_FAILURE);
}

static void run(uint64_t *ledger, const uint8_t *trace, size_t length) {
    uint8_t out[3 * CUUDHAQIL_LONGEST_VERDICT];
    uint64_t counts[2];
    expect(cuudhaqil_run_on(ledger, CUUDHAQIL_LEDGER, trace, length, out, sizeof out, counts, 2), 0);
}

static size_t save(const char *what, const uint64_t *ledger, uint8_t *image) {
    size_t length = cuudhaqil_write_image(ledger, CUUDHAQIL_LEDGER, image, CUUDHAQIL_LONGEST_IMAGE);
    printf("%s: %zu bytes\n ", what, length);
    for (size_t i = 0; i < HEAD; i++)
        printf(" %02X", image[i]);
    printf("\n");
    /* A row is a field, with its head of three bytes, as a record is. */
    for (size_t at = HEAD; at < length;) {
        size_t end = at + cuudhaqil_next_record(image + at, length - at);
        for (printf("   "); at < end; at++)
            printf(" %02X", image[at]);
        printf("\n");
    }
    return length;
}

static void load(const char *what, const uint8_t *image, size_t length, uint64_t *ledger) {
    uint64_t answer = cuudhaqil_read_image(image, length, ledger, CUUDHAQIL_LEDGER);
    uint64_t current[CUUDHAQIL_CURRENT];
    expect(cuudhaqil_current(ledger, CUUDHAQIL_LEDGER, current, CUUDHAQIL_CURRENT), 0);
    printf("%s: %" PRIu64 ", clock %" PRIu64 ", manifest %" PRIu64 "\n", what, answer, ledger[0], current[0]);
}

int main(void) {
    static uint64_t ledger[CUUDHAQIL_LEDGER];
    static uint8_t image[CUUDHAQIL_LONGEST_IMAGE], later[CUUDHAQIL_LONGEST_IMAGE];
    expect(cuudhaqil_fresh(ledger, CUUDHAQIL_LEDGER), 0);
    save("the fresh ledger", ledger, image);
    run(ledger, week, sizeof week);
    size_t length = save("after a FENCE, a PUT and a COMMIT", ledger, image);
    run(ledger, hold, sizeof hold);
    save("after a HOLD", ledger, later);

    load("the image before the HOLD", image, length, ledger);
    run(ledger, hold, sizeof hold);
    printf("the HOLD again: clock %" PRIu64 "\n", ledger[0]);
    load("a byte too little", image, length - 1, ledger);
    image[EDITION] = 2;
    load("edition 2", image, length, ledger);
    image[EDITION] = 1;
    image[CURRENCY] = 0x04;
    load("currency 1234", image, length, ledger);
    return EXIT_SUCCESS;
}
