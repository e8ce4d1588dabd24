/* A sale, start to end: a rate sheet is put and committed, the desk sells by it, and a route card is filled in.
 *
 *     tools/archives exports desk_exports
 *     cc -O2 -Wall -Wextra -Werror -Iinclude examples/sale.c -Ltarget/staticlib -lexports -ldesk_exports -o sale
 *     ./sale                                                 # prints examples/sale.out */
#include <inttypes.h>
#include <stdio.h>
#include <stdlib.h>

#include "cuudhaqil.h"
#include "cuudhaqil_desk.h"

enum { SHEET = 4, SHEET_BYTES = 41, SALE = 2, ENTRY = 3 };

/* At time 0 the writer fences, at 10 it puts object 1 as a sheet of currency 978, at 11 it commits the list of it. */
static const uint8_t trace[] = {
    0x10, 0x00, 0x1A, 0x01, 0x00, 0x08, 0, 0, 0, 0, 0, 0, 0, 0,    0x02, 0x00, 0x01, 0x00, /* FENCE, time 0, writer */
    0x04, 0x00, 0x08, 0,    0,    0,    0, 0, 0, 0, 1,                                     /* slot 1 */
    0x11, 0x00, 0x2A, 0x01, 0x00, 0x08, 0, 0, 0, 0, 0, 0, 0, 0x0A, 0x02, 0x00, 0x01, 0x00, /* PUT, time 10, writer */
    0x03, 0x00, 0x08, 0,    0,    0,    0, 0, 0, 0, 1,                                     /* epoch 1 */
    0x05, 0x00, 0x08, 0,    0,    0,    0, 0, 0, 0, 1,    0x06, 0x00, 0x02, 0x03, 0xD2,    /* object 1, currency 978 */
    0x12, 0x00, 0x2C, 0x01, 0x00, 0x08, 0, 0, 0, 0, 0, 0, 0, 0x0B,                         /* COMMIT, time 11 */
    0x03, 0x00, 0x08, 0,    0,    0,    0, 0, 0, 0, 1,                                     /* epoch 1 */
    0x04, 0x00, 0x08, 0,    0,    0,    0, 0, 0, 0, 2,                                     /* slot 2 */
    0x07, 0x00, 0x08, 0,    0,    0,    0, 0, 0, 0, 1,                                     /* the list: object 1 */
};

/* A call that was lent what it asks for answers as expected, or the program is wrong. */
static void expect(uint64_t answer, uint64_t expected) {
    if (answer != expected)
        exit(EXIT_FAILURE);
}

static void print_bytes(const char *what, const uint8_t *bytes, size_t length) {
    printf("%s", what);
    for (size_t i = 0; i < length; i++)
        printf(" %02X", bytes[i]);
    printf("\n");
}

/* One record a line. */
static void print_records(const char *what, const uint8_t *bytes, size_t length) {
    for (size_t at = 0; at < length;) {
        uint64_t next = cuudhaqil_next_record(bytes + at, length - at);
        print_bytes(what, bytes + at, next);
        at += next;
    }
}

static void sell(uint64_t *ledger, uint64_t time, const uint8_t *sheet, uint64_t currency, uint64_t fare) {
    uint64_t sale[SALE];
    expect(cuudhaqil_sell(ledger, CUUDHAQIL_LEDGER, time, sheet, SHEET_BYTES, currency, 0, fare, sale, SALE), 0);
    printf("sale at %" PRIu64 ", currency %" PRIu64 ", fare %" PRIu64 ": ", time, currency, fare);
    if (sale[0] == 0)
        printf("charged %" PRIu64, sale[1]);
    else
        printf("refused with %" PRIu64, sale[0]);
    printf(", clock %" PRIu64 "\n", ledger[0]);
}

int main(void) {
    uint64_t ledger[CUUDHAQIL_LEDGER];
    uint8_t verdicts[64];
    uint64_t counts[2];
    expect(cuudhaqil_fresh(ledger, CUUDHAQIL_LEDGER), 0);
    expect(cuudhaqil_run_on(ledger, CUUDHAQIL_LEDGER, trace, sizeof trace, verdicts, sizeof verdicts, counts, 2), 0);
    print_records("step", trace, sizeof trace);
    print_records("verdict", verdicts, counts[1]);

    const uint64_t rate[SHEET] = {1, 978, 11, 10}; /* object, currency, numerator, denominator */
    uint8_t sheet[SHEET_BYTES];
    expect(cuudhaqil_write_sheet(rate, SHEET, sheet, SHEET_BYTES), SHEET_BYTES);
    print_bytes("sheet", sheet, SHEET_BYTES);

    sell(ledger, 12, sheet, 978, 250);
    sell(ledger, 13, sheet, 840, 250); /* no sheet of that currency is in force */
    sell(ledger, 11, sheet, 978, 250); /* the clock is at 12 */

    uint64_t card[] = {978, 99, 99, 840, 99, 99, 756, 99, 99}; /* the third entry is beyond the count */
    expect(cuudhaqil_fill_card(ledger, CUUDHAQIL_LEDGER, 14, 0, 2, card, sizeof card / sizeof card[0]), 0);
    for (size_t i = 0; i < sizeof card / sizeof card[0]; i += ENTRY)
        printf("card: currency %" PRIu64 ", code %" PRIu64 ", object %" PRIu64 "\n", card[i], card[i + 1], card[i + 2]);
    printf("clock %" PRIu64 "\n", ledger[0]);
    return 0;
}
