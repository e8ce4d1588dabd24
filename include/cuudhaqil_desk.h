/* The sale desk: the calls of target/staticlib/libdesk_exports.a (crates/desk_exports_c), beside those of cuudhaqil.h
 * and under the same terms. A ledger is its 1,924 numbers, as cuudhaqil_fresh and cuudhaqil_step of cuudhaqil.h give
 * them; others are not sound: 1. A currency above 65,535 is taken as 65,535, which no sheet has. */
#ifndef CUUDHAQIL_DESK_H
#define CUUDHAQIL_DESK_H

#include <stddef.h>
#include <stdint.h>

#ifdef __cplusplus
extern "C" {
#endif

/* A rate sheet is four numbers: object, currency, numerator, denominator. Its record has 41 bytes. */

/* Reads all the bytes as one rate sheet.
 * 0: read; the four numbers, and the elements beyond them stay.
 * 2: no rate sheet; numbers stays.
 * 3: numbers has fewer than 4 elements; this goes first, and it stays. */
uint64_t cuudhaqil_read_sheet(const uint8_t *record, size_t record_len, uint64_t *numbers, size_t numbers_len);

/* Writes a rate sheet's record at the start of out.
 * 41: as many bytes were written, and those beyond them stay.
 * 2: no reader takes such a sheet; out stays.
 * 0: out is too short; out stays.
 * 3: numbers has fewer than 4 elements; this goes first, and out stays. */
uint64_t cuudhaqil_write_sheet(const uint64_t *numbers, size_t numbers_len, uint8_t *out, size_t out_len);

/* A sale on any ledger: the sheet's bytes, and the time, currency, hold and fare that are asked.
 * 0: sale[0] is the code and sale[1] the charge. Code 0: charged, and ledger is the one after the look. Any other code:
 *    refused, with 2 for a malformed sheet or a fare above 1,000,000, else with the look's number, else with 30 for a
 *    sheet of another object or currency; the charge is 0, and the ledger's numbers stay as they are. Elements
 *    beyond these stay.
 * 3: ledger has fewer than 1,924 elements or sale fewer than 2; this goes first, and all stay. */
uint64_t cuudhaqil_sell(uint64_t *ledger, size_t ledger_len, uint64_t time, const uint8_t *sheet, size_t sheet_len,
                        uint64_t currency, uint64_t hold, uint64_t fare, uint64_t *sale, size_t sale_len);

/* Fills in the first count entries of a route card, in order, each by one look. The card has three numbers for each
 * entry, currency, code and object, and at most 64 entries; numbers behind its last whole entry stay.
 * 0: each of these entries has its look's code and object (0 if refused), its currency stays, and ledger is the one
 *    after the last look. Entries beyond the count stay.
 * 2: count is above the whole entries that the card has; all stay.
 * 3: ledger has fewer than 1,924 elements or card more than 64 whole entries; this goes first, and all stay. */
uint64_t cuudhaqil_fill_card(uint64_t *ledger, size_t ledger_len, uint64_t time, uint64_t hold, uint64_t count,
                             uint64_t *card, size_t card_len);

#ifdef __cplusplus
}
#endif

#endif
