/* Another maker's log, checked against our own verdicts: the call of target/staticlib/liblog_exports.a
 * (crates/log_exports_c), beside those of cuudhaqil.h and under the same terms. A trace is step records one behind the other,
 * a log verdict records; a starting image is what cuudhaqil_write_image of cuudhaqil_image.h writes. docs/FORMAT.md has
 * their form. No room for a whole log is needed: one verdict at a time is made and compared. */
#ifndef CUUDHAQIL_LOG_H
#define CUUDHAQIL_LOG_H

#include <stddef.h>
#include <stdint.h>

#ifdef __cplusplus
extern "C" {
#endif

/* Says whether the log is the one that a run over the trace writes with room enough, from the ledger of the image or, where
 * it has no bytes, from the fresh one (the pointer is not null then either). Bytes are compared, and neither side need be
 * well formed.
 * 0: all agree: the trace ends whole, and the log is that run's, byte for byte; at stays.
 * 4: they differ. at[0] is the index, counted from 0, of the first record whose verdict differs, is missing or is one too
 *    many, or where the trace or the log is torn: a torn trace agrees with no log. Elements beyond stay.
 * 2: the image has bytes, and not the form of an image. 1: it has the form, and its ledger is not sound. Either way nothing
 *    is compared, and at stays. An image file that was cut to nothing is no refused one: look at its length.
 * 3: at has no element; this goes first. */
uint64_t cuudhaqil_check_log(const uint8_t *image, size_t image_len, const uint8_t *trace, size_t trace_len,
                             const uint8_t *log, size_t log_len, uint64_t *at, size_t at_len);

#ifdef __cplusplus
}
#endif

#endif
