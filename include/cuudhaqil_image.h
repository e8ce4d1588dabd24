/* Images, which save a ledger and load it: the calls of target/staticlib/libimage_exports.a (crates/image_exports_c), beside
 * those of cuudhaqil.h and under the same terms. A ledger is its 1,924 numbers, as cuudhaqil_fresh and cuudhaqil_step of
 * cuudhaqil.h give them. An image is bytes, the same on every machine: a sound ledger has exactly one, and it is kept for
 * as long as one likes. docs/FORMAT.md has its form. */
#ifndef CUUDHAQIL_IMAGE_H
#define CUUDHAQIL_IMAGE_H

#include <stddef.h>
#include <stdint.h>

#ifdef __cplusplus
extern "C" {
#endif

/* What holds any image, in bytes: 256 objects, nine manifests of 64 names, eight holds. */
enum {
    CUUDHAQIL_LONGEST_IMAGE = 11240
};

/* Writes the image of a ledger at the start of out.
 * The number of bytes written, 56 at least; those beyond them stay.
 * 3: ledger has fewer than 1,924 elements; this goes first, and out stays.
 * 1: the ledger is not sound, and so are numbers that no ledger can be; out stays.
 * 0: out is too short; out stays. */
uint64_t cuudhaqil_write_image(const uint64_t *ledger, size_t ledger_len, uint8_t *out, size_t out_len);

/* Reads all the bytes as one image.
 * 0: read; ledger is the one that was written, and elements beyond its 1,924 numbers stay.
 * 2: the bytes have not the form of an image. 1: they have, and their ledger is not sound. Either way ledger is the fresh
 *    one, and elements beyond stay.
 * 3: ledger has fewer than 1,924 elements; this goes first, and all stay. */
uint64_t cuudhaqil_read_image(const uint8_t *image, size_t image_len, uint64_t *ledger, size_t ledger_len);

#ifdef __cplusplus
}
#endif

#endif
