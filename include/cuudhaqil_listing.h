/* The call of target/staticlib/liblisting_exports.a (crates/listing_exports_c): what a listing of the store's bucket says. It
 * is proved to keep what its comment says, for every argument that keeps what include/cuudhaqil.h says of slices. */
#ifndef CUUDHAQIL_LISTING_H
#define CUUDHAQIL_LISTING_H

#include <stddef.h>
#include <stdint.h>

#ifdef __cplusplus
extern "C" {
#endif

/* What a caller lends, in elements. */
enum {
    CUUDHAQIL_LISTING = 4
};

/* Reads all the bytes as a listing: names with their folders, as cuudhaqil_read_name reads them, a line each, ended by byte
 * 0A. A line is bad if it is no name, lacks 0A, or is not above the line before it in byte order; the first line has none
 * before it. Bytes behind the last 0A are a line that lacks it; where there are none, there is no such line.
 * 0: no line is bad. 1: a line is. Either way, of the lines before the first bad one, or of all:
 *    numbers[0] is 1 where there is a manifest, else 0; [1] the highest manifest number, else 0; [2] the number of objects;
 *    and [3] the first bad line, counted from 0, else 0. Elements beyond these stay.
 * 3: numbers has fewer than 4 elements; this goes first, and all stay. */
uint64_t cuudhaqil_read_listing(const uint8_t *listing, size_t listing_len, uint64_t *numbers, size_t numbers_len);

#ifdef __cplusplus
}
#endif

#endif
