/* Writes the names of two manifests and three objects, a line each, and says what that listing says; then with the last
 * byte cut off, and with two lines exchanged.
 *
 *     tools/archives exports listing_exports
 *     cc -O2 -Wall -Wextra -Werror -Iinclude examples/bucket.c -Ltarget/staticlib -lexports -llisting_exports -o bucket
 *     ./bucket                                               # prints examples/bucket.out */
#include <inttypes.h>
#include <stdio.h>
#include <string.h>

#include "cuudhaqil.h"
#include "cuudhaqil_listing.h"

enum { MANIFEST = 0, OBJECT = 1, OBJECT_LINE = 29 };

/* Puts a name and 0A behind the first `length` bytes and answers the new length. */
static size_t add(uint8_t *listing, size_t room, size_t length, uint64_t kind, uint64_t number) {
    uint64_t written = cuudhaqil_write_name(kind, number, listing + length, room - length - 1);
    listing[length + written] = '\n';
    return length + written + 1;
}

static void say(const char *what, const uint8_t *listing, size_t length) {
    uint64_t numbers[CUUDHAQIL_LISTING];
    uint64_t bad = cuudhaqil_read_listing(listing, length, numbers, CUUDHAQIL_LISTING);
    printf("%s: ", what);
    if (numbers[0])
        printf("manifest %" PRIu64, numbers[1]);
    else
        printf("no manifest");
    printf(", objects %" PRIu64 ", ", numbers[2]);
    if (bad)
        printf("line %" PRIu64 " is bad\n", numbers[3]);
    else
        printf("whole\n");
}

int main(void) {
    uint8_t listing[256];
    size_t length = 0;
    length = add(listing, sizeof listing, length, MANIFEST, 6);
    length = add(listing, sizeof listing, length, MANIFEST, 7);
    length = add(listing, sizeof listing, length, OBJECT, 2);
    length = add(listing, sizeof listing, length, OBJECT, 5);
    length = add(listing, sizeof listing, length, OBJECT, 11);
    fwrite(listing, 1, length, stdout);
    say("as written", listing, length);
    say("cut", listing, length - 1);
    uint8_t line[OBJECT_LINE];
    uint8_t *last = listing + length - OBJECT_LINE;
    memcpy(line, last, OBJECT_LINE);
    memcpy(last, last - OBJECT_LINE, OBJECT_LINE);
    memcpy(last - OBJECT_LINE, line, OBJECT_LINE);
    say("exchanged", listing, length);
    return 0;
}
